#include "callinglamp.h"
#include <stdio.h>
#include <string.h>

int main(void)
{
    const uint32_t settings[CALLINGLAMP_SETTINGS] = {128, CALLINGLAMP_FEATURE_SME + CALLINGLAMP_FEATURE_SME2,
                                                     CALLINGLAMP_MODE_SM + CALLINGLAMP_MODE_ZA, 0, 0, 0, 0};
    const uint32_t words[3] = {0xC1A20008, 0x0E228020, 0xC1A20000};
    uint32_t fields[CALLINGLAMP_FIELDS], counts[CALLINGLAMP_COUNTS];
    uint8_t z[512], za[256] = {0};
    char text[CALLINGLAMP_MOST_TEXT];
    if (callinglamp_version() != CALLINGLAMP_VERSION) {
        fputs("callinglamp.h and the library are of two versions\n", stderr);
        return 1;
    }
    memset(z, 1, sizeof z);
    for (int i = 0; i < 3; i++) {
        uint64_t answer = callinglamp_execute(settings, words[i], z, sizeof z, za, sizeof za, counts);
        if (!callinglamp_ok(answer)) {
            uint32_t number = callinglamp_refusal(answer);
            printf("%08X refused %u: %s\n", words[i], number, callinglamp_refusal_text(number));
            continue;
        }
        callinglamp_decode(settings, words[i], fields);
        printf("%08X %s, lane %u: %u rises and %u falls of %u bits, %u percent\n", words[i],
               fields[CALLINGLAMP_FIELD_SUBTRACT] == 1 ? "subtract" : "add", fields[CALLINGLAMP_FIELD_LANE],
               counts[0], counts[1], counts[2], (unsigned)callinglamp_percent(counts[0] + counts[1], counts[2]));
    }
    uint64_t answer = callinglamp_partner(settings, words[0]);
    printf("%08X is the partner of %08X\n", callinglamp_value(answer), words[0]);
    uint32_t length = callinglamp_value(callinglamp_print(settings, words[0], text, sizeof text));
    answer = callinglamp_read(settings, text, length);
    printf("%08X is the word of %.*s\n", callinglamp_value(answer), (int)length, text);
    return 0;
}
