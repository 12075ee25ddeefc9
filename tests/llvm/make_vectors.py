#!/usr/bin/env python3
"""Makes crates/vectors/stdin again: words, and what LLVM's disassembler says that each is.

    tests/llvm/make_vectors.py [LLVM-MC]
    tests/llvm/make_vectors.py --assemble [LLVM-MC]

The second writes no file: it has LLVM assemble the texts of the stored file's words of the five families, with
vgx and without, and says how many give another word, or none. Either wants an LLVM that knows SME2, from 16 on.

LLVM-MC is the path of llvm-mc; without it PATH is searched for llvm-mc-22 .. llvm-mc-16, and then
/usr/lib/llvm-*/bin. The committed file was made by LLVM 22. The words are chosen by a generator with a
fixed seed, so that the same LLVM gives the same file.

The words are built from document 01's rows, but the answers are not: each field is read out of LLVM's text
alone (mnemonic, arrangement, register number, index, range), never out of the word's bits.

A line, with fixed columns:

    2F726820 01 01 01 16 00 07 00 01 02 01 00 00 yn... umlsl v0.4s, v1.4h, v2.h[7]

- The word in hexadecimal. LLVM is asked by --disassemble -triple=aarch64 -mattr=+all.
- Twelve numbers: family (A 1, B 2, C 3, D 4, E 5, none of the five 0), unsigned, subtract, lane, part, index,
  destination, first, second, group, select, offset. A field that the family lacks is 0, the group then 1.
  All twelve are 0 where the word is none of the five.
- Five letters, one for each feature set 1, 2, 4, 12, 28 of document 01: y where LLVM takes the word as one of
  the five with that set on, n where it does not, and '.' where LLVM cannot be asked.
- LLVM's text with single spaces, or '-' where it knows no instruction. That of a word of the five is in our
  spelling, which is LLVM's but for the lists of D and E: LLVM writes { z0.b, z1.b } and { z0.b - z3.b }, and
  the file has { z0.b-z1.b } and { z0.b-z3.b }. Nothing else is respelled, and nothing of it comes from the bits.

Where LLVM cannot be asked: it has no way to turn SME on and AdvSIMD off. Its feature sme implies bf16, which
implies neon, so that '-neon,+sme' turns neon on again and '+sme,-neon' turns sme off again. The script finds
this out by a plain instruction of each feature (PROBES), none of them of the five families: where LLVM takes
the plain instruction of a feature that the set lacks, the set came with that feature, and a word that LLVM
takes with that feature alone gets '.' there. With LLVM 22 these are the words of A and B in the sets 4, 12
and 28. Neither sme nor sme2 turns sve2 on, so the words of C are asked in every set.
"""
import glob
import os
import re
import shutil
import subprocess
import sys

ROOT = os.path.dirname(os.path.dirname(os.path.dirname(os.path.abspath(__file__))))
OUT = os.path.join(ROOT, "crates", "vectors", "stdin")

# ---- The words to ask for ----

# Document 01's rows, bit 31 first. A's two lanes are told apart by ss, which stays a field here.
ROWS = {
    "A": "0 Q U 01111 ss L M mmmm 0 S 1 0 H 0 nnnnn ddddd",
    "B": "0 Q U 01110 ss 1 mmmmm 1 0 S 0 0 0 nnnnn ddddd",
    "C16": "01000100 10 1 ii mmm 001 S i T nnnnn ddddd",
    "C32": "01000100 11 1 i mmmm 001 S i T nnnnn ddddd",
    "D2": "110000011 z 1 mmmm 0 0 vv 000 nnnn 0 U S 0 0 o",
    "D4": "110000011 z 1 mmm 0 1 0 vv 000 nnn 0 0 U S 0 0 o",
    "E2": "110000011 1 1 mmmm 0 0 vv 010 nnnn 0 U S 0 oo",
    "E4": "110000011 1 1 mmm 0 1 0 vv 010 nnn 0 0 U S 0 oo",
}
ROWS = {name: row.replace(" ", "") for name, row in ROWS.items()}
# Document 01's words of the bench.
NAMED = [0x2F726820, 0x2F026020, 0x2FC26020, 0x0EE28020, 0x44BA3820, 0xC1E20008,
         0xC1A20008, 0xC1E20800, 0x0E228020, 0x0E22A020, 0x2E228020, 0xC1A20000]
CORNERS = [0, 1, 7, 8, 15, 16, 30, 31]
BASES = 5  # words of each row whose fixed bits are flipped one by one
PAIRS = 70  # two-bit near misses of each row
PLAIN = 45  # random words of each row
TOPS = [0x0E, 0x0F, 0x2E, 0x2F, 0x4E, 0x4F, 0x6E, 0x6F, 0x44, 0xC1]  # the rows' top bytes


class Dice:
    """A small generator of its own (splitmix64), so that no version of Python changes the words."""

    def __init__(self, seed):
        self.state = seed

    def below(self, n):
        self.state = (self.state + 0x9E3779B97F4A7C15) % 2**64
        x = self.state
        x = (x ^ x >> 30) * 0xBF58476D1CE4E5B9 % 2**64
        x = (x ^ x >> 27) * 0x94D049BB133111EB % 2**64
        return (x ^ x >> 31) % n


def width(row, letter):
    return ROWS[row].count(letter)


def fixed_bits(row):
    return [31 - at for at, sign in enumerate(ROWS[row]) if sign in "01"]


def build(row, fields):
    """The word of the row with these fields, the bits of each from the high to the low."""
    left = {letter: width(row, letter) for letter in fields}
    word = 0
    for sign in ROWS[row]:
        if sign not in "01":
            left[sign] -= 1
            sign = fields[sign] >> left[sign] & 1
        word = word * 2 + int(sign)
    return word


def random_fields(row, dice):
    letters = [letter for letter in dict.fromkeys(ROWS[row]) if letter not in "01"]
    fields = {letter: dice.below(2 ** width(row, letter)) for letter in letters}
    if row == "A":
        fields["s"] = 1 + dice.below(2)
    if row == "B":
        fields["s"] = dice.below(3)
    return fields


def small_fields(row):
    """Every choice of all the fields that are no registers: sizes, reserved ones too, U, S, part, index, .."""
    letters = [letter for letter in dict.fromkeys(ROWS[row]) if letter not in "01mnd"]
    choices = [{}]
    for letter in letters:
        choices = [{**c, letter: v} for c in choices for v in range(2 ** width(row, letter))]
    return choices


def words_by_fields(row, dice):
    for small in small_fields(row):
        yield build(row, {**random_fields(row, dice), **small})


def sizes(row):
    """The sizes that a row's register numbers are tried at: A and B have several, the others one."""
    return {"A": [1, 2], "B": [0, 1, 2]}.get(row, [None])


def words_by_registers(row, dice):
    """Each register number in each place, and each corner number in two or three places at once."""
    places = [letter for letter in "dnm" if letter in ROWS[row]]
    together = [places] + [pair for pair in (["d", "n"], ["d", "m"], ["n", "m"]) if set(pair) < set(places)]
    for size in sizes(row):
        def word(registers):
            fields = {**random_fields(row, dice), **registers}
            return build(row, fields if size is None else {**fields, "s": size})
        for place in places:
            for number in range(2 ** width(row, place)):
                yield word({place: number})
        for group in together:
            for number in CORNERS:
                if all(number < 2 ** width(row, place) for place in group):
                    yield word({place: number for place in group})


def near_misses(row, dice):
    for size in sizes(row):
        for _ in range(BASES):
            fields = random_fields(row, dice)
            if size is not None:
                fields["s"] = size
            base = build(row, fields)
            yield base
            for bit in fixed_bits(row):
                yield base ^ 1 << bit
    fixed = fixed_bits(row)
    for _ in range(PAIRS):
        first = fixed[dice.below(len(fixed))]
        second = (first + 1 + dice.below(31)) % 32
        yield build(row, random_fields(row, dice)) ^ 1 << first ^ 1 << second


def choose_words():
    dice = Dice(20240601)
    words = list(NAMED)
    for row in ROWS:
        words += words_by_fields(row, dice)
        words += words_by_registers(row, dice)
        words += near_misses(row, dice)
        words += [build(row, random_fields(row, dice)) for _ in range(PLAIN)]
    for top in TOPS:
        words += [top << 24 | dice.below(2**24) for _ in range(20)]
    words += [dice.below(2**32) for _ in range(100)]
    return sorted(set(words))


# ---- Asking LLVM ----

# The feature sets by document 01's numbers, with nothing else on as far as LLVM permits.
OFF = "-neon,-fp-armv8,"
SETS = {1: "+neon", 2: OFF + "+sve2", 4: OFF + "+sme", 12: OFF + "+sme2", 28: OFF + "+sme2,+sme-i16i64"}
# A plain instruction of each feature, and its start in LLVM's text.
PROBES = {
    1: (0x4EA28420, "add v0.4s"),
    2: (0x45A2C020, "histcnt z0.s"),  # not permitted by SME alone
    4: (0x04BF5820, "rdsvl x0"),
    8: (0xC0480001, "zero { zt0 }"),
    16: (0xC0D00000, "addha za0.d"),
}


def find_llvm_mc():
    names = ["llvm-mc-%d" % version for version in range(22, 15, -1)]
    found = [path for path in map(shutil.which, names) if path]
    found += sorted(glob.glob("/usr/lib/llvm-*/bin/llvm-mc"), reverse=True)
    if not found:
        sys.exit("no llvm-mc found: give its path")
    return found[0]


def disassemble(llvm_mc, features, words):
    """LLVM's text for each word, or None. A word stands on a line of its own, which a warning names by number."""
    lines = [" ".join("0x%02x" % byte for byte in word.to_bytes(4, "little")) for word in words]
    ran = subprocess.run([llvm_mc, "--disassemble", "-triple=aarch64", "-mattr=" + features],
                         input="\n".join(lines) + "\n", capture_output=True, text=True)
    unknown = set()
    for line in ran.stderr.splitlines():
        warning = re.fullmatch(r"<stdin>:(\d+):\d+: (.*)", line)
        if warning and warning[2] == "warning: invalid instruction encoding":
            unknown.add(int(warning[1]) - 1)
        elif warning and warning[2] != "warning: potentially undefined instruction encoding":
            sys.exit("LLVM says: " + line)  # a word with that other warning still has its text
    texts = [" ".join(line.split()) for line in ran.stdout.splitlines() if line.strip() not in ("", ".text")]
    if len(texts) + len(unknown) != len(words):
        sys.exit("LLVM gave %d lines and %d warnings for %d words" % (len(texts), len(unknown), len(words)))
    answers = iter(texts)
    return [None if at in unknown else next(answers) for at in range(len(words))]


# ---- Reading LLVM's text ----

NONE = (0,) * 12
LONG = r"(?P<sign>[su])ml(?P<op>[as])l"
BY_ELEMENT = re.compile(LONG + r"(?P<high>2?) v(?P<d>\d+)\.(?P<wide>\w+), v(?P<n>\d+)\.(?P<narrow>\w+),"
                        r" v(?P<m>\d+)\.(?P<lane>\w)\[(?P<index>\d+)\]")
VECTOR = re.compile(LONG + r"(?P<high>2?) v(?P<d>\d+)\.(?P<wide>\w+), v(?P<n>\d+)\.(?P<narrow>\w+),"
                    r" v(?P<m>\d+)\.(?P<narrow2>\w+)")
SATURATING = re.compile(r"sqdml(?P<op>[as])l(?P<half>[bt]) z(?P<d>\d+)\.(?P<wide>\w), z(?P<n>\d+)\.(?P<narrow>\w),"
                        r" z(?P<m>\d+)\.(?P<lane>\w)\[(?P<index>\d+)\]")
MULTI = re.compile(LONG + r"(?P<more>l?) za\.(?P<wide>[sd])\[w(?P<select>\d+), (?P<low>\d+):(?P<top>\d+),"
                   r" vgx(?P<group>[24])\], \{ (?P<n>[^{}]*) \}, \{ (?P<m>[^{}]*) \}")
TWO = re.compile(r"z(\d+)\.(\w), z(\d+)\.(\w)")
FOUR = re.compile(r"z(\d+)\.(\w) - z(\d+)\.(\w)")
WIDTHS = {"b": 8, "h": 16, "s": 32, "d": 64}
# The arrangements of A and B, by the suffix: wide, narrow. A has no row for bytes.
ARRANGEMENTS = {
    "": {("8h", "8b"): 8, ("4s", "4h"): 16, ("2d", "2s"): 32},
    "2": {("8h", "16b"): 8, ("4s", "8h"): 16, ("2d", "4s"): 32},
}


def understood(fact, text):
    """A text of one of the five forms that does not hang together is no answer: better none than a wrong one."""
    if not fact:
        sys.exit("LLVM's text is not understood: " + text)


def signs(m):
    return int(m["sign"] == "u"), int(m["op"] == "s")


def registers(m):
    return int(m["d"]), int(m["n"]), int(m["m"])


def lane_of(m):
    """The lane that the suffix and the arrangements of A and B name together."""
    lane = ARRANGEMENTS[m["high"]].get((m["wide"], m["narrow"]))
    understood(lane, m[0])
    return lane


def read_by_element(m):
    lane = lane_of(m)
    understood(lane == WIDTHS.get(m["lane"]) and lane > 8, m[0])
    return (1, *signs(m), lane, int(m["high"] == "2"), int(m["index"]), *registers(m), 1, 0, 0)


def read_vector(m):
    understood(m["narrow"] == m["narrow2"], m[0])
    return (2, *signs(m), lane_of(m), int(m["high"] == "2"), 0, *registers(m), 1, 0, 0)


def read_saturating(m):
    lane = WIDTHS.get(m["narrow"])
    understood(lane == WIDTHS.get(m["lane"]) and lane * 2 == WIDTHS.get(m["wide"]), m[0])
    return (3, 0, int(m["op"] == "s"), lane, int(m["half"] == "t"), int(m["index"]), *registers(m), 1, 0, 0)


def first_of(group, text):
    """The first register and the lane of a list of consecutive vectors, as many as the group has."""
    m = (TWO if group == 2 else FOUR).fullmatch(text)
    understood(m and m[2] == m[4] and int(m[3]) == int(m[1]) + group - 1, text)
    return int(m[1]), WIDTHS[m[2]]


def read_multi(m):
    """D and E: the wide element holds as many lanes as the range has vectors, four in D and two in E."""
    group = int(m["group"])
    (first, lane), (second, lane2) = first_of(group, m["n"]), first_of(group, m["m"])
    family, k = (4, 4) if m["more"] else (5, 2)
    understood(lane == lane2 and lane * k == WIDTHS[m["wide"]], m[0])
    understood(int(m["top"]) - int(m["low"]) == k - 1, m[0])
    return (family, *signs(m), lane, 0, 0, 0, first, second, group, int(m["select"]), int(m["low"]))


FORMS = [(BY_ELEMENT, read_by_element), (VECTOR, read_vector), (SATURATING, read_saturating), (MULTI, read_multi)]


def read(text):
    """Document 01's fields of LLVM's whole text, or NONE where it is none of the five families."""
    for form, fields in FORMS:
        m = form.fullmatch(text)
        if m:
            return fields(m)
    return NONE


# ---- Our spelling ----

LIST = re.compile(r"\{ (z\d+\.\w)(?:, | - )(z\d+\.\w) \}")
VGX = re.compile(r", vgx[24]\]")


def respell(text):
    """LLVM's text of a word of the five in our spelling: the first and the last vector of a list, and '-' between."""
    return LIST.sub(r"{ \1-\2 }", text)


def without_vgx(text):
    return VGX.sub("]", text)


# ---- The feature sets ----

def dragged_in(llvm_mc, number):
    """The features that LLVM turns on with the set though the set lacks them."""
    extra = []
    for feature, (word, start) in PROBES.items():
        text = disassemble(llvm_mc, SETS[number], [word])[0]
        if text and not text.startswith(start):
            sys.exit("LLVM reads the plain instruction %08X as %s" % (word, text))
        if not text and number & feature:
            sys.exit("LLVM does not take %s with the features %d" % (start, number))
        if text and not number & feature:
            if feature not in SETS:
                sys.exit("the features %d come with %d, which LLVM cannot be asked for alone" % (number, feature))
            extra.append(feature)
    return extra


def letters_by_set(llvm_mc, words):
    taken = {number: [bool(text) and read(text) != NONE for text in disassemble(llvm_mc, SETS[number], words)]
             for number in SETS}
    extra = {number: dragged_in(llvm_mc, number) for number in SETS}
    for number in SETS:
        print("features", number, "-mattr=" + SETS[number], "come with", extra[number] or "nothing else")

    def letter(number, at):
        if any(taken[feature][at] for feature in extra[number]):
            return "."
        return "y" if taken[number][at] else "n"
    return ["".join(letter(number, at) for number in SETS) for at in range(len(words))]


def make(llvm_mc):
    words = choose_words()
    texts = disassemble(llvm_mc, "+all", words)
    letters = letters_by_set(llvm_mc, words)
    counts = [0] * 6
    with open(OUT, "w", encoding="ascii", newline="\n") as out:
        for word, text, column in zip(words, texts, letters):
            fields = read(text) if text else NONE
            counts[fields[0]] += 1
            numbers = " ".join("%02d" % field for field in fields)
            ours = respell(text) if fields[0] else text or "-"
            out.write("%08X %s %s %s\n" % (word, numbers, column, ours))
    print(len(words), "words:", ", ".join("%s %d" % pair for pair in zip(["none", *"ABCDE"], counts)))


# ---- The way back ----

def assemble(llvm_mc, texts):
    """The word that LLVM makes of each text, or None where it refuses it. An error names the text's line by number."""
    ran = subprocess.run([llvm_mc, "-triple=aarch64", "-mattr=+all", "-show-encoding"],
                         input="\n".join(texts) + "\n", capture_output=True, text=True)
    refused = {int(number) - 1 for number in re.findall(r"^<stdin>:(\d+):\d+: error: ", ran.stderr, re.M)}
    encodings = re.findall(r"encoding: \[(.*)\]", ran.stdout)
    if len(encodings) + len(refused) != len(texts):
        sys.exit("LLVM gave %d words and %d errors for %d texts" % (len(encodings), len(refused), len(texts)))
    words = (int.from_bytes([int(byte, 16) for byte in e.split(",")], "little") for e in encodings)
    return [None if at in refused else next(words) for at in range(len(texts))]


def assemble_stored(llvm_mc):
    with open(OUT, encoding="ascii") as stored:
        lines = [line.rstrip("\n") for line in stored]
    due = [(int(line[:8], 16), line[51:]) for line in lines if line[9:11] != "00"]
    due += [(word, without_vgx(text)) for word, text in due if VGX.search(text)]
    wrong = 0
    for (word, text), found in zip(due, assemble(llvm_mc, [text for _, text in due])):
        if found != word:
            wrong += 1
            print("%08X" % word, text, "gives", "nothing" if found is None else "%08X" % found)
    print(len(due), "texts assembled,", wrong, "of them to another word or to none")
    sys.exit(wrong > 0)


def main():
    back = "--assemble" in sys.argv[1:2]
    paths = sys.argv[2 if back else 1:]
    llvm_mc = paths[0] if paths else find_llvm_mc()
    assemble_stored(llvm_mc) if back else make(llvm_mc)


main()
