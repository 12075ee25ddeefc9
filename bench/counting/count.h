/* The file, in the folder where the emulator was started, at whose start the number of instructions stands. */
#ifndef COUNT_H
#define COUNT_H

#define COUNT_FILE "count"
enum { COUNT_BYTES = 65536 }; /* whole pages, on a machine with large ones too */

#endif
