/* Makes a program stop once its main has ended, for a look at its memory (look_gate.py): LD_PRELOAD. Not proved. */
#include <unistd.h>

__attribute__((destructor)) static void ended(void) {
    char line[8];
    if (write(1, "closed\n", 7) != 7 || read(0, line, sizeof line) <= 0) _exit(1);
}
