/* Takes boots, tells them, and waits or ends: boots [--must-exist] FILE [once]. Not proved. */
#include "files.h"
#include <stdio.h>
#include <string.h>
#include <unistd.h>

int main(int argc, char **argv) {
    uint32_t boots;
    bool must_exist = argc > 1 && !strcmp(argv[1], "--must-exist");
    char **word = argv + 1 + must_exist;
    if (!word[0] || boots_next(word[0], must_exist, &boots) || boots_keep(word[0], boots)) return 1;
    printf("%u\n", boots);
    fflush(stdout);
    if (!word[1]) pause();
    return 0;
}
