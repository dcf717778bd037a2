/* Reads a tape of calls for a machine from standard input and prints one
   answer for each call. */

#include "records.h"

#include <stdio.h>

int main(void)
{
    /* One byte more than allowed tells a tape that is too long. */
    static unsigned char bytes[TAPE_MAX + 1];
    size_t length = fread(bytes, 1, sizeof bytes, stdin);

    if (ferror(stdin)) {
        fputs("tape: cannot read the tape\n", stderr);
        return 1;
    }
    tape_answer((struct tape){bytes, length}, stdout);
    if (fflush(stdout) != 0 || ferror(stdout)) {
        fputs("tape: cannot print the answers\n", stderr);
        return 1;
    }
    return 0;
}
