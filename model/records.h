/* A tape of calls for a machine, as records of sixteen bytes. */

#ifndef RECORDS_H
#define RECORDS_H

#include <stddef.h>
#include <stdio.h>

#define RECORD_BYTES 16
#define RECORDS_MAX 4096
#define TAPE_MAX (RECORDS_MAX * RECORD_BYTES)

struct tape {
    const unsigned char *bytes;
    size_t length;
};

/* Runs the tape on a new machine and prints one answer for each call, or one
   line for a tape that is turned down. */
void tape_answer(struct tape tape, FILE *out);

#endif
