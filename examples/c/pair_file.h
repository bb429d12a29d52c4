/*
 * What sort_blocks, months and binder_pages have in common: the bytes of a pair file, its two recordings, what they say of a file that cannot be
 * read or that the library refuses, and how they end. The calls of the library stand in the programs.
 */
#ifndef PAIR_FILE_H
#define PAIR_FILE_H

#include <errno.h>
#include <inttypes.h>
#include <stdio.h>
#include <string.h>
#include "mealbis.h"

static uint8_t file[MEALBIS_FILE_BYTES(MEALBIS_MOST_FILE_SAMPLES) + 1]; /* a byte more, so that a longer file is refused */
static int32_t recordings[2][MEALBIS_MOST_FILE_SAMPLES];                 /* a and b */

/* Whether the file at this path, or as much of it as `file` takes, has been read. Says why not; the program ends with status 2 then. */
static int get_file(const char *program, const char *path, size_t *bytes)
{
    FILE *input = fopen(path, "rb");
    *bytes = input == NULL ? 0 : fread(file, 1, sizeof file, input);
    int good = input != NULL && !ferror(input);
    if (!good)
        fprintf(stderr, "%s: %s: %s\n", program, path, strerror(errno));
    if (input != NULL)
        fclose(input);
    return good;
}

/* Says why the library has refused, and for which file. The status to end with. */
static int refuse(uint32_t number, const char *path, mealbis_size place)
{
    fprintf(stderr, "refused %" PRIu32 ": %s: %s", number, path, mealbis_reason(number));
    if (number == MEALBIS_OUT_OF_RANGE)
        fprintf(stderr, ", place %" PRIu64, place);
    fprintf(stderr, "\n");
    return 1;
}

/* The status to end with where all is printed: 0, or 2 where the output could not be written. */
static int end_output(void)
{
    return fflush(stdout) == 0 && !ferror(stdout) ? 0 : 2;
}

#endif
