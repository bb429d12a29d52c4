/*
 * Writes a pair file in C: the strain at the two abutments of a road bridge as a car crosses it, 16 samples of each in blocks of 8.
 *     write_crossing [FILE]        standard output where there is no FILE
 * Exit status: 0 the file is written; 1 the library refuses the recordings; 2 the file could not be written, or the arguments are wrong.
 * examples/build compiles it; examples/write_crossing.txt is what ./pairspec prints of its file. include/mealbis.h says what the call does.
 */
#include <inttypes.h>
#include <stdio.h>
#include "mealbis.h"

#define SAMPLES 16
#define BLOCK 8

/* In hundredths of a microstrain, 8 samples a second: the car rolls onto the bridge at the near abutment, off it at the far one, and the deck rings on. */
static const int32_t near_abutment[SAMPLES] = {0, 12, 240, 1310, 2650, 1920, 780, 150, -60, 40, -25, 15, -8, 5, -3, 1};
static const int32_t far_abutment[SAMPLES] = {0, -4, 10, 95, 520, 1480, 2480, 1730, 610, 70, -45, 30, -18, 10, -6, 3};
static uint8_t file[MEALBIS_FILE_BYTES(SAMPLES)];

/* Whether all bytes have reached the file at this path, or standard output where there is none. */
static int put(const char *path, const uint8_t *from, size_t bytes)
{
    FILE *output = path == NULL ? stdout : fopen(path, "wb");
    if (output == NULL)
        return 0;
    size_t written = fwrite(from, 1, bytes, output);
    return fclose(output) == 0 && written == bytes;
}

int main(int argc, char **argv)
{
    mealbis_write_answer made;
    if (argc > 2) {
        fprintf(stderr, "usage: write_crossing [FILE]\n");
        return 2;
    }
    uint32_t number = mealbis_write(near_abutment, MEALBIS_WORDS(near_abutment), far_abutment, MEALBIS_WORDS(far_abutment), BLOCK,
                                    file, sizeof file, &made);
    if (number != MEALBIS_ACCEPTED) {
        fprintf(stderr, "refused %" PRIu32 ": %s, place %" PRIu64 "\n", number, mealbis_reason(number), made.place);
        return 1;
    }
    if (!put(argc == 2 ? argv[1] : NULL, file, (size_t)made.bytes)) {
        perror("write_crossing");
        return 2;
    }
    return 0;
}
