/*
 * Both abutments' months in C, for two owners: adds all blocks of pair files to a month of a and to a month of b, each file for a party, and prints
 * the sums of both parties.
 *     months PARTY FILE [PARTY FILE ..]        party 1 is the road owner, 2 the rail owner
 * It prints the length of the months and, for each party, its number of blocks, a heading, and a line for each k. The months are begun for the first
 * file's block length; the library refuses (13) the first block of another length, and (15) a block of any other party. A file without a block adds
 * nothing, whatever its party.
 * Exit status: 0 the sums are printed; 1 the library refuses a file or a block; 2 a file could not be read, the output not be written, or the
 * arguments are wrong.
 * examples/build compiles it; examples/months.txt is what it prints for examples/train_crossing.pair, added by party 1, by party 2 and by party 1
 * again. include/mealbis.h says what the calls do.
 */
#include <errno.h>
#include <inttypes.h>
#include <stdio.h>
#include <stdlib.h>
#include "mealbis.h"
#include "pair_file.h" /* file, recordings, get_file, refuse, end_output */

static mealbis_month months[2]; /* of a and b */

/* Whether the word is a number, of digits alone; the library says whether it is a party. */
static int is_party(const char *word, mealbis_size *party)
{
    char *end;
    errno = 0;
    *party = strtoull(word, &end, 10);
    return '0' <= word[0] && word[0] <= '9' && *end == '\0' && errno == 0;
}

/* Adds all blocks of a recording to a month, for a party. The number of the first call that is refused, else 0. */
static uint32_t add_blocks(mealbis_month *month, mealbis_size party, const int32_t *recording, mealbis_size samples, mealbis_size length)
{
    static int32_t cosine[MEALBIS_SPECTRUM_WORDS(MEALBIS_LONGEST_BLOCK)], sine[MEALBIS_SPECTRUM_WORDS(MEALBIS_LONGEST_BLOCK)];
    static int64_t scratch[MEALBIS_SCRATCH_WORDS(MEALBIS_LONGEST_BLOCK)];
    mealbis_answer spent;
    for (mealbis_size block = 0; block < samples / length; block++) {
        uint32_t number = mealbis_month_add(month, party, recording, samples, block * length, length, UINT64_MAX,
                                            cosine, MEALBIS_WORDS(cosine), sine, MEALBIS_WORDS(sine), scratch, MEALBIS_WORDS(scratch), &spent);
        if (number != MEALBIS_ACCEPTED)
            return number;
    }
    return MEALBIS_ACCEPTED;
}

/* Adds the file's blocks to both months, which are begun before the first file's. The number of the first call that is refused, else 0. */
static uint32_t add_file(mealbis_size party, size_t bytes, int first, mealbis_size *place)
{
    mealbis_read_answer got;
    uint32_t number = mealbis_read(file, bytes, recordings[0], MEALBIS_WORDS(recordings[0]), recordings[1], MEALBIS_WORDS(recordings[1]), &got);
    *place = got.place;
    for (int which = 0; which < 2 && number == MEALBIS_ACCEPTED; which++) {
        if (first)
            number = mealbis_month_begin(&months[which], got.length);
        if (number == MEALBIS_ACCEPTED)
            number = add_blocks(&months[which], party, recordings[which], got.samples, got.length);
    }
    return number;
}

/* The number of blocks of each party, and a line for each k that has sums. */
static void print_months(void)
{
    mealbis_blocks held;
    mealbis_sums a, b;
    printf("length %" PRIu64 "\n", mealbis_month_length(&months[0]));
    for (mealbis_size party = 1; party <= 2 && !mealbis_month_blocks(&months[0], party, &held); party++) {
        printf("party %" PRIu64 " blocks %" PRId64 "\nk cosine_a sine_a cosine_b sine_b\n", party, held.blocks);
        for (mealbis_size k = 0; !mealbis_month_sums(&months[0], party, k, &a) && !mealbis_month_sums(&months[1], party, k, &b); k++)
            printf("%" PRIu64 " %" PRId64 " %" PRId64 " %" PRId64 " %" PRId64 "\n", k, a.cosine, a.sine, b.cosine, b.sine);
    }
}

int main(int argc, char **argv)
{
    mealbis_size party, place;
    size_t bytes;
    int good = argc > 1 && argc % 2 == 1;
    for (int i = 1; i < argc && good; i += 2)
        good = is_party(argv[i], &party);
    if (!good) {
        fprintf(stderr, "usage: months PARTY FILE [PARTY FILE ..]\n");
        return 2;
    }
    for (int i = 1; i < argc; i += 2) {
        if (!is_party(argv[i], &party) || !get_file("months", argv[i + 1], &bytes))
            return 2;
        uint32_t number = add_file(party, bytes, i == 1, &place);
        if (number != MEALBIS_ACCEPTED)
            return refuse(number, argv[i + 1], place);
    }
    print_months();
    return end_output();
}
