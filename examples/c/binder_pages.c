/*
 * Pages for the site binder in C: takes the spectrum of each block of an abutment's recording in a pair file and prints its page, one behind
 * another.
 *     binder_pages a|b FILE [BLOCK]        the page of one block where there is a BLOCK, counted from 0
 * A file without a block prints nothing.
 * Exit status: 0 the pages are printed; 1 the library refuses the file; 2 the arguments are wrong, there is no such block, the file could not be read
 * or the output not be written.
 * examples/build compiles it; examples/binder_pages.txt is what it prints for a and examples/train_crossing.pair. include/mealbis.h says what the
 * calls do.
 */
#include <errno.h>
#include <inttypes.h>
#include <stdio.h>
#include <stdlib.h>
#include <string.h>
#include "mealbis.h"
#include "pair_file.h" /* file, recordings, get_file, refuse, end_output */

/* Whether the word is the number of a block: digits alone. */
static int is_number(const char *word, mealbis_size *number)
{
    char *end;
    errno = 0;
    *number = strtoull(word, &end, 10);
    return '0' <= word[0] && word[0] <= '9' && *end == '\0' && errno == 0;
}

/* Prints the pages of the blocks from first on, up to the one before end. The number of the first call that is refused, else 0. */
static uint32_t print_pages(const int32_t *recording, mealbis_size samples, mealbis_size length, mealbis_size first, mealbis_size end)
{
    static int32_t cosine[MEALBIS_SPECTRUM_WORDS(MEALBIS_LONGEST_BLOCK)], sine[MEALBIS_SPECTRUM_WORDS(MEALBIS_LONGEST_BLOCK)];
    static int64_t scratch[MEALBIS_SCRATCH_WORDS(MEALBIS_LONGEST_BLOCK)];
    static uint8_t page[MEALBIS_PAGE_BYTES(MEALBIS_LONGEST_BLOCK)];
    mealbis_answer spent;
    mealbis_page_answer printed;
    for (mealbis_size block = first; block < end; block++) {
        uint32_t number = mealbis_spectrum(recording, samples, block * length, length, UINT64_MAX,
                                           cosine, MEALBIS_WORDS(cosine), sine, MEALBIS_WORDS(sine), scratch, MEALBIS_WORDS(scratch), &spent);
        if (number == MEALBIS_ACCEPTED)
            number = mealbis_page(cosine, MEALBIS_WORDS(cosine), sine, MEALBIS_WORDS(sine), length, page, sizeof page, &printed);
        if (number != MEALBIS_ACCEPTED)
            return number;
        fwrite(page, 1, (size_t)printed.bytes, stdout);
    }
    return MEALBIS_ACCEPTED;
}

int main(int argc, char **argv)
{
    size_t bytes;
    mealbis_size block = 0;
    mealbis_read_answer got;
    int one = argc == 4; /* block alone */
    if ((argc != 3 && !one) || (strcmp(argv[1], "a") && strcmp(argv[1], "b")) || (one && !is_number(argv[3], &block))) {
        fprintf(stderr, "usage: binder_pages a|b FILE [BLOCK]\n");
        return 2;
    }
    const char *path = argv[2];
    if (!get_file("binder_pages", path, &bytes))
        return 2;
    uint32_t number = mealbis_read(file, bytes, recordings[0], MEALBIS_WORDS(recordings[0]), recordings[1], MEALBIS_WORDS(recordings[1]), &got);
    if (number != MEALBIS_ACCEPTED)
        return refuse(number, path, got.place);
    mealbis_size blocks = got.samples / got.length;
    if (one && block >= blocks) {
        fprintf(stderr, "binder_pages: %s has no block %" PRIu64 "\n", path, block);
        return 2;
    }
    number = print_pages(recordings[argv[1][0] == 'b'], got.samples, got.length, block, one ? block + 1 : blocks);
    if (number != MEALBIS_ACCEPTED)
        return refuse(number, path, 0);
    return end_output();
}
