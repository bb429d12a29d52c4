/*
 * A logger's turn in C: reads a pair file, takes the spectrum of one block of a, stores its cosine block and brings the strain back, and takes the pair
 * spectrum of the first block of a and b; then three refusals.
 * Run it at the top of the repository. examples/build compiles it and examples/logger.txt is what it prints; include/mealbis.h says what each call does.
 */
#include <inttypes.h>
#include <stdio.h>
#include "mealbis.h"

static uint8_t file[MEALBIS_FILE_BYTES(MEALBIS_MOST_FILE_SAMPLES) + 1];
static int32_t a[MEALBIS_MOST_FILE_SAMPLES], b[MEALBIS_MOST_FILE_SAMPLES];
static int32_t first[MEALBIS_LONGEST_BLOCK], second[MEALBIS_LONGEST_BLOCK]; /* results */
static int64_t scratch[MEALBIS_SCRATCH_WORDS(MEALBIS_LONGEST_BLOCK)];

static void print_rows(const char *heading, int from, int to)
{
    printf("%s\n", heading);
    for (int k = from; k < to; k++)
        printf("%d %" PRId32 " %" PRId32 "\n", k, first[k], second[k]);
}

/* the largest distance of the values from the samples of the block */
static int32_t furthest(const int32_t *block, const int32_t *values, mealbis_size length)
{
    int32_t most = 0;
    for (mealbis_size n = 0; n < length; n++) {
        int32_t apart = values[n] < block[n] ? block[n] - values[n] : values[n] - block[n];
        if (most < apart)
            most = apart;
    }
    return most;
}

static void print_spent(const mealbis_answer *answer)
{
    printf("spent %" PRIu64 " products and %" PRIu64 " sums; largest rest %" PRIu64 "\n", answer->products, answer->sums, answer->largest_rest);
}

int main(void)
{
    mealbis_read_answer got;
    mealbis_counts_answer costs;
    mealbis_answer answer;
    mealbis_inverse_answer back;
    uint32_t number;

    /* the recordings of the two abutments */
    FILE *input = fopen("examples/train_crossing.pair", "rb");
    if (input == NULL)
        return 2;
    size_t bytes = fread(file, 1, sizeof file, input);
    fclose(input);
    number = mealbis_read(file, bytes, a, MEALBIS_WORDS(a), b, MEALBIS_WORDS(b), &got);
    if (number != MEALBIS_ACCEPTED) {
        printf("refused %" PRIu32 ": %s\n", number, mealbis_reason(number));
        return 1;
    }
    mealbis_size samples = got.samples, length = got.length;
    printf("read %" PRIu64 " samples of each abutment, in blocks of %" PRIu64 "\n", samples, length);

    /* what a block of this length costs */
    number = mealbis_counts(length, &costs);
    if (number == MEALBIS_ACCEPTED)
        printf("a block costs, in products and sums: Cosine %" PRIu64 " %" PRIu64 ", Spectrum %" PRIu64 " %" PRIu64 ", Pair %" PRIu64 " %" PRIu64 "\n",
               costs.dct_products, costs.dct_sums, costs.spectrum_products, costs.spectrum_sums, costs.pair_products, costs.pair_sums);

    /* the second block of a, with just its allowance */
    number = mealbis_spectrum(a, samples, length, length, costs.spectrum_products, first, MEALBIS_WORDS(first), second, MEALBIS_WORDS(second),
                              scratch, MEALBIS_WORDS(scratch), &answer);
    if (number == MEALBIS_ACCEPTED) {
        print_rows("Spectrum of a, block 1: k cosine sine", 29, 32);
        print_spent(&answer);
    }

    /* the same block stored as its cosine coefficients, and the strain back from these */
    number = mealbis_cosine(a, samples, length, length, costs.dct_products, first, MEALBIS_WORDS(first), scratch, MEALBIS_WORDS(scratch), &answer);
    if (number == MEALBIS_ACCEPTED)
        number = mealbis_inverse_dct(first, length, length, second, MEALBIS_WORDS(second), &back);
    if (number == MEALBIS_ACCEPTED) {
        print_rows("Cosine of a, block 1, stored and brought back: i coefficient value", 0, 3);
        printf("largest distance from a sample: %" PRId32 ", the limit is %" PRIu64 "\n", furthest(a + length, second, length), length);
    }
    first[7] = -MEALBIS_LARGEST_COEFFICIENT(length) - 1;
    number = mealbis_inverse_dct(first, length, length, second, MEALBIS_WORDS(second), &back);
    printf("a coefficient beyond its limit: refused %" PRIu32 ", at place %" PRIu64 "\n", number, back.place);

    /* the first block of both */
    number = mealbis_pair(a, samples, b, samples, 0, length, costs.pair_products, first, MEALBIS_WORDS(first), second, MEALBIS_WORDS(second),
                          scratch, MEALBIS_WORDS(scratch), &answer);
    if (number == MEALBIS_ACCEPTED) {
        print_rows("Pair of a and b, block 0: k real imaginary", 0, 3);
        print_spent(&answer);
    }

    /* refusals: the results stay as they are */
    number = mealbis_spectrum(a, samples, 0, length, costs.spectrum_products - 1, first, MEALBIS_WORDS(first), second, MEALBIS_WORDS(second),
                              scratch, MEALBIS_WORDS(scratch), &answer);
    printf("one product less allowed: refused %" PRIu32 "\n", number);
    a[300] = MEALBIS_LARGEST_SAMPLE + 1;
    number = mealbis_spectrum(a, samples, length, length, costs.spectrum_products, first, MEALBIS_WORDS(first), second, MEALBIS_WORDS(second),
                              scratch, MEALBIS_WORDS(scratch), &answer);
    printf("a sample too large: refused %" PRIu32 ", at place %" PRIu64 "\n", number, answer.place);
    print_rows("still Pair's: k real imaginary", 0, 1);
    return 0;
}
