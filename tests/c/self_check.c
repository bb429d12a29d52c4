/*
 * What only C can see of the library, as linked, and of include/mealbis.h: the versions, the sizes and numbers of the macros, records without a gap,
 * each field of each record, a reason for each number, a month's words by the header's description, parties that are none, months of the versions
 * before, pointers aligned as their type asks and no more, NULL with count 0, and the stack. What the calls answer is compared by the other tests.
 * Prints each check that fails, and 'N passed, M failed'; with --stack also the stack of each call.
 */
#define _XOPEN_SOURCE 700
#include <inttypes.h>
#include <stddef.h>
#include <stdio.h>
#include <stdlib.h>
#include <string.h>
#include <ucontext.h>
#include "mealbis.h"

#define LONGEST MEALBIS_LONGEST_BLOCK
#define STACK_PROMISED 8192
#define MARK_OF(n) (INT64_C(65536) * MEALBIS_MONTH_EDITION + (n)) /* words[0] of a month of n */
#define ACCOUNT(party) ((party) == 1 ? 1 : 1028)  /* where a party's words begin */
#define WORK(n) scratch, MEALBIS_SCRATCH_WORDS(n) /* just enough scratch for n samples, as two parameters */

static int32_t x[LONGEST + 8], y[LONGEST + 8], one[LONGEST + 8], two[LONGEST + 8], kept[LONGEST + 8], stored[LONGEST + 8];
static int64_t scratch[MEALBIS_SCRATCH_WORDS(LONGEST) + 8];
static uint8_t file[MEALBIS_FILE_BYTES(8)], made[MEALBIS_PAGE_BYTES(LONGEST) + 8], kept_bytes[sizeof made]; /* a page or a file */
static mealbis_month month, kept_month;
static uint32_t number; /* the number of the last answer, and the records */
static mealbis_answer answer;
static mealbis_mark_answer mark_answer;
static mealbis_counts_answer six;
static mealbis_read_answer read_answer;
static mealbis_write_answer write_answer;
static mealbis_page_answer page_answer;
static mealbis_inverse_answer inverse_answer;
static mealbis_blocks month_blocks;
static mealbis_sums month_sums;
static int passed, failed;

static void check(int holds, const char *what, mealbis_size with)
{
    if (holds)
        passed++;
    else {
        failed++;
        printf("failed: %s (%" PRIu64 ")\n", what, with);
    }
}

/* Sets every word that a call may write to something, so that a word left alone is seen. */
static void fill(void)
{
    memset(one, 0x55, sizeof one);
    memset(two, 0x55, sizeof two);
    memset(kept, 0x55, sizeof kept);
    memset(made, 0x55, sizeof made);
    memset(kept_bytes, 0x55, sizeof kept_bytes);
    memset(scratch, 0x55, sizeof scratch);
    memset(&answer, 0x55, sizeof answer);
    memset(&mark_answer, 0x55, sizeof mark_answer);
    memset(&six, 0x55, sizeof six);
    memset(&read_answer, 0x55, sizeof read_answer);
    memset(&write_answer, 0x55, sizeof write_answer);
    memset(&page_answer, 0x55, sizeof page_answer);
    memset(&inverse_answer, 0x55, sizeof inverse_answer);
    memset(&month_blocks, 0x55, sizeof month_blocks);
    memset(&month_sums, 0x55, sizeof month_sums);
}

/* A call refused with this number leaves 0 in the record and the buffers as they were. */
static void refused(uint32_t expected, const char *what)
{
    mealbis_size i;
    int stays = !memcmp(one, kept, sizeof one) && !memcmp(two, kept, sizeof two);
    int64_t word;
    memset(&word, 0x55, sizeof word);
    for (i = 0; i < MEALBIS_WORDS(scratch); i++)
        stays = stays && scratch[i] == word;
    check(number == expected, what, number);
    check(answer.place == 0 && answer.products == 0 && answer.sums == 0 && answer.largest_rest == 0, what, expected);
    check(stays, what, expected);
}

static void mark_refused(uint32_t expected, const char *what)
{
    answer.products = mark_answer.products;
    answer.sums = mark_answer.sums;
    answer.largest_rest = mark_answer.largest_rest;
    answer.place = mark_answer.place;
    refused(expected, what);
    check(mark_answer.mark == MEALBIS_NO_MARK, what, mark_answer.mark);
}

static void month_refused(uint32_t expected, const char *what)
{
    refused(expected, what);
    check(!memcmp(&month, &kept_month, sizeof month), what, expected);
}

/* What a party's account tells is as it should be, and the month as it was. */
static void blocks_told(uint32_t expected, int64_t blocks, const char *what)
{
    check(number == expected && month_blocks.blocks == blocks, what, number);
    check(!memcmp(&month, &kept_month, sizeof month), what, expected);
}

static void sums_told(uint32_t expected, int64_t cosine, int64_t sine, const char *what)
{
    check(number == expected && month_sums.cosine == cosine && month_sums.sine == sine, what, number);
    check(!memcmp(&month, &kept_month, sizeof month), what, expected);
}

static void inverse_refused(uint32_t expected, const char *what)
{
    check(number == expected && inverse_answer.place == 0, what, number);
    check(!memcmp(one, kept, sizeof one), what, expected);
}

static void file_refused(uint32_t expected, const char *what)
{
    check(number == expected && read_answer.samples == 0 && read_answer.length == 0 && read_answer.place == 0, what, number);
    check(!memcmp(one, kept, sizeof one) && !memcmp(two, kept, sizeof two), what, expected);
}

static void write_refused(uint32_t expected, const char *what)
{
    check(number == expected && write_answer.bytes == 0 && write_answer.place == 0, what, number);
    check(!memcmp(made, kept_bytes, sizeof made), what, expected);
}

static void page_refused(uint32_t expected, const char *what)
{
    check(number == expected && page_answer.bytes == 0, what, number);
    check(!memcmp(made, kept_bytes, sizeof made), what, expected);
}

#define SPECTRUM(...) (fill(), number = mealbis_spectrum(__VA_ARGS__, &answer))
#define MARK(...) (fill(), number = mealbis_mark(__VA_ARGS__, &mark_answer))
#define ADD(...) (fill(), kept_month = month, number = mealbis_month_add(&month, __VA_ARGS__, &answer))
#define BLOCKS(...) (fill(), kept_month = month, number = mealbis_month_blocks(&month, __VA_ARGS__, &month_blocks))
#define SUMS(...) (fill(), kept_month = month, number = mealbis_month_sums(&month, __VA_ARGS__, &month_sums))
#define COSINE(...) (fill(), number = mealbis_cosine(__VA_ARGS__, &answer))
#define PAIR(...) (fill(), number = mealbis_pair(__VA_ARGS__, &answer))
#define INVERSE(...) (fill(), number = mealbis_inverse_dct(__VA_ARGS__, &inverse_answer))
#define READ(...) (fill(), number = mealbis_read(__VA_ARGS__, &read_answer))
#define WRITE(...) (fill(), number = mealbis_write(__VA_ARGS__, &write_answer))
#define PRINT(...) (fill(), number = mealbis_page(__VA_ARGS__, &page_answer))

/* ---- records */

#define FIELD(kind, field, place) check(offsetof(kind, field) == 8 * (place) && sizeof ((kind *)0)->field == 8, #kind "." #field, place)
#define RECORD(kind, words) check(sizeof(kind) == 8 * (words) && sizeof(struct { char c; kind r; }) - sizeof(kind) == 8, #kind, words)

/* Words of 64 bits without a gap, in the order of the library, aligned to 8 bytes. */
static void layouts(void)
{
    RECORD(mealbis_answer, 4);
    FIELD(mealbis_answer, products, 0), FIELD(mealbis_answer, sums, 1), FIELD(mealbis_answer, largest_rest, 2), FIELD(mealbis_answer, place, 3);
    RECORD(mealbis_mark_answer, 5);
    FIELD(mealbis_mark_answer, products, 0), FIELD(mealbis_mark_answer, sums, 1), FIELD(mealbis_mark_answer, largest_rest, 2);
    FIELD(mealbis_mark_answer, place, 3), FIELD(mealbis_mark_answer, mark, 4);
    RECORD(mealbis_blocks, 1);
    FIELD(mealbis_blocks, blocks, 0);
    RECORD(mealbis_sums, 2);
    FIELD(mealbis_sums, cosine, 0), FIELD(mealbis_sums, sine, 1);
    RECORD(mealbis_page_answer, 1);
    FIELD(mealbis_page_answer, bytes, 0);
    RECORD(mealbis_inverse_answer, 1);
    FIELD(mealbis_inverse_answer, place, 0);
    RECORD(mealbis_counts_answer, 6);
    FIELD(mealbis_counts_answer, dct_products, 0), FIELD(mealbis_counts_answer, dct_sums, 1), FIELD(mealbis_counts_answer, spectrum_products, 2);
    FIELD(mealbis_counts_answer, spectrum_sums, 3), FIELD(mealbis_counts_answer, pair_products, 4), FIELD(mealbis_counts_answer, pair_sums, 5);
    RECORD(mealbis_read_answer, 3);
    FIELD(mealbis_read_answer, samples, 0), FIELD(mealbis_read_answer, length, 1), FIELD(mealbis_read_answer, place, 2);
    RECORD(mealbis_write_answer, 2);
    FIELD(mealbis_write_answer, bytes, 0), FIELD(mealbis_write_answer, place, 1);
    RECORD(mealbis_month, MEALBIS_MONTH_WORDS);
    check(sizeof(mealbis_size) == 8 && (mealbis_size)-1 > 0, "mealbis_size", sizeof(mealbis_size));
}

/* Each field of each record, on blocks worked by hand, so that none is exchanged with another. */
static void fields(void)
{
    static const int32_t impulse[8] = {0, 1000000, 0, 0, 0, 0, 0, 0}, bad[4] = {0, 0, 0, 1000001}, first[4] = {1, 2, 3, 4}, far[2] = {0, 2000003};
    static const uint8_t two_samples[24] = {2, 0, 0, 0, 8, 0, 0, 0, 3, 0, 0, 0, 1, 0, 0, 0, 0, 0, 0, 0, 2, 0, 0, 0};
    uint8_t spoilt[24];
    SPECTRUM(impulse, 8, 0, 8, 99, one, 5, two, 5, WORK(8));
    check(number == 0 && answer.products == 2 && answer.sums == 20 && answer.largest_rest == 234943168 && answer.place == 0, "fields of Spectrum", number);
    check(one[1] == 707107 && one[4] == -1000000 && two[2] == 1000000 && two[4] == 0, "cosine and sine", 8);
    SPECTRUM(bad, 4, 2, 2, 99, one, 2, two, 2, WORK(2));
    check(number == 6 && answer.place == 3 && answer.products == 0 && answer.sums == 0 && answer.largest_rest == 0, "place of Spectrum", answer.place);
    MARK(impulse, 8, 0, 8, 99, 999999, 1000000, one, 5, two, 5, WORK(8));
    check(number == 0 && mark_answer.products == 2 && mark_answer.sums == 20 && mark_answer.largest_rest == 234943168, "fields of mark", number);
    check(mark_answer.place == 0 && mark_answer.mark == MEALBIS_CLIPPED && one[1] == 707107 && two[2] == 1000000, "the mark", mark_answer.mark);
    MARK(impulse, 8, 0, 8, 99, 1000000, 1000000, one, 5, two, 5, WORK(8)), check(mark_answer.mark == MEALBIS_FLAT, "flat", mark_answer.mark);
    MARK(first, 4, 0, 4, 99, 1, 5, one, 3, two, 3, WORK(4)), check(mark_answer.mark == MEALBIS_PLAIN, "plain", mark_answer.mark);
    MARK(bad, 4, 2, 2, 99, 1, 5, one, 2, two, 2, WORK(2)), check(number == 6 && mark_answer.place == 3, "place of mark", mark_answer.place);
    number = mealbis_month_begin(&month, 4);
    check(number == 0 && mealbis_month_length(&month) == 4, "a month", number);
    ADD(1, first, 4, 0, 4, 0, one, 3, two, 3, WORK(4)), check(number == 0 && answer.sums == 6 && answer.products == 0, "fields of a block", number);
    ADD(1, bad, 4, 0, 4, 0, one, 3, two, 3, WORK(4)), check(number == 6 && answer.place == 3 && answer.sums == 0, "place of a block", answer.place);
    BLOCKS(1), blocks_told(0, 1, "a block");
    SUMS(1, 1), sums_told(0, -2, -2, "sums for 1");
    SUMS(1, 0), sums_told(0, 10, 0, "sums for 0");
    PRINT(first, 4, first, 4, 4, made, sizeof made), check(number == 0 && page_answer.bytes == 124, "bytes of a page", page_answer.bytes);
    INVERSE(far, 2, 2, one, 2), check(number == 10 && inverse_answer.place == 1, "place of the inverse DCT", inverse_answer.place);
    fill();
    number = mealbis_counts(8, &six);
    check(number == 0 && six.dct_products == 12 && six.dct_sums == 29 && six.spectrum_products == 2 && six.spectrum_sums == 20
        && six.pair_products == 4 && six.pair_sums == 52, "counts of 8", number);
    READ(two_samples, 24, one, 2, two, 2), check(number == 0 && read_answer.samples == 2 && read_answer.length == 8 && read_answer.place == 0, "fields of read", number);
    check(one[0] == 3 && one[1] == 1 && two[0] == 0 && two[1] == 2, "a and b", 2);
    memcpy(spoilt, two_samples, 24);
    spoilt[23] = 0x7f;
    READ(spoilt, 24, one, 2, two, 2), check(number == 6 && read_answer.place == 1 && read_answer.samples == 0 && read_answer.length == 0, "place of read", number);
    WRITE(first, 4, first, 4, 8, made, sizeof made), check(number == 0 && write_answer.bytes == 40 && write_answer.place == 0, "fields of write", number);
    WRITE(first, 4, bad, 4, 8, made, sizeof made), check(number == 6 && write_answer.bytes == 0 && write_answer.place == 3, "place of write", number);
}

/* ---- macros */

/* With just the sizes of the macros each call is accepted, and with one word or byte less refused by the number of its macro. */
static void sizes(mealbis_size n)
{
    mealbis_size words = MEALBIS_SPECTRUM_WORDS(n), work = MEALBIS_SCRATCH_WORDS(n), page = MEALBIS_PAGE_BYTES(n), bytes = MEALBIS_FILE_BYTES(n);
    SPECTRUM(x, n, 0, n, UINT64_MAX, one, words, two, words, scratch, work), check(number == MEALBIS_ACCEPTED, "sizes of Spectrum", n);
    SPECTRUM(x, n, 0, n, UINT64_MAX, one, words - 1, two, words, scratch, work), refused(MEALBIS_RESULT_TOO_SHORT, "MEALBIS_SPECTRUM_WORDS");
    SPECTRUM(x, n, 0, n, UINT64_MAX, one, words, two, words, scratch, work - 1), refused(MEALBIS_SCRATCH_TOO_SHORT, "MEALBIS_SCRATCH_WORDS");
    SPECTRUM(x, n, 1, n, UINT64_MAX, one, words, two, words, scratch, work), refused(MEALBIS_BEYOND_RECORDING, "MEALBIS_BEYOND_RECORDING");
    COSINE(x, n, 0, n, UINT64_MAX, one, n, scratch, work), check(number == MEALBIS_ACCEPTED, "sizes of Cosine", n);
    PAIR(x, n, y, n, 0, n, UINT64_MAX, one, n, two, n, scratch, work), check(number == MEALBIS_ACCEPTED, "sizes of Pair", n);
    PRINT(x, words, y, words, n, made, page), check(number == MEALBIS_ACCEPTED && page_answer.bytes == page, "sizes of a page", n);
    check(page == MEALBIS_PAGE_LINE_BYTES * (words + 1), "MEALBIS_PAGE_LINE_BYTES", n);
    PRINT(x, words, y, words, n, made, page - 1), page_refused(MEALBIS_RESULT_TOO_SHORT, "MEALBIS_PAGE_BYTES");
    WRITE(x, n, y, n, n, made, bytes), check(number == MEALBIS_ACCEPTED && write_answer.bytes == bytes, "sizes of a file", n);
    WRITE(x, n, y, n, n, made, bytes - 1), write_refused(MEALBIS_RESULT_TOO_SHORT, "MEALBIS_FILE_BYTES");
    memset(stored, 0, sizeof stored);
    stored[n - 1] = -MEALBIS_LARGEST_COEFFICIENT(n);
    INVERSE(stored, n, n, one, n), check(number == MEALBIS_ACCEPTED, "MEALBIS_LARGEST_COEFFICIENT", n);
    stored[n - 1]--;
    INVERSE(stored, n, n, one, n), check(number == MEALBIS_COEFFICIENT_BEYOND_LIMIT && inverse_answer.place == n - 1, "beyond MEALBIS_LARGEST_COEFFICIENT", n);
}

/* The other numbers of the header, each at its edge, and each refusal by its name. */
static void numbers(void)
{
    static const int32_t top[1] = {MEALBIS_LARGEST_SAMPLE}, above[1] = {MEALBIS_LARGEST_SAMPLE + 1}, tie[4] = {13726, 0, 11996, 0};
    static int32_t long_one[MEALBIS_MOST_FILE_SAMPLES + 1];
    static uint8_t long_file[MEALBIS_FILE_BYTES(MEALBIS_MOST_FILE_SAMPLES) + 8];
    static const uint8_t none[8] = {0}, odd[16] = {1, 0, 0, 0, 3};
    mealbis_size i;
    for (i = 1; i <= LONGEST; i *= 2)
        sizes(i);
    check(i == 2 * LONGEST && MEALBIS_WORDS(tie) == 4, "MEALBIS_LONGEST_BLOCK, MEALBIS_WORDS", i);
    SPECTRUM(x, MEALBIS_WORDS(x), 0, 2 * LONGEST, 99, one, 5, two, 5, WORK(8)), refused(MEALBIS_BAD_LENGTH, "twice MEALBIS_LONGEST_BLOCK");
    SPECTRUM(x, 8, 0, 8, 1, one, 5, two, 5, WORK(8)), refused(MEALBIS_ALLOWANCE_TOO_SMALL, "MEALBIS_ALLOWANCE_TOO_SMALL");
    SPECTRUM(top, 1, 0, 1, 0, one, 1, two, 1, WORK(1)), check(number == MEALBIS_ACCEPTED && one[0] == top[0], "MEALBIS_LARGEST_SAMPLE", number);
    SPECTRUM(above, 1, 0, 1, 0, one, 1, two, 1, WORK(1)), refused(MEALBIS_OUT_OF_RANGE, "above MEALBIS_LARGEST_SAMPLE");
    COSINE(tie, 4, 0, 4, 4, one, 4, WORK(4)), check(answer.largest_rest == MEALBIS_LARGEST_REST, "MEALBIS_LARGEST_REST", answer.largest_rest);
    MARK(x, 8, 0, 8, 99, -1, 1, one, 5, two, 5, WORK(8)), mark_refused(MEALBIS_BAD_FIGURES, "MEALBIS_BAD_FIGURES");
    READ(none, 7, one, 8, two, 8), file_refused(MEALBIS_FILE_BELOW_HEADER, "MEALBIS_FILE_BELOW_HEADER");
    READ(none, 8, one, 8, two, 8), file_refused(MEALBIS_BAD_SAMPLE_COUNT, "MEALBIS_BAD_SAMPLE_COUNT");
    READ(odd, 15, one, 8, two, 8), file_refused(MEALBIS_BAD_FILE_LENGTH, "MEALBIS_BAD_FILE_LENGTH");
    READ(odd, 16, one, 8, two, 8), file_refused(MEALBIS_BAD_LENGTH, "a file in blocks of 3");
    WRITE(x, 8, y, 7, 4, made, sizeof made), write_refused(MEALBIS_RECORDINGS_DIFFER, "MEALBIS_RECORDINGS_DIFFER");
    WRITE(long_one, MEALBIS_MOST_FILE_SAMPLES + 1, long_one, 1, 4, made, sizeof made), write_refused(MEALBIS_BAD_SAMPLE_COUNT, "above MEALBIS_MOST_FILE_SAMPLES");
    number = mealbis_write(long_one, MEALBIS_MOST_FILE_SAMPLES, long_one, MEALBIS_MOST_FILE_SAMPLES, 4, long_file, sizeof long_file, &write_answer);
    check(number == MEALBIS_ACCEPTED && write_answer.bytes == sizeof long_file - 8, "MEALBIS_MOST_FILE_SAMPLES", number);
}

/* Each number that a call gives has a reason of its own. */
static void reasons(void)
{
    const char *none = mealbis_reason(17);
    uint32_t i, j;
    check(!strcmp(none, mealbis_reason(18)) && !strcmp(none, mealbis_reason(UINT32_MAX)), "no reason", 18);
    for (i = 0; i <= 17; i++)
        for (j = 0; j < i; j++)
            check(strcmp(mealbis_reason(i), mealbis_reason(j)) != 0, "a reason of its own", i);
    check(!strcmp(mealbis_reason(MEALBIS_SCRATCH_TOO_SHORT), "scratch is too short"), "the reason of 4", 4);
    check(!strcmp(mealbis_reason(MEALBIS_MONTH_FULL), "the party holds 50,000 blocks in the month"), "the reason of 14", 14);
    check(!strcmp(mealbis_reason(MEALBIS_UNKNOWN_PARTY), "the party is neither 1 nor 2"), "the reason of 15", 15);
}

/* ---- months */

/* Beginning writes the words of a month and no more, in both answers. */
static void begun_months(void)
{
    static struct { int64_t before; mealbis_month month; int64_t behind; } guarded;
    mealbis_size n, i;
    for (n = 0; n <= LONGEST; n = n ? 2 * n : 1) {
        int zeros = 1;
        memset(&guarded, 0x55, sizeof guarded);
        number = mealbis_month_begin(&guarded.month, n);
        for (i = 1; i < MEALBIS_MONTH_WORDS; i++)
            zeros = zeros && guarded.month.words[i] == 0;
        check(number == (n ? MEALBIS_ACCEPTED : MEALBIS_BAD_LENGTH) && zeros && guarded.before == guarded.behind, "MEALBIS_MONTH_WORDS", n);
        check(guarded.month.words[0] == (n ? MARK_OF((int64_t)n) : 0) && mealbis_month_length(&guarded.month) == n, "the mark", n);
    }
}

/* Every word of a month, and what is read of it, after blocks worked by hand: a party's block changes that party's account and no other word. */
static void accounts(void)
{
    static const int32_t road[4] = {1, 2, 3, 4}, rail[4] = {0, -7, 0, 2};
    static const struct { int64_t word; int at; } held[] = {
        {2621440004, 0}, {2, 1}, {20, 2}, {-4, 3}, {-4, 4}, {-4, 516}, {1, 1028}, {-5, 1029}, {5, 1031}, {-9, 1543}};
    static mealbis_month expected;
    size_t i;
    for (i = 0; i < MEALBIS_WORDS(held); i++)
        expected.words[held[i].at] = held[i].word;
    check(mealbis_month_begin(&month, 4) == 0, "a month for two parties", 4);
    ADD(1, road, 4, 0, 4, 0, one, 3, two, 3, WORK(4)), check(number == 0, "a block of party 1", number);
    kept_month.words[1] = 1, kept_month.words[2] = 10, kept_month.words[3] = kept_month.words[4] = kept_month.words[516] = -2;
    check(!memcmp(&month, &kept_month, sizeof month), "the account of party 1", 1);
    ADD(2, rail, 4, 0, 4, 0, one, 3, two, 3, WORK(4)), check(number == 0, "a block of party 2", number);
    ADD(1, road, 4, 0, 4, 0, one, 3, two, 3, WORK(4)), check(number == 0, "a second block of party 1", number);
    check(!memcmp(&month, &expected, sizeof month), "both accounts", 2);
    BLOCKS(1), blocks_told(0, 2, "the blocks of party 1");
    BLOCKS(2), blocks_told(0, 1, "the blocks of party 2");
    SUMS(1, 0), sums_told(0, 20, 0, "sums of party 1 for 0");
    SUMS(2, 0), sums_told(0, -5, 0, "sums of party 2 for 0");
    SUMS(1, 1), sums_told(0, -4, -4, "sums of party 1 for 1");
    SUMS(2, 1), sums_told(0, 0, -9, "sums of party 2 for 1");
    SUMS(1, 3), sums_told(MEALBIS_NOT_YIELDED, 0, 0, "MEALBIS_NOT_YIELDED");
    SUMS(2, 3), sums_told(MEALBIS_NOT_YIELDED, 0, 0, "MEALBIS_NOT_YIELDED");
    ADD(2, rail, 4, 0, 2, 0, one, 3, two, 3, WORK(4)), month_refused(MEALBIS_OTHER_LENGTH, "MEALBIS_OTHER_LENGTH");
}

/* A party's blocks up to the last, and one more; the other holds so many. */
static void fill_party(mealbis_size party, int64_t others)
{
    static const int32_t top[1] = {MEALBIS_LARGEST_SAMPLE};
    mealbis_size i;
    for (i = 0, number = 0; i < MEALBIS_MOST_BLOCKS && number == 0; i++)
        number = mealbis_month_add(&month, party, top, 1, 0, 1, 0, one, 1, two, 1, WORK(1), &answer);
    check(i == MEALBIS_MOST_BLOCKS && number == 0, "MEALBIS_MOST_BLOCKS", i);
    BLOCKS(party), blocks_told(0, MEALBIS_MOST_BLOCKS, "a full party");
    BLOCKS(3 - party), blocks_told(0, others, "the other party");
    SUMS(party, 0), sums_told(0, INT64_C(50000000000), 0, "the sums of a full party");
    ADD(party, top, 1, 0, 1, 0, one, 1, two, 1, WORK(1)), month_refused(MEALBIS_MONTH_FULL, "above MEALBIS_MOST_BLOCKS");
    ADD(party, top, 1, 0, 2, 0, one, 1, two, 1, WORK(1)), month_refused(MEALBIS_OTHER_LENGTH, "another length than of a full month");
    ADD(party, NULL, 0, 0, 1, 0, NULL, 0, NULL, 0, NULL, 0), month_refused(MEALBIS_MONTH_FULL, "above MEALBIS_MOST_BLOCKS, nothing");
}

/* Each party is full by its own blocks, whether it is the first or the second to be so. */
static void full_months(void)
{
    check(mealbis_month_begin(&month, 1) == 0, "a month to be filled", 1);
    fill_party(1, 0), fill_party(2, MEALBIS_MOST_BLOCKS);
    check(mealbis_month_begin(&month, 1) == 0, "a month to be filled", 2);
    fill_party(2, 0), fill_party(1, MEALBIS_MOST_BLOCKS);
}

/* A party that is neither 1 nor 2, in the month as it is: refused before all else, and nothing but the record is written. */
static void unknown_party(mealbis_size party)
{
    static const int32_t bad[8] = {MEALBIS_LARGEST_SAMPLE + 1};
    ADD(party, x, 8, 0, 8, 99, one, 5, two, 5, WORK(8)), month_refused(MEALBIS_UNKNOWN_PARTY, "MEALBIS_UNKNOWN_PARTY");
    ADD(party, x, 8, 0, 4, 99, one, 5, two, 5, WORK(8)), month_refused(MEALBIS_UNKNOWN_PARTY, "an unknown party, another length");
    ADD(party, x, 8, 0, 7, 99, one, 5, two, 5, WORK(8)), month_refused(MEALBIS_UNKNOWN_PARTY, "an unknown party, length 7");
    ADD(party, x, 8, 1, 8, 99, one, 5, two, 5, WORK(8)), month_refused(MEALBIS_UNKNOWN_PARTY, "an unknown party, start 1");
    ADD(party, x, 8, 0, 8, 99, one, 4, two, 5, WORK(8)), month_refused(MEALBIS_UNKNOWN_PARTY, "an unknown party, a short cosine");
    ADD(party, x, 8, 0, 8, 99, one, 5, two, 4, WORK(8)), month_refused(MEALBIS_UNKNOWN_PARTY, "an unknown party, a short sine");
    ADD(party, x, 8, 0, 8, 99, one, 5, two, 5, WORK(4)), month_refused(MEALBIS_UNKNOWN_PARTY, "an unknown party, short scratch");
    ADD(party, x, 8, 0, 8, 1, one, 5, two, 5, WORK(8)), month_refused(MEALBIS_UNKNOWN_PARTY, "an unknown party, a small allowance");
    ADD(party, bad, 8, 0, 8, 99, one, 5, two, 5, WORK(8)), month_refused(MEALBIS_UNKNOWN_PARTY, "an unknown party, out of range");
    ADD(party, NULL, 0, 0, 8, 0, NULL, 0, NULL, 0, NULL, 0), month_refused(MEALBIS_UNKNOWN_PARTY, "an unknown party, nothing");
    BLOCKS(party), blocks_told(MEALBIS_UNKNOWN_PARTY, 0, "the blocks of an unknown party");
    SUMS(party, 0), sums_told(MEALBIS_UNKNOWN_PARTY, 0, 0, "the sums of an unknown party");
    SUMS(party, 5), sums_told(MEALBIS_UNKNOWN_PARTY, 0, 0, "the sums of an unknown party, a k too many");
    SUMS(party, UINT64_MAX), sums_told(MEALBIS_UNKNOWN_PARTY, 0, 0, "the sums of an unknown party, the largest k");
}

/* Unknown parties in a month with blocks, in a full one, in one without a length and in one of the versions before. */
static void parties(void)
{
    static const mealbis_size far = (mealbis_size)1 << 32, farther = (mealbis_size)1 << 63;
    const mealbis_size unknown[] = {0, 3, 4, 1027, 1028, far, far + 1, far + 2, farther + 1, farther + 2, UINT64_MAX - 1, UINT64_MAX};
    size_t i;
    for (i = 0; i < MEALBIS_WORDS(unknown); i++) {
        check(mealbis_month_begin(&month, 8) == 0, "a month for parties", 8);
        ADD(1, x, 8, 0, 8, 99, one, 5, two, 5, WORK(8)), check(number == 0, "a block of party 1", number);
        ADD(2, y, 8, 0, 8, 99, one, 5, two, 5, WORK(8)), check(number == 0, "a block of party 2", number);
        unknown_party(unknown[i]);
        month.words[ACCOUNT(1)] = month.words[ACCOUNT(2)] = MEALBIS_MOST_BLOCKS;
        unknown_party(unknown[i]);
        month.words[0] = 8;
        unknown_party(unknown[i]);
        check(mealbis_month_begin(&month, 7) == MEALBIS_BAD_LENGTH, "a month of none for parties", 7);
        unknown_party(unknown[i]);
    }
}

/* No block belongs in these words, no sum is told, and every word stays. */
static void no_month(mealbis_size n, int64_t blocks_of_1, int64_t blocks_of_2)
{
    mealbis_size party, words = MEALBIS_SPECTRUM_WORDS(n);
    kept_month = month;
    check(mealbis_month_length(&month) == 0 && !memcmp(&month, &kept_month, sizeof month), "the length of no month", n);
    for (party = 1; party <= 2; party++) {
        ADD(party, x, n, 0, n, UINT64_MAX, one, words, two, words, WORK(n)), month_refused(MEALBIS_OTHER_LENGTH, "a block in no month");
        ADD(party, x, n, 0, 0, UINT64_MAX, one, words, two, words, WORK(n)), month_refused(MEALBIS_OTHER_LENGTH, "no block in no month");
        BLOCKS(party), blocks_told(0, party == 1 ? blocks_of_1 : blocks_of_2, "the number that stands in no month");
        SUMS(party, 0), sums_told(MEALBIS_NOT_YIELDED, 0, 0, "the sums of no month");
    }
}

/* Months as the versions before 4 left them, in the front of one of today, and words that are no mark. */
static void earlier_months(void)
{
    static int64_t earlier[1028]; /* the length, the block number, 513 sums of the cosine and 513 of the sine */
    const int64_t marks[] = {0, 8, -8, MARK_OF(0), MARK_OF(3), MARK_OF(-8), MARK_OF(2048), MARK_OF(65536 + 8), MARK_OF(8 - 65536), -MARK_OF(8),
                             MARK_OF(8) + (INT64_C(1) << 32), MARK_OF(8) - (INT64_C(1) << 32), INT64_MAX, INT64_MIN, INT64_MIN + MARK_OF(8)};
    mealbis_size n, k;
    size_t i;
    for (n = 1; n <= LONGEST; n *= 2) {
        memset(earlier, 0, sizeof earlier);
        earlier[0] = (int64_t)n, earlier[1] = 7;
        for (k = 0; k <= n / 2; k++)
            earlier[2 + k] = 70 + (int64_t)k, earlier[515 + k] = -70 - (int64_t)k;
        memset(&month, 0x55, sizeof month);
        memcpy(&month, earlier, sizeof earlier);
        no_month(n, 7, INT64_C(0x5555555555555555));
        memset(&month, 0, sizeof month);
        memcpy(&month, earlier, sizeof earlier);
        no_month(n, 7, 0);
    }
    for (i = 0; i < MEALBIS_WORDS(marks); i++) {
        memset(&month, 0, sizeof month);
        month.words[0] = marks[i], month.words[ACCOUNT(1)] = -1, month.words[ACCOUNT(2)] = 3;
        no_month(8, -1, 3);
    }
}

/* ---- alignment: the same at each place that the types allow */

/* What is lent to the calls of one turn. */
static struct {
    unsigned char *memory[7];
    int32_t *recording, *first, *second;
    int64_t *work;
    mealbis_answer *record;
    mealbis_month *month;
    uint8_t *bytes;
} at_hand;

/* For n samples, with words of 32 bits at `at` words from 16 bytes, of 64 bits at at % 2 words, and bytes at `at` bytes. */
static void lend(mealbis_size n, size_t at)
{
    const size_t places[] = {4 * at, 4 * ((at + 1) % 4), 4 * ((at + 2) % 4), 8 * (at % 2), 8 * ((at + 1) % 2), 8 * (at % 2), at};
    void *found[MEALBIS_WORDS(places)];
    size_t i;
    for (i = 0; i < MEALBIS_WORDS(places); i++) {
        if (!(at_hand.memory[i] = malloc(sizeof scratch + 64)))
            exit(2);
        found[i] = at_hand.memory[i] + places[i];
    }
    at_hand.recording = memcpy(found[0], x, (size_t)n * 4);
    at_hand.first = found[1];
    at_hand.second = found[2];
    at_hand.work = found[3];
    at_hand.record = found[4];
    at_hand.month = found[5];
    at_hand.bytes = found[6];
}

#define RECORDING at_hand.recording, n
#define TWO_ROWS at_hand.first, n, at_hand.second, n
#define WORK_AT_HAND at_hand.work, MEALBIS_SCRATCH_WORDS(n)
#define TOLD(kind) ((kind *)at_hand.record)
#define SAME(words, expected, size) !memcmp(words, expected, (size_t)(size))

/* Spectrum, the mark, a month and a page, as with other memory. */
static void spectra_at_place(mealbis_size n, size_t at)
{
    static int32_t cosine[LONGEST], sine[LONGEST];
    mealbis_size size = MEALBIS_SPECTRUM_WORDS(n) * 4;
    mealbis_answer told;
    SPECTRUM(x, n, 0, n, UINT64_MAX, cosine, n, sine, n, scratch, MEALBIS_WORDS(scratch));
    told = answer;
    number = mealbis_spectrum(RECORDING, 0, n, UINT64_MAX, TWO_ROWS, WORK_AT_HAND, at_hand.record);
    check(number == 0 && SAME(at_hand.record, &told, sizeof told), "Spectrum, aligned", at);
    check(SAME(at_hand.first, cosine, size) && SAME(at_hand.second, sine, size), "Spectrum's rows, aligned", at);
    number = mealbis_mark(RECORDING, 0, n, UINT64_MAX, 0, 1, TWO_ROWS, WORK_AT_HAND, TOLD(mealbis_mark_answer));
    check(number == 0 && SAME(at_hand.record, &told, sizeof told), "mark, aligned", at);
    check(SAME(at_hand.first, cosine, size) && SAME(at_hand.second, sine, size), "the mark's rows, aligned", at);
    number = mealbis_month_begin(at_hand.month, n);
    check(number == 0 && mealbis_month_length(at_hand.month) == n, "a month, aligned", at);
    number = mealbis_month_add(at_hand.month, 2, RECORDING, 0, n, UINT64_MAX, TWO_ROWS, WORK_AT_HAND, at_hand.record);
    check(number == 0 && SAME(at_hand.record, &told, sizeof told), "a block, aligned", at);
    check(SAME(at_hand.first, cosine, size) && SAME(at_hand.second, sine, size), "a block's rows, aligned", at);
    number = mealbis_month_blocks(at_hand.month, 2, TOLD(mealbis_blocks));
    check(number == 0 && TOLD(mealbis_blocks)->blocks == 1, "blocks, aligned", at);
    number = mealbis_month_sums(at_hand.month, 2, n / 2, TOLD(mealbis_sums));
    check(number == 0 && TOLD(mealbis_sums)->cosine == cosine[n / 2] && TOLD(mealbis_sums)->sine == sine[n / 2], "sums, aligned", at);
    number = mealbis_page(TWO_ROWS, n, at_hand.bytes, MEALBIS_PAGE_BYTES(n), TOLD(mealbis_page_answer));
    PRINT(cosine, n, sine, n, n, made, sizeof made), check(SAME(at_hand.bytes, made, page_answer.bytes), "a page, aligned", at);
}

/* Cosine and the way back, Pair, the counts and a file. */
static void others_at_place(mealbis_size n, size_t at)
{
    static int32_t rows[2][LONGEST];
    COSINE(x, n, 0, n, UINT64_MAX, rows[0], n, scratch, MEALBIS_WORDS(scratch));
    number = mealbis_cosine(RECORDING, 0, n, UINT64_MAX, at_hand.first, n, WORK_AT_HAND, at_hand.record);
    check(number == 0 && SAME(at_hand.record, &answer, sizeof answer) && SAME(at_hand.first, rows[0], n * 4), "Cosine, aligned", at);
    number = mealbis_inverse_dct(at_hand.first, n, n, at_hand.second, n, TOLD(mealbis_inverse_answer));
    INVERSE(rows[0], n, n, one, n), check(SAME(at_hand.second, one, n * 4), "the inverse DCT, aligned", at);
    PAIR(x, n, x, n, 0, n, UINT64_MAX, rows[0], n, rows[1], n, scratch, MEALBIS_WORDS(scratch));
    number = mealbis_pair(RECORDING, RECORDING, 0, n, UINT64_MAX, TWO_ROWS, WORK_AT_HAND, at_hand.record);
    check(number == 0 && SAME(at_hand.first, rows[0], n * 4) && SAME(at_hand.second, rows[1], n * 4), "Pair, aligned", at);
    number = mealbis_counts(n, TOLD(mealbis_counts_answer));
    check(number == 0 && TOLD(mealbis_counts_answer)->pair_products == answer.products, "counts, aligned", at);
    number = mealbis_write(RECORDING, RECORDING, n, at_hand.bytes, MEALBIS_FILE_BYTES(n), TOLD(mealbis_write_answer));
    check(number == 0 && TOLD(mealbis_write_answer)->bytes == MEALBIS_FILE_BYTES(n), "write, aligned", at);
    number = mealbis_read(at_hand.bytes, MEALBIS_FILE_BYTES(n), TWO_ROWS, TOLD(mealbis_read_answer));
    check(number == 0 && SAME(at_hand.first, x, n * 4) && SAME(at_hand.second, x, n * 4), "read, aligned", at);
}

static void alignment(void)
{
    mealbis_size n;
    size_t at, i;
    for (n = 1; n <= LONGEST; n *= 2)
        for (at = 0; at < 4; at++) {
            lend(n, at);
            spectra_at_place(n, at);
            others_at_place(n, at);
            for (i = 0; i < MEALBIS_WORDS(at_hand.memory); i++)
                free(at_hand.memory[i]);
        }
}

/* NULL with count 0, for each buffer and for all, in the calls on a block. */
static void empty_in_blocks(void)
{
    SPECTRUM(NULL, 0, 0, 8, 99, one, 5, two, 5, WORK(8)), refused(2, "Spectrum, no recording");
    SPECTRUM(NULL, 0, 0, 7, 99, one, 5, two, 5, WORK(8)), refused(1, "Spectrum, no recording, length 7");
    SPECTRUM(x, 16, 8, 8, 99, NULL, 0, two, 5, WORK(8)), refused(3, "Spectrum, no cosine");
    SPECTRUM(x, 16, 8, 8, 99, one, 5, NULL, 0, WORK(8)), refused(3, "Spectrum, no sine");
    SPECTRUM(x, 16, 8, 8, 99, one, 5, two, 5, NULL, 0), refused(4, "Spectrum, no scratch");
    SPECTRUM(NULL, 0, 0, 1, 0, NULL, 0, NULL, 0, NULL, 0), refused(2, "Spectrum, nothing");
    MARK(NULL, 0, 0, 8, 99, -1, 0, one, 5, two, 5, WORK(8)), mark_refused(2, "mark, no recording");
    MARK(NULL, 0, 0, 7, 99, 0, 1, one, 5, two, 5, WORK(8)), mark_refused(1, "mark, no recording, length 7");
    MARK(x, 16, 8, 8, 99, 0, 1, NULL, 0, two, 5, WORK(8)), mark_refused(3, "mark, no cosine");
    MARK(x, 16, 8, 8, 99, 0, 1, one, 5, NULL, 0, WORK(8)), mark_refused(3, "mark, no sine");
    MARK(x, 16, 8, 8, 99, 0, 1, one, 5, two, 5, NULL, 0), mark_refused(4, "mark, no scratch");
    MARK(NULL, 0, 0, 1, 0, 0, 1, NULL, 0, NULL, 0, NULL, 0), mark_refused(2, "mark, nothing");
    check(mealbis_month_begin(&month, 8) == 0, "a month for empty buffers", 8);
    ADD(1, NULL, 0, 0, 8, 99, one, 5, two, 5, WORK(8)), month_refused(2, "month, no recording");
    ADD(2, NULL, 0, 0, 7, 99, one, 5, two, 5, WORK(8)), month_refused(13, "month, no recording, length 7");
    ADD(1, x, 16, 8, 8, 99, NULL, 0, two, 5, WORK(8)), month_refused(3, "month, no cosine");
    ADD(2, x, 16, 8, 8, 99, one, 5, NULL, 0, WORK(8)), month_refused(3, "month, no sine");
    ADD(1, x, 16, 8, 8, 99, one, 5, two, 5, NULL, 0), month_refused(4, "month, no scratch");
    ADD(2, NULL, 0, 0, 8, 0, NULL, 0, NULL, 0, NULL, 0), month_refused(2, "month, nothing");
    COSINE(NULL, 0, 0, 1, 0, one, 8, WORK(8)), refused(2, "Cosine, no recording");
    COSINE(x, 16, 8, 1, 0, NULL, 0, WORK(8)), refused(3, "Cosine, no coefficients");
    COSINE(x, 16, 8, 1, 0, one, 8, NULL, 0), refused(4, "Cosine, no scratch");
    COSINE(NULL, 0, 0, 1, 0, NULL, 0, NULL, 0), refused(2, "Cosine, nothing");
    PAIR(NULL, 0, y, 16, 0, 1, 0, one, 8, two, 8, WORK(8)), refused(2, "Pair, no a");
    PAIR(x, 16, NULL, 0, 0, 1, 0, one, 8, two, 8, WORK(8)), refused(2, "Pair, no b");
    PAIR(x, 16, y, 16, 0, 1, 0, NULL, 0, two, 8, WORK(8)), refused(3, "Pair, no re");
    PAIR(x, 16, y, 16, 0, 1, 0, one, 8, NULL, 0, WORK(8)), refused(3, "Pair, no im");
    PAIR(x, 16, y, 16, 0, 1, 0, one, 8, two, 8, NULL, 0), refused(4, "Pair, no scratch");
    PAIR(NULL, 0, NULL, 0, 0, 1, 0, NULL, 0, NULL, 0, NULL, 0), refused(2, "Pair, nothing");
}

/* The same in those on stored coefficients. */
static void empty_in_coefficients(void)
{
    INVERSE(NULL, 0, 8, one, 8), inverse_refused(2, "inverse DCT, no coefficients");
    INVERSE(NULL, 0, 7, one, 8), inverse_refused(1, "inverse DCT, no coefficients, length 7");
    INVERSE(stored, 8, 8, NULL, 0), inverse_refused(3, "inverse DCT, no values");
    INVERSE(NULL, 0, 1, NULL, 0), inverse_refused(2, "inverse DCT, nothing");
    PRINT(NULL, 0, y, 8, 8, made, 200), page_refused(2, "page, no cosine");
    PRINT(x, 8, NULL, 0, 8, made, 200), page_refused(2, "page, no sine");
    PRINT(x, 8, y, 8, 8, NULL, 0), page_refused(3, "page, no page");
    PRINT(x, 8, y, 8, 7, NULL, 0), page_refused(1, "page, no page, length 7");
    PRINT(NULL, 0, NULL, 0, 1, NULL, 0), page_refused(2, "page, nothing");
}

/* The same in those on files. */
static void empty_in_files(void)
{
    static const uint8_t header[8] = {8, 0, 0, 0, 4, 0, 0, 0};
    memcpy(file, header, sizeof header); /* and all samples 0 */
    READ(NULL, 0, one, 8, two, 8), file_refused(7, "no file");
    READ(file, sizeof file, NULL, 0, two, 8), file_refused(3, "no recording a");
    READ(file, sizeof file, one, 8, NULL, 0), file_refused(3, "no recording b");
    READ(NULL, 0, NULL, 0, NULL, 0), file_refused(7, "no file and no recordings");
    WRITE(NULL, 0, y, 8, 4, made, 72), write_refused(8, "write, no a");
    WRITE(x, 8, NULL, 0, 4, made, 72), write_refused(11, "write, no b");
    WRITE(x, 8, y, 8, 4, NULL, 0), write_refused(3, "write, no file");
    WRITE(x, 8, y, 8, 7, NULL, 0), write_refused(1, "write, no file, blocks of 7");
    WRITE(NULL, 0, NULL, 0, 4, NULL, 0), write_refused(8, "write, nothing");
}

/* The stack of each call at the greatest length: it runs on a marked stack of its own. */
static unsigned char stack[65536];
static ucontext_t home, away;
static int which;

#define LENT scratch, MEALBIS_WORDS(scratch)

static void on_stack(void)
{
    switch (which) {
    case 1: number = mealbis_spectrum(x, LONGEST, 0, LONGEST, UINT64_MAX, one, LONGEST, two, LONGEST, LENT, &answer); break;
    case 2: number = mealbis_cosine(x, LONGEST, 0, LONGEST, UINT64_MAX, one, LONGEST, LENT, &answer); break;
    case 3: number = mealbis_pair(x, LONGEST, y, LONGEST, 0, LONGEST, UINT64_MAX, one, LONGEST, two, LONGEST, LENT, &answer); break;
    case 4: number = mealbis_counts(LONGEST, &six); break;
    case 5: number = mealbis_read(file, sizeof file, one, 8, two, 8, &read_answer); break;
    case 6: number = mealbis_inverse_dct(x, LONGEST, LONGEST, one, LONGEST, &inverse_answer); break;
    case 7: number = mealbis_write(x, LONGEST, y, LONGEST, LONGEST, made, sizeof made, &write_answer); break;
    case 8: number = mealbis_mark(x, LONGEST, 0, LONGEST, UINT64_MAX, 0, 1000000, one, LONGEST, two, LONGEST, LENT, &mark_answer); break;
    case 9: number = mealbis_month_begin(&month, LONGEST); break;
    case 10: number = mealbis_month_add(&month, 2, x, LONGEST, 0, LONGEST, UINT64_MAX, one, LONGEST, two, LONGEST, LENT, &answer); break;
    case 11: number = mealbis_month_sums(&month, 2, LONGEST / 2, &month_sums); break;
    case 12: number = mealbis_page(x, LONGEST, y, LONGEST, LONGEST, made, sizeof made, &page_answer); break;
    case 13: number = mealbis_month_blocks(&month, 2, &month_blocks); break;
    }
}

static size_t stack_used(int call)
{
    size_t untouched = 0;
    which = call;
    memset(stack, 0xa5, sizeof stack);
    getcontext(&away);
    away.uc_stack.ss_sp = stack;
    away.uc_stack.ss_size = sizeof stack;
    away.uc_link = &home;
    makecontext(&away, on_stack, 0);
    swapcontext(&home, &away);
    while (stack[untouched] == 0xa5)
        untouched++;
    return sizeof stack - untouched;
}

int main(int argc, char **argv)
{
    static const char *const names[] = {"no call", "mealbis_spectrum", "mealbis_cosine", "mealbis_pair", "mealbis_counts", "mealbis_read",
                                        "mealbis_inverse_dct", "mealbis_write", "mealbis_mark", "mealbis_month_begin", "mealbis_month_add",
                                        "mealbis_month_sums", "mealbis_page", "mealbis_month_blocks"};
    size_t i, own;
    for (i = 0; i < MEALBIS_WORDS(x); i++) {
        x[i] = (int32_t)(i * 7919 % 2000001) - 1000000;
        y[i] = -x[i];
    }
    check(mealbis_version() == MEALBIS_VERSION, "the versions of header and archive", mealbis_version());
    layouts();
    fields();
    numbers();
    reasons();
    begun_months();
    accounts();
    full_months();
    parties();
    earlier_months();
    alignment();
    empty_in_blocks();
    empty_in_coefficients();
    empty_in_files();
    own = stack_used(0); /* what on_stack takes itself */
    for (i = 1; i < MEALBIS_WORDS(names); i++) {
        size_t used = stack_used((int)i) - own;
        check(number == 0 && used < STACK_PROMISED, names[i], used);
        if (argc == 2 && !strcmp(argv[1], "--stack"))
            printf("%s: %zu bytes of stack\n", names[i], used);
    }
    check(month_blocks.blocks == 1, "the stack of an accepted block", 1);
    check(page_answer.bytes == MEALBIS_PAGE_BYTES(LONGEST), "the stack of a whole page", page_answer.bytes);
    printf("%d passed, %d failed\n", passed, failed);
    return failed != 0;
}
