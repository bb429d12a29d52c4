/*
 * Holds include/mealbis_struct.h to include/mealbis.h: each call on structs against the flat call with the same words, in its number, every word of
 * every buffer and the whole record, for accepted blocks and for each refusal that it can have; of a month for both parties and for some that are
 * none. Prints each check that fails, and 'N passed, M failed'. It is C99 and C++ alike.
 */
#include <stdio.h>
#include <string.h>
#include "mealbis_struct.h"

#define LONGEST 64
#define MANY 200 /* samples of a */
#define FEWER 150 /* samples of b */

static int32_t x[MANY], y[FEWER], first[LONGEST], second[LONGEST];
static int64_t scratch[MEALBIS_SCRATCH_WORDS(LONGEST)];
static mealbis_month month, other_month;
static mealbis_size party = 1; /* that adds to the month */
static uint32_t flat, structs; /* the numbers of both calls */
static mealbis_mark_answer told;
MEALBIS_WORKSPACE(work, LONGEST);
static int passed, failed;

enum { SPECTRUM, MARK, MONTH, COSINE, PAIR, CALLS };
static const char *const names[CALLS] = { "spectrum", "mark", "month", "cosine", "pair" };

static void check(int holds, const char *call, const char *what, mealbis_size with)
{
    if (holds)
        passed++;
    else {
        failed++;
        printf("failed: %s, %s (%lu)\n", call, what, (unsigned long)with);
    }
}

/* The same in all that the two calls may write. */
static void fill(void)
{
    memset(first, 0x55, sizeof first);
    memset(second, 0x55, sizeof second);
    memset(scratch, 0x55, sizeof scratch);
    memset(work_first, 0x55, sizeof work_first);
    memset(work_second, 0x55, sizeof work_second);
    memset(work_scratch, 0x55, sizeof work_scratch);
    memset(&work.answer, 0x55, sizeof work.answer);
    work.mark = 77;
}

/* A call both ways, the flat one with the words of `work`, so that both have the same. What the flat one tells is in `told`, its mark too. */
static void make_both(int call, mealbis_size start, mealbis_size length, int32_t flat_limit, int32_t clip_level)
{
    mealbis_recording a = { x, MANY }, b = { y, FEWER };
    mealbis_answer answer = { 1, 1, 1, 1 };

#define ROWS first, work.first_words, second, work.second_words
#define SCRATCH scratch, work.scratch_words
    told.mark = MEALBIS_NO_MARK;
    switch (call) {
    case SPECTRUM:
        flat = mealbis_spectrum(x, MANY, start, length, work.allowance, ROWS, SCRATCH, &answer);
        structs = mealbis_spectrum_of(a, start, length, &work);
        break;
    case MARK:
        flat = mealbis_mark(x, MANY, start, length, work.allowance, flat_limit, clip_level, ROWS, SCRATCH, &told);
        memcpy(&answer, &told, sizeof answer);
        structs = mealbis_mark_of(a, start, length, flat_limit, clip_level, &work);
        break;
    case MONTH:
        flat = mealbis_month_add(&other_month, party, x, MANY, start, length, work.allowance, ROWS, SCRATCH, &answer);
        structs = mealbis_month_add_of(&month, party, a, start, length, &work);
        break;
    case COSINE:
        flat = mealbis_cosine(x, MANY, start, length, work.allowance, first, work.first_words, SCRATCH, &answer);
        structs = mealbis_cosine_of(a, start, length, &work);
        break;
    case PAIR:
        flat = mealbis_pair(x, MANY, y, FEWER, start, length, work.allowance, ROWS, SCRATCH, &answer);
        structs = mealbis_pair_of(a, b, start, length, &work);
        break;
    }
    memcpy(&told, &answer, sizeof answer);
}

/* Makes a call both ways and compares. */
static uint32_t both(int call, mealbis_size start, mealbis_size length, int32_t flat_limit, int32_t clip_level)
{
    mealbis_workspace was;

    fill();
    flat = 99, structs = 98;
    was = work;
    other_month = month;
    make_both(call, start, length, flat_limit, clip_level);
    check(structs == flat, names[call], "the number", length);
    check(!memcmp(work_first, first, sizeof first) && !memcmp(work_second, second, sizeof second), names[call], "the results", length);
    check(!memcmp(work_scratch, scratch, sizeof scratch), names[call], "scratch", length);
    check(!memcmp(&work.answer, &told, sizeof work.answer), names[call], "the record", length);
    check(work.mark == told.mark, names[call], "the mark", length);
    check(!memcmp(&month, &other_month, sizeof month), names[call], "the month", length);
    was.answer = work.answer;
    was.mark = work.mark;
    check(!memcmp(&was, &work, sizeof work), names[call], "the words of the workspace", length);
    return structs;
}

/* A call that must be answered by this number. */
static void expect(uint32_t number, int call, mealbis_size start, mealbis_size length, int32_t flat_limit, int32_t clip_level)
{
    check(both(call, start, length, flat_limit, clip_level) == number, names[call], mealbis_reason(number), length);
}

/* The refusals of a month alone, for this party and for parties that are none; these are refused before all else. */
static void month_refusals(void)
{
    static const mealbis_size none[] = { 0, 3, ((mealbis_size)1 << 32) + 1, UINT64_MAX };
    mealbis_size own = party;
    unsigned i;

    for (i = 0; i < MEALBIS_WORDS(none); i++) {
        party = none[i];
        expect(MEALBIS_UNKNOWN_PARTY, MONTH, 0, 32, 0, 1);
        expect(MEALBIS_UNKNOWN_PARTY, MONTH, MANY, 8, 0, 1);
    }
    party = own;
    expect(MEALBIS_OTHER_LENGTH, MONTH, 0, 8, 0, 1);
    month.words[party == 1 ? 1 : 1028] = MEALBIS_MOST_BLOCKS;
    expect(MEALBIS_MONTH_FULL, MONTH, 0, 32, 0, 1);
    party = 3 - own;
    expect(MEALBIS_ACCEPTED, MONTH, 0, 32, 0, 1);
    party = own;
    check(mealbis_month_begin(&month, 32) == MEALBIS_ACCEPTED, "month", "begun", 32);
}

/* Every refusal of one call, one after the other; each has the tests before it accept. */
static void refusals(int call)
{
    mealbis_workspace kept = work;

    if (call == MONTH) {
        month_refusals();
    } else {
        expect(MEALBIS_BAD_LENGTH, call, 0, 3, 0, 1);
    }
    expect(MEALBIS_BEYOND_RECORDING, call, MANY - 31, 32, 0, 1);
    if (call == PAIR) /* b is the shorter one */
        expect(MEALBIS_BEYOND_RECORDING, call, FEWER - 31, 32, 0, 1);
    work.first_words = 16;
    expect(MEALBIS_RESULT_TOO_SHORT, call, 0, 32, 0, 1);
    work.first_words = kept.first_words;
    work.second_words = 16;
    expect(call == COSINE ? MEALBIS_ACCEPTED : MEALBIS_RESULT_TOO_SHORT, call, 0, 32, 0, 1);
    work.second_words = kept.second_words;
    work.scratch_words = MEALBIS_SCRATCH_WORDS(32) - 1;
    expect(MEALBIS_SCRATCH_TOO_SHORT, call, 0, 32, 0, 1);
    work.scratch_words = kept.scratch_words;
    work.allowance = 0;
    expect(MEALBIS_ALLOWANCE_TOO_SMALL, call, 0, 32, 0, 1);
    work.allowance = kept.allowance;
    x[37] = MEALBIS_LARGEST_SAMPLE + 1;
    expect(MEALBIS_OUT_OF_RANGE, call, 30, 32, 0, 1);
    check(work.answer.place == 37, names[call], "the place", work.answer.place);
    x[37] = 0;
    if (call == MARK) {
        expect(MEALBIS_BAD_FIGURES, call, 0, 32, -1, 1);
        expect(MEALBIS_BAD_FIGURES, call, 0, 32, 0, 0);
    }
}

/* Blocks of one length through every call, three of party 1 and two of party 2. */
static void accepted(mealbis_size length)
{
    mealbis_blocks told = { -1 };
    int i, call;

    check(mealbis_month_begin(&month, length) == MEALBIS_ACCEPTED, "month", "begun", length);
    for (call = 0; call < CALLS; call++)
        for (i = 0; i < (call == MONTH ? 5 : 3); i++) {
            party = 1 + (mealbis_size)i % 2;
            expect(MEALBIS_ACCEPTED, call, (mealbis_size)i * 17, length, 0, 9000);
        }
    check(mealbis_month_blocks(&month, 1, &told) == MEALBIS_ACCEPTED && told.blocks == 3, "month", "blocks of party 1", length);
    check(mealbis_month_blocks(&month, 2, &told) == MEALBIS_ACCEPTED && told.blocks == 2, "month", "blocks of party 2", length);
}

int main(void)
{
    mealbis_recording whole = MEALBIS_RECORDING(x);
    mealbis_size length;
    uint32_t seed = 1;
    int i, call;

    check(whole.samples == x && whole.words == MANY, "MEALBIS_RECORDING", "an array", whole.words);
    check(work.first_words == LONGEST && work.second_words == LONGEST, "MEALBIS_WORKSPACE", "results", work.first_words);
    check(work.scratch_words == MEALBIS_SCRATCH_WORDS(LONGEST), "MEALBIS_WORKSPACE", "scratch", work.scratch_words);
    check(work.allowance == UINT64_MAX, "MEALBIS_WORKSPACE", "the allowance", work.allowance);
    check(sizeof work_first + sizeof work_second + sizeof work_scratch == 72 * LONGEST + 512, "MEALBIS_WORKSPACE", "bytes", LONGEST);
    for (i = 0; i < MANY; i++) {
        seed = seed * 1664525u + 1013904223u;
        x[i] = (int32_t)(seed >> 16) % 20000 - 10000;
        if (i < FEWER)
            y[i] = 5000 - x[i] / 3;
    }
    for (length = 1; length <= LONGEST; length *= 2)
        accepted(length);
    expect(MEALBIS_ACCEPTED, MARK, 0, 32, INT32_MAX, 1); /* the two figures are not exchanged */
    check(work.mark == MEALBIS_FLAT, "mark", "flat", work.mark);
    expect(MEALBIS_ACCEPTED, MARK, 0, 32, 0, 1);
    check(work.mark == MEALBIS_CLIPPED, "mark", "clipped", work.mark);
    expect(MEALBIS_ACCEPTED, MARK, 0, 32, 0, MEALBIS_LARGEST_SAMPLE);
    check(work.mark == MEALBIS_PLAIN, "mark", "plain", work.mark);
    for (call = 0; call < CALLS; call++)
        for (party = 1; party <= 2; party++) {
            check(mealbis_month_begin(&month, 32) == MEALBIS_ACCEPTED, "month", "begun", 32);
            refusals(call);
        }
    printf("%d passed, %d failed\n", passed, failed);
    return failed != 0;
}
