/* Times Spectrum, Cosine, Pair, the inverse DCT and refusal 6 beside a plain C version, an earlier version of the library, kissfft, FFTW and
   direct sums, and a block added to a month beside Spectrum and an earlier version, on the same input in one run.

     bench                          a table for N = 8 .. 1,024, in Markdown
     bench CALL CONTENDER N REPEATS      that many blocks of one contender and nothing else, to count instructions

   Every time is the least of many rounds, in which the contenders take turns.  bench/run builds and runs it. */

#include <stdio.h>
#include <stdlib.h>
#include <string.h>
#include <time.h>

#include "mealbis.h"
#include "plain.h"
#include "table.h"

#ifdef HAVE_KISSFFT
#include <kissfft/kiss_fftr.h>
#endif
#ifdef HAVE_FFTW
#include <fftw3.h>
#endif

#define LONGEST 1024
#define START 5
#define RECORDING (LONGEST + START + 3)
#define ROUNDS 401
#define ROUND_NS 300000.0
#ifndef BEFORE_SCRATCH_WORDS /* what an earlier version's header has, where there is one */
#define BEFORE_SCRATCH_WORDS(length) 0
#endif
#define LARGER(m, n) ((m) > (n) ? (m) : (n))

static int32_t a[RECORDING], b[RECORDING];
static int32_t out_first[RECORDING], out_last[RECORDING]; /* a, with the first or the last sample of the block out of range */
static int32_t first[LONGEST], second[LONGEST], stored[LONGEST];
static int64_t scratch[LARGER(MEALBIS_SCRATCH_WORDS(LONGEST), BEFORE_SCRATCH_WORDS(LONGEST))];
static volatile uint64_t sink;

static void need(int good, const char *what)
{
    if (!good) {
        fprintf(stderr, "bench: %s\n", what);
        exit(1);
    }
}

/* ---- the library: the whole call, with its checks; the words of scratch that it needs are cleared. An earlier version is linked beside ours
   where bench/run is given one; it renames the symbols */

struct library {
    __typeof__(mealbis_spectrum) *spectrum;
    __typeof__(mealbis_cosine) *cosine;
    __typeof__(mealbis_pair) *pair;
    __typeof__(mealbis_inverse_dct) *inverse_dct;
    __typeof__(mealbis_month_begin) *month_begin;
    __typeof__(mealbis_month_add) *month_add;
    mealbis_month *month; /* of its own */
};

static mealbis_month months[2]; /* ours, and room for one of an earlier version, which has no more words */
static const struct library ours = {mealbis_spectrum, mealbis_cosine, mealbis_pair, mealbis_inverse_dct,
                                    mealbis_month_begin, mealbis_month_add, &months[0]};
static const struct library *library = &ours; /* the one that is timed */

#ifdef HAVE_BEFORE
#define OF_BLOCK mealbis_size start, mealbis_size n, uint64_t allowance, int32_t *y, mealbis_size y_words
#define OF_SCRATCH int64_t *work, mealbis_size work_words
#define OF_SPECTRUM const int32_t *x, mealbis_size x_words, OF_BLOCK, int32_t *z, mealbis_size z_words, OF_SCRATCH
#ifdef BEFORE_WITH_WORDS /* its calls tell through single words, not through a record; its months, where it has any, are not timed */
#ifdef BEFORE_WITHOUT_REST /* and have none for the largest rest */
#define WORDS uint64_t *products, uint64_t *sums, mealbis_size *place
#define TO_RECORD &answer->products, &answer->sums, &answer->place
#else
#define WORDS uint64_t *products, uint64_t *sums, uint64_t *largest_rest, mealbis_size *place
#define TO_RECORD &answer->products, &answer->sums, &answer->largest_rest, &answer->place
#endif
#define OF_COSINE const int32_t *x, mealbis_size x_words, OF_BLOCK, OF_SCRATCH
#define OF_PAIR const int32_t *x, mealbis_size x_words, const int32_t *v, mealbis_size v_words, OF_BLOCK, int32_t *z, mealbis_size z_words, OF_SCRATCH
#define OF_INVERSE const int32_t *y, mealbis_size y_words, mealbis_size n, int32_t *x, mealbis_size x_words
uint32_t before_mealbis_spectrum(OF_SPECTRUM, WORDS);
uint32_t before_mealbis_cosine(OF_COSINE, WORDS);
uint32_t before_mealbis_pair(OF_PAIR, WORDS);
uint32_t before_mealbis_inverse_dct(OF_INVERSE, mealbis_size *place);

static uint32_t before_spectrum(OF_SPECTRUM, mealbis_answer *answer)
{
    answer->largest_rest = 0;
    return before_mealbis_spectrum(x, x_words, start, n, allowance, y, y_words, z, z_words, work, work_words, TO_RECORD);
}

static uint32_t before_cosine(OF_COSINE, mealbis_answer *answer)
{
    answer->largest_rest = 0;
    return before_mealbis_cosine(x, x_words, start, n, allowance, y, y_words, work, work_words, TO_RECORD);
}

static uint32_t before_pair(OF_PAIR, mealbis_answer *answer)
{
    answer->largest_rest = 0;
    return before_mealbis_pair(x, x_words, v, v_words, start, n, allowance, y, y_words, z, z_words, work, work_words, TO_RECORD);
}

static uint32_t before_inverse_dct(OF_INVERSE, mealbis_inverse_answer *answer)
{
    return before_mealbis_inverse_dct(y, y_words, n, x, x_words, &answer->place);
}
#define BEFORE_MONTHS 0, 0, 0
#else
extern __typeof__(mealbis_spectrum) before_mealbis_spectrum;
extern __typeof__(mealbis_cosine) before_mealbis_cosine;
extern __typeof__(mealbis_pair) before_mealbis_pair;
extern __typeof__(mealbis_inverse_dct) before_mealbis_inverse_dct;
#define before_spectrum before_mealbis_spectrum
#define before_cosine before_mealbis_cosine
#define before_pair before_mealbis_pair
#define before_inverse_dct before_mealbis_inverse_dct
#ifdef BEFORE_WITHOUT_PARTY /* its months are of one owner */
uint32_t before_mealbis_month_add(mealbis_month *month, OF_SPECTRUM, mealbis_answer *answer);

static uint32_t before_month_add(mealbis_month *month, mealbis_size party, OF_SPECTRUM, mealbis_answer *answer)
{
    (void)party;
    return before_mealbis_month_add(month, x, x_words, start, n, allowance, y, y_words, z, z_words, work, work_words, answer);
}
#else
extern __typeof__(mealbis_month_add) before_mealbis_month_add;
#define before_month_add before_mealbis_month_add
#endif
extern __typeof__(mealbis_month_begin) before_mealbis_month_begin;
#define BEFORE_MONTHS before_mealbis_month_begin, before_month_add, &months[1]
#endif
static const struct library before = {before_spectrum, before_cosine, before_pair, before_inverse_dct, BEFORE_MONTHS};
#endif

static uint32_t spectrum_of(const int32_t *recording, size_t n)
{
    mealbis_answer answer;
    uint32_t number = library->spectrum(recording, RECORDING, START, n, 1 << 20, first, LONGEST, second, LONGEST,
                                        scratch, MEALBIS_WORDS(scratch), &answer);
    sink += answer.products + answer.largest_rest + answer.place;
    return number;
}

static void spectrum(size_t n)
{
    need(spectrum_of(a, n) == 0, "refused");
}

/* a block of party 1 added to a month, which is begun where there is none of this length, and where the party is full */
static void add_to_month(size_t n)
{
    mealbis_answer answer;
    while (library->month_add(library->month, 1, a, RECORDING, START, n, UINT64_MAX, first, LONGEST, second, LONGEST,
                              scratch, MEALBIS_WORDS(scratch), &answer) != 0)
        need(library->month_begin(library->month, n) == 0, "month");
    sink += (uint64_t)library->month->words[2]; /* the sum of cosine[0], before version 4 too */
}

static void our_spectrum(size_t n)
{
    library = &ours;
    spectrum(n);
}

/* refusal 6 makes the tests before it and a look at each sample up to the one out of range, and nothing else */
static void refused_first(size_t n)
{
    need(spectrum_of(out_first, n) == 6, "not refused");
}

static void refused_last(size_t n)
{
    need(spectrum_of(out_last, n) == 6, "not refused");
}

static void cosine(size_t n)
{
    mealbis_answer answer;
    need(library->cosine(a, RECORDING, START, n, 1 << 20, first, LONGEST, scratch, MEALBIS_WORDS(scratch), &answer) == 0, "refused");
    sink += answer.products + answer.largest_rest;
}

static void pair(size_t n)
{
    mealbis_answer answer;
    need(library->pair(a, RECORDING, b, RECORDING, START, n, 1 << 20, first, LONGEST, second, LONGEST,
                       scratch, MEALBIS_WORDS(scratch), &answer) == 0, "refused");
    sink += answer.products + answer.largest_rest;
}

static void inverse(size_t n)
{
    mealbis_inverse_answer answer;
    need(library->inverse_dct(stored, LONGEST, n, first, LONGEST, &answer) == 0, "refused");
    sink += (uint64_t)first[0];
}

/* ---- plain C: the same whole call, bench/plain.c */

static int plain_spectrum_of(const int32_t *recording, size_t n)
{
    uint64_t counts[2] = {0, 0}, largest_rest = 0, place = 0;
    int answer = plain_spectrum(recording, RECORDING, START, n, 1 << 20, first, LONGEST, second, LONGEST,
                                scratch, MEALBIS_WORDS(scratch), counts, &largest_rest, &place);
    sink += counts[0] + largest_rest + place;
    return answer;
}

static void plain_s(size_t n)
{
    need(plain_spectrum_of(a, n) == 0, "refused");
}

static void plain_first(size_t n)
{
    need(plain_spectrum_of(out_first, n) == 6, "not refused");
}

static void plain_last(size_t n)
{
    need(plain_spectrum_of(out_last, n) == 6, "not refused");
}

static void plain_c(size_t n)
{
    uint64_t counts[2], largest_rest, place;
    need(plain_cosine(a, RECORDING, START, n, 1 << 20, first, LONGEST,
                      scratch, MEALBIS_WORDS(scratch), counts, &largest_rest, &place) == 0, "refused");
    sink += counts[0] + largest_rest;
}

static void plain_p(size_t n)
{
    uint64_t counts[2], largest_rest, place;
    need(plain_pair(a, RECORDING, b, RECORDING, START, n, 1 << 20, first, LONGEST, second, LONGEST,
                    scratch, MEALBIS_WORDS(scratch), counts, &largest_rest, &place) == 0, "refused");
    sink += counts[0] + largest_rest;
}

static void plain_i(size_t n)
{
    uint64_t place;
    need(plain_inverse_dct(stored, LONGEST, n, first, LONGEST, &place) == 0, "refused");
    sink += (uint64_t)first[0];
}

/* ---- direct sums: cosine and sine, and the DCT, over the stored quarter wave, rounded once */

static int64_t wave[4096];

static void make_wave(void)
{
    for (size_t j = 0; j <= 1024; j++) {
        wave[j] = quarter_wave[j];
        wave[2048 - j] = -quarter_wave[j];
    }
    for (size_t j = 1; j < 2048; j++)
        wave[4096 - j] = wave[j];
}

static int32_t direct_sum(size_t n, size_t step, size_t from)
{
    int64_t sum = 0;
    size_t place = from;
    for (size_t i = 0; i < n; i++) {
        sum += a[START + i] * wave[place % 4096];
        place += step;
    }
    return (int32_t)((sum + (1 << 29)) >> 30);
}

static void direct_spectrum(size_t n)
{
    for (size_t k = 0; k <= n / 2; k++) {
        first[k] = direct_sum(n, k * (4096 / n), 0);
        second[k] = direct_sum(n, k * (4096 / n), 3072);
    }
    sink += (uint64_t)first[0];
}

static void direct_cosine(size_t n)
{
    for (size_t k = 0; k < n; k++)
        first[k] = direct_sum(n, 2 * k * (1024 / n), k * (1024 / n));
    sink += (uint64_t)first[0];
}

/* ---- kissfft and FFTW: the transform alone, in floating point; nothing is checked or cleared */

#ifdef HAVE_KISSFFT
static kiss_fft_scalar kiss_in[LONGEST];
static kiss_fft_cpx kiss_out[LONGEST];
static kiss_fftr_cfg kiss_plan[LONGEST + 1];

static void kiss_spectrum(size_t n)
{
    if (!kiss_plan[n])
        kiss_plan[n] = kiss_fftr_alloc((int)n, 0, 0, 0);
    kiss_fftr(kiss_plan[n], kiss_in, kiss_out);
}
#endif

#ifdef HAVE_FFTW
static double *fftw_in, *fftw_stored, *fftw_real;
static fftw_complex *fftw_out;
static fftw_plan fftw_r2c[LONGEST + 1], fftw_dct[LONGEST + 1], fftw_back[LONGEST + 1];

static void fftw_spectrum(size_t n)
{
    if (!fftw_r2c[n])
        fftw_r2c[n] = fftw_plan_dft_r2c_1d((int)n, fftw_in, fftw_out, FFTW_ESTIMATE);
    fftw_execute(fftw_r2c[n]);
}

static void fftw_cosine(size_t n)
{
    if (!fftw_dct[n])
        fftw_dct[n] = fftw_plan_r2r_1d((int)n, fftw_in, fftw_real, FFTW_REDFT10, FFTW_ESTIMATE);
    fftw_execute(fftw_dct[n]);
}

static void fftw_inverse(size_t n)
{
    if (!fftw_back[n])
        fftw_back[n] = fftw_plan_r2r_1d((int)n, fftw_stored, fftw_real, FFTW_REDFT01, FFTW_ESTIMATE);
    fftw_execute(fftw_back[n]);
}
#endif

/* ---- the contenders of each call; the first is ours, the second the plain version. `library` says which version of the library is called */

struct contender {
    const char *call, *name;
    void (*block)(size_t n);
    const struct library *library;
};

#ifdef HAVE_BEFORE
#define LIBRARY_BEFORE(call, block) {call, "before", block, &before},
#else
#define LIBRARY_BEFORE(call, block)
#endif
#ifdef BEFORE_WITH_WORDS
#define MONTHS_BEFORE(call, block)
#else
#define MONTHS_BEFORE(call, block) LIBRARY_BEFORE(call, block)
#endif

static const struct contender contenders[] = {
    {"Spectrum", "ours", spectrum, &ours},
    {"Spectrum", "plain C", plain_s, 0},
    LIBRARY_BEFORE("Spectrum", spectrum)
#ifdef HAVE_KISSFFT
    {"Spectrum", "kissfft", kiss_spectrum, 0},
#endif
#ifdef HAVE_FFTW
    {"Spectrum", "FFTW r2c", fftw_spectrum, 0},
#endif
    {"Spectrum", "direct sum", direct_spectrum, 0},
    {"Cosine", "ours", cosine, &ours},
    {"Cosine", "plain C", plain_c, 0},
    LIBRARY_BEFORE("Cosine", cosine)
#ifdef HAVE_FFTW
    {"Cosine", "FFTW REDFT10", fftw_cosine, 0},
#endif
    {"Cosine", "direct sum", direct_cosine, 0},
    {"Pair", "ours", pair, &ours},
    {"Pair", "plain C", plain_p, 0},
    LIBRARY_BEFORE("Pair", pair)
    {"Inverse DCT", "ours", inverse, &ours},
    {"Inverse DCT", "plain C", plain_i, 0},
    LIBRARY_BEFORE("Inverse DCT", inverse)
#ifdef HAVE_FFTW
    {"Inverse DCT", "FFTW REDFT01", fftw_inverse, 0},
#endif
    {"Refusal 6, the first sample", "ours", refused_first, &ours},
    {"Refusal 6, the first sample", "plain C", plain_first, 0},
    LIBRARY_BEFORE("Refusal 6, the first sample", refused_first)
    {"Refusal 6, the last sample", "ours", refused_last, &ours},
    {"Refusal 6, the last sample", "plain C", plain_last, 0},
    LIBRARY_BEFORE("Refusal 6, the last sample", refused_last)
    {"A block added to a month", "ours", add_to_month, &ours},
    MONTHS_BEFORE("A block added to a month", add_to_month)
    {"A block added to a month", "Spectrum", our_spectrum, 0},
};

#define CONTENDERS (sizeof contenders / sizeof contenders[0])

static void make_input(void)
{
    uint32_t state = 20260911;
    for (size_t i = 0; i < RECORDING; i++) {
        state = state * 1664525 + 1013904223;
        a[i] = (int32_t)(state >> 8) % 1000001;
        state = state * 1664525 + 1013904223;
        b[i] = -((int32_t)(state >> 8) % 1000001);
    }
    memcpy(out_first, a, sizeof a);
    out_first[START] = 1000001;
    make_wave();
#ifdef HAVE_KISSFFT
    for (size_t i = 0; i < LONGEST; i++)
        kiss_in[i] = (kiss_fft_scalar)a[START + i];
#endif
#ifdef HAVE_FFTW
    fftw_in = fftw_malloc(sizeof(double) * LONGEST);
    fftw_stored = fftw_malloc(sizeof(double) * LONGEST);
    fftw_real = fftw_malloc(sizeof(double) * LONGEST);
    fftw_out = fftw_malloc(sizeof(fftw_complex) * LONGEST);
    for (size_t i = 0; i < LONGEST; i++)
        fftw_in[i] = a[START + i];
#endif
}

/* what refusal 6 and the inverse DCT take: a block whose last sample is out of range; the coefficients that Cosine gives of a block */
static void store(size_t n)
{
    memcpy(out_last, a, sizeof a);
    out_last[START + n - 1] = 1000001;
    library = &ours;
    cosine(n);
    memcpy(stored, first, sizeof stored);
#ifdef HAVE_FFTW
    for (size_t i = 0; i < n; i++)
        fftw_stored[i] = stored[i];
#endif
}

static double now(void)
{
    struct timespec t;
    clock_gettime(CLOCK_MONOTONIC, &t);
    return t.tv_sec * 1e9 + t.tv_nsec;
}

static double timed(const struct contender *c, size_t n, long repeats)
{
    double begin;
    library = c->library;
    begin = now();
    for (long i = 0; i < repeats; i++)
        c->block(n);
    return (now() - begin) / repeats;
}

static void measure(size_t n, double *best)
{
    long repeats[CONTENDERS];
    store(n);
    for (size_t i = 0; i < CONTENDERS; i++) {
        best[i] = timed(&contenders[i], n, 3);
        repeats[i] = best[i] < ROUND_NS ? (long)(ROUND_NS / best[i]) + 1 : 1;
    }
    for (int round = 0; round < ROUNDS; round++)
        for (size_t i = 0; i < CONTENDERS; i++) {
            double t = timed(&contenders[i], n, repeats[i]);
            if (t < best[i])
                best[i] = t;
        }
}

/* a table for each call: its time, and how many times another contender's time that is; of an earlier version the time too */
static void table(void)
{
    static double best[11][CONTENDERS];
    for (size_t n = 8, row = 0; n <= LONGEST; n *= 2, row++)
        measure(n, best[row]);
    for (size_t ours = 0; ours < CONTENDERS; ours++) {
        if (strcmp(contenders[ours].name, "ours") != 0)
            continue;
        size_t end = ours + 1;
        while (end < CONTENDERS && strcmp(contenders[end].call, contenders[ours].call) == 0)
            end++;
        printf("### %s\n\n| N | ns per block | blocks per second |", contenders[ours].call);
        for (size_t i = ours + 1; i < end; i++)
            printf(contenders[i].library ? " ns %s | times %s |" : " times %s |", contenders[i].name, contenders[i].name);
        printf("\n|--:|--:|--:|");
        for (size_t i = ours + 1; i < end; i++)
            printf(contenders[i].library ? "--:|--:|" : "--:|");
        printf("\n");
        for (size_t n = 8, row = 0; n <= LONGEST; n *= 2, row++) {
            printf("| %zu | %.0f | %.0f |", n, best[row][ours], 1e9 / best[row][ours]);
            for (size_t i = ours + 1; i < end; i++) {
                if (contenders[i].library)
                    printf(" %.0f |", best[row][i]);
                printf(" %.2f |", best[row][ours] / best[row][i]);
            }
            printf("\n");
        }
        printf("\n");
    }
}

int main(int count, char **words)
{
    make_input();
    if (count == 1) {
        table();
        return 0;
    }
    need(count == 5, "usage: bench [CALL CONTENDER N REPEATS]");
    store((size_t)atol(words[3]));
    for (size_t i = 0; i < CONTENDERS; i++)
        if (strcmp(contenders[i].call, words[1]) == 0 && strcmp(contenders[i].name, words[2]) == 0) {
            timed(&contenders[i], (size_t)atol(words[3]), atol(words[4]));
            return 0;
        }
    need(0, "no such contender");
}
