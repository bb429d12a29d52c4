/* Plain C99 version of the calls of docs/01-scope.md and of the way back from stored
   DCT-II coefficients, for benchmarks only.
   Numbers in round brackets, as (12), are the equations of source document 001. */

#include "plain.h"

#include <string.h>

#include "mealbis.h" /* MEALBIS_SCRATCH_WORDS alone */
#include "table.h"

#define LONGEST 1024
#define LARGEST_SAMPLE 1000000
#define CIRCLE 4096
#define HALF ((int64_t)1 << 29)

/* round30 and value_at shift negative numbers to the right, which C99 leaves to the compiler. */
typedef char right_shift_must_be_arithmetic[((int64_t)-1 >> 1) == -1 ? 1 : -1];

struct tally {
    uint64_t products;
    uint64_t sums;
    uint64_t largest_rest;
};

static const struct tally nothing = {0, 0, 0};

static uint64_t larger(uint64_t one, uint64_t other)
{
    return one > other ? one : other;
}

static struct tally both(struct tally one, struct tally other)
{
    one.products += other.products;
    one.sums += other.sums;
    one.largest_rest = larger(one.largest_rest, other.largest_rest);
    return one;
}

/* v / 2^30 to the nearest whole number, a tie going to the larger.  The rest is v less 2^30 times
   that; *largest becomes its size where this is larger. */
static int64_t round30(int64_t v, uint64_t *largest)
{
    int64_t rounded = (v + HALF) >> 30, rest = v - rounded * (2 * HALF);
    *largest = larger(*largest, (uint64_t)(rest < 0 ? -rest : rest));
    return rounded;
}

/* ---- The transforms ----

   Each returns what it has spent.  The two DFTs read n samples x[0], x[stride],
   x[2 * stride], .. and use at most n + log2(n) words of work; the DCT uses 2n + 2
   more.  No number they form reaches 2^61 in size. */

static struct tally dct(int64_t *x, size_t n, int64_t *work);

/* out[k] = cosine-DFT(k), k = 0 .. n/2, by (12). */
static struct tally cosine_dft(const int64_t *x, size_t stride, size_t n,
                               int64_t *out, int64_t *work)
{
    struct tally spent = nothing;
    size_t half = n / 2, quarter = n / 4, i, k;

    if (n == 1) {
        out[0] = x[0];
        return spent;
    }
    if (n == 2) {
        out[0] = x[0] + x[stride];
        out[1] = x[0] - x[stride];
        spent.sums += 2;
        return spent;
    }
    for (i = 0; i < quarter; i++) {
        work[i] = x[(2 * i + 1) * stride] + x[(n - 2 * i - 1) * stride];
        spent.sums++;
    }
    spent = both(spent, dct(work, quarter, work + quarter));
    spent = both(spent, cosine_dft(x, 2 * stride, half, out, work + quarter));

    /* C(half - k) = C(k) by (9) and D(half - k) = -D(k) by (8); D(quarter) = 0 by (6). */
    for (k = 0; k < quarter; k++) {
        int64_t even = out[k], odd = work[k];
        out[k] = even + odd;
        out[half - k] = even - odd;
        spent.sums += 2;
    }
    return spent;
}

/* out[k] = sine-DFT(k), k = 0 .. n/2, by (15). */
static struct tally sine_dft(const int64_t *x, size_t stride, size_t n,
                             int64_t *out, int64_t *work)
{
    struct tally spent = nothing;
    size_t half = n / 2, quarter = n / 4, i, k;

    if (n <= 2) {
        out[0] = 0;
        out[half] = 0;
        return spent;
    }
    for (i = 0; i < quarter; i++) {
        int64_t early = x[(2 * i + 1) * stride], late = x[(n - 2 * i - 1) * stride];
        work[i] = i % 2 == 0 ? early - late : late - early;
        spent.sums++;
    }
    spent = both(spent, dct(work, quarter, work + quarter));
    spent = both(spent, sine_dft(x, 2 * stride, half, out, work + quarter));

    /* S(half - k) = -S(k) by (10) and D(-k) = D(k) by (7); both ends are 0, and
       at k = quarter the even samples give 0. */
    for (k = 1; k < quarter; k++) {
        int64_t even = out[k], odd = work[quarter - k];
        out[k] = even + odd;
        out[half - k] = odd - even;
        spent.sums += 2;
    }
    out[quarter] = work[0];
    out[half] = 0;
    return spent;
}

/* x[k] = DCT(k) of x[0] .. x[n - 1], in place, by (16), (19) and (20). */
static struct tally dct(int64_t *x, size_t n, int64_t *work)
{
    struct tally spent = nothing;
    size_t half = n / 2, step = LONGEST / n, i, k;
    int64_t *cosine = work + n, *sine = cosine + half + 1, *rest = sine + half + 1;

    if (n == 1)
        return spent;
    for (i = 0; i < half; i++) {
        work[i] = x[2 * i];
        work[n - i - 1] = x[2 * i + 1];
    }
    spent = both(spent, cosine_dft(work, 1, n, cosine, rest));
    spent = both(spent, sine_dft(work, 1, n, sine, rest));

    x[0] = cosine[0];
    for (k = 1; k < half; k++) {
        int64_t c = quarter_wave[k * step], s = quarter_wave[LONGEST - k * step];
        int64_t m1 = c * (cosine[k] + sine[k]);
        int64_t m2 = (c + s) * sine[k];
        int64_t m3 = (s - c) * cosine[k];
        x[k] = round30(m1 - m2, &spent.largest_rest);
        x[n - k] = round30(m1 + m3, &spent.largest_rest);
        spent.products += 3;
        spent.sums += 3;
    }
    x[half] = round30(quarter_wave[LONGEST / 2] * cosine[half], &spent.largest_rest);
    spent.products++;
    return spent;
}

/* ---- The checks ---- */

static int is_length(size_t length)
{
    return length >= 1 && length <= LONGEST && (length & (length - 1)) == 0;
}

static int holds_block(size_t rec_len, size_t start, size_t length)
{
    return length <= rec_len && start <= rec_len - length;
}

static uint64_t log2_of(size_t length)
{
    uint64_t power = 0;
    while (length > 1) {
        length /= 2;
        power++;
    }
    return power;
}

static size_t scratch_words(size_t length)
{
    return MEALBIS_SCRATCH_WORDS(length);
}

/* The products of each call by the closed forms (27), (28) and (29).  Below
   length 8 a spectrum has none; at length 1 its closed form is wrong. */

static uint64_t cosine_products(size_t length)
{
    return length * log2_of(length) / 2;
}

static uint64_t spectrum_products(size_t length)
{
    return length < 8 ? 0 : length / 2 * (log2_of(length) - 3) + 2;
}

static uint64_t pair_products(size_t length)
{
    return 2 * spectrum_products(length);
}

/* How many numbers stand before the first one beyond the largest, on either side. */
static size_t numbers_within(const int32_t *numbers, size_t length, int32_t largest)
{
    size_t i;
    for (i = 0; i < length; i++)
        if (numbers[i] < -largest || numbers[i] > largest)
            break;
    return i;
}

static size_t samples_in_range(const int32_t *block, size_t length)
{
    return numbers_within(block, length, LARGEST_SAMPLE);
}

/* ---- The calls ---- */

static void load(int64_t *to, const int32_t *block, size_t length)
{
    size_t i;
    for (i = 0; i < length; i++)
        to[i] = block[i];
}

static void store(int32_t *to, const int64_t *values, size_t how_many)
{
    size_t i;
    for (i = 0; i < how_many; i++)
        to[i] = (int32_t)values[i];
}

static void finish(struct tally spent, uint64_t counts[2], uint64_t *largest_rest, int64_t *scratch, size_t length)
{
    counts[0] = spent.products;
    counts[1] = spent.sums;
    *largest_rest = spent.largest_rest;
    memset(scratch, 0, scratch_words(length) * sizeof *scratch);
}

int plain_spectrum(const int32_t *rec, size_t rec_len, size_t start, size_t length,
                   uint64_t allowance, int32_t *cosine, size_t cosine_len,
                   int32_t *sine, size_t sine_len, int64_t *scratch, size_t scratch_len,
                   uint64_t counts[2], uint64_t *largest_rest, uint64_t *place)
{
    struct tally spent;
    size_t words = length / 2 + 1, good;
    int64_t *c, *s, *work;

    if (!is_length(length))
        return 1;
    if (!holds_block(rec_len, start, length))
        return 2;
    if (cosine_len < words || sine_len < words)
        return 3;
    if (scratch_len < scratch_words(length))
        return 4;
    if (allowance < spectrum_products(length))
        return 5;
    good = samples_in_range(rec + start, length);
    if (good < length) {
        *place = start + good;
        return 6;
    }

    c = scratch + length;
    s = c + words;
    work = s + words;
    load(scratch, rec + start, length);
    spent = cosine_dft(scratch, 1, length, c, work);
    spent = both(spent, sine_dft(scratch, 1, length, s, work));
    store(cosine, c, words);
    store(sine, s, words);
    finish(spent, counts, largest_rest, scratch, length);
    return 0;
}

int plain_cosine(const int32_t *rec, size_t rec_len, size_t start, size_t length,
                 uint64_t allowance, int32_t *result, size_t result_len,
                 int64_t *scratch, size_t scratch_len,
                 uint64_t counts[2], uint64_t *largest_rest, uint64_t *place)
{
    struct tally spent;
    size_t good;

    if (!is_length(length))
        return 1;
    if (!holds_block(rec_len, start, length))
        return 2;
    if (result_len < length)
        return 3;
    if (scratch_len < scratch_words(length))
        return 4;
    if (allowance < cosine_products(length))
        return 5;
    good = samples_in_range(rec + start, length);
    if (good < length) {
        *place = start + good;
        return 6;
    }

    load(scratch, rec + start, length);
    spent = dct(scratch, length, scratch + length);
    store(result, scratch, length);
    finish(spent, counts, largest_rest, scratch, length);
    return 0;
}

/* re and im, k = 0 .. n - 1, from the DFTs of both blocks, k = 0 .. n/2. */
static struct tally combine(const int64_t *c_a, const int64_t *s_a, const int64_t *c_b,
                            const int64_t *s_b, size_t n, int32_t *re, int32_t *im)
{
    struct tally spent = nothing;
    size_t half = n / 2, k;

    /* The sine-DFTs are 0 at both ends. */
    re[0] = (int32_t)c_a[0];
    im[0] = (int32_t)c_b[0];
    re[half] = (int32_t)c_a[half];
    im[half] = (int32_t)c_b[half];

    /* C(n - k) = C(k) by (9), S(n - k) = -S(k) by (10). */
    for (k = 1; k < half; k++) {
        re[k] = (int32_t)(c_a[k] + s_b[k]);
        im[k] = (int32_t)(c_b[k] - s_a[k]);
        re[n - k] = (int32_t)(c_a[k] - s_b[k]);
        im[n - k] = (int32_t)(c_b[k] + s_a[k]);
        spent.sums += 4;
    }
    return spent;
}

int plain_pair(const int32_t *a, size_t a_len, const int32_t *b, size_t b_len,
               size_t start, size_t length, uint64_t allowance,
               int32_t *re, size_t re_len, int32_t *im, size_t im_len,
               int64_t *scratch, size_t scratch_len,
               uint64_t counts[2], uint64_t *largest_rest, uint64_t *place)
{
    struct tally spent;
    size_t words = length / 2 + 1, good;
    int64_t *c_a, *s_a, *c_b, *s_b, *work;

    if (!is_length(length))
        return 1;
    if (!holds_block(a_len, start, length) || !holds_block(b_len, start, length))
        return 2;
    if (re_len < length || im_len < length)
        return 3;
    if (scratch_len < scratch_words(length))
        return 4;
    if (allowance < pair_products(length))
        return 5;
    good = samples_in_range(a + start, length);
    if (good == length)
        good = samples_in_range(b + start, length);
    if (good < length) {
        *place = start + good;
        return 6;
    }

    c_a = scratch + length;
    s_a = c_a + words;
    c_b = s_a + words;
    s_b = c_b + words;
    work = s_b + words;
    load(scratch, a + start, length);
    spent = cosine_dft(scratch, 1, length, c_a, work);
    spent = both(spent, sine_dft(scratch, 1, length, s_a, work));
    load(scratch, b + start, length);
    spent = both(spent, cosine_dft(scratch, 1, length, c_b, work));
    spent = both(spent, sine_dft(scratch, 1, length, s_b, work));
    spent = both(spent, combine(c_a, s_a, c_b, s_b, length, re, im));
    finish(spent, counts, largest_rest, scratch, length);
    return 0;
}

/* ---- The way back ---- */

/* T at a place of the circle, by K's symmetries. */
static int64_t wave_at(size_t place)
{
    place &= CIRCLE - 1;
    if (place > CIRCLE / 2)
        place = CIRCLE - place;
    return place > CIRCLE / 4 ? -quarter_wave[CIRCLE / 2 - place] : quarter_wave[place];
}

/* The value whose coefficient k stands at place k * turn, by the definition: a sum of 128 bits, rounded once. */
static int32_t value_at(const int32_t *c, size_t n, uint64_t power, size_t turn)
{
    __int128 sum = 0;
    size_t place = 0, k;
    for (k = 1; k < n; k++) {
        place += turn;
        sum += c[k] * wave_at(place);
    }
    sum = 2 * sum + ((int64_t)c[0] * ((int64_t)1 << 30));
    return (int32_t)((sum + ((int64_t)n << 29)) >> (30 + power));
}

int plain_inverse_dct(const int32_t *coefficients, size_t coefficients_len, size_t length,
                      int32_t *values, size_t values_len, uint64_t *place)
{
    size_t good, step, i;
    uint64_t power;

    if (!is_length(length))
        return 1;
    if (coefficients_len < length)
        return 2;
    if (values_len < length)
        return 3;
    good = numbers_within(coefficients, length, (int32_t)length * (LARGEST_SAMPLE + 1));
    if (good < length) {
        *place = good;
        return 10;
    }

    step = LONGEST / length;
    power = log2_of(length);
    for (i = 0; i < length; i++)
        values[i] = value_at(coefficients, length, power, (2 * i + 1) * step);
    return 0;
}
