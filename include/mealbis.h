/*
 * mealbis.h: spectra of strain blocks, for C.
 *
 * Link with libmealbis.a, which `rt lib --cpu x86-64` builds in the folder crates/mealbis:
 *     cc -Iinclude program.c crates/mealbis/out/libmealbis.a
 * The archive is for x86-64 Linux: ELF, the System V calling convention, position-independent, SSE2
 * and no later instructions. It is built for no other target: not for ARM, not for 32 bits, not for
 * Windows or macOS.
 * The library needs `memset` and `memcpy` and nothing else of the C library. It is written in Rattle
 * and proved: for every input that keeps the section "Buffers" each function answers as said here,
 * writes nothing else, and ends. "Document 01" is docs/01-scope.md; the promises themselves are in
 * crates/mealbis/specs/Promises.antt.
 *
 * ---- Numbers
 *
 * A sample is a whole number of hundredths of a microstrain, -1,000,000 to 1,000,000. Coefficients
 * are in the same unit and always fit an int32_t. A block is `length` samples of a recording from
 * `start` on, start counting from 0. `length`, N below, is 1, 2, 4, 8, .. 512 or 1,024.
 *
 * ---- What the coefficients mean
 *
 * With `rate` samples a second, coefficient k belongs to the frequency k * rate / N. The complex DFT
 * of a block is
 *     X(k) = cosine[k] - i sine[k]
 * with a MINUS: its phase is atan2(-sine[k], cosine[k]). A wave A cos(2 pi n k / N + phase), with
 * 0 < k < N/2, has X(k) = (N/2) A exp(i phase); so its amplitude is 2 |X(k)| / N, in the unit of the
 * samples. At k = 0 (the mean) and k = N/2 it is |X(k)| / N. A square of a coefficient needs int64_t.
 *
 * mealbis_pair gives the DFT of a + i b. The spectra of a and b, for k = 1 .. N/2 - 1, are
 *     cosine of a = (re[k] + re[N-k]) / 2        sine of a = (im[N-k] - im[k]) / 2
 *     cosine of b = (im[k] + im[N-k]) / 2        sine of b = (re[k] - re[N-k]) / 2
 * and at k = 0 and N/2 re[k] and im[k] are the cosines of a and b, and the sines are 0. Sums and
 * differences fit an int32_t, the halves are whole, and the result is mealbis_spectrum's to the
 * last digit. Where only these are wanted, two calls of mealbis_spectrum cost less: the same
 * products and, from N = 4 on, 2 N - 4 sums fewer.
 *
 * ---- Exact sums and the table
 *
 * "Exact sum" below is document 01's: over K, cosines held to 80 bits behind the point, and not over
 * the table that the library computes with. The table, T, has them to 30 bits, each rounded to the
 * nearest, a tie going to the larger: T(j) is K(j) / 2^50 + 1/2, rounded down. So the limits that are
 * said at the functions hold for what the table leaves out and for every rounding together.
 * mealbis_inverse_dct alone is defined over T itself.
 *
 * ---- Answers
 *
 * Every function that can refuse returns 0 when it accepts, else the number of the first condition
 * that holds, in the order given at the function (mealbis_reason gives it in words):
 *
 *   1  length is not one of the eleven lengths
 *   2  start + length is more than the words of a recording; a sum beyond UINT64_MAX is more, too;
 *      in mealbis_inverse_dct, fewer than length coefficients are stored; in mealbis_page, fewer than
 *      length / 2 + 1 cosine or sine coefficients
 *   3  a result buffer is too short; in mealbis_read, a recording is shorter than the file's samples;
 *      in mealbis_write, the buffer of the file is shorter than 8 + 8 * samples bytes; in
 *      mealbis_page, that of the page is below 31 bytes for each line, the heading too
 *   4  scratch is shorter than 8 * length + 64 words
 *   5  the allowance is below the products that the call spends
 *   6  a sample is out of range, of the block or, in mealbis_read and mealbis_write, of the two whole
 *      recordings; place is the first such place
 *   7  the file is shorter than 8 bytes
 *   8  the file's sample count is 0 or above 4,096; in mealbis_write, the words of a are
 *   9  the file's length is not 8 + 8 * samples bytes
 *  10  a stored coefficient is beyond length * 1,000,000 + length on either side; place is the
 *      first such k
 *  11  the two recordings of mealbis_write differ in length
 *  12  the flat limit of mealbis_mark is negative, or its clip level is outside 1 to 1,000,000
 *  13  the block's length is not the month's; always, where the month's beginning was refused, and
 *      where its words are those of an earlier version
 *  14  the party holds 50,000 blocks in the month
 *  15  the party is neither 1 nor 2
 *  16  no sum of the month belongs to this k
 *
 * After a refusal every buffer is as it was, and so are both accounts in the month of
 * mealbis_month_add; but mealbis_month_begin makes a month in every answer. What else a function
 * tells, it writes to one record, its last parameter. The record is the answer and no buffer: every
 * word of it is written in EVERY answer, so that none keeps an old value:
 *   - counts, the largest rest, sizes, the mark, a party's blocks and its sums hold what the function
 *     says when it accepts, and 0 after a refusal;
 *   - place holds the place after refusals 6 and 10, and 0 in every other answer. After 6 it counts
 *     from 0 at the first sample of the recording, not of the block; after 10 it is the coefficient's
 *     k.
 *
 * ---- Counts and the allowance
 *
 * products and sums are the multiplications and additions of the transform, tallied where they are
 * made. The length alone decides them; mealbis_counts tells them beforehand. No call spends more
 * products than its allowance: it is refused (5) before it begins. UINT64_MAX allows everything.
 *
 * ---- The largest rest
 *
 * A transform forms numbers with the cosine table in 2^-30 of the coefficients' unit, and rounds each
 * to whole units, a tie going to the larger. What it throws away is the rest: the number before
 * rounding less 2^30 times the rounded one, -2^29 to 2^29 - 1; 2^29 is half a unit of the last digit.
 * largest_rest is the largest size, without sign, that a rest has among all roundings of the call:
 * at most MEALBIS_LARGEST_REST, and 0 where nothing was rounded, which is so in mealbis_cosine at
 * N = 1, in mealbis_spectrum, mealbis_mark, mealbis_month_add and mealbis_pair below N = 8. It tells
 * how near single roundings came; how far a coefficient may be from its exact sum is said at the
 * function.
 *
 * ---- Buffers
 *
 *   - A buffer is a pointer and a count of WORDS, not of bytes (of bytes for a file or a page). It
 *     may be longer than needed; the words beyond those listed at the function stay as they are. But
 *     mealbis_read takes the whole file and mealbis_write both recordings whole: there the counts
 *     say how long they are.
 *   - What a call writes (results, scratch, a month, the recordings of mealbis_read, the file of
 *     mealbis_write, the page of mealbis_page, the record) must not overlap anything else that the
 *     call is given. What it only reads may overlap: a and b of mealbis_pair, or of mealbis_write,
 *     may be one recording, cosine and sine of mealbis_page one array. Recordings, stored
 *     coefficients, months and files that are only read may lie in read-only memory.
 *   - While a call runs, nobody else may write its buffers, nor read those that it writes, the
 *     record too: no other thread, no interrupt handler, no DMA transfer.
 *   - Pointers are aligned as their type asks: 4 bytes for int32_t, 8 for int64_t, a month and a
 *     record, 1 for a file and for a page.
 *   - What a call writes may hold anything before it. After an accepted call the first
 *     8 * length + 64 words of scratch are 0.
 *   - An empty buffer (count 0) is refused, by 2, 3, 4, 7, 8 or 11 where no earlier condition holds,
 *     and nothing is read or written through its pointer. NULL with count 0 is answered in the same
 *     way: so it is in the library as it is built today, and tests/c/self_check.c tries it for
 *     each buffer. But it is not promised: the proof is about slices of memory and does not know a
 *     null pointer. Pass the address of any object with count 0 to rely on nothing but the proof.
 *   - NULL with another count, or for a record or a month, is the caller's error and is not tested.
 *
 * ---- What a call needs
 *
 * No heap, no lock, no file, no global state: calls with buffers of their own may run at the same
 * time in threads and interrupt handlers.
 *
 * In an interrupt handler without an operating system (as the archive is built today; the proof does
 * not speak of registers):
 *   - It uses the vector registers, xmm, but neither AVX nor x87. Save and restore them.
 *   - The stack is aligned to 16 bytes at a call, as C asks: it is written by aligned instructions.
 *   - It uses the red zone, the 128 bytes below the stack pointer. What interrupts a call leaves them
 *     alone or runs on another stack.
 *
 * Stack: a copy of the cosine table, 4,100 bytes, and frames whose number depends on the length
 * alone. Measured at length 1,024, in bytes: mealbis_cosine 7,024, mealbis_month_add 6,960,
 * mealbis_mark 6,928, mealbis_spectrum 6,880, mealbis_pair 6,832, mealbis_inverse_dct 4,216,
 * mealbis_page 168, mealbis_read 104, mealbis_write 72, mealbis_counts 56, the other calls on a month
 * 40 at most; shorter blocks take no more.
 * The proof does not speak of the stack: allow 8 KiB. tests/run_self_check.py measures it.
 */
#ifndef MEALBIS_H
#define MEALBIS_H

#include <stdint.h>

#ifdef __cplusplus
extern "C" {
#endif

/* The version, 10000 major + 100 minor + patch: of this header, and of the archive that is linked. */
#define MEALBIS_VERSION 40000u
uint32_t mealbis_version(void);

/* Every count, start, length and place: 64 bits on every machine. On x86-64 Linux it is size_t. */
typedef uint64_t mealbis_size;

/* A compiler that can, GCC or Clang, warns where the number of an answer is thrown away. */
#if defined(__GNUC__)
#define MEALBIS_CHECKED __attribute__((warn_unused_result))
#else
#define MEALBIS_CHECKED
#endif

/* The answers. */
#define MEALBIS_ACCEPTED 0u
#define MEALBIS_BAD_LENGTH 1u
#define MEALBIS_BEYOND_RECORDING 2u /* of stored coefficients: too few */
#define MEALBIS_RESULT_TOO_SHORT 3u
#define MEALBIS_SCRATCH_TOO_SHORT 4u
#define MEALBIS_ALLOWANCE_TOO_SMALL 5u
#define MEALBIS_OUT_OF_RANGE 6u
#define MEALBIS_FILE_BELOW_HEADER 7u
#define MEALBIS_BAD_SAMPLE_COUNT 8u /* in mealbis_write: by the words of a */
#define MEALBIS_BAD_FILE_LENGTH 9u
#define MEALBIS_COEFFICIENT_BEYOND_LIMIT 10u
#define MEALBIS_RECORDINGS_DIFFER 11u
#define MEALBIS_BAD_FIGURES 12u /* the flat limit or the clip level */
#define MEALBIS_OTHER_LENGTH 13u /* than the month's */
#define MEALBIS_MONTH_FULL 14u /* for this party */
#define MEALBIS_UNKNOWN_PARTY 15u /* neither 1 nor 2 */
#define MEALBIS_NOT_YIELDED 16u /* of a k */

/* The number of an answer in words. */
static inline const char *mealbis_reason(uint32_t number)
{
    switch (number) {
    case MEALBIS_ACCEPTED: return "accepted";
    case MEALBIS_BAD_LENGTH: return "the length is none of the eleven";
    case MEALBIS_BEYOND_RECORDING: return "the recording or the coefficients end too soon";
    case MEALBIS_RESULT_TOO_SHORT: return "a buffer for results is too short";
    case MEALBIS_SCRATCH_TOO_SHORT: return "scratch is too short";
    case MEALBIS_ALLOWANCE_TOO_SMALL: return "the allowance is below the products that are spent";
    case MEALBIS_OUT_OF_RANGE: return "a sample is out of range";
    case MEALBIS_FILE_BELOW_HEADER: return "the file is shorter than 8 bytes";
    case MEALBIS_BAD_SAMPLE_COUNT: return "the sample count is 0 or above 4,096";
    case MEALBIS_BAD_FILE_LENGTH: return "the file is not 8 + 8 * samples bytes long";
    case MEALBIS_COEFFICIENT_BEYOND_LIMIT: return "a stored coefficient is beyond its limit";
    case MEALBIS_RECORDINGS_DIFFER: return "the two recordings differ in length";
    case MEALBIS_BAD_FIGURES:
        return "the flat limit is negative, or the clip level is outside 1 to 1,000,000";
    case MEALBIS_OTHER_LENGTH: return "the block's length is not the month's";
    case MEALBIS_MONTH_FULL: return "the party holds 50,000 blocks in the month";
    case MEALBIS_UNKNOWN_PARTY: return "the party is neither 1 nor 2";
    case MEALBIS_NOT_YIELDED: return "no sum of the month belongs to this k";
    default: return "no call of this version gives this number";
    }
}

/* The marks of a block. */
#define MEALBIS_NO_MARK 0u /* after a refusal */
#define MEALBIS_FLAT 1u
#define MEALBIS_CLIPPED 2u
#define MEALBIS_PLAIN 3u

/* Sizes. */
#define MEALBIS_LONGEST_BLOCK 1024
#define MEALBIS_LARGEST_SAMPLE 1000000
#define MEALBIS_LARGEST_REST 536870912 /* 2^29 */
#define MEALBIS_MOST_FILE_SAMPLES 4096
#define MEALBIS_MOST_BLOCKS 50000 /* of a party in a month */
#define MEALBIS_MONTH_WORDS 2055
#define MEALBIS_MONTH_EDITION 40000 /* the version from which on months are laid out and made so */
#define MEALBIS_SPECTRUM_WORDS(length) ((length) / 2 + 1)
#define MEALBIS_SCRATCH_WORDS(length) (8 * (length) + 64)
#define MEALBIS_FILE_BYTES(samples) (8 + 8 * (samples))
#define MEALBIS_PAGE_LINE_BYTES 31
#define MEALBIS_PAGE_BYTES(length) (MEALBIS_PAGE_LINE_BYTES * ((length) / 2 + 2))
/* For one of the eleven lengths. It is signed, so that it may be compared with a coefficient. */
#define MEALBIS_LARGEST_COEFFICIENT(length) ((int32_t)(length) * (MEALBIS_LARGEST_SAMPLE + 1))
/* The words of an array, for the counts beside each pointer. Of an array, not of a pointer. */
#define MEALBIS_WORDS(array) (sizeof(array) / sizeof((array)[0]))

/* The records: what a call tells beside its number, in words of 64 bits without a gap. */

/* Of mealbis_spectrum, mealbis_month_add, mealbis_cosine and mealbis_pair. */
typedef struct mealbis_answer {
    uint64_t products;     /* the multiplications that were spent */
    uint64_t sums;         /* the additions */
    uint64_t largest_rest; /* the largest size of a rest */
    mealbis_size place;    /* of the first sample out of range */
} mealbis_answer;

/* Of mealbis_mark. */
typedef struct mealbis_mark_answer {
    uint64_t products;     /* these four as in mealbis_answer */
    uint64_t sums;
    uint64_t largest_rest;
    mealbis_size place;
    uint64_t mark;         /* MEALBIS_FLAT, MEALBIS_CLIPPED or MEALBIS_PLAIN */
} mealbis_mark_answer;

/* Of mealbis_month_blocks. */
typedef struct mealbis_blocks {
    int64_t blocks; /* how many the party added */
} mealbis_blocks;

/* Of mealbis_month_sums: the sums of a party for one k. */
typedef struct mealbis_sums {
    int64_t cosine; /* of the cosine coefficients */
    int64_t sine;   /* of the sine coefficients */
} mealbis_sums;

/* Of mealbis_page. */
typedef struct mealbis_page_answer {
    mealbis_size bytes; /* of the page */
} mealbis_page_answer;

/* Of mealbis_inverse_dct. */
typedef struct mealbis_inverse_answer {
    mealbis_size place; /* the k of the first coefficient beyond its limit */
} mealbis_inverse_answer;

/* Of mealbis_counts. */
typedef struct mealbis_counts_answer {
    uint64_t dct_products;      /* of mealbis_cosine */
    uint64_t dct_sums;          /* of mealbis_cosine */
    uint64_t spectrum_products; /* of mealbis_spectrum, mealbis_mark and mealbis_month_add */
    uint64_t spectrum_sums;     /* of these three */
    uint64_t pair_products;     /* of mealbis_pair */
    uint64_t pair_sums;         /* of mealbis_pair */
} mealbis_counts_answer;

/* Of mealbis_read. */
typedef struct mealbis_read_answer {
    mealbis_size samples; /* of each recording */
    mealbis_size length;  /* of a block */
    mealbis_size place;   /* of the first sample out of range */
} mealbis_read_answer;

/* Of mealbis_write. */
typedef struct mealbis_write_answer {
    mealbis_size bytes; /* of the file */
    mealbis_size place; /* of the first sample out of range */
} mealbis_write_answer;

/*
 * Spectrum: cosine-DFT and sine-DFT of a block x(0) .. x(N-1), for k = 0 .. N/2 (k = 0 at N = 1):
 *   cosine[k] is the sum of x(n) * cos(2 pi n k / N), sine[k] that of x(n) * sin(2 pi n k / N),
 *   each within N/8 of document 01's exact sum.
 * Tests 1, 2, 3, 4, 5, 6. On acceptance products and sums are what was spent, and largest_rest is the
 * largest size of a rest.
 *
 *   recording, recording_words   the samples; only those of the block are examined
 *   cosine, cosine_words         at least N/2 + 1 words
 *   sine, sine_words             at least N/2 + 1 words
 *   scratch, scratch_words       at least 8 N + 64 words
 */
MEALBIS_CHECKED uint32_t mealbis_spectrum(
    const int32_t *recording, mealbis_size recording_words,
    mealbis_size start, mealbis_size length, uint64_t allowance,
    int32_t *cosine, mealbis_size cosine_words,
    int32_t *sine, mealbis_size sine_words,
    int64_t *scratch, mealbis_size scratch_words,
    mealbis_answer *answer);

/*
 * Mark: the spectrum of a block, and the block's mark by two figures of the owner's:
 *   MEALBIS_FLAT      every cosine[k] and sine[k] from k = 1 on is at most flat_limit in size;
 *   MEALBIS_CLIPPED   else, where a sample of the block is at least clip_level in size;
 *   MEALBIS_PLAIN     else.
 * So a block that meets both rules is flat. At N = 1 there is no k = 1, and every block is flat. The
 * mean, k = 0, does not count. The sizes are without sign, and the figures are compared with the
 * coefficients that the call yields and with the samples as they are, without rounding.
 *
 * Tests 1, 2, 3, 4, 5, 6, 12. On acceptance everything is as after mealbis_spectrum with the same
 * words (coefficients, scratch, products, sums, largest_rest), and mark is the mark. Every refusal of
 * mealbis_spectrum is one of mealbis_mark, and 12 is one more. After a refusal mark is
 * MEALBIS_NO_MARK.
 *
 *   flat_limit    0 or more, in the unit of the coefficients: hundredths of a microstrain, summed
 *                 over the block. A wave of amplitude A gives up to N/2 * A, and N * A at k = N/2.
 *                 INT32_MAX makes every block flat.
 *   clip_level    1 to 1,000,000, in the unit of the samples; all else as in mealbis_spectrum
 */
MEALBIS_CHECKED uint32_t mealbis_mark(
    const int32_t *recording, mealbis_size recording_words,
    mealbis_size start, mealbis_size length, uint64_t allowance,
    int32_t flat_limit, int32_t clip_level,
    int32_t *cosine, mealbis_size cosine_words,
    int32_t *sine, mealbis_size sine_words,
    int64_t *scratch, mealbis_size scratch_words,
    mealbis_mark_answer *answer);

/*
 * A month: sums of the spectra of many blocks of one length N, for two owners, the parties 1 and 2,
 * in 16,440 bytes that you keep. Write them by mealbis_month_begin and mealbis_month_add alone. Such
 * a month may be copied, stored and taken up again; its words are
 *   words[0]                 the mark: 65,536 * MEALBIS_MONTH_EDITION + N, or 0 where beginning was
 *                            refused
 *   words[1] .. [1027]       the account of party 1
 *   words[1028] .. [2054]    the account of party 2
 * An account has 1,027 words; from its first, words[f], on they are
 *   words[f]                 the block number n: how many blocks the party added, 0 to 50,000
 *   words[f + 1 + k]         for k = 0 .. N/2 the sum of cosine[k] over those blocks
 *   words[f + 514 + k]       for k = 0 .. N/2 the sum of sine[k]
 * and all others are 0. Each sum is within n * N/8 of the exact one, the sum of document 01's exact
 * sums of the party's blocks, n being that party's number of blocks; and far below 2^63 in size.
 *
 * The accounts have the length in common and nothing else. One owner's answers, refusals and sums
 * depend on the month's length and on that owner's own calls only, whatever the other adds or is
 * refused, and also where the other is full: so two owners need not trust each other's calls. But the
 * party is what the caller says, mealbis_month_begin begins the month for both, and nobody protects
 * the words: who can write them can change both accounts. Nor may two calls on one month run at the
 * same time where one of them writes it, also not for two parties (section "Buffers").
 *
 * The sums add coefficients with their signs: a wave that has the same phase in every block adds up,
 * and one whose phase turns from block to block cancels, however strong it is. For its strength, add
 * squares of the coefficients yourself.
 *
 * Blocks without a gap last N / rate seconds each, so a party is full after 50,000 * N / rate
 * seconds: with N = 256 at 32 samples a second after 400,000, some 4.6 days. 30 days fit where a
 * block lasts 52 seconds or more, as with N = 1,024 at up to 19 samples a second.
 *
 * A month of an earlier version has N itself in words[0], and 1,028 words in all: "Months begun
 * earlier are closed before the change." At the front of a month of this version it is of the length
 * 0: mealbis_month_add answers 13 to every block of a party, and it stays as it is.
 *
 * In words that no month left there nothing overflows either, and nothing outside the month is
 * touched: where words[0] is the mark of none of the eleven lengths, the length is read as 0; a block
 * number is told as it stands, 50,000 or more is full, and a negative one goes up by 1 as any other;
 * a sum beyond 2^62 in size stays as it is.
 */
typedef struct mealbis_month {
    int64_t words[MEALBIS_MONTH_WORDS];
} mealbis_month;

/*
 * Begins a month of no blocks for one length and both parties, whatever stands in its words. Tests 1.
 * After the refusal it is a month too, of the length 0 and with every word 0, and mealbis_month_add
 * answers 13 to every block of a party.
 */
MEALBIS_CHECKED uint32_t mealbis_month_begin(mealbis_month *month, mealbis_size length);

/*
 * Adds a party's block to a month: does what mealbis_spectrum does with the same words, adds each
 * cosine[k] and sine[k], k = 0 .. N/2, to that party's sum for k, and 1 to its block number. The
 * other party's account stays as it is.
 * Tests 15, 13, 14, 2, 3, 4, 5, 6; 14 by this party's block number alone. On acceptance everything
 * else is as after mealbis_spectrum (coefficients, scratch, products, sums, largest_rest). A refused
 * block leaves the month, both accounts, as it was.
 *
 *   party    1 or 2; all else, but the month, as in mealbis_spectrum. sums are the additions of the
 *            transform, as there: those to the month's sums are not counted
 */
MEALBIS_CHECKED uint32_t mealbis_month_add(
    mealbis_month *month, mealbis_size party,
    const int32_t *recording, mealbis_size recording_words,
    mealbis_size start, mealbis_size length, uint64_t allowance,
    int32_t *cosine, mealbis_size cosine_words,
    int32_t *sine, mealbis_size sine_words,
    int64_t *scratch, mealbis_size scratch_words,
    mealbis_answer *answer);

/*
 * The length for which a month is begun, the same for both parties; 0 where beginning was refused,
 * and where words[0] is no mark, as in a month of an earlier version.
 */
mealbis_size mealbis_month_length(const mealbis_month *month);

/* The block number of a party: blocks is how many blocks it added. Tests 15. */
MEALBIS_CHECKED uint32_t mealbis_month_blocks(
    const mealbis_month *month, mealbis_size party, mealbis_blocks *blocks);

/*
 * The two sums of a party for one k: cosine that of the cosine coefficients, sine that of the sine
 * coefficients. Tests 15, 16: k is above N/2, or the month is of the length 0.
 */
MEALBIS_CHECKED uint32_t mealbis_month_sums(
    const mealbis_month *month, mealbis_size party, mealbis_size k, mealbis_sums *sums);

/*
 * A page for the site binder: a spectrum that mealbis_spectrum made, or any stored coefficients, as
 * text. It has MEALBIS_PAGE_BYTES(N) bytes, in lines of 30 columns and a line feed, 31 bytes each:
 * a heading, and below it a line for each k = 0 .. N/2 (k = 0 at N = 1) with cosine[k] and sine[k].
 * Columns are k in 4, cosine in 12 and sine in 12, right aligned, with one space between, the numbers
 * in decimal:
 *        k       cosine         sine
 *        0       591440            0
 *        1      -241255        19515
 * It is put at the front of `page`. bytes is how many bytes it has, and the bytes after it stay; no
 * zero byte ends it. Tests 1, 2, 3.
 *
 * Every int32_t fits its column, so that no line is ever longer. Two pages are equal only if they are
 * of one N, and every cosine[k] and sine[k] of the one equals that of the other.
 *
 *   cosine, cosine_words    at least N/2 + 1 words; only the first N/2 + 1 are read
 *   sine, sine_words        the same
 *   page, page_bytes        at least MEALBIS_PAGE_BYTES(N) bytes
 */
MEALBIS_CHECKED uint32_t mealbis_page(
    const int32_t *cosine, mealbis_size cosine_words,
    const int32_t *sine, mealbis_size sine_words,
    mealbis_size length,
    uint8_t *page, mealbis_size page_bytes,
    mealbis_page_answer *answer);

/*
 * Cosine: the DCT-II of a block, for k = 0 .. N-1, with no factor 2 and no special weight at k = 0:
 *   coefficients[k] is the sum of x(n) * cos(pi (2n + 1) k / (2 N)), within (N + 1)/4 of document
 *   01's exact sum.
 * Tests 1, 2, 3, 4, 5, 6. On acceptance products and sums are what was spent, and largest_rest is the
 * largest size of a rest.
 *
 *   coefficients, coefficients_words   at least N words; all else as in mealbis_spectrum
 */
MEALBIS_CHECKED uint32_t mealbis_cosine(
    const int32_t *recording, mealbis_size recording_words,
    mealbis_size start, mealbis_size length, uint64_t allowance,
    int32_t *coefficients, mealbis_size coefficients_words,
    int64_t *scratch, mealbis_size scratch_words,
    mealbis_answer *answer);

/*
 * The inverse DCT: strain back from the stored coefficients c(0) .. c(N-1) of mealbis_cosine:
 *   values[n] is (c(0) + 2 * the sum over k = 1 .. N-1 of c(k) * cos(pi (2n + 1) k / (2 N))) / N,
 *   rounded once to the nearest whole number, a tie going to the larger. The sum is exact, and the
 *   cosine is T((2n + 1) k 1024 / N) / 2^30, T being document 01's stored quarter wave, taken round
 *   the circle by the symmetries of K.
 * Tests 1, 2, 3, 10. It needs no scratch and no allowance, counts nothing and tells no rest. Every
 * accepted value fits an int32_t. It is not fast: each value is a sum of its own, so its time grows as
 * N * N, and at N = 1,024 it takes some hundred times that of mealbis_cosine.
 *
 * A block sent through mealbis_cosine and back is never refused by 10, and each value is within N of
 * its sample: |values[n] - x(n)| <= N. So a value may be beyond the range of a sample by up to N.
 *
 *   coefficients, coefficients_words   at least N words, c(k) in word k; only the first N are
 *                                      examined, each at most MEALBIS_LARGEST_COEFFICIENT(N) in size
 *   values, values_words               at least N words
 */
MEALBIS_CHECKED uint32_t mealbis_inverse_dct(
    const int32_t *coefficients, mealbis_size coefficients_words,
    mealbis_size length,
    int32_t *values, mealbis_size values_words,
    mealbis_inverse_answer *answer);

/*
 * Pair: the complex DFT of two recordings, a + i b, for k = 0 .. N-1:
 *   re[k] + i im[k] is the sum of (a(n) + i b(n)) * exp(-2 pi i n k / N), each part within N/4 of
 *   document 01's exact sum.
 * One start serves both recordings, which may differ in length. Tests 1, 2, 3, 4, 5, 6; 6 examines
 * a's block and then b's, and place does not say in which of them the sample is: where a's sample
 * there is in range, it is b's. On acceptance products and sums are what was spent, and largest_rest
 * is the largest size of a rest, of a's roundings and b's.
 *
 *   a, a_words; b, b_words     the samples; only those of the blocks are examined
 *   re, re_words               at least N words
 *   im, im_words               at least N words
 *   scratch, scratch_words     at least 8 N + 64 words
 */
MEALBIS_CHECKED uint32_t mealbis_pair(
    const int32_t *a, mealbis_size a_words,
    const int32_t *b, mealbis_size b_words,
    mealbis_size start, mealbis_size length, uint64_t allowance,
    int32_t *re, mealbis_size re_words,
    int32_t *im, mealbis_size im_words,
    int64_t *scratch, mealbis_size scratch_words,
    mealbis_answer *answer);

/*
 * The count query: what the calls spend on a block of this length; the products are the least
 * allowance that they accept. Tests 1; after the refusal all six are 0.
 */
MEALBIS_CHECKED uint32_t mealbis_counts(mealbis_size length, mealbis_counts_answer *answer);

/*
 * Reads the bytes of a pair file: sample count m and block length N, 32 bits unsigned each, then m
 * samples of a and m of b, 32 bits signed, all little-endian. Writes m words of a and m of b,
 * samples = m and length = N. Tests 7, 8, 9, 1, 3, 6; 6 examines all samples of a, then those of b.
 * A file has m / N blocks, the first at start 0; a tail shorter than N makes none.
 *
 *   file, file_bytes    the whole file
 *   a, a_words          at least m words; 4,096 are enough for every file
 *   b, b_words          the same
 */
MEALBIS_CHECKED uint32_t mealbis_read(
    const uint8_t *file, mealbis_size file_bytes,
    int32_t *a, mealbis_size a_words,
    int32_t *b, mealbis_size b_words,
    mealbis_read_answer *answer);

/*
 * Writes a pair file: the bytes that mealbis_read reads, for two recordings of m samples each and a
 * block length N. With m = a_words it writes 8 + 8 m bytes, MEALBIS_FILE_BYTES(m), to the front of
 * `file`: m and N, 32 bits unsigned each, then the m samples of a and the m samples of b, 32 bits
 * signed, all little-endian. bytes is how many they are, and the bytes after them stay.
 * Tests 8 (by a_words), 11, 1, 6, 3; 6 examines all samples of a, then those of b, and place does not
 * say in which of them the sample is: where a's sample there is in range, it is b's.
 *
 * Each accepted input has one file, and mealbis_read returns the input from it: samples = m,
 * length = N, and every sample of a and of b. Any N of the eleven lengths will do, also one above m;
 * such a file has no block.
 *
 *   a, a_words          the m samples: 1 to 4,096 words
 *   b, b_words          just as many words
 *   file, file_bytes    at least 8 + 8 m bytes; 32,776 are enough for every file
 */
MEALBIS_CHECKED uint32_t mealbis_write(
    const int32_t *a, mealbis_size a_words,
    const int32_t *b, mealbis_size b_words,
    mealbis_size length,
    uint8_t *file, mealbis_size file_bytes,
    mealbis_write_answer *answer);

#ifdef __cplusplus
}
#endif

#endif
