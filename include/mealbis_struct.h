/*
 * mealbis_struct.h: mealbis.h for who would rather fill structs than pass twelve arguments.
 *
 *     static int32_t samples[600];
 *     MEALBIS_WORKSPACE(work, 256);                  the longest block that is wanted
 *
 *     mealbis_recording a = MEALBIS_RECORDING(samples);
 *     uint32_t number = mealbis_spectrum_of(a, 0, 256, &work);
 *
 * Then work.first[k] and work.second[k] are cosine[k] and sine[k], and work.answer has the counts.
 *
 * This header has no promise of its own. Each function below makes one call of mealbis.h, the one of
 * its name, with the words of the structs as arguments, and returns its number; what the call does,
 * what it tests and what a refusal leaves is said there, and there alone it is proved. That the
 * arguments are passed on in their order is tried by tests/c/struct_header.c and not proved. Nothing
 * needs to be linked for it.
 *
 * The section "Buffers" of mealbis.h holds here, too: the three buffers and the struct of a workspace
 * overlap neither each other nor a recording nor a month, and while a call runs a workspace is that
 * call's alone. Two threads need two.
 */
#ifndef MEALBIS_STRUCT_H
#define MEALBIS_STRUCT_H

#include "mealbis.h"

#ifdef __cplusplus
extern "C" {
#endif

/* A recording: its samples, and how many they are. They are only read. */
typedef struct mealbis_recording {
    const int32_t *samples;
    mealbis_size words;
} mealbis_recording;

/* The recording that is a whole array (of an array, not of a pointer), to initialise one with. */
#define MEALBIS_RECORDING(array) { (array), MEALBIS_WORDS(array) }

/*
 * What a call writes, and the products that it may spend. MEALBIS_WORKSPACE fills it in; or do so
 * yourself, for buffers that you have: a block of N samples needs N words of first and of second
 * (N/2 + 1 where only spectra are taken) and 8 N + 64 of scratch. A call changes none of the pointers
 * and counts, nor the allowance.
 */
typedef struct mealbis_workspace {
    int32_t *first; /* results: cosine[k], coefficients[k] or re[k] */
    mealbis_size first_words;
    int32_t *second; /* results: sine[k] or im[k]; mealbis_cosine_of leaves them as they are */
    mealbis_size second_words;
    int64_t *scratch;
    mealbis_size scratch_words;
    uint64_t allowance;    /* the products that a call may spend */
    mealbis_answer answer; /* what the last call told, in every answer of it */
    uint64_t mark;         /* of the last call where it was mealbis_mark_of, else MEALBIS_NO_MARK */
} mealbis_workspace;

/*
 * Declares a workspace of this name for blocks up to `longest` samples, a constant, with static
 * buffers of its own: 72 * longest + 512 bytes, 74,240 for MEALBIS_LONGEST_BLOCK. Its allowance allows
 * everything. It may stand at the top of a file or in a function, where it is one for all calls of it.
 */
#define MEALBIS_WORKSPACE(name, longest)                                                           \
    static int32_t name##_first[longest], name##_second[longest];                                  \
    static int64_t name##_scratch[MEALBIS_SCRATCH_WORDS(longest)];                                 \
    static mealbis_workspace name = {                                                              \
        name##_first,   MEALBIS_WORDS(name##_first),   name##_second, MEALBIS_WORDS(name##_second), \
        name##_scratch, MEALBIS_WORDS(name##_scratch), UINT64_MAX,    { 0, 0, 0, 0 },              \
        MEALBIS_NO_MARK                                                                            \
    }

/* mealbis_spectrum: cosine[k] to first, sine[k] to second. */
MEALBIS_CHECKED static inline uint32_t mealbis_spectrum_of(
    mealbis_recording recording, mealbis_size start, mealbis_size length, mealbis_workspace *work)
{
    work->mark = MEALBIS_NO_MARK;
    return mealbis_spectrum(recording.samples, recording.words, start, length, work->allowance,
                            work->first, work->first_words, work->second, work->second_words,
                            work->scratch, work->scratch_words, &work->answer);
}

/* mealbis_mark: cosine[k] to first, sine[k] to second, the mark to mark. */
MEALBIS_CHECKED static inline uint32_t mealbis_mark_of(
    mealbis_recording recording, mealbis_size start, mealbis_size length,
    int32_t flat_limit, int32_t clip_level, mealbis_workspace *work)
{
    mealbis_mark_answer answer;
    uint32_t number = mealbis_mark(recording.samples, recording.words, start, length,
                                   work->allowance, flat_limit, clip_level,
                                   work->first, work->first_words, work->second, work->second_words,
                                   work->scratch, work->scratch_words, &answer);
    work->answer.products = answer.products;
    work->answer.sums = answer.sums;
    work->answer.largest_rest = answer.largest_rest;
    work->answer.place = answer.place;
    work->mark = answer.mark;
    return number;
}

/* mealbis_month_add: as mealbis_spectrum_of, and the coefficients are added for the party. */
MEALBIS_CHECKED static inline uint32_t mealbis_month_add_of(
    mealbis_month *month, mealbis_size party, mealbis_recording recording,
    mealbis_size start, mealbis_size length, mealbis_workspace *work)
{
    work->mark = MEALBIS_NO_MARK;
    return mealbis_month_add(month, party, recording.samples, recording.words, start, length,
                             work->allowance,
                             work->first, work->first_words, work->second, work->second_words,
                             work->scratch, work->scratch_words, &work->answer);
}

/* mealbis_cosine: coefficients[k] to first; second is left as it is. */
MEALBIS_CHECKED static inline uint32_t mealbis_cosine_of(
    mealbis_recording recording, mealbis_size start, mealbis_size length, mealbis_workspace *work)
{
    work->mark = MEALBIS_NO_MARK;
    return mealbis_cosine(recording.samples, recording.words, start, length, work->allowance,
                          work->first, work->first_words,
                          work->scratch, work->scratch_words, &work->answer);
}

/* mealbis_pair: re[k] to first, im[k] to second. */
MEALBIS_CHECKED static inline uint32_t mealbis_pair_of(
    mealbis_recording a, mealbis_recording b, mealbis_size start, mealbis_size length,
    mealbis_workspace *work)
{
    work->mark = MEALBIS_NO_MARK;
    return mealbis_pair(a.samples, a.words, b.samples, b.words, start, length, work->allowance,
                        work->first, work->first_words, work->second, work->second_words,
                        work->scratch, work->scratch_words, &work->answer);
}

#ifdef __cplusplus
}
#endif

#endif
