/* Plain C99 version of the calls of docs/01-scope.md and of the way back from stored
   DCT-II coefficients, for benchmarks only.

   Every call returns 0 when it is accepted, else the number of its refusal:
     1  length is not one of 1, 2, 4, .. 1024
     2  start + length exceeds the length of a recording; fewer than length coefficients are stored
     3  a result buffer is too short
     4  scratch is shorter than MEALBIS_SCRATCH_WORDS(length) words
     5  the allowance is below the products of the call
     6  a sample of the block is out of range; *place is its place in the recording
    10  a stored coefficient is beyond length * 1000000 + length; *place is its k

   An accepted call writes its results, sets counts[0] to the products and
   counts[1] to the sums it has made and *largest_rest to the largest size of a
   rest among its roundings, and leaves 0 in the first
   MEALBIS_SCRATCH_WORDS(length) words of scratch.  A refused call writes nothing, except
   *place at refusals 6 and 10.  No buffer may overlap another. */

#ifndef PLAIN_H
#define PLAIN_H

#include <stddef.h>
#include <stdint.h>

/* cosine-DFT and sine-DFT, k = 0 .. length/2 */
int plain_spectrum(const int32_t *rec, size_t rec_len, size_t start, size_t length,
                   uint64_t allowance, int32_t *cosine, size_t cosine_len,
                   int32_t *sine, size_t sine_len, int64_t *scratch, size_t scratch_len,
                   uint64_t counts[2], uint64_t *largest_rest, uint64_t *place);

/* DCT-II, k = 0 .. length - 1 */
int plain_cosine(const int32_t *rec, size_t rec_len, size_t start, size_t length,
                 uint64_t allowance, int32_t *result, size_t result_len,
                 int64_t *scratch, size_t scratch_len,
                 uint64_t counts[2], uint64_t *largest_rest, uint64_t *place);

/* complex DFT of a + ib, k = 0 .. length - 1 */
int plain_pair(const int32_t *a, size_t a_len, const int32_t *b, size_t b_len,
               size_t start, size_t length, uint64_t allowance,
               int32_t *re, size_t re_len, int32_t *im, size_t im_len,
               int64_t *scratch, size_t scratch_len,
               uint64_t counts[2], uint64_t *largest_rest, uint64_t *place);

/* the way back from DCT-II coefficients, n = 0 .. length - 1; tests 1, 2, 3, 10 */
int plain_inverse_dct(const int32_t *coefficients, size_t coefficients_len, size_t length,
                      int32_t *values, size_t values_len, uint64_t *place);

#endif
