/*
 * Sorts the blocks of a pair file in C: marks each block of a and of b by a flat limit and a clip level, and prints the numbers of the blocks by
 * mark.
 *     sort_blocks FILE FLAT_LIMIT CLIP_LEVEL
 * Exit status: 0 the blocks are sorted; 1 the library refuses the file or the figures; 2 the file could not be read, the output not be written, or
 * the arguments are wrong. A file without a block asks nothing of the figures.
 * examples/build compiles it; examples/sort_blocks.txt is what it prints for examples/train_crossing.pair, 20000 and 6000. include/mealbis.h says
 * what the calls do.
 */
#include <errno.h>
#include <inttypes.h>
#include <stdio.h>
#include <stdlib.h>
#include "mealbis.h"
#include "pair_file.h" /* file, recordings, get_file, refuse, end_output */

static uint64_t marks[2][MEALBIS_MOST_FILE_SAMPLES]; /* of the blocks of a and b */

/* Whether the word is a whole number that a figure can be. */
static int is_figure(const char *word, int32_t *figure)
{
    char *end;
    errno = 0;
    long long number = strtoll(word, &end, 10);
    *figure = (int32_t)number;
    return end != word && *end == '\0' && errno == 0 && INT32_MIN <= number && number <= INT32_MAX;
}

/* The marks of all blocks of a recording. The number of the first call that is refused, else 0. */
static uint32_t mark_blocks(const int32_t *recording, mealbis_size samples, mealbis_size length, int32_t flat_limit, int32_t clip_level, uint64_t *mark)
{
    static int32_t cosine[MEALBIS_SPECTRUM_WORDS(MEALBIS_LONGEST_BLOCK)], sine[MEALBIS_SPECTRUM_WORDS(MEALBIS_LONGEST_BLOCK)];
    static int64_t scratch[MEALBIS_SCRATCH_WORDS(MEALBIS_LONGEST_BLOCK)];
    mealbis_mark_answer answer;
    for (mealbis_size block = 0; block < samples / length; block++) {
        uint32_t number = mealbis_mark(recording, samples, block * length, length, UINT64_MAX, flat_limit, clip_level,
                                       cosine, MEALBIS_WORDS(cosine), sine, MEALBIS_WORDS(sine), scratch, MEALBIS_WORDS(scratch), &answer);
        if (number != MEALBIS_ACCEPTED)
            return number;
        mark[block] = answer.mark;
    }
    return MEALBIS_ACCEPTED;
}

/* A line: the name of a mark, the recording, and its blocks with this mark. */
static void print_line(const char *name, uint64_t mark, int which, mealbis_size blocks)
{
    int none = 1;
    printf("%s %c", name, "ab"[which]);
    for (mealbis_size block = 0; block < blocks; block++)
        if (marks[which][block] == mark) {
            printf(" %" PRIu64, block);
            none = 0;
        }
    printf(none ? " none\n" : "\n");
}

static void print_sorted(mealbis_size blocks)
{
    static const struct {
        const char *name;
        uint64_t mark;
    } lines[] = {{"flat", MEALBIS_FLAT}, {"clipped", MEALBIS_CLIPPED}, {"plain", MEALBIS_PLAIN}};
    printf("mark recording blocks\n");
    for (size_t i = 0; i < MEALBIS_WORDS(lines); i++)
        for (int which = 0; which < 2; which++)
            print_line(lines[i].name, lines[i].mark, which, blocks);
}

int main(int argc, char **argv)
{
    int32_t flat_limit, clip_level;
    size_t bytes;
    mealbis_read_answer got;
    if (argc != 4 || !is_figure(argv[2], &flat_limit) || !is_figure(argv[3], &clip_level)) {
        fprintf(stderr, "usage: sort_blocks FILE FLAT_LIMIT CLIP_LEVEL\n");
        return 2;
    }
    if (!get_file("sort_blocks", argv[1], &bytes))
        return 2;
    uint32_t number = mealbis_read(file, bytes, recordings[0], MEALBIS_WORDS(recordings[0]), recordings[1], MEALBIS_WORDS(recordings[1]), &got);
    for (int which = 0; which < 2 && number == MEALBIS_ACCEPTED; which++)
        number = mark_blocks(recordings[which], got.samples, got.length, flat_limit, clip_level, marks[which]);
    if (number != MEALBIS_ACCEPTED)
        return refuse(number, argv[1], got.place);
    print_sorted(got.samples / got.length);
    return end_output();
}
