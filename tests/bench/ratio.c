/* Runs each deck in turns by two libraries, as before_run and as after_run, and prints the seconds of both, the best of all turns.
 * Exit status 1: what they leave differs.
 *
 *     ratio WORDS WORDS FILE ...    WORDS: of an edge record, before and after */
#include <stdint.h>
#include <stdio.h>
#include <stdlib.h>
#include <string.h>
#include <time.h>

enum { DECK = 1 << 20, ELEMENTS = 2000, EDGES = 100000, LABELS = 1 << 18, LOG = 3000, VERDICTS = 1 << 16 };
typedef uint32_t run(const uint8_t *deck, size_t deck_length, uint32_t max_elements, uint32_t max_edges, uint32_t max_rounds,
                     uint32_t last_phase, uint64_t *labels, size_t labels_length, void *edges, size_t edges_length, uint32_t *log,
                     size_t log_length, uint32_t *verdicts, size_t verdicts_length, uint32_t *answer, size_t answer_length);
extern run before_run, after_run;
static uint8_t deck[DECK];
static struct buffers {
    uint64_t labels[LABELS];
    uint32_t edges[5 * (EDGES + 1)], log[LOG], verdicts[VERDICTS], answer[4], refusal;
} left[2];

/* Seconds of one run, of so many. */
static double seconds(run *of, size_t length, struct buffers *b, int runs) {
    struct timespec x, y;
    clock_gettime(CLOCK_THREAD_CPUTIME_ID, &x);
    for (int k = 0; k < runs; k++)
        b->refusal = of(deck, length, ELEMENTS, EDGES, 100, 4, b->labels, LABELS, b->edges, EDGES + 1, b->log, LOG, b->verdicts,
                        VERDICTS, b->answer, 4);
    clock_gettime(CLOCK_THREAD_CPUTIME_ID, &y);
    return ((y.tv_sec - x.tv_sec) + (y.tv_nsec - x.tv_nsec) / 1e9) / runs;
}

/* The same, but for what a record of an edge has past its first three words. */
static int same(const struct buffers *a, int a_words, const struct buffers *b, int b_words) {
    for (size_t k = 0; k <= EDGES; k++)
        if (memcmp(a->edges + k * a_words, b->edges + k * b_words, 12)) return 0;
    return a->refusal == b->refusal && !memcmp(a->labels, b->labels, sizeof a->labels) && !memcmp(a->log, b->log, sizeof a->log) &&
           !memcmp(a->verdicts, b->verdicts, sizeof a->verdicts) && !memcmp(a->answer, b->answer, sizeof a->answer);
}

/* Both in turns, for some 0.2 seconds: a turn takes a millisecond and more. */
static int measure(const char *name, int before_words, int after_words) {
    FILE *file = fopen(name, "rb");
    if (!file) return 1;
    size_t length = fread(deck, 1, DECK, file);
    fclose(file);
    memset(left, 0, sizeof left);
    double best[2] = {1e9, 1e9}, once = seconds(before_run, length, &left[0], 1);
    int runs = once < 1e-3 ? (int)(1e-3 / once) + 1 : 1, turns = (int)(0.1 / (once * runs)) + 3;
    for (int turn = 0; turn < 2 * turns; turn++) {
        int of = (turn + turn / 2) % 2;
        double took = seconds(of ? after_run : before_run, length, &left[of], runs);
        if (took < best[of]) best[of] = took;
    }
    int equal = same(&left[0], before_words, &left[1], after_words);
    const uint32_t *a = left[1].answer;
    printf("%s\t%.9f\t%.9f\t%u: %u %u %u %u\t%s\n", name, best[0], best[1], left[1].refusal, a[0], a[1], a[2], a[3],
           equal ? "equal" : "they differ");
    return !equal;
}

int main(int count, char **words) {
    int bad = count < 4;
    for (int k = 3; k < count; k++) bad |= measure(words[k], atoi(words[1]), atoi(words[2]));
    return bad;
}
