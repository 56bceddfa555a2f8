/* Sixty Ands that each list the concept before them twice, in each place where building walks them, over 255 elements, with
 * every last phase. Prints the answer and seconds of the thread, the best of three. Exit status 1: a refusal, or 0.05 s or
 * more. */
#include <stdio.h>
#include <time.h>
#include "../../include/style_deck.h"

enum { CLASSES = 256, LEVELS = 60, ROOM = 4096, EDGES = 2000, ALL = 254, UNSATISFIABLE = 255, SMALL = 30, LARGE = 3000000 };
enum { TOP = 0, ATOMIC = 2, AND = 6, SOME = 8, SUB_CLASS = 0 };
static uint32_t concepts[ROOM], lists[ROOM], words[3 * ROOM], concept_count, list_count, first, last;
static uint64_t labels[(CLASSES + 60) * 4];
static style_deck_edge edges[EDGES + 1];
static uint32_t verdicts[4], answer[4], log_words[LARGE];
static size_t length;

static uint32_t concept(uint32_t tag, uint32_t x, uint32_t y) {
    uint32_t *at = concepts + 4 * concept_count;
    at[0] = tag, at[1] = x, at[2] = y, at[3] = 0;
    return concept_count++;
}

static uint32_t both(uint32_t x, uint32_t y) {
    lists[list_count] = x, lists[list_count + 1] = y, list_count += 2;
    return concept(AND, list_count - 2, 2);
}

static uint32_t doubled(uint32_t x) {
    for (int k = 0; k < LEVELS; k++) x = both(x, x);
    return x;
}

static void put(size_t *at, uint32_t a, uint32_t b, uint32_t c) { words[(*at)++] = a, words[(*at)++] = b, words[(*at)++] = c; }

/* Every class but the last has its own row and class 254; the last is unsatisfiable, and the range of roles 1 and 2. Class 0
 * has it as q for role 2, and no q for role 1. */
static void start(void) {
    concept_count = list_count = 0;
    for (uint32_t k = 0; k < ALL; k++) lists[list_count++] = k, lists[list_count++] = ALL;
    lists[list_count++] = UNSATISFIABLE;
    for (uint32_t r = 0; r < 3; r++) lists[list_count++] = r;
    first = concept(ATOMIC, 0, 0), last = concept(ATOMIC, ALL, 0);
}

static void finish(uint32_t sub, uint32_t sup) {
    const uint32_t counts[7] = {CLASSES, 3, 1, concept_count, 1, 0, list_count}, widths[7] = {3, 4, 3, 4, 4, 3, 1};
    size_t at = 0;
    uint32_t begin = 0;
    for (uint32_t k = 0; k < CLASSES; k++) put(&at, k == UNSATISFIABLE, k < ALL ? 2 * k : 2 * ALL - 1, k == UNSATISFIABLE ? 0 : k < ALL ? 2 : 1);
    for (uint32_t r = 0; r < 3; r++) words[at++] = 2 * ALL + 1 + r, words[at++] = 1, words[at++] = 2 * ALL, words[at++] = r > 0;
    put(&at, 0, 2, UNSATISFIABLE);
    for (uint32_t k = 0; k < 4 * concept_count; k++) words[at++] = concepts[k];
    words[at++] = SUB_CLASS, words[at++] = sub, words[at++] = sup, words[at++] = 0;
    for (uint32_t k = 0; k < list_count; k++) words[at++] = lists[k];
    put(&at, 1, CLASSES, 0);
    for (int p = 0; p < 7; p++) words[at++] = counts[p], words[at++] = begin, begin += counts[p] * widths[p];
    words[at++] = begin;
    length = at * 4;
}

/* With a log of so many words. */
static int measure_in(size_t log, const char *name) {
    int bad = 0;
    for (uint32_t phase = 1; phase <= 4; phase++) {
        uint32_t refusal = 0;
        double best = 1e9;
        for (int turn = 0; turn < 3; turn++) {
            struct timespec a, b;
            clock_gettime(CLOCK_THREAD_CPUTIME_ID, &a);
            refusal |= style_deck_run((const uint8_t *)words, length, CLASSES + 50, EDGES, 100, phase, labels, (CLASSES + 60) * 4,
                                      edges, EDGES + 1, log_words, log, verdicts, 4, answer, 4);
            clock_gettime(CLOCK_THREAD_CPUTIME_ID, &b);
            double took = (b.tv_sec - a.tv_sec) + (b.tv_nsec - a.tv_nsec) / 1e9;
            if (took < best) best = took;
        }
        printf("%-38s last phase %u: refusal %u, answer %u %u %u %u: %.4f s\n", name, phase, refusal, answer[0], answer[1],
               answer[2], answer[3], best);
        bad |= refusal != 0 || best >= 0.05;
    }
    return bad;
}

static int measure(const char *name) { return measure_in(SMALL, name); }

int main(void) {
    int bad = 0;
    start(), finish(doubled(concept(TOP, 0, 0)), concept(SOME, 0, first)), bad |= measure("a universal antecedent");
    start(), finish(concept(TOP, 0, 0), doubled(first)), bad |= measure("the floor's atoms");
    start(), finish(doubled(last), concept(SOME, 0, first)), bad |= measure("an antecedent's atoms");
    start(), finish(last, concept(SOME, 0, doubled(first))), bad |= measure("a body's atoms");
    start(), finish(last, concept(SOME, 2, doubled(first))), bad |= measure("a body's atoms, LabelNotClosed");
    start(), finish(last, concept(SOME, 4, doubled(first))), bad |= measure("a body's atoms, RunDelta");
    bad |= measure_in(LARGE, "the same, a log of 1,000,000 reasons");
    start(), finish(last, doubled(concept(SOME, 0, first))), bad |= measure("a consequent");
    start(), finish(last, doubled(concept(SOME, 2, first))), bad |= measure("a consequent, LabelNotClosed");
    start(), finish(last, doubled(concept(SOME, 4, first))), bad |= measure("a consequent, RunDelta");
    bad |= measure_in(LARGE, "the same, a log of 1,000,000 reasons");
    start();
    uint32_t some = concept(SOME, 0, first);
    for (int k = 0; k < LEVELS; k++) some = concept(SOME, 0, both(some, some));
    finish(last, some), bad |= measure("a consequent, Somes of Ands of Somes");
    return bad;
}
