/* Lent structures that repeat edges, under nested Somes: 1,000 copies of one edge, copies that lie apart, and edges of several
 * sub-roles. Prints seconds of the thread, the best of three. Exit status 1: a refusal, or 0.05 s or more. */
#include <stdio.h>
#include <time.h>
#include "../../include/style_deck.h"

enum { ROLES = 4, SOMES = 60, ELEMENTS = 10, EDGES = 1000 };
static uint32_t words[3 + 4 * ROLES + 4 * (SOMES + 1) + 4 + ROLES + 18];
static const uint64_t labels[ELEMENTS] = {0};
static style_deck_edge edges[EDGES];

/* One class, four roles of which role 0 has all below it; Bot, and Somes of role 0 in each other; the last is the domain of
 * role 0. */
static size_t deck(void) {
    const uint32_t counts[7] = {1, ROLES, 0, SOMES + 1, 1, 0, ROLES}, widths[7] = {3, 4, 3, 4, 4, 3, 1};
    size_t at = 0;
    uint32_t start = 0;
    words[at++] = 0, words[at++] = 0, words[at++] = 1;
    for (uint32_t r = 0; r < ROLES; r++)
        words[at++] = r, words[at++] = r == 0 ? ROLES : 1, words[at++] = 0, words[at++] = 0;
    words[at++] = 1, words[at++] = 0, words[at++] = 0, words[at++] = 0;
    for (uint32_t k = 0; k < SOMES; k++) words[at++] = 8, words[at++] = 0, words[at++] = k, words[at++] = 0;
    words[at++] = 9, words[at++] = 0, words[at++] = SOMES, words[at++] = 0;
    for (uint32_t r = 0; r < ROLES; r++) words[at++] = r;
    words[at++] = 1, words[at++] = 1, words[at++] = 0;
    for (int p = 0; p < 7; p++) words[at++] = counts[p], words[at++] = start, start += counts[p] * widths[p];
    words[at++] = start;
    return at * 4;
}

/* Asks for the last concept at element 0, and for the axiom. */
static int measure(const char *name, uint32_t elements) {
    size_t bytes = deck();
    uint32_t refusal = 0, judged[4], verdict[4];
    double best = 1e9;
    for (int turn = 0; turn < 3; turn++) {
        struct timespec a, b;
        clock_gettime(CLOCK_THREAD_CPUTIME_ID, &a);
        refusal |= style_deck_eval_concept((const uint8_t *)words, bytes, labels, ELEMENTS, elements, edges, EDGES, EDGES, SOMES,
                                           0, judged, 4);
        refusal |= style_deck_check_axiom((const uint8_t *)words, bytes, labels, ELEMENTS, elements, edges, EDGES, EDGES, 0,
                                          verdict, 4);
        clock_gettime(CLOCK_THREAD_CPUTIME_ID, &b);
        double took = (b.tv_sec - a.tv_sec) + (b.tv_nsec - a.tv_nsec) / 1e9;
        if (took < best) best = took;
    }
    printf("%-40s refusal %u, judgement %u, verdict %u: %.4f s\n", name, refusal, judged[0], verdict[0], best);
    return refusal != 0 || best >= 0.05;
}

int main(void) {
    int bad = 0;
    for (uint32_t k = 0; k < EDGES; k++) edges[k] = (style_deck_edge){0, 0, 0};
    bad |= measure("one edge 1,000 times", 1);
    for (uint32_t k = 0; k < EDGES; k++) edges[k] = (style_deck_edge){k % ROLES, 0, 0};
    bad |= measure("four edges of sub-roles 250 times", 1);
    for (uint32_t k = 0; k < EDGES; k++) edges[k] = (style_deck_edge){0, k % 10, (k + 1) % 10};
    bad |= measure("a ring of ten, each edge 100 times, apart", 10);
    for (uint32_t k = 0; k < EDGES; k++) edges[k] = (style_deck_edge){k % ROLES, k % 10, k / 10 % 10};
    bad |= measure("all pairs of ten, ten times, apart", 10);
    return bad;
}
