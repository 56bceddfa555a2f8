// Judges the deepest and the widest legal concept over one element that is its own successor: how much stack a level
// takes, and how long it lasts. Run under `ulimit -s 8192`.
#include <stdint.h>
#include <stdio.h>
#include <string.h>
#include <time.h>

// libbench_eval.a: a slice is a pointer and a length.
extern uint64_t judge_one(const uint8_t *deck, size_t length, const uint64_t *labels, size_t labels_length,
                          uint32_t elements, const uint32_t (*edges)[3], size_t edges_length, uint32_t edge_count,
                          uint32_t concept, uint32_t element);

enum { C = 16384, L = 262144 };

static uint32_t words[4 * C + L + 64], *out;
static uint32_t edges[1000][3];
static const uint64_t labels[1] = {1};

static void put(uint32_t a, uint32_t b, uint32_t c, uint32_t d) { *out++ = a, *out++ = b, *out++ = c, *out++ = d; }

// N = R = 1, concept 0 is Atomic 0; `concepts` concepts and `lists` list words have been put.
static size_t trailer(uint32_t concepts, uint32_t lists) {
    const uint32_t counts[7] = {1, 1, 0, concepts, 0, 0, lists}, widths[7] = {3, 4, 3, 4, 4, 3, 1};
    uint32_t start = 0;
    *out++ = 1, *out++ = 1, *out++ = 0;
    for (int p = 0; p < 7; p++) *out++ = counts[p], *out++ = start, start += counts[p] * widths[p];
    *out++ = start;
    return 4 * (size_t)(out - words);
}

static void head(void) {
    out = words;
    *out++ = 0, *out++ = 0, *out++ = 1;  // class 0, row {0}
    put(0, 1, 0, 0);                     // role 0, sub-role row {0}, no range
    put(2, 0, 0, 0);                     // concept 0
}

// Concept k is an And of k - 1 alone, or a Some into k - 1, by turns or all alike.
static size_t deep(int ands, int somes) {
    head();
    for (uint32_t k = 1; k < C; k++)
        if (ands && (!somes || k % 2)) put(6, k - 1, 1, 0);
        else put(8, 0, k - 1, 0);
    for (uint32_t k = 0; k < C; k++) *out++ = k;
    return trailer(C, C);
}

// One And of all list words.
static size_t wide(void) {
    head();
    put(6, 0, L, 0);
    for (uint32_t k = 0; k < L; k++) *out++ = 0;
    return trailer(2, L);
}

static void run(const char *name, size_t length, uint32_t concept, uint32_t count) {
    struct timespec a, b;
    clock_gettime(CLOCK_MONOTONIC, &a);
    uint64_t answer = judge_one((const uint8_t *)words, length, labels, 1, 1, edges, 1000, count, concept, 0);
    clock_gettime(CLOCK_MONOTONIC, &b);
    printf("%-34s answer %lu, %8.1f us\n", name, (unsigned long)answer,
           (b.tv_sec - a.tv_sec) * 1e6 + (b.tv_nsec - a.tv_nsec) / 1e3);
}

int main(void) {
    memset(edges, 0, sizeof edges);
    run("16,383 nested Ands", deep(1, 0), C - 1, 1);
    run("16,383 nested Somes", deep(0, 1), C - 1, 1);
    run("Ands and Somes by turns", deep(1, 1), C - 1, 1);
    run("an And of 262,144 operands", wide(), 1, 1);
    run("16,383 Somes, 1,000 equal edges", deep(0, 1), C - 1, 1000);
    return 0;
}
