/* The deepest and the widest decks of a run: C concepts nested, as Ands or as Somes, or an And with as many operands as there
 * may be list words. The last concept is the superclass of the only axiom; or nested Ands stand where building reads them: in a
 * Some's body, under a universal subclass (the floor), as a subclass (the antecedent), as a universal subclass. With one class,
 * and with so many that judging takes its large room; and the axiom asked alone. Prints the answer, seconds and the stack.
 * Exit status 1: a refusal, or more stack than the header promises. */
#include <pthread.h>
#include <stdio.h>
#include <stdlib.h>
#include <string.h>
#include <time.h>
#include "../../include/style_deck.h"

enum { CLASSES = 4096, CONCEPTS = 16384, LISTS = 262144, EDGES = 20, STACK = 64 << 20, PAINT = 0xa5 };
enum { TOP = 0, ATOMIC = 2, AND = 6, SOME = 8, SUB_CLASS = 0, EQUIVALENT = 1 };
static uint32_t words[3 * CLASSES + 4 + CONCEPTS * 4 + 4 + LISTS + 18], classes = 1;
static uint64_t labels[(CLASSES + 2) * 64];
static style_deck_edge edges[EDGES + 1];
static uint32_t verdicts[4], answer[4], log_words[3], refusal;
static double seconds;
static size_t length;
static int alone;

static size_t put(size_t at, uint32_t a, uint32_t b, uint32_t c, uint32_t d) {
    words[at] = a, words[at + 1] = b, words[at + 2] = c, words[at + 3] = d;
    return at + 4;
}

/* Each class has the row of itself (more than one only with nested Ands, whose lists have all numbers), and so has role 0.
 * Concept 0 is `first`, a Top or Atomic 0. Then come nested Ands of the concept before and concept 0, or nested Somes, or one
 * And of all list words; and, unless `last` is -1, a concept with that tag: a Some of the one before, a Top, or Atomic 0. The
 * axiom is over two concepts. */
static void deck(int first, int tag, uint32_t nested, uint32_t lists, int last, int axiom, uint32_t sub, uint32_t sup) {
    const uint32_t counts[7] = {classes, 1, 0, nested + 1 + (last >= 0), 1, 0, lists}, widths[7] = {3, 4, 3, 4, 4, 3, 1};
    size_t at = 0, start = 0;
    for (uint32_t k = 0; k < classes; k++) words[at++] = 0, words[at++] = k == 0 ? 0 : 2 * k + 2, words[at++] = 1;
    at = put(at, 0, 1, 0, 0);
    at = put(at, first, 0, 0, 0);
    for (uint32_t k = 1; k <= nested; k++)
        if (tag == SOME) at = put(at, SOME, 0, k - 1, 0);
        else if (nested == 1) at = put(at, AND, 0, lists, 0);
        else at = put(at, AND, 2 * k, 2, 0);
    if (last >= 0) at = put(at, last, 0, last == SOME ? nested : 0, 0);
    at = axiom == SUB_CLASS ? put(at, SUB_CLASS, sub, sup, 0) : put(at, EQUIVALENT, 2 * nested + 2, 2, 0);
    for (uint32_t k = 0; k < lists; k++) words[at + k] = nested > 1 && k > 1 && k % 2 == 0 ? k / 2 - 1 : 0;
    if (axiom == EQUIVALENT) words[at + 2 * nested + 2] = sub, words[at + 2 * nested + 3] = sup;
    at += lists;
    words[at++] = 1, words[at++] = classes, words[at++] = 0;
    for (int p = 0; p < 7; p++) words[at++] = counts[p], words[at++] = start, start += counts[p] * widths[p];
    words[at++] = start;
    length = at * 4;
}

static void *run(void *unused) {
    struct timespec a, b;
    clock_gettime(CLOCK_THREAD_CPUTIME_ID, &a);
    if (alone)
        refusal = style_deck_check_axiom((const uint8_t *)words, length, labels, (CLASSES + 2) * 64, classes, edges, EDGES + 1, 0,
                                         0, answer, 4);
    else
        refusal = style_deck_run((const uint8_t *)words, length, classes + 1, EDGES, 100, 4, labels, (CLASSES + 2) * 64, edges,
                                 EDGES + 1, log_words, 3, verdicts, 4, answer, 4);
    clock_gettime(CLOCK_THREAD_CPUTIME_ID, &b);
    seconds = (b.tv_sec - a.tv_sec) + (b.tv_nsec - a.tv_nsec) / 1e9;
    return unused;
}

/* Runs on a painted stack, and sees how far the paint is gone. */
static int measure(const char *name) {
    unsigned char *stack = aligned_alloc(4096, STACK);
    pthread_attr_t attributes;
    pthread_t thread;
    size_t left = 0;
    if (stack == NULL) return 1;
    memset(stack, PAINT, STACK);
    if (pthread_attr_init(&attributes) || pthread_attr_setstack(&attributes, stack, STACK)) return 1;
    if (pthread_create(&thread, &attributes, run, NULL) || pthread_join(thread, NULL)) return 1;
    while (left < STACK && stack[left] == PAINT) left++;
    free(stack);
    printf("N %-4u %-34s refusal %u, answer %u %u %u %u: %.4f s, stack %5zu KB\n", classes, name, refusal, answer[0], answer[1],
           answer[2], answer[3], seconds, (STACK - left) / 1024);
    return refusal != 0 || STACK - left > STYLE_DECK_STACK_BYTES;
}

static int nested_ands(void) {
    const uint32_t most = CONCEPTS - 1, lists = 2 * CONCEPTS + 4;
    int bad = 0;
    deck(ATOMIC, AND, most, lists, -1, SUB_CLASS, 0, most), bad |= measure("nested Ands");
    deck(ATOMIC, AND, most - 1, lists, SOME, SUB_CLASS, 0, most), bad |= measure("nested Ands, a Some's body");
    deck(ATOMIC, AND, most - 1, lists, TOP, SUB_CLASS, most, most - 1), bad |= measure("nested Ands, the floor");
    deck(ATOMIC, AND, most - 1, lists, TOP, EQUIVALENT, most, most - 1), bad |= measure("nested Ands, the floor of equals");
    deck(ATOMIC, AND, most, lists, -1, SUB_CLASS, most, 0), bad |= measure("nested Ands, a subclass");
    deck(TOP, AND, most - 1, lists, ATOMIC, SUB_CLASS, most - 1, most), bad |= measure("nested Ands, a universal subclass");
    alone = 1;
    deck(ATOMIC, AND, most, lists, -1, SUB_CLASS, most, most), bad |= measure("nested Ands, asked alone");
    alone = 0;
    return bad;
}

int main(void) {
    int bad = nested_ands();
    deck(ATOMIC, SOME, CONCEPTS - 1, 2, -1, SUB_CLASS, 0, CONCEPTS - 1), bad |= measure("nested Somes");
    deck(ATOMIC, AND, 1, LISTS, -1, SUB_CLASS, 0, 1), bad |= measure("widest And");
    classes = CLASSES;
    return bad | nested_ands();
}
