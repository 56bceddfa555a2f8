/* A page-layout engine's look at a style deck before it takes the deck's rows.
 *
 *     engine DECK
 *
 * Reads the deck from a file, runs it, and prints what came of it. Then it lends the structure that was built again, to ask
 * about one concept at one element and about one axiom. Exit status 0 means: confirmed. docs/FORMAT.md says what the words
 * of a deck and the answers mean.
 *
 * It compiles as C99 and as C++17. In the repository's top folder:
 *
 *     (cd crates/capi && rt lib)
 *     cc -std=c99 -Iinclude examples/engine.c crates/capi/out/libcapi.a -lpthread -o engine
 */
#include <inttypes.h>
#include <pthread.h>
#include <stdio.h>
#include <stdlib.h>

#include "style_deck.h"

/* Words of the trailer, the last 72 bytes of a deck. */
enum { TRAILER_BYTES = 72, CLASSES = 3, CONCEPTS = 9, AXIOMS = 11 };

/* What this engine gives a run. */
enum { MAX_ELEMENTS = 255, MAX_EDGES = 1000, MAX_ROUNDS = 100, CLOSING = 4, REASONS_KEPT = 8 };

/* A deck, and the memory that is lent for it. */
typedef struct {
    const char *path;
    uint8_t *deck;
    uint64_t *labels;
    style_deck_edge *edges;
    uint32_t *log, *verdicts;
    size_t deck_length, labels_length, edges_length, log_length, verdicts_length;
    uint32_t answer[STYLE_DECK_ANSWER_WORDS]; /* outcome, elements, edges, reasons */
    int status;
} job;

/* Word k of the trailer, low byte first. Only for a deck that was accepted. */
static uint32_t trailer(const job *j, size_t k) {
    const uint8_t *b = j->deck + j->deck_length - TRAILER_BYTES + 4 * k;
    return (uint32_t)b[0] | (uint32_t)b[1] << 8 | (uint32_t)b[2] << 16 | (uint32_t)b[3] << 24;
}

/* The whole file. Answers 0 if it cannot be read. */
static int read_deck(job *j) {
    FILE *file = fopen(j->path, "rb");
    size_t room = 0, got = 1;
    if (file == NULL) return 0;
    while (got > 0) {
        if (j->deck_length == room) {
            uint8_t *more = (uint8_t *)realloc(j->deck, room = 2 * room + 4096);
            if (more == NULL) break;
            j->deck = more;
        }
        got = fread(j->deck + j->deck_length, 1, room - j->deck_length, file);
        j->deck_length += got;
    }
    int whole = feof(file) && !ferror(file);
    fclose(file);
    return whole;
}

/* Memory for a run, sized from the trailer's counts: N classes, A axioms. Answers 0 if there is too little. */
static int lend(job *j) {
    size_t n = trailer(j, CLASSES), rows = (n > MAX_ELEMENTS ? n : (size_t)MAX_ELEMENTS) + 1;
    j->labels_length = rows * ((n + 63) / 64);
    j->edges_length = MAX_EDGES + 1;
    j->log_length = 3 * REASONS_KEPT;
    j->verdicts_length = 4 * (size_t)trailer(j, AXIOMS);
    j->labels = (uint64_t *)calloc(j->labels_length, sizeof *j->labels);
    j->edges = (style_deck_edge *)calloc(j->edges_length, sizeof *j->edges);
    j->log = (uint32_t *)calloc(j->log_length, sizeof *j->log);
    j->verdicts = (uint32_t *)calloc(j->verdicts_length, sizeof *j->verdicts);
    /* A deck without classes or axioms needs no labels or verdicts: NULL will do. */
    return (j->labels != NULL || j->labels_length == 0) && j->edges != NULL && j->log != NULL &&
           (j->verdicts != NULL || j->verdicts_length == 0);
}

static void print_verdict(const uint32_t *v) {
    switch (v[0]) {
    case STYLE_DECK_HOLDS: printf("holds\n"); break;
    case STYLE_DECK_FAILS:
        printf("fails at");
        for (int k = 1; k < 4 && v[k] != STYLE_DECK_NO_WITNESS; k++) printf(" %" PRIu32, v[k]);
        printf("\n");
        break;
    case STYLE_DECK_UNHANDLED_AXIOM: printf("open: an axiom of tag %" PRIu32 " is not judged (%" PRIu32 ")\n", v[1], v[2]); break;
    case STYLE_DECK_UNHANDLED_CONCEPT: printf("open: it turns on a concept of tag %" PRIu32 "\n", v[1]); break;
    default: printf("open: role %" PRIu32 " has edges\n", v[1]); break;
    }
}

/* The number, and the word of 12, 13 or 14. */
static void print_refusal(const job *j, uint32_t refused) {
    uint32_t word = style_deck_fault_word(j->deck, j->deck_length);
    printf("refused %" PRIu32, refused);
    if (word != STYLE_DECK_NO_WORD) printf(" at word %" PRIu32, word);
    printf("\n");
}

static void print_run(const job *j) {
    static const char *const outcomes[] = {"confirmed", "failed", "open"};
    uint32_t elements = j->answer[1], edges = j->answer[2], reasons = j->answer[3];
    printf("%s: elements %" PRIu32 ", edges %" PRIu32 ", reasons %" PRIu32 "\n", outcomes[j->answer[0]], elements, edges, reasons);
    for (uint32_t k = 0; k < edges; k++)
        printf("edge of role %" PRIu32 " from %" PRIu32 " to %" PRIu32 "\n", j->edges[k].role, j->edges[k].from, j->edges[k].to);
    for (uint32_t k = 0; k < reasons && k < REASONS_KEPT; k++)
        printf("reason %" PRIu32 " %" PRIu32 " %" PRIu32 "\n", j->log[3 * k], j->log[3 * k + 1], j->log[3 * k + 2]);
    for (size_t k = 0; 4 * k < j->verdicts_length; k++) {
        printf("axiom %zu ", k);
        print_verdict(j->verdicts + 4 * k);
    }
}

/* Lends what the run built, and asks: the deck's last concept at the last element, and the last axiom. */
static uint32_t ask(const job *j) {
    static const char *const judgements[] = {"false", "true", "unresolved"};
    uint32_t elements = j->answer[1], edges = j->answer[2], refused = 0, answer[STYLE_DECK_ANSWER_WORDS];
    uint32_t concepts = trailer(j, CONCEPTS), axioms = trailer(j, AXIOMS);
    if (concepts > 0 && elements > 0) {
        refused = style_deck_eval_concept(j->deck, j->deck_length, j->labels, j->labels_length, elements, j->edges,
                                          j->edges_length, edges, concepts - 1, elements - 1, answer, STYLE_DECK_ANSWER_WORDS);
        if (refused != STYLE_DECK_ACCEPTED) return refused;
        printf("concept %" PRIu32 " at element %" PRIu32 " is %s\n", concepts - 1, elements - 1, judgements[answer[0]]);
    }
    if (axioms > 0) {
        refused = style_deck_check_axiom(j->deck, j->deck_length, j->labels, j->labels_length, elements, j->edges,
                                         j->edges_length, edges, axioms - 1, answer, STYLE_DECK_ANSWER_WORDS);
        if (refused != STYLE_DECK_ACCEPTED) return refused;
        printf("axiom %" PRIu32 " asked alone ", axioms - 1);
        print_verdict(answer);
    }
    return refused;
}

static uint32_t run(job *j) {
    return style_deck_run(j->deck, j->deck_length, MAX_ELEMENTS, MAX_EDGES, MAX_ROUNDS, CLOSING, j->labels, j->labels_length,
                          j->edges, j->edges_length, j->log, j->log_length, j->verdicts, j->verdicts_length, j->answer,
                          STYLE_DECK_ANSWER_WORDS);
}

/* The deck is checked first, so that the counts in its trailer can be believed. */
static void judge(job *j) {
    uint32_t refused = style_deck_check(j->deck, j->deck_length);
    if (refused == STYLE_DECK_ACCEPTED && !lend(j)) {
        fprintf(stderr, "too little memory\n");
        return;
    }
    if (refused == STYLE_DECK_ACCEPTED) refused = run(j);
    if (refused == STYLE_DECK_ACCEPTED) {
        print_run(j);
        refused = ask(j);
    }
    if (refused != STYLE_DECK_ACCEPTED)
        print_refusal(j, refused);
    else if (j->answer[0] == STYLE_DECK_CONFIRMED)
        j->status = EXIT_SUCCESS;
}

static void *work(void *given) {
    job *j = (job *)given;
    if (read_deck(j))
        judge(j);
    else
        fprintf(stderr, "%s cannot be read\n", j->path);
    free(j->deck);
    free(j->labels);
    free(j->edges);
    free(j->log);
    free(j->verdicts);
    return NULL;
}

/* The calls go as deep as the deck's concepts nest: they are made on a thread with stack enough for every deck, and as much
 * again for this program's own. */
int main(int count, char **words) {
    job j = {NULL, NULL, NULL, NULL, NULL, NULL, 0, 0, 0, 0, 0, {0, 0, 0, 0}, EXIT_FAILURE};
    pthread_attr_t with_stack;
    pthread_t thread;
    if (count != 2) {
        fprintf(stderr, "engine DECK\n");
        return EXIT_FAILURE;
    }
    j.path = words[1];
    if (pthread_attr_init(&with_stack) != 0 || pthread_attr_setstacksize(&with_stack, 2 * STYLE_DECK_STACK_BYTES) != 0 ||
        pthread_create(&thread, &with_stack, work, &j) != 0 || pthread_join(thread, NULL) != 0) {
        fprintf(stderr, "no thread\n");
        return EXIT_FAILURE;
    }
    return j.status;
}
