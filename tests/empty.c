/* Empty buffers lent as NULL with length 0: each function answers as for any other empty buffer. And the words of faults, from
 * C. Prints what differs, and exits 1 if anything does. Run it under valgrind to see that nothing is read or written there. */
#include <stdio.h>
#include <string.h>
#include "../include/style_deck.h"

static int bad = 0;

static void expect(const char *what, uint32_t wanted, uint32_t found) {
    if (wanted != found) {
        printf("%s: expected %u, found %u\n", what, (unsigned)wanted, (unsigned)found);
        bad = 1;
    }
}

/* The deck of nothing: a trailer of edition 1 and no records. Low byte first. */
static const uint8_t nothing[72] = {1};

/* The same with an axiom that declares individual 0. */
static const uint8_t one_axiom[88] = {25, 0, 0, 0, 0, 0, 0, 0, 0, 0, 0, 0, 0, 0, 0, 0, 1};
static uint8_t declared[88];

static void make_declared(void) {
    memcpy(declared, one_axiom, sizeof declared);
    declared[16 + 4 * 11] = 1;                                       /* one axiom, from word 0 on */
    declared[16 + 4 * 14] = declared[16 + 4 * 16] = 4;               /* facts and lists start at word 4 */
    declared[16 + 4 * 17] = 4;                                       /* the body has four words */
}

static void decks(void) {
    uint32_t answer[4] = {7, 7, 7, 7};
    expect("check of no bytes", STYLE_DECK_TOO_SHORT, style_deck_check(NULL, 0));
    expect("word of no bytes", STYLE_DECK_NO_WORD, style_deck_fault_word(NULL, 0));
    expect("concept, no bytes", STYLE_DECK_TOO_SHORT,
           style_deck_eval_concept(NULL, 0, NULL, 0, 0, NULL, 0, 0, 0, 0, answer, 4));
    expect("axiom, no bytes", STYLE_DECK_TOO_SHORT, style_deck_check_axiom(NULL, 0, NULL, 0, 0, NULL, 0, 0, 0, answer, 4));
    expect("run of no bytes", STYLE_DECK_TOO_SHORT,
           style_deck_run(NULL, 0, 0, 0, 0, 4, NULL, 0, NULL, 0, NULL, 0, NULL, 0, answer, 4));
    expect("answer as it was", 7, answer[0]);
}

/* The declaration with other tags and fields: what it is refused with, and at which word. */
static void words(void) {
    uint8_t deck[88];
    memcpy(deck, declared, sizeof deck);
    expect("word of no fault", STYLE_DECK_NO_WORD, style_deck_fault_word(deck, 88));
    deck[12] = 1;
    expect("a filled field", STYLE_DECK_FILLED_FIELD, style_deck_check(deck, 88));
    expect("its word", 3, style_deck_fault_word(deck, 88));
    deck[0] = 24;
    expect("a role that is not there", STYLE_DECK_OUT_OF_RANGE, style_deck_check(deck, 88));
    expect("its word", 1, style_deck_fault_word(deck, 88));
    deck[0] = 26;
    expect("an unknown tag", STYLE_DECK_UNKNOWN_TAG, style_deck_check(deck, 88));
    expect("its word", 0, style_deck_fault_word(deck, 88));
    expect("word of a fault, a byte short", STYLE_DECK_NO_WORD, style_deck_fault_word(deck, 87));
}

static void answers(void) {
    expect("concept, no answer", STYLE_DECK_SHORT_BUFFER,
           style_deck_eval_concept(nothing, 72, NULL, 0, 0, NULL, 0, 0, 0, 0, NULL, 0));
    expect("axiom, no answer", STYLE_DECK_SHORT_BUFFER,
           style_deck_check_axiom(nothing, 72, NULL, 0, 0, NULL, 0, 0, 0, NULL, 0));
    expect("run, no answer", STYLE_DECK_SHORT_BUFFER,
           style_deck_run(nothing, 72, 0, 0, 0, 4, NULL, 0, NULL, 0, NULL, 0, NULL, 0, NULL, 0));
}

static void structures(void) {
    uint32_t answer[4] = {7, 7, 7, 7};
    expect("concept of a deck without any", STYLE_DECK_ABSENT_INDEX,
           style_deck_eval_concept(nothing, 72, NULL, 0, 3, NULL, 0, 0, 0, 0, answer, 4));
    expect("an edge that is not there", STYLE_DECK_FOREIGN_STRUCTURE,
           style_deck_check_axiom(declared, 88, NULL, 0, 3, NULL, 0, 1, 0, answer, 4));
    expect("axiom over elements without labels", STYLE_DECK_ACCEPTED,
           style_deck_check_axiom(declared, 88, NULL, 0, 3, NULL, 0, 0, 0, answer, 4));
    expect("its verdict", STYLE_DECK_HOLDS, answer[0]);
}

static void runs(void) {
    style_deck_edge edges[1] = {{7, 8, 9}};
    uint32_t answer[4] = {7, 7, 7, 7}, verdicts[4] = {7, 7, 7, 7};
    expect("run without edges lent", STYLE_DECK_SHORT_BUFFER,
           style_deck_run(nothing, 72, 9, 0, 9, 4, NULL, 0, NULL, 0, NULL, 0, NULL, 0, answer, 4));
    expect("run of nothing", STYLE_DECK_ACCEPTED,
           style_deck_run(nothing, 72, 9, 0, 9, 4, NULL, 0, edges, 1, NULL, 0, NULL, 0, answer, 4));
    expect("its outcome", STYLE_DECK_CONFIRMED, answer[0]);
    expect("run without verdicts lent", STYLE_DECK_SHORT_BUFFER,
           style_deck_run(declared, 88, 9, 0, 9, 4, NULL, 0, edges, 1, NULL, 0, NULL, 0, answer, 4));
    expect("run of one axiom", STYLE_DECK_ACCEPTED,
           style_deck_run(declared, 88, 9, 0, 9, 4, NULL, 0, edges, 1, NULL, 0, verdicts, 4, answer, 4));
    expect("its verdict in the run", STYLE_DECK_HOLDS, verdicts[0]);
    expect("the edge as it was", 9, edges[0].to);
}

static void reports(void) {
    uint8_t out[16];
    memset(out, 'x', sizeof out);
    expect("text without room", 0, (uint32_t)style_deck_report(nothing, 72, NULL, 0));
    expect("text of no bytes", 10, (uint32_t)style_deck_report(NULL, 0, out, sizeof out));
    expect("its bytes", 0, (uint32_t)memcmp(out, "refused 1\nxxxxxx", sizeof out));
    expect("no text, no room", 0, (uint32_t)style_deck_report(NULL, 0, NULL, 0));
}

int main(void) {
    make_declared();
    decks();
    words();
    answers();
    structures();
    runs();
    reports();
    return bad;
}
