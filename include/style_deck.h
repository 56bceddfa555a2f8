/* The style-deck verifier, for a program that links it: crates/capi/out/libcapi.a, made by `rt lib` in crates/capi.
 *
 * Every function takes numbers and lent memory only. It keeps no pointer and no state, allocates nothing, reads and
 * writes no file, and may be called from several threads at once with memory that they do not share.
 *
 * Lent memory is a pointer and a length, the length counted in items of the pointer's type and not in bytes. The caller
 * owns it before, during and after the call. The pointer is aligned for its type, and `length` items can be read there (and
 * written, where it is not const); where the length is 0 nothing is read or written through it, and it may be NULL. A buffer
 * that is not const overlaps no other argument. These are the only things that a caller owes: any contents are allowed.
 *
 * Each function but style_deck_fault_word and style_deck_report returns 0, or the number of a refusal; then nothing was written
 * anywhere. Else what it answers stands in the first four words of `answer`, and words past the used part of any buffer are as
 * they were. `answer` needs at least STYLE_DECK_ANSWER_WORDS words: a shorter one is refused as 9, before anything else is
 * looked at.
 *
 * Stack: a call goes as deep as the deck's concepts nest, at most 16,384 levels. The deepest deck takes less than 6,000 KB in
 * a run; STYLE_DECK_STACK_BYTES are enough for every deck. A program that is handed decks by others makes its calls on a thread
 * with that much.
 */
#ifndef STYLE_DECK_H
#define STYLE_DECK_H

#include <stddef.h>
#include <stdint.h>

#ifdef __cplusplus
extern "C" {
#endif

/* The least length of `answer`, in words. */
#define STYLE_DECK_ANSWER_WORDS 4u

/* Bytes that are enough for every text of style_deck_report. */
#define STYLE_DECK_REPORT_BYTES 204864u

/* Stack that is enough for every call. */
#define STYLE_DECK_STACK_BYTES (8u * 1024 * 1024)

/* Why a deck, a run or a question is refused. Of several, the first found is given: 1 to 4; then record by record 12, 13, 14,
 * then 6, 7; then 8, 9 for a run, or 10, 11 for a question about a lent structure. 5 is retired: 12, 13 and 14 stand in its
 * place, and style_deck_fault_word tells where in the deck they lie. */
enum style_deck_refusal {
    STYLE_DECK_ACCEPTED = 0,
    STYLE_DECK_TOO_SHORT = 1,         /* bytes not a multiple of 4, or under 72 */
    STYLE_DECK_UNKNOWN_EDITION = 2,   /* edition is not 1 */
    STYLE_DECK_COUNT_OVER_LIMIT = 3,  /* a count above its limit */
    STYLE_DECK_BAD_LAYOUT = 4,        /* a start, the body count or M does not fit */
    STYLE_DECK_BAD_ORDER = 6,         /* order broken, or own number absent from a row */
    STYLE_DECK_FORWARD_OPERAND = 7,   /* operand below the number of concepts but not below its concept */
    STYLE_DECK_BAD_BOUNDS = 8,        /* elements or rounds above 65,535, edges above 1,048,575, last phase not 1 to 4 */
    STYLE_DECK_SHORT_BUFFER = 9,      /* labels, edges, verdicts or answer shorter than needed */
    STYLE_DECK_FOREIGN_STRUCTURE = 10,/* a lent structure that does not fit its buffers or the deck (below) */
    STYLE_DECK_ABSENT_INDEX = 11,     /* axiom, concept or element number past its count */
    STYLE_DECK_UNKNOWN_TAG = 12,      /* unknown tag or flag */
    STYLE_DECK_OUT_OF_RANGE = 13,     /* number or list out of range */
    STYLE_DECK_FILLED_FIELD = 14      /* unused field filled */
};

/* What style_deck_fault_word returns for a deck without such a fault. */
#define STYLE_DECK_NO_WORD 4294967295u

/* What a run comes to: word 0 of its answer. */
enum style_deck_outcome {
    STYLE_DECK_CONFIRMED = 0,  /* every axiom is true in the structure that was built */
    STYLE_DECK_FAILED = 1,     /* an axiom is false there */
    STYLE_DECK_OPEN = 2        /* none is known false, but a verdict is unresolved or a reason was given */
};

/* What a concept is at an element: word 0 of the answer. */
enum style_deck_judgement {
    STYLE_DECK_FALSE = 0,
    STYLE_DECK_TRUE = 1,
    STYLE_DECK_UNRESOLVED = 2  /* word 1: the tag of the construct that is not judged */
};

/* What an axiom is in a structure: word 0 of a verdict's four words. */
enum style_deck_verdict {
    STYLE_DECK_HOLDS = 0,                  /* then 0, 0, 0 */
    STYLE_DECK_FAILS = 1,                  /* then one to three elements, and STYLE_DECK_NO_WITNESS for each that is missing */
    STYLE_DECK_UNHANDLED_AXIOM = 2,        /* then the axiom's tag; 0 for its variety, 1 an inverse role, 2 the chain's length; 0 */
    STYLE_DECK_UNHANDLED_CONCEPT = 3,      /* then the concept's tag, 0, 0 */
    STYLE_DECK_GUARDED_ROLE_HAS_EDGES = 4  /* then the role, 0, 0 */
};
#define STYLE_DECK_NO_WITNESS 4294967295u

/* An edge of a role, from one element to another. */
typedef struct {
    uint32_t role, from, to;
} style_deck_edge;

/* Is the deck in order?
 *
 *   deck, deck_length   the deck's bytes: 32-bit words, low byte first; no alignment is needed
 *
 * Returns 0, or a refusal: 1 to 4, 6, 7, or 12 to 14.
 */
uint32_t style_deck_check(const uint8_t *deck, size_t deck_length);

/* At which word does the deck's fault lie?
 *
 *   deck, deck_length   the deck's bytes, as for style_deck_check
 *
 * Returns, for a deck that is refused with 12, 13 or 14, the word at which the first fault lies, counted from word 0 of the deck:
 * a field, or a word of a list; for a list that leaves the lists part, its start field. STYLE_DECK_NO_WORD for every other deck,
 * accepted or refused. Whichever function refused the deck, the word is the same.
 */
uint32_t style_deck_fault_word(const uint8_t *deck, size_t deck_length);

/* Is `element` in the concept, in a lent structure?
 *
 *   labels, labels_length   64-bit words. With N classes an element takes W = ceil(N / 64) words, element e those from e * W
 *                           on; class k is bit k mod 64 of word k / 64
 *   elements                how many elements the structure has
 *   edges, edges_length     edge records
 *   edge_count              how many of them, from the first on, are the structure's
 *   concept_number          a concept of the deck
 *   element                 an element of the structure
 *   answer, answer_length   words for the answer
 *
 * Returns 0, and in `answer` a judgement, its tag or 0, 0, 0. Or a refusal: 9 for a short `answer`, 1 to 4, 6, 7 or 12 to 14
 * for the deck, 10 where elements or edge_count is above what its buffer holds, elements is above 65,536, an edge has an end
 * that is no element or a role that is none of the deck's, or a label has a bit at or past N; 11.
 */
uint32_t style_deck_eval_concept(const uint8_t *deck, size_t deck_length,
                                 const uint64_t *labels, size_t labels_length, uint32_t elements,
                                 const style_deck_edge *edges, size_t edges_length, uint32_t edge_count,
                                 uint32_t concept_number, uint32_t element,
                                 uint32_t *answer, size_t answer_length);

/* Is `axiom` satisfied in a lent structure?
 *
 *   axiom   an axiom of the deck, by number; the other arguments as for style_deck_eval_concept
 *
 * Returns 0, and in `answer` the verdict's four words. Or a refusal, as for style_deck_eval_concept.
 */
uint32_t style_deck_check_axiom(const uint8_t *deck, size_t deck_length,
                                const uint64_t *labels, size_t labels_length, uint32_t elements,
                                const style_deck_edge *edges, size_t edges_length, uint32_t edge_count,
                                uint32_t axiom,
                                uint32_t *answer, size_t answer_length);

/* Reads the deck, builds its structure within the bounds, judges every axiom in it, and says what that comes to.
 *
 *   max_elements        bound on elements, at most 65,535
 *   max_edges           bound on edges, at most 1,048,575
 *   max_rounds          bound on rounds of building from axioms, at most 65,535
 *   last_phase          the last phase of building: 1 seed, 2 expand, 3 axioms, 4 closing
 *   labels              needs (max(N, max_elements) + 1) * ceil(N / 64) words, N being the deck's classes
 *   edges               needs max_edges + 1 records
 *   log                 for reasons, three words each; any length: the first that fit are kept
 *   verdicts            needs 4 words for each axiom of the deck
 *   answer              words for the answer
 *
 * Returns 0, and in `answer` the outcome, the elements, the edges and the reasons; the labels of so many elements and so
 * many edges stand at the start of their buffers, laid out as style_deck_eval_concept takes them, so that the structure can
 * be lent again; axiom i's verdict is in words 4 i to 4 i + 3 of `verdicts`. The reasons are counted up to 4,294,967,295.
 * A reason in the log is
 *     1 class role     the label of a target could not be closed
 *     2 class 0        a target took the class's own row for an unsatisfiable injected class
 *     3 b limit        a bound was tripped: b is 0 for elements, 1 for edges, 2 for rounds
 *     4 dropped 0      axioms were dropped before the deck was made; given last
 *
 * Or a refusal: 9 for a short `answer`, 1 to 4, 6, 7 or 12 to 14 for the deck, 8, 9. Nothing was then written to any buffer.
 */
uint32_t style_deck_run(const uint8_t *deck, size_t deck_length,
                        uint32_t max_elements, uint32_t max_edges, uint32_t max_rounds, uint32_t last_phase,
                        uint64_t *labels, size_t labels_length,
                        style_deck_edge *edges, size_t edges_length,
                        uint32_t *log, size_t log_length,
                        uint32_t *verdicts, size_t verdicts_length,
                        uint32_t *answer, size_t answer_length);

/* The text that the program `verify` prints for an input: a refusal's line, or the outcome and a line for each axiom.
 *
 *   input, input_length   any bytes; more than 65,536 are refused in the text, as the program refuses them
 *   out                   for the text; STYLE_DECK_REPORT_BYTES are always enough
 *
 * Returns the length of the text, which stands at the start of `out`; the bytes past it are as they were. No text is empty: 0 is
 * returned where `out` is too short, and then nothing was written. The text has no byte 0 at its end; its last is a newline.
 */
size_t style_deck_report(const uint8_t *input, size_t input_length, uint8_t *out, size_t out_length);

#ifdef __cplusplus
}
#endif
#endif
