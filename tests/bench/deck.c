// Times the check of the largest legal deck against one bare pass over its words, summed two ways:
// sum_words of libbench_deck.a, which the compiler vectorises, and a loop in C that adds a word at a time.
// All seven counts are at their limits, and rows, operand lists and axiom lists together name each list word once.
// Then the same with tags in no order, and a deck of which every concept and axiom names all list words.
//
// The check against that of another libbench_deck.a, turn by turn in one run, deck W besides, whose time hangs on where the code
// lies: link the two in either order.
//     objcopy --redefine-sym check_deck_number=check_before -L sum_words OTHER/libbench_deck.a target/before.a
//     gcc -O2 -DBEFORE -o target/bench_ratio tests/bench/deck.c crates/bench_deck/out/libbench_deck.a target/before.a
#include <stdint.h>
#include <stdio.h>
#include <stdlib.h>
#include <time.h>

// libbench_deck.a: a slice is a pointer and a length.
extern uint32_t check_deck_number(const uint8_t *deck, size_t length);
extern uint32_t sum_words(const uint8_t *deck, size_t length);

enum { N = 4096, R = 1024, INJECTED = 4096, C = 16384, A = 16384, FACTS = 16384, L = 262144 };
enum { ROW = 16, OPERANDS = 8, MEMBERS = 12 };
enum { BODY = N * 3 + R * 4 + INJECTED * 3 + C * 4 + A * 4 + FACTS * 3 + L, WORDS = BODY + 18 };

static _Alignas(64) uint32_t words[WORDS];
static uint32_t lists[L], *out, used;
static int mixed;

// What record k takes its tag by: k, or a number that jumps about.
static uint32_t turn(uint32_t k) {
    uint32_t jump = (k ^ k >> 7) * 2654435761u;
    return mixed ? (jump ^ jump >> 15) * 2246822519u >> 16 : k / 2;
}

static void put4(uint32_t a, uint32_t b, uint32_t c, uint32_t d) {
    *out++ = a, *out++ = b, *out++ = c, *out++ = d;
}

static void put3(uint32_t a, uint32_t b, uint32_t c) { *out++ = a, *out++ = b, *out++ = c; }

// A row of ROW numbers below `top` around k. Answers its start.
static uint32_t row(uint32_t k, uint32_t top) {
    uint32_t start = used, first = k < ROW / 2 ? 0 : k - ROW / 2;
    if (first > top - ROW) first = top - ROW;
    for (uint32_t j = 0; j < ROW; j++) lists[used++] = first + j;
    return start;
}

// A list of numbers below `top`. Answers its start.
static uint32_t list(uint32_t k, uint32_t count, uint32_t top) {
    uint32_t start = used;
    for (uint32_t j = 0; j < count; j++) lists[used++] = (k * 7919 + j * 104729) % top;
    return start;
}

static void concept(uint32_t k) {
    uint32_t body = k ? k * k % 7919 % k : 0, word = k % (2 * R);
    if (k % 2) {
        put4(turn(k) % 2 ? 7 : 6, list(k, OPERANDS, k), OPERANDS, 0);
        return;
    }
    switch (k ? 2 + turn(k) % 8 : 0) {
    case 0: put4(0, 0, 0, 0); break;
    case 2: put4(2, k % N, 0, 0); break;
    case 3: put4(3, k, 0, 0); break;
    case 4: put4(4, word, 0, 0); break;
    case 5: put4(5, body, 0, 0); break;
    case 6: put4(8, word, body, 0); break;
    case 7: put4(9, word, body, 0); break;
    case 8: put4(10, k, word, body); break;
    default: put4(11, k, word, body);
    }
}

static void listed_axiom(uint32_t k) {
    static const uint32_t tags[8] = {1, 2, 3, 5, 6, 7, 21, 22};
    uint32_t tag = tags[turn(k) % 8];
    uint32_t start = list(k, MEMBERS, tag < 4 ? C : tag < 8 ? 2 * R : L);
    if (tag == 3) put4(3, k % N, start, MEMBERS);
    else put4(tag, start, MEMBERS, tag == 5 ? k % (2 * R) : 0);
}

static void plain_axiom(uint32_t k) {
    static const uint32_t tags[18] = {0, 4, 8, 9, 10, 11, 12, 13, 14, 15, 16, 17, 18, 19, 20, 23, 24, 25};
    uint32_t tag = tags[turn(k) % 18], word = k % (2 * R), concept = k % C;
    switch (tag) {
    case 0: put4(0, concept, C - 1 - concept, 0); break;
    case 4: case 8: put4(tag, word, 2 * R - 1 - word, 0); break;
    case 9: case 10: put4(tag, word, concept, 0); break;
    case 18: put4(18, concept, k, 0); break;
    case 19: case 20: put4(tag, word, k, k + 1); break;
    case 23: put4(23, k % N, 0, 0); break;
    case 24: put4(24, k % R, 0, 0); break;
    case 25: put4(25, k, 0, 0); break;
    default: put4(tag, word, 0, 0);
    }
}

static void trailer(const uint32_t counts[7]) {
    static const uint32_t widths[7] = {3, 4, 3, 4, 4, 3, 1};
    uint32_t start = 0;
    put3(1, counts[0], 0);
    for (int p = 0; p < 7; p++) {
        *out++ = counts[p], *out++ = start;
        start += counts[p] * widths[p];
    }
    *out++ = start;
}

static void make_deck(void) {
    static const uint32_t counts[7] = {N, R, INJECTED, C, A, FACTS, L};
    out = words, used = 0;
    for (uint32_t k = 0; k < N; k++) put3(0, row(k, N), ROW);
    for (uint32_t k = 0; k < R; k++) {
        uint32_t subs = row(k, R);
        put4(subs, ROW, row(k * 3, N), ROW);
    }
    for (uint32_t k = 0; k < INJECTED; k++) put3(k, k % R, N - 1 - k);
    for (uint32_t k = 0; k < C; k++) concept(k);
    for (uint32_t k = 0; k < A; k++) k % 2 ? plain_axiom(k) : listed_axiom(k);
    for (uint32_t k = 0; k < FACTS; k++) put3(k % N, k % R, k * 7 % N);
    if (used != L) exit(2);
    for (uint32_t k = 0; k < L; k++) *out++ = lists[k];
    trailer(counts);
    if (out != words + WORDS) exit(2);
}

// One class and one role; concept 0 is Top, and 32,767 Ands and EquivalentClasses each name all list words, which are 0. Answers
// the deck's bytes.
static size_t make_overlapping(void) {
    static const uint32_t counts[7] = {1, 1, 0, C, A, 0, L};
    out = words;
    put3(0, 0, 1);
    put4(0, 1, 0, 0);
    for (uint32_t k = 0; k < C; k++) put4(k ? 6 : 0, 0, k ? L : 0, 0);
    for (uint32_t k = 0; k < A; k++) put4(1, 0, L, 0);
    for (uint32_t k = 0; k < L; k++) *out++ = 0;
    trailer(counts);
    return (size_t)(out - words) * 4;
}

static double now(void) {
    struct timespec t;
    clock_gettime(CLOCK_MONOTONIC, &t);
    return t.tv_sec * 1e6 + t.tv_nsec / 1e3;
}

static double least(double a, double b) { return a < b ? a : b; }

#ifdef BEFORE
extern uint32_t check_before(const uint8_t *deck, size_t length);

// Document 01's deck W. Answers the deck's bytes.
static size_t make_w(void) {
    static const uint32_t counts[7] = {2, 1, 0, 3, 2, 1, 4};
    out = words;
    put3(0, 0, 1), put3(0, 1, 2);
    put4(3, 1, 4, 0);
    put4(2, 0, 0, 0), put4(2, 1, 0, 0), put4(8, 0, 0, 0);
    put4(0, 1, 0, 0), put4(0, 1, 2, 0);
    put3(1, 0, 0);
    put4(0, 0, 1, 0);
    trailer(counts);
    return (size_t)(out - words) * 4;
}

// The least times of both checks, of so many turns of so many calls each, and their ratio.
static uint32_t ratio(const char *name, size_t bytes, int turns, int calls) {
    const uint8_t *deck = (const uint8_t *)words;
    double now_least = 1e12, before_least = 1e12;
    uint32_t answer = 0;
    while (turns-- > 0) {
        double a = now();
        for (int k = 0; k < calls; k++) answer |= check_deck_number(deck, bytes);
        double b = now();
        for (int k = 0; k < calls; k++) answer |= check_before(deck, bytes);
        double c = now();
        now_least = least(now_least, b - a), before_least = least(before_least, c - b);
    }
    printf("%-18s %11.3f us, before %11.3f us, ratio %.3f\n", name, now_least / calls, before_least / calls,
           now_least / before_least);
    return answer;
}

int main(void) {
    make_deck();
    uint32_t answer = ratio("check", sizeof words, 2000, 1);
    mixed = 1;
    make_deck();
    answer |= ratio("tags mixed", sizeof words, 2000, 1);
    answer |= ratio("overlapping lists", make_overlapping(), 3, 1);
    answer |= ratio("deck W", make_w(), 2000, 1000);
    return answer != 0;
}
#else
__attribute__((noinline, optimize("no-tree-vectorize"))) static uint32_t sum_plain(const uint32_t *word, size_t count) {
    uint32_t sum = 0;
    for (size_t k = 0; k < count; k++) sum += word[k];
    return sum;
}

// The least time of a check, of so many turns; answer collects what it says.
static double check_least(size_t bytes, int turns, uint32_t *answer) {
    double found = 1e12;
    while (turns-- > 0) {
        double a = now();
        *answer |= check_deck_number((const uint8_t *)words, bytes);
        found = least(found, now() - a);
    }
    return found;
}

int main(void) {
    make_deck();
    const uint8_t *deck = (const uint8_t *)words;
    uint32_t answer = 0, sum = 0, plain_sum = 0;
    double check = 1e12, vector = 1e12, plain = 1e12;
    for (int k = 0; k < 500; k++) {
        double a = now();
        answer |= check_deck_number(deck, sizeof words);
        double b = now();
        sum = sum_words(deck, sizeof words);
        double c = now();
        plain_sum = sum_plain(words, WORDS);
        double d = now();
        check = least(check, b - a), vector = least(vector, c - b), plain = least(plain, d - c);
    }
    printf("deck of %d words: answer %u, sums %s\n", WORDS, answer, sum == plain_sum ? "agree" : "DIFFER");
    printf("check              %7.1f us\n", check);
    printf("sum, vectorised    %7.1f us, ratio %.2f\n", vector, check / vector);
    printf("sum, word by word  %7.1f us, ratio %.2f\n", plain, check / plain);
    mixed = 1;
    make_deck();
    printf("check, tags mixed  %7.1f us\n", check_least(sizeof words, 500, &answer));
    printf("check, overlapping lists %.2f s\n", check_least(make_overlapping(), 1, &answer) / 1e6);
    return answer != 0 || sum != plain_sum;
}
#endif
