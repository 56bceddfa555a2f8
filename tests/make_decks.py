#!/usr/bin/env python3
"""Makes the decks that the program test_deck reads, and what it must print.

    python3 tests/make_decks.py            writes crates/test_deck/stdin and stdout
    python3 tests/make_decks.py --check    compares them with what it would write; exit 1 if they differ

What is expected comes from `answer`, a reader of decks written from document 01 and document 02, a): a number, and for
12 to 14 the word at which the first fault lies. A hand-made case also states both, and the two must agree.

The data, in words of four bytes, low byte first, deck after deck to the end:

    name length in bytes, deck length in bytes, number of runs, the name padded with zero bytes to whole words, the runs

A run is a count, a width, and
    width 0       count words of the deck as they stand
    width 1 to 4  width steps; it makes count words of the deck, word i of them being the deck's word `width` words
                  earlier plus step number i mod width, modulo 2^32
    width 5       nothing; count words stay as the decks before left them
The deck is what the runs made, cut to its length.
"""
import collections
import copy
import random
import struct
import sys

from heaps import HAND_MADE
from shared import check_name, finish, padded

BIG = 4294967295
LIMITS = (4096, 1024, 4096, 16384, 16384, 16384, 262144)
WIDTHS = (3, 4, 3, 4, 4, 3, 1)
PARTS = ('classes', 'roles', 'injected', 'concepts', 'axioms', 'facts', 'lists')
KEPT = 5            # the width of a run that keeps what stands
ROOM = 600000       # bytes that the program reads


# --- The reader -----------------------------------------------------------------------------------------------------

# What a record holds, a letter for each field: c concept, k class, q real class, r role number, w role word, f flag,
# n any value, - unused; C, K, R, W, N a list (two fields) of concepts, classes, role numbers, role words, values. The
# forms of concepts and axioms are those of their fields after the tag.
CONCEPT_FORMS = ('---', '---', 'k--', 'n--', 'w--', 'c--', 'C-', 'C-', 'wc-', 'wc-', 'nwc', 'nwc')
AXIOM_FORMS = ('cc-', 'C-', 'C-', 'kC', 'ww-', 'Ww', 'W-', 'W-', 'ww-', 'wc-', 'wc-', 'w--', 'w--', 'w--', 'w--',
               'w--', 'w--', 'w--', 'cn-', 'wnn', 'wnn', 'N-', 'N-', 'k--', 'r--', 'n--')
CLASS_FORM, ROLE_FORM, INJECTED_FORM, FACT_FORM = 'fK', 'RK', 'krq', 'krk'

# Document 02, a): "12 tag or flag, 13 range, 14 filled field".
TAG, RANGE, FILLED = 12, 13, 14
HEAPS = {'f': TAG, '-': FILLED}         # by letter; of all others, range
LEAVES = 'x'                            # the letter of a list that leaves the lists part


class Refused(Exception):
    """The number of a refusal, and its word if it is 12 to 14."""


def refuse(number_, when):
    if when:
        raise Refused(number_)


def first_fault(faults):
    """Refuses a record that has faults, which stand in the order of its fields."""
    if faults:
        # "tested in that order": all fields for 12, then for 13, then for 14.
        found = min(faults, key=lambda fault: fault[0])
        # "the word at which the first fault lies … Fields are gone through in order"
        assert found == faults[0], faults
        raise Refused(*found)


class Reader:
    def __init__(self, deck):
        refuse(1, len(deck) % 4 != 0 or len(deck) < 72)
        words = struct.unpack('<%dI' % (len(deck) // 4), deck)
        body, trailer = words[:-18], words[-18:]
        refuse(2, trailer[0] != 1)
        self.real, self.dropped = trailer[1], trailer[2]
        counts, starts = trailer[3:17:2], trailer[4:17:2]
        refuse(3, any(count > limit for count, limit in zip(counts, LIMITS)))
        at, parts = 0, []
        for count, start, width in zip(counts, starts, WIDTHS):
            refuse(4, start != at)
            part = body[at:at + count * width]
            parts.append([part[k:k + width] for k in range(0, len(part), width)])
            at += count * width
        refuse(4, at != len(body) or trailer[17] != len(body) or self.real > counts[0])
        self.count = dict(zip(PARTS, counts))
        self.start = dict(zip(PARTS, starts))
        self.parts = dict(zip(PARTS, parts))
        self.words = body[len(body) - counts[6]:]
        self.below = {'c': counts[3], 'k': counts[0], 'q': self.real, 'r': counts[1], 'w': 2 * counts[1], 'f': 2,
                      'n': BIG + 1, '-': 1, LEAVES: 0}

    def records(self, part):
        """The number of each record, the word at which it begins, and its words."""
        for k, record in enumerate(self.parts[part]):
            yield k, self.start[part] + k * len(record), record

    def listed(self, start, count):
        return self.words[start:start + count]

    def held(self, form, at, fields):
        """What fields from word `at` on hold: letter, value and word of each, in order, "a list's words with its
        start". A list that leaves the lists part is one thing, at its start field."""
        place = 0
        for letter in form:
            value, word = fields[place], at + place
            if letter.isupper():
                count = fields[place + 1]
                if value + count > len(self.words):
                    yield LEAVES, value, word
                else:
                    for k in range(value, value + count):
                        yield letter.lower(), self.words[k], self.start['lists'] + k
                place += 2
            else:
                yield letter, value, word
                place += 1

    def fit(self, form, at, fields):
        """Are all fields as they should be? Answers the concepts that they name."""
        held = list(self.held(form, at, fields))
        first_fault([(HEAPS.get(letter, RANGE), word) for letter, value, word in held if value >= self.below[letter]])
        return [value for letter, value, _ in held if letter == 'c']

    def tagged(self, forms, at, record):
        """The same for a record with a tag. If that is unknown, nothing can be said of the fields after it."""
        if record[0] >= len(forms):
            first_fault([(TAG, at)])
        return self.fit(forms[record[0]], at + 1, record[1:])

    def rising(self, row):
        refuse(6, any(a >= b for a, b in zip(row, row[1:])))

    def classes(self):
        for k, at, record in self.records('classes'):
            self.fit(CLASS_FORM, at, record)
            row = self.listed(*record[1:])
            self.rising(row)
            refuse(6, record[0] == 0 and k not in row)

    def roles(self):
        for r, at, record in self.records('roles'):
            self.fit(ROLE_FORM, at, record)
            subs, ranges = self.listed(*record[:2]), self.listed(*record[2:])
            self.rising(subs)
            self.rising(ranges)
            refuse(6, r not in subs)

    def injected(self):
        last = (-1, -1)
        for _, at, record in self.records('injected'):
            self.fit(INJECTED_FORM, at, record)
            refuse(6, record[:2] <= last)
            last = record[:2]

    def concepts(self):
        for k, at, record in self.records('concepts'):
            refuse(7, any(operand >= k for operand in self.tagged(CONCEPT_FORMS, at, record)))

    def axioms(self):
        for _, at, record in self.records('axioms'):
            self.tagged(AXIOM_FORMS, at, record)

    def facts(self):
        for _, at, record in self.records('facts'):
            self.fit(FACT_FORM, at, record)


def answer(deck):
    """(0,) for an accepted deck, else the number of its refusal, with the word if it is 12 to 14."""
    try:
        reader = Reader(deck)
        for part in PARTS[:6]:
            getattr(reader, part)()
    except Refused as refusal:
        return refusal.args
    return (0,)


def number(deck):
    """0 for an accepted deck, else the number of its refusal."""
    return answer(deck)[0]


def accept(deck):
    """Refuses a deck that is not accepted, with its number and word."""
    found = answer(deck)
    if found != (0,):
        raise Refused(*found)


def stated(expected):
    """A refusal as its author wrote it, a number alone or with a word, in the form of `answer`."""
    return expected if isinstance(expected, tuple) else (expected,)


# --- Building decks -------------------------------------------------------------------------------------------------

class Deck:
    """The parts of a deck. `trailer` holds trailer words that differ from what the parts ask for."""

    def __init__(self, real=0):
        self.real, self.dropped = real, 0
        for part in PARTS:
            setattr(self, part, [])
        self.trailer = {}

    def row(self, *words):
        """Adds words to the lists and gives back start and count."""
        self.lists.extend(words)
        return [len(self.lists) - len(words), len(words)]

    def words(self):
        body, trailer = [], [1, self.real, self.dropped]
        for part in PARTS:
            records = getattr(self, part)
            trailer += [len(records), len(body)]
            if part == 'lists':
                body += records
            else:
                for record in records:
                    body += record
        trailer.append(len(body))
        for place, word in self.trailer.items():
            trailer[place] = word
        return body + trailer

    def bytes(self):
        words = self.words()
        return struct.pack('<%dI' % len(words), *words)

    def edited(self, *edits):
        """A copy with edits: ('trailer', word, value), ('lists', word, value) or (part, record, field, value)."""
        deck = copy.copy(self)
        for part in {edit[0] for edit in edits} - {'real'}:
            setattr(deck, part, copy.deepcopy(getattr(self, part)))
        for part, *place, value in edits:
            if part == 'real':
                deck.real = value
            elif len(place) == 1:
                getattr(deck, part)[place[0]] = value
            else:
                getattr(deck, part)[place[0]][place[1]] = value
        return deck


def base():
    """A deck with every part, every concept tag (concept number = tag) and every axiom tag (axiom number = tag)."""
    d = Deck(real=2)
    d.classes = [[0] + d.row(0), [0] + d.row(0, 1), [1] + d.row(0, 1)]
    d.roles = [d.row(0) + d.row(0), d.row(0, 1) + d.row(0, 2)]
    d.injected = [[0, 0, 1], [0, 1, 1], [1, 0, 0]]
    d.concepts = [[0, 0, 0, 0], [1, 0, 0, 0], [2, 1, 0, 0], [3, 7, 0, 0], [4, 3, 0, 0], [5, 0, 0, 0],
                  [6] + d.row(0, 2) + [0], [7] + d.row(1, 2, 2) + [0], [8, 1, 2, 0], [9, 2, 5, 0], [10, 5, 0, 6],
                  [11, 0, 3, 1]]
    d.axioms = [[0, 11, 0, 0], [1] + d.row(4, 11) + [0], [2] + d.row(5, 6) + [0], [3, 2] + d.row(10, 3),
                [4, 0, 3, 0], [5] + d.row(1, 2) + [3], [6] + d.row(0, 3) + [0], [7] + d.row(2) + [0], [8, 1, 2, 0],
                [9, 3, 11, 0], [10, 3, 2, 0]]
    d.axioms += [[tag, 3, 0, 0] for tag in range(11, 18)]
    d.axioms += [[18, 3, 9, 0], [19, 2, 8, 9], [20, 3, 9, 8], [21] + d.row(9, 9) + [0], [22] + d.row(7, 1) + [0],
                 [23, 2, 0, 0], [24, 1, 0, 0], [25, 6, 0, 0]]
    d.facts = [[0, 0, 1], [2, 1, 0]]
    d.row(77, 3)
    return d


def deck_w():
    d = Deck(real=2)
    d.classes = [[0] + d.row(0), [0] + d.row(0, 1)]
    d.roles = [d.row(0) + d.row()]
    d.concepts = [[2, 0, 0, 0], [2, 1, 0, 0], [8, 0, 0, 0]]
    d.axioms = [[0, 1, 0, 0], [0, 1, 2, 0]]
    d.facts = [[1, 0, 0]]
    return d


def full(classes=1, roles=1, injected=0, concepts=0, axioms=0, facts=0, lists=0):
    """An accepted deck with these counts. Classes and roles have rows of their own number only."""
    d = Deck(real=classes)
    d.classes = [[0, k, 1] for k in range(classes)]
    d.roles = [[k, 1, 0, 1 if classes else 0] for k in range(roles)]
    d.injected = [[k, 0, k] for k in range(injected)]
    d.concepts = [[5, k - 1, 0, 0] if k else [0, 0, 0, 0] for k in range(concepts)]
    d.axioms = [[0, k, max(concepts - 1, 0), 0] if concepts else [11, 1, 0, 0] for k in range(axioms)]
    d.facts = [[0, 0, classes - 1] for k in range(facts)]
    d.lists = list(range(max(classes, roles, lists)))
    return d


# --- The cases ------------------------------------------------------------------------------------------------------

CASES = []


def case(name, expected, deck, *edits):
    """A hand-made case, with what its author expects: a number, or one of 12 to 14 and a word."""
    data = deck if isinstance(deck, bytes) else deck.edited(*edits).bytes()
    found = answer(data)
    assert found == stated(expected), (name, expected, found)
    add(name, data, found)


def add(name, data, found):
    check_name(name, CASES)
    CASES.append((name, data, found))


B = base()
N, R, C, L = 3, 2, 12, len(B.lists)
EMPTY = Deck()
REST = struct.pack('<18I', 1, *[0] * 17)
# Where the parts of the base deck start.
STARTS = {'classes': 0, 'roles': 9, 'injected': 17, 'concepts': 26, 'axioms': 74, 'facts': 178, 'lists': 184}


def word(part, record, field=0):
    """The word of the base deck in which this field stands, or this list word."""
    return STARTS[part] + record * WIDTHS[PARTS.index(part)] + field


def tag(*place):
    return TAG, word(*place)


def out(*place):
    return RANGE, word(*place)


def filled(*place):
    return FILLED, word(*place)


def lengths():
    for n in (0, 1, 3, 4, 68, 71):
        case('bytes-%d' % n, 1, REST[:n])
    case('bytes-72-empty-deck', 0, EMPTY)
    for n in (73, 74, 75):
        case('bytes-%d' % n, 1, REST + b'\1' * (n - 72))
    case('bytes-76-one-word-before', 4, b'\0' * 4 + REST)
    case('bytes-76-one-word-after', 2, REST + b'\0' * 4)
    for n in (1, 2, 3):
        case('base-with-%d-bytes-more' % n, 1, B.bytes() + b'\0' * n)
        case('base-with-%d-bytes-less' % n, 1, B.bytes()[:-n])
    case('base-with-4-bytes-less', 2, B.bytes()[:-4])
    case('base-without-its-first-word', 4, B.bytes()[4:])
    case('base-without-its-body', 4, B.bytes()[-72:])
    case('zeros-72-bytes', 2, b'\0' * 72)
    case('ones-72-bytes', 2, b'\xff' * 72)


def editions():
    for edition in (0, 2, 256, 65536, 16777216, 16777217, BIG):
        case('edition-%d' % edition, 2, B, ('trailer', 0, edition))
    case('edition-with-high-byte-first', 2, EMPTY, ('trailer', 0, 1 << 24))
    case('dropped-1', 0, B, ('trailer', 2, 1))
    case('dropped-largest', 0, B, ('trailer', 2, BIG))


def counts():
    for p, (part, limit, width) in enumerate(zip(PARTS, LIMITS, WIDTHS)):
        place = 3 + 2 * p
        for what, value in (('above', limit + 1), ('largest', BIG)):
            case('count-%s-%s' % (part, what), 3, B, ('trailer', place, value))
        case('count-%s-limit-without-body' % part, 4, B, ('trailer', place, limit))
        case('count-%s-one-more' % part, 4, B, ('trailer', place, len(getattr(B, part)) + 1))
        # Four times this count wraps to 0, the length of the body.
        if width == 4:
            case('count-%s-wrapping-product' % part, 3, EMPTY, ('trailer', place, 1 << 30))


def starts():
    for p, part in enumerate(PARTS):
        place = 4 + 2 * p
        start = B.words()[-18 + place]
        case('start-%s-up' % part, 4, B, ('trailer', place, start + 1))
        case('start-%s-down' % part, 4, B, ('trailer', place, (start - 1) % (1 << 32)))
        case('start-%s-empty-elsewhere' % part, 4, EMPTY, ('trailer', place, 1))
    case('start-of-next-part-for-an-empty-part', 4, deck_w(), ('trailer', 8, 13))
    case('start-facts-high-bit', 4, B, ('trailer', 14, B.words()[-4] + (1 << 31)))
    case('starts-all-zero', 4, B, *[('trailer', 4 + 2 * p, 0) for p in range(7)])
    case('starts-in-bytes', 4, B, *[('trailer', 4 + 2 * p, 4 * B.words()[-14 + 2 * p]) for p in range(7)])
    case('body-count-up', 4, B, ('trailer', 17, len(B.words()) - 17))
    case('body-count-down', 4, B, ('trailer', 17, len(B.words()) - 19))
    case('body-count-zero', 4, B, ('trailer', 17, 0))
    case('body-count-with-trailer', 4, B, ('trailer', 17, len(B.words())))
    case('body-count-largest', 4, B, ('trailer', 17, BIG))
    case('body-count-of-an-empty-deck', 4, EMPTY, ('trailer', 17, 1))
    words = B.words()
    gap = words[:-18] + [0] + words[-18:]
    case('gap-before-trailer', 4, struct.pack('<%dI' % len(gap), *gap))
    gap[-1] += 1
    case('gap-before-trailer-counted', 4, struct.pack('<%dI' % len(gap), *gap))
    gap = [0] + words[:-18] + words[-18:-1] + [words[-1] + 1]
    for p in range(7):
        gap[-14 + 2 * p] += 1
    case('gap-before-the-first-part', 4, struct.pack('<%dI' % len(gap), *gap))
    at = words[-14 + 2 * 3]
    gap = words[:at] + [0] + words[at:-1] + [words[-1] + 1]
    for p in range(3, 7):
        gap[-14 + 2 * p] += 1
    case('gap-before-concepts', 4, struct.pack('<%dI' % len(gap), *gap))
    cut = words[:-19] + words[-18:-1] + [words[-1] - 1]
    case('last-list-word-missing', 4, struct.pack('<%dI' % len(cut), *cut))
    cut[-1] += 1
    case('last-list-word-missing-but-counted', 4, struct.pack('<%dI' % len(cut), *cut))
    case('real-equal-to-classes', 0, B, ('real', N))
    case('real-above-classes', 4, B, ('real', N + 1))
    case('real-largest', 4, B, ('real', BIG))
    case('real-zero-without-injected', 0, deck_w(), ('real', 0))
    case('real-1-in-an-empty-deck', 4, EMPTY, ('real', 1))


def class_rows():
    case('flag-2', tag('classes', 1), B, ('classes', 1, 0, 2))
    case('flag-2-last-class', tag('classes', 2), B, ('classes', 2, 0, 2))
    case('flag-256', tag('classes', 0), B, ('classes', 0, 0, 256))
    case('flag-largest', tag('classes', 0), B, ('classes', 0, 0, BIG))
    case('flag-1-for-all', 0, B, *[('classes', k, 0, 1) for k in range(N)])
    list_ends('class-row', 'classes', 0, 1, True, [('classes', 0, 0, 1)])
    case('class-row-member-at-n', out('lists', 2), B, ('lists', 2, N))
    case('class-row-member-largest', out('lists', 0), B, ('lists', 0, BIG))
    case('class-row-member-largest-last', out('lists', 2), B, ('lists', 2, BIG))
    case('class-row-member-above-m', 0, B, ('lists', 2, 2), ('classes', 1, 0, 1))
    case('class-row-equal-neighbours', 6, B, ('lists', 1, 1))
    case('class-row-falls', 6, B, ('lists', 1, 1), ('lists', 2, 0))
    case('class-row-falls-later', 6, B, ('classes', 2, 1, L - 3), ('classes', 2, 2, 3),
         ('lists', L - 3, 0), ('lists', L - 2, 2), ('lists', L - 1, 1))
    case('class-row-equal-unsatisfiable', 6, B, ('lists', 4, 0))
    case('class-row-falls-unsatisfiable', 6, B, ('lists', 3, 1), ('lists', 4, 0))
    case('own-class-absent', 6, B, ('lists', 2, 2))
    case('own-class-absent-from-row-of-one', 6, B, ('lists', 0, 1))
    case('own-class-absent-row-empty', 6, B, ('classes', 0, 2, 0))
    case('own-class-absent-unsatisfiable', 0, B, ('classes', 1, 0, 1), ('lists', 2, 2))
    case('row-empty-unsatisfiable', 0, B, ('classes', 2, 2, 0))
    case('own-class-just-past-the-row', 6, B, ('classes', 1, 2, 1))
    case('own-class-just-before-the-row', 6, B, ('classes', 1, 1, 4), ('classes', 1, 2, 1), ('lists', 3, 1),
         ('lists', 4, 2))
    case('own-class-first-in-row', 0, B, ('lists', 1, 1), ('lists', 2, 2))
    case('class-row-shared', 0, B, ('classes', 2, 1, 1), ('classes', 2, 2, 2))
    case('class-row-whole', 0, B, ('classes', 1, 1, 9), ('classes', 1, 2, 3), ('roles', 1, 2, 10),
         *[('lists', 9 + k, k) for k in range(3)])


def list_ends(name, part, record, field, all_of_them, flag=()):
    """A list's range: start and count are the fields `field` and `field + 1`."""
    start, count = getattr(B, part)[record][field:field + 2]
    at, many = (part, record, field), (part, record, field + 1)
    fault = out(part, record, field)
    case(name + '-ends-past-l', fault, B, at + (L - count + 1,))
    case(name + '-sum-wraps-to-0', fault, B, at + (BIG,), many + (1,))
    case(name + '-empty-past-l', fault, B, *flag, at + (L + 1,), many + (0,))
    if all_of_them:
        case(name + '-start-past-l', fault, B, at + (L + 1,))
        case(name + '-count-past-l', fault, B, many + (L - start + 1,))
        case(name + '-count-largest', fault, B, many + (BIG,))
        case(name + '-sum-wraps-to-1', fault, B, at + (2,), many + (BIG,))
        case(name + '-sum-2p31-twice', fault, B, at + (1 << 31,), many + (1 << 31,))
        case(name + '-empty-largest', fault, B, *flag, at + (BIG,), many + (0,))


def role_rows():
    list_ends('sub-row', 'roles', 0, 0, False)
    list_ends('range-row', 'roles', 1, 2, False)
    case('sub-row-empty', 6, B, ('roles', 0, 0, L), ('roles', 0, 1, 0))
    case('range-row-empty-at-l', 0, B, ('roles', 1, 2, L), ('roles', 1, 3, 0))
    case('class-row-empty-at-l', 0, B, ('classes', 2, 1, L), ('classes', 2, 2, 0))
    case('sub-row-member-at-r', out('lists', 8), B, ('lists', 8, R))
    case('sub-row-member-below-n-at-r', out('lists', 5), B, ('lists', 5, R))
    case('sub-row-member-largest', out('lists', 8), B, ('lists', 8, BIG))
    case('sub-row-equal-neighbours', 6, B, ('lists', 7, 1))
    case('sub-row-falls', 6, B, ('lists', 7, 1), ('lists', 8, 0))
    case('own-role-absent', 6, B, ('lists', 5, 1))
    case('own-role-absent-from-second', 6, B, ('roles', 1, 1, 1))
    case('range-row-member-at-n', out('lists', 10), B, ('lists', 10, N))
    case('range-row-member-at-r-below-n', 0, B, ('lists', 6, 2))
    case('range-row-member-largest', out('lists', 6), B, ('lists', 6, BIG))
    case('range-row-equal-neighbours', 6, B, ('lists', 9, 2))
    case('range-row-falls', 6, B, ('lists', 9, 2), ('lists', 10, 0))
    case('range-row-without-own-number', 0, B, ('lists', 6, 1))


def injected():
    for field, name, bad in ((0, 'y', N), (1, 'r', R), (2, 'q', N)):
        for k in (0, 2):
            case('injected-%d-%s-out' % (k, name), out('injected', k, field), B, ('injected', k, field, bad))
    case('injected-q-at-m-below-n', out('injected', 1, 2), B, ('injected', 1, 2, 2))
    case('injected-q-at-m-when-m-is-0', out('injected', 0, 2), B, ('real', 0))
    case('injected-q-below-larger-m', 0, B, ('injected', 1, 2, 2), ('real', 3))
    case('injected-y-above-m', 0, B, ('injected', 2, 0, 2))
    case('injected-y-falls', 6, B, ('injected', 0, 0, 1), ('injected', 1, 0, 0))
    case('injected-y-falls-r-rises', 6, B, ('injected', 0, 0, 2), ('injected', 1, 0, 1))
    case('injected-y-and-r-equal', 6, B, ('injected', 1, 1, 0))
    case('injected-y-and-r-equal-q-rises', 6, B, ('injected', 1, 1, 0), ('injected', 0, 2, 0))
    case('injected-y-equal-r-falls', 6, B, ('injected', 0, 1, 1), ('injected', 1, 1, 0))
    case('injected-last-y-and-r-equal', 6, B, ('injected', 2, 0, 0), ('injected', 2, 1, 1))
    case('injected-last-below-first-only', 6, B, ('injected', 0, 0, 1), ('injected', 1, 0, 2), ('injected', 2, 0, 0))
    case('injected-y-rises-r-falls', 0, B, ('injected', 1, 0, 1), ('injected', 1, 1, 1), ('injected', 2, 0, 2))
    case('injected-q-repeats', 0, B, ('injected', 2, 2, 1))


# What each tag leaves unused (fields 1 to 3), and values just out of range.
CONCEPT_UNUSED = {0: (1, 2, 3), 1: (1, 2, 3), 2: (2, 3), 3: (2, 3), 4: (2, 3), 5: (2, 3), 6: (3,), 7: (3,), 8: (3,),
                  9: (3,)}
CONCEPT_OUT = {2: {1: N}, 4: {1: 2 * R}, 5: {1: C}, 8: {1: 2 * R, 2: C}, 9: {1: 2 * R, 2: C}, 10: {2: 2 * R, 3: C},
               11: {2: 2 * R, 3: C}}
CONCEPT_LISTS = {6: 1, 7: 1}
CONCEPT_FREE = {3: (1,), 10: (1,), 11: (1,)}
AXIOM_UNUSED = {0: (3,), 1: (3,), 2: (3,), 4: (3,), 6: (3,), 7: (3,), 8: (3,), 9: (3,), 10: (3,), 11: (2, 3),
                12: (2, 3), 13: (2, 3), 14: (2, 3), 15: (2, 3), 16: (2, 3), 17: (2, 3), 18: (3,), 21: (3,), 22: (3,),
                23: (2, 3), 24: (2, 3), 25: (2, 3)}
AXIOM_OUT = {0: {1: C, 2: C}, 3: {1: N}, 4: {1: 2 * R, 2: 2 * R}, 5: {3: 2 * R}, 8: {1: 2 * R, 2: 2 * R},
             9: {1: 2 * R, 2: C}, 10: {1: 2 * R, 2: C}, 11: {1: 2 * R}, 12: {1: 2 * R}, 13: {1: 2 * R}, 14: {1: 2 * R},
             15: {1: 2 * R}, 16: {1: 2 * R}, 17: {1: 2 * R}, 18: {1: C}, 19: {1: 2 * R}, 20: {1: 2 * R}, 23: {1: N},
             24: {1: R}}
AXIOM_LISTS = {1: 1, 2: 1, 3: 2, 5: 1, 6: 1, 7: 1, 21: 1, 22: 1}
AXIOM_FREE = {18: (2,), 19: (2, 3), 20: (2, 3), 25: (1,)}


def fields(part, one, unused, past, lists, free):
    """In the base deck a record's number is its tag."""
    for k, places in unused.items():
        for field in places:
            case('%s-%d-unused-field-%d' % (one, k, field), filled(part, k, field), B, (part, k, field, 1))
    case('%s-0-unused-field-3-largest' % one, filled(part, 0, 3), B, (part, 0, 3, BIG))
    for k, places in past.items():
        for field, bad in places.items():
            case('%s-%d-field-%d-just-out' % (one, k, field), out(part, k, field), B, (part, k, field, bad))
            if k == 8:
                case('%s-%d-field-%d-largest' % (one, k, field), out(part, k, field), B, (part, k, field, BIG))
    for k, field in lists.items():
        list_ends('%s-%d-list' % (one, k), part, k, field, one == 'axiom' and k == 3)
        case('%s-%d-list-empty-at-l' % (one, k), 0, B, (part, k, field, L), (part, k, field + 1, 0))
    for k, places in free.items():
        for field in places:
            case('%s-%d-field-%d-any-value' % (one, k, field), 0, B, (part, k, field, BIG))
    tags = len(getattr(B, part))
    for k in (tags, 100, 256 + tags - 1, BIG):
        case('%s-tag-%d' % (one, k), tag(part, 0), B, (part, 0, slice(0, 4), [k, 0, 0, 0]))
    case('%s-last-with-unknown-tag' % one, tag(part, tags - 1), B, (part, tags - 1, 0, tags))


def concepts():
    fields('concepts', 'concept', CONCEPT_UNUSED, CONCEPT_OUT, CONCEPT_LISTS, CONCEPT_FREE)
    for k in (6, 7):
        start, count = B.concepts[k][1:3]
        last = start + count - 1
        case('concept-%d-first-member-out' % k, out('lists', start), B, ('lists', start, C))
        case('concept-%d-last-member-out' % k, out('lists', last), B, ('lists', last, C))
        case('concept-%d-last-member-largest' % k, out('lists', last), B, ('lists', last, BIG))
        case('concept-%d-first-member-itself' % k, 7, B, ('lists', start, k))
        case('concept-%d-last-member-itself' % k, 7, B, ('lists', last, k))
        case('concept-%d-last-member-above' % k, 7, B, ('lists', last, k + 1))
        case('concept-%d-last-member-highest' % k, 7, B, ('lists', last, C - 1))
        case('concept-%d-last-member-just-below' % k, 0, B, ('lists', last, k - 1))
        case('concept-%d-members-repeat' % k, 0, B, *[('lists', start + k, 3) for k in range(count)])
    for k, field in ((5, 1), (8, 2), (9, 2), (10, 3), (11, 3)):
        case('concept-%d-operand-itself' % k, 7, B, ('concepts', k, field, k))
        if k < C - 1:
            case('concept-%d-operand-above' % k, 7, B, ('concepts', k, field, k + 1))
            case('concept-%d-operand-highest' % k, 7, B, ('concepts', k, field, C - 1))
        case('concept-%d-operand-just-below' % k, 0, B, ('concepts', k, field, k - 1))
    case('concept-0-not-of-itself', 7, B, ('concepts', 0, 0, 5))
    case('concept-0-empty-and', 0, B, ('concepts', 0, 0, 6))
    case('concept-0-empty-or', 0, B, ('concepts', 0, 0, 7))
    case('concept-0-and-of-itself', 7, B, ('concepts', 0, 0, 6), ('concepts', 0, 2, 1))
    case('concepts-that-wait-for-each-other', 7, B, ('concepts', 0, 0, 5), ('concepts', 0, 1, 5))
    case('atomic-class-above-m', 0, B, ('concepts', 2, 1, 2))
    case('role-words-highest', 0, B, ('concepts', 8, 1, 3), ('concepts', 9, 1, 3), ('concepts', 10, 2, 3),
         ('axioms', 4, 1, 3), ('axioms', 8, 1, 3), ('axioms', 8, 2, 3), ('axioms', 19, 1, 3))
    case('role-words-inverse-of-0', 0, B, ('concepts', 4, 1, 1), ('concepts', 9, 1, 1), ('axioms', 20, 1, 1))
    case('role-words-0', 0, B, ('concepts', 4, 1, 0), ('concepts', 9, 1, 0),
         *[('axioms', k, 1, 0) for k in range(8, 18)])
    case('role-word-without-roles', (RANGE, 8), full(roles=0, concepts=2), ('concepts', 1, 0, 4))
    case('min-operand-in-the-number-field', 0, B, ('concepts', 10, 1, 11))
    case('atomic-0-without-classes', (RANGE, 1), full(classes=0, roles=0, concepts=1), ('concepts', 0, 0, 2))


def axioms():
    fields('axioms', 'axiom', AXIOM_UNUSED, AXIOM_OUT, AXIOM_LISTS, AXIOM_FREE)
    for k, field, bad in ((1, 1, C), (2, 1, C), (3, 2, C), (5, 1, 2 * R), (6, 1, 2 * R), (7, 1, 2 * R)):
        start, count = B.axioms[k][field:field + 2]
        if count > 1:
            case('axiom-%d-first-member-out' % k, out('lists', start), B, ('lists', start, bad))
        case('axiom-%d-last-member-out' % k, out('lists', start + count - 1), B, ('lists', start + count - 1, bad))
        case('axiom-%d-last-member-highest' % k, 0, B, ('lists', start + count - 1, bad - 1))
    for k in (21, 22):
        start, count = B.axioms[k][1:3]
        case('axiom-%d-members-any-value' % k, 0, B, ('lists', start, BIG), ('lists', start + count - 1, BIG))
    case('axioms-name-later-concepts', 0, B, ('axioms', 0, 1, C - 1), ('axioms', 0, 2, C - 1), ('axioms', 9, 2, C - 1),
         ('axioms', 18, 1, C - 1))
    case('axiom-24-role-number-not-word', out('axioms', 24, 1), B, ('axioms', 24, 1, 3))
    case('axiom-24-highest-role', 0, B, ('axioms', 24, 1, R - 1))
    case('axiom-3-class-above-m', 0, B, ('axioms', 3, 1, 2))
    case('axiom-3-class-at-m-when-m-is-0', 0, full(concepts=1, axioms=1), ('real', 0), ('axioms', 0, 0, 3),
         ('axioms', 0, 2, 0), ('axioms', 0, 3, 0))
    case('chain-of-one', 0, B, ('axioms', 5, 2, 1))
    case('chain-of-three', 0, B, ('axioms', 5, 2, 3), ('lists', B.axioms[5][1] + 2, 0))


def facts():
    for k in range(2):
        for field, bad in ((0, N), (1, R), (2, N)):
            case('fact-%d-field-%d-out' % (k, field), out('facts', k, field), B, ('facts', k, field, bad))
        case('fact-%d-largest' % k, out('facts', k, 2 * k), B, ('facts', k, 2 * k, BIG))
    case('fact-role-number-not-word', out('facts', 0, 1), B, ('facts', 0, 1, 3))
    case('facts-fall-and-repeat', 0, B, ('facts', 0, 0, 2), ('facts', 1, 0, 2), ('facts', 0, 1, 1), ('facts', 0, 2, 0))
    case('fact-of-classes-above-m', 0, B, ('facts', 0, 0, 2), ('facts', 0, 2, 2))
    case('fact-without-classes', (RANGE, 4), full(classes=0, roles=1), ('facts', slice(0, 0), [[0, 0, 0]]))


def lists():
    case('free-list-words', 0, B, ('lists', L - 1, BIG), ('lists', L - 2, BIG))
    case('free-list-words-fall', 0, B, ('lists', L - 1, 0), ('lists', L - 2, 1))
    case('lists-overlap', 0, B, ('concepts', 6, 1, 0), ('concepts', 7, 1, 1), ('axioms', 1, 1, 0), ('axioms', 6, 1, 1))
    case('list-over-a-class-row', 0, B, ('axioms', 1, 1, 0), ('axioms', 1, 2, 5))
    case('list-over-everything-of-individuals', 0, B, ('axioms', 21, 1, 0), ('axioms', 21, 2, L))
    case('list-over-everything-of-concepts', out('lists', 31), B, ('axioms', 1, 1, 0), ('axioms', 1, 2, L))
    case('list-ends-at-l', 0, B, ('axioms', 22, 1, L - 2))
    case('list-of-a-free-word', out('lists', 31), B, ('axioms', 7, 1, L - 2))


# One fault of each kind in the base deck: (name, part, answer, edits). Those of the trailer are parts by themselves.
FAULTS = (
    ('edition', 'edition', 2, [('trailer', 0, 2)]), ('count', 'count', 3, [('trailer', 15, 262145)]),
    ('start', 'layout', 4, [('trailer', 4, 1)]), ('body', 'layout', 4, [('trailer', 17, 0)]),
    ('real', 'layout', 4, [('trailer', 1, N + 1)]),
    ('class12', 'classes', tag('classes', 0), [('classes', 0, 0, 2)]),
    ('class13', 'classes', out('classes', 0, 1), [('classes', 0, 1, BIG)]), ('class6', 'classes', 6, [('lists', 1, 1)]),
    ('role13', 'roles', out('lists', 8), [('lists', 8, R)]), ('role6', 'roles', 6, [('lists', 7, 1)]),
    ('inject13', 'injected', out('injected', 0, 2), [('injected', 0, 2, 2)]),
    ('inject6', 'injected', 6, [('injected', 2, 0, 0)]),
    ('concept12', 'concepts', tag('concepts', 3), [('concepts', 3, 0, 12)]),
    ('concept13', 'concepts', out('concepts', 4, 1), [('concepts', 4, 1, 4)]),
    ('concept14', 'concepts', filled('concepts', 2, 3), [('concepts', 2, 3, 1)]),
    ('concept7', 'concepts', 7, [('concepts', 8, 2, 8)]),
    ('axiom12', 'axioms', tag('axioms', 3), [('axioms', 3, 0, 26)]),
    ('axiom13', 'axioms', out('axioms', 3, 1), [('axioms', 3, 1, N)]),
    ('axiom14', 'axioms', filled('axioms', 0, 3), [('axioms', 0, 3, 1)]),
    ('fact13', 'facts', out('facts', 0, 0), [('facts', 0, 0, N)]))


def pairs():
    for k, (one, part, first, edits) in enumerate(FAULTS):
        for other, other_part, _, more in FAULTS[k + 1:]:
            # Records of one part are tried below.
            if part != other_part:
                case('%s-before-%s' % (one, other), first, B, *edits, *more)
    for name, _, _, edits in FAULTS[:6]:
        case('odd-bytes-before-%s' % name, 1, B.edited(*edits).bytes() + b'\0')
    # The last count out of bounds against the first start; the first start against M.
    case('edition-count-start-real', 2, B, ('trailer', 0, 0), ('trailer', 3, 4097), ('trailer', 4, 9),
         ('trailer', 1, 9))
    case('count-start-real', 3, B, ('trailer', 15, BIG), ('trailer', 4, 9), ('trailer', 1, 9))

    # Inside one record.
    case('class-flag-and-order', tag('classes', 1), B, ('classes', 1, 0, 2), ('lists', 1, 1))
    case('class-range-and-order', out('lists', 3), B, ('classes', 1, 2, 3), ('lists', 1, 1), ('lists', 2, 0),
         ('lists', 3, N))
    case('class-order-then-member-out', out('lists', 2), B, ('classes', 2, 1, 0), ('classes', 2, 2, 3), ('lists', 0, 0),
         ('classes', 0, 0, 1), ('classes', 0, 2, 0), ('classes', 1, 0, 1), ('classes', 1, 2, 0), ('lists', 1, 0),
         ('lists', 2, N))
    case('class-own-absent-and-member-out', out('lists', 2), B, ('lists', 2, N))
    case('class-flag-and-own-absent', tag('classes', 0), B, ('classes', 0, 0, 2), ('classes', 0, 2, 0))
    case('class-list-out-and-own-absent', out('classes', 0, 1), B, ('classes', 0, 1, BIG))
    case('role-first-row-order-second-member', out('lists', 10), B, ('lists', 7, 1), ('lists', 10, N))
    case('role-first-row-order-second-list', out('roles', 1, 2), B, ('lists', 7, 1), ('roles', 1, 2, BIG))
    case('role-first-row-own-second-member', out('lists', 6), B, ('lists', 5, 1), ('lists', 6, N))
    case('role-first-row-own-second-list', out('roles', 0, 2), B, ('lists', 5, 1), ('roles', 0, 3, BIG))
    case('role-first-row-list-second-order', out('roles', 1, 0), B, ('roles', 1, 0, BIG), ('lists', 9, 2))
    case('role-first-row-member-second-order', out('lists', 8), B, ('lists', 8, R), ('lists', 9, 2))
    case('role-both-rows-out-of-order', 6, B, ('lists', 7, 1), ('lists', 9, 2))
    case('injected-range-and-order', out('injected', 1, 2), B, ('injected', 1, 1, 0), ('injected', 1, 2, 2))
    case('injected-r-out-and-y-falls', out('injected', 1, 1), B, ('injected', 0, 0, 1), ('injected', 1, 0, 0),
         ('injected', 1, 1, R))
    case('concept-6-itself-then-member-out', out('lists', 12), B, ('lists', B.concepts[6][1], 6),
         ('lists', B.concepts[6][1] + 1, C))
    case('concept-7-member-out-then-itself', out('lists', 13), B, ('lists', B.concepts[7][1], C),
         ('lists', B.concepts[7][1] + 2, 7))
    case('concept-7-itself-and-field-filled', filled('concepts', 7, 3), B, ('lists', B.concepts[7][1], 7),
         ('concepts', 7, 3, 1))
    case('concept-5-itself-and-field-filled', filled('concepts', 5, 3), B, ('concepts', 5, 1, 5), ('concepts', 5, 3, 1))
    case('concept-8-itself-and-role-out', out('concepts', 8, 1), B, ('concepts', 8, 2, 8), ('concepts', 8, 1, 4))
    case('concept-9-itself-and-field-filled', filled('concepts', 9, 3), B, ('concepts', 9, 2, 9), ('concepts', 9, 3, 1))
    case('concept-10-itself-and-role-out', out('concepts', 10, 2), B, ('concepts', 10, 3, 10), ('concepts', 10, 2, 4))
    case('concept-6-itself-and-list-out', out('concepts', 6, 1), B, ('lists', B.concepts[6][1], 6),
         ('concepts', 6, 2, L))

    # Neighbouring records of one part.
    case('class-6-before-next-class-12', 6, B, ('lists', 0, 1), ('classes', 1, 0, 2))
    case('class-12-before-next-class-6', tag('classes', 0), B, ('classes', 0, 0, 2), ('lists', 1, 1))
    case('role-6-before-next-role-13', 6, B, ('lists', 5, 1), ('lists', 10, N))
    case('role-13-before-next-role-6', out('lists', 6), B, ('lists', 6, N), ('lists', 7, 1))
    case('injected-6-before-next-13', 6, B, ('injected', 1, 1, 0), ('injected', 2, 2, 2))
    case('injected-13-before-next-6', out('injected', 1, 2), B, ('injected', 1, 2, 2), ('injected', 2, 0, 0))
    case('injected-13-that-breaks-the-next-order', out('injected', 1, 0), B, ('injected', 1, 0, N))
    case('concept-7-before-next-concept-14', 7, B, ('concepts', 5, 1, 5), ('concepts', 6, 3, 1))
    case('concept-13-before-next-concept-7', out('concepts', 4, 1), B, ('concepts', 4, 1, 4), ('concepts', 5, 1, 5))
    case('concept-7-before-last-concept-12', 7, B, ('concepts', 5, 1, 11), ('concepts', 11, 0, 12))


def written(text):
    """The deck of a text of heaps.py."""
    d, records = Deck(), {letter: [] for letter in 'MNRICAFL'}
    for word_ in text.split():
        if word_ in records:
            now = records[word_]
        else:
            now.append(int(word_))
    for letter, part, width in zip('NRICAFL', PARTS, WIDTHS):
        flat = records[letter]
        setattr(d, part, flat if width == 1 else [flat[k:k + width] for k in range(0, len(flat), width)])
    d.real = records['M'][0] if records['M'] else len(d.classes)
    return d


def heaps():
    for part, decks in HAND_MADE:
        for name, expected, text in decks:
            case('heap-%s-%s' % (part, name), expected, written(text))


def limits():
    at = dict(classes=dict(classes=4096), roles=dict(roles=1024), injected=dict(classes=4096, injected=4096),
              concepts=dict(concepts=16384), axioms=dict(axioms=16384), facts=dict(facts=16384),
              lists=dict(lists=262144))
    for part, counts_ in at.items():
        case('limit-' + part, 0, full(**counts_))
        more = dict(counts_, **{part: counts_[part] + 1})
        deck = full(**more)
        if part == 'injected':
            deck.injected[4096] = [0, 0, 0]
        case('limit-and-one-' + part, 3, deck)
    everything = full(*LIMITS)
    everything.dropped = BIG
    case('limit-all', 0, everything)
    for name, expected, edit in (
            ('class-12', (12, 12285), ('classes', 4095, 0, 2)), ('class-6', 6, ('classes', 4095, 2, 0)),
            ('role-13', (13, 16382), ('roles', 1023, 3, BIG)), ('role-6', 6, ('roles', 1023, 0, 1022)),
            ('injected-13', (13, 28671), ('injected', 4095, 2, 4096)), ('injected-6', 6, ('injected', 4095, 0, 4094)),
            ('concept-13', (13, 94205), ('concepts', 16383, 1, 16384)),
            ('concept-7', 7, ('concepts', 16383, 1, 16383)), ('axiom-12', (12, 159740), ('axioms', 16383, 0, 26)),
            ('axiom-14', (14, 159743), ('axioms', 16383, 3, 1)), ('fact-13', (13, 208895), ('facts', 16383, 2, 4096)),
            ('list-free', 0, ('lists', 262143, BIG))):
        case('limit-all-last-' + name, expected, everything, edit)
    case('limit-all-and-a-word', 4, b'\0' * 4 + everything.bytes())
    case('limit-all-edition', 2, everything, ('trailer', 0, 0))
    case('limit-all-odd', 1, everything.bytes() + b'\0')
    zeros = full(concepts=2, axioms=1, lists=262144)
    zeros.lists = [0] * 262144
    case('list-of-all-words', 0, zeros, ('concepts', 1, slice(0, 4), [6, 0, 262144, 0]))
    case('list-of-all-words-last-itself', 7, zeros, ('concepts', 1, slice(0, 4), [6, 0, 262144, 0]),
         ('lists', 262143, 1))
    case('list-of-all-words-last-out', (13, 262162), zeros, ('concepts', 1, slice(0, 4), [6, 0, 262144, 0]),
         ('lists', 262143, 2))
    case('list-of-all-words-and-one', (13, 12), zeros, ('concepts', 1, slice(0, 4), [6, 0, 262145, 0]))
    case('list-of-all-words-from-1', (13, 12), zeros, ('concepts', 1, slice(0, 4), [6, 1, 262144, 0]))
    case('list-empty-at-262144', 0, zeros, ('concepts', 1, slice(0, 4), [6, 262144, 0, 0]))
    long_row = full(classes=4096, lists=4096)
    case('row-of-all-classes', 0, long_row, ('classes', 4095, 1, 0), ('classes', 4095, 2, 4096))
    case('row-of-all-classes-equal-at-the-end', 6, long_row, ('classes', 4095, 1, 0), ('classes', 4095, 2, 4096),
         ('lists', 4095, 4094), ('classes', 4095, 0, 1))


def worked_example():
    case('deck-w', 0, deck_w())
    words = deck_w().words()
    rng = random.Random(101)
    seen = set()
    while len(seen) < 100:
        place = rng.randrange(len(words))
        near = (words[place] + rng.choice((-2, -1, 1, 2))) % (1 << 32)
        value = rng.choice((near, near, rng.randrange(8), rng.randrange(40), 1 << rng.randrange(32), BIG))
        if value == words[place] or (place, value) in seen:
            continue
        seen.add((place, value))
        changed = words[:place] + [value] + words[place + 1:]
        data = struct.pack('<%dI' % len(words), *changed)
        add('w-word-%d-is-%d' % (place, value), data, answer(data))


def random_deck(rng):
    """A small accepted deck."""
    n, r, c = rng.randrange(5), rng.randrange(4), rng.randrange(8)
    d = Deck(real=rng.randint(0, n))
    some = lambda top: sorted(rng.sample(range(top), rng.randint(0, top)))
    word = lambda: rng.randrange(2 * r)
    value = lambda: rng.choice((0, 1, 5, 1 << 31, BIG))
    for k in range(n):
        flag = rng.randrange(2)
        d.classes.append([flag] + d.row(*sorted(set(some(n)) | (set() if flag else {k}))))
    for k in range(r):
        d.roles.append(d.row(*sorted(set(some(r)) | {k})) + d.row(*some(n)))
    for key in some(n * r):
        if d.real:
            d.injected.append([key // r, key % r, rng.randrange(d.real)])
    for k in range(c):
        tags = [0, 1, 3, 6, 7] + [2] * (n > 0) + [4] * (r > 0) + [5] * (k > 0) + [8, 9, 10, 11] * (k > 0 and r > 0)
        tag = rng.choice(tags)
        operands = [rng.randrange(k) for _ in range(rng.randrange(4))] if k else []
        d.concepts.append([tag] + (
            [0, 0, 0] if tag < 2 else [rng.randrange(n), 0, 0] if tag == 2 else [value(), 0, 0] if tag == 3 else
            [word(), 0, 0] if tag == 4 else [rng.randrange(k), 0, 0] if tag == 5 else
            d.row(*operands) + [0] if tag < 8 else [word(), rng.randrange(k), 0] if tag < 10 else
            [value(), word(), rng.randrange(k)]))
    for _ in range(rng.randrange(6)):
        tag = rng.randrange(26)
        form, record = AXIOM_FORMS[tag], [tag]
        tops = {'c': c, 'k': n, 'r': r, 'w': 2 * r, 'n': BIG + 1, '-': 1}
        if all(tops[kind] for kind in form if kind.islower()):
            for kind in form:
                top = tops[kind.lower()]
                if kind.isupper():
                    record += d.row(*[rng.randrange(top) for _ in range(rng.randrange(4) if top else 0)])
                else:
                    record.append(rng.randrange(top))
            d.axioms.append(record)
    if n and r:
        d.facts = [[rng.randrange(n), rng.randrange(r), rng.randrange(n)] for _ in range(rng.randrange(4))]
    d.row(*[value() for _ in range(rng.randrange(3))])
    d.dropped = rng.choice((0, 1, BIG))
    return d


def damage(rng, deck):
    """One to three faults, most of them in the body: a word overwritten, counted up or down, put in another's place, or
    some words moved on by one. Seldom a word or a byte is lost."""
    words = deck.words()
    body = len(words) - 18
    tags = [words[-14 + 2 * p] + k * WIDTHS[p] for p in (0, 3, 4) for k in range(words[-15 + 2 * p])]
    for _ in range(rng.choice((1, 1, 1, 2, 3))):
        where = rng.randrange(24) if body else 0
        at = body + rng.randrange(18) if where == 0 else rng.choice(tags) if where < 6 and tags else rng.randrange(body)
        how = rng.randrange(10)
        if how < 4:
            words[at] = rng.choice((rng.randrange(4), rng.randrange(30), 1 << rng.randrange(32), BIG))
        elif how < 7:
            words[at] = (words[at] + rng.choice((-1, 1, 1, 2))) % (1 << 32)
        elif how < 8 or at >= body:
            words[at] = rng.choice(words)
        else:
            end = min(at + rng.randrange(2, 7), body)
            words[at:end] = words[end - 1:end] + words[at:end - 1]
    if rng.randrange(80) == 0:
        del words[rng.randrange(len(words))]
    data = struct.pack('<%dI' % len(words), *words)
    return data[:-1] if rng.randrange(120) == 0 else data


def random_decks():
    rng = random.Random(1001)
    for k in range(12):
        case('random-%d' % k, 0, random_deck(rng))


def damaged_decks():
    rng = random.Random(1002)
    good = [(B, 700), (deck_w(), 300)] + [(random_deck(rng), 10) for _ in range(300)]
    for k, deck in enumerate(deck for deck, times in good for _ in range(times)):
        data = damage(rng, deck)
        add('damaged-%d' % k, data, answer(data))


# --- What the damaged decks show ------------------------------------------------------------------------------------

SHOWN = [(TAG, part) for part in ('classes', 'concepts', 'axioms')] + [(RANGE, part) for part in PARTS] + [
    (FILLED, part) for part in ('concepts', 'axioms')]


def part_of(data, at):
    """The part in which a word lies."""
    return max((start, p, part) for p, (part, start) in enumerate(Reader(data).start.items()) if start <= at)[2]


def show_damaged():
    """Prints how often each number was met, and in which part the word lies. Each heap must be met in each part."""
    found = [(given, data) for name, data, given in CASES if name.startswith('damaged')]
    numbers = collections.Counter(given[0] for given, _ in found)
    print('damaged decks: %d; by number: %s' % (
        len(found), ', '.join('%d: %d' % pair for pair in sorted(numbers.items()))))
    places = collections.Counter((given[0], part_of(data, given[1])) for given, data in found if len(given) == 2)
    print('words: ' + ', '.join('%d in %s %d' % (*place, places[place]) for place in SHOWN))
    missing = [place for place in SHOWN if not places[place]]
    if missing or set(places) - set(SHOWN):
        sys.exit('heaps not as they should be: %s' % (missing or places))


# --- Writing --------------------------------------------------------------------------------------------------------

def repeated(words, at, width):
    """How many words from `at` on are the word `width` earlier plus a step, and the steps."""
    if at < width:
        return 0, []
    steps = [(a - b) % (1 << 32) for a, b in zip(words[at:at + width], words[at - width:at])]
    end = at
    while end < len(words) and words[end] == (words[end - width] + steps[(end - at) % width]) % (1 << 32):
        end += 1
    return end - at, steps


def kept(words, at, before):
    """How many words from `at` on stand there already."""
    end = at
    while end < min(len(words), len(before)) and words[end] == before[end]:
        end += 1
    return end - at


def runs(words, before=()):
    """The runs: [count, 0, words..], [count, width, steps..] and [count, 5]."""
    made, plain, at = [], [], 0

    def flush():
        if plain:
            made.append([len(plain), 0] + plain)
            plain.clear()

    while at < len(words):
        count, width, steps = max((found[0], width, found[1]) for width in (1, 2, 3, 4)
                                  for found in [repeated(words, at, width)])
        stays = kept(words, at, before)
        if stays >= max(count, 4):
            flush()
            made.append([stays, KEPT])
            at += stays
        elif count >= 12:
            flush()
            made.append([count, width] + (steps + [0] * width)[:width])
            at += count
        else:
            plain.append(words[at])
            at += 1
    flush()
    return made


def encoded(name, data, before=None):
    """A deck with a name. `before` is what the decks before it left; without it, no word is taken from there."""
    whole = padded(data)
    words = struct.unpack('<%dI' % (len(whole) // 4), whole)
    made = runs(words, before or ())
    if before is not None:
        before[:len(words)] = words
    label = padded(name.encode())
    flat = [word_ for run in made for word_ in run]
    return struct.pack('<3I', len(name), len(data), len(made)) + label + struct.pack('<%dI' % len(flat), *flat)


def make_cases():
    for make in (lengths, editions, counts, starts, class_rows, role_rows, injected, concepts, axioms, facts, lists,
                 pairs, heaps, limits, worked_example, random_decks, damaged_decks):
        make()


def main():
    make_cases()
    show_damaged()
    room = []
    given = b''.join(encoded(name, data, room) for name, data, _ in CASES)
    wanted = ''.join('%s %s\n' % (name, ' '.join(map(str, found))) for name, _, found in CASES)
    wanted += '%d decks\n' % len(CASES)
    assert len(given) <= ROOM, len(given)
    finish('test_deck', given, wanted.encode(), '%d decks, %d bytes of data' % (len(CASES), len(given)))


if __name__ == '__main__':
    main()
