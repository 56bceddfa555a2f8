#!/usr/bin/env python3
"""Makes the decks whose text the program test_report asks for, and what it must print.

    python3 tests/make_reports.py            writes crates/test_report/stdin and stdout
    python3 tests/make_reports.py --check    compares them with what it would write; exit 1 if they differ

The text of a deck is what `verify` prints for it. It comes from `text`, written from document 01, "The program", over
the builder of make_runs.py and what is before that. A hand-made case also states its lines, and the two must agree.

The data are decks with names in the form that make_decks.py describes. Printed is for each the name, the text, and
`untouched`, which says that nothing past the text was written, that a buffer of exactly its length gets the same text,
and that shorter ones get nothing.

Numbers above four digits occur only as the total of reasons, and a total takes as many steps to come to: here up to
seven digits. More than 4,091 axioms do not fit in 65,536 bytes, so the room for 4,096 is never too little. Refusals 8,
10 and 11 cannot come of a deck.
"""
import random

from make_decks import Deck, base, deck_w, encoded, full
from make_judgements import (ALL, AN_INDIVIDUAL, BIG, BOT, CHAIN, CLASS_OF, DIFFERENT, DISJOINT, DISJOINT_ROLES, DOMAIN,
                             EQUIVALENT, FUNCTIONAL, INVERSE_ROLES, MAX, MIN, NOMINAL, NOT, OR, RANGE, ROLE_OF, SAME,
                             SAME_ROLES, SELF, SOME, SUB_CLASS, SUB_ROLE, SYMMETRIC, TRANSITIVE, UNION, named)
from make_runs import Bounds, Done, Room, Rows, answered, own, random_case
from shared import check_name, finish

LONGEST = 65536
BOUNDS = Bounds(255, 1000, 100)
ROOM = Room((256 + 1) * 4, 1000 + 1, 0, 4 * 4096)       # for N up to 256 and A up to 4,096
WORDS = LONGEST // 4


# --- The text -------------------------------------------------------------------------------------------------------

def verdict_text(kind, *words):
    if kind == 0:
        return 'holds'
    if kind == 1:
        return ' '.join(['fails'] + [str(witness) for witness in words if witness != BIG])
    return 'open %d %d %d' % (kind, words[0], words[1])


def text(data):
    """The lines that `verify` prints."""
    found = (9,) if len(data) > LONGEST else answered(data, BOUNDS, 4, ROOM)
    if not isinstance(found, Done):
        return ['refused %d' % found[0]]
    first = '%s %d %d %d' % (found.outcome, len(found.labels), len(found.edges), len(found.reasons))
    return [first] + ['%d %s' % (axiom, verdict_text(*words)) for axiom, words in enumerate(found.verdicts)]


# --- The cases ------------------------------------------------------------------------------------------------------

CASES = []


def add(name, deck):
    check_name(name, CASES)
    data = deck if isinstance(deck, bytes) else deck.bytes()
    lines = text(data)
    CASES.append((name, data, [name] + lines + ['untouched']))
    return lines


def case(name, deck, first, *verdicts):
    """A hand-made case, with its first line, and each axiom's line from the second word on if there are any."""
    lines = add(name, deck)
    assert lines[0] == first, (name, first, lines[0])
    stated = ['%d %s' % (axiom, words) for axiom, words in enumerate(verdicts)]
    assert not verdicts or lines[1:] == stated, (name, lines)


def outcomes():
    case('deck-w', deck_w(), 'confirmed 2 1 0', 'holds', 'holds')
    case('nothing', Deck(), 'confirmed 0 0 0')
    case('no-axioms', Rows(own(3)), 'confirmed 3 0 0')
    case('all-unsatisfiable', Rows(own(3), unsat={0, 1, 2}).with_axiom(AN_INDIVIDUAL, 7), 'confirmed 0 0 0', 'holds')
    d = deck_w()
    d.facts = []
    case('without-its-fact', d, 'confirmed 2 1 0', 'holds', 'holds')
    case('failed', Rows(own(2)).atoms().sub_class(0, 1), 'failed 2 0 0', 'fails 0')
    case('failed-and-open', Rows(own(2)).atoms().sub_class(0, 1).with_axiom(SAME, []), 'failed 2 0 0', 'fails 0',
         'open 2 21 0')
    case('open-by-a-verdict', Rows(own(1)).with_axiom(FUNCTIONAL, named(0)), 'open 1 0 0', 'open 2 16 0')
    d = deck_w()
    d.dropped = 1
    case('open-by-a-dropped-axiom', d, 'open 2 1 1', 'holds', 'holds')
    d.dropped = BIG
    case('open-by-all-dropped', d, 'open 2 1 1', 'holds', 'holds')
    d = Rows(own(2), dropped=7).atoms().sub_class(0, 1)
    case('failed-and-dropped', d, 'failed 2 0 1', 'fails 0')
    d = Deck()
    d.dropped = 2
    case('nothing-but-dropped', d, 'open 0 0 1')
    case('label-not-closed', Rows(own(2), [((0,), (1,))], facts=[(0, 0, 0)], dropped=3), 'open 2 0 2')


def refusals():
    b = base()
    edits = ((2, ('trailer', 0, 2)), (3, ('trailer', 3, 4097)), (4, ('trailer', 17, 5)), (6, ('lists', 1, 1)),
             (7, ('concepts', 8, 2, 8)), (12, ('axioms', 25, 0, 26)), (13, ('facts', 1, 0, 3)),
             (14, ('concepts', 0, 3, 1)))
    for expected, edit in edits:
        case('refused-%d' % expected, b.edited(edit), 'refused %d' % expected)
    for size in (0, 1, 4, 71, 73, 65535):
        case('zeros-%d' % size, bytes(size), 'refused 1')
    case('zeros-72', bytes(72), 'refused 2')
    case('zeros-65536', bytes(65536), 'refused 2')
    case('deck-w-and-a-byte', deck_w().bytes() + b'\n', 'refused 1')
    case('deck-w-without-its-first-word', deck_w().bytes()[4:], 'refused 4')


def classes():
    """As many as there is room for, and one more."""
    case('classes-255', full(classes=255), 'confirmed 255 0 0')
    case('classes-256', full(classes=256), 'confirmed 256 0 0')
    case('classes-257', full(classes=257), 'refused 9')
    d = full(classes=257, axioms=1)
    case('classes-257-fault-before', d.edited(('axioms', 0, 0, 26)), 'refused 12')
    d = Deck()
    d.classes = [[1, 0, 0]] * 256
    case('classes-256-unsatisfiable', d, 'confirmed 0 0 0')
    d.classes = [[1, 0, 0]] * 4096
    case('classes-4096-unsatisfiable', d, 'refused 9')
    d.classes = [[1, 0, 0]] * 4097
    case('classes-4097', d, 'refused 3')


def bounds():
    """The program's bounds, at the limit and past it."""
    # A seed above 255 elements trips where the first fact is taken.
    for count, first in ((255, 'confirmed 255 1 0'), (256, 'open 256 0 1')):
        case('elements-%d' % count, Rows(own(count), facts=[(0, 0, 1)]), first)
    # Class 0 has facts to all classes by each of the roles.
    for count, first in ((1000, 'confirmed 200 1000 0'), (1001, 'open 200 1001 1')):
        facts = [(0, k // 200, k % 200) for k in range(count)]
        case('edges-%d' % count, Rows(own(200), [((r,), ()) for r in range(6)], facts=facts), first)
    # Each round adds the next class's element.
    for count, first in ((100, 'confirmed 100 99 0'), (101, 'open 101 100 1')):
        d = Rows(own(count), real=1).atoms()
        for k in range(count - 1):
            d.sub_class(k, d.some(0, k + 1))
        case('rounds-%d' % (count - 1), d, first)


def tags():
    """Each axiom tag, each construct; printed forms of `open`."""
    add('every-tag', base())
    d = Rows(own(2), facts=[(0, 0, 1), (1, 0, 0)]).atoms()
    d.concepts += [[NOMINAL, 5, 0, 0], [SELF, 0, 0, 0], [NOT, 0, 0, 0], [OR, 0, 0, 0], [SOME, 1, 0, 0], [ALL, 0, 0, 0],
                   [MIN, 1, 0, 0], [MAX, 1, 0, 0], [BOT, 0, 0, 0]]
    for concept in range(2, 10):
        d.sub_class(0, concept)
    case('every-construct', d, 'open 2 2 0', *['open 3 %d 0' % tag for tag in (3, 4, 5, 7, 8, 9, 10, 11)])
    d = Rows(own(2), [((0,), ()), ((1,), ())], facts=[(0, 0, 1)]).atoms()
    for record in ((SUB_ROLE, 1, 0), (SUB_ROLE, 0, 3), (CHAIN, [], 0), (CHAIN, [0, 1], 2), (CHAIN, [0, 2], 1),
                   (CHAIN, [0, 0, 0], 1), (SAME_ROLES, [0, 1]), (DISJOINT_ROLES, []), (INVERSE_ROLES, 0, 2),
                   (INVERSE_ROLES, 2, 0), (INVERSE_ROLES, 2, 2), (INVERSE_ROLES, 1, 0), (DOMAIN, 1, 0), (RANGE, 1, 0),
                   (TRANSITIVE, 1), (SYMMETRIC, 0), (SYMMETRIC, 2), (SYMMETRIC, 1), (UNION, 0, []), (CLASS_OF, 0, 9),
                   (ROLE_OF, 0, 8, 9), (DIFFERENT, [])):
        d.axiom(*record)
    case('every-form-of-open', d, 'open 2 1 0', 'open 2 4 1', 'open 2 4 1', 'open 2 5 2', 'open 2 5 1', 'open 2 5 1',
         'open 2 5 2', 'open 2 6 1', 'open 2 7 0', 'open 4 0 0', 'open 4 0 0', 'holds', 'open 2 8 1', 'open 2 9 1',
         'open 2 10 1', 'open 2 11 1', 'open 4 0 0', 'holds', 'open 2 12 1', 'open 2 3 0', 'open 2 18 0', 'open 2 19 0',
         'open 2 22 0')


def witnesses():
    """One, two and three, of one to three digits."""
    d = Rows(own(255)).atoms()
    bot = d.concept(BOT)
    for k in (0, 9, 10, 99, 100, 254):
        d.sub_class(k, bot)
    d.with_axiom(EQUIVALENT, [7, bot]).with_axiom(DISJOINT, [200, 200])
    case('one-witness', d, 'failed 255 0 0', *['fails %d' % k for k in (0, 9, 10, 99, 100, 254, 7, 200)])
    # By a role for each pair.
    pairs = ((0, 1), (5, 12), (3, 254), (47, 6), (10, 99), (88, 123), (250, 4), (100, 20), (254, 253))
    d = Rows(own(255), [((r,), ()) for r in range(len(pairs) + 1)],
             facts=[(one, r, other) for r, (one, other) in enumerate(pairs)]).atoms()
    for r in range(len(pairs)):
        d.axiom(SUB_ROLE, named(r), named(len(pairs)))
    d.axiom(SAME_ROLES, [named(len(pairs)), named(2)])
    lines = ['fails %d %d' % pair for pair in pairs + (pairs[2],)]
    d.axiom(DOMAIN, named(1), 12)
    d.axiom(RANGE, named(1), 5)
    case('two-witnesses', d, 'failed 255 9 0', *lines, 'fails 5', 'fails 12')
    # Class 0, taken last, has more facts than the bound lets in, and so closing is left out.
    flood = [(0, 3 + k // 200, k % 200) for k in range(1000)]
    for x, y, z in ((2, 3, 4), (20, 30, 40), (200, 210, 220), (1, 10, 240), (150, 9, 31)):
        d = Rows(own(255), [((r,), ()) for r in range(8)], facts=[(x, 0, y), (y, 0, z), (y, 1, z)] + flood)
        d.with_axiom(TRANSITIVE, named(0)).with_axiom(CHAIN, [named(0), named(1)], named(2))
        found = 'fails %d %d %d' % (x, y, z)
        case('three-witnesses-%d-%d-%d' % (x, y, z), d, 'failed 255 1001 1', found, found)


def digits():
    """Roles of one to four digits, and totals of one to seven."""
    roles = (0, 7, 10, 99, 100, 999, 1000, 1023)
    d = full(roles=1024, classes=1)
    d.roles = [[k, 1, 0, 0] for k in range(1024)]
    d.facts = [[0, r, 0] for r in roles]
    d.axioms = [[SYMMETRIC, named(r), 0, 0] for r in roles] + [[INVERSE_ROLES, named(5), named(1023), 0]]
    case('roles-of-all-lengths', d, 'open 1 8 0', *['open 4 %d 0' % r for r in roles + (1023,)])
    # Ands that each name the one before twice: as many reasons as paths to the atom, and a dropped axiom.
    for count, dropped in ((0, 0), (3, 1), (4, 0), (7, 0), (10, 0), (14, 0), (17, 1), (20, 0)):
        d = Rows(own(2), [((0,), (0,))], unsat={0}, injected=[(1, 0, 0)], dropped=dropped).atoms()
        for body in range(1, 1 + count):
            d.both(body, body)
        d.sub_class(1, d.some(0, len(d.concepts) - 1))
        case('reasons-%d' % (2 ** count + dropped), d, 'open 1 1 %d' % (2 ** count + dropped), 'holds')


def filled(d, records, words=WORDS):
    """Adds axioms, each record as often as the next, and then free list words, up to so many words in all."""
    room = words - len(d.words())
    d.axioms += [list(records[k * len(records) // (room // 4)]) for k in range(room // 4)]
    d.lists += [0] * (room % 4)
    return d.bytes()


def longest():
    """Decks of 65,536 bytes, and of a word and a byte more."""
    free = ((AN_INDIVIDUAL, BIG, 0, 0), (SAME, 0, 2, 0), (EQUIVALENT, 0, 0, 0), (DISJOINT_ROLES, 2, 0, 0),
            (DIFFERENT, 1, 1, 0), (SAME_ROLES, 0, 0, 0), (DISJOINT, 1, 0, 0))
    data = filled(Deck(), free)
    assert len(data) == LONGEST
    case('most-axioms', data, 'open 0 0 0')
    assert len(CASES[-1][2]) == 4091 + 3
    case('most-axioms-a-byte-more', data + b'\0', 'refused 9')
    case('most-axioms-a-byte-less', data[:-1], 'refused 1')
    case('most-axioms-a-word-more', filled(Deck(), free, WORDS + 1), 'refused 9')
    case('zeros-65537', bytes(65537), 'refused 9')
    case('zeros-65540', bytes(65540), 'refused 9')
    # Element k has a fact of k and one of k mod 7, and the last thirty have a rule.
    d = Rows([(k % 7, k) if k > 6 else (k,) for k in range(120)], [((0,), ()), ((0, 1), ()), ((2,), (3,))],
             facts=[(k, k % 2, k + 1) for k in range(100)] + [(119, 2, 3)]).atoms()
    no, some = d.concept(NOT, 0), d.some(1, 5)
    pairs = [(k, k % 7) for k in range(7, 120)] + [(k, k - 1) for k in range(1, 120)] + [(k, no) for k in range(9)]
    records = [(SUB_CLASS, *pair, 0) for pair in pairs + [(k, some) for k in range(90, 120)]]
    records += [(SUB_ROLE, 0, 2, 0), (SUB_ROLE, 2, 0, 0), (SYMMETRIC, 4, 0, 0), (DOMAIN, 2, 50, 0), (RANGE, 4, 3, 0),
                (RANGE, 2, 119, 0), (FUNCTIONAL, 0, 0, 0), (SUB_ROLE, 1, 0, 0)]
    case('full', filled(d, records), 'failed 120 244 0')
    assert len(CASES[-1][1]) == LONGEST


def random_decks():
    for k in range(60):
        add('random-%d' % k, random_case(random.Random(5100 + k))[0])


# --- Writing --------------------------------------------------------------------------------------------------------

def main():
    for make in (outcomes, refusals, classes, bounds, tags, witnesses, digits, longest, random_decks):
        make()
    given = b''.join(encoded(name, data) for name, data, _ in CASES)
    lines = [line for *_, found in CASES for line in found] + ['%d cases' % len(CASES)]
    wanted = ''.join(line + '\n' for line in lines).encode()
    assert len(given) <= 300000, len(given)
    said = '%d cases, %d bytes of data, %d of text' % (len(CASES), len(given), len(wanted))
    finish('test_report', given, wanted, said)


if __name__ == '__main__':
    main()
