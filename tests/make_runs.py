#!/usr/bin/env python3
"""Makes the runs that the program test_runs does, and what it must print.

    python3 tests/make_runs.py            writes crates/test_runs/stdin and stdout
    python3 tests/make_runs.py --check    compares them with what it would write; exit 1 if they differ

What is expected comes from `run`, a builder of structures written from document 01 and its readings, with the reader of
make_decks.py before it and the evaluator of make_judgements.py after it. A hand-made case also states what its author
expects, and the two must agree.

The data, in words of four bytes, low byte first, case after case to the end:

    name length and deck length in bytes; max_elements, max_edges, max_rounds; last phase; the lengths of the buffers
    for labels, edges, log and verdicts; the name and the deck, each padded with zero bytes to whole words

The program marks the buffers, and prints for each case the name and the answer, a line for each buffer with the words
that were written from its start on, and `untouched` if no others were.
"""
import collections
import random
import struct

from make_decks import Deck, Reader, Refused, accept, base, deck_w, filled, number, out, refuse, stated, tag
from make_judgements import (ALL, AND, AN_INDIVIDUAL, ATOMIC, A_CLASS, A_ROLE, ASYMMETRIC, BIG, BOT, CHAIN, DISJOINT,
                             DOMAIN, EQUIVALENT, HOLDS, INVERSE_ROLES, Lent, Made, MIN, NOMINAL, NOT, OR, RANGE,
                             SAME_ROLES, SOME, SUB_CLASS, SUB_ROLE, SYMMETRIC, TOP, TRANSITIVE, World, add_terms, fails,
                             guarded, inverse, is_inverse, label_words, named, open_axiom, open_concept, refused_words,
                             role_of)
from shared import check_name, finish, padded

Bounds = collections.namedtuple('Bounds', 'elements edges rounds')
Room = collections.namedtuple('Room', 'labels edges log verdicts')      # how long the lent buffers are
NOT_CLOSED, RUN_DELTA, TRIPPED, DROPPED = 1, 2, 3, 4
ELEMENTS, EDGES, ROUNDS = 0, 1, 2


# --- The builder ----------------------------------------------------------------------------------------------------

class Tripped(Exception):
    pass


class Structure:
    """The structure in the making: a deck's elements by their labels, its edges, and the reasons given."""

    def __init__(self, deck, bounds):
        self.deck, self.bounds = deck, bounds
        self.labels, self.edges, self.reasons = [], [], []
        self.injected = {(y, r): q for y, r, q in deck.parts['injected']}
        self.floor = self.top_floor()

    # What the deck says.

    def listed(self, start, count):
        return self.deck.words[start:start + count]

    def row(self, k):
        _, start, count = self.deck.parts['classes'][k]
        return set(self.listed(start, count))

    def is_satisfiable(self, k):
        return self.deck.parts['classes'][k][0] == 0

    def sub_roles(self, r):
        start, count, _, _ = self.deck.parts['roles'][r]
        return self.listed(start, count)

    def ranges(self, r):
        _, _, start, count = self.deck.parts['roles'][r]
        return set(self.listed(start, count))

    def is_universal(self, concept):
        tag, x, y, _ = self.deck.parts['concepts'][concept]
        return tag == TOP or (tag == AND and all(self.is_universal(operand) for operand in self.listed(x, y)))

    def atoms(self, concept):
        """The required atoms, in order, with repetitions."""
        tag, x, y, _ = self.deck.parts['concepts'][concept]
        if tag == ATOMIC:
            return [x]
        if tag == AND:
            return [atom for operand in self.listed(x, y) for atom in self.atoms(operand)]
        return []

    def top_floor(self):
        joined = set()
        for tag, x, y, _ in self.deck.parts['axioms']:
            supers = []
            if tag == SUB_CLASS and self.is_universal(x):
                supers = [y]
            if tag == EQUIVALENT and any(self.is_universal(member) for member in self.listed(x, y)):
                supers = [member for member in self.listed(x, y) if not self.is_universal(member)]
            for atom in [atom for concept in supers for atom in self.atoms(concept)]:
                if self.is_satisfiable(atom):
                    joined |= self.row(atom)
        return joined

    # The steps.

    def note(self, *reason):
        self.reasons.append(reason)

    def trip(self, bound, limit):
        self.note(TRIPPED, bound, limit)
        raise Tripped

    def intern(self, label):
        if not any(k < self.deck.real for k in label):
            label = label | self.floor
        if label not in self.labels:
            self.labels.append(label)
        return self.labels.index(label)

    def add_edge(self, role, one, other):
        if (role, one, other) not in self.edges:
            self.edges.append((role, one, other))
            if len(self.edges) > self.bounds.edges:
                self.trip(EDGES, self.bounds.edges)

    def reach(self, one, role, label):
        """The element with this label, and an edge to it."""
        other = self.intern(label)
        if len(self.labels) > self.bounds.elements:
            self.trip(ELEMENTS, self.bounds.elements)
        self.add_edge(role, one, other)
        return other

    def target_label(self, y, role):
        """The label of the target of y by the role, or None where it is not closed."""
        if self.ranges(role) <= self.row(y):
            return self.row(y)
        if (y, role) not in self.injected:
            return None
        q = self.injected[y, role]
        if self.is_satisfiable(q):
            return self.row(q)
        self.note(RUN_DELTA, y, 0)
        return self.row(y)

    # The phases.

    def seed(self):
        of_facts = {k for one, _, other in self.deck.parts['facts'] for k in (one, other)}
        for k in sorted(set(range(self.deck.real)) | of_facts):
            if self.is_satisfiable(k):
                self.intern(self.row(k))

    def expand(self):
        waiting = set(range(len(self.labels)))
        while waiting:
            element = max(waiting)
            waiting.remove(element)
            known = len(self.labels)
            for k in sorted(self.labels[element]):
                for _, role, y in [fact for fact in self.deck.parts['facts'] if fact[0] == k]:
                    label = self.target_label(y, role)
                    if label is None:
                        self.note(NOT_CLOSED, y, role)
                    else:
                        self.reach(element, role, label)
            waiting |= set(range(known, len(self.labels)))

    def class_rules(self):
        pairs = []
        for tag, x, y, _ in self.deck.parts['axioms']:
            if tag == SUB_CLASS:
                pairs.append((x, y))
            if tag == EQUIVALENT:
                pairs += [(one, other) for one in self.listed(x, y) for other in self.listed(x, y) if one != other]
        return [(set(self.atoms(sub)), sup) for sub, sup in pairs if self.atoms(sub) or self.is_universal(sub)]

    def expand_from_axioms(self):
        rules, rounds, grew = self.class_rules(), 0, True
        while grew:
            present = len(self.labels)
            for element in range(present):
                for atoms, consequent in rules:
                    if atoms <= self.labels[element]:
                        self.work(element, consequent)
            rounds += 1
            grew = len(self.labels) > present
            if grew and rounds >= self.bounds.rounds:
                self.trip(ROUNDS, self.bounds.rounds)

    def work(self, element, concept):
        tag, x, y, _ = self.deck.parts['concepts'][concept]
        if tag == AND:
            for operand in self.listed(x, y):
                self.work(element, operand)
        if tag == SOME and not is_inverse(x):
            self.work(self.reach(element, role_of(x), self.body_label(y, role_of(x))), y)

    def body_label(self, body, role):
        atoms, joined, closed = self.atoms(body), set(), True
        for atom in atoms:
            label = self.target_label(atom, role)
            if label is None:
                label, closed = self.row(atom), False
            joined |= label
        if not closed:
            self.note(NOT_CLOSED, atoms[0], role)
        return joined if atoms else set().union(*[self.row(k) for k in self.ranges(role)])

    def link_rules(self):
        words = []
        for tag, x, y, z in self.deck.parts['axioms']:
            if tag == CHAIN and y == 2:
                words.append((*self.listed(x, y), z))
            if tag == TRANSITIVE:
                words.append((x, x, x))
        return [tuple(map(role_of, rule)) for rule in words if not any(map(is_inverse, rule))]

    def pairs(self, role):
        return sorted({(one, other) for bucket, one, other in self.edges if bucket in self.sub_roles(role)})

    def close(self):
        grew = True
        while grew:
            before = len(self.edges)
            for a, b, sup in self.link_rules():
                for x, y in self.pairs(a):
                    for y_, z in self.pairs(b):
                        if y == y_ and (x, z) not in self.pairs(sup):
                            self.add_edge(sup, x, z)
            grew = len(self.edges) > before

    def build(self, last):
        self.seed()
        try:
            for phase in (self.expand, self.expand_from_axioms, self.close)[:last - 1]:
                phase()
        except Tripped:
            pass
        if self.deck.dropped > 0:
            self.note(DROPPED, self.deck.dropped, 0)


# --- A run ----------------------------------------------------------------------------------------------------------

Done = collections.namedtuple('Done', 'outcome labels edges reasons verdicts')


def width(classes):
    return (classes + 63) // 64


def need(deck, bounds):
    """The least room, but for the log, which may be of any length."""
    count = deck.count
    rows = max(count['classes'], bounds.elements) + 1
    return Room(rows * width(count['classes']), bounds.edges + 1, 0, 4 * count['axioms'])


def run(data, bounds, last, room):
    accept(data)
    refuse(8, bounds.elements > 65535 or bounds.edges > 1048575 or bounds.rounds > 65535 or last not in (1, 2, 3, 4))
    deck = Reader(data)
    refuse(9, any(lent < least for lent, least in zip(room, need(deck, bounds))))
    made = Structure(deck, bounds)
    made.build(last)
    words = [word for label in made.labels for word in label_words(deck.count['classes'], label)]
    world = World(data, Lent(words, len(made.labels), made.edges, len(made.edges)))
    verdicts = [world.verdict(axiom) for axiom in range(deck.count['axioms'])]
    kinds = {verdict[0] for verdict in verdicts}
    outcome = 'failed' if 1 in kinds else 'open' if made.reasons or kinds - {0} else 'confirmed'
    return Done(outcome, made.labels, made.edges, made.reasons, verdicts)


def answered(data, bounds, last, room):
    """What a run leaves, or its refusal: the number, and the word if it is 12 to 14."""
    try:
        return run(data, bounds, last, room)
    except Refused as refusal:
        return refusal.args


# --- What is printed ------------------------------------------------------------------------------------------------

def mark(at):
    return 3000000000 + at % 1000000


MARKS = {'labels': lambda at: 9000000000000000000 + mark(at), 'log': mark, 'verdicts': mark,
         'edges': lambda at: mark(at // 3) + 1000000 * (at % 3)}


def flat(records):
    return [word for record in records for word in record]


def written(found, classes, room):
    """The words of each buffer, from its start on."""
    return {'labels': flat(label_words(classes, label) for label in found.labels), 'edges': flat(found.edges),
            'log': flat(found.reasons[:room.log // 3]), 'verdicts': flat(found.verdicts)}


def printed(name, found, classes, room):
    if not isinstance(found, Done):
        first, buffers = refused_words(found), dict.fromkeys(('labels', 'edges', 'log', 'verdicts'), [])
    else:
        first = '%s %d %d %d' % (found.outcome, len(found.labels), len(found.edges), len(found.reasons))
        buffers = written(found, classes, room)
    for buffer, words in buffers.items():
        assert all(word != MARKS[buffer](at) for at, word in enumerate(words)), (name, buffer)
    lines = [' '.join([buffer] + [str(word) for word in words]) for buffer, words in buffers.items()]
    return ['%s %s' % (name, first)] + lines + ['untouched']


# --- The cases ------------------------------------------------------------------------------------------------------

CASES = []
WIDE = Bounds(9, 12, 6)
MOST = Room(65600, 400, 2000, 2000)      # the program's room


class Rows(Made):
    """A deck by its classes' rows, and by its roles' rows: sub-roles, and then ranges."""

    def __init__(self, rows, roles=(((0,), ()),), real=None, unsat=(), injected=(), facts=(), dropped=0):
        super().__init__(0, ())
        self.real, self.dropped = len(rows) if real is None else real, dropped
        self.classes = [[int(k in unsat)] + self.row(*row) for k, row in enumerate(rows)]
        self.roles = [self.row(*subs) + self.row(*ranges) for subs, ranges in roles]
        self.injected = [list(record) for record in injected]
        self.facts = [list(fact) for fact in facts]

    def some(self, role, body):
        return self.concept(SOME, named(role), body)

    def both(self, *operands):
        return self.concept(AND, operands)

    def doubled(self, levels, operand):
        """Ands that each list the concept before them twice."""
        for _ in range(levels):
            operand = self.both(operand, operand)
        return operand

    def sub_class(self, sub, sup):
        return self.with_axiom(SUB_CLASS, sub, sup)


def own(count):
    """Rows of classes that are under themselves only."""
    return [(k,) for k in range(count)]


def add(name, deck, bounds=WIDE, last=4, room=None, found=None):
    """A case. Without a room the buffers are a little longer than is needed. What is found may be given."""
    check_name(name, CASES)
    data = deck if isinstance(deck, bytes) else deck.bytes()
    classes = 0 if number(data) else Reader(data).count['classes']
    if room is None:
        least = Room(0, 0, 0, 0) if number(data) else need(Reader(data), bounds)
        room = Room(*[lent + more for lent, more in zip(least, (3, 2, 18, 5))])
    assert all(lent <= most for lent, most in zip(room, MOST)), (name, room)
    if found is None:
        found = answered(data, bounds, last, room)
    CASES.append((name, data, bounds, last, room, printed(name, found, classes, room)))
    return found


def refused(name, expected, deck, bounds=WIDE, last=4, room=None):
    """A hand-made case that is refused."""
    found = add(name, deck, bounds, last, room)
    assert found == stated(expected), (name, expected, found)


def is_as_stated(found, outcome, labels, edges, reasons, verdicts):
    if not isinstance(found, Done) or (found.outcome, found.reasons) != (outcome, list(reasons)):
        return False
    pairs = ((labels, [tuple(sorted(label)) for label in found.labels]), (edges, found.edges),
             (verdicts, found.verdicts))
    return all(stated is None or list(stated) == made for stated, made in pairs)


def case(name, outcome, deck, labels=None, edges=None, reasons=(), verdicts=None, **asked):
    """A hand-made case, with what its author expects; labels, edges or verdicts not given are not stated."""
    found = add(name, deck, **asked)
    assert is_as_stated(found, outcome, labels, edges, reasons, verdicts), (name, found)


def wide(**changed):
    return WIDE._replace(**changed)


def specimens():
    """Deck W, and the specimens that are runs: 12 and 13."""
    labels, edges = [(0,), (0, 1)], [(0, 1, 0)]
    case('deck-w', 'confirmed', deck_w(), labels, edges, verdicts=[HOLDS, HOLDS])
    case('specimen-12-edges-0', 'open', deck_w(), labels, edges, [(TRIPPED, EDGES, 0)], [HOLDS, HOLDS],
         bounds=wide(edges=0))
    case('specimen-12-edges-1', 'confirmed', deck_w(), labels, edges, bounds=wide(edges=1))
    case('specimen-13-elements-1', 'failed', deck_w(), labels, [], [(TRIPPED, ELEMENTS, 1)], [HOLDS, fails(1)],
         bounds=wide(elements=1))
    case('specimen-13-elements-2', 'confirmed', deck_w(), labels, edges, bounds=wide(elements=2))
    case('deck-w-elements-0', 'failed', deck_w(), labels, [], [(TRIPPED, ELEMENTS, 0)], bounds=wide(elements=0))
    case('deck-w-all-bounds-0', 'failed', deck_w(), labels, [], [(TRIPPED, ELEMENTS, 0)], bounds=Bounds(0, 0, 0))
    case('deck-w-rounds-0', 'confirmed', deck_w(), labels, edges, bounds=wide(rounds=0))
    case('deck-w-last-phase-1', 'failed', deck_w(), labels, [], last=1)


def traps():
    # An unresolved successor with a false one after it, and before it.
    d = Rows(own(3), facts=[(0, 0, 1), (0, 0, 2)]).atoms()
    no = d.concept(NOT, 0)
    d.sub_class(0, d.some(0, d.both(1, no))).sub_class(0, d.some(0, d.both(2, no)))
    case('trap-unresolved-successor', 'open', d, own(3), [(0, 0, 1), (0, 0, 2)], (), [open_concept(NOT)] * 2)
    # A path 3, 2, 1, 0: the pair (3, 2) meets (2, 0), which the same walk has added.
    d = Rows(own(4), facts=[(1, 0, 0), (2, 0, 1), (3, 0, 2)]).with_axiom(TRANSITIVE, named(0))
    path = [(0, 3, 2), (0, 2, 1), (0, 1, 0)]
    case('trap-edges-afresh', 'confirmed', d, own(4), path + [(0, 2, 0), (0, 3, 0), (0, 3, 1)])
    case('trap-edges-afresh-bound', 'failed', d, own(4), path + [(0, 2, 0), (0, 3, 0)], [(TRIPPED, EDGES, 4)],
         [fails(3, 2, 1)], bounds=wide(edges=4))
    # The floor {1} is not added to {0}, which has a real class.
    d = Rows(own(2)).atoms()
    case('trap-floor-on-a-real-class', 'failed', d.sub_class(d.concept(TOP), 1), own(2), [], (), [fails(0)])


def floors():
    def floored(*axioms, rows=((0,), (1,), (2,)), real=2, unsat=()):
        """Class 2 is not real, and only of a fact."""
        d = Rows(rows, real=real, unsat=unsat, facts=[(0, 0, 2)]).atoms()
        d.concept(TOP)                      # 3
        d.both()                            # 4
        d.both(3, 4, 3)                     # 5
        d.both(3, 0)                        # 6
        d.concept(BOT)                      # 7
        d.both(1, 5)                        # 8
        d.some(0, 1)                        # 9
        d.both(0, 1, 9)                     # 10
        d.concept(OR, [3])                  # 11
        for tag, *fields in axioms:
            d.axiom(tag, *fields)
        return d

    edge, loop = [(0, 0, 2)], [(0, 2, 2)]
    case('floor-none', 'confirmed', floored(), own(3), edge)
    for name, sub in (('top', 3), ('empty-and', 4), ('and-of-ands', 5)):
        case('floor-under-' + name, 'failed', floored((SUB_CLASS, sub, 1)), [(0,), (1,), (1, 2)], edge)
    for name, sub in (('an-atom', 0), ('and-with-an-atom', 6), ('bot', 7), ('or-of-top', 11)):
        found = add('no-floor-under-' + name, floored((SUB_CLASS, sub, 1)))
        assert found.labels == [{0}, {1}, {2}], found
    case('floor-by-an-and', 'failed', floored((SUB_CLASS, 3, 10)), [(0,), (1,), (0, 1, 2)],
         loop + edge + [(0, 0, 1), (0, 1, 1), (0, 2, 1)])
    case('floor-by-two-axioms', 'failed', floored((SUB_CLASS, 3, 1), (SUB_CLASS, 4, 0)), [(0,), (1,), (0, 1, 2)],
         loop + edge)
    case('floor-by-a-row', 'failed', floored((SUB_CLASS, 3, 1), rows=((0,), (0, 1), (2,))), [(0,), (0, 1), (0, 1, 2)],
         loop + [(0, 1, 2)] + edge)
    case('floor-not-by-an-unsatisfiable-class', 'failed', floored((SUB_CLASS, 3, 1), unsat={1}), [(0,), (2,)],
         [(0, 0, 1)])
    case('floor-by-equivalent-classes', 'failed', floored((EQUIVALENT, [8, 3, 0])), [(0,), (1,), (0, 1, 2)],
         loop + edge)
    case('floor-by-equivalent-universal', 'confirmed', floored((EQUIVALENT, [3, 4, 5])), own(3), edge)
    case('no-floor-by-equivalent-atoms', 'failed', floored((EQUIVALENT, [0, 1])), own(3), edge)
    case('floor-meets-a-known-label', 'failed', floored((SUB_CLASS, 3, 1), rows=((0,), (1, 2), (2,))), [(0,), (1, 2)],
         [(0, 0, 1)])
    case('floor-without-real-classes', 'confirmed', floored((SUB_CLASS, 3, 1), real=0), [(0, 1), (1, 2)], [(0, 0, 1)])
    # In building: bodies without atoms, and an unsatisfiable class with an empty row.
    d = Rows(own(2)).atoms()
    d.sub_class(0, d.some(0, d.concept(TOP))).sub_class(2, 1)
    case('floor-on-an-empty-label', 'failed', d, [(0,), (1,)], [(0, 0, 1)])
    d = Rows([(0,), (1,), ()], unsat={2}, facts=[(0, 0, 2)]).atoms()
    case('floor-on-an-empty-row', 'failed', d.sub_class(d.concept(TOP), 1), [(0,), (1,)], [(0, 0, 1)])
    # Two labels that differ by the floor only.
    d = Rows([(0,), (1,), (2,), (1, 2)], real=1, unsat={3}, facts=[(0, 0, 2), (0, 0, 3)]).atoms()
    case('floor-makes-labels-equal', 'failed', d.sub_class(d.concept(TOP), 1), [(0,), (1, 2)], [(0, 0, 1)])


def targets():
    """Role 1 has the range class 1; the target is class 2, by a fact and by an axiom."""
    roles = [((0,), ()), ((1,), (1,))]

    def deck(by, **given):
        rows = given.pop('rows', own(3))
        d = Rows(rows, roles, facts=[(0, 1, 2)] if by == 'fact' else [], **given).atoms()
        if by != 'fact':
            d.sub_class(0, d.some(1, 2))
        return d

    for by in ('fact', 'axiom'):
        case('target-in-range-by-' + by, 'confirmed', deck(by, rows=[(0,), (1,), (1, 2)]), [(0,), (1,), (1, 2)],
             [(1, 0, 2)])
        case('target-with-q-by-' + by, 'confirmed', deck(by, rows=[(0,), (1, 2), (2,)], injected=[(2, 1, 1)]),
             [(0,), (1, 2), (2,)], [(1, 0, 1)])
        case('target-with-q-without-range-by-' + by, 'confirmed' if by == 'fact' else 'failed',
             deck(by, injected=[(2, 1, 0)]), own(3), [(1, 0, 0)])
        case('target-with-unsatisfiable-q-by-' + by, 'open', deck(by, unsat={1}, injected=[(2, 1, 1)]), [(0,), (2,)],
             [(1, 0, 1)], [(RUN_DELTA, 2, 0)])
        case('target-in-range-despite-q-by-' + by, 'confirmed',
             deck(by, rows=[(0,), (1,), (1, 2)], unsat={1}, injected=[(2, 1, 1)]), [(0,), (1, 2)], [(1, 0, 1)])
        case('target-without-q-by-' + by, 'open', deck(by), own(3), [] if by == 'fact' else [(1, 0, 2)],
             [(NOT_CLOSED, 2, 1)])
        case('target-with-q-of-others-by-' + by, 'open', deck(by, injected=[(0, 1, 1), (1, 1, 1), (2, 0, 1)]), own(3),
             None, [(NOT_CLOSED, 2, 1)])

    # Several atoms in a body: repeated, closed and not; the first atom is named, after all others.
    def bodies(*operands, **given):
        d = Rows(own(4), roles, **given).atoms()
        return d.sub_class(0, d.some(1, d.both(*operands)))

    case('body-first-atom-is-closed', 'open', bodies(1, 2), own(4) + [(1, 2)], [(1, 0, 4)],
         [(NOT_CLOSED, 1, 1)] * 2)
    case('body-repeated-atom', 'open', bodies(2, 2, unsat={1}, injected=[(2, 1, 1)]), [(0,), (2,), (3,)], [(1, 0, 1)],
         [(RUN_DELTA, 2, 0)] * 2)
    case('body-repeated-not-closed', 'open', bodies(2, 3, 2), own(4) + [(2, 3)], [(1, 0, 4)],
         [(NOT_CLOSED, 2, 1)] * 2)
    case('body-of-both-kinds', 'open', bodies(3, 2, 3, unsat={1}, injected=[(2, 1, 1)]),
         [(0,), (2,), (3,), (2, 3)], [(1, 0, 3)], [(RUN_DELTA, 2, 0), (NOT_CLOSED, 3, 1)] * 2)
    case('body-with-q-and-without', 'failed', bodies(2, 3, injected=[(2, 1, 1)]), own(4) + [(1, 3)], [(1, 0, 4)],
         [(NOT_CLOSED, 2, 1)] * 2)
    # Bodies without atoms take the rows of the range classes, unsatisfiable or not.
    for name, unsat in (('', set()), ('-unsatisfiable', {2})):
        d = Rows([(0,), (0, 1), (2,)], [((0,), (1, 2))], unsat=unsat).atoms()
        new = 3 - len(unsat)
        case('body-without-atoms' + name, 'confirmed', d.sub_class(1, d.some(0, d.concept(TOP))),
             [(0,), (0, 1), (2,)][:new] + [(0, 1, 2)], [(0, 1, new), (0, new, new)])
    # Ranges of the role alone, not of its super-role; two range classes of which one is there.
    d = Rows(own(3), [((0,), ()), ((0, 1), (1,))], facts=[(0, 0, 2), (0, 1, 2), (2, 1, 1)])
    case('range-of-the-role-itself', 'open', d, own(3), [(1, 2, 1), (0, 0, 2)], [(NOT_CLOSED, 2, 1)])
    rows = [(0,), (1,), (1, 2), (0, 1, 3)]
    d = Rows(rows, [((0,), (0, 1))], facts=[(0, 0, 2), (0, 0, 3)])
    case('range-half-there', 'open', d, rows, [(0, 3, 3), (0, 0, 3)], [(NOT_CLOSED, 2, 0)] * 2)


def expanding():
    # Classes rise, facts of a class keep deck order; an element's classes come from its row.
    d = Rows([(0,), (0, 1), (2,)], [((0,), ()), ((1,), ())],
             facts=[(1, 1, 2), (0, 0, 2), (1, 0, 0), (0, 1, 1), (1, 0, 2)])
    case('expand-order', 'confirmed', d, [(0,), (0, 1), (2,)],
         [(0, 1, 2), (1, 1, 1), (1, 1, 2), (0, 1, 0), (0, 0, 2), (1, 0, 1)])
    # New elements, of unsatisfiable targets, are taken before older ones.
    d = Rows([(0,), (1,), (1, 2), (1, 3)], unsat={2, 3}, facts=[(1, 0, 2), (2, 0, 3), (3, 0, 0), (0, 0, 0)])
    case('expand-new-elements-first', 'confirmed', d, [(0,), (1,), (1, 2), (1, 3)],
         [(0, 1, 2), (0, 2, 2), (0, 2, 3), (0, 3, 2), (0, 3, 0), (0, 0, 0)])
    d = Rows([(0,), (0, 1), (0, 2), (3,)], unsat={1, 2}, facts=[(0, 0, 1), (0, 0, 2), (2, 0, 3), (1, 0, 3)])
    case('expand-two-new-elements', 'confirmed', d, [(0,), (3,), (0, 1), (0, 2)],
         [(0, 0, 2), (0, 0, 3), (0, 3, 2), (0, 3, 3), (0, 3, 1), (0, 2, 2), (0, 2, 3), (0, 2, 1)])
    case('expand-known-edges', 'confirmed', Rows(own(2), facts=[(1, 0, 0)] * 3), own(2), [(0, 1, 0)],
         bounds=wide(edges=1))
    d = Rows([(0,), (0, 1)], facts=[(0, 0, 0)])
    case('expand-one-fact-of-two-elements', 'confirmed', d, [(0,), (0, 1)], [(0, 1, 0), (0, 0, 0)])
    # Unsatisfiable classes: not seeded, but their facts count where a row lists them.
    d = Rows([(0,), (1,)], unsat={1}, facts=[(1, 0, 0)])
    case('unsatisfiable-source', 'confirmed', d, [(0,)], [])
    d = Rows([(0, 1), (1,)], unsat={1}, facts=[(1, 0, 0)])
    case('unsatisfiable-source-in-a-row', 'confirmed', d, [(0, 1)], [(0, 0, 0)])
    d = Rows([(0,), ()], unsat={1}, facts=[(0, 0, 1)])
    case('unsatisfiable-target-with-no-row', 'confirmed', d, [(0,), ()], [(0, 0, 1)])
    d = Rows([(0,), (0,)], unsat={1}, facts=[(0, 0, 1)])
    case('unsatisfiable-target-with-a-known-row', 'confirmed', d, [(0,)], [(0, 0, 0)])
    # Reasons: once for each element that has the fact's class.
    d = Rows([(0,), (0, 1), (2,)], [((0,), (1,))], facts=[(0, 0, 2), (0, 0, 1)])
    case('expand-reasons-of-two-elements', 'open', d, [(0,), (0, 1), (2,)], [(0, 1, 1), (0, 0, 1)],
         [(NOT_CLOSED, 2, 0)] * 2)


def seeding():
    case('seed-equal-rows', 'confirmed', Rows([(0, 1), (0, 1), (2,)]), [(0, 1), (2,)], [])
    case('seed-real-only', 'confirmed', Rows(own(3), real=2), own(2), [])
    case('seed-of-facts', 'confirmed', Rows(own(4), real=1, facts=[(3, 0, 2)]), [(0,), (2,), (3,)], [(0, 2, 1)])
    case('seed-of-facts-twice', 'confirmed', Rows(own(3), real=2, facts=[(2, 0, 2), (1, 0, 2)]), own(3),
         [(0, 2, 2), (0, 1, 2)])
    case('seed-not-unsatisfiable', 'confirmed', Rows(own(3), unsat={1}), [(0,), (2,)], [])
    case('seed-only-unsatisfiable', 'confirmed', Rows(own(2), unsat={0, 1}, facts=[(0, 0, 1), (1, 0, 0)]), [], [])
    case('seed-last-phase-1', 'confirmed', Rows(own(3), real=1, facts=[(1, 0, 2)]), own(3), [], last=1)
    case('seed-above-the-bound', 'confirmed', Rows(own(3)), own(3), [], bounds=Bounds(0, 0, 0))
    # Empty decks and structures.
    case('empty-deck', 'confirmed', Deck(), [], [])
    case('empty-deck-all-bounds-0', 'confirmed', Deck(), [], [], bounds=Bounds(0, 0, 0), room=Room(0, 1, 0, 0))
    d = Rows([], dropped=3)
    top = d.concept(TOP)
    d.sub_class(top, d.concept(BOT)).sub_class(top, d.some(0, top)).with_axiom(TRANSITIVE, named(0))
    case('no-classes', 'open', d, [], [], [(DROPPED, 3, 0)], [HOLDS] * 3)
    d = Rows(own(2), real=0).atoms()
    d.sub_class(0, 1).sub_class(d.concept(TOP), d.concept(BOT)).sub_class(0, d.some(0, 1))
    case('no-elements', 'confirmed', d, [], [], (), [HOLDS] * 3)
    case('no-elements-open', 'open', Rows([]).with_axiom(ASYMMETRIC, 0), [], [], (), [open_axiom(ASYMMETRIC)])
    d = Rows(own(2), unsat={0, 1}).atoms()
    case('only-unsatisfiable-classes', 'confirmed', d.sub_class(d.concept(TOP), d.some(0, 0)), [], [])
    case('no-axioms', 'confirmed', Rows([(0,), (0, 1)], facts=[(1, 0, 0)]), [(0,), (0, 1)], [(0, 1, 0)])
    case('no-roles', 'failed', Rows(own(2), []).atoms().sub_class(0, 1), own(2), [], (), [fails(0)])


def rules():
    """Expanding from axioms: what fires, on what, in which order."""
    def deck(*axioms, rows=((0,), (1,), (2,)), roles=(((0,), ()), ((1,), ())), **given):
        d = Rows(rows, roles, **given).atoms()
        no = d.concept(NOT, 0)              # 3
        d.concept(TOP)                      # 4
        d.some(0, 1)                        # 5
        d.some(1, 2)                        # 6
        d.both(5, 1, 6, no)                 # 7: two Somes
        d.some(0, 6)                        # 8: a Some in a Some
        d.both(0, no)                       # 9
        d.concept(SOME, inverse(0), 1)      # 10
        d.both(1, 6)                        # 11
        d.some(0, 11)                       # 12: {1}, and from there a Some
        d.concept(ALL, named(0), 6)         # 13
        d.concept(OR, [5, 6])               # 14
        d.both(d.both(5), d.both())         # 17
        for tag, *fields in axioms:
            d.axiom(tag, *fields)
        return d

    three = own(3)
    case('rule-some', 'confirmed', deck((SUB_CLASS, 0, 5)), three, [(0, 0, 1)])
    case('rule-and-of-somes', 'failed', deck((SUB_CLASS, 0, 7)), three, [(0, 0, 1), (1, 0, 2)])
    case('rule-ands-in-an-and', 'confirmed', deck((SUB_CLASS, 0, 17)), three, [(0, 0, 1)])
    case('rule-some-in-a-some', 'confirmed', deck((SUB_CLASS, 0, 8)), three + [()], [(0, 0, 3), (1, 3, 2)])
    case('rule-body-from-the-target', 'confirmed', deck((SUB_CLASS, 0, 12)), three, [(0, 0, 1), (1, 1, 2)])
    case('rule-body-where-all-is-known', 'confirmed', deck((SUB_CLASS, 0, 12), facts=[(0, 0, 1)]), three,
         [(0, 0, 1), (1, 1, 2)])
    case('rule-axiom-order', 'confirmed', deck((SUB_CLASS, 0, 6), (SUB_CLASS, 0, 5), (SUB_CLASS, 1, 6)), three,
         [(1, 0, 2), (0, 0, 1), (1, 1, 2)])
    case('rule-elements-before-rules', 'confirmed', deck((SUB_CLASS, 1, 6), (SUB_CLASS, 0, 5)), three,
         [(0, 0, 1), (1, 1, 2)])
    case('rule-on-atoms-only', 'confirmed', deck((SUB_CLASS, 9, 5)), three, [(0, 0, 1)], (), [HOLDS])
    case('rule-universal', 'confirmed', deck((SUB_CLASS, 4, 5)), three, [(0, 0, 1), (0, 1, 1), (0, 2, 1)])
    for name, sub in (('some', 5), ('not', 3), ('or', 14)):
        found = add('no-rule-for-' + name, deck((SUB_CLASS, sub, 6)))
        assert not found.edges, found
    for name, sup in (('inverse-some', 10), ('all', 13), ('or', 14), ('not', 3), ('atom', 1)):
        found = add('no-edge-for-' + name, deck((SUB_CLASS, 0, sup)))
        assert not found.edges, found
    # Other axioms are no rules.
    case('no-rule-for-disjoint-classes', 'confirmed', deck((DISJOINT, [0, 5])), three, [])
    case('no-rule-for-domain-and-range', 'confirmed', deck((DOMAIN, 0, 6), (RANGE, 0, 6)), three, [])
    # Members of EquivalentClasses.
    case('equivalent-atom-and-some', 'confirmed', deck((EQUIVALENT, [0, 5])), three, [(0, 0, 1)])
    case('equivalent-some-and-atom', 'confirmed', deck((EQUIVALENT, [5, 0])), three, [(0, 0, 1)])
    case('equivalent-three', 'confirmed', deck((EQUIVALENT, [0, 6, 5])), three, [(1, 0, 2), (0, 0, 1)])
    case('equivalent-two-atoms', 'failed', deck((EQUIVALENT, [1, 6, 0, 5])), three,
         [(1, 0, 2), (0, 0, 1), (1, 1, 2), (0, 1, 1)])
    case('equivalent-top', 'confirmed', deck((EQUIVALENT, [4, 5])), three, [(0, 0, 1), (0, 1, 1), (0, 2, 1)])
    case('equivalent-alone', 'confirmed', deck((EQUIVALENT, [5])), three, [])
    case('equivalent-none', 'confirmed', deck((EQUIVALENT, [])), three, [])
    open_range = dict(roles=(((0,), (2,)), ((1,), ())))
    case('equivalent-repeated', 'open', deck((EQUIVALENT, [0, 5, 0]), **open_range), three, [(0, 0, 1)],
         [(NOT_CLOSED, 1, 0)] * 2)
    case('equivalent-repeated-some', 'open', deck((EQUIVALENT, [5, 0, 5, 0]), **open_range), three, [(0, 0, 1)],
         [(NOT_CLOSED, 1, 0)] * 4)
    case('equivalent-one-number-twice', 'confirmed', deck((EQUIVALENT, [0, 0]), **open_range), three, [])
    d = deck(**open_range)
    twin = d.concept(ATOMIC, 0)
    case('equivalent-equal-concepts', 'confirmed', d.with_axiom(EQUIVALENT, [0, twin]), three, [])
    # Pairs by antecedent, then consequent: the reasons of element {0, 1}, which two antecedents fit, tell them apart.
    by_pair = [(NOT_CLOSED, 1, 0), (NOT_CLOSED, 2, 1)]
    case('equivalent-order-of-pairs', 'failed', deck((EQUIVALENT, [0, 5, 1, 6]), rows=((0,), (0, 1), (2,)),
                                                     roles=(((0,), (2,)), ((1,), (1,)))),
         [(0,), (0, 1), (2,)], [(0, 0, 1), (1, 0, 2), (0, 1, 1), (1, 1, 2)], by_pair * 3)
    d = deck()
    both, twin = d.both(0, 5), d.both(0, 5)
    d.axiom(EQUIVALENT, [both, both])
    case('equivalent-and-with-itself', 'confirmed', d, three, [])
    case('equivalent-and-with-its-twin', 'confirmed', d.with_axiom(EQUIVALENT, [both, twin]), three, [(0, 0, 1)])
    # Labels that meet: two bodies with one label, and a label that a row has.
    d = deck(rows=((0,), (1,), (2,), (1, 2, 3)))
    d.sub_class(0, d.some(0, d.both(1, 2))).sub_class(0, d.some(1, d.both(2, 1, 2)))
    case('bodies-with-one-label', 'confirmed', d, own(3) + [(1, 2, 3), (1, 2)], [(0, 0, 4), (1, 0, 4)])
    d = deck(rows=((0,), (1,), (2,), (1, 2, 3)))
    case('body-with-a-known-label', 'confirmed', d.sub_class(0, d.some(0, d.both(2, 3))), None, [(0, 0, 3)])


def growing():
    """Rounds. Each body's label is new, and fires the next rule one round later."""
    def deck(dropped=0):
        d = Rows(own(4), dropped=dropped).atoms()
        twos = [d.both(k, k + 1) for k in range(3)]
        d.sub_class(0, d.some(0, twos[0]))
        d.sub_class(twos[0], d.some(0, twos[1]))
        return d.sub_class(twos[1], d.some(0, twos[2]))

    # Round 1 gives {0, 1}; round 2 {1, 2}, from it; round 3 {2, 3}; round 4 nothing. {0, 1} has class 0 too.
    labels = own(4) + [(0, 1), (1, 2), (2, 3)]
    edges = [(0, 0, 4), (0, 4, 4), (0, 4, 5), (0, 5, 6)]
    for rounds in (0, 1):
        case('rounds-%d' % rounds, 'failed', deck(), labels[:5], edges[:1], [(TRIPPED, ROUNDS, rounds)],
             bounds=wide(rounds=rounds))
    case('rounds-2', 'failed', deck(), labels[:6], edges[:3], [(TRIPPED, ROUNDS, 2)], bounds=wide(rounds=2))
    case('rounds-3', 'open', deck(), labels, edges, [(TRIPPED, ROUNDS, 3)], bounds=wide(rounds=3))
    case('rounds-4', 'confirmed', deck(), labels, edges, bounds=wide(rounds=4))
    case('rounds-65535', 'confirmed', deck(), labels, edges, bounds=wide(rounds=65535))
    case('rounds-trip-then-dropped', 'failed', deck(9), labels[:6], edges[:3], [(TRIPPED, ROUNDS, 2), (DROPPED, 9, 0)],
         bounds=wide(rounds=2))
    for elements, edge_count in ((4, 0), (5, 2), (6, 3)):
        found = add('axioms-elements-%d' % elements, deck(), wide(elements=elements))
        assert found.reasons == [(TRIPPED, ELEMENTS, elements)], found
        assert (len(found.labels), found.edges) == (elements + 1, edges[:edge_count]), found
    case('axioms-elements-7', 'confirmed', deck(), labels, edges, bounds=wide(elements=7))
    for count in range(4):
        found = add('axioms-edges-%d' % count, deck(), wide(edges=count))
        assert (found.edges, found.reasons) == (edges[:count + 1], [(TRIPPED, EDGES, count)]), found
    case('axioms-edges-4', 'confirmed', deck(), labels, edges, bounds=wide(edges=4))
    # A round that grows by the last rule of the last element only; reasons once a round.
    d = Rows(own(3), [((0,), (1,))]).atoms()
    d.sub_class(0, d.some(0, 2)).sub_class(2, d.some(0, d.both(1, 2)))
    case('rounds-repeat-reasons', 'open', d, own(3) + [(1, 2)], [(0, 0, 2), (0, 2, 3), (0, 3, 3)],
         [(NOT_CLOSED, 2, 0), (NOT_CLOSED, 1, 0), (NOT_CLOSED, 2, 0), (NOT_CLOSED, 1, 0), (NOT_CLOSED, 1, 0)])
    # Reasons of a target come before the bound that its interning trips.
    case('reasons-before-the-bound', 'failed', d, own(3) + [(1, 2)], [(0, 0, 2)],
         [(NOT_CLOSED, 2, 0), (NOT_CLOSED, 1, 0), (TRIPPED, ELEMENTS, 3)], bounds=wide(elements=3))
    # Elements that a round makes are not visited in it, but worked from.
    d = Rows(own(3)).atoms()
    d.sub_class(0, d.some(0, d.both(1, 2, d.some(0, d.both(0, 1, 2)))))
    case('body-of-a-new-element', 'confirmed', d, own(3) + [(1, 2), (0, 1, 2)],
         [(0, 0, 3), (0, 3, 4), (0, 4, 3)])


def bounds():
    """Each bound where it can trip, at the need and below it."""
    # In expand: {0, 1} is new, and then has the fact too.
    def deck(**given):
        return Rows([(0,), (0, 1)], unsat={1}, facts=[(0, 0, 1)], **given)

    labels, edges = [(0,), (0, 1)], [(0, 0, 1), (0, 1, 1)]
    case('expand-at-the-need', 'confirmed', deck(), labels, edges, bounds=Bounds(2, 2, 0))
    case('expand-elements-1', 'open', deck(), labels, [], [(TRIPPED, ELEMENTS, 1)], bounds=Bounds(1, 2, 0))
    case('expand-elements-0', 'open', deck(), labels, [], [(TRIPPED, ELEMENTS, 0)], bounds=Bounds(0, 2, 0))
    case('expand-edges-1', 'open', deck(), labels, edges, [(TRIPPED, EDGES, 1)], bounds=Bounds(2, 1, 0))
    case('expand-edges-0', 'open', deck(), labels, edges[:1], [(TRIPPED, EDGES, 0)], bounds=Bounds(2, 0, 0))
    case('expand-trip-then-dropped', 'open', deck(dropped=BIG), labels, [], [(TRIPPED, ELEMENTS, 1), (DROPPED, BIG, 0)],
         bounds=Bounds(1, 2, 0))
    # A trip in expand skips the axioms and the closing; one in the axioms skips the closing.
    d = Rows(own(3), facts=[(2, 0, 1), (1, 0, 0)]).atoms()
    d.sub_class(0, d.some(0, 2)).with_axiom(TRANSITIVE, named(0))
    case('trip-skips-two-phases', 'failed', d, own(3), [(0, 2, 1), (0, 1, 0)], [(TRIPPED, EDGES, 1)],
         bounds=wide(edges=1))
    case('trip-skips-a-phase', 'failed', d, own(3), [(0, 2, 1), (0, 1, 0), (0, 0, 2)], [(TRIPPED, EDGES, 2)],
         bounds=wide(edges=2))
    closed = [(0, 2, 1), (0, 1, 0), (0, 0, 2), (0, 0, 1), (0, 0, 0), (0, 1, 1), (0, 1, 2), (0, 2, 0), (0, 2, 2)]
    for count in range(3, 9):
        found = add('closing-edges-%d' % count, d, wide(edges=count))
        assert (found.reasons, len(found.edges)) == ([(TRIPPED, EDGES, count)], count + 1), found
    found = add('closing-edges-9', d, wide(edges=9))
    assert found.outcome == 'confirmed' and sorted(found.edges) == sorted(closed), found
    # Seeds above the bound: the first interning trips, of a known label too, in either phase; not in closing.
    case('seeds-trip-in-expand', 'open', Rows(own(3), facts=[(1, 0, 1)]), own(3), [], [(TRIPPED, ELEMENTS, 2)],
         bounds=wide(elements=2))
    d = Rows(own(3)).atoms()
    case('seeds-trip-in-axioms', 'failed', d.sub_class(1, d.some(0, 1)), own(3), [], [(TRIPPED, ELEMENTS, 2)],
         bounds=wide(elements=2))
    d = Rows(own(3), [((0,), (1,))], facts=[(0, 0, 2)])
    case('seeds-do-not-trip-without-interning', 'open', d, own(3), [], [(NOT_CLOSED, 2, 0)], bounds=wide(elements=0))
    d = Rows(own(3), [((0,), (1,))], unsat={1}, injected=[(2, 0, 1)], facts=[(0, 0, 2)])
    case('reason-before-the-trip-in-expand', 'open', d, [(0,), (2,)], [], [(RUN_DELTA, 2, 0), (TRIPPED, ELEMENTS, 1)],
         bounds=wide(elements=1))
    case('reason-before-the-edge-trip', 'open', d, [(0,), (2,)], [(0, 0, 1)], [(RUN_DELTA, 2, 0), (TRIPPED, EDGES, 0)],
         bounds=wide(edges=0))


def closings():
    def deck(*axioms, roles=(((0,), ()), ((1,), ()), ((2,), ())), classes=4, facts=()):
        d = Rows(own(classes), roles, facts=facts)
        for tag, *fields in axioms:
            d.axiom(tag, *fields)
        return d

    path = [(0, 0, 1), (1, 1, 2), (2, 0, 3)]
    seeded = [(0, 2, 3), (1, 1, 2), (0, 0, 1)]
    case('chain', 'confirmed', deck((CHAIN, [0, 2], 4), facts=path), own(4), seeded + [(2, 0, 2)])
    case('chain-other-way', 'confirmed', deck((CHAIN, [2, 0], 4), facts=path), own(4), seeded + [(2, 1, 3)])
    case('chain-into-a-link', 'confirmed', deck((CHAIN, [0, 2], 0), facts=path), own(4), seeded + [(0, 0, 2)])
    case('chains-feed-each-other', 'confirmed', deck((CHAIN, [4, 0], 2), (CHAIN, [0, 2], 4), facts=path), own(4),
         seeded + [(2, 0, 2), (1, 0, 3)])
    for name, links, sup in (('one-link', [0], 4), ('three-links', [0, 2, 0], 4), ('no-link', [], 4),
                             ('inverse-first', [1, 2], 4), ('inverse-second', [0, 3], 4), ('inverse-sup', [0, 2], 5)):
        case('no-closing-for-' + name, 'open', deck((CHAIN, links, sup), facts=path), own(4), seeded)
    case('no-closing-for-inverse-transitive', 'open', deck((TRANSITIVE, 1), facts=path), own(4), seeded)
    case('no-closing-for-other-axioms', 'failed', deck((SUB_ROLE, 0, 2), (SYMMETRIC, 0), (INVERSE_ROLES, 0, 2),
                                                       (SAME_ROLES, [0, 2]), facts=path), own(4), seeded)
    case('guarded-role-is-open', 'open', deck((SYMMETRIC, 0), facts=path), own(4), seeded, (), [guarded(0)])
    # Over sub-roles: role 1 is over 0, role 2 over 1 but not over 0.
    over = (((0,), ()), ((0, 1), ()), ((1, 2), ()))
    line = [(0, 0, 1), (1, 0, 2), (2, 1, 3)]
    begun = [(1, 2, 3), (0, 1, 2), (0, 0, 1)]
    case('transitive-over-a-sub-role', 'confirmed', deck((TRANSITIVE, 2), roles=over, facts=line), own(4),
         begun + [(1, 0, 2), (1, 1, 3), (1, 0, 3)])
    case('transitive-sub-role-alone', 'confirmed', deck((TRANSITIVE, 0), roles=over, facts=line), own(4),
         begun + [(0, 0, 2)])
    case('transitive-one-level', 'confirmed', deck((TRANSITIVE, 4), roles=over, facts=line), own(4), begun)
    case('chain-there-by-a-sub-role', 'confirmed', deck((CHAIN, [0, 0], 2), roles=over, facts=line + [(0, 0, 2)]),
         own(4), begun + [(0, 0, 2)])
    case('chain-into-a-sub-role', 'confirmed', deck((CHAIN, [2, 2], 0), roles=over, facts=line), own(4),
         begun + [(0, 0, 2), (0, 1, 3), (0, 0, 3)])
    case('roles-over-each-other', 'confirmed', deck((TRANSITIVE, 0), (TRANSITIVE, 2), facts=line,
                                                    roles=(((0, 1), ()), ((0, 1), ()), ((2,), ()))), own(4),
         begun + [(0, 0, 2), (0, 1, 3), (1, 0, 3)])
    # A cycle, a loop, and a walk whose outer pairs are those from before it.
    case('transitive-cycle', 'confirmed', deck((TRANSITIVE, 0), classes=3, facts=[(0, 0, 1), (1, 0, 2), (2, 0, 0)]),
         own(3), None)
    case('transitive-loop', 'confirmed', deck((TRANSITIVE, 0), classes=1, facts=[(0, 0, 0)]), own(1), [(0, 0, 0)])
    case('transitive-twice', 'confirmed', deck((TRANSITIVE, 0), (TRANSITIVE, 0), classes=5,
                                               facts=[(0, 0, 1), (1, 0, 2), (2, 0, 3), (3, 0, 4)]), own(5), None)
    case('closing-without-edges', 'confirmed', deck((TRANSITIVE, 0), (CHAIN, [0, 0], 0)), own(4), [])
    case('closing-rules-in-axiom-order', 'confirmed',
         deck((TRANSITIVE, 2), (CHAIN, [0, 0], 2), (TRANSITIVE, 0), facts=[(0, 0, 1), (1, 0, 2), (2, 0, 3)]), own(4),
         [(0, 2, 3), (0, 1, 2), (0, 0, 1), (1, 0, 2), (1, 1, 3), (0, 0, 2), (0, 1, 3), (1, 0, 3), (0, 0, 3)])


def phases():
    """A deck to which each phase adds something, and dropped axioms."""
    def deck(dropped=0):
        d = Rows(own(3), facts=[(0, 0, 1)], dropped=dropped).atoms()
        return d.sub_class(1, d.some(0, d.both(1, 2))).with_axiom(TRANSITIVE, named(0))

    labels = own(3) + [(1, 2)]
    edges = [(0, 0, 1), (0, 1, 3), (0, 3, 3), (0, 0, 3)]
    for last, elements, count, outcome in ((1, 3, 0, 'failed'), (2, 3, 1, 'failed'), (3, 4, 3, 'failed'),
                                           (4, 4, 4, 'confirmed')):
        case('last-phase-%d' % last, outcome, deck(), labels[:elements], edges[:count], last=last)
        case('last-phase-%d-dropped' % last, 'open' if last == 4 else outcome, deck(7), labels[:elements],
             edges[:count], [(DROPPED, 7, 0)], last=last)
    for last in (0, 5, 256, BIG):
        refused('last-phase-%d' % last, 8, deck(), last=last)
    d = deck_w()
    d.dropped = 1
    case('dropped-alone', 'open', d, None, [(0, 1, 0)], [(DROPPED, 1, 0)])
    d.dropped = BIG
    case('dropped-after-a-trip', 'open', d, None, [(0, 1, 0)], [(TRIPPED, EDGES, 0), (DROPPED, BIG, 0)],
         bounds=wide(edges=0))


def measures():
    """Refusals 8 and 9."""
    none = Room(0, 0, 0, 0)
    for name, asked in (('elements-65536', wide(elements=65536)), ('elements-most', wide(elements=BIG)),
                        ('edges-1048576', wide(edges=1048576)), ('edges-most', wide(edges=BIG)),
                        ('rounds-65536', wide(rounds=65536)), ('rounds-most', wide(rounds=BIG))):
        refused('bad-%s' % name, 8, deck_w(), asked, room=none)
    refused('bad-phase-before-9', 8, deck_w(), last=0, room=none)
    refused('bad-elements-of-no-classes', 8, Deck(), wide(elements=65536), room=Room(0, 13, 0, 0))
    case('elements-65535', 'confirmed', deck_w(), None, [(0, 1, 0)], bounds=wide(elements=65535, rounds=65535),
         room=Room(65536, 13, 0, 8))
    refused('elements-65535-short', 9, deck_w(), wide(elements=65535), room=Room(65535, 13, 0, 8))
    refused('edges-1048575-short', 9, deck_w(), wide(edges=1048575), room=Room(10, 400, 0, 8))
    refused('everything-largest-short', 9, deck_w(), Bounds(65535, 1048575, 65535), room=MOST)
    case('no-classes-elements-65535', 'confirmed', Deck(), [], [], bounds=wide(elements=65535), room=Room(0, 13, 0, 0))
    # Each deck with the exact room, and with one word less of each.
    decks = (('w', deck_w(), WIDE, (10, 13, 8)), ('w-tight', deck_w(), Bounds(2, 1, 0), (3, 2, 8)),
             ('w-seeds', deck_w(), Bounds(0, 0, 0), (3, 1, 8)),
             ('64-classes', wide_labels(64), wide(elements=3), (65, 13, 12)),
             ('65-classes', wide_labels(65), wide(elements=3), (132, 13, 12)),
             ('65-classes-66-elements', wide_labels(65), wide(elements=66), (134, 13, 12)),
             ('no-classes', Deck(), WIDE, (0, 13, 0)))
    for name, deck, asked, (labels, edges, verdicts) in decks:
        least = Room(labels, edges, 0, verdicts)
        found = add('exact-room-' + name, deck, asked, room=least)
        assert isinstance(found, Done), found
        for part in ('labels', 'edges', 'verdicts'):
            if getattr(least, part) > 0:
                short = least._replace(**{part: getattr(least, part) - 1})
                refused('short-%s-%s' % (part, name), 9, deck, asked, room=short)
        refused('no-room-' + name, 9, deck, asked, room=none)
    # Logs of any length. The run gives three reasons.
    d = Rows([(0,), (0, 1), (2,)], [((0,), (1,))], facts=[(0, 0, 2), (0, 0, 1)], dropped=5)
    for log in (0, 1, 2, 3, 4, 5, 6, 8, 9, 10, 30):
        case('log-of-%d-words' % log, 'open', d, None, None, [(NOT_CLOSED, 2, 0)] * 2 + [(DROPPED, 5, 0)],
             room=Room(14, 13, log, 3))
    for log in (0, 2, 5):
        case('log-of-%d-words-without-reasons' % log, 'confirmed', deck_w(), room=Room(10, 13, log, 8))


def wide_labels(count):
    """A deck with classes in several words; the last three classes are in use."""
    rows = own(count - 1) + [(0, count - 2, count - 1)]
    d = Rows(rows, real=1, facts=[(count - 1, 0, count - 2), (0, 0, count - 1)])
    d.concepts = [[ATOMIC, 0, 0, 0], [ATOMIC, count - 1, 0, 0], [ATOMIC, count - 2, 0, 0]]
    d.sub_class(1, 2).sub_class(0, d.some(0, d.both(1, 2)))
    return d.sub_class(0, d.some(0, 2))


def widths():
    for count in (63, 64, 65, 66):
        top = count - 1
        case('labels-of-%d-classes' % count, 'confirmed', wide_labels(count), [(0,), (top - 1,), (0, top - 1, top)],
             [(0, 2, 2), (0, 2, 1), (0, 0, 2), (0, 0, 1)])
    # The last real class is at the end of a word, or the first of the next; the floor is {69}.
    for real in (63, 64, 65, 66):
        d = Rows(own(70), real=real, unsat=set(range(1, real - 1)), facts=[(0, 0, real), (0, 0, real - 1)])
        d.sub_class(d.concept(TOP), d.concept(ATOMIC, 69))
        case('floor-over-%d-real-classes' % real, 'failed', d, [(0,), (real - 1,), (real, 69)], [(0, 0, 2), (0, 0, 1)])


def nested():
    for name, tag, count in (('and', AND, 120), ('some', SOME, 60)):
        d = Rows(own(2)).atoms()
        for body in range(1, count):
            d.concept(tag, *([[body]] if tag == AND else [named(0), body]))
        d.sub_class(0, d.some(0, len(d.concepts) - 1))
        case('nested-%d-%s' % (count, name), 'confirmed', d)
    d = Rows(own(2), [((0,), (0,))], unsat={0}, injected=[(1, 0, 0)]).atoms()
    for body in range(1, 5):
        d.both(body, body)
    d.sub_class(1, d.some(0, len(d.concepts) - 1))
    case('shared-ands', 'open', d, [(1,)], [(0, 0, 0)], [(RUN_DELTA, 1, 0)] * 16)


class Again:
    """A few reasons given again and again, in turn: as long as a list of them, without being one."""

    def __init__(self, reasons, times):
        self.reasons, self.times = reasons, times

    def __len__(self):
        return self.times

    def __getitem__(self, places):
        return [self.reasons[k % len(self.reasons)] for k in range(*places.indices(self.times))]


def universal_top(levels, base=TOP):
    """Every element has an edge to that of class 1, and those without a real class have class 2."""
    d = Rows(own(4), real=1, facts=[(0, 0, 3)]).atoms()
    top = d.doubled(levels, d.concept(TOP) if base == TOP else 0)
    return d.sub_class(top, d.some(0, 1)).sub_class(top, 2)


def floor_atoms(levels):
    d = Rows(own(4), real=1, facts=[(0, 0, 3)]).atoms()
    return d.sub_class(d.concept(TOP), d.doubled(levels, d.both(2, 1)))


def antecedent_atoms(levels):
    d = Rows([(0,), (0, 1), (2,)]).atoms()
    return d.sub_class(d.doubled(levels, d.both(0, 1)), d.some(0, 2))


def body_atoms(levels):
    d = Rows(own(4), real=3).atoms()
    return d.sub_class(0, d.some(0, d.doubled(levels, d.both(3, 1))))


def body_open(levels):
    """The range of the role is class 3, which no row has: LabelNotClosed with the first atom, after Ands without one."""
    d = Rows(own(4), [((0,), (3,))]).atoms()
    none = d.doubled(levels, d.concept(TOP))
    return d.sub_class(0, d.some(0, d.doubled(levels, d.both(none, 2, 1))))


def consequent_ands(levels):
    d = Rows(own(3)).atoms()
    return d.sub_class(0, d.doubled(levels, d.both(d.some(0, 1), d.some(0, 2))))


def consequent_somes(levels):
    """An And of one Some twice, whose body is such an And, and so on: from the empty label to itself."""
    d = Rows(own(2), real=1).atoms()
    body = d.both()
    for _ in range(levels):
        some = d.some(0, body)
        body = d.both(some, some)
    return d.sub_class(0, body)


PLACES = (('top', universal_top), ('atomic', lambda levels: universal_top(levels, ATOMIC)), ('floor', floor_atoms),
          ('antecedent', antecedent_atoms), ('body', body_atoms), ('open-body', body_open),
          ('consequent', consequent_ands), ('consequent-of-somes', consequent_somes))


def body_deltas(levels):
    d = Rows(own(2), [((0,), (0,))], unsat={0}, injected=[(1, 0, 0)]).atoms()
    return d.sub_class(1, d.some(0, d.doubled(levels, 1)))


def consequent_deltas(levels):
    d = Rows(own(2), [((0,), (0,))], unsat={0}, injected=[(1, 0, 0)]).atoms()
    return d.sub_class(1, d.doubled(levels, d.some(0, 1)))


def consequent_open(levels):
    """The range of the role is class 3, which no row has: LabelNotClosed of the one atom and of the other, in turn."""
    d = Rows(own(4), [((0,), (3,))]).atoms()
    return d.sub_class(0, d.doubled(levels, d.both(d.some(0, 1), d.some(0, 2))))


DELTA = (RUN_DELTA, 1, 0)
GIVEN_AGAIN = (('deltas', body_deltas, [DELTA]), ('consequent-deltas', consequent_deltas, [DELTA]),
               ('consequent-open', consequent_open, [(NOT_CLOSED, 1, 0), (NOT_CLOSED, 2, 0)]))


def sixty():
    """Sixty levels, where a run could walk each occurrence: what it leaves is what three levels leave."""
    for place, made in PLACES:
        for last in (1, 2, 3, 4) if place in ('top', 'atomic') else (3, 4):
            short = made(3).bytes()
            found = run(short, WIDE, last, need(Reader(short), WIDE))
            assert len(found.reasons) < 7 and (place != 'top' or last < 3 or len(found.labels) == 3)
            add('sixty-%s-last-phase-%d' % (place, last), made(60), last=last, found=found)
    # Reasons for each occurrence: the log keeps the first, the total stops. A log of 1,536 words takes 512 of them in.
    for name, made, reasons in GIVEN_AGAIN:
        short = made(3).bytes()
        found = run(short, WIDE, 4, need(Reader(short), WIDE))
        assert found.reasons == reasons * 8, found.reasons
        for levels, logs in ((9, (0, 3, 7, 1536)), (31, (18,)), (60, (0, 18))):
            total = min(len(reasons) << levels, 4294967295)
            for words in logs:
                add('%s-%d-levels-log-%d' % (name, levels, words), made(levels),
                    room=Room(13, 15, words, 9), found=found._replace(reasons=Again(reasons, total)))


def every_tag():
    """base() has every concept tag and every axiom tag."""
    for last in (1, 2, 3, 4):
        add('every-tag-last-phase-%d' % last, base(), last=last)
    d = base()
    d.dropped = 2
    for count in (0, 1, 2, 3, 4):
        add('every-tag-edges-%d' % count, d, wide(edges=count))


def malformed():
    """Refusals of the deck, before 8 and 9; no buffer changes."""
    b = base()
    data = b.bytes()
    decks = ((1, b''), (1, data[:-1]), (1, data[-68:]), (2, b.edited(('trailer', 0, 2)).bytes()),
             (2, b.edited(('trailer', 0, 0)).bytes()), (3, b.edited(('trailer', 3, 4097)).bytes()),
             (3, b.edited(('trailer', 15, 262145)).bytes()), (4, b.edited(('trailer', 4, 1)).bytes()),
             (4, b.edited(('real', 4)).bytes()), (4, b.edited(('trailer', 17, 5)).bytes()),
             (tag('classes', 0), b.edited(('classes', 0, 0, 2)).bytes()),
             (out('injected', 0, 2), b.edited(('injected', 0, 2, 2)).bytes()),
             (tag('axioms', 25), b.edited(('axioms', 25, 0, 26)).bytes()),
             (out('facts', 1), b.edited(('facts', 1, 0, 3)).bytes()), (6, b.edited(('lists', 1, 1)).bytes()),
             (6, b.edited(('injected', 1, 1, 0)).bytes()), (7, b.edited(('concepts', 8, 2, 8)).bytes()),
             (7, b.edited(('concepts', 5, 1, 11)).bytes()),
             (filled('concepts', 0, 3), b.edited(('concepts', 0, 3, 1)).bytes()),
             (filled('axioms', 25, 3), b.edited(('axioms', 25, 3, 1)).bytes()))
    room = Room(10, 13, 6, 104)
    for k, (expected, deck) in enumerate(decks):
        refused('malformed-%d-%d' % (stated(expected)[0], k), expected, deck, room=room)
    for expected, deck in (decks[k] for k in (1, 4, 6, 9, 12, 13, 14, 16, 19)):
        first = stated(expected)[0]
        refused('malformed-%d-before-8' % first, expected, deck, Bounds(BIG, BIG, BIG), last=0, room=room)
        refused('malformed-%d-before-9' % first, expected, deck, room=Room(0, 0, 0, 0))


# --- Random runs ----------------------------------------------------------------------------------------------------

# How often a tag is drawn, beside SubClassOf.
OTHER_AXIOMS = ((EQUIVALENT, 4), (DISJOINT, 1), (SUB_ROLE, 1), (CHAIN, 7), (SAME_ROLES, 1), (INVERSE_ROLES, 1),
                (DOMAIN, 1), (RANGE, 1), (TRANSITIVE, 7), (SYMMETRIC, 1), (ASYMMETRIC, 1), (A_CLASS, 1), (A_ROLE, 1),
                (AN_INDIVIDUAL, 1))


def random_rows(rng):
    """A deck without concepts and axioms: few classes, rows that often meet, ranges, injected classes and facts."""
    n, r = rng.randint(1, 5), rng.randint(1, 2)
    unsat = {k for k in range(n) if rng.random() < 0.2}
    rows = []
    for k in range(n):
        row = {j for j in range(n) if rng.random() < 0.25} | (set() if k in unsat and rng.random() < 0.5 else {k})
        rows.append(row if not rows or k in unsat or rng.random() < 0.8 else rows[-1] | {k})
    roles = [(sorted({k} | {j for j in range(r) if rng.random() < 0.3}),
              sorted(j for j in range(n) if rng.random() < 0.12)) for k in range(r)]
    real = rng.choice((n, n - 1, n // 2))
    fillers = [k for k in range(real) if k in unsat] + list(range(real))
    injected = [(y, k, rng.choice(fillers)) for y in range(n) for k in range(r) if real and rng.random() < 0.4]
    facts = [(rng.randrange(n), rng.randrange(r), rng.randrange(n)) for _ in range(rng.choice((0, 1, 2, 3, 4)))]
    return Rows([sorted(row) for row in rows], roles, real, unsat, injected, facts, rng.choice((0,) * 8 + (1, 12)))


def random_terms(rng, d):
    """Adds the atoms and Top, then mostly Ands and Somes; and axioms that are mostly rules."""
    d.atoms()
    top = d.concept(TOP)
    for _ in range(rng.randint(4, 8)):
        some = [rng.randrange(len(d.concepts)) for _ in range(rng.choice((0, 1, 2, 2, 2, 3)))]
        one, word = rng.randrange(len(d.concepts)), named(rng.randrange(len(d.roles)))
        d.concept(*rng.choice([(AND, some)] * 7 + [(SOME, word, one)] * 9 +
                              [(SOME, word + 1, one), (NOT, one), (OR, some), (ALL, word, one), (BOT,), (NOMINAL, 7),
                               (MIN, 1, word, one)]))
    for _ in range(rng.randint(2, 4)):
        sub = rng.choice((rng.randrange(top + 1), rng.randrange(top + 1), rng.randrange(len(d.concepts))))
        d.sub_class(sub, rng.randrange(top, len(d.concepts)) if rng.random() < 0.8 else rng.randrange(top))
    add_terms(rng, d, (0, 0), (), (0, 3), OTHER_AXIOMS)


def random_case(rng):
    """A deck in which building comes to something: an element, a closing edge, or a reason."""
    while True:
        d = random_rows(rng)
        random_terms(rng, d)
        bounds_, last = Bounds(12, 30, 8), rng.choice((4, 4, 4, 4, 4, 4, 3, 2))
        data = d.bytes()
        by_phase = [run(data, bounds_, phase, need(Reader(data), bounds_)) for phase in (1, 3, last)]
        begun, before, found = by_phase
        if len(found.labels) > len(begun.labels) or len(found.edges) > len(before.edges) or \
                any(reason[0] != DROPPED for reason in found.reasons) or rng.random() < 0.1:
            return d, bounds_, last, found


def random_run(rng, name):
    d, bounds_, last, found = random_case(rng)
    # A third of them with bounds near the need.
    if rng.random() < 0.35:
        elements, edges = len(found.labels), len(found.edges)
        bounds_ = Bounds(rng.choice((12, elements, max(elements - 1, 0))),
                         rng.choice((30, edges, rng.randint(0, edges))), rng.choice((0, 1, 2, 8)))
    add(name, d, bounds_, last)


def random_runs():
    for k in range(150):
        random_run(random.Random(3100 + k), 'random-%d' % k)


# --- Writing --------------------------------------------------------------------------------------------------------

def encoded(name, data, bounds_, last, room):
    header = struct.pack('<10I', len(name), len(data), *bounds_, last, *room)
    return header + padded(name.encode()) + padded(data)


def make_cases():
    for make in (specimens, traps, seeding, floors, targets, expanding, rules, growing, bounds, closings, phases,
                 measures, widths, nested, sixty, every_tag, malformed, random_runs):
        make()


def main():
    make_cases()
    given = b''.join(encoded(*asked) for *asked, _ in CASES)
    lines = [line for *_, found in CASES for line in found] + ['%d cases' % len(CASES)]
    wanted = ''.join(line + '\n' for line in lines).encode()
    assert len(given) <= 400000, len(given)
    finish('test_runs', given, wanted, '%d cases, %d bytes of data' % (len(CASES), len(given)))


if __name__ == '__main__':
    main()
