#!/usr/bin/env python3
"""Makes the structures that the program test_eval asks about, and what it must print.

    python3 tests/make_judgements.py            writes crates/test_eval/stdin and stdout
    python3 tests/make_judgements.py --check    compares them with what it would write; exit 1 if they differ

The expected answers come from `World`, an evaluator written from document 01, its readings, and the steps of the Rust
that document 01 points to. A hand-made case also states its answers, and the two must agree.

The data are numbers, case after case to the end. A number below 255 is one byte; any other is the byte 255 and four
bytes, low byte first. A case is

    name length, and the name's bytes as they stand
    deck length in bytes, and the deck's words, as many as hold that length
    number of label words lent, number of runs, and the runs: count, and the low and the high half of a word
    number of elements
    number of edges lent, and each edge's role, from and to
    number of edges used
    what is asked: first concept and count, first element and count, first axiom and count

Printed is a line for each case, its name and for each concept a string with a character for each element: f, t, or the
tag of an unresolved construct to base 36; then a line for each axiom, its number and the four words of its verdict. A
refusal is its number, and its word if it has one.
"""
import collections
import pathlib
import random
import struct
import sys

sys.path.insert(0, str(pathlib.Path(__file__).resolve().parent))
from make_decks import (AXIOM_FORMS, BIG, CONCEPT_FORMS, Deck, Reader, Refused, accept, base, deck_w,  # noqa: E402
                        filled, out, refuse, stated, tag)
from shared import check_name, finish, padded  # noqa: E402

(TOP, BOT, ATOMIC, NOMINAL, SELF, NOT, AND, OR, SOME, ALL, MIN, MAX) = range(12)
(SUB_CLASS, EQUIVALENT, DISJOINT, UNION, SUB_ROLE, CHAIN, SAME_ROLES, DISJOINT_ROLES, INVERSE_ROLES, DOMAIN, RANGE,
 TRANSITIVE, SYMMETRIC, ASYMMETRIC, REFLEXIVE, IRREFLEXIVE, FUNCTIONAL, INVERSE_FUNCTIONAL, CLASS_OF, ROLE_OF,
 NOT_ROLE_OF, SAME, DIFFERENT, A_CLASS, A_ROLE, AN_INDIVIDUAL) = range(26)
NEVER_JUDGED = (UNION, DISJOINT_ROLES) + tuple(range(ASYMMETRIC, DIFFERENT + 1))
DECLARATIONS = (A_CLASS, A_ROLE, AN_INDIVIDUAL)

FALSE, TRUE = 'f', 't'          # any other judgement is the unresolved construct's tag
FINE, BROKEN = 'fine', 'broken'  # what a place comes to; or again a tag
HOLDS = (0, 0, 0, 0)


def fails(*witnesses):
    return (1, *witnesses, BIG, BIG, BIG)[:4]


def open_axiom(tag, why=0):
    return 2, tag, why, 0


def open_concept(tag):
    return 3, tag, 0, 0


def guarded(role):
    return 4, role, 0, 0


# --- The evaluator --------------------------------------------------------------------------------------------------

Lent = collections.namedtuple('Lent', 'labels elements edges edge_count')


def role_of(word):
    return word // 2


def is_inverse(word):
    return word % 2 == 1


class World:
    """A deck with a structure lent for it."""

    def __init__(self, deck, lent):
        accept(deck)
        self.deck = Reader(deck)
        classes, roles = self.deck.count['classes'], self.deck.count['roles']
        width = (classes + 63) // 64
        refuse(10, lent.elements > 65536)
        refuse(10, lent.elements * width > len(lent.labels))
        refuse(10, lent.edge_count > len(lent.edges))
        self.elements = range(lent.elements)
        self.labels = [sum(lent.labels[e * width + k] << 64 * k for k in range(width)) for e in self.elements]
        refuse(10, any(label >> classes != 0 for label in self.labels))
        used = lent.edges[:lent.edge_count]
        refuse(10, any(role >= roles for role, _, _ in used))
        refuse(10, any(one >= lent.elements or other >= lent.elements for _, one, other in used))
        self.pairs = []
        for start, count, _, _ in self.deck.parts['roles']:
            row = self.listed(start, count)
            self.pairs.append(sorted({(one, other) for role, one, other in used if role in row}))

    def listed(self, start, count):
        return self.deck.words[start:start + count]

    # Judging a concept at an element.

    def judge(self, concept, element):
        tag, x, y, _ = self.deck.parts['concepts'][concept]
        if tag == TOP:
            return TRUE
        if tag == BOT:
            return FALSE
        if tag == ATOMIC:
            return TRUE if self.labels[element] >> x & 1 else FALSE
        if tag == AND:
            return self.judge_all(self.listed(x, y), element)
        if tag == SOME and not is_inverse(x):
            return self.judge_some(role_of(x), y, element)
        return tag

    def judge_all(self, operands, element):
        standing = TRUE
        for operand in operands:
            judged = self.judge(operand, element)
            if judged == FALSE:
                return FALSE
            if judged != TRUE:
                standing = judged
        return standing

    def judge_some(self, role, body, element):
        standing = FALSE
        for target in [other for one, other in self.pairs[role] if one == element]:
            judged = self.judge(body, target)
            if judged == TRUE:
                return TRUE
            if judged != FALSE:
                standing = judged
        return standing

    # What an element comes to.

    @staticmethod
    def implied(sub, sup):
        if sub == FALSE or sup == TRUE:
            return FINE
        if sub == TRUE and sup == FALSE:
            return BROKEN
        return sup if sup != FALSE else sub

    @staticmethod
    def agreeing(judged):
        known = {j for j in judged if j in (TRUE, FALSE)}
        unresolved = [j for j in judged if j not in (TRUE, FALSE)]
        if len(known) == 2:
            return BROKEN
        return unresolved[-1] if unresolved and len(known) + len(unresolved) > 1 else FINE

    @staticmethod
    def exclusive(judged):
        true = judged.count(TRUE)
        unresolved = [j for j in judged if j not in (TRUE, FALSE)]
        if true > 1:
            return BROKEN
        return unresolved[-1] if unresolved and true + len(unresolved) > 1 else FINE

    @staticmethod
    def wanted(judged):
        return {TRUE: FINE, FALSE: BROKEN}.get(judged, judged)

    # Going through elements and pairs.

    @staticmethod
    def through(places):
        """The verdict over places (witness, what it comes to), in order."""
        verdict = HOLDS
        for witness, outcome in places:
            if outcome == BROKEN:
                return fails(witness)
            if outcome != FINE:
                verdict = open_concept(outcome)
        return verdict

    def members(self, concepts, outcome):
        return self.through((e, outcome([self.judge(c, e) for c in concepts])) for e in self.elements)

    @staticmethod
    def first(breaks):
        return next((fails(*witnesses) for witnesses in breaks), HOLDS)

    def links(self, a, b, sup):
        return self.first((x, y, z) for x, y in self.pairs[a] for y_, z in self.pairs[b]
                          if y == y_ and (x, z) not in self.pairs[sup])

    def verdict(self, axiom):
        tag, x, y, z = self.deck.parts['axioms'][axiom]
        if tag in NEVER_JUDGED:
            return open_axiom(tag)
        if tag in DECLARATIONS:
            return HOLDS
        if tag == SUB_CLASS:
            return self.through((e, self.implied(self.judge(x, e), self.judge(y, e))) for e in self.elements)
        if tag == EQUIVALENT:
            return self.members(self.listed(x, y), self.agreeing)
        if tag == DISJOINT:
            return self.members(self.listed(x, y), self.exclusive)
        if tag == CHAIN and y != 2:
            return open_axiom(tag, 2)
        words = {SUB_ROLE: (x, y), CHAIN: (*self.listed(x, y), z), SAME_ROLES: self.listed(x, y),
                 INVERSE_ROLES: (x, y)}.get(tag, (x,))
        if any(is_inverse(word) for word in words):
            return open_axiom(tag, 1)
        roles = [role_of(word) for word in words]
        if tag == SUB_ROLE:
            return self.first(pair for pair in self.pairs[roles[0]] if pair not in self.pairs[roles[1]])
        if tag == CHAIN:
            return self.links(*roles)
        if tag == SAME_ROLES:
            return self.first(pair for m in roles for n in roles for pair in self.pairs[m]
                              if pair not in self.pairs[n])
        if tag in (SYMMETRIC, INVERSE_ROLES):
            return next((guarded(role) for role in roles if self.pairs[role]), HOLDS)
        if tag == DOMAIN:
            return self.through((one, self.wanted(self.judge(y, one))) for one, _ in self.pairs[roles[0]])
        if tag == RANGE:
            return self.through((other, self.wanted(self.judge(y, other))) for _, other in self.pairs[roles[0]])
        return self.links(roles[0], roles[0], roles[0])

    # The questions.

    def answer_concept(self, concept, element):
        refuse(11, concept >= self.deck.count['concepts'] or element >= len(self.elements))
        return self.judge(concept, element)

    def answer_axiom(self, axiom):
        refuse(11, axiom >= self.deck.count['axioms'])
        return self.verdict(axiom)


# --- What is printed ------------------------------------------------------------------------------------------------

Ask = collections.namedtuple('Ask', 'concept concepts element elements axiom axioms')
DIGITS = '0123456789abcdefghijklmnopqrstuvwxyz'


def refused_words(refusal):
    """A number, and the word if it is 12 to 14."""
    return 'refused ' + ' '.join(str(part) for part in refusal)


def worded(question):
    """What a question gives, or the words of its refusal."""
    try:
        return question()
    except Refused as refusal:
        return refused_words(refusal.args)


def printed(name, deck, lent, ask):
    world = worded(lambda: World(deck, lent))
    shut = isinstance(world, str)

    def judged(concept, element):
        found = world if shut else worded(lambda: world.answer_concept(concept, element))
        return DIGITS[found] if isinstance(found, int) else found

    def checked(axiom):
        found = world if shut else worded(lambda: world.answer_axiom(axiom))
        return found if isinstance(found, str) else '%d %d %d %d' % found

    strings = [''.join(judged(concept, element) for element in range(ask.element, ask.element + ask.elements))
               for concept in range(ask.concept, ask.concept + ask.concepts)]
    lines = ['%d: %s' % (axiom, checked(axiom)) for axiom in range(ask.axiom, ask.axiom + ask.axioms)]
    return [' '.join([name] + strings)] + lines


# --- Building decks and structures ----------------------------------------------------------------------------------

class Made(Deck):
    """A deck whose classes have rows of their own number only, and whose roles have the sub-role rows given."""

    def __init__(self, classes=2, subs=((0,),)):
        super().__init__(real=classes)
        self.classes = [[0] + self.row(k) for k in range(classes)]
        self.roles = [self.row(*row) + self.row() for row in subs]

    def record(self, forms, tag, fields):
        made, fields = [tag], list(fields)
        for kind in forms[tag]:
            made += [0] if kind == '-' else self.row(*fields.pop(0)) if kind.isupper() else [fields.pop(0)]
        assert not fields
        return made

    def concept(self, tag, *fields):
        """Adds a concept, and gives back its number."""
        self.concepts.append(self.record(CONCEPT_FORMS, tag, fields))
        return len(self.concepts) - 1

    def axiom(self, tag, *fields):
        self.axioms.append(self.record(AXIOM_FORMS, tag, fields))

    def with_concept(self, tag, *fields):
        self.concept(tag, *fields)
        return self

    def with_axiom(self, tag, *fields):
        self.axiom(tag, *fields)
        return self

    def atoms(self):
        """Concept k becomes Atomic k."""
        for k in range(len(self.classes)):
            self.concept(ATOMIC, k)
        return self


def named(role):
    return 2 * role


def inverse(role):
    return 2 * role + 1


def label_words(classes, label):
    value = sum(1 << k for k in label)
    return [value >> 64 * k & (1 << 64) - 1 for k in range((classes + 63) // 64)]


def lend(deck, labels, *edges):
    """The structure with these labels, given as classes, and these edges (role, from, to), lent exactly."""
    words = [word for label in labels for word in label_words(len(deck.classes), label)]
    return Lent(words, len(labels), list(edges), len(edges))


# --- The cases ------------------------------------------------------------------------------------------------------

CASES = []


def add(name, deck, lent, ask):
    check_name(name, CASES)
    data = deck if isinstance(deck, bytes) else deck.bytes()
    lines = printed(name, data, lent, ask)
    CASES.append((name, data, lent, ask, lines))
    return lines


def agree(name, expected, found):
    assert expected == found, (name, expected, found)


def asked(name, deck, lent, ask, judged, *verdicts):
    """A hand-made case, with what its author expects: a string for each concept, and a verdict for each axiom."""
    found = add(name, deck, lent, ask)
    lines = ['%d: %d %d %d %d' % (ask.axiom + k, *verdict) for k, verdict in enumerate(verdicts)]
    agree(name, [' '.join([name] + judged.split())] + lines, found)


def case(name, deck, lent, judged, *verdicts):
    """A hand-made case that asks the deck's last concepts and axioms, as many as there are strings and verdicts."""
    concepts, axioms = len(judged.split()), len(verdicts)
    ask = Ask(len(deck.concepts) - concepts, concepts, 0, lent.elements if concepts else 0, len(deck.axioms) - axioms,
              axioms)
    asked(name, deck, lent, ask, judged, *verdicts)


def refused(name, expected, deck, lent, concept=0, element=0, axiom=0):
    """A hand-made case: a concept at an element and an axiom, both refused so. None is not asked."""
    ask = Ask(concept or 0, int(concept is not None), element or 0, int(concept is not None), axiom or 0,
              int(axiom is not None))
    found = add(name, deck, lent, ask)
    words = refused_words(stated(expected))
    agree(name, [name + (' ' + words if ask.concepts else '')] + ['%d: %s' % (ask.axiom, words)] * ask.axioms, found)


def everything(name, deck, lent):
    """A case that asks all there is, with no answer stated."""
    concepts, axioms = len(deck.concepts), len(deck.axioms)
    return add(name, deck, lent, Ask(0, concepts if lent.elements else 0, 0, lent.elements, 0, axioms))


def specimens():
    """The starred rows of document 01. Element 0 is {0}, element 1 is {0, 1}, with an edge from 1 to 0."""
    def extended():
        d = Made()
        for part, value in vars(deck_w()).items():
            setattr(d, part, value)
        d.concept(NOT, 0)
        return d

    lent = Lent([1, 3], 2, [(0, 1, 0)], 1)
    case('specimen-0-deck-w', deck_w(), lent, 'tt ft ft', HOLDS, HOLDS)
    case('specimen-1', deck_w(), lent, 'ft')
    case('specimen-2', extended().with_concept(AND, []), lent, 'tt')
    case('specimen-3', extended().with_concept(AND, [1, 3]), lent, 'f5')
    case('specimen-4', extended().with_axiom(EQUIVALENT, [3]), lent, '', HOLDS)
    case('specimen-5', extended().with_axiom(EQUIVALENT, [3, 3]), lent, '', open_concept(NOT))
    case('specimen-6', extended().with_axiom(DISJOINT, [1, 1]), lent, '', fails(1))
    case('specimen-7', extended().with_axiom(DISJOINT, [1]), lent, '', HOLDS)
    case('specimen-8', extended().with_axiom(DISJOINT, [3, 1]), lent, '', open_concept(NOT))
    d = extended()
    case('specimen-9', d.with_axiom(SUB_CLASS, d.concept(BOT), 3), lent, '', HOLDS)
    case('specimen-10', extended().with_axiom(TRANSITIVE, named(0)), lent, '', HOLDS)
    case('specimen-11', extended().with_axiom(SYMMETRIC, named(0)), lent, '', guarded(0))
    # The whole of document 01's structure, word by word.
    d = extended()
    d.concept(AND, [])
    d.concept(AND, [1, 3])
    case('specimens-in-one-deck', d, lent, 'tt ft ft 55 tt f5', HOLDS, HOLDS)


def constructs():
    """Each concept tag. base() has concept k of tag k: two roles, 1 over 0; three classes."""
    d = base()
    lent = lend(d, [(0,), (1,), (0, 1, 2)], (0, 0, 1), (1, 1, 2))
    #            top bot {1} nom self not and(0,2) or some(inv 0, 2) all min max
    case('each-tag', d, lent, 'ttt fff ftt 333 444 555 ftt 777 888 999 aaa bbb')
    d = Made(2, ((0,), (0, 1))).atoms()
    d.concept(SOME, named(0), 1)
    d.concept(SOME, named(1), 1)
    d.concept(SOME, inverse(1), 1)
    d.concept(TOP)
    d.concept(SOME, named(0), 5)
    d.concept(SOME, named(1), 5)
    d.concept(SOME, named(0), 6)
    d.concept(SOME, named(1), 7)
    lent = lend(d, [(0,), (1,), (0, 1)], (1, 0, 1), (0, 1, 1), (0, 2, 0))
    case('some', d, lent, 'ftf ttf 888 ttt ftt ttt ftf ttt')
    # Role 0 has 0 to 1 and 1 to 2; body chains of one, two and three steps.
    d = Made(1).atoms()
    for body in (0, 1, 2, 3):
        d.concept(SOME, named(0), body)
    case('some-nested', d, lend(d, [(), (), (), (0,)], (0, 0, 1), (0, 1, 2), (0, 2, 3)), 'ffft fftf ftff tfff ffff')
    case('some-nested-on-a-cycle', d, lend(d, [(0,), ()], (0, 0, 1), (0, 1, 0)), 'tf ft tf ft tf')
    case('some-nested-on-a-loop', d, lend(d, [(0,), ()], (0, 0, 0), (0, 1, 1)), 'tf tf tf tf tf')

    d = Made(2).atoms()
    no, either = d.concept(NOT, 0), d.concept(OR, [])
    d.concept(AND, [no, 0])           # 4
    d.concept(AND, [0, no])           # 5
    d.concept(AND, [no, either])      # 6: the last tag
    d.concept(AND, [either, no])      # 7
    d.concept(AND, [no, either, 0])   # 8: false after unresolved ones
    d.concept(AND, [no, no])          # 9
    d.concept(AND, [0])               # 10
    d.concept(AND, [0, 1, 0])         # 11
    d.concept(AND, [6, 0])            # 12: an And in an And
    d.concept(AND, [7, 6, 0])         # 13
    d.concept(AND, [6, 7])            # 14
    d.concept(AND, [10, 5, either])   # 15
    case('and', d, lend(d, [(), (0,), (0, 1)]),
         'f55 f55 777 555 f77 555 ftt fft f77 f77 555 f77')
    d.concept(SOME, named(0), no)     # 16
    d.concept(SOME, named(0), 5)      # 17: And(0, Not)
    d.concept(SOME, named(0), 6)      # 18: And(Not, Or)
    d.concept(AND, [18, 17])          # 19
    d.concept(AND, [17, 1])           # 20
    d.concept(SOME, named(0), 20)     # 21
    # Successors of 0 are 1 {} and 2 {0}, of 1 is 3 {0, 1}, of 3 is 2.
    lent = lend(d, [(), (), (0,), (0, 1)], (0, 0, 2), (0, 0, 1), (0, 1, 3), (0, 3, 2))
    case('some-unresolved', d, lent, '55f5 55f5 77f7 55f5 fff5 f5ff')
    # The trap of section 4: the first successor is unresolved, the second false; then the other way round.
    d = Made(1).atoms()
    d.concept(NOT, 0)
    d.concept(AND, [0, 1])
    d.concept(SOME, named(0), 2)
    case('some-unresolved-then-false', d, lend(d, [(), (0,), ()], (0, 0, 1), (0, 0, 2)), '5ff')
    case('some-false-then-unresolved', d, lend(d, [(), (), (0,)], (0, 0, 1), (0, 0, 2)), '5ff')
    d = Made(1).atoms()
    d.concept(SOME, named(0), 0)
    case('some-false-then-true', d, lend(d, [(), (), (0,)], (0, 0, 1), (0, 0, 2)), 'tff')
    case('some-true-then-false', d, lend(d, [(), (0,), ()], (0, 0, 1), (0, 0, 2)), 'tff')
    case('some-repeated-edges', d, lend(d, [(), (0,)], (0, 0, 1), (0, 0, 1), (0, 0, 1)), 'tf')
    # Deep nesting, and Ands that list the one before them twice.
    for name, tag, bottom, judged in (('and', AND, (ATOMIC, 0), 'tf'), ('and-unresolved', AND, (NOMINAL, 0), '33'),
                                      ('some', SOME, (ATOMIC, 0), 'tf'), ('some-unresolved', SOME, (NOMINAL, 0), '33')):
        d = Made(1)
        d.concept(*bottom)
        for body in range(300):
            d.concept(tag, *([[body]] if tag == AND else [named(0), body]))
        case('nested-300-' + name, d, lend(d, [(0,), ()], (0, 0, 0), (0, 1, 1)), judged)
    d = Made(1).atoms()
    for body in range(10):
        d.concept(AND, [body, body])
    case('and-shared', d, lend(d, [(0,), ()]), 'tf tf')
    # Cardinalities, individuals and inverse words of any value are unresolved all the same.
    d = Made(1).atoms()
    for fields in ((NOMINAL, 0), (NOMINAL, BIG), (SELF, 1), (SOME, 1, 0), (ALL, 0, 0), (ALL, 1, 0), (MIN, 0, 0, 0),
                   (MIN, BIG, 1, 0), (MAX, 0, 0, 0), (MAX, BIG, 1, 0), (NOT, 0), (OR, [0]), (OR, [0, 0])):
        d.concept(*fields)
    case('never-judged-constructs', d, lend(d, [(0,), ()], (0, 0, 1)), '33 33 44 88 99 99 aa aa bb bb 55 77 77')


def sub_roles():
    """Reading 21: rows one level deep, as they stand. Role 1 is over 0, and role 2 over 1 but not over 0."""
    d = Made(1, ((0,), (0, 1), (1, 2))).atoms()
    for role in range(3):
        d.concept(SOME, named(role), 0)
    for sub, sup in ((0, 1), (0, 2), (1, 2), (1, 0), (2, 0), (2, 1)):
        d.axiom(SUB_ROLE, named(sub), named(sup))
    for role in range(3):
        d.axiom(SYMMETRIC, named(role))
    case('sub-roles-edge-of-0', d, lend(d, [(0,), (0,)], (0, 0, 1)), 'tf tf ff',
         HOLDS, fails(0, 1), fails(0, 1), HOLDS, HOLDS, HOLDS, guarded(0), guarded(1), HOLDS)
    case('sub-roles-edge-of-1', d, lend(d, [(0,), (0,)], (1, 0, 1)), 'ff tf tf',
         HOLDS, HOLDS, HOLDS, fails(0, 1), fails(0, 1), HOLDS, HOLDS, guarded(1), guarded(2))
    case('sub-roles-edge-of-2', d, lend(d, [(0,), (0,)], (2, 0, 1)), 'ff ff tf',
         HOLDS, HOLDS, HOLDS, HOLDS, fails(0, 1), fails(0, 1), HOLDS, HOLDS, guarded(2))
    # A cycle of rows, as equivalent roles have it, and a row that lists a higher role.
    d = Made(1, ((0, 1), (0, 1), (2,)))
    d.axiom(SAME_ROLES, [0, 2])
    d.axiom(SAME_ROLES, [0, 4])
    d.axiom(SAME_ROLES, [0, 2, 4])
    d.axiom(CHAIN, [0, 2], 4)
    case('sub-roles-both-ways', d, lend(d, [(), (), ()], (1, 1, 2), (0, 0, 1)), '',
         HOLDS, fails(0, 1), fails(0, 1), fails(0, 1, 2))


def sub_class_of():
    """Readings 22 and 23."""
    d = Made(2).atoms()
    no, either, top, bot = d.concept(NOT, 0), d.concept(OR, []), d.concept(TOP), d.concept(BOT)
    pairs = ((no, either, open_concept(OR)), (either, no, open_concept(NOT)), (no, no, open_concept(NOT)),
             (no, bot, open_concept(NOT)), (no, top, HOLDS), (bot, no, HOLDS), (top, no, open_concept(NOT)),
             (top, bot, fails(0)), (bot, top, HOLDS), (top, top, HOLDS), (bot, bot, HOLDS), (0, no, open_concept(NOT)),
             (1, no, HOLDS), (no, 0, HOLDS), (no, 1, open_concept(NOT)), (0, 1, fails(0)), (1, 0, HOLDS), (0, 0, HOLDS))
    for sub, sup, _ in pairs:
        d.axiom(SUB_CLASS, sub, sup)
    case('sub-class-at-one-element', d, lend(d, [(0,)]), '', *[verdict for _, _, verdict in pairs])
    # Superclass And(0, Or) is Or's tag in {0} and false elsewhere, where the subclass's tag is named.
    d = Made(2).atoms()
    no, either = d.concept(NOT, 1), d.concept(OR, [])
    d.axiom(SUB_CLASS, no, d.concept(AND, [0, either]))
    case('sub-class-last-element-sub', d, lend(d, [(0,), ()]), '7f', open_concept(NOT))
    case('sub-class-last-element-sup', d, lend(d, [(), (0,)]), 'f7', open_concept(OR))
    case('sub-class-middle-element-sup', d, lend(d, [(), (0,), ()]), 'f7f', open_concept(NOT))
    # A failing element against unresolved ones: subclass Top; And(0, Not) is unresolved in {0}, false elsewhere.
    d = Made(2).atoms()
    d.axiom(SUB_CLASS, d.concept(TOP), d.concept(AND, [0, d.concept(NOT, 0)]))
    case('sub-class-unresolved-then-fails', d, lend(d, [(0,), (0,), ()]), '55f', fails(2))
    case('sub-class-fails-then-unresolved', d, lend(d, [(), (0,), (0,)]), 'f55', fails(0))
    case('sub-class-between-unresolved', d, lend(d, [(0,), (), (0,), ()]), '5f5f', fails(1))
    # Unresolved first, then an element that is fine.
    d = Made(2).atoms()
    d.axiom(SUB_CLASS, 0, d.concept(NOT, 0))
    case('sub-class-unresolved-then-fine', d, lend(d, [(0,), (), (1,)]), '555', open_concept(NOT))
    case('sub-class-fine-only', d, lend(d, [(), (1,)]), '55', HOLDS)
    d = Made(2).atoms().with_axiom(SUB_CLASS, 0, 1)
    case('sub-class-fails-at-the-lowest', d, lend(d, [(1,), (0, 1), (0,), (0,)]), '', fails(2))
    case('sub-class-holds', d, lend(d, [(1,), (0, 1), ()]), '', HOLDS)


def members():
    """Reading 26, and the tags and counts of tags 1 and 2."""
    def deck(*lists):
        d = Made(3).atoms()         # 0, 1, 2
        d.concept(NOT, 0)           # 3
        d.concept(OR, [])           # 4
        d.concept(TOP)              # 5
        d.concept(BOT)              # 6
        d.concept(NOT, 0)           # 7: equal to 3 by another number
        d.concept(AND, [1, 3])      # 8
        for listed in lists:
            d.axiom(EQUIVALENT, listed)
            d.axiom(DISJOINT, listed)
        return d

    no, either = open_concept(NOT), open_concept(OR)
    rows = (([], HOLDS, HOLDS), ([3], HOLDS, HOLDS), ([5], HOLDS, HOLDS), ([6], HOLDS, HOLDS),
            ([3, 3], no, no), ([3, 7], no, no), ([3, 4], either, either), ([4, 3], no, no), ([4, 3, 4], either, either),
            ([3, 5], no, no), ([5, 3], no, no), ([3, 6], no, HOLDS), ([6, 3], no, HOLDS), ([6, 3, 6], no, HOLDS),
            ([5, 5], HOLDS, fails(0)), ([6, 6], HOLDS, HOLDS), ([5, 6], fails(0), HOLDS), ([6, 5], fails(0), HOLDS),
            ([5, 3, 6], fails(0), no), ([3, 5, 6, 4], fails(0), either), ([5, 3, 5], no, fails(0)),
            ([3, 5, 5, 4], either, fails(0)), ([0], HOLDS, HOLDS), ([0, 0], HOLDS, fails(0)), ([0, 1], fails(0), HOLDS),
            ([1, 1, 1], HOLDS, HOLDS), ([0, 5, 0], HOLDS, fails(0)), ([4, 1, 3, 1], no, no))
    case('members-at-one-element', deck(*[row[0] for row in rows]), lend(deck(), [(0,)]), '',
         *[verdict for row in rows for verdict in row[1:]])
    case('members-without-elements', deck(*[row[0] for row in rows]), lend(deck(), []), '', *[HOLDS] * 2 * len(rows))
    # Over several elements. Member 8 is unresolved in {1}, false elsewhere.
    lists = ([1, 8], [0, 8], [0, 1], [8, 4], [2, 8, 0], [8, 0, 1])
    # {1}: t5, f5, ft, 57, f5f, 5ft; {0}: ff, tf, tf, f7, fft, ftf
    case('members-unresolved-then-fails', deck(*lists), lend(deck(), [(1,), (0,)]), '',
         no, no, fails(1), HOLDS, fails(0), HOLDS, either, either, fails(1), HOLDS, fails(0), no)
    case('members-fails-then-unresolved', deck(*lists), lend(deck(), [(0,), (1,)]), '',
         no, no, fails(0), HOLDS, fails(0), HOLDS, either, either, fails(0), HOLDS, fails(0), no)
    # The last element noted counts: And(0, Or) with Or unresolved in {0}, And(1, Not) in {1}.
    d = Made(2).atoms()
    no, either = d.concept(NOT, 0), d.concept(OR, [])
    two = [d.concept(AND, [0, either]), d.concept(AND, [1, no])]
    d.axiom(EQUIVALENT, two)
    d.axiom(DISJOINT, two + [d.concept(TOP)])
    case('members-last-element-not', d, lend(d, [(0,), (1,)]), '7f f5 tt', open_concept(NOT), open_concept(NOT))
    case('members-last-element-or', d, lend(d, [(1,), (0,)]), 'f7 5f tt', open_concept(OR), open_concept(OR))
    case('members-last-element-both', d, lend(d, [(0,), (0, 1), ()]), '77f f5f ttt', open_concept(NOT),
         open_concept(NOT))
    d = Made(2).atoms().with_axiom(DISJOINT, [0, 1])
    d.axiom(EQUIVALENT, [0, 1])
    case('members-fail-at-the-lowest', d, lend(d, [(), (0,), (0, 1), (1,), (0, 1)]), '', fails(2), fails(1))
    case('members-two-members-at-two-elements', d, lend(d, [(0,), (1,), ()]), '', HOLDS, fails(0))


def always_open():
    """Reading 24: axioms that are never judged, with named and with inverse words, and over no elements."""
    d = Made(2, ((0,), (1,))).atoms()
    for word in (named(0), inverse(1)):
        for tag in range(ASYMMETRIC, INVERSE_FUNCTIONAL + 1):
            d.axiom(tag, word)
        d.axiom(DISJOINT_ROLES, [word, named(1)])
        d.axiom(ROLE_OF, word, 0, 1)
        d.axiom(NOT_ROLE_OF, word, 0, 1)
    d.axiom(DISJOINT_ROLES, [])
    d.axiom(DISJOINT_ROLES, [inverse(0)])
    d.axiom(DISJOINT_ROLES, [inverse(0), inverse(0), named(1)])
    d.axiom(UNION, 0, [])
    d.axiom(UNION, 1, [0, 1])
    d.axiom(CLASS_OF, 0, 0)
    d.axiom(CLASS_OF, 1, BIG)
    d.axiom(SAME, [])
    d.axiom(SAME, [0, BIG])
    d.axiom(DIFFERENT, [])
    d.axiom(DIFFERENT, [3, 3])
    tags = [record[0] for record in d.axioms]
    d.axiom(A_CLASS, 1)
    d.axiom(A_ROLE, 1)
    d.axiom(AN_INDIVIDUAL, BIG)
    expected = [open_axiom(tag) for tag in tags] + [HOLDS] * 3
    case('never-judged-axioms', d, lend(d, [(0,), (1,)], (0, 0, 1)), '', *expected)
    case('never-judged-axioms-without-elements', d, lend(d, []), '', *expected)


def inverse_words():
    """Reading 24: axioms that an inverse word opens, edges or not."""
    d = Made(1, ((0,), (1,))).atoms()
    for one, other in ((1, 0), (0, 1), (1, 1), (1, 3), (3, 0)):
        d.axiom(SUB_ROLE, one, other)
        d.axiom(INVERSE_ROLES, one, other)
    for words in ([1], [0, 1], [1, 0], [0, 0, 3], [1, 1]):
        d.axiom(SAME_ROLES, words)
    for tag in (TRANSITIVE, SYMMETRIC):
        d.axiom(tag, 1)
        d.axiom(tag, 3)
    d.axiom(DOMAIN, 1, 0)
    d.axiom(RANGE, 3, 0)
    for links, sup in (([1, 0], 0), ([0, 1], 0), ([0, 0], 1), ([1, 1], 1), ([2, 3], 0)):
        d.axiom(CHAIN, links, sup)
    expected = [open_axiom(record[0], 1) for record in d.axioms]
    for links, sup in (([], 0), ([0], 0), ([0, 0, 0], 0), ([], 1), ([1], 0), ([0], 1), ([1, 0, 1], 0), ([0, 0, 0], 3),
                       ([1, 1, 1, 1], 1)):
        d.axiom(CHAIN, links, sup)
        expected.append(open_axiom(CHAIN, 2))
    case('inverse-words-without-elements', d, lend(d, []), '', *expected)
    case('inverse-words-without-edges', d, lend(d, [(0,), ()]), '', *expected)
    case('inverse-words-with-edges', d, lend(d, [(0,), ()], (0, 0, 1), (1, 1, 1)), '', *expected)


def guards():
    """Reading 25: roles 0, 1, 2, with 2 over 0 and 2."""
    d = Made(1, ((0,), (1,), (0, 2)))
    for role in range(3):
        d.axiom(SYMMETRIC, named(role))
    for one, other in ((0, 1), (1, 0), (1, 2), (2, 1), (0, 2), (2, 0), (1, 1), (2, 2)):
        d.axiom(INVERSE_ROLES, named(one), named(other))
    g = guarded
    case('guarded-no-edges', d, lend(d, [(), ()]), '', *[HOLDS] * 11)
    case('guarded-no-elements', d, lend(d, []), '', *[HOLDS] * 11)
    case('guarded-sub-role-edge', d, lend(d, [(), ()], (0, 0, 1)), '',
         g(0), HOLDS, g(2), g(0), g(0), g(2), g(2), g(0), g(2), HOLDS, g(2))
    case('guarded-edge-of-1', d, lend(d, [(), ()], (1, 1, 1)), '',
         HOLDS, g(1), HOLDS, g(1), g(1), g(1), g(1), HOLDS, HOLDS, g(1), HOLDS)
    case('guarded-edge-of-2', d, lend(d, [(), ()], (2, 0, 1)), '',
         HOLDS, HOLDS, g(2), HOLDS, HOLDS, g(2), g(2), g(2), g(2), HOLDS, g(2))
    case('guarded-true-all-the-same', d, lend(d, [(), ()], (0, 0, 1), (1, 1, 0), (0, 0, 0), (0, 1, 1), (0, 1, 0)), '',
         g(0), g(1), g(2), g(0), g(1), g(1), g(2), g(0), g(2), g(1), g(2))
    case('guarded-edge-not-used', d, lend(d, [(), ()], (1, 0, 0))._replace(edge_count=0), '', *[HOLDS] * 11)


def domains():
    d = Made(2, ((0,), (0, 1))).atoms()         # 0, 1
    d.concept(NOT, 0)                           # 2
    d.concept(AND, [0, 2])                      # 3: unresolved in {0}, else false
    d.concept(OR, [])                           # 4
    d.concept(AND, [1, 4])                      # 5: unresolved in {1}, else false
    d.concept(TOP)                              # 6
    d.concept(BOT)                              # 7
    d.concept(SOME, named(0), 1)                # 8
    for tag in (DOMAIN, RANGE):
        for role in (0, 1):
            for concept in (0, 1, 3, 5, 6, 7, 8):
                d.axiom(tag, named(role), concept)
    no, either = open_concept(NOT), open_concept(OR)
    case('domain-without-edges', d, lend(d, [(0,), (1,)]), '', *[HOLDS] * 28)
    # Role 0: 0 to 1. Role 1 also: 1 to 0. Element 0 is {0}, and 1 is {1}.
    case('domain', d, lend(d, [(0,), (1,)], (1, 1, 0), (0, 0, 1)), '',
         HOLDS, fails(0), no, fails(0), HOLDS, fails(0), HOLDS,
         fails(1), fails(0), fails(1), fails(0), HOLDS, fails(0), fails(1),
         fails(1), HOLDS, fails(1), either, HOLDS, fails(1), fails(1),
         fails(1), fails(0), fails(1), fails(0), HOLDS, fails(1), fails(1))
    # The pairs of role 1 by from then to are (0, 3), (1, 2), (2, 0), (3, 1), listed in another order.
    lent = lend(d, [(0,), (1,), (0,), (1,)], (1, 3, 1), (0, 2, 0), (1, 0, 3), (0, 1, 2), (1, 3, 1), (0, 2, 0))
    case('domain-order-of-pairs', d, lent, '',
         fails(1), fails(2), fails(1), fails(2), HOLDS, fails(1), fails(1),
         fails(1), fails(0), fails(1), fails(0), HOLDS, fails(0), fails(0),
         HOLDS, fails(2), no, fails(2), HOLDS, fails(2), fails(2),
         fails(3), fails(2), fails(3), fails(2), HOLDS, fails(3), fails(3))
    # A concept names one tag wherever it is unresolved (reading 34), so there is no first and last pair to tell apart.
    d = Made(2).atoms()
    no, either = d.concept(NOT, 0), d.concept(OR, [])
    d.axiom(DOMAIN, 0, no)
    d.axiom(RANGE, 0, either)
    d.axiom(DOMAIN, 0, d.concept(AND, [0, no]))
    d.axiom(RANGE, 0, d.concept(AND, [1, either]))
    case('domain-unresolved', d, lend(d, [(0,), (0, 1)], (0, 0, 1), (0, 1, 1)), '', open_concept(NOT), open_concept(OR),
         open_concept(NOT), open_concept(OR))
    case('domain-unresolved-then-fails', d, lend(d, [(0,), (1,)], (0, 0, 1), (0, 1, 0)), '', open_concept(NOT),
         open_concept(OR), fails(1), fails(0))
    # The to of the first pair, not the lowest to; and a from that has two pairs.
    d = Made(1).atoms()
    d.axiom(RANGE, 0, 0)
    d.axiom(DOMAIN, 0, 0)
    case('range-by-from-then-to', d, lend(d, [(), (), (), ()], (0, 2, 0), (0, 1, 3), (0, 1, 2)), '', fails(2), fails(1))


def role_axioms():
    """Witnesses by from then to, whatever the order of the edges, with repeated edges."""
    d = Made(0, ((0,), (1,), (0, 2)))
    d.axiom(SUB_ROLE, 0, 2)                       # 0 under 1
    d.axiom(SUB_ROLE, 2, 0)
    d.axiom(SUB_ROLE, 0, 4)
    d.axiom(SUB_ROLE, 4, 0)
    d.axiom(SUB_ROLE, 0, 0)
    case('sub-role-no-edges', d, lend(d, [(), ()]), '', *[HOLDS] * 5)
    case('sub-role-order', d, lend(d, [()] * 4, (0, 3, 0), (0, 1, 2), (0, 1, 1), (0, 3, 0), (1, 1, 1), (0, 1, 1)), '',
         fails(1, 2), HOLDS, HOLDS, HOLDS, HOLDS)
    case('sub-role-order-other', d, lend(d, [()] * 4, (1, 2, 3), (1, 2, 0), (1, 3, 0), (0, 2, 0), (2, 0, 1)), '',
         HOLDS, fails(2, 3), HOLDS, fails(0, 1), HOLDS)
    case('sub-role-turned', d, lend(d, [()] * 2, (0, 0, 1), (1, 1, 0)), '',
         fails(0, 1), fails(1, 0), HOLDS, HOLDS, HOLDS)

    d = Made(0, ((0,), (1,), (2,), (0, 3)))
    d.axiom(CHAIN, [0, 2], 4)
    d.axiom(CHAIN, [2, 0], 4)
    d.axiom(CHAIN, [0, 0], 6)
    d.axiom(CHAIN, [0, 0], 0)
    d.axiom(TRANSITIVE, 0)
    d.axiom(TRANSITIVE, 6)
    # Role 0: 0 to 1, 2 to 1; role 1: 1 to 3.
    case('chain', d, lend(d, [()] * 4, (1, 1, 3), (0, 2, 1), (0, 0, 1)), '',
         fails(0, 1, 3), HOLDS, HOLDS, HOLDS, HOLDS, HOLDS)
    case('chain-one-end-there', d, lend(d, [()] * 4, (2, 0, 3), (1, 1, 3), (0, 2, 1), (0, 0, 1)), '',
         fails(2, 1, 3), HOLDS, HOLDS, HOLDS, HOLDS, HOLDS)
    case('chain-holds', d, lend(d, [()] * 4, (2, 0, 3), (2, 2, 3), (1, 1, 3), (0, 2, 1), (0, 0, 1)), '', *[HOLDS] * 6)
    # First pairs (0, 1), (0, 2); second links 1 to 3, 2 to 0: (0, 2, 0) is the lower end but the later first pair.
    case('chain-first-link-first', d, lend(d, [()] * 4, (1, 2, 0), (1, 1, 3), (0, 0, 2), (0, 0, 1)), '',
         fails(0, 1, 3), fails(2, 0, 1), HOLDS, HOLDS, HOLDS, HOLDS)
    case('chain-second-link-by-to', d, lend(d, [()] * 4, (1, 1, 3), (1, 1, 2), (0, 0, 1), (1, 1, 3)), '',
         fails(0, 1, 2), HOLDS, HOLDS, HOLDS, HOLDS, HOLDS)
    case('chain-other-way', d, lend(d, [()] * 3, (1, 0, 1), (0, 1, 2)), '',
         HOLDS, fails(0, 1, 2), HOLDS, HOLDS, HOLDS, HOLDS)
    case('transitive', d, lend(d, [()] * 3, (0, 1, 2), (0, 0, 1)), '',
         HOLDS, HOLDS, fails(0, 1, 2), fails(0, 1, 2), fails(0, 1, 2), fails(0, 1, 2))
    # The edge that is missing under role 0 is there under role 3.
    case('transitive-by-sub-role', d, lend(d, [()] * 3, (3, 0, 2), (0, 1, 2), (0, 0, 1)), '',
         HOLDS, HOLDS, HOLDS, fails(0, 1, 2), fails(0, 1, 2), HOLDS)
    case('transitive-loop', d, lend(d, [()] * 2, (0, 1, 1)), '', *[HOLDS] * 6)
    case('transitive-two-cycle', d, lend(d, [()] * 2, (0, 1, 0), (0, 0, 1)), '',
         HOLDS, HOLDS, *[fails(0, 1, 0)] * 4)
    case('transitive-two-cycle-one-loop', d, lend(d, [()] * 2, (0, 1, 0), (0, 0, 1), (0, 0, 0)), '',
         HOLDS, HOLDS, *[fails(1, 0, 1)] * 4)
    case('transitive-full', d, lend(d, [()] * 2, (0, 1, 0), (0, 0, 1), (0, 1, 1), (0, 0, 0)), '', *[HOLDS] * 6)
    # Both legs of role 3, one of its sub-role 0 and one of its own.
    case('transitive-legs-of-two-roles', d, lend(d, [()] * 3, (3, 1, 2), (0, 0, 1)), '',
         HOLDS, HOLDS, HOLDS, HOLDS, HOLDS, fails(0, 1, 2))

    d = Made(0, ((0,), (1,), (2,)))
    for words in ([], [0], [0, 0], [0, 2], [2, 0], [0, 2, 4], [4, 2, 0], [0, 4, 0, 4]):
        d.axiom(SAME_ROLES, words)
    case('same-roles-no-edges', d, lend(d, [()]), '', *[HOLDS] * 8)
    # Role 0: (3, 3); role 1: (0, 0); role 2: both. The order of members comes before that of pairs.
    lent = lend(d, [()] * 4, (0, 3, 3), (1, 0, 0), (2, 3, 3), (2, 0, 0))
    case('same-roles-members-first', d, lent, '', HOLDS, HOLDS, HOLDS, fails(3, 3), fails(0, 0), fails(3, 3),
         fails(3, 3), fails(0, 0))
    # Role 0: (2, 3); role 1: (0, 1), (2, 3); role 2: (2, 3).
    lent = lend(d, [()] * 4, (1, 2, 3), (1, 0, 1), (0, 2, 3), (2, 2, 3), (1, 0, 1))
    case('same-roles-later-member', d, lent, '', HOLDS, HOLDS, HOLDS, fails(0, 1), fails(0, 1), fails(0, 1),
         fails(0, 1), HOLDS)
    lent = lend(d, [()] * 4, (0, 3, 0), (0, 1, 2), (0, 1, 1), (1, 1, 1), (2, 1, 1), (2, 1, 2), (2, 3, 0))
    case('same-roles-pairs-in-order', d, lent, '', HOLDS, HOLDS, HOLDS, fails(1, 2), fails(1, 2), fails(1, 2),
         fails(1, 2), HOLDS)


def empty_structures():
    d = base()
    expected = [HOLDS if tag in (0, 1, 2, 23, 24, 25) else open_axiom(tag) for tag in range(26)]
    for tag, why in ((4, 1), (5, 1), (6, 1), (8, 1), (9, 1), (10, 1), (11, 1), (12, 1)):
        expected[tag] = open_axiom(tag, why)
    case('every-axiom-tag-over-nothing', d, lend(d, []), '', *expected)
    case('every-axiom-tag-without-edges', d, lend(d, [(1,), (0,)]), '',
         HOLDS, open_concept(MAX), open_concept(NOT), *expected[3:])
    d = Made(0, ())
    case('nothing-at-all', d, lend(d, []), '')
    d.axiom(DISJOINT, [])
    d.concept(TOP)
    d.concept(AND, [])
    d.axiom(SUB_CLASS, 0, 1)
    d.axiom(AN_INDIVIDUAL, 0)
    case('no-classes-no-roles-no-elements', d, lend(d, []), '', HOLDS, HOLDS, HOLDS)
    case('no-classes-no-roles-three-elements', d, lend(d, [(), (), ()]), 'ttt ttt', HOLDS, HOLDS, HOLDS)


def widths():
    """The edges of label words: no class, 1, 63, 64, 65, 128 and 129."""
    d = Made(0)
    d.concept(TOP)
    d.concept(SOME, 0, 0)
    d.axiom(SUB_CLASS, 0, 1)
    case('n-0', d, lend(d, [(), ()], (0, 0, 1)), 'tt tf', fails(1))
    case('n-0-labels-lent', d, lend(d, [(), ()], (0, 0, 1))._replace(labels=[(1 << 64) - 1]), 'tt tf', fails(1))
    for n in (1, 63, 64, 65, 128, 129):
        d = Made(n)
        for k in (0, n // 2, n - 1):
            d.concept(ATOMIC, k)
        d.axiom(SUB_CLASS, 2, 1)
        lent = lend(d, [(), (n - 1,), (0,), range(n)])
        case('n-%d' % n, d, lent, 'fttt fttt fttt' if n == 1 else 'fftt ffft ftft', HOLDS if n == 1 else fails(1))
        width = (n + 63) // 64
        case('n-%d-longer-buffer' % n, d, lent._replace(labels=lent.labels + [(1 << 64) - 1] * (width + 1)),
             'fttt fttt fttt' if n == 1 else 'fftt ffft ftft')
        refused('n-%d-short-buffer' % n, 10, d, lent._replace(labels=lent.labels[:-1]))
        if n % 64:
            for place in (0, 3):
                for bit in sorted({n % 64, 63}):
                    labels = list(lent.labels)
                    labels[place * width + width - 1] |= 1 << bit
                    refused('n-%d-bit-%d-at-element-%d' % (n, bit, place), 10, d, lent._replace(labels=labels))
            stray = lent.labels[:-1] + [lent.labels[-1] | 1 << 63]
            case('n-%d-stray-bit-past-the-count' % n, d, lent._replace(labels=stray, elements=3),
                 'ftt ftt ftt' if n == 1 else 'fft fff ftf')
    # Each bit of two words, at an element in the middle.
    d = Made(70).atoms()
    lent = lend(d, [(), range(0, 70, 3), ()])
    case('n-70-every-third', d, lent, ' '.join('ftf' if k % 3 == 0 else 'fff' for k in range(70)))


def many_elements():
    d = Made(0)
    d.concept(TOP)
    d.concept(SOME, 0, 0)
    d.axiom(SUB_CLASS, 1, d.concept(BOT))
    d.axiom(SUB_CLASS, 0, 0)
    d.axiom(RANGE, 0, 2)
    lent = Lent([], 65536, [(0, 65535, 0), (0, 65535, 65535)], 2)
    asked('65536-elements', d, lent, Ask(0, 2, 65532, 4, 0, 3), 'tttt ffft', fails(65535), HOLDS, fails(0))
    refused('65536-elements-and-one-more', 10, d, lent._replace(elements=65537))
    refused('65536-elements-asked-past', 11, d, lent, element=65536, axiom=None)
    refused('edge-to-65536', 10, d, lent._replace(edges=[(0, 0, 65535), (0, 0, 65536)]))
    for elements in (1 << 17, 1 << 26, 1 << 31, BIG):
        refused('elements-%d' % elements, 10, d, lent._replace(elements=elements))
    # With labels: the last element alone has the class.
    d = Made(1).atoms()
    d.axiom(SUB_CLASS, 0, d.concept(BOT))
    lent = Lent([0] * 65535 + [1], 65536, [(0, 65535, 65535)], 1)
    asked('65536-labels', d, lent, Ask(0, 1, 65532, 4, 0, 1), 'ffft', fails(65535))
    refused('65536-labels-last-bit', 10, d, lent._replace(labels=[0] * 65535 + [2]))
    refused('65536-labels-one-short', 10, d, lent._replace(labels=[0] * 65535))
    refused('65537-labels', 10, d, lent._replace(labels=[0] * 65537, elements=65537))
    d = Made(65).atoms()
    d.axiom(A_CLASS, 0)
    for elements in (1 << 31, (1 << 31) + 1, BIG):
        refused('two-words-elements-%d' % elements, 10, d, Lent([0] * 4, elements, [], 0))


def foreign():
    d = Made(2, ((0,), (0, 1))).atoms()
    d.axiom(A_CLASS, 0)
    d.axiom(SUB_CLASS, 0, 1)
    good = lend(d, [(0,), (1,), ()], (0, 0, 1), (1, 1, 2), (1, 2, 2))
    case('foreign-none', d, good, 'tff ftf', HOLDS, fails(0))
    for place in range(3):
        for what, edge in (('role-at-r', (2, 0, 0)), ('role-largest', (BIG, 0, 0)), ('from-at-count', (0, 3, 0)),
                           ('from-largest', (1, BIG, 0)), ('to-at-count', (0, 0, 3)), ('to-largest', (1, 0, BIG)),
                           ('all-three', (2, 3, 3))):
            edges = list(good.edges)
            edges[place] = edge
            refused('foreign-%s-%d' % (what, place), 10, d, good._replace(edges=edges))
            if place == 2:
                unused = good._replace(edges=edges, edge_count=2)
                case('foreign-%s-not-used' % what, d, unused, 'tff ftf', HOLDS, fails(0))
    refused('foreign-edge-count', 10, d, good._replace(edge_count=4))
    refused('foreign-edge-count-largest', 10, d, good._replace(edge_count=BIG))
    refused('foreign-edge-count-no-edges-lent', 10, d, good._replace(edges=[], edge_count=1))
    refused('foreign-edge-without-elements', 10, d, Lent([], 0, [(0, 0, 0)], 1))
    refused('foreign-short-labels', 10, d, good._replace(labels=good.labels[:2]))
    refused('foreign-no-labels', 10, d, good._replace(labels=[]))
    refused('foreign-bit-at-n', 10, d, good._replace(labels=[4, 0, 0]))
    refused('foreign-bit-63', 10, d, good._replace(labels=[0, 0, 1 << 63]))
    refused('foreign-all-bits', 10, d, good._replace(labels=[3, (1 << 64) - 1, 3]))
    case('foreign-all-bits-below-n', d, good._replace(labels=[3, 3, 3]), 'ttt ttt', HOLDS, HOLDS)
    case('foreign-bit-past-the-count', d, good._replace(labels=[1, 2, 0, 4, 1 << 63]), 'tff ftf', HOLDS, fails(0))
    case('foreign-fewer-elements-than-lent', d, good._replace(elements=2, edge_count=1), 'tf ft', HOLDS, fails(0))
    no_roles = Made(1, ()).atoms().with_axiom(A_CLASS, 0)
    refused('foreign-edge-without-roles', 10, no_roles, Lent([0], 1, [(0, 0, 0)], 1))
    case('edge-not-used-without-roles', no_roles, Lent([0], 1, [(0, 0, 0)], 0), 'f', HOLDS)
    # Labels need not be closed under rows, nor facts be there; unsatisfiable classes may stand in a label.
    w = deck_w()
    case('labels-are-free', w, Lent([2, 0], 2, [(0, 0, 0)], 1), 'ff tf ff', fails(0), fails(0))
    u = Made(2).atoms().with_axiom(SUB_CLASS, 0, 1)
    u.classes[1][0] = 1
    case('unsatisfiable-class-in-a-label', u, lend(u, [(1,), (0,)]), 'ft tf', fails(1))


def absent():
    d = Made(1).atoms()
    d.axiom(A_CLASS, 0)
    good = lend(d, [(0,), ()], (0, 0, 1))
    refused('absent-concept', 11, d, good, concept=1, axiom=1)
    refused('absent-concept-largest', 11, d, good, concept=BIG, axiom=BIG)
    refused('absent-element', 11, d, good, element=2, axiom=2)
    refused('absent-element-largest', 11, d, good, element=BIG, axiom=None)
    refused('absent-both', 11, d, good, concept=1, element=2, axiom=None)
    refused('absent-element-of-none', 11, d, lend(d, []), axiom=None)
    refused('absent-element-though-lent', 11, d, good._replace(elements=1, edge_count=0), element=1, axiom=None)
    refused('absent-all-of-an-empty-deck', 11, Deck(), Lent([], 1, [], 0))
    case('absent-not-the-last-ones', d, good, 'tf', HOLDS)
    # 10 before 11.
    foreign_ = (('labels', good._replace(labels=[1])), ('bit', good._replace(labels=[2, 0])),
                ('edge', good._replace(edges=[(1, 0, 0)])), ('count', good._replace(edge_count=2)),
                ('elements', good._replace(elements=65537)))
    for what, lent in foreign_:
        refused('absent-after-foreign-%s' % what, 10, d, lent, concept=1, element=BIG, axiom=1)
    # The deck's own number before both.
    b = base()
    words = b.bytes()
    decks = ((1, words[:-1]), (1, b''), (2, b.edited(('trailer', 0, 2)).bytes()),
             (3, b.edited(('trailer', 15, 262145)).bytes()), (4, b.edited(('trailer', 4, 1)).bytes()),
             (tag('classes', 0), b.edited(('classes', 0, 0, 2)).bytes()),
             (tag('axioms', 25), b.edited(('axioms', 25, 0, 26)).bytes()),
             (out('facts', 1), b.edited(('facts', 1, 0, 3)).bytes()), (6, b.edited(('lists', 1, 1)).bytes()),
             (7, b.edited(('concepts', 8, 2, 8)).bytes()),
             (filled('concepts', 0, 3), b.edited(('concepts', 0, 3, 1)).bytes()),
             (out('lists', 1), b.edited(('lists', 1, 9)).bytes()))
    for k, (expected, data) in enumerate(decks):
        first = stated(expected)[0]
        refused('deck-%d-first-%d' % (first, k), expected, data, Lent([], 3, [(9, 9, 9)], 2), concept=99, element=99,
                axiom=99)
        refused('deck-%d-alone-%d' % (first, k), expected, data, Lent([0, 0, 0], 3, [], 0))
        refused('deck-%d-over-nothing-%d' % (first, k), expected, data, Lent([], 0, [], 0))


# --- Random decks and structures ------------------------------------------------------------------------------------

# How often a tag is drawn.
CONCEPT_DRAWS = ((TOP, 1), (BOT, 1), (ATOMIC, 6), (NOMINAL, 1), (SELF, 1), (NOT, 2), (AND, 8), (OR, 2), (SOME, 9),
                 (ALL, 1), (MIN, 1), (MAX, 1))
AXIOM_DRAWS = [(tag, 1) for tag in range(26)] + [
    (SUB_CLASS, 9), (EQUIVALENT, 8), (DISJOINT, 8), (SUB_ROLE, 5), (CHAIN, 9), (SAME_ROLES, 5), (INVERSE_ROLES, 2),
    (DOMAIN, 5), (RANGE, 5), (TRANSITIVE, 4), (SYMMETRIC, 2)]


def draw(rng, draws):
    return rng.choices([tag for tag, _ in draws], [often for _, often in draws])[0]


def random_deck(rng, tags=()):
    """A small accepted deck, with axioms of these tags among its own."""
    n, r = rng.randint(2, 5), rng.randint(1, 3)
    d = Made(n, [sorted({k} | set(rng.sample(range(r), rng.choice((0, 0, 1, min(2, r)))))) for k in range(r)])
    for k in range(n):
        d.classes[k][0] = int(rng.random() < 0.1)
    add_terms(rng, d, (8, 18), CONCEPT_DRAWS, (8, 16), AXIOM_DRAWS, tags)
    return d


def add_terms(rng, d, concepts, concept_draws, axioms, axiom_draws, tags=()):
    """Adds between so many and so many concepts and axioms to a deck, as these draws say, and axioms of these tags."""
    n, r = len(d.classes), len(d.roles)

    def word():
        return 2 * rng.randrange(r) + int(rng.random() < inverse_often)

    def field(kind, count):
        return {'c': lambda: rng.randrange(count), 'k': lambda: rng.randrange(n), 'r': lambda: rng.randrange(r),
                'w': word, 'n': lambda: rng.choice((0, 1, 2, BIG))}[kind]()

    def fields(form, count, lengths):
        made = []
        for kind in form.replace('-', ''):
            if kind.isupper():
                length = rng.choice(lengths) if kind != 'C' or count else 0
                made.append([field(kind.lower(), count) for _ in range(length)])
            else:
                made.append(field(kind, count))
        return made

    # Most words are named: one in twelve of a concept's, one in twenty of an axiom's is inverse.
    inverse_often = 1 / 12
    for count in range(rng.randint(*concepts)):
        tag = draw(rng, concept_draws)
        while 'c' in CONCEPT_FORMS[tag] and not count:
            tag = draw(rng, concept_draws)
        d.concept(tag, *fields(CONCEPT_FORMS[tag], count, (0, 1, 2, 2, 2, 3)))
    count = len(d.concepts)
    inverse_often = 1 / 20
    for tag in [draw(rng, axiom_draws) for _ in range(rng.randint(*axioms))] + list(tags):
        d.axiom(tag, *fields(AXIOM_FORMS[tag], count, (2, 2, 2, 2, 2, 0, 1, 3) if tag == CHAIN else (0, 1, 2, 2, 3)))


def random_lent(rng, d, most=5):
    """A structure that fits the deck; sometimes more is lent than used."""
    n, r, elements = len(d.classes), len(d.roles), rng.randint(0, most)
    often = rng.choice((0.3, 0.5, 0.7, 0.9))
    labels = [[k for k in range(n) if rng.random() < often] for _ in range(elements)]
    edges = [(rng.randrange(r), rng.randrange(elements), rng.randrange(elements))
             for _ in range(rng.randint(0, 8) if elements else 0)]
    if edges and rng.random() < 0.4:
        edges.append(rng.choice(edges))
    lent = lend(d, labels, *edges)
    if rng.random() < 0.2:
        lent = lent._replace(labels=lent.labels + [rng.getrandbits(64) for _ in range(rng.randint(1, 3))])
    if rng.random() < 0.2:
        lent = lent._replace(edges=lent.edges + [(rng.choice((0, r, BIG)), 0, rng.choice((0, elements)))])
    return lent


def random_worlds():
    rng = random.Random(2026)
    for k in range(180):
        d = random_deck(rng, range(26) if k % 30 == 0 else ())
        everything('random-%d' % k, d, random_lent(rng, d))
    # One deck over several structures.
    for k in range(6):
        d = random_deck(rng)
        for j in range(5):
            everything('random-deck-%d-structure-%d' % (k, j), d, random_lent(rng, d))


def full_worlds():
    """Structures with most of the edges there, so that role axioms hold or fail late."""
    rng = random.Random(404)
    for k in range(40):
        d = Made(2, [sorted({k} | set(rng.sample(range(3), rng.choice((0, 0, 1))))) for k in range(3)]).atoms()
        d.concept(SOME, named(rng.randrange(3)), rng.randrange(2))
        for tag in (SUB_ROLE, SUB_ROLE, INVERSE_ROLES):
            d.axiom(tag, named(rng.randrange(3)), named(rng.randrange(3)))
        for _ in range(4):
            d.axiom(CHAIN, [named(rng.randrange(3)), named(rng.randrange(3))], named(rng.randrange(3)))
        for length in (2, 3):
            d.axiom(SAME_ROLES, [named(rng.randrange(3)) for _ in range(length)])
        for tag in (DOMAIN, RANGE):
            d.axiom(tag, named(rng.randrange(3)), rng.randrange(3))
        for role in range(3):
            d.axiom(TRANSITIVE, named(role))
        d.axiom(SYMMETRIC, named(rng.randrange(3)))
        elements, often = rng.randint(2, 4), rng.choice((0.75, 0.9, 0.96))
        edges = [(role, one, other) for role in range(3) for one in range(elements) for other in range(elements)
                 if rng.random() < often]
        rng.shuffle(edges)
        labels = [[k for k in range(2) if rng.random() < 0.8] for _ in range(elements)]
        everything('full-%d' % k, d, lend(d, labels, *edges))


def damaged_worlds():
    """A random structure with one number changed, or more, and questions near the counts."""
    rng = random.Random(77)
    for k in range(60):
        d = random_deck(rng)
        lent = random_lent(rng, d, most=3)
        labels, edges, elements, edge_count = list(lent.labels), list(lent.edges), lent.elements, lent.edge_count
        for _ in range(rng.choice((0, 1, 1, 2))):
            what = rng.randrange(5)
            if what == 0 and edges:
                place, part = rng.randrange(len(edges)), rng.randrange(3)
                edge = list(edges[place])
                edge[part] = rng.choice((len(d.roles), elements, elements + 1, BIG, 0, 1))
                edges[place] = tuple(edge)
            elif what == 1 and labels:
                labels[rng.randrange(len(labels))] ^= 1 << rng.choice((0, 1, len(d.classes), len(d.classes) - 1, 63))
            elif what == 2:
                elements = max(0, elements + rng.choice((-1, 1)))
            elif what == 3:
                edge_count = max(0, edge_count + rng.choice((-1, 1)))
            elif labels:
                labels.pop()
        near = Lent(labels, elements, edges, edge_count)
        concept, element, axiom = (rng.randrange(count + 1) for count in (len(d.concepts), elements, len(d.axioms)))
        ask = Ask(concept, 1, element, 1, axiom, 1)
        add('damaged-%d' % k, d, near, ask)


# --- Writing --------------------------------------------------------------------------------------------------------

def numbers(values):
    return b''.join(bytes([value]) if value < 255 else struct.pack('<BI', 255, value) for value in values)


def runs(words):
    """The runs of equal words: count, low half, high half."""
    made = []
    for word in words:
        if made and made[-1][1] == word:
            made[-1][0] += 1
        else:
            made.append([1, word])
    return [(count, word % (1 << 32), word >> 32) for count, word in made]


def encoded(name, deck, lent, ask):
    whole = padded(deck)
    made = runs(lent.labels)
    return (numbers([len(name)]) + name.encode() +
            numbers([len(deck), *struct.unpack('<%dI' % (len(whole) // 4), whole)]) +
            numbers([len(lent.labels), len(made)] + [part for run in made for part in run]) +
            numbers([lent.elements, len(lent.edges)] + [part for edge in lent.edges for part in edge]) +
            numbers([lent.edge_count, *ask]))


def make_cases():
    for make in (specimens, constructs, sub_roles, sub_class_of, members, always_open, inverse_words, guards, domains,
                 role_axioms, empty_structures, widths, many_elements, foreign, absent, random_worlds, full_worlds,
                 damaged_worlds):
        make()


def main():
    make_cases()
    given = b''.join(encoded(name, data, lent, ask) for name, data, lent, ask, _ in CASES)
    lines = [line for *_, found in CASES for line in found] + ['%d cases' % len(CASES)]
    wanted = ''.join(line + '\n' for line in lines).encode()
    pairs = sum(ask.concepts * ask.elements for _, _, _, ask, _ in CASES)
    axioms = sum(ask.axioms for _, _, _, ask, _ in CASES)
    finish('test_eval', given, wanted, '%d cases, %d judgements, %d verdicts, %d bytes of data'
           % (len(CASES), pairs, axioms, len(given)))


if __name__ == '__main__':
    main()
