#!/usr/bin/env python3
"""Times the program verify on decks that a verifier could stall on: nested Somes, shared Ands, wide lists. Prints for
each its bytes, its processor seconds (the best of three; stopped at 20) and the first line of the output. Exit
status 1: a deck of nested Somes or shared Ands took 0.05 s or more, or one of wide lists a second or more. Run it from
the repository's top after `(cd crates/verify && rt run <stdin)`.

    python3 tests/bench/stalls.py            the decks below
    python3 tests/bench/stalls.py 1 300      random decks of nested Somes only: a seed and how many
"""
import os
import random
import resource
import subprocess
import sys
import tempfile

sys.path.insert(0, os.path.join(os.path.dirname(os.path.abspath(__file__)), '..'))
from make_judgements import (AND, ATOMIC, BOT, DISJOINT, DOMAIN, EQUIVALENT, RANGE, SAME_ROLES, SUB_CLASS,  # noqa: E402
                             TRANSITIVE, named)
from make_runs import Rows, own                                                                           # noqa: E402

PROGRAM, MOST = 'crates/verify/out/verify', 65536
ELEMENTS, EDGES = 255, 1000          # the program's bounds
JUDGING, WIDE = 0.05, 1              # seconds that a deck has
STOPPED = 20                         # seconds at which it is stopped
missed = []


# --- Measuring ------------------------------------------------------------------------------------------------------

def once(file):
    """Processor seconds, and the first line; seconds alone if the program was stopped."""
    file.seek(0)
    limit = lambda: resource.setrlimit(resource.RLIMIT_CPU, (STOPPED, STOPPED))      # noqa: E731
    program = subprocess.Popen([PROGRAM], stdin=file, stdout=subprocess.PIPE, preexec_fn=limit)
    first = program.stdout.read().split(b'\n')[0].decode()
    _, status, used = os.wait4(program.pid, 0)
    program.returncode = status
    return used.ru_utime + used.ru_stime, first if status == 0 else None


def seconds(data):
    assert len(data) <= MOST
    with tempfile.TemporaryFile() as file:
        file.write(data)
        file.flush()
        best, first = once(file)
        for _ in range(2):
            if first is not None and best < STOPPED / 4:
                best = min(best, once(file)[0])
    return best, first


def measure(name, deck, limit):
    data = deck.bytes()
    best, first = seconds(data)
    late = first is None or best >= limit
    if late:
        missed.append(name)
    print('%-44s %6d bytes  %s%8.4f s%s  %s' % (name, len(data), '>' if first is None else ' ', best,
                                               '  over %s' % limit if late else '', first or 'stopped'), flush=True)


# --- Decks of judging -----------------------------------------------------------------------------------------------

def nest(d, depth, body, roles=(0,)):
    """Somes in each other."""
    for level in range(depth):
        body = d.some(roles[level % len(roles)], body)
    return body


def parallel_roles():
    """An edge of each of four roles under role 0, and Somes of role 0 that are nowhere true."""
    roles = [((0, 1, 2, 3), ()), ((1,), ()), ((2,), ()), ((3,), ())]
    d = Rows(own(1), roles=roles, facts=[(0, r, 0) for r in range(4)])
    return d.with_axiom(DOMAIN, named(0), nest(d, 15, d.concept(BOT)))


def dense(depth, elements, edges, seed=1):
    rng = random.Random(seed)
    pairs = rng.sample([(one, other) for one in range(elements) for other in range(elements)], edges)
    d = Rows(own(elements), facts=[(one, 0, other) for one, other in pairs])
    return d.with_axiom(DOMAIN, named(0), nest(d, depth, d.concept(BOT)))


def shared_ands(axiom):
    d = Rows(own(2), facts=[(0, 0, 0)])
    top = d.doubled(60, d.concept(ATOMIC, 0))
    if axiom == DISJOINT:
        return d.with_axiom(DISJOINT, [top, d.concept(ATOMIC, 1)])
    return d.with_axiom(axiom, named(0), top)


def linked(elements, edges):
    """Elements with random edges."""
    rng = random.Random(2)
    return Rows(own(elements), facts=[(rng.randrange(elements), 0, rng.randrange(elements)) for _ in range(edges)])


def somes_over_ands(turns, ands, elements, edges, true=False):
    """A Some over Ands over a Some, and so on; no Some is true, or all are that can be."""
    d = linked(elements, edges)
    body = d.both() if true else d.concept(BOT)
    for _ in range(turns):
        body = d.some(0, d.doubled(ands, body))
    return d.with_axiom(DOMAIN, named(0), body).with_axiom(RANGE, named(0), d.doubled(10, body))


def somes_apart(somes, gap, elements, edges):
    """Nested Somes with so many concepts from one to the next: their places in a table by number may coincide."""
    d = linked(elements, edges)
    body = d.concept(BOT)
    for _ in range(somes):
        for _ in range(gap - 1):
            d.concept(BOT)
        body = d.some(0, body)
    return d.with_axiom(DOMAIN, named(0), body)


def random_somes(seed):
    """Somes and Ands over each other, of some roles, over a few hundred elements; judged, not built."""
    rng = random.Random(seed)
    elements = rng.choice([60, 120, 200, 254])
    roles = rng.choice([1, 1, 2, 4])
    rows = [(tuple(range(r, roles)) if rng.random() < 0.5 else (r,), ()) for r in range(roles)]
    kinds = min(rng.choice([1, 2, 5]), ELEMENTS - elements)    # classes that elements share
    d = Rows([(k, elements + k % kinds) for k in range(elements)] + [(elements + k,) for k in range(kinds)], roles=rows)
    facts = {(rng.randrange(elements), rng.randrange(roles), rng.randrange(elements))
             for _ in range(rng.choice([300, 600, 950]))}
    d.facts = [list(fact) for fact in sorted(facts)]
    rng.shuffle(d.facts)
    concepts = [d.concept(BOT)]
    concepts += [d.concept(ATOMIC, rng.randrange(len(d.classes))) for _ in range(rng.choice([0, 0, 3]))]
    near, idle = rng.choice([1, 1, 2, 4]), rng.choice([0, 0, 2, 8, 15])
    for _ in range(rng.choice([8, 16, 30, 60, 100])):
        for _ in range(idle):
            d.concept(BOT)
        below = concepts[-near:] if rng.random() < 0.95 else concepts
        if rng.random() < rng.choice([0, 0.3]):
            concepts.append(d.both(*[rng.choice(below) for _ in range(2)]))
        else:
            concepts.append(d.some(rng.randrange(roles), rng.choice(below)))
    for concept in concepts[-rng.choice([1, 3, 20]):]:
        d.with_axiom(rng.choice([DOMAIN, RANGE]), named(rng.randrange(roles)), concept)
    return d


# --- Decks of wide lists --------------------------------------------------------------------------------------------

def equivalent(members, somes):
    """Members over 100 atoms, or over 50 and 50 Somes of them; every element has all classes below it."""
    d = Rows([tuple(range(k + 1)) for k in range(100)])
    d.atoms()
    concepts = list(range(50)) + [d.some(0, k) for k in range(50)] if somes else list(range(100))
    return d.with_axiom(EQUIVALENT, [concepts[k * 37 % 100] for k in range(members)])


def same_roles(words, edges):
    """Words of as many roles, which are all under each other."""
    d = Rows(own(100))
    row = d.row(*range(words))
    d.roles = [row + [0, 0] for _ in range(words)]
    d.facts = [[k % 100, k % words, k * 7 % 100] for k in range(edges)]
    return d.with_axiom(SAME_ROLES, [named(r) for r in range(words)])


def equal_transitive(axioms, length, ring):
    """A path, or a ring."""
    d = Rows(own(length), facts=[(k, 0, (k + 1) % length) for k in range(length if ring else length - 1)])
    for _ in range(axioms):
        d.with_axiom(TRANSITIVE, named(0))
    return d


def disjoint(axioms, members, classes):
    """One list; every element is in one of its concepts."""
    d = Rows(own(classes)).atoms()
    none = d.concept(BOT)
    row = d.row(*([0] + [none] * (members - 1)))
    d.axioms = [[DISJOINT] + row + [0] for _ in range(axioms)]
    return d


def ranges(axioms, somes, elements, edges):
    """An And of Somes that all are true, over atoms that every element has."""
    rng = random.Random(3)
    d = Rows([(k, elements) for k in range(elements)] + [(elements,)],
             facts=[(k, 0, (k + 1) % elements) for k in range(elements)]
             + [(rng.randrange(elements), 0, rng.randrange(elements)) for _ in range(edges - elements)])
    atom = d.concept(ATOMIC, elements)
    both = d.concept(AND, [d.some(0, atom) for _ in range(somes)])
    for _ in range(axioms):
        d.with_axiom(RANGE, named(0), both)
    return d


def main():
    if len(sys.argv) == 3:
        for seed in range(int(sys.argv[1]), int(sys.argv[1]) + int(sys.argv[2])):
            measure('random Somes, seed %d' % seed, random_somes(seed), JUDGING)
        sys.exit(len(missed) > 0)
    measure('four parallel sub-roles, 15 nested Somes', parallel_roles(), JUDGING)
    measure('eight nested Somes, 58 elements', dense(8, 58, 440), JUDGING)
    measure('200 nested Somes, 255 elements', dense(200, 255, EDGES), JUDGING)
    for name, axiom in (('a Domain', DOMAIN), ('a Range', RANGE), ('a DisjointClasses', DISJOINT)):
        measure('sixty shared Ands, %s' % name, shared_ands(axiom), JUDGING)
    measure('15 Somes over three shared Ands', somes_over_ands(15, 3, 58, 440), JUDGING)
    measure('15 Somes over three shared Ands, true', somes_over_ands(15, 3, 58, 440, True), JUDGING)
    measure('60 Somes over three shared Ands', somes_over_ands(60, 3, 254, 900), JUDGING)
    measure('60 Somes over seven shared Ands', somes_over_ands(60, 7, 254, 900), JUDGING)
    measure('8 Somes, 17 concepts apart, 241 elements', somes_apart(8, 17, 241, 950), JUDGING)
    measure('20 Somes, 17 concepts apart, 241 elements', somes_apart(20, 17, 241, 950), JUDGING)
    measure('11 Somes, 257 concepts apart, 255 elements', somes_apart(11, 257, 255, 950), JUDGING)
    for seed in range(1, 13):
        measure('random Somes, seed %d' % seed, random_somes(seed), JUDGING)
    for members in (1280, 6400):
        measure('EquivalentClasses, %d atoms' % members, equivalent(members, False), WIDE)
        measure('EquivalentClasses, %d atoms and Somes' % members, equivalent(members, True), WIDE)
    measure('EquivalentObjectProperties, 320 words', same_roles(320, 200), WIDE)
    measure('EquivalentObjectProperties, 1,000 edges', same_roles(320, EDGES), WIDE)
    measure('300 equal Transitive, a path', equal_transitive(300, 44, False), WIDE)
    measure('300 equal Transitive, a ring', equal_transitive(300, 31, True), WIDE)
    measure('1,200 DisjointClasses of 6,500, 5 elements', disjoint(1200, 6500, 5), WIDE)
    measure('1,200 DisjointClasses of 6,500, 255 elements', disjoint(1200, 6500, 255), WIDE)
    measure('20 Ranges of 2,000 Somes', ranges(20, 2000, 58, 440), WIDE)
    measure('20 Ranges of 2,000 Somes, 1,000 edges', ranges(20, 2000, 200, EDGES), WIDE)
    sys.exit(len(missed) > 0)


main()
