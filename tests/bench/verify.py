#!/usr/bin/env python3
"""Times the program verify on deck W and on decks of the size that it takes at most: seconds, the best of five,
peak memory, and the stack that it needs. Run it from the repository's top after `(cd crates/verify && rt run <stdin)`.

    python3 tests/bench/verify.py
"""
import os
import subprocess
import sys
import tempfile
import time

sys.path.insert(0, os.path.join(os.path.dirname(os.path.abspath(__file__)), '..'))
from make_decks import deck_w                                                            # noqa: E402
from make_judgements import AND, ATOMIC, EQUIVALENT, SOME, SUB_CLASS, TRANSITIVE, named  # noqa: E402
from make_runs import Rows                                                               # noqa: E402

PROGRAM, MOST = 'crates/verify/out/verify', 65536


def full():
    """255 classes, a tree of rows; facts and axioms that make some 1,000 edges; axioms up to the last byte."""
    rows = []
    for k in range(255):
        row, up = [k], k
        while up:
            up = (up - 1) // 3
            row.append(up)
        rows.append(sorted(row))
    d = Rows(rows, roles=[((r,), ()) for r in range(8)])
    atoms = [d.concept(ATOMIC, k) for k in range(255)]
    somes = [d.some(k % 8, atoms[(k * 7 + 3) % 255]) for k in range(255)]
    d.facts = [[k, k % 8, (k * 5 + 1) % 255] for k in range(60, 255)]
    for k in range(100, 180):
        d.with_axiom(SUB_CLASS, atoms[k], somes[k])
    d.with_axiom(TRANSITIVE, named(7))
    d.with_axiom(EQUIVALENT, [atoms[0], d.both(atoms[0], atoms[0])])
    k = 0
    while len(d.bytes()) + 16 <= MOST:
        d.with_axiom(SUB_CLASS, atoms[k % 254 + 1], atoms[(k % 254) // 3])
        k += 1
    return d


def nested(tag):
    """The deepest superclass that fits: Ands of one operand, or Somes."""
    d = Rows([(0,)])
    d.concept(ATOMIC, 0)
    d.with_axiom(SUB_CLASS, 0, 0)
    size = 20 if tag == AND else 16
    for k in range((MOST - len(d.bytes())) // size):
        if tag == AND:
            d.concept(AND, [k])
        else:
            d.some(0, k)
    d.axioms[0][2] = len(d.concepts) - 1
    return d


def widest():
    """An And of as many operands as fit."""
    d = Rows([(0,)])
    d.concept(ATOMIC, 0)
    d.concept(AND, [0] * ((MOST - len(d.bytes())) // 4 - 10))
    return d.with_axiom(SUB_CLASS, 0, 1)


def peak(path):
    """The most memory that the program held, in KB."""
    with open(path, 'rb') as source:
        ran = subprocess.run(['/usr/bin/time', '-f', '%M', PROGRAM], stdin=source, stdout=subprocess.DEVNULL,
                             stderr=subprocess.PIPE)
    return int(ran.stderr.split()[-1])


def stack_need(path):
    """The smallest stack, in KB, in which the program ends well."""
    def ends(limit):
        with open(path, 'rb') as source:
            return subprocess.run(['sh', '-c', 'ulimit -s %d && exec %s' % (limit, PROGRAM)], stdin=source,
                                  stdout=subprocess.DEVNULL, stderr=subprocess.DEVNULL).returncode == 0
    low, high = 64, 8192
    assert ends(high)
    while high - low > 16:
        middle = (low + high) // 2
        low, high = (low, middle) if ends(middle) else (middle, high)
    return high


def measure(name, deck):
    data = deck.bytes()
    assert len(data) <= MOST
    with tempfile.NamedTemporaryFile() as file:
        file.write(data)
        file.flush()
        best, first = None, None
        for _ in range(5):
            with open(file.name, 'rb') as source:
                began = time.perf_counter()
                out = subprocess.run([PROGRAM], stdin=source, stdout=subprocess.PIPE, check=True).stdout
                took = time.perf_counter() - began
            best = took if best is None else min(best, took)
            first = out.split(b'\n')[0].decode()
        print('%-16s %6d bytes  %9.4f s  %5d KB in all  %5d KB of stack  %s'
              % (name, len(data), best, peak(file.name), stack_need(file.name), first))


if __name__ == '__main__':
    measure('deck W', deck_w())
    measure('full', full())
    measure('nested Ands', nested(AND))
    measure('nested Somes', nested(SOME))
    measure('widest And', widest())
