#!/usr/bin/env python3
"""Compares two libraries in one run, on decks that are made of one thing each: what they leave, and their seconds. Prints for
each deck the microseconds of both, the best of all turns, and the ratio of the second to the first. Exit status 1: what they
leave differs.

    python3 tests/bench/ratio.py BEFORE/libcapi.a AFTER/libcapi.a [WORDS WORDS]

WORDS: how many words an edge record has in each, 3 where nothing is said.
"""
import os
import subprocess
import sys
import tempfile

HERE = os.path.dirname(os.path.abspath(__file__))
sys.path.insert(0, os.path.join(HERE, '..'))
from make_decks import deck_w                                                    # noqa: E402
from make_judgements import ATOMIC, EQUIVALENT, TOP, TRANSITIVE, named      # noqa: E402
from make_runs import Rows                                                       # noqa: E402
from verify import full                                                          # noqa: E402

CLASSES, RULES = 100, 30


# --- Decks ----------------------------------------------------------------------------------------------------------

def classes(deltas=False):
    """Rows {k, 199}; role 0, and role 1 with a range. Where asked for, each atom has an unsatisfiable q for role 1."""
    rows = [(k, CLASSES - 1) for k in range(CLASSES - 1)] + [(CLASSES - 1,)]
    unsat = (CLASSES - 2,) if deltas else ()
    injected = [(k, 1, CLASSES - 2) for k in range(CLASSES - 2)] if deltas else ()
    d = Rows(rows, roles=[((0,), ()), ((1,), (CLASSES - 2,))], unsat=unsat, injected=injected)
    for k in range(CLASSES):
        d.concept(ATOMIC, k)
    return d


def rules(sup, deltas=False, sub=lambda d, k: CLASSES - 1):
    """Rules from a class of every element."""
    d = classes(deltas)
    for k in range(RULES):
        d.sub_class(sub(d, k), sup(d, k))
    return d


def flat(d, k, wide=2):
    return d.both(*range(k, k + wide))


def nested(d, k):
    return d.both(d.both(k, k + 1), d.both(k + 2, d.both(k + 3, k + 4)))


def tower(d, k):
    """Sixty Somes and Ands in each other."""
    c = k
    for n in range(30):
        c = d.some(0, d.both(c, (k + n) % 60))
    return c


def all_held(d, k, wide):
    return d.both(*[CLASSES - 1] * wide)


def deep_held(d, k):
    last = CLASSES - 1
    return d.both(d.both(last, last), d.both(last, d.both(last, last)))


def floors(operand):
    d = classes()
    top = d.concept(TOP)
    for k in range(RULES):
        d.sub_class(top, operand(d, k))
    d.sub_class(CLASSES - 1, d.some(0, top))
    return d


def equivalents():
    d = classes()
    for k in range(RULES):
        d.with_axiom(EQUIVALENT, [CLASSES - 1, d.both(CLASSES - 1, d.some(0, k))])
    return d


def decks():
    atom = lambda role: lambda d, k: d.some(role, k)                                         # noqa: E731
    yield 'deck W', deck_w()
    yield 'full', full()
    yield 'bodies: atoms', rules(atom(0))
    yield 'bodies: atoms, RunDelta', rules(atom(1), True)
    yield 'bodies: Top', rules(lambda d, k: d.some(0, d.concept(TOP)))
    for wide in 2, 8:
        yield 'bodies: Ands of %d' % wide, rules(lambda d, k: d.some(0, flat(d, k, wide)))
        yield 'bodies: Ands of %d, RunDelta' % wide, rules(lambda d, k: d.some(1, flat(d, k, wide)), True)
    yield 'bodies: nested', rules(lambda d, k: d.some(0, nested(d, k)))
    yield 'bodies: nested, RunDelta', rules(lambda d, k: d.some(1, nested(d, k)), True)
    yield 'bodies: nested, LabelNotClosed', rules(lambda d, k: d.some(1, nested(d, k)))
    yield 'consequents: Ands of Somes', rules(lambda d, k: d.both(d.some(0, k), d.some(0, k + 1)))
    yield 'consequents: Ands of atoms', rules(lambda d, k: flat(d, k))
    yield 'consequents: Somes of Somes', rules(lambda d, k: d.some(0, d.some(0, d.some(0, k))))
    yield 'consequents: towers', rules(lambda d, k: tower(d, k) if k < 10 else k)
    for wide in 2, 8:
        yield 'antecedents: Ands of %d' % wide, rules(atom(0), sub=lambda d, k: all_held(d, k, wide))
    yield 'antecedents: nested', rules(atom(0), sub=deep_held)
    yield 'antecedents: not held', rules(atom(0), sub=lambda d, k: d.both(CLASSES - 1, k))
    yield 'floors: Ands of 8', floors(lambda d, k: flat(d, k, 8))
    yield 'floors: nested', floors(nested)
    yield 'EquivalentClasses', equivalents()
    d = rules(atom(0))
    d.with_axiom(TRANSITIVE, named(0))
    yield 'transitive', d
    d = classes()
    for _ in range(3000):
        d.concept(TOP)
    yield 'concepts alone', d.sub_class(0, CLASSES - 1)
    d = classes()
    d.facts = [[k, k % 2, (k * 7) % CLASSES] for k in range(CLASSES - 2)]
    yield 'facts', d


# --- Measuring ------------------------------------------------------------------------------------------------------

def linked(library, name, folder):
    """The library as one object whose only name is NAME_run."""
    joined, alone = os.path.join(folder, name + '.o'), os.path.join(folder, name + '_run.o')
    subprocess.check_call(['ld', '-r', '--whole-archive', library, '-o', joined])
    subprocess.check_call(['objcopy', '--redefine-sym', 'style_deck_run=%s_run' % name,
                           '--keep-global-symbol=%s_run' % name, joined, alone])
    return alone


def programs(objects, folder):
    """The program four times, its code moved by 16 bytes each time: a tight loop may be a third slower where it lies worse."""
    for pad in range(16, 80, 16):
        source, program = os.path.join(folder, 'pad.s'), os.path.join(folder, 'ratio%d' % pad)
        with open(source, 'w') as file:
            file.write('.section .note.GNU-stack\n.text\n.p2align 6\n.skip %d\n' % pad)
        subprocess.check_call(['gcc', '-O2', '-Wall', '-Wextra', '-o', program, os.path.join(HERE, 'ratio.c'), source] + objects)
        yield program


def main():
    if len(sys.argv) not in (3, 5):
        sys.exit(__doc__)
    words = sys.argv[3:] or ['3', '3']
    best, said, bad = {}, {}, False
    with tempfile.TemporaryDirectory() as folder:
        objects = [linked(sys.argv[k], name, folder) for k, name in ((1, 'before'), (2, 'after'))]
        for name, deck in decks():
            with open(os.path.join(folder, name + '.deck'), 'wb') as file:
                file.write(deck.bytes())
        files = [name + '.deck' for name, _ in decks()]
        for _ in range(2):
            for program in programs(objects, folder):
                out = subprocess.run([program] + words + files, cwd=folder, stdout=subprocess.PIPE, text=True)
                bad |= out.returncode != 0
                for line in out.stdout.splitlines():
                    name, before, after, answer, equal = line.split('\t')
                    was = best.get(name, (1e9, 1e9))
                    best[name] = min(was[0], float(before)), min(was[1], float(after))
                    said[name] = '%s, %s' % (answer, equal)
    for name, (before, after) in best.items():
        print('%-34s %12.2f us %12.2f us  %5.2f  %s' % (name[:-5], before * 1e6, after * 1e6, after / before, said[name]))
    sys.exit(bad)


if __name__ == '__main__':
    main()
