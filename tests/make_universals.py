#!/usr/bin/env python3
"""Makes the decks whose concepts the program test_atoms asks about, and what it must print.

    python3 tests/make_universals.py            writes crates/test_atoms/stdin and stdout
    python3 tests/make_universals.py --check    compares them with what it would write; exit 1 if they differ

What is expected comes from `universals`, written from document 01: "A concept is universal if it is Top or an And of
universal ones, the empty And included". It goes through the concepts from the first on, each after its operands. A
hand-made case also states its letters, and the two must agree; a random pool of concepts is drawn with its letters, and
states them too.

The data are decks with names in the form that make_decks.py describes. Printed is for each the name and, if the deck is
accepted, a space and a letter for each concept in order: t if it is universal, f if not; else ` refused`.

The routine keeps a mark for each concept, 64 to a word, and walks them from the highest down. What a walk without marks
would take twice for each And, sixty times over, it must take once.
"""
import itertools
import random

from make_decks import Deck, Reader, base, deck_w, encoded, number
from make_judgements import (ALL, AND, ATOMIC, BIG, BOT, MAX, MIN, NOMINAL, NOT, OR, SELF, SOME, TOP, inverse, named,
                             random_deck)
from make_runs import Rows, own
from shared import check_name, finish

DATA, DECK = 400000, 300000     # bytes that the program has room for
MOST = 16384                    # concepts


def universals(deck):
    """Whether each concept is universal."""
    found = []
    for tag, start, count, _ in deck.parts['concepts']:
        found.append(tag == TOP or tag == AND and all(found[k] for k in deck.listed(start, count)))
    return found


def letters(data):
    """What is printed after the name."""
    if number(data):
        return 'refused'
    return ''.join('t' if universal else 'f' for universal in universals(Reader(data)))


# --- The cases ------------------------------------------------------------------------------------------------------

CASES = []


def add(name, deck):
    check_name(name, CASES)
    data = deck if isinstance(deck, bytes) else deck.bytes()
    assert len(data) <= DECK, (name, len(data))
    found = letters(data)
    CASES.append((name, data, ['%s %s' % (name, found)]))
    return found


def case(name, expected, deck):
    """A case with the letters that its author expects, or `refused`."""
    found = add(name, deck)
    assert found == expected, (name, expected, found)


def pool(*concepts):
    """A deck of a class and a role, and of these concepts."""
    d = Rows(own(1))
    for tag, *fields in concepts:
        d.concept(tag, *fields)
    return d


def doubled(d, count=60):
    """Adds Ands that each list the concept before them twice."""
    for _ in range(count):
        last = len(d.concepts) - 1
        d.both(last, last)
    return d


def paired(d, count):
    """Adds Ands that each list the two concepts before them."""
    for _ in range(count):
        last = len(d.concepts) - 1
        d.both(last, last - 1)
    return d


def chained(d, count):
    """Adds Ands that each list the concept before them."""
    for _ in range(count):
        d.both(len(d.concepts) - 1)
    return d


# Each construct but And; its operands, if it has any, are concept 0, which is Top.
CONSTRUCTS = (('top', TOP), ('bot', BOT), ('atomic', ATOMIC, 0), ('nominal', NOMINAL, 0), ('self', SELF, named(0)),
              ('self-inverse', SELF, inverse(0)), ('not', NOT, 0), ('or-of-none', OR, []), ('or', OR, [0]),
              ('or-of-two', OR, [0, 0]), ('some', SOME, named(0), 0), ('some-inverse', SOME, inverse(0), 0),
              ('all', ALL, named(0), 0), ('all-inverse', ALL, inverse(0), 0), ('min-0', MIN, 0, named(0), 0),
              ('min', MIN, 1, named(0), 0), ('max-0', MAX, 0, named(0), 0), ('max', MAX, BIG, named(0), 0))


def smallest():
    case('empty-deck', '', Deck())
    case('no-concepts', '', pool())
    case('deck-w', 'fff', deck_w())
    case('every-tag', 't' + 'f' * 11, base())
    case('empty-and', 't', pool((AND, [])))
    case('two-empty-ands', 'tt', pool((AND, []), (AND, [])))
    for name, *construct in CONSTRUCTS:
        letter = 't' if construct == [TOP] else 'f'
        case('one-' + name, 't' + letter * 2, pool((TOP,), construct, (AND, [1])))
    # Not, Or and the others are not gone into, whatever is below them.
    case('not-bot', 'fff', pool((BOT,), (NOT, 0), (AND, [1])))
    case('or-with-top', 'tfff', pool((TOP,), (BOT,), (OR, [1, 0]), (AND, [2])))
    case('not-not-top', 'tfff', pool((TOP,), (NOT, 0), (NOT, 1), (AND, [2])))
    case('or-of-ands', 'ttftf', pool((TOP,), (AND, []), (OR, [0, 1]), (AND, [0, 1]), (AND, [3, 2])))


def refused():
    d = doubled(pool((TOP,)))
    case('refused-nothing', 'refused', b'')
    case('refused-odd', 'refused', d.bytes() + b'\0')
    case('refused-edition', 'refused', d.edited(('trailer', 0, 2)))
    case('refused-tag', 'refused', d.edited(('concepts', 60, 0, 12)))
    case('refused-range', 'refused', d.edited(('lists', len(d.lists) - 1, 61)))
    case('refused-itself', 'refused', d.edited(('lists', len(d.lists) - 1, 60)))
    case('refused-filled', 'refused', d.edited(('concepts', 60, 3, 1)))
    case('not-refused', 't' * 61, d)
    case('refused-last-axiom', 'refused', base().edited(('axioms', 25, 0, 26)))


def sixties():
    """Sixty Ands that each list the one before twice, over a concept of each kind."""
    case('sixty-top', 't' * 61, doubled(pool((TOP,))))
    case('sixty-atomic', 'f' * 61, doubled(pool((ATOMIC, 0))))
    case('sixty-empty-and', 't' * 61, doubled(pool((AND, []))))
    case('sixty-bot', 'f' * 61, doubled(pool((BOT,))))
    for name, *construct in CONSTRUCTS:
        letter = 't' if construct == [TOP] else 'f'
        case('sixty-over-' + name, 't' + letter * 61, doubled(pool((TOP,), construct)))
    # Over an And that lists Top, but for one operand.
    for place in range(5):
        row = [0] * place + [1] + [0] * (4 - place)
        case('sixty-operand-%d' % place, 'tf' + 'f' * 61, doubled(pool((TOP,), (ATOMIC, 0), (AND, row))))
        case('sixty-operand-%d-universal' % place, 'tt' + 't' * 61, doubled(pool((TOP,), (AND, []), (AND, row))))
    case('sixty-first-operand-or', 'tff' + 'f' * 60, doubled(pool((TOP,), (OR, [0]), (AND, [1, 0, 0]))))
    case('sixty-last-operand-or', 'tff' + 'f' * 60, doubled(pool((TOP,), (OR, [0]), (AND, [0, 0, 1]))))
    # One that is not universal comes in on the way, before or after the one that is shared.
    for at in (1, 30, 59, 60):
        for name, row in (('first', lambda last: [1, last, last]), ('last', lambda last: [last, last, 1]),
                          ('between', lambda last: [last, 1, last])):
            d = doubled(pool((TOP,), (BOT,), (AND, [0])), at)
            d.both(*row(len(d.concepts) - 1))
            case('sixty-%s-at-%d' % (name, at), 'tft' + 't' * at + 'f' * (61 - at), doubled(d, 60 - at))
    # Two towers, one over Top and one over Bot, and Ands over both.
    d = doubled(doubled(pool((TOP,)), 30).with_concept(BOT), 30)
    for row in ([30, 61], [61, 30], [30, 30], [61], [0, 30, 15], [0, 30, 61], [30, 45]):
        d.both(*row)
    case('two-towers', 't' * 31 + 'f' * 31 + 'fftftff', d)


def pairs():
    """Ands that each list the two before them."""
    for count in (60, 2000):
        for name, one, other, rest in (('top-top', TOP, TOP, 'ttt'), ('top-bot', TOP, BOT, 'tff'),
                                       ('bot-top', BOT, TOP, 'ftf'), ('bot-bot', BOT, BOT, 'fff')):
            expected = rest + rest[2] * (count - 1)
            case('pairs-%d-%s' % (count, name), expected, paired(pool((one,), (other,)), count))
    case('pairs-empty-ands', 't' * 62, paired(pool((AND, []), (AND, [])), 60))


def layers():
    """Layers of twelve Ands that each list the whole layer before them, forwards or backwards."""
    def layered(first, odd=None):
        d, row = pool(*first), list(range(12))
        for layer in range(1, 12):
            row = [d.both(*row[::1 if k % 2 else -1], *([12] if (layer, k) == odd else [])) for k in range(12)]
        return d

    tops = [(TOP,)] * 12
    case('layers-top', 't' * 12 + 'f' + 't' * 132, layered(tops + [(BOT,)]))
    for place in (0, 5, 11):
        first = tops[:place] + [(ATOMIC, 0)] + tops[place + 1:] + [(BOT,)]
        case('layers-atomic-%d' % place, 't' * place + 'f' + 't' * (11 - place) + 'f' * 133, layered(first))
    for layer, k in ((1, 0), (6, 3), (10, 11), (11, 7)):
        at = 13 + 12 * (layer - 1)
        expected = ['t'] * at + ['t'] * 12 + ['f'] * (132 + 13 - at - 12)
        expected[12] = expected[at + k] = 'f'
        case('layers-bot-in-%d-%d' % (layer, k), ''.join(expected), layered(tops + [(BOT,)], (layer, k)))


def short_lists():
    """Every list of up to three of Top, Bot, the empty And, an And of Top and one of Bot, in two orders of number."""
    for name, first, universal in (('top-first', ((TOP,), (BOT,), (AND, []), (AND, [0]), (AND, [1])), (0, 2, 3)),
                                   ('bot-first', ((BOT,), (AND, [0]), (TOP,), (AND, [2]), (AND, [])), (2, 3, 4))):
        d = pool(*first)
        expected = ''.join('t' if k in universal else 'f' for k in range(5))
        for length in range(4):
            for row in itertools.product(range(5), repeat=length):
                d.both(*row)
                expected += 't' if set(row) <= set(universal) else 'f'
        case('short-lists-' + name, expected, d)


def spans():
    """Ands whose lists share words, and empty ones at either end of the lists."""
    d = Deck()
    d.lists = [0, 0, 0, 1, 0, 2]
    rows = (0, 3), (0, 4), (1, 3), (3, 1), (4, 2), (4, 1), (6, 0), (0, 0), (3, 0), (0, 6), (2, 3)
    d.concepts = [[TOP, 0, 0, 0], [BOT, 0, 0, 0]] + [[AND, start, count, 0] for start, count in rows]
    case('spans', 'tf' + 'tfff' + 'tt' + 'ttt' + 'ff', d)


def far_apart():
    """Operands whose numbers are far apart: words of marks between them are empty."""
    others = ((BOT,), (ATOMIC, 0), (NOMINAL, 3))
    for name, filler in (('bots', lambda k: (BOT,)), ('all', lambda k: others[k % 3])):
        d = pool((TOP,), *[filler(k) for k in range(300)])
        for row in ([0], [0, 0], [301], [302, 301, 0], [0, 304], [304, 150], [150, 304], [0, 150], [150, 0], [300, 301],
                    [301, 1], [1, 301]):
            d.both(*row)
        case('far-300-' + name, 't' + 'f' * 300 + 'tttttfffffff', d)
    # One of 400 is Top, and the others are not; or one is Bot, and the others are Top.
    for place in (0, 1, 2, 31, 32, 33, 62, 63, 64, 65, 126, 127, 128, 129, 191, 192, 193, 255, 256, 319, 320, 398, 399):
        first = [(BOT,)] * 400
        first[place] = (TOP,)
        d = pool(*first, (AND, [place]), (AND, [400, place]), (AND, [401]), (AND, [402, 400, 402]),
                 (AND, [402, (place + 1) % 400]), (AND, [402, (place - 1) % 400]), (AND, [404, 402]))
        case('far-top-at-%d' % place, 'f' * place + 't' + 'f' * (399 - place) + 'ttttfff', d)
        first = [(TOP,)] * 400
        first[place] = (BOT,)
        near = [k for k in (place - 65, place - 64, place - 1, place + 1, place + 64, place + 65) if 0 <= k < 400]
        d = pool(*first, (AND, [place]), (AND, near), (AND, [401, *near]), (AND, [402, *near, place]),
                 (AND, [402, 401]), (AND, [404, 403]), (AND, [404, place, 404]), (AND, [404, 400]))
        case('far-bot-at-%d' % place, 't' * place + 'f' + 't' * (399 - place) + 'fttftfff', d)


def edges():
    """Ands whose own numbers lie at the edges of words, up to the last number of all."""
    for at in (4, 31, 32, 61, 62, 63, 64, 65, 66, 126, 127, 128, 129, 190, 191, 192, 193, 255, 256, 4095, 4096,
               MOST - 9):
        d = pool((TOP,), (BOT,), (AND, [0]), (AND, [1]), *[(BOT,)] * (at - 4), (AND, [2, 0]), (AND, [3]), (AND, [at]),
                 (AND, [at, at + 1]), (AND, [0, at]), (AND, [2, at + 2, at, at + 4]), (AND, [at + 2, 1]),
                 (AND, [at + 5, at + 3]), (AND, [at + 5, at + 5]))
        assert len(d.concepts) <= MOST
        case('and-at-%d' % at, 'tftf' + 'f' * (at - 4) + 'tftfttfft', d)
    # What the last And of all lists, after an And, is the number below its own.
    for name, last, letter in (('top', (TOP,), 't'), ('bot', (BOT,), 'f'), ('and-of-top', (AND, [0]), 't'),
                               ('and-of-bot', (AND, [1]), 'f')):
        d = pool((TOP,), *[(BOT,)] * (MOST - 4), (AND, [0]), last, (AND, [MOST - 3, MOST - 2]))
        case('last-lists-' + name, 't' + 'f' * (MOST - 4) + 't' + letter * 2, d)
    # Each number an And; with Bot in the And of one number, before or after the one below it.
    case('chain-top', 't' * 201, chained(pool((TOP,)), 200))
    case('chain-bot', 'f' * 201, chained(pool((BOT,)), 200))
    case('chain-empty-and', 't' * 201, chained(pool((AND, [])), 200))
    for at in (3, 62, 63, 64, 65, 66, 127, 128, 129, 191, 192, 193, 199):
        for name, step in (('before', 1), ('after', -1)):
            d = chained(pool((TOP,), (BOT,), (AND, [0])), at - 3)
            d.both(*[1, at - 1][::step])
            case('chain-bot-%s-at-%d' % (name, at), 'tf' + 't' * (at - 2) + 'f' * (200 - at), chained(d, 199 - at))


def long_lists():
    case('and-of-500-tops', 'tt', pool((TOP,), (AND, [0] * 500)))
    for name, row in (('bot-first', [1] + [0] * 500), ('bot-last', [0] * 500 + [1]),
                      ('bot-at-both-ends', [1] + [0] * 500 + [1]), ('bot-between', [0] * 250 + [1] + [0] * 250),
                      ('bots', [1] * 500)):
        case('and-of-500-' + name, 'tff', pool((TOP,), (BOT,), (AND, row)))
        d = doubled(pool((TOP,), (BOT,), (AND, row), (AND, [2])), 10)
        case('and-of-500-%s-under-ands' % name, 'tfff' + 'f' * 10, d)
    # The same over Ands, which are marked.
    case('and-of-500-ands', 'ttt', pool((TOP,), (AND, [0]), (AND, [1] * 500)))
    case('and-of-500-ands-bot-first', 'tftf', pool((TOP,), (BOT,), (AND, [0]), (AND, [1] + [2] * 500)))
    case('and-of-500-ands-bot-last', 'tftf', pool((TOP,), (BOT,), (AND, [0]), (AND, [2] * 500 + [1])))
    case('and-of-500-ands-of-bot', 'tftff', pool((TOP,), (BOT,), (AND, [0]), (AND, [1]), (AND, [2] * 499 + [3])))
    # Five hundred of one kind, each of its own number.
    rows = (('rising', list(range(500))), ('falling', list(range(499, -1, -1))))
    for name, row in rows:
        case('and-of-all-%s' % name, 't' * 503, pool(*[(TOP,)] * 500, (AND, row), (AND, [500]), (AND, [501] + row)))
        for place in (0, 1, 63, 64, 250, 447, 448, 498, 499):
            first = [(TOP,)] * 500
            first[place] = (OR, [])
            d = pool(*first, (AND, row), (AND, [500]), (AND, [501] + row), (AND, [k for k in row if k != place]))
            case('and-of-all-%s-or-at-%d' % (name, place), 't' * place + 'f' + 't' * (499 - place) + 'ffft', d)


def draw_concept(rng, d, universal):
    """Adds a concept, and gives back whether it is universal. An And lists universal ones, and in two of five one or
    two others among them."""
    count = len(universal)
    good = [k for k in range(count) if universal[k]]
    bad = [k for k in range(count) if not universal[k]]
    kind = rng.random()
    if kind < 0.7:
        row = rng.choices(good, k=rng.choice((1, 1, 2, 2, 3, 5))) if good else []
        spoilt = bool(bad) and rng.random() < 0.4
        for _ in range(rng.choice((1, 1, 1, 2)) if spoilt else 0):
            row.insert(rng.randint(0, len(row)), rng.choice(bad))
        d.both(*row)
        return not spoilt
    if kind < 0.82:
        d.concept(*rng.choice(((TOP,), (TOP,), (AND, []))))
        return True
    some, one = rng.choices(range(count), k=rng.randrange(4)) if count else [], rng.randrange(count) if count else None
    plain = [(BOT,), (ATOMIC, 0), (NOMINAL, rng.choice((0, 7, BIG))), (SELF, rng.randrange(2)), (OR, some)]
    over = [(NOT, one), (SOME, rng.randrange(2), one), (ALL, rng.randrange(2), one), (MIN, rng.choice((0, 1)), 0, one),
            (MAX, rng.choice((0, 1)), 1, one)]
    d.concept(*rng.choice(plain + over if count else plain))
    return False


def random_decks():
    for k in range(300):
        rng = random.Random(7100 + k)
        d, universal = pool(), []
        for _ in range(rng.choice((3, 5, 8, 8, 12, 12, 16, 20)) if k % 20 else 150):
            universal.append(draw_concept(rng, d, universal))
        case('random-%d' % k, ''.join('t' if one else 'f' for one in universal), d)


def whole_decks():
    """Random decks of make_judgements.py, with all parts; some damaged in a word."""
    for k in range(40):
        rng = random.Random(7500 + k)
        data = bytearray(random_deck(rng).bytes())
        if k % 2:
            data[4 * rng.randrange(len(data) // 4)] ^= 1
        add('whole-%d' % k, bytes(data))


# --- Writing --------------------------------------------------------------------------------------------------------

def make_cases():
    for make in (smallest, refused, sixties, pairs, layers, short_lists, spans, far_apart, edges, long_lists,
                 random_decks, whole_decks):
        make()


def main():
    make_cases()
    room = []
    given = b''.join(encoded(name, data, room) for name, data, _ in CASES)
    wanted = ''.join(line + '\n' for *_, found in CASES for line in found) + '%d decks\n' % len(CASES)
    assert len(given) <= DATA, len(given)
    said = '%d decks, %d bytes of data, %d of letters' % (len(CASES), len(given), len(wanted))
    finish('test_atoms', given, wanted.encode(), said)


if __name__ == '__main__':
    main()
