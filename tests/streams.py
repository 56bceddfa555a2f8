#!/usr/bin/env python3
"""How `verify` takes its input and gives its text: in pieces, late, not at all, to a reader that is slow.

    python3 tests/streams.py [PROGRAM]       the program is crates/verify/out/verify if none is named

Its text must be that of make_reports.py, whatever way the bytes come and go; where the input cannot be read, that of no
bytes. Prints what differs; exit 1 if anything does.
"""
import fcntl
import os
import pathlib
import subprocess
import sys
import threading
import time

from make_decks import Deck, deck_w
from make_judgements import AN_INDIVIDUAL
from make_reports import filled, text

HERE = pathlib.Path(__file__).resolve().parent
TAKES = 60      # seconds


def wanted(data):
    return ''.join(line + '\n' for line in text(data)).encode()


def twofold():
    """A deck of 144 bytes that is open; its first 72 bytes are a deck that is confirmed."""
    d = Deck()
    d.lists, d.dropped = Deck().words(), 1
    assert d.bytes()[:72] == Deck().bytes() and wanted(d.bytes()) != wanted(Deck().bytes())
    return d.bytes()


def feed(end, pieces, pause):
    """Writes the pieces, with a pause before each but the first. A reader that is gone is no fault."""
    try:
        for k, piece in enumerate(pieces):
            time.sleep(pause if k else 0)
            while piece:
                piece = piece[os.write(end, piece):]
    except BrokenPipeError:
        pass
    finally:
        os.close(end)


def nonblocking(end):
    fcntl.fcntl(end, fcntl.F_SETFL, fcntl.fcntl(end, fcntl.F_GETFL) | os.O_NONBLOCK)


def piped(program, pieces, pause=0.0, waits=True):
    """What the program writes if its input comes in pieces; without `waits` a read does not wait for them."""
    out, end = os.pipe()
    if not waits:
        nonblocking(out)
    feeder = threading.Thread(target=feed, args=(end, pieces, pause))
    feeder.start()
    try:
        done = subprocess.run([program], stdin=out, stdout=subprocess.PIPE, timeout=TAKES)
    finally:
        os.close(out)
        feeder.join()
    return done.stdout


def slowly_read(program, data):
    """What comes through a pipe of one page that does not wait, read a little at a time."""
    out, end = os.pipe()
    fcntl.fcntl(end, fcntl.F_SETPIPE_SZ, 4096)
    nonblocking(end)
    child = subprocess.Popen([program], stdin=subprocess.PIPE, stdout=end)
    os.close(end)
    feeder = threading.Thread(target=feed, args=(os.dup(child.stdin.fileno()), [data], 0))
    child.stdin.close()
    feeder.start()
    got = b''
    while True:
        piece = os.read(out, 1000)
        if not piece:
            break
        got += piece
        time.sleep(0.001)
    os.close(out)
    feeder.join()
    child.wait(TAKES)
    return got


def given(program, path, flags=os.O_RDONLY):
    """What the program writes if its input is this file; None is no input at all."""
    if path is None:
        return subprocess.run(['sh', '-c', 'exec "$0" <&-', program], stdout=subprocess.PIPE, timeout=TAKES).stdout
    end = os.open(path, flags)
    try:
        return subprocess.run([program], stdin=end, stdout=subprocess.PIPE, timeout=TAKES).stdout
    finally:
        os.close(end)


def runs(program):
    w, most = deck_w().bytes(), filled(Deck(), [(AN_INDIVIDUAL, 1, 0, 0)])
    two = twofold()
    deck = str(HERE.parent / 'crates/verify/stdin')
    yield 'a file', given(program, deck), w
    yield 'a pipe', piped(program, [w]), w
    yield 'single bytes', piped(program, [w[k:k + 1] for k in range(len(w))]), w
    yield 'pieces with pauses', piped(program, [w[:7], w[7:100], w[100:]], 0.1), w
    yield 'a deck of which a part is a deck', piped(program, [two[:72], two[72:]], 0.2), two
    yield 'the same, reads do not wait', piped(program, [two[:72], two[72:]], 0.2, waits=False), two
    yield 'nothing at first, reads do not wait', piped(program, [b'', w], 0.2, waits=False), w
    yield '65,536 bytes in pieces', piped(program, [most[:30000], most[30000:]], 0.1), most
    yield '65,537 bytes', piped(program, [bytes(65537)]), bytes(65537)
    yield '300,000 bytes', piped(program, [bytes(300000)]), bytes(300000)
    yield 'a long text, slowly read', slowly_read(program, most), most
    yield 'an empty file', given(program, '/dev/null'), b''
    yield 'a directory', given(program, str(HERE)), b''
    yield 'an input that is closed', given(program, None), b''
    yield 'an input that is open for writing only', given(program, '/dev/null', os.O_WRONLY), b''


def main():
    if len(sys.argv) > 2:
        sys.exit('%s [PROGRAM]' % sys.argv[0])
    program = os.path.abspath(sys.argv[1] if len(sys.argv) == 2 else HERE.parent / 'crates/verify/out/verify')
    bad = 0
    for name, found, data in runs(program):
        if found != wanted(data):
            bad += 1
            print('%s: expected %r, found %r' % (name, wanted(data)[:60], found[:60]))
    print('%d differ' % bad)
    sys.exit(1 if bad else 0)


if __name__ == '__main__':
    main()
