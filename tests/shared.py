"""What the makers of test data have in common: make_decks.py, make_judgements.py, make_runs.py."""
import pathlib
import sys

CRATES = pathlib.Path(__file__).resolve().parent.parent / 'crates'


def check_name(name, cases):
    """A case's name is short and new."""
    assert len(name) <= 40 and name.isascii() and ' ' not in name and name == name.lower(), name
    assert all(name != other for other, *_ in cases), name


def padded(data):
    """The bytes, and zeros up to whole words."""
    return data + b'\0' * (-len(data) % 4)


def finish(crate, given, wanted, said):
    """Writes a program's stdin and stdout, and prints what is said of them; with --check, compares them instead."""
    files = ((CRATES / crate / 'stdin', given), (CRATES / crate / 'stdout', wanted))
    if sys.argv[1:] not in ([], ['--check']):
        sys.exit('%s [--check]' % sys.argv[0])
    if sys.argv[1:] == ['--check']:
        stale = [path.name for path, data in files if not path.exists() or path.read_bytes() != data]
        print('stale: ' + ' '.join(stale) if stale else 'up to date')
        sys.exit(1 if stale else 0)
    for path, data in files:
        path.write_bytes(data)
    print(said)
