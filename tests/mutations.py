"""Changes a maker of test data in one place at a time, and says how many expected lines then differ."""
import pathlib
import sys
import types

HERE = pathlib.Path(__file__).resolve().parent
sys.path.insert(0, str(HERE))


def lines(maker, text):
    """The expected lines of each case, by its name. What hand-made cases state is asserted, and left out here."""
    module = types.ModuleType('changed')
    module.__file__ = str(HERE / maker)
    exec(compile(text, 'changed', 'exec', optimize=1), module.__dict__)
    module.make_cases()
    return {name: found for name, *_, found in module.CASES}


def report(maker, seen, silent, prepared=lambda text, new: text):
    """Makes the changes, each a name, what stands once in the maker's text, and what stands there instead; `prepared`
    adds what the new text needs. Ends with 1 if one of `seen` changes no line, or one of `silent` does."""
    text = (HERE / maker).read_text()
    wanted = lines(maker, text)
    missed = []
    for group, wants_lines in ((seen, True), (silent, False)):
        for name, old, new in group:
            assert text.count(old) == 1, (name, text.count(old))
            try:
                found = lines(maker, prepared(text.replace(old, new), new))
            except Exception as error:      # one that ends on a case is seen too
                print('%-70s ends: %s' % (name, type(error).__name__))
                missed += [] if wants_lines else [name]
                continue
            cases = [case for case in wanted if wanted[case] != found[case]]
            count = sum(a != b for case in cases for a, b in zip(wanted[case], found[case]))
            made = [case for case in cases if not case.startswith(('random', 'full', 'damaged'))]
            print('%-70s %4d lines in %3d cases, %3d hand-made' % (name, count, len(cases), len(made)))
            if bool(cases) != wants_lines:
                missed.append(name)
    print('%d changes, %d not as they should be: %s' % (len(seen) + len(silent), len(missed), '; '.join(missed)))
    sys.exit(1 if missed else 0)
