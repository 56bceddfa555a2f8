#!/usr/bin/env python3
"""Finds in crates/*/src the places that docs/DESIGN-PASS.md counts.

    tools/places.py          a count for each search and crate
    tools/places.py -v       the places too
    tools/places.py --parsed counted in another way: from the items and words of each file (tools/parsed.py), not by its text

What it finds are candidates; the page says which of them are places of a point.
"""
import collections
import glob
import os
import re
import sys

sys.dont_write_bytecode = True
import parsed

ROOT = os.path.join(os.path.dirname(os.path.abspath(__file__)), "..", "crates")
FN = re.compile(r"\bfn (\w+)(?:<[^>(]*>)?\(([^)]*)\)([^{]*?(?:(?:requires|ensures)[^\n]*\n[^\n]*?)*)\n\s*\{")


def files():
    for name in sorted(glob.glob(os.path.join(ROOT, "*", "src", "*.rt"))):
        yield name.split(os.sep)[-3], os.path.basename(name), open(name).read()


def lines(pattern):
    rule = re.compile(pattern)
    for crate, name, text in files():
        for i, line in enumerate(text.split("\n")):
            if rule.search(line.split("//")[0]):
                yield crate, f"{crate}/{name}:{i + 1}: {line.strip()}"


def loops(counted):
    """Loops; those whose condition names a variable that the body moves by one."""
    for crate, name, text in files():
        all_lines = text.split("\n")
        for i, line in enumerate(all_lines):
            head = re.match(r"^(\s*)(while|loop)\b(.*)\{", line)
            if not head:
                continue
            body = []
            for later in all_lines[i + 1:]:
                if later.strip() and len(later) - len(later.lstrip()) <= len(head.group(1)):
                    break
                body.append(later)
            moved = re.findall(r"\b([\w.]+) (?:\+=|-=) 1;", "\n".join(body))
            by_hand = any(v in head.group(3) for v in moved)
            if by_hand == counted:
                yield crate, f"{crate}/{name}:{i + 1}: {line.strip()}"


def functions():
    for crate, name, text in files():
        for found in FN.finditer(text):
            yield crate, name, found.group(1), found.group(2), found.group(3)


def facts():
    """Facts that are asked for in three or more functions."""
    where = collections.defaultdict(list)
    for crate, name, function, _, rest in functions():
        for fact in re.findall(r"requires(?: \w+)? \{(.*)\}", rest):
            where[re.sub(r"\.(old|now)\b", "", fact).strip()].append((crate, f"{crate}/{name}: {function}"))
    for fact, at in sorted(where.items(), key=lambda x: (-len(x[1]), x[0])):
        if len(at) >= 3:
            yield at[0][0], f"{len(at)} functions: {fact}"


def together():
    """The first four parameters, where three or more functions have them alike."""
    where = collections.defaultdict(list)
    for crate, name, function, params, _ in functions():
        names = [p.split(":")[0].strip() for p in re.split(r",\s*(?![^\[<]*[\]>])", params) if ":" in p]
        if len(names) >= 4:
            where[tuple(names[:4])].append(crate)
    for names, at in sorted(where.items(), key=lambda x: (-len(x[1]), x[0])):
        if len(at) >= 3:
            yield at[0], f"{len(at)} functions: {', '.join(names)}"


SEARCHES = [
    ("1 enums", lambda: lines(r"^\s*(pub )?enum ")),
    ("1 flags in structs", lambda: lines(r"^\s+(pub )?(found|noted|ended|tripped|over|front|unclosed|delta|fails|unresolved): bool,")),
    ("1 numbers for kinds", lambda: lines(r"\b(kind|tag|code|last_phase): u32|(Unresolved|Unhandled\w+)\(u32")),
    ("1 a number for none", lambda: lines(r"^\s*(return )?(elements|count|i|4294967295|16384|4096|4097|label\.len\(\)|end);?$")),
    ("2 rooms by size", lambda: lines(r"let mut \w+: \[u\d+; \d+\] = \[0; \d+\]")),
    ("2 functions that call themselves for a frame", lambda: lines(r"if \d+ < \w+(\.\w+)? \{$")),
    ("3 loops counted by hand", lambda: loops(True)),
    ("3 other while and loop", lambda: loops(False)),
    ("4 numbers compared inside their wrappers", lambda: lines(r"\.0 (==|!=|<|<=|>=|>) \w+(\.\w+)*\.0\b")),
    ("5 facts asked for in three or more functions", facts),
    ("5 parameters in three or more functions", together),
    ("6 searches by halving", lambda: lines(r"\((hi - lo)\) / 2")),
    ("6 lengths beside buffers", lambda: lines(r"^\s*(pub )?fn .*\b(count|elements|seen|width|many): (u32|usize)")),
]


def searches():
    if "--parsed" in sys.argv[1:]:
        items = parsed.items()
        return [(title, search(items)) for title, search in parsed.SEARCHES]
    return [(title, search()) for title, search in SEARCHES]


def main():
    for title, search in searches():
        found = list(search)
        per = collections.Counter(crate for crate, _ in found)
        print(f"{title}: {len(found)}" + "".join(f"  {c} {n}" for c, n in sorted(per.items())))
        if "-v" in sys.argv[1:]:
            for _, place in found:
                print("    " + place)


if __name__ == "__main__":
    main()
