#!/usr/bin/env python3
"""Finds the names that the pages speak of and that the sources no longer have.

    tools/names.py           each back-quoted name that is nowhere, with its page and line; ends with 1 if there is one
    tools/names.py -v        also how many names each page has
    tools/names.py PAGE..    these pages

A name is a word of what a page sets in back quotes: of a function, a definition, a law, a clause, an edit or a file. It is
there if a source has it as a word, outside comments, or if a file or folder is called so. In a row of a table that ends with
files, the names must stand in one of those files. Words that no source has, as those of the toolchain and of the original,
are listed below.
"""
import glob
import os
import re
import sys

ROOT = os.path.normpath(os.path.join(os.path.dirname(os.path.abspath(__file__)), ".."))

PAGES = ["README.md", "docs/THEOREMS.md", "docs/DECISIONS.md", "docs/DIFFERENCES.md", "docs/FORMAT.md"]

SOURCES = ["crates/*/src/*.rt", "crates/*/specs/**/*.antt", "crates/*/proofs/**/*.antt", "include/*.h", "examples/*",
           "bindings/**/*.rs", "bindings/**/*.toml", "tests/**/*.py", "tests/**/*.sh", "tests/**/*.c", "tests/**/*.rs",
           "tools/*.py", "crates.txt"]

WORD = re.compile(r"[^\W\d][\w'-]*", re.UNICODE)

COMMENT = {".rt": r"//[^\n]*", ".rs": r"//[^\n]*", ".c": r"//[^\n]*", ".h": r"//[^\n]*", ".antt": r"--[^\n]*"}

# Words of the toolchain and its commands, and of contracts.
TOOLS = "rt rattle rattle-kit-13f logic dac8208d650f15bf cargo run offline example cd sh bash backend objdump libbench_deck cmp " \
        "DBEFORE requires ensures"

# Words of the original, which stands outside this repository.
ORIGINAL = "label_ix by_sub build_model DroppedAxioms"


def words_of_sources():
    words = set()
    for pattern in SOURCES:
        for path in glob.glob(os.path.join(ROOT, pattern), recursive=True):
            if not os.path.isfile(path) or f"{os.sep}out{os.sep}" in path:
                continue
            text = open(path, errors="replace").read()
            text = re.sub(COMMENT.get(os.path.splitext(path)[1], r"(?!)"), "", text)
            words.update(WORD.findall(text))
    return words


def words_of_files():
    words = set()
    for folder, folders, files in os.walk(ROOT):
        folders[:] = [f for f in folders if f not in (".git", "out", "target")]
        for name in folders + files:
            words.update(WORD.findall(name))
    return words


def quoted(page):
    """The back-quoted pieces of a page, each with its line; blocks of code are left out."""
    for number, line in enumerate(open(os.path.join(ROOT, page)).read().split("\n"), 1):
        if not line.startswith("    "):
            for piece in re.findall(r"`([^`]+)`", line):
                yield number, piece


def rows(page):
    """The rows of a page's tables whose last cell names files: the line, those files, and the cells before."""
    for number, line in enumerate(open(os.path.join(ROOT, page)).read().split("\n"), 1):
        cells = line.strip("|").split("|") if line.startswith("|") else []
        files = re.findall(r"[\w/]+\.(?:antt|rt)\b", cells[-1]) if len(cells) > 2 else []
        if files:
            yield number, files, "|".join(cells[:-1])


def missing(page, known):
    """The names of a page that are nowhere, and those of its rows that stand in none of the row's files."""
    for number, piece in quoted(page):
        for word in WORD.findall(piece):
            if word not in known and word.rstrip("'-") not in known:
                yield f"{page}:{number}: {word}, of `{piece}`"
    for number, files, cells in rows(page):
        words = set(TOOLS.split()) | set(os.listdir(os.path.join(ROOT, "crates")))
        for file in files:
            path = os.path.join(ROOT, "crates", file)
            if os.path.exists(path):
                words.update(WORD.findall(open(path).read()))
            else:
                yield f"{page}:{number}: there is no file {file}"
        for piece in re.findall(r"`([^`]+)`", cells):
            for word in WORD.findall(piece):
                if word not in words:
                    yield f"{page}:{number}: {word}, of `{piece}`, is not in {', '.join(files)}"


def main():
    known = words_of_sources() | words_of_files() | set(TOOLS.split()) | set(ORIGINAL.split())
    gone = 0
    for page in [a for a in sys.argv[1:] if a != "-v"] or PAGES:
        for place in missing(page, known):
            gone += 1
            print(place)
        if "-v" in sys.argv[1:]:
            print(f"{page}: {sum(len(WORD.findall(piece)) for _, piece in quoted(page))} names")
    return 1 if gone else 0


if __name__ == "__main__":
    sys.exit(main())
