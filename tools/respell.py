#!/usr/bin/env python3
"""Brings the repository's own definitions and lemmas to snake case: a word such as `labelWidth` becomes `label_width`.

usage: python3 tools/respell.py [--list]      at the top of the repository, once, after port.py

Turns every word of crates/ (specs/, proofs/, and the clauses and ghost items of src/) that begins in lower case and has a capital within.
Functions, types, exported names, strings, inputs and outputs have no such word and keep their names. A lemma whose name a definition takes gets the one in TAKEN.
With --list it writes nothing, and prints each word whose new spelling stands somewhere already.
"""
import os
import re
import sys

# lemmas whose name is the snake case of a definition that the same file cites: file, name, new name
TAKEN = [
    ("crates/deck/proofs/TableLaws.antt", "list_at", "list_at_lem"),
    ("crates/deck/proofs/FormLaws.antt", "list_at", "list_at_lem"),
    ("crates/deck/proofs/rows/item/Proof.antt", "list_at", "list_at_lem"),
    ("crates/eval/proofs/Agreeing.antt", "in_one", "in_one_lem"),
    ("crates/eval/proofs/VoteLaws.antt", "is_true", "is_true_lem"),
    ("crates/eval/proofs/VoteLaws.antt", "is_false", "is_false_lem"),
    ("crates/eval/proofs/VoteLaws.antt", "is_open", "is_open_lem"),
    ("crates/model/proofs/RunLaws.antt", "edges_fit", "edges_fit_lem"),
]

WORD = re.compile(r"[A-Za-z_\u0370-\u03ff\u2070-\u209c\u2115][\w'\u2032\u2070-\u209c]*(?:-[\w'\u2032\u2070-\u209c]+)*")
STRING = re.compile(r'b?"(?:\\.|[^"\\])*"')


def snake(part):
    if not re.match(r"[a-z][a-z0-9]*[A-Z]", part):
        return part
    out = re.sub(r"([a-z0-9])([A-Z])", r"\1_\2", part)
    out = re.sub(r"([A-Z])([A-Z][a-z])", r"\1_\2", out)
    return out.lower()


def turn(text):
    return WORD.sub(lambda m: "-".join(snake(p) for p in m.group(0).split("-")), text)


def turn_source(text):
    at, out = 0, []
    for m in STRING.finditer(text):
        out.append(turn(text[at:m.start()]))
        out.append(m.group(0))
        at = m.end()
    out.append(turn(text[at:]))
    return "".join(out)


def files():
    for folder, dirs, names in os.walk("crates"):
        dirs[:] = sorted(d for d in dirs if d != "out")
        for n in sorted(names):
            if n.endswith((".rt", ".antt")):
                yield os.path.join(folder, n)


def main():
    words, texts = {}, {}
    for p in files():
        with open(p, encoding="utf-8") as f:
            texts[p] = f.read()
    if "--list" in sys.argv:
        for p, t in texts.items():
            for m in WORD.finditer(t):
                for part in m.group(0).split("-"):
                    words.setdefault(part, set()).add(p)
                words.setdefault(m.group(0), set()).add(p)
        for w in sorted(words):
            if snake(w) != w and snake(w) in words:
                there = [p for p in words[snake(w)] if p.endswith(".antt")]
                both = [p for p in words[snake(w)] if p in words[w]]
                print(w, snake(w), "lemma files:", len(there), "with both:", " ".join(both[:6]))
        return
    for p, t in texts.items():
        new = t
        for file, name, lemma in TAKEN:
            if file == p:
                new = re.sub(rf"(?<![\w'-]){name}(?![\w'-])", lemma, new)
        new = turn_source(new)
        if new != t:
            with open(p, "w", encoding="utf-8") as f:
                f.write(new)


main()
