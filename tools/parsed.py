"""Reads .rt files item by item: enums, structs, impls and functions with their parameters, clauses and bodies.

A second way to find what tools/places.py finds by its text: here by the grammar, from tokens. Nothing is shared with that.
"""
import collections
import glob
import os
import re

ROOT = os.path.join(os.path.dirname(os.path.abspath(__file__)), "..", "crates")

TOKEN = re.compile(
    r"//[^\n]*|b?\"(?:\\.|[^\"\\])*\"|b?'(?:\\.|[^'\\])'|'[a-z_]\w*|«\w+»|[^\W\d]\w*|\d[\w]*"
    r"|::|->|=>|\.\.=|\.\.|&&|\|\||<=|>=|==|!=|\+=|-=|\*=|/=|\|=|<<|[^\s\w]",
    re.UNICODE)

OPEN = {"(": ")", "[": "]", "{": "}"}

NUMBERS = {"u8", "u16", "u32", "u64", "usize"}

# A name, its crate, file and line; what else is known of it.
Enum = collections.namedtuple("Enum", "at name variants")
Struct = collections.namedtuple("Struct", "at name fields")
Impl = collections.namedtuple("Impl", "at head")
Function = collections.namedtuple("Function", "at name params result requires cycle body")


class Tokens:
    """The tokens of a file, each with its line; comments are left out."""

    def __init__(self, text):
        self.all = []
        line = 1
        last = 0
        for found in TOKEN.finditer(text):
            line += text.count("\n", last, found.start())
            last = found.start()
            if not found.group().startswith("//"):
                self.all.append((found.group(), line))

    def __len__(self):
        return len(self.all)

    def word(self, i):
        return self.all[i][0] if i < len(self.all) else ""

    def line(self, i):
        return self.all[i][1]

    def close(self, i):
        """The place of the bracket that closes the one at i."""
        depth = 0
        for k in range(i, len(self.all)):
            if self.all[k][0] in OPEN:
                depth += 1
            elif self.all[k][0] in OPEN.values():
                depth -= 1
                if depth == 0:
                    return k
        raise ValueError("a bracket is not closed")

    def words(self, start, end):
        return [w for w, _ in self.all[start:end]]


def split(words, at=","):
    """The words between commas that stand in no bracket."""
    parts, part, depth = [], [], 0
    for i, w in enumerate(words):
        if w in OPEN or w == "<":
            depth += 1
        elif w in OPEN.values() or (w == ">" and words[i - 1] != "-"):
            depth -= 1
        if w == at and depth == 0:
            parts.append(part)
            part = []
        else:
            part.append(w)
    if part:
        parts.append(part)
    return parts


def typed(words):
    """Name and type of a field or parameter, without its attributes, `pub` and `mut`."""
    words = [w for w in words if w not in ("pub", "mut")]
    if words[:2] == ["(", "crate"]:
        words = words[3:]
    if ":" in words:
        k = words.index(":")
        return "".join(words[:k]), " ".join(words[k + 1:])
    return "self", " ".join(words)


def read_function(tokens, i, place, cycle):
    """The function whose `fn` stands at i, and the place after its body."""
    name = tokens.word(i + 1)
    k = i + 2
    if tokens.word(k) == "<":
        depth = 0
        while True:
            depth += {"<": 1, ">": -1}.get(tokens.word(k), 0)
            k += 1
            if depth == 0:
                break
    end = tokens.close(k)
    params = [typed(p) for p in split(tokens.words(k + 1, end)) if p]
    k = end + 1
    result, requires = [], []
    while tokens.word(k) not in ("requires", "ensures", "{", ";"):
        result.append(tokens.word(k))
        k += 1
    while tokens.word(k) in ("requires", "ensures"):
        kind = tokens.word(k)
        while tokens.word(k) != "{":
            k += 1
        end = tokens.close(k)
        if kind == "requires":
            requires.append(tokens.words(k + 1, end))
        k = end + 1
    if tokens.word(k) == ";":
        return Function(place, name, params, result[1:], requires, cycle, []), k + 1
    end = tokens.close(k)
    body = tokens.all[k + 1:end]
    return Function(place, name, params, result[1:], requires, cycle, body), end + 1


def read_items(tokens, start, end, crate, file, found):
    i = start
    cycle = False
    while i < end:
        w = tokens.word(i)
        place = (crate, f"{crate}/{file}:{tokens.line(i)}")
        if w == "#":
            k = i + 1 + (tokens.word(i + 1) == "!")
            cycle = cycle or tokens.word(k + 1) == "cycle"
            i = tokens.close(k) + 1
        elif w == "ghost":
            while tokens.word(i) not in (";", "{"):
                i += 1
            if tokens.word(i) == "{":
                i = tokens.close(i)
            i += 1
        elif w == "fn":
            function, i = read_function(tokens, i, place, cycle)
            found.append(function)
            cycle = False
        elif w in ("enum", "struct"):
            name = tokens.word(i + 1)
            k = i + 2
            while tokens.word(k) not in ("{", ";", "("):
                k += 1
            if tokens.word(k) == ";":
                i = k + 1
                continue
            close = tokens.close(k)
            parts = [p for p in split(tokens.words(k + 1, close)) if p and "ghost" not in p]
            if w == "enum":
                found.append(Enum(place, name, [(p[0], split(p[2:-1]) if "(" in p else []) for p in parts]))
            elif tokens.word(k) == "{":
                found.append(Struct(place, name, [typed(p) for p in parts]))
            i = close + 1
        elif w in ("impl", "trait", "mod") and tokens.word(i + 2) != ";":
            k = i
            while tokens.word(k) != "{":
                k += 1
            close = tokens.close(k)
            if w == "impl":
                found.append(Impl(place, tokens.words(i + 1, k)))
            read_items(tokens, k + 1, close, crate, file, found)
            i = close + 1
        elif w in ("use", "const", "type", "mod"):
            while tokens.word(i) != ";":
                i = tokens.close(i) if tokens.word(i) in OPEN else i
                i += 1
            i += 1
        else:
            i += 1


def items():
    found = []
    for path in sorted(glob.glob(os.path.join(ROOT, "*", "src", "*.rt"))):
        crate, file = path.split(os.sep)[-3], os.path.basename(path)
        tokens = Tokens(open(path).read())
        read_items(tokens, 0, len(tokens), crate, file, found)
    return found


def blocks(body, keyword):
    """For each `keyword` in a body: its line, the words up to its `{`, and the block's words."""
    for i, (w, line) in enumerate(body):
        if w != keyword:
            continue
        k, depth = i + 1, 0
        while k < len(body) and not (body[k][0] == "{" and depth == 0):
            depth += (body[k][0] in "([") - (body[k][0] in ")]")
            k += 1
        start, depth = k, 0
        while k < len(body):
            depth += (body[k][0] == "{") - (body[k][0] == "}")
            if depth == 0:
                break
            k += 1
        yield line, [x for x, _ in body[i + 1:start]], [x for x, _ in body[start + 1:k]]


def here(function, line=None):
    crate, at = function.at
    return crate, (at if line is None else at.rsplit(":", 1)[0] + f":{line}") + f": {function.name}"


def functions(all_items):
    return [x for x in all_items if isinstance(x, Function)]


def enums(all_items):
    for e in all_items:
        if isinstance(e, Enum):
            full = sum(1 for _, fields in e.variants if fields)
            shape = ""
            if len(e.variants) == 2:
                shape = ", of the shape of " + ("Option" if full == 1 else "Result" if full == 2 else "bool")
            yield e.at[0], f"{e.at[1]}: {e.name}, {len(e.variants)} variants{shape}"


def flags(all_items):
    for s in all_items:
        if isinstance(s, Struct) and len(s.fields) > 1:
            for name, kind in s.fields:
                if kind == "bool":
                    yield s.at[0], f"{s.at[1]}: {s.name}.{name}"


def number_kinds(all_items):
    """Matches on a number with three or more numbers among their arms; numbers in variants."""
    for f in functions(all_items):
        for line, head, block in blocks(f.body, "match"):
            arms = [i for i, w in enumerate(block) if w == "=>"]
            numbers = [i for i in arms if re.fullmatch(r"\d\w*", block[i - 1]) and (i < 2 or block[i - 2] in (",", "}", ";", "{", "|"))]
            numbers += [0] * (block[1:2] == ["=>"] and not numbers)
            if len(numbers) >= 3:
                yield here(f, line)[0], f"{here(f, line)[1]}: match {' '.join(head)}, {len(numbers)} numbers"
    for e in all_items:
        if isinstance(e, Enum):
            for name, fields in e.variants:
                if any(field in [[n] for n in NUMBERS] for field in fields):
                    yield e.at[0], f"{e.at[1]}: {e.name}::{name}"


def searches(all_items):
    """Functions that answer a number, from within a loop or else after it."""
    for f in functions(all_items):
        if len(f.result) == 1 and f.result[0] in NUMBERS:
            inner = [b for k in ("for", "while", "loop") for _, _, b in blocks(f.body, k)]
            if any("return" in b for b in inner):
                yield here(f)


def rooms(all_items):
    """Arrays of a size that is written as a number above 16, made in a function: `[x; 64]`, but no type `[u64; 64]`."""
    for f in functions(all_items):
        words = [w for w, _ in f.body]
        for i, w in enumerate(words[:-2]):
            size = re.fullmatch(r"(\d+)\w*", words[i + 1])
            is_type = words[i - 1] in NUMBERS or (words[i - 1] == "]" and words[i - 4] in NUMBERS)
            if w == ";" and size and words[i + 2] == "]" and int(size.group(1)) > 16 and not is_type:
                yield here(f, f.body[i][1])


def frames(all_items):
    """Functions outside a cycle that call themselves."""
    for f in functions(all_items):
        words = [w for w, _ in f.body]
        if not f.cycle and any(w == f.name and words[i + 1:i + 2] == ["("] and words[i - 1] not in (".", "::") for i, w in enumerate(words)):
            yield here(f)


def shape(body):
    """The words of a body, with names by their first place and numbers left out."""
    seen, out = {}, []
    for w, _ in body:
        if re.match(r"\d", w):
            out.append("0")
        elif re.match(r"[^\W\d]", w) and w not in KEPT:
            out.append(f"n{seen.setdefault(w, len(seen))}")
        else:
            out.append(w)
    return tuple(out)


KEPT = {"if", "else", "for", "in", "while", "loop", "match", "return", "let", "mut", "break", "continue", "self", "true",
        "false", "as", "Some", "None", "Ok", "Err"}


def twins(all_items):
    """Functions whose bodies of 20 or more words are alike but for names and numbers."""
    alike = collections.defaultdict(list)
    for f in functions(all_items):
        if len(f.body) >= 20:
            alike[shape(f.body)].append(f)
    for group in alike.values():
        if len(group) > 1:
            yield group[0].at[0], f"{len(group)} alike: " + ", ".join(here(f)[1] for f in group)


def loops(all_items, by_hand):
    """Loops that are no `for`. By hand: a name of the condition moves by one in the body, or grows by a word of it."""
    for f in functions(all_items):
        for keyword in ("while", "loop"):
            for line, head, block in blocks(f.body, keyword):
                moved = {block[i - 1] for i, w in enumerate(block) if w in ("+=", "-=") and block[i + 1] == "1" and block[i + 2] == ";"}
                moved |= {block[i - 1] for i, w in enumerate(block[:-4]) if w == "=" and block[i + 1] == block[i - 1] and block[i + 2] in "+-" and block[i + 3] == "1"}
                if bool(moved & set(head)) == by_hand:
                    yield here(f, line)[0], f"{here(f, line)[1]}: {keyword} {' '.join(head)}"


TRAITS = {"PartialEq", "Eq", "PartialOrd", "Ord", "Clone", "Copy", "Hash", "Default", "Debug"}


def written(all_items):
    """Impls of what can be derived; functions of two values of one type that answer whether they are alike."""
    for x in all_items:
        if isinstance(x, Impl) and "for" in x.head and TRAITS & set(x.head[:x.head.index("for")]):
            yield x.at[0], f"{x.at[1]}: impl {' '.join(x.head)}"
    for f in functions(all_items):
        if f.result == ["bool"] and len(f.params) == 2 and f.params[0][1] == f.params[1][1] and f.params[0][1].lstrip("& ")[:1].isupper():
            yield here(f)
        words = [w for w, _ in f.body]
        for i, w in enumerate(words):
            right = re.match(r"\w+(?:\.\w+)*", "".join(words[i + 1:i + 9]))
            if w in ("==", "!=", "<", "<=", ">=", ">") and words[i - 2:i] == [".", "0"] and right and right.group().endswith(".0"):
                yield here(f, f.body[i][1])


def facts(all_items):
    where = collections.defaultdict(list)
    for f in functions(all_items):
        for clause in f.requires:
            where[re.sub(r" \. (old|now|entry)\b", "", " ".join(clause))].append(f)
    for fact, at in sorted(where.items(), key=lambda x: (-len(x[1]), x[0])):
        if len(at) >= 3:
            yield at[0].at[0], f"{len(at)} functions: {fact}"


def together(all_items):
    """Sets of four or more parameters, by name and type, that three or more functions have, each as large as they allow."""
    sets = collections.defaultdict(list)
    for f in functions(all_items):
        mine = frozenset((n, re.sub(r"' ?\w+ ", "", t)) for n, t in f.params if n != "self")
        if len(mine) >= 4:
            sets[mine].append(f)
    common = set(sets)
    grown = True
    while grown:
        more = {a & b for a in common for b in sets if len(a & b) >= 4} - common
        grown = bool(more)
        common |= more
    rows = {}
    for one in common:
        who = [f for mine, fs in sets.items() if one <= mine for f in fs]
        if len(who) >= 3:
            key = tuple(sorted(here(f)[1] for f in who))
            if key not in rows or len(one) > len(rows[key][0]):
                rows[key] = (one, who)
    for one, who in sorted(rows.values(), key=lambda x: (-len(x[1]), sorted(x[0]))):
        yield who[0].at[0], f"{len(who)} functions: " + ", ".join(sorted(n for n, _ in one))


def halvings(all_items):
    for f in functions(all_items):
        for keyword in ("while", "loop"):
            for line, _, block in blocks(f.body, keyword):
                if any(block[i:i + 3] == ["/", "2", ";"] for i in range(len(block))):
                    yield here(f, line)


def lengths(all_items):
    """Numbers that a clause bounds by the length of a slice beside them."""
    for f in functions(all_items):
        numbers = {n for n, t in f.params if t in NUMBERS}
        slices = {n for n, t in f.params if "[" in t}
        for clause in f.requires:
            text = " ".join(clause)
            for s in slices:
                if re.search(rf"≤ length {s}\b", text) and any(re.search(rf"\b{n}\b", text) for n in numbers):
                    yield here(f)[0], f"{here(f)[1]}: {text}"


def switches(all_items):
    """Matches of four or more arms on a number, each arm a call; parameters that are functions."""
    for f in functions(all_items):
        for line, head, block in blocks(f.body, "match"):
            arms = [i for i, w in enumerate(block) if w == "=>"]
            calls = [i for i in arms if re.match(r"[^\W\d]", (block[i + 1:i + 2] or [""])[0]) and "(" in block[i + 2:i + 5]]
            plain = [i for i in arms if re.fullmatch(r"\d\w*", block[i - 1])]
            if len(plain) >= 3 and len(calls) >= 3:
                yield here(f, line)


SEARCHES = [
    ("1 enums", enums),
    ("1 flags in structs", flags),
    ("1 numbers for kinds", number_kinds),
    ("1 numbers found in a loop", searches),
    ("2 rooms by size", rooms),
    ("2 functions that call themselves", frames),
    ("2 bodies that are alike", twins),
    ("3 loops counted by hand", lambda x: loops(x, True)),
    ("3 other while and loop", lambda x: loops(x, False)),
    ("4 comparisons and impls by hand", written),
    ("5 facts asked for in three or more functions", facts),
    ("5 parameters in three or more functions", together),
    ("6 searches by halving", halvings),
    ("6 lengths beside buffers", lengths),
    ("7 switches on a number", switches),
]
