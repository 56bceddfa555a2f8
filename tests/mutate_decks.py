#!/usr/bin/env python3
"""Changes the reader of make_decks.py in one place at a time, and says how many expected answers then differ.

    python3 tests/mutate_decks.py    exit 1 if a change that should be seen is not, or one that cannot be seen is

A change is made in the text, so each place must stand there once. Hand-made cases are not held to their answers here.
"""
from mutations import report

HEAPS = "TAG, RANGE, FILLED = 12, 13, 14"
CHOICE = "found = min(faults, key=lambda fault: fault[0])"
LEAVES = "yield LEAVES, value, word"
FAULT = "(HEAPS.get(letter, RANGE), word) for letter, value, word in held"

# Name, what stands in the text, what stands there instead.
CHANGES = [
    ('heaps: 12 for 13', HEAPS, "TAG, RANGE, FILLED = 13, 12, 14"),
    ('heaps: 13 for 14', HEAPS, "TAG, RANGE, FILLED = 12, 14, 13"),
    ('heaps: 12 for 14', HEAPS, "TAG, RANGE, FILLED = 14, 13, 12"),
    ('heaps: a flag is a number out of range', "{'f': TAG, '-': FILLED}", "{'-': FILLED}"),
    ('heaps: a filled field is a number out of range', "{'f': TAG, '-': FILLED}", "{'f': TAG}"),
    ('heaps: the last heap first', CHOICE, "found = max(faults, key=lambda fault: fault[0])"),
    ('word: the last fault', CHOICE, "found = faults[-1]"),
    ('word: the first in the deck', CHOICE, "found = min(faults, key=lambda fault: fault[1])"),
    ('word: one more', "raise Refused(*found)", "raise Refused(found[0], found[1] + 1)"),
    ('word: one less', "raise Refused(*found)", "raise Refused(found[0], found[1] - 1)"),
    ('word: counted from the part', "self.start[part] + k * len(record)", "k * len(record)"),
    ('word: all records three words wide', "self.start[part] + k * len(record)", "self.start[part] + k * 3"),
    ('word: a list word counted from the lists', "self.words[k], self.start['lists'] + k", "self.words[k], k"),
    ('word: the start field for a list word', "self.words[k], self.start['lists'] + k", "self.words[k], word"),
    ('word: the tag for a field', FAULT,
     "(HEAPS.get(letter, RANGE), at - (len(fields) == 3)) for letter, value, word in held"),
    ('tag: told at the field after it', "first_fault([(TAG, at)])", "first_fault([(TAG, at + 1)])"),
    ('tag: fields told one word early', "forms[record[0]], at + 1, record[1:]", "forms[record[0]], at, record[1:]"),
    ('tag: all tags of concepts before their fields', "        for k, at, record in self.records('concepts'):\n",
     "        first_fault([(TAG, at) for _, at, record in self.records('concepts') if record[0] > 11])\n"
     "        for k, at, record in self.records('concepts'):\n"),
    ('tag: all tags of axioms before their fields', "        for _, at, record in self.records('axioms'):\n",
     "        first_fault([(TAG, at) for _, at, record in self.records('axioms') if record[0] > 25])\n"
     "        for _, at, record in self.records('axioms'):\n"),
    ('list: the count field for the start field', LEAVES, LEAVES + " + 1"),
    ('list: the first field for the start field', LEAVES, "yield LEAVES, value, at"),
    ("list: a row's second start for its first", LEAVES, LEAVES + " + 2 * (form == 'RK' and not place)"),
    ('list: an empty one may start anywhere', "if value + count > len", "if count and value + count > len"),
    ('list: one word too many', "if value + count > len", "if value + count > 1 + len"),
    ('list: a sum of 32 bits', "if value + count > len", "if (value + count) % (1 << 32) > len"),
    ('list: from its end', "in range(value, value + count)", "in reversed(range(value, value + count))"),
    ('list: its words after all fields', "held = list(self.held(form, at, fields))",
     "held = sorted(self.held(form, at, fields), key=lambda one: one[2] >= self.start['lists'])"),
    ('range: q below N', "'q': self.real", "'q': counts[0]"),
    ('range: role words below R', "'w': 2 * counts[1]", "'w': counts[1]"),
    ('range: flag 2', "'f': 2", "'f': 3"),
    ('order: 6 before 13 in classes', "            self.fit(CLASS_FORM, at, record)\n",
     "            self.rising(self.listed(*record[1:]))\n            self.fit(CLASS_FORM, at, record)\n"),
    ('order: 6 before 13 in roles', "            self.fit(ROLE_FORM, at, record)\n",
     "            self.rising(self.listed(*record[:2]))\n            self.fit(ROLE_FORM, at, record)\n"),
    ('order: 6 before 13 in injected', "            self.fit(INJECTED_FORM, at, record)\n",
     "            refuse(6, record[:2] <= last)\n            self.fit(INJECTED_FORM, at, record)\n"),
    ('order: 7 before 14 in concepts', "        for k, at, record in self.records('concepts'):\n",
     "        for k, at, record in self.records('concepts'):\n"
     "            refuse(7, record[0] == 5 and k <= record[1] < self.below['c'])\n"),
]

# "12 …, 13 …, 14 …, tested in that order" and "Fields are gone through in order" give the same.
SILENT = [('word: the first fault in the order of the fields', CHOICE, "found = faults[0]")]


if __name__ == '__main__':
    report('make_decks.py', CHANGES, SILENT)
