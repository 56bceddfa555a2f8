#!/usr/bin/env python3
"""Changes the builder of make_runs.py in one place at a time, and says how many expected lines then differ.

    python3 tests/mutate_runs.py    exit 1 if a change that should be seen is not, or one that cannot be seen is

A change is made in the text, so each place must stand there once. Hand-made cases are not held to their answers here.
"""
from mutations import report

# Name, what stands in the text, what stands there instead.
CHANGES = [
    # Refusals 8 and 9.
    ('measure: 65,535 elements', "bounds.elements > 65535", "bounds.elements > 65534"),
    ('measure: 65,536 elements', "bounds.elements > 65535", "bounds.elements > 65536"),
    ('measure: 1,048,575 edges', "bounds.edges > 1048575", "bounds.edges > 1048574"),
    ('measure: 1,048,576 edges', "bounds.edges > 1048575", "bounds.edges > 1048576"),
    ('measure: 65,535 rounds', "bounds.rounds > 65535", "bounds.rounds > 65534"),
    ('measure: 65,536 rounds', "bounds.rounds > 65535", "bounds.rounds > 65536"),
    ('measure: phase 0', "last not in (1, 2, 3, 4))", "last not in (0, 1, 2, 3, 4))"),
    ('measure: phase 5', "last not in (1, 2, 3, 4))", "last not in (1, 2, 3, 4, 5))"),
    ('measure: a phase of one byte', "last not in (1, 2, 3, 4))", "last % 256 not in (1, 2, 3, 4, 0))"),
    ('measure: before the deck', "    accept(data)\n    refuse(8",
     "    refuse(8, last == 0)\n    accept(data)\n    refuse(8"),
    ('room: before the measure', "    refuse(8, bounds.elements",
     "    refuse(9, any(lent < least for lent, least in zip(room, need(Reader(data), bounds))))\n"
     "    refuse(8, bounds.elements"),
    ('room: no element over the bound', "max(count['classes'], bounds.elements) + 1",
     "max(count['classes'], bounds.elements)"),
    ('room: for the bound only', "max(count['classes'], bounds.elements) + 1", "bounds.elements + 1"),
    ('room: for the classes only', "max(count['classes'], bounds.elements) + 1", "count['classes'] + 1"),
    ('room: no edge over the bound', "bounds.edges + 1, 0,", "bounds.edges, 0,"),
    ('room: one more edge', "bounds.edges + 1, 0,", "bounds.edges + 2, 0,"),
    ('room: a log', "bounds.edges + 1, 0,", "bounds.edges + 1, 3,"),
    ('room: three words a verdict', "4 * count['axioms'])", "3 * count['axioms'])"),
    ('room: five words a verdict', "4 * count['axioms'])", "5 * count['axioms'])"),
    ('room: a label word too many', "return (classes + 63) // 64", "return classes // 64 + 1"),
    ('room: a label word too few', "return (classes + 63) // 64", "return max(classes // 64, 1)"),
    # The top floor.
    ('floor: on every label', "if not any(k < self.deck.real for k in label):", "if True:"),
    ('floor: on none', "if not any(k < self.deck.real for k in label):", "if False:"),
    ('floor: class M is real', "any(k < self.deck.real for k in label)", "any(k <= self.deck.real for k in label)"),
    ('floor: on empty labels only', "if not any(k < self.deck.real for k in label):", "if not label:"),
    ('floor: equal labels are looked for before it',
     "            label = label | self.floor\n        if label not in self.labels:\n"
     "            self.labels.append(label)\n        return self.labels.index(label)\n",
     "            whole = label | self.floor\n        else:\n            whole = label\n"
     "        if label not in self.labels:\n            self.labels.append(whole)\n"
     "            return len(self.labels) - 1\n        return self.labels.index(label)\n"),
    ('floor: unsatisfiable atoms too', "if self.is_satisfiable(atom):", "if True:"),
    ('floor: the atoms without their rows', "joined |= self.row(atom)", "joined |= {atom}"),
    ('floor: the last axiom only',
     "            supers = []\n",
     "            supers = []\n            joined = set()\n"),
    ('floor: not by SubClassOf', "if tag == SUB_CLASS and self.is_universal(x):", "if False:"),
    ('floor: not by EquivalentClasses',
     "if tag == EQUIVALENT and any(self.is_universal(member) for member in self.listed(x, y)):", "if False:"),
    ('floor: EquivalentClasses of universal ones first',
     "and any(self.is_universal(member) for member in self.listed(x, y)):",
     "and any(self.is_universal(member) for member in self.listed(x, y)[:1]):"),
    ('universal: the empty And is not', "(tag == AND and all(", "(tag == AND and y > 0 and all("),
    ('universal: an And with one universal operand', "(tag == AND and all(", "(tag == AND and any("),
    ('universal: no And is', "(tag == AND and all(", "(False and all("),
    ('universal: whatever has no atoms', "return tag == TOP or (", "return tag not in (ATOMIC, AND) or ("),
    ('atoms: of the first operand', "for operand in self.listed(x, y) for atom in self.atoms(operand)]",
     "for operand in self.listed(x, y)[:1] for atom in self.atoms(operand)]"),
    ('atoms: not through Ands', "            return [atom for operand in self.listed(x, y) for atom in",
     "            return [atom for operand in self.listed(x, y)\n                    "
     "if self.deck.parts['concepts'][operand][0] == ATOMIC for atom in"),
    ('atoms: the other way round', "            return [atom for operand in self.listed(x, y) for atom in",
     "            return [atom for operand in self.listed(x, y)[::-1] for atom in"),
    ('atoms: without repetitions', "        atoms, joined, closed = self.atoms(body), set(), True",
     "        atoms, joined, closed = list(dict.fromkeys(self.atoms(body))), set(), True"),
    # Seeding.
    ('seed: real classes only', "sorted(set(range(self.deck.real)) | of_facts)", "sorted(set(range(self.deck.real)))"),
    ('seed: classes of facts only', "sorted(set(range(self.deck.real)) | of_facts)", "sorted(of_facts)"),
    ('seed: all classes', "sorted(set(range(self.deck.real)) | of_facts)", "range(self.deck.count['classes'])"),
    ('seed: sources of facts only', "for k in (one, other)}", "for k in (one,)}"),
    ('seed: targets of facts only', "for k in (one, other)}", "for k in (other,)}"),
    ('seed: real classes first', "in sorted(set(range(self.deck.real)) | of_facts)",
     "in [*range(self.deck.real), *sorted(of_facts, reverse=True)]"),
    ('seed: unsatisfiable classes too', "            if self.is_satisfiable(k):\n                self.intern",
     "            if True:\n                self.intern"),
    ('seed: equal labels are two elements', "                self.intern(self.row(k))\n",
     "                self.labels.append(self.row(k))\n"),
    # Targets.
    ('target: one range class is enough', "if self.ranges(role) <= self.row(y):",
     "if not self.ranges(role) or self.ranges(role) & self.row(y):"),
    ('target: ranges do not count', "if self.ranges(role) <= self.row(y):", "if True:"),
    ('target: q first', "if self.ranges(role) <= self.row(y):",
     "if (y, role) not in self.injected and self.ranges(role) <= self.row(y):"),
    ('target: y and q joined', "            return self.row(q)\n", "            return self.row(q) | self.row(y)\n"),
    ('target: an unsatisfiable q as none', "        q = self.injected[y, role]\n",
     "        q = self.injected[y, role]\n        if not self.is_satisfiable(q):\n            return None\n"),
    ('target: an unsatisfiable q gives its row', "        self.note(RUN_DELTA, y, 0)\n        return self.row(y)",
     "        self.note(RUN_DELTA, y, 0)\n        return self.row(q)"),
    ('target: no RunDelta', "        self.note(RUN_DELTA, y, 0)\n", ""),
    ('target: RunDelta names q', "self.note(RUN_DELTA, y, 0)", "self.note(RUN_DELTA, q, 0)"),
    ('target: RunDelta names the role', "self.note(RUN_DELTA, y, 0)", "self.note(RUN_DELTA, y, role)"),
    # Expand.
    ('expand: the lowest first', "element = max(waiting)", "element = min(waiting)"),
    ('expand: new elements last', "element = max(waiting)",
     "element = max(waiting, key=lambda e: (e < seeds, e))"),
    ('expand: new elements are not taken', "            waiting |= set(range(known, len(self.labels)))\n", ""),
    ('expand: classes fall', "for k in sorted(self.labels[element]):", "for k in sorted(self.labels[element])[::-1]:"),
    ('expand: facts in order',
     "for k in sorted(self.labels[element]):\n"
     "                for _, role, y in [fact for fact in self.deck.parts['facts'] if fact[0] == k]:",
     "for k in [0]:\n                for _, role, y in [fact for fact in self.deck.parts['facts'] if fact[0] in "
     "self.labels[element]]:"),
    ('expand: facts by role', "in [fact for fact in self.deck.parts['facts'] if fact[0] == k]:",
     "in sorted(fact for fact in self.deck.parts['facts'] if fact[0] == k):"),
    ('expand: an edge where it is not closed', "                        self.note(NOT_CLOSED, y, role)\n",
     "                        self.note(NOT_CLOSED, y, role)\n"
     "                        self.reach(element, role, self.row(y))\n"),
    ('expand: no LabelNotClosed', "                        self.note(NOT_CLOSED, y, role)\n",
     "                        pass\n"),
    ('expand: LabelNotClosed names the source', "self.note(NOT_CLOSED, y, role)", "self.note(NOT_CLOSED, k, role)"),
    ('expand: LabelNotClosed once', "                        self.note(NOT_CLOSED, y, role)\n",
     "                        if (NOT_CLOSED, y, role) not in self.reasons:\n"
     "                            self.note(NOT_CLOSED, y, role)\n"),
    # Bounds.
    ('elements: the bound itself trips', "len(self.labels) > self.bounds.elements",
     "len(self.labels) >= self.bounds.elements"),
    ('elements: one over the bound', "len(self.labels) > self.bounds.elements",
     "len(self.labels) > self.bounds.elements + 1"),
    ('elements: known labels do not trip', "        other = self.intern(label)\n        if len(self.labels) >",
     "        known = len(self.labels)\n        other = self.intern(label)\n"
     "        if len(self.labels) > known and len(self.labels) >"),
    ('elements: tested after the edge',
     "        if len(self.labels) > self.bounds.elements:\n"
     "            self.trip(ELEMENTS, self.bounds.elements)\n        self.add_edge(role, one, other)\n",
     "        self.add_edge(role, one, other)\n        if len(self.labels) > self.bounds.elements:\n"
     "            self.trip(ELEMENTS, self.bounds.elements)\n"),
    ('elements: what was added goes', "            self.trip(ELEMENTS, self.bounds.elements)",
     "            del self.labels[max(self.bounds.elements, other):]\n"
     "            self.trip(ELEMENTS, self.bounds.elements)"),
    ('elements: seeds trip', "                self.intern(self.row(k))\n",
     "                self.intern(self.row(k))\n        if len(self.labels) > self.bounds.elements:\n"
     "            self.note(TRIPPED, ELEMENTS, self.bounds.elements)\n"),
    ('edges: the bound itself trips', "len(self.edges) > self.bounds.edges:", "len(self.edges) >= self.bounds.edges:"),
    ('edges: one over the bound', "len(self.edges) > self.bounds.edges:", "len(self.edges) > self.bounds.edges + 1:"),
    ('edges: known edges trip', "                self.trip(EDGES, self.bounds.edges)\n",
     "                self.trip(EDGES, self.bounds.edges)\n        elif len(self.edges) >= self.bounds.edges:\n"
     "            self.trip(EDGES, self.bounds.edges)\n"),
    ('edges: the last goes', "                self.trip(EDGES, self.bounds.edges)\n",
     "                self.edges.pop()\n                self.trip(EDGES, self.bounds.edges)\n"),
    ('edges: known ones are added again', "if (role, one, other) not in self.edges:",
     "if (role, one, other) not in self.edges[-1:]:"),
    ('bounds: numbered from 1', "ELEMENTS, EDGES, ROUNDS = 0, 1, 2", "ELEMENTS, EDGES, ROUNDS = 1, 2, 3"),
    ('bounds: the count in place of the limit', "self.trip(EDGES, self.bounds.edges)",
     "self.trip(EDGES, len(self.edges))"),
    ('rounds: one more', "if grew and rounds >= self.bounds.rounds:", "if grew and rounds > self.bounds.rounds:"),
    ('rounds: trips without growth', "if grew and rounds >= self.bounds.rounds:", "if rounds >= self.bounds.rounds:"),
    ('rounds: 0 runs none', "        rules, rounds, grew = self.class_rules(), 0, True\n",
     "        rules, rounds, grew = self.class_rules(), 0, self.bounds.rounds > 0\n"),
    ('rounds: never trips', "if grew and rounds >= self.bounds.rounds:", "if False:"),
    ('rounds: another after one that added edges only', "grew = len(self.labels) > present",
     "grew = len(self.labels) > present or len(self.edges) > linked"),
    ('rounds: one only', "grew = len(self.labels) > present", "grew = False"),
    # Rules of classes.
    ('rules: pairs turned', "(one, other) for one in self.listed(x, y) for other in self.listed(x, y) if one != other",
     "(one, other) for other in self.listed(x, y) for one in self.listed(x, y) if one != other"),
    ('rules: neighbours only',
     "(one, other) for one in self.listed(x, y) for other in self.listed(x, y) if one != other",
     "(one, other) for one, other in zip(self.listed(x, y), self.listed(x, y)[1:]) if one != other"),
    ('rules: equal members too', "for other in self.listed(x, y) if one != other]", "for other in self.listed(x, y)]"),
    ('rules: each pair once', "                pairs += [(one, other) for one in self.listed(x, y)",
     "                pairs += [(one, other) for one in dict.fromkeys(self.listed(x, y))"),
    ('rules: not by EquivalentClasses',
     "            if tag == EQUIVALENT:\n                pairs",
     "            if False:\n                pairs"),
    ('rules: not by SubClassOf',
     "            if tag == SUB_CLASS:\n                pairs",
     "            if False:\n                pairs"),
    ('rules: not of universal ones', "if self.atoms(sub) or self.is_universal(sub)]", "if self.atoms(sub)]"),
    ('rules: of all', "if self.atoms(sub) or self.is_universal(sub)]", "]"),
    ('rules: one atom is enough', "if atoms <= self.labels[element]:", "if not atoms or atoms & self.labels[element]:"),
    ('rules: before elements',
     "            for element in range(present):\n                for atoms, consequent in rules:\n",
     "            for atoms, consequent in rules:\n                for element in range(present):\n"),
    ('rules: new elements in the same round', "            for element in range(present):\n",
     "            for element in each(self.labels):\n"),
    ('rules: on new elements only in later rounds',
     "            for element in range(present):\n",
     "            for element in range(seen if rounds else 0, present):\n"),
    ('rules: elements fall', "            for element in range(present):\n",
     "            for element in range(present)[::-1]:\n"),
    # Working a consequent.
    ('work: the first operand only', "            for operand in self.listed(x, y):\n                self.work",
     "            for operand in self.listed(x, y)[:1]:\n                self.work"),
    ('work: operands turned', "            for operand in self.listed(x, y):\n                self.work",
     "            for operand in self.listed(x, y)[::-1]:\n                self.work"),
    ('work: no And', "        if tag == AND:\n            for operand", "        if False:\n            for operand"),
    ('work: an inverse Some', "if tag == SOME and not is_inverse(x):", "if tag == SOME:"),
    ('work: All too', "if tag == SOME and not is_inverse(x):", "if tag in (SOME, ALL) and not is_inverse(x):"),
    ('work: Or too',
     "        if tag == AND:\n            for operand",
     "        if tag in (AND, OR):\n            for operand"),
    ('work: not the body', "self.work(self.reach(element, role_of(x), self.body_label(y, role_of(x))), y)",
     "self.reach(element, role_of(x), self.body_label(y, role_of(x)))"),
    ('work: the body from the source', "self.work(self.reach(element, role_of(x), self.body_label(y, role_of(x))), y)",
     "self.reach(element, role_of(x), self.body_label(y, role_of(x)))\n            self.work(element, y)"),
    ('work: not the body of a known edge',
     "self.work(self.reach(element, role_of(x), self.body_label(y, role_of(x))), y)",
     "known = len(self.edges)\n"
     "            other = self.reach(element, role_of(x), self.body_label(y, role_of(x)))\n"
     "            if len(self.edges) > known:\n                self.work(other, y)"),
    ('body: names the atom that is not closed', "self.note(NOT_CLOSED, atoms[0], role)",
     "self.note(NOT_CLOSED, [a for a in atoms if not self.ranges(role) <= self.row(a)][0], role)"),
    ('body: one LabelNotClosed an atom', "label, closed = self.row(atom), False",
     "label = self.row(atom)\n                self.note(NOT_CLOSED, atom, role)"),
    ('body: LabelNotClosed before the rest', "                label, closed = self.row(atom), False",
     "                label = self.row(atom)\n"
     "                if (NOT_CLOSED, atoms[0], role) not in self.reasons[before:]:\n"
     "                    self.note(NOT_CLOSED, atoms[0], role)"),
    ('body: an atom without q gives nothing', "label, closed = self.row(atom), False", "label, closed = set(), False"),
    ('body: no LabelNotClosed', "        if not closed:\n", "        if False:\n"),
    ('body: without atoms empty', "set().union(*[self.row(k) for k in self.ranges(role)])", "set()"),
    ('body: without atoms the range classes', "set().union(*[self.row(k) for k in self.ranges(role)])",
     "set(self.ranges(role))"),
    ('body: satisfiable range classes only', "for k in self.ranges(role)])",
     "for k in self.ranges(role) if self.is_satisfiable(k)])"),
    ('body: ranges joined always', "return joined if atoms else set()",
     "return joined | self.ranges(role) if atoms else set()"),
    # Closing.
    ('closing: one pass', "            grew = len(self.edges) > before\n", "            grew = False\n"),
    ('closing: edges of b fixed for a walk', "                for x, y in self.pairs(a):\n                    "
     "for y_, z in self.pairs(b):",
     "                fixed = self.pairs(b)\n                for x, y in self.pairs(a):\n                    "
     "for y_, z in fixed:"),
    ('closing: pairs oldest first', "return sorted({(one, other) for bucket, one, other in self.edges if bucket in "
     "self.sub_roles(role)})",
     "return list(dict.fromkeys((one, other) for bucket, one, other in self.edges if bucket in self.sub_roles(role)))"),
    ('closing: own edges only', "if bucket in self.sub_roles(role)})", "if bucket == role})"),
    ('closing: own edges of sup only', "(x, z) not in self.pairs(sup):", "(sup, x, z) not in self.edges:"),
    ('closing: sub-roles of sub-roles', "if bucket in self.sub_roles(role)})",
     "if any(bucket in self.sub_roles(r) for r in self.sub_roles(role))})"),
    ('closing: links turned', "for a, b, sup in self.link_rules():", "for b, a, sup in self.link_rules():"),
    ('closing: rules turned', "in self.link_rules():", "in self.link_rules()[::-1]:"),
    ('closing: no chains',
     "            if tag == CHAIN and y == 2:\n                words",
     "            if False:\n                words"),
    ('closing: no transitive roles', "            if tag == TRANSITIVE:\n", "            if False:\n"),
    ('closing: three links as two',
     "            if tag == CHAIN and y == 2:\n                words.append((*self.listed(x, y), z))",
     "            if tag == CHAIN and y >= 2:\n                words.append((*self.listed(x, 2), z))"),
    ('closing: inverse words as named', "for rule in words if not any(map(is_inverse, rule))]", "for rule in words]"),
    ('closing: an inverse sup', "for rule in words if not any(map(is_inverse, rule))]",
     "for rule in words if not any(map(is_inverse, rule[:2]))]"),
    ('closing: loops are left out', "if y == y_ and (x, z) not in", "if y == y_ and x != z and (x, z) not in"),
    # Phases, reasons, outcome.
    ('phases: one more', "[:last - 1]:", "[:last]:"),
    ('phases: all', "[:last - 1]:", "[:]:"),
    ('phases: a trip ends only its own',
     "        try:\n            for phase in (self.expand, self.expand_from_axioms, self.close)[:last - 1]:\n"
     "                phase()\n        except Tripped:\n            pass\n",
     "        for phase in (self.expand, self.expand_from_axioms, self.close)[:last - 1]:\n"
     "            try:\n                phase()\n            except Tripped:\n                pass\n"),
    ('dropped: never', "        if self.deck.dropped > 0:\n", "        if False:\n"),
    ('dropped: of 0 too', "        if self.deck.dropped > 0:\n", "        if True:\n"),
    ('dropped: not after a trip', "        if self.deck.dropped > 0:\n",
     "        if self.deck.dropped > 0 and not any(r[0] == TRIPPED for r in self.reasons):\n"),
    ('dropped: in phase 4 only',
     "        if self.deck.dropped > 0:\n",
     "        if self.deck.dropped > 0 and last == 4:\n"),
    ('dropped: given first', "            self.note(DROPPED, self.deck.dropped, 0)",
     "            self.reasons.insert(0, (DROPPED, self.deck.dropped, 0))"),
    ('outcome: open before failed', "'failed' if 1 in kinds else 'open' if made.reasons or kinds - {0} else",
     "'open' if made.reasons or kinds - {0, 1} else 'failed' if 1 in kinds else"),
    ('outcome: reasons do not count', "if made.reasons or kinds - {0} else", "if kinds - {0} else"),
    ('outcome: verdicts do not count', "if made.reasons or kinds - {0} else", "if made.reasons else"),
    ('outcome: an empty structure is open', "if made.reasons or kinds - {0} else",
     "if made.reasons or kinds - {0} or not made.labels else"),
    ('outcome: guarded roles do not count', "if made.reasons or kinds - {0} else",
     "if made.reasons or kinds - {0, 4} else"),
    ('log: the last reasons', "flat(found.reasons[:room.log // 3])",
     "flat(found.reasons[max(0, len(found.reasons) - room.log // 3):])"),
    ('log: cut to its words', "flat(found.reasons[:room.log // 3])", "flat(found.reasons)[:room.log]"),
    ('log: the total is what is kept', "len(found.edges), len(found.reasons))",
     "len(found.edges), min(len(found.reasons), room.log // 3))"),
]

# Changes that no run can show: readings 35 and 36; and a label without a real class that is there has the floor in it.
SILENT = [
    ('floor: equal labels are looked for before it too', "        if not any(k < self.deck.real for k in label):",
     "        if label in self.labels:\n            return self.labels.index(label)\n"
     "        if not any(k < self.deck.real for k in label):"),
    ('floor: universal members too', "for member in self.listed(x, y) if not self.is_universal(member)]",
     "for member in self.listed(x, y)]"),
    ('closing: the test for an edge fixed before the walk', "                for x, y in self.pairs(a):\n",
     "                fixed = self.pairs(sup)\n                for x, y in self.pairs(a):\n"),
    ('atoms: a rule reads them with repetitions', "(set(self.atoms(sub)), sup)", "(set(self.atoms(sub) * 2), sup)"),
]


def prepared(text, new):
    """What some changes use."""
    if 'each(self.labels)' in new:
        text += '\n\ndef each(items):\n    k = 0\n    while k < len(items):\n        yield k\n        k += 1\n'
    if 'e < seeds' in new:
        text = text.replace("        waiting = set(range(len(self.labels)))\n",
                            "        seeds = len(self.labels)\n        waiting = set(range(seeds))\n")
    if 'linked' in new:
        text = text.replace("            present = len(self.labels)\n",
                            "            present, linked = len(self.labels), len(self.edges)\n")
    if 'range(seen if' in new:
        text = text.replace("            grew = len(self.labels) > present\n",
                            "            grew, seen = len(self.labels) > present, present\n")
    if 'self.reasons[before:]' in new:
        text = text.replace("        atoms, joined, closed = self.atoms(body), set(), True\n",
                            "        atoms, joined, closed = self.atoms(body), set(), True\n"
                            "        before = len(self.reasons)\n")
    if 'fixed = self.pairs(sup)' in new:
        text = text.replace("(x, z) not in self.pairs(sup):", "(x, z) not in fixed:")
    return text


if __name__ == '__main__':
    report('make_runs.py', CHANGES, SILENT, prepared)
