#!/usr/bin/env python3
"""Changes the evaluator of make_judgements.py in one place at a time, and says how many expected lines then differ.

    python3 tests/mutate_judgements.py    exit 1 if a change that should be seen is not, or one that cannot be seen is

A change is made in the text, so each place must stand there once. Hand-made cases are not held to their answers here.
"""
from mutations import report

# Name, what stands in the text, what stands there instead.
CHANGES = [
    # Judging.
    ('And: the first unresolved tag', "            if judged != TRUE:\n                standing = judged",
     "            if judged != TRUE and standing == TRUE:\n                standing = judged"),
    ('And: an unresolved operand ends it',
     "            if judged != TRUE:\n                standing = judged\n        return standing",
     "            if judged != TRUE:\n                return judged\n        return standing"),
    ('And: a false operand does not end it',
     "            if judged == FALSE:\n                return FALSE\n            if judged != TRUE",
     "            if judged != TRUE"),
    ('And: empty is false', "        standing = TRUE\n", "        standing = TRUE if operands else FALSE\n"),
    ('And: its last operand is skipped', "for operand in operands:", "for operand in operands[:-1]:"),
    ('And: named by its own tag',
     "                standing = judged\n        return standing\n\n    def judge_some",
     "                standing = AND\n        return standing\n\n    def judge_some"),
    ('Some: an inverse word is read as its role', "if tag == SOME and not is_inverse(x):", "if tag == SOME:"),
    ('Some: an inverse word is judged backwards', "        return tag\n\n    def judge_all",
     "        if tag == SOME:\n"
     "            return max([self.judge(y, one) for one, other in self.pairs[role_of(x)] if other == "
     "element], key=str, default=FALSE)\n        return tag\n\n    def judge_all"),
    ('Some: a role word is not halved', "return self.judge_some(role_of(x), y, element)",
     "return self.judge_some(min(x, len(self.pairs) - 1), y, element)"),
    ('Some: sub-roles are left out of successors',
     "        for target in [other for one, other in self.pairs[role] if one == element]:",
     "        for target in [other for one, other in self.own[role] if one == element]:"),
    ('Some: only the first successor', "if one == element]:", "if one == element][:1]:"),
    ('Some: predecessors for successors', "[other for one, other in self.pairs[role] if one == element]",
     "[one for one, other in self.pairs[role] if other == element]"),
    ('Some: an unresolved body is false', "            if judged != FALSE:\n                standing = judged",
     "            if judged != FALSE:\n                pass"),
    ('Some: named by its own tag', "            if judged != FALSE:\n                standing = judged",
     "            if judged != FALSE:\n                standing = SOME"),
    ('Or: judged as an And', "if tag == AND:", "if tag in (AND, OR):"),
    ('Not: judged', "        return tag\n\n    def judge_all",
     "        if tag == NOT:\n            return {TRUE: FALSE, FALSE: TRUE}.get(self.judge(x, element), NOT)\n"
     "        return tag\n\n    def judge_all"),
    # Edges.
    ('edges: sub-roles are left out', "if role in row}", "if role == len(self.pairs)}"),
    ('edges: sub-roles of sub-roles count', "            row = self.listed(start, count)\n",
     "            row = {t for s in self.listed(start, count) for t in "
     "self.listed(*self.deck.parts['roles'][s][:2])}\n"),
    ('edges: as listed', "sorted({(one, other) for role, one, other in used if role in row})",
     "list(dict.fromkeys((one, other) for role, one, other in used if role in row))"),
    ('edges: the newest first', "sorted({(one, other) for role, one, other in used if role in row})",
     "list(dict.fromkeys((one, other) for role, one, other in used[::-1] if role in row))"),
    ('edges: bucket by bucket', "sorted({(one, other) for role, one, other in used if role in row})",
     "list(dict.fromkeys(p for s in row for p in sorted((one, other) for role, one, other in used if role "
     "== s)))"),
    ('edges: by to then from', "if role in row}))", "if role in row}, key=lambda pair: pair[::-1]))"),
    ('edges: those past the count are used too', "used = lent.edges[:lent.edge_count]", "used = lent.edges"),
    ('edges: the last is left out', "used = lent.edges[:lent.edge_count]",
     "used = lent.edges[:max(0, lent.edge_count - 1)]"),
    # Class axioms.
    ('SubClassOf: the subclass is named first', "return sup if sup != FALSE else sub",
     "return sub if sub != TRUE else sup"),
    ('SubClassOf: an unresolved subclass under a true superclass is open',
     "        if sub == FALSE or sup == TRUE:\n            return FINE",
     "        if sub == FALSE or sub == sup == TRUE:\n            return FINE\n        if sup == TRUE:\n"
     "            return sub"),
    ('SubClassOf: a false subclass under an unresolved superclass is open', "if sub == FALSE or sup == TRUE:",
     "if (sub == FALSE and sup == FALSE) or sup == TRUE:"),
    ('SubClassOf: an unresolved subclass over a false superclass is broken', "if sub == TRUE and sup == FALSE:",
     "if sub != FALSE and sup == FALSE:"),
    ('elements: the first unresolved one counts',
     "            if outcome != FINE:\n                verdict = open_concept(outcome)",
     "            if outcome != FINE and verdict == HOLDS:\n                verdict = open_concept(outcome)"),
    ('elements: an unresolved one ends the walk',
     "            if outcome != FINE:\n                verdict = open_concept(outcome)",
     "            if outcome != FINE:\n                return open_concept(outcome)"),
    ('elements: the last failing one counts', "                return fails(witness)",
     "                verdict = fails(witness)\n                continue"),
    ('elements: the last is left out', "outcome([self.judge(c, e) for c in concepts])) for e in self.elements)",
     "outcome([self.judge(c, e) for c in concepts])) for e in self.elements[:-1])"),
    ('elements: a fine one takes the note back',
     "            if outcome != FINE:\n                verdict = open_concept(outcome)",
     "            verdict = open_concept(outcome) if outcome != FINE else HOLDS"),
    ('members: counted by number', "(e, outcome([self.judge(c, e) for c in concepts]))",
     "(e, outcome([self.judge(c, e) for c in dict.fromkeys(concepts)]))"),
    ('members: neighbours only', "        if len(known) == 2:",
     "        if any({a, b} == {TRUE, FALSE} for a, b in zip(judged, judged[1:])):"),
    ('EquivalentClasses: a lone unresolved member is open',
     "if unresolved and len(known) + len(unresolved) > 1 else FINE",
     "if unresolved else FINE"),
    ('EquivalentClasses: only two unresolved members are open',
     "if unresolved and len(known) + len(unresolved) > 1 else FINE",
     "if len(unresolved) > 1 else FINE"),
    ('EquivalentClasses: only known beside unresolved is open',
     "if unresolved and len(known) + len(unresolved) > 1 else FINE",
     "if unresolved and known else FINE"),
    ('EquivalentClasses: the first unresolved member is named',
     "        return unresolved[-1] if unresolved and len(known)",
     "        return unresolved[0] if unresolved and len(known)"),
    ('EquivalentClasses: an unresolved member comes before a break', "        if len(known) == 2:",
     "        if len(known) == 2 and not unresolved:"),
    ('DisjointClasses: true and unresolved is no doubt', "if unresolved and true + len(unresolved) > 1 else FINE",
     "if len(unresolved) > 1 else FINE"),
    ('DisjointClasses: a lone unresolved member is open', "if unresolved and true + len(unresolved) > 1 else FINE",
     "if unresolved else FINE"),
    ('DisjointClasses: two unresolved members are no doubt', "if unresolved and true + len(unresolved) > 1 else FINE",
     "if unresolved and true else FINE"),
    ('DisjointClasses: the first unresolved member is named', "        return unresolved[-1] if unresolved and true",
     "        return unresolved[0] if unresolved and true"),
    ('DisjointClasses: an unresolved member comes before a break', "        if true > 1:",
     "        if true > 1 and not unresolved:"),
    # Role axioms.
    ('chain: length other than two tested after inverse words', "if tag == CHAIN and y != 2:",
     "if tag == CHAIN and y != 2 and not any(is_inverse(w) for w in (*self.listed(x, y), z)):"),
    ('chain: one link is judged', "        if tag == CHAIN and y != 2:",
     "        if tag == CHAIN and y == 1 and not is_inverse(self.listed(x, y)[0]) and not is_inverse(z):\n"
     "            return self.first(pair for pair in self.pairs[role_of(self.listed(x, y)[0])] if pair "
     "not in self.pairs[role_of(z)])\n        if tag == CHAIN and y != 2:"),
    ('chain: no link holds', "        if tag == CHAIN and y != 2:",
     "        if tag == CHAIN and y == 0:\n            return HOLDS\n        if tag == CHAIN and y != 2:"),
    ('chain: links turned', "for x, y in self.pairs[a] for y_, z in self.pairs[b]",
     "for x, y in self.pairs[b] for y_, z in self.pairs[a]"),
    ('chain: witnesses without the middle', "return self.first((x, y, z) for x, y",
     "return self.first((x, z) for x, y"),
    ('chain: an inverse sup is judged', "CHAIN: (*self.listed(x, y), z)", "CHAIN: (*self.listed(x, y), z - z % 2)"),
    ('transitive: loops do not count', "if y == y_ and (x, z) not in", "if y == y_ and x != z and (x, z) not in"),
    ('transitive: own edges only', "return self.links(roles[0], roles[0], roles[0])",
     "self.pairs, kept = self.own, self.pairs\n        found = self.links(roles[0], roles[0], roles[0])\n"
     "        self.pairs = kept\n        return found"),
    ('SubObjectPropertyOf: an inverse sup is judged', "words = {SUB_ROLE: (x, y),",
     "words = {SUB_ROLE: (x, y - y % 2),"),
    ('SubObjectPropertyOf: turned', "for pair in self.pairs[roles[0]] if pair not in self.pairs[roles[1]])",
     "for pair in self.pairs[roles[1]] if pair not in self.pairs[roles[0]])"),
    ('EquivalentObjectProperties: a lone inverse word holds', "SAME_ROLES: self.listed(x, y),",
     "SAME_ROLES: self.listed(x, y) if y > 1 else (),"),
    ('EquivalentObjectProperties: neighbours only', "for m in roles for n in roles for pair",
     "for m, n in zip(roles, roles[1:]) for pair"),
    ('EquivalentObjectProperties: lowest pair of all',
     "            return self.first(pair for m in roles for n in roles for pair in self.pairs[m]\n"
     "                              if pair not in self.pairs[n])",
     "            return self.first(sorted(pair for m in roles for n in roles for pair in self.pairs[m]\n"
     "                                     if pair not in self.pairs[n]))"),
    ('EquivalentObjectProperties: members turned', "for m in roles for n in roles for pair",
     "for n in roles for m in roles for pair"),
    ('EquivalentObjectProperties: members turned back', "for m in roles for n in roles for pair",
     "for m in roles[::-1] for n in roles for pair"),
    ('guarded: the first role only', "(guarded(role) for role in roles if", "(guarded(role) for role in roles[:1] if"),
    ('guarded: the last role that has edges', "(guarded(role) for role in roles if",
     "(guarded(role) for role in roles[::-1] if"),
    ('guarded: both roles must have edges', "return next((guarded(role) for role in roles if self.pairs[role]), HOLDS)",
     "return guarded(roles[0]) if all(self.pairs[role] for role in roles) else HOLDS"),
    ('guarded: role word for role number', "(guarded(role) for", "(guarded(2 * role) for"),
    ('guarded: sub-roles do not count', "for role in roles if self.pairs[role])",
     "for role in roles if self.own[role])"),
    ('guarded: symmetric is judged', "        if tag in (SYMMETRIC, INVERSE_ROLES):",
     "        if tag == SYMMETRIC:\n"
     "            return self.first(p for p in self.pairs[roles[0]] if p[::-1] not in self.pairs[roles[0]])\n"
     "        if tag == INVERSE_ROLES:"),
    ('domain: the to is tested', "self.judge(y, one))) for one, _ in", "self.judge(y, one))) for _, one in"),
    ('range: the from is tested', "self.judge(y, other))) for _, other in", "self.judge(y, other))) for other, _ in"),
    ('range: lowest to first', "for _, other in self.pairs[roles[0]])",
     "for other in sorted({t for _, t in self.pairs[roles[0]]}))"),
    ('domain: unresolved is fine', "return {TRUE: FINE, FALSE: BROKEN}.get(judged, judged)",
     "return {FALSE: BROKEN}.get(judged, FINE)"),
    ('inverse words: judged as roles', "if any(is_inverse(word) for word in words):", "if False:"),
    ('inverse words: the first word only', "any(is_inverse(word) for word in words)",
     "any(is_inverse(word) for word in words[:1])"),
    ('inverse words: only where there are edges', "if any(is_inverse(word) for word in words):",
     "if any(is_inverse(word) and self.pairs[role_of(word)] for word in words):"),
    ('never judged: inverse words are named', "return open_axiom(tag)\n",
     "return open_axiom(tag, int(tag in range(13, 18) and is_inverse(x)))\n"),
    ('never judged: irreflexive holds without edges', "        if tag in NEVER_JUDGED:",
     "        if tag == IRREFLEXIVE and not self.pairs[role_of(x)]:\n            return HOLDS\n"
     "        if tag in NEVER_JUDGED:"),
    ('never judged: an empty list holds', "        if tag in NEVER_JUDGED:",
     "        if tag in (DISJOINT_ROLES, SAME, DIFFERENT) and y == 0:\n            return HOLDS\n"
     "        if tag in NEVER_JUDGED:"),
    ('never judged: holds without elements', "        if tag in NEVER_JUDGED:",
     "        if tag in NEVER_JUDGED and not self.elements:\n            return HOLDS\n"
     "        if tag in NEVER_JUDGED:"),
    ('declarations: open', "        if tag in DECLARATIONS:\n            return HOLDS",
     "        if tag in DECLARATIONS:\n            return open_axiom(tag)"),
    # Words.
    ('words: zeros after the witnesses', "return (1, *witnesses, BIG, BIG, BIG)[:4]",
     "return (1, *witnesses, 0, 0, 0)[:4]"),
    ('words: the concept tag one place later', "    return 3, tag, 0, 0", "    return 3, 0, tag, 0"),
    # Refusals.
    ('refusal: 11 before 10, of a concept', "found = world if shut else worded(lambda: world.answer_concept",
     "found = 'refused 11' if world == 'refused 10' and concept >= Reader(deck).count['concepts'] else "
     "world if shut else worded(lambda: world.answer_concept"),
    ('refusal: 11 before 10, of an element', "found = world if shut else worded(lambda: world.answer_concept",
     "found = 'refused 11' if world == 'refused 10' and element >= lent.elements else world if shut else "
     "worded(lambda: world.answer_concept"),
    ('refusal: 11 before 10, of an axiom', "found = world if shut else worded(lambda: world.answer_axiom",
     "found = 'refused 11' if world == 'refused 10' and axiom >= Reader(deck).count['axioms'] else world "
     "if shut else worded(lambda: world.answer_axiom"),
    ('refusal: at most 65,535 elements', "lent.elements > 65536", "lent.elements > 65535"),
    ('refusal: 65,537 elements', "lent.elements > 65536", "lent.elements > 65537"),
    ('refusal: a label word too many', "width = (classes + 63) // 64", "width = classes // 64 + 1"),
    ('refusal: a label word too few', "width = (classes + 63) // 64", "width = classes // 64"),
    ('refusal: always a label word', "width = (classes + 63) // 64", "width = max(1, (classes + 63) // 64)"),
    ('refusal: labels exactly as long', "lent.elements * width > len(lent.labels)",
     "lent.elements * width != len(lent.labels)"),
    ('refusal: labels may be a word short', "lent.elements * width > len(lent.labels)",
     "lent.elements * width > len(lent.labels) + 1"),
    ('refusal: bit N is free', "label >> classes != 0", "label >> classes > 1"),
    ('refusal: bit N - 1 is foreign', "label >> classes != 0",
     "label >> max(0, classes - 1) > (1 if classes % 2 else 0)"),
    ('refusal: no label bits are tested', "label >> classes != 0", "False"),
    ('refusal: the last word alone is tested', "any(label >> classes != 0 for label in self.labels)",
     "any(label >> classes != 0 for label in self.labels[-1:])"),
    ('refusal: labels past the count are tested', "any(label >> classes != 0 for label in self.labels)",
     "any(label >> classes != 0 for label in self.labels) or any(word >> (classes - 1) % 64 > 1 for word "
     "in lent.labels[lent.elements * width:])"),
    ('refusal: edges past the count are tested', "any(role >= roles for role, _, _ in used)",
     "any(role >= roles for role, _, _ in lent.edges)"),
    ('refusal: role R is free', "any(role >= roles for role, _, _ in used)",
     "any(role > roles for role, _, _ in used)"),
    ('refusal: the from is not tested', "any(one >= lent.elements or other >= lent.elements for",
     "any(other >= lent.elements for"),
    ('refusal: the to is not tested', "any(one >= lent.elements or other >= lent.elements for",
     "any(one >= lent.elements for"),
    ('refusal: an end at the count is free', "any(one >= lent.elements or other >= lent.elements for",
     "any(one > lent.elements or other > lent.elements for"),
    ('refusal: the last edge is not tested', "any(role >= roles for role, _, _ in used)",
     "any(role >= roles for role, _, _ in used[:-1])"),
    ('refusal: the first edge is not tested', "any(role >= roles for role, _, _ in used)",
     "any(role >= roles for role, _, _ in used[1:])"),
    ('refusal: edge count against the buffer', "lent.edge_count > len(lent.edges)", "False"),
    ('refusal: edge count equal to the buffer', "lent.edge_count > len(lent.edges)",
     "lent.edge_count >= max(1, len(lent.edges))"),
    ('refusal: concept at C', "concept >= self.deck.count['concepts'] or", "concept > self.deck.count['concepts'] or"),
    ('refusal: element at the count', "or element >= len(self.elements))", "or element > len(self.elements))"),
    ('refusal: axiom at A', "refuse(11, axiom >= self.deck.count['axioms'])",
     "refuse(11, axiom > self.deck.count['axioms'])"),
    ('refusal: the deck after the structure', "        accept(deck)\n",
     "        refuse(10, lent.edge_count > len(lent.edges))\n        accept(deck)\n"),
]

# Changes that no structure can show: those of a Some by reading 34; a pair that stands twice gives the same answers
# twice; and a product is tested only for 65,536 elements or fewer.
SILENT = [
    ('edges: a repeated pair stays', "sorted({(one, other) for role, one, other in used if role in row})",
     "sorted((one, other) for role, one, other in used if role in row)"),
    ('refusal: the product of 32 bits', "lent.elements * width > len(lent.labels)",
     "lent.elements * width % (1 << 32) > len(lent.labels)"),
    ('Some: an unresolved successor ends it', "            if judged != FALSE:\n                standing = judged",
     "            if judged != FALSE:\n                return judged"),
    ('Some: the first unresolved successor is named',
     "            if judged != FALSE:\n                standing = judged",
     "            if judged != FALSE and standing == FALSE:\n                standing = judged"),
    ('Some: a true successor after an unresolved one',
     "            if judged == TRUE:\n                return TRUE\n            if judged != FALSE",
     "            if judged == TRUE and standing == FALSE:\n                return TRUE\n"
     "            if judged != FALSE"),
]


def prepared(text, new):
    """Own edges of each role, for the changes that use them."""
    if 'self.own' in new:
        text = text.replace("        self.pairs = []\n",
                            "        self.pairs = []\n"
                            "        self.own = [sorted({(one, other) for role, one, other in used if role == k})\n"
                            "                    for k in range(roles)]\n")
    return text


if __name__ == '__main__':
    report('make_judgements.py', CHANGES, SILENT, prepared)
