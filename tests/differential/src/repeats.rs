//! What is met more than once, added to a deck: edges of several sub-roles between the same elements, nested Somes,
//! operands shared on many levels, wide lists of classes and roles, axioms that come again. And lent edges that repeat.
use crate::generate::list;
use crate::parts::Parts;
use crate::rng::Rng;

/// The original judges what is shared again and again: no more than about so many steps at an element.
const STEPS: u64 = 2000;

/// Each in some decks, drawn after the rest of the deck, so that `replay` makes its own as before.
pub fn add(rng: &mut Rng, parts: &mut Parts) {
    if parts.classes.is_empty() {
        return;
    }
    let mut more = parts.clone();
    if rng.chance(18) {
        parallel(rng, &mut more);
    }
    if rng.chance(16) && !more.roles.is_empty() {
        nested(rng, &mut more);
    }
    if rng.chance(18) {
        shared(rng, &mut more);
    }
    if rng.chance(12) && !more.roles.is_empty() {
        wide(rng, &mut more);
    }
    if rng.chance(12) && !more.axioms.is_empty() {
        again(rng, &mut more);
    }
    if is_quick(&more, 2) {
        *parts = more;
    }
}

/// How many steps judging each concept at an element may take, with so many successors at each.
pub fn steps(parts: &Parts, successors: u64) -> Vec<u64> {
    let mut all: Vec<u64> = Vec::new();
    for concept in &parts.concepts {
        let below = match *concept {
            [6, start, count, _] => parts.list(start, count).iter().map(|operand| all[*operand as usize]).sum(),
            [8, _, body, _] => successors * all[body as usize],
            _ => 0,
        };
        all.push((1 + below).min(STEPS + 1));
    }
    all
}

fn is_quick(parts: &Parts, successors: u64) -> bool {
    steps(parts, successors).iter().sum::<u64>() <= STEPS
}

fn push(parts: &mut Parts, record: [u32; 4]) -> u32 {
    parts.concepts.push(record);
    parts.concepts.len() as u32 - 1
}

fn atom(rng: &mut Rng, parts: &mut Parts) -> u32 {
    let class = satisfiable(rng, parts);
    let known = parts.concepts.iter().position(|concept| *concept == [2, class, 0, 0]);
    known.map_or_else(|| push(parts, [2, class, 0, 0]), |at| at as u32)
}

/// A class, mostly one that a run seeds.
fn satisfiable(rng: &mut Rng, parts: &Parts) -> u32 {
    let end = if parts.real > 0 { parts.real as usize } else { parts.classes.len() };
    let seeded: Vec<u32> = (0..end as u32).filter(|k| parts.classes[*k as usize][0] == 0).collect();
    if seeded.is_empty() { rng.word(parts.classes.len()) } else { rng.pick(&seeded) }
}

/// An atom, or any concept.
fn base(rng: &mut Rng, parts: &mut Parts) -> u32 {
    if parts.concepts.is_empty() || rng.chance(50) { atom(rng, parts) } else { rng.word(parts.concepts.len()) }
}

fn named(rng: &mut Rng, parts: &Parts) -> u32 {
    2 * rng.word(parts.roles.len())
}

fn and(rng: &mut Rng, parts: &mut Parts, operands: &[u32]) -> u32 {
    let [start, count] = list(rng, parts, operands);
    push(parts, [6, start, count, 0])
}

fn put<T>(rng: &mut Rng, records: &mut Vec<T>, record: T) {
    records.insert(rng.below(records.len() + 1), record);
}

/// An axiom or two that the concept stands in, anywhere among the others.
fn used(rng: &mut Rng, parts: &mut Parts, concept: u32) {
    for _ in 0..1 + rng.below(2) {
        let (one, other) = (atom(rng, parts), base(rng, parts));
        let role = if parts.roles.is_empty() { None } else { Some(named(rng, parts)) };
        let axiom = match (rng.below(12), role) {
            (0..=2, _) => [0, one, concept, 0],
            (3 | 4, _) => [0, concept, other, 0],
            (5 | 6, Some(word)) => [9, word, concept, 0],
            (7 | 8, Some(word)) => [10, word, concept, 0],
            (9, _) => {
                let [start, count] = list(rng, parts, &[one, concept]);
                [1, start, count, 0]
            }
            _ => {
                let members = 2 + rng.below(2);
                let [start, count] = list(rng, parts, &[concept, other, concept][..members]);
                [2, start, count, 0]
            }
        };
        put(rng, &mut parts.axioms, axiom);
    }
}

/// A role over two to four others, and edges of these to one target, by facts or by rules.
fn parallel(rng: &mut Rng, parts: &mut Parts) {
    let (first, count) = (parts.roles.len() as u32, 3 + rng.word(3));
    let group: Vec<u32> = (first..first + count).collect();
    let over = rng.pick(&group);
    let ranged = rng.chance(15);
    for role in group.iter().copied() {
        let [start, count] = list(rng, parts, if role == over { &group } else { std::slice::from_ref(&role) });
        let range = if ranged && rng.chance(50) { vec![satisfiable(rng, parts)] } else { Vec::new() };
        let [range_start, range_count] = list(rng, parts, &range);
        parts.roles.push([start, count, range_start, range_count]);
    }
    for _ in 0..1 + rng.below(2) {
        let (from, to) = (satisfiable(rng, parts), satisfiable(rng, parts));
        let by_facts = rng.chance(60);
        let (one, other) = (push(parts, [2, from, 0, 0]), push(parts, [2, to, 0, 0]));
        for role in group.iter().copied() {
            if role == over && rng.chance(80) {
                continue;
            }
            if by_facts || rng.chance(10) {
                put(rng, &mut parts.facts, [from, role, to]);
            } else {
                let some = push(parts, [8, 2 * role, other, 0]);
                put(rng, &mut parts.axioms, [0, one, some, 0]);
            }
        }
    }
    let mut some = base(rng, parts);
    for _ in 0..1 + rng.below(3) {
        some = push(parts, [8, 2 * over, some, 0]);
    }
    used(rng, parts, some);
    let (word, other) = (2 * over, named(rng, parts));
    let axiom = match rng.below(5) {
        0 => [11, word, 0, 0],
        1 => {
            let [second, sup] = [(); 2].map(|()| rng.pick(&[word, other]));
            let [start, count] = list(rng, parts, &[word, second]);
            [5, start, count, sup]
        }
        2 => [12, word, 0, 0],
        3 => [4, word, other, 0],
        _ => return,
    };
    put(rng, &mut parts.axioms, axiom);
}

/// Three to seven Somes in each other, of one role or of several.
fn nested(rng: &mut Rng, parts: &mut Parts) {
    let (mut some, one) = (base(rng, parts), rng.chance(50));
    let mut word = named(rng, parts);
    for _ in 0..rng.pick(&[3, 3, 3, 4, 4, 4, 5, 5, 6, 7]) {
        some = push(parts, [8, word, some, 0]);
        if rng.chance(10) {
            let other = base(rng, parts);
            some = and(rng, parts, &[some, other]);
        }
        if !one {
            word = named(rng, parts);
        }
    }
    used(rng, parts, some);
}

/// Ands that list the concept before them twice, on three to eight levels; and of one Some twice.
fn shared(rng: &mut Rng, parts: &mut Parts) {
    let mut top = base(rng, parts);
    let over_some = !parts.roles.is_empty() && rng.chance(50);
    if over_some {
        let word = named(rng, parts);
        top = push(parts, [8, word, top, 0]);
    }
    let levels =
        if over_some || parts.concepts[top as usize][0] > 5 { &[1, 1, 3, 3, 4][..] } else { &[3, 4, 5, 6, 7, 8] };
    for _ in 0..rng.pick(levels) {
        let operands = if rng.chance(20) { vec![top, base(rng, parts), top] } else { vec![top, top] };
        top = and(rng, parts, &operands);
        if over_some && rng.chance(15) {
            let word = named(rng, parts);
            top = push(parts, [8, word, top, 0]);
        }
    }
    used(rng, parts, top);
}

/// EquivalentClasses of four to nine members, atoms and Somes, some of them repeated; or EquivalentObjectProperties of as
/// many role words, mostly named.
fn wide(rng: &mut Rng, parts: &mut Parts) {
    let count = 4 + rng.below(6);
    if rng.chance(30) {
        let words: Vec<u32> = (0..count).map(|_| named(rng, parts) + u32::from(rng.chance(2))).collect();
        let [start, count] = list(rng, parts, &words);
        return put(rng, &mut parts.axioms, [6, start, count, 0]);
    }
    let mut members: Vec<u32> = Vec::new();
    for _ in 0..count {
        let member = match rng.below(6) {
            0 | 1 => atom(rng, parts),
            2 | 3 => {
                let (word, body) = (named(rng, parts), atom(rng, parts));
                push(parts, [8, word, body, 0])
            }
            4 if !members.is_empty() => rng.pick(&members),
            _ => base(rng, parts),
        };
        members.push(member);
    }
    let [start, count] = list(rng, parts, &members);
    put(rng, &mut parts.axioms, [1, start, count, 0]);
}

/// An axiom that comes again right after itself, or all but the same.
fn again(rng: &mut Rng, parts: &mut Parts) {
    let at = rng.below(parts.axioms.len());
    let mut copy = parts.axioms[at];
    if rng.chance(25) {
        copy = parts.axioms[rng.below(parts.axioms.len())];
    }
    for _ in 0..1 + rng.below(3) {
        parts.axioms.insert(at + 1, copy);
    }
}

/// Lent edges: runs of one element, elements that come back, and copies of edges that are there already.
pub fn edges(rng: &mut Rng, parts: &Parts, elements: usize) -> Vec<[u32; 3]> {
    let (roles, mut count) = (parts.roles.len(), rng.pick(&[0, 3, 6, 9, 12, 16, 24, 40]));
    while count > 6 && !is_quick(parts, 1 + (count / elements) as u64) {
        count /= 2;
    }
    let (mut edges, mut from): (Vec<[u32; 3]>, u32) = (Vec::new(), rng.word(elements));
    for _ in 0..rng.below(count + 1) {
        if rng.chance(60) {
            from = rng.word(elements);
        }
        let copied = !edges.is_empty() && rng.chance(25);
        edges.push(if copied { rng.pick(&edges) } else { [rng.word(roles), from, rng.word(elements)] });
    }
    edges
}
