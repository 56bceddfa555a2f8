//! Decks from a seed: small ones, so that labels collide and bounds are near, and damaged copies of them.
use crate::parts::{LIMITS, Parts, TRAILER};
use crate::rng::Rng;

/// The axioms by tag, the ones that build or are judged more often.
const AXIOM_TAGS: &[u32] = &[
    0, 0, 0, 0, 0, 0, 0, 0, 0, 0, 1, 1, 1, 2, 2, 3, 4, 4, 5, 5, 5, 5, 5, 6, 7, 8, 9, 9, 10, 10, 11, 11, 11, 11, 11, 12,
    13, 14, 15, 16, 17, 18, 19, 20, 21, 22, 23, 24, 25,
];
const CONCEPT_TAGS: &[u32] = &[0, 0, 1, 2, 2, 2, 3, 4, 5, 6, 6, 6, 6, 6, 6, 6, 7, 8, 8, 8, 8, 8, 8, 8, 8, 8, 9, 10, 11];

pub fn deck(rng: &mut Rng) -> Parts {
    let mut parts = Parts::default();
    let wide = rng.chance(1);
    let n = if wide {
        rng.pick(&[63, 64, 65, 70, 128, 130])
    } else {
        rng.pick(&[0, 1, 2, 3, 3, 4, 4, 4, 5, 5, 5, 6, 6, 7])
    };
    classes(rng, &mut parts, n);
    roles(rng, &mut parts, n);
    parts.real = rng.pick(&[n, n, n, n.saturating_sub(1), n.saturating_sub(1), n / 2, n / 2, 0]) as u32;
    injected(rng, &mut parts, n);
    if n > 0 && !parts.roles.is_empty() {
        for _ in 0..rng.pick(&[0, 0, 1, 2, 3, 4, 5, 6]) {
            parts.facts.push([rng.word(n), rng.word(parts.roles.len()), rng.word(n)]);
        }
    }
    concepts(rng, &mut parts, n);
    for _ in 0..rng.below(9) {
        axiom(rng, &mut parts);
    }
    parts.dropped = rng.pick(&[0, 0, 0, 0, 0, 0, 0, 1, 12, u32::MAX]);
    parts
}

/// Adds a list, or finds it where it stands already. An empty one may start anywhere.
pub fn list(rng: &mut Rng, parts: &mut Parts, members: &[u32]) -> [u32; 2] {
    let count = members.len() as u32;
    if members.is_empty() {
        return [rng.word(parts.lists.len() + 1), 0];
    }
    if rng.chance(10) {
        parts.lists.push(rng.pick(&[0, 77, u32::MAX]));
    }
    if rng.chance(50)
        && let Some(start) = parts.lists.windows(members.len()).position(|words| words == members)
    {
        return [start as u32, count];
    }
    parts.lists.extend_from_slice(members);
    [parts.lists.len() as u32 - count, count]
}

fn listed(rng: &mut Rng, parts: &mut Parts, counts: &[usize], end: usize) -> [u32; 2] {
    let count = if end == 0 { 0 } else { rng.pick(counts) };
    let members: Vec<u32> = (0..count).map(|_| rng.word(end)).collect();
    list(rng, parts, &members)
}

/// Some numbers below `end`, rising, with `own` among them if it is below `end`.
fn some_below(rng: &mut Rng, end: usize, percent: usize, own: usize) -> Vec<u32> {
    (0..end).filter(|k| *k == own || rng.chance(percent)).map(|k| k as u32).collect()
}

/// Classes in groups: those of a group have one row, which holds the rows of some groups before it.
fn classes(rng: &mut Rng, parts: &mut Parts, n: usize) {
    let groups = 1 + rng.below(n);
    let group: Vec<usize> = (0..n).map(|_| rng.below(groups)).collect();
    let mut rows: Vec<Vec<bool>> = Vec::new();
    let sharing = if n > 10 { 3 } else { 35 };
    for g in 0..groups {
        let mut row: Vec<bool> = (0..n).map(|k| group[k] == g).collect();
        for below in &rows {
            if rng.chance(sharing) {
                row.iter_mut().zip(below).for_each(|(has, more)| *has |= more);
            }
        }
        rows.push(row);
    }
    let odd = rng.pick(&[0, 0, 10, 40]);
    for k in 0..n {
        let unsatisfiable = rng.chance(18);
        let row: Vec<u32> = match (unsatisfiable, rng.chance(50)) {
            (true, true) => some_below(rng, n, sharing.min(30), n),
            (false, _) if rng.chance(odd) => some_below(rng, n, sharing.min(15), k),
            _ => (0..n as u32).filter(|j| rows[group[k]][*j as usize]).collect(),
        };
        let [start, count] = list(rng, parts, &row);
        parts.classes.push([u32::from(unsatisfiable), start, count]);
    }
}

fn roles(rng: &mut Rng, parts: &mut Parts, n: usize) {
    let count = rng.pick(&[0, 1, 1, 2, 2, 2, 2, 3, 3, 3, 4]);
    let percent = if n > 10 { 1 } else { rng.pick(&[0, 8, 15]) };
    for r in 0..count {
        let subs = some_below(rng, count, 30, r);
        let ranges = some_below(rng, n, percent, n);
        let [start, count] = list(rng, parts, &subs);
        let [range_start, range_count] = list(rng, parts, &ranges);
        parts.roles.push([start, count, range_start, range_count]);
    }
}

fn injected(rng: &mut Rng, parts: &mut Parts, n: usize) {
    let unsatisfiable: Vec<u32> = (0..parts.real).filter(|k| parts.classes[*k as usize][0] == 1).collect();
    for y in 0..n as u32 {
        for r in 0..parts.roles.len() as u32 {
            if parts.real > 0 && rng.chance(45) {
                let q = rng.word(parts.real as usize);
                let bad = !unsatisfiable.is_empty() && rng.chance(35);
                parts.injected.push([y, r, if bad { rng.pick(&unsatisfiable) } else { q }]);
            }
        }
    }
}

/// A role word, seldom an inverse one.
fn word(rng: &mut Rng, parts: &Parts) -> u32 {
    2 * rng.word(parts.roles.len()) + u32::from(rng.chance(8))
}

fn concepts(rng: &mut Rng, parts: &mut Parts, n: usize) {
    for k in 0..n.min(8) {
        if rng.chance(80) {
            parts.concepts.push([2, if n > 8 { rng.word(n) } else { k as u32 }, 0, 0]);
        }
    }
    for _ in 0..rng.below(11) {
        let (here, tag) = (parts.concepts.len(), rng.pick(CONCEPT_TAGS));
        let operand = if rng.chance(40) { here.saturating_sub(1 + rng.below(3)) } else { rng.below(here) } as u32;
        let no_role = parts.roles.is_empty();
        let (tops, word) = (tops(parts), word(rng, parts));
        let record = match tag {
            2 if n > 0 => [2, rng.word(n), 0, 0],
            3 => [3, rng.pick(&[0, 7, u32::MAX]), 0, 0],
            4 if !no_role => [4, word, 0, 0],
            5 if here > 0 => [5, operand, 0, 0],
            // An And of universal concepts now and then.
            6 if !tops.is_empty() && rng.chance(15) => {
                let members: Vec<u32> = (0..rng.below(3)).map(|_| rng.pick(&tops)).collect();
                let [start, count] = list(rng, parts, &members);
                [6, start, count, 0]
            }
            6 | 7 => {
                let [start, count] = listed(rng, parts, &[0, 1, 2, 2, 2, 3], here);
                [tag, start, count, 0]
            }
            8 | 9 if !no_role && here > 0 => [tag, word, operand, 0],
            10 | 11 if !no_role && here > 0 => [tag, rng.pick(&[0, 1, 2, u32::MAX]), word, operand],
            1 => [1, 0, 0, 0],
            _ => [0; 4],
        };
        parts.concepts.push(record);
    }
}

fn tops(parts: &Parts) -> Vec<u32> {
    (0..parts.concepts.len() as u32).filter(|c| parts.concepts[*c as usize][0] == 0).collect()
}

/// Two concepts: often one of the first, which are atoms, and one that can build.
fn rule(rng: &mut Rng, parts: &Parts) -> (u32, u32) {
    let c = parts.concepts.len();
    let building: Vec<u32> = (0..c as u32).filter(|k| matches!(parts.concepts[*k as usize][0], 6 | 8)).collect();
    let sub = if rng.chance(60) { rng.word(c.min(8)) } else { rng.word(c) };
    let sup = if building.is_empty() || rng.chance(25) { rng.word(c) } else { rng.pick(&building) };
    (sub, sup)
}

/// An axiom, if the deck has what it names.
fn axiom(rng: &mut Rng, parts: &mut Parts) {
    let (c, r, n) = (parts.concepts.len(), parts.roles.len(), parts.classes.len());
    let tag = rng.pick(AXIOM_TAGS);
    let (x, y) = (word(rng, parts), word(rng, parts));
    let (sub, sup) = rule(rng, parts);
    let (i, j) = (rng.pick(&[0, 5, u32::MAX]), rng.word(9));
    let record = match tag {
        0 if c > 0 => [0, sub, sup, 0],
        1 | 2 if c > 0 => {
            let [start, count] = listed(rng, parts, &[0, 1, 2, 2, 2, 3], c);
            [tag, start, count, 0]
        }
        3 if n > 0 => {
            let [start, count] = listed(rng, parts, &[0, 1, 2], c);
            [3, rng.word(n), start, count]
        }
        4 | 8 if r > 0 => [tag, x, y, 0],
        5 if r > 0 => {
            let links: Vec<u32> = (0..rng.pick(&[2, 2, 2, 2, 2, 0, 1, 3])).map(|_| word(rng, parts)).collect();
            let [start, count] = list(rng, parts, &links);
            [5, start, count, x]
        }
        6 | 7 if r > 0 => {
            let roles: Vec<u32> = (0..rng.below(4)).map(|_| word(rng, parts)).collect();
            let [start, count] = list(rng, parts, &roles);
            [tag, start, count, 0]
        }
        9 | 10 if r > 0 && c > 0 => [tag, x, rng.word(c), 0],
        11..=17 if r > 0 => [tag, x, 0, 0],
        18 if c > 0 => [18, sub, i, 0],
        19 | 20 if r > 0 => [tag, x, i, j],
        21 | 22 => {
            let [start, count] = listed(rng, parts, &[0, 1, 2], 9);
            [tag, start, count, 0]
        }
        23 if n > 0 => [23, rng.word(n), 0, 0],
        24 if r > 0 => [24, rng.word(r), 0, 0],
        25 => [25, i, 0, 0],
        _ => return,
    };
    parts.axioms.push(record);
}

/// A record that is out of place: an operand that is not below its concept, a row that does not rise, an injected record
/// before the one it follows or with a q that is not real, an unused field filled, an unknown tag or flag, a list word or a
/// fact out of range.
pub fn misplace(rng: &mut Rng, parts: &mut Parts) {
    let (c, n) = (parts.concepts.len(), parts.classes.len());
    match rng.below(9) {
        0 if c > 0 => {
            let k = rng.below(c);
            let operand = (k + rng.below(c - k)) as u32;
            let record = &mut parts.concepts[k];
            match record[0] {
                5 => record[1] = operand,
                6 | 7 if record[2] > 0 => parts.lists[record[1] as usize] = operand,
                8 | 9 => record[2] = operand,
                10 | 11 => record[3] = operand,
                _ => record[3] = rng.word(2),
            }
        }
        1 if n > 1 => {
            let [_, start, count] = parts.classes[rng.below(n)];
            parts.lists[start as usize..][..count as usize].reverse();
        }
        2 if !parts.injected.is_empty() => {
            let i = rng.below(parts.injected.len());
            parts.injected[i][rng.below(3)] = rng.word(n + 1);
        }
        3 if !parts.axioms.is_empty() => {
            let i = rng.below(parts.axioms.len());
            parts.axioms[i][rng.below(4)] = rng.word(27);
        }
        4 if !parts.roles.is_empty() => {
            let i = rng.below(parts.roles.len());
            parts.roles[i][rng.below(4)] = rng.word(parts.lists.len() + 2);
        }
        5 if n > 0 => parts.classes[rng.below(n)][0] = rng.pick(&[2, 3, 256, u32::MAX]),
        6 if c > 0 => parts.concepts[rng.below(c)][0] = rng.pick(&[12, 13, 26, u32::MAX]),
        7 if !parts.axioms.is_empty() => {
            let i = rng.below(parts.axioms.len());
            parts.axioms[i][0] = rng.pick(&[26, 27, 281, u32::MAX]);
        }
        8 if !parts.facts.is_empty() && rng.chance(40) => {
            let i = rng.below(parts.facts.len());
            parts.facts[i][rng.below(3)] = rng.pick(&[n as u32, parts.roles.len() as u32, u32::MAX]);
        }
        8 if !parts.lists.is_empty() => {
            let i = rng.below(parts.lists.len());
            parts.lists[i] = rng.pick(&[n as u32, c as u32, 2 * parts.roles.len() as u32, u32::MAX]);
        }
        _ => {}
    }
}

/// One to three faults, most of them in one word.
pub fn damage(rng: &mut Rng, deck: &mut Vec<u8>) {
    for _ in 0..1 + rng.below(3) {
        let words = deck.len() / 4;
        match rng.below(20) {
            0 => deck.truncate(rng.below(deck.len() + 1)),
            1 => deck.extend((0..rng.below(9)).map(|k| k as u8)),
            2 if words > TRAILER => {
                let at = 4 * rng.below(words - TRAILER);
                deck.drain(at..at + 4);
            }
            3..=8 if words >= TRAILER => {
                let k = rng.below(TRAILER);
                let limit = if (3..17).contains(&k) && k % 2 == 1 { LIMITS[(k - 3) / 2] } else { 3 };
                put(
                    deck,
                    words - TRAILER + k,
                    |rng, old| rng.pick(&[old + 1, old.wrapping_sub(1), 0, limit, limit + 1]),
                    rng,
                );
            }
            _ if words > 0 => {
                let at = rng.below(words);
                put(
                    deck,
                    at,
                    |rng, old| rng.pick(&[old.wrapping_add(1), old.wrapping_sub(1), 0, 1, 2, 3, 9, 30, u32::MAX]),
                    rng,
                );
            }
            _ => {}
        }
    }
}

fn put(deck: &mut [u8], at: usize, change: impl Fn(&mut Rng, u32) -> u32, rng: &mut Rng) {
    let bytes = &mut deck[4 * at..][..4];
    let old = u32::from_le_bytes(bytes.try_into().unwrap());
    bytes.copy_from_slice(&change(rng, old).to_le_bytes());
}
