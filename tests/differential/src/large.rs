//! Decks of some hundred classes and some thousand edges, about the sizes at which the library takes larger arrays.
use crate::answer::Bounds;
use crate::generate::list;
use crate::parts::Parts;
use crate::repeats::steps;
use crate::rng::Rng;

/// The original judges what is shared again and again: no concept with more steps at an element.
const STEPS: u64 = 300;

/// A deck, its bounds and the last phase.
pub fn deck(rng: &mut Rng) -> (Parts, Bounds, u32) {
    let n = rng.pick(&[100, 250, 255, 256, 257, 300, 512, 1000, 1024, 1025, 1100]);
    let mut parts = Parts { real: rng.pick(&[n, n, n - 1, n / 2]), ..Parts::default() };
    classes(rng, &mut parts, n);
    roles(rng, &mut parts, n);
    facts(rng, &mut parts, n);
    concepts(rng, &mut parts, n);
    axioms(rng, &mut parts);
    let edges = rng.pick(&[600, 1023, 2047, 2048, 2049, 2500, 4000, 6000]);
    let bounds = Bounds { elements: n + rng.pick(&[0, 5, 200]), edges, rounds: rng.pick(&[1, 3, 9]) };
    (parts, bounds, rng.pick(&[4, 4, 4, 4, 3, 2]))
}

/// The first few classes are over others.
fn classes(rng: &mut Rng, parts: &mut Parts, n: u32) {
    let kinds = rng.word(5);
    for k in 0..n {
        let mut row: Vec<u32> = (0..kinds.min(k)).filter(|_| rng.chance(20)).collect();
        row.push(if k > kinds && rng.chance(10) { k - 1 } else { k });
        let unsatisfiable = row.last() != Some(&k);
        let [start, count] = list(rng, parts, &row);
        parts.classes.push([u32::from(unsatisfiable), start, count]);
    }
}

fn roles(rng: &mut Rng, parts: &mut Parts, n: u32) {
    let count = 1 + rng.word(6);
    for r in 0..count {
        let subs: Vec<u32> = (0..count).filter(|s| *s == r || rng.chance(20)).collect();
        let ranges: Vec<u32> = if rng.chance(15) { vec![rng.word(3)] } else { Vec::new() };
        let ([start, count], [range_start, range_count]) = (list(rng, parts, &subs), list(rng, parts, &ranges));
        parts.roles.push([start, count, range_start, range_count]);
    }
    for y in 0..n {
        if parts.real > 0 && rng.chance(20) {
            parts.injected.push([y, rng.word(count as usize), rng.word(parts.real as usize)]);
        }
    }
}

/// Facts of one class after the other or at random, seldom of a class that many elements have.
fn facts(rng: &mut Rng, parts: &mut Parts, n: u32) {
    let (in_turn, near) = (rng.chance(50), rng.chance(30));
    for k in 0..rng.pick(&[50, 250, 256, 300, 767, 768, 769, 1500, 2100]) {
        let from = if in_turn { k % n } else { rng.word(n as usize) };
        let to = if near { (from + 1 + rng.word(2)) % n } else { rng.word(n as usize) };
        let from = if rng.below(300) == 0 { rng.word(4) } else { from };
        parts.facts.push([from, rng.word(parts.roles.len()), to]);
    }
}

fn concepts(rng: &mut Rng, parts: &mut Parts, n: u32) {
    for _ in 0..60 {
        parts.concepts.push([2, rng.word(n as usize), 0, 0]);
    }
    parts.concepts.extend([[0; 4], [1, 0, 0, 0], [5, 0, 0, 0], [2, 0, 0, 0], [2, 1, 0, 0]]);
    for _ in 0..60 {
        let here = parts.concepts.len();
        let near = if rng.chance(30) { here - 1 - rng.below(5) } else { rng.below(here) } as u32;
        let record = if rng.chance(65) {
            [8, 2 * rng.word(parts.roles.len()), near, 0]
        } else {
            let members = [near, rng.word(here), near];
            let from = rng.below(3);
            let [start, count] = list(rng, parts, &members[from..]);
            [6, start, count, 0]
        };
        parts.concepts.push(record);
        if *steps(parts, 4).last().unwrap() > STEPS {
            parts.concepts[here] = [1, 0, 0, 0];
        }
    }
}

fn axioms(rng: &mut Rng, parts: &mut Parts) {
    let (c, r) = (parts.concepts.len(), parts.roles.len());
    for _ in 0..rng.pick(&[10, 40, 100, 511, 512, 513, 600]) {
        let (one, word, other, sup) = (rng.word(c), 2 * rng.word(r), 2 * rng.word(r), 2 * rng.word(r));
        let axiom = match rng.below(300) {
            0 => [11, word, 0, 0],
            1 | 2 => {
                let [start, count] = list(rng, parts, &[word, other]);
                [5, start, count, sup]
            }
            3..=12 => [9, word, one, 0],
            13..=22 => [10, word, one, 0],
            23..=40 => {
                let members = [one, rng.word(c), rng.word(60), one];
                let from = rng.below(3);
                let [start, count] = list(rng, parts, &members[from..]);
                [1 + rng.word(2), start, count, 0]
            }
            41..=44 => [4, word, other, 0],
            45 | 46 => {
                let [start, count] = list(rng, parts, &[word, other, word]);
                [6, start, count, 0]
            }
            47 => [12, word, 0, 0],
            _ => [0, rng.word(70), one, 0],
        };
        parts.axioms.push(axiom);
    }
}
