//! Ands that share operands, in each place where building walks them: a universal antecedent, the floor's atoms, an
//! antecedent's atoms, a body's atoms and a consequent. So many levels that both walk each occurrence within a second.
use crate::generate::list;
use crate::parts::Parts;
use crate::rng::Rng;

/// Steps that a walk of all occurrences may take.
const STEPS: u64 = 6000;

/// One to three such concepts, each in an axiom or two. Answers the names of the places, and the most steps of a walk.
pub fn add(rng: &mut Rng, parts: &mut Parts) -> (Vec<&'static str>, u64) {
    let mut places = Vec::new();
    if parts.classes.is_empty() {
        return (places, 0);
    }
    if parts.roles.is_empty() {
        let [start, count] = list(rng, parts, &[0]);
        parts.roles.push([start, count, 0, 0]);
    }
    for _ in 0..1 + rng.below(3) {
        let role = if rng.chance(50) { delta_role(rng, parts) } else { rng.word(parts.roles.len()) };
        let (top, over) = shared(rng, parts, role);
        places.push(place(rng, parts, role, top, over));
    }
    (places, occurrences(parts).into_iter().max().unwrap_or(0))
}

fn push(parts: &mut Parts, record: [u32; 4]) -> u32 {
    parts.concepts.push(record);
    parts.concepts.len() as u32 - 1
}

fn and(rng: &mut Rng, parts: &mut Parts, operands: &[u32]) -> u32 {
    let [start, count] = list(rng, parts, operands);
    push(parts, [6, start, count, 0])
}

fn atom(rng: &mut Rng, parts: &mut Parts) -> u32 {
    let class = rng.word(parts.classes.len());
    push(parts, [2, class, 0, 0])
}

/// The concepts that a walk of each meets, with repetitions.
fn occurrences(parts: &Parts) -> Vec<u64> {
    let mut all: Vec<u64> = Vec::new();
    for concept in &parts.concepts {
        let below = match *concept {
            [6, start, count, _] => parts.list(start, count).iter().map(|operand| all[*operand as usize]).sum(),
            [8, _, body, _] => all[body as usize],
            _ => 0,
        };
        all.push((1 + below).min(STEPS + 1));
    }
    all
}

/// A role whose range some class's row lacks, with an unsatisfiable q, or none, for some classes.
fn delta_role(rng: &mut Rng, parts: &mut Parts) -> u32 {
    let role = parts.roles.len() as u32;
    let range = rng.word(parts.classes.len());
    let [start, count] = list(rng, parts, &[role]);
    let [range_start, range_count] = list(rng, parts, &[range]);
    parts.roles.push([start, count, range_start, range_count]);
    let fillers: Vec<u32> = (0..parts.real).filter(|k| parts.classes[*k as usize][0] == 1 || rng.chance(25)).collect();
    for y in 0..parts.classes.len() as u32 {
        if !fillers.is_empty() && rng.chance(75) {
            let at = parts.injected.iter().position(|record| record[0] > y).unwrap_or(parts.injected.len());
            let q = rng.pick(&fillers);
            parts.injected.insert(at, [y, role, q]);
        }
    }
    role
}

/// What the Ands lead to, by name; then the Ands.
fn shared(rng: &mut Rng, parts: &mut Parts, role: u32) -> (u32, &'static str) {
    let (base, over) = match rng.below(8) {
        0 | 1 => (push(parts, [0, 0, 0, 0]), "Top"),
        2 | 3 => (atom(rng, parts), "an atom"),
        4 => {
            let two = [atom(rng, parts), atom(rng, parts)];
            (and(rng, parts, &two), "two atoms")
        }
        5 if !parts.concepts.is_empty() => (rng.word(parts.concepts.len()), "any concept"),
        _ => {
            let body = atom(rng, parts);
            (push(parts, [8, 2 * role, body, 0]), "a Some")
        }
    };
    let (mut top, mut below) = (base, base);
    for _ in 0..rng.pick(&[2, 3, 4, 5, 6, 7, 8, 9, 10]) {
        let other = if rng.chance(30) { atom(rng, parts) } else { rng.word(parts.concepts.len()) };
        let operands = match rng.below(9) {
            0..=4 => vec![top, top],
            5 => vec![top, other, top],
            6 => vec![other, top, top],
            7 => vec![below, top, below, top],
            _ => vec![top, below, top],
        };
        let all = occurrences(parts);
        if operands.iter().map(|operand| all[*operand as usize]).sum::<u64>() > STEPS / 3 {
            break;
        }
        let mut next = and(rng, parts, &operands);
        if over == "a Some" && rng.chance(20) {
            next = push(parts, [8, 2 * role, next, 0]);
        }
        (below, top) = (top, next);
    }
    (top, over)
}

/// An axiom or two that it stands in.
fn place(rng: &mut Rng, parts: &mut Parts, role: u32, top: u32, over: &'static str) -> &'static str {
    let one = atom(rng, parts);
    let (axiom, name) = match (rng.below(if over == "a Some" { 9 } else { 6 }), over) {
        (0 | 1, "Top") => {
            let some = push(parts, [8, 2 * role, one, 0]);
            let sup = rng.pick(&[one, some, some]);
            ([0, top, sup, 0], "a universal antecedent")
        }
        (0, _) => {
            let all = push(parts, [0, 0, 0, 0]);
            ([0, all, top, 0], "the floor's atoms")
        }
        (1 | 2, _) => {
            let some = push(parts, [8, 2 * role, one, 0]);
            ([0, top, some, 0], "an antecedent's atoms")
        }
        (3 | 4, _) => {
            let some = push(parts, [8, 2 * role, top, 0]);
            ([0, one, some, 0], "a body's atoms")
        }
        _ => {
            let [start, count] = list(rng, parts, &[one, top]);
            (if rng.chance(60) { [0, one, top, 0] } else { [1, start, count, 0] }, "a consequent")
        }
    };
    let at = rng.below(parts.axioms.len() + 1);
    parts.axioms.insert(at, axiom);
    name
}
