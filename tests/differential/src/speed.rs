//! Times the original and the static library on the same decks, phase by phase through the last phase, in one run.
use crate::answer::Bounds;
use crate::oracle::Case;
use crate::ours::{self, Lent, need};
use crate::parts::Parts;
use crate::rng::Rng;
use std::hint::black_box;

unsafe extern "C" {
    fn clock_gettime(clock: i32, time: *mut [i64; 2]) -> i32;
}

/// The thread's processor time, in microseconds: what else the machine does is not in it.
fn now() -> f64 {
    const CLOCK_THREAD_CPUTIME_ID: i32 = 3;
    let mut time = [0; 2];
    assert_eq!(unsafe { clock_gettime(CLOCK_THREAD_CPUTIME_ID, &mut time) }, 0);
    time[0] as f64 * 1e6 + time[1] as f64 / 1e3
}

pub fn timed<T>(work: impl FnOnce() -> T) -> f64 {
    let began = now();
    black_box(work());
    now() - began
}

pub fn listed(parts: &mut Parts, members: &[u32]) -> [u32; 2] {
    parts.lists.extend_from_slice(members);
    [(parts.lists.len() - members.len()) as u32, members.len() as u32]
}

/// A deck in which phases 3 and 4 add nothing, so that a run with one phase less judges the same structure: every rule
/// of phase 3 has a fact that makes its edge, and the edges that phase 4 composes are there already. A phase is timed as
/// the difference of two such runs, over a deck with just the axioms that it needs.
struct Size {
    name: &'static str,
    classes: u32,
    /// Classes stand in a tree of so many branches; a row is a class and its ancestors.
    branches: u32,
    roles: u32,
    rules: u32,
    /// How many Ands stand in each other in the body of a rule.
    depth: u32,
    /// Classes below this have an edge to their parent, and so to all ancestors, by role 0.
    linked: u32,
    bounds: Bounds,
}

fn ancestors(size: &Size, class: u32) -> Vec<u32> {
    let mut row = vec![class];
    while *row.last().unwrap() > 0 {
        row.push((row.last().unwrap() - 1) / size.branches);
    }
    row.reverse();
    row
}

fn deck(size: &Size) -> Parts {
    let mut parts = Parts { real: size.classes, ..Parts::default() };
    let rng = &mut Rng::new(5, 0);
    for k in 0..size.classes {
        let [start, count] = listed(&mut parts, &ancestors(size, k));
        parts.classes.push([0, start, count]);
    }
    // Every fourth role has the three after it below it; every third has a range.
    for r in 0..size.roles {
        let subs: Vec<u32> = if r % 4 == 0 { (r..(r + 4).min(size.roles)).collect() } else { vec![r] };
        let [start, count] = listed(&mut parts, &subs);
        let [range_start, range_count] = listed(&mut parts, if r % 3 == 1 { &[0] } else { &[] });
        parts.roles.push([start, count, range_start, range_count]);
    }
    parts.concepts.extend((0..size.classes).map(|k| [2, k, 0, 0]));
    for k in 1..size.linked {
        parts.facts.push([k, 0, (k - 1) / size.branches]);
    }
    for k in 0..size.rules {
        rule(size, &mut parts, rng, k);
    }
    for axiom in [[11, 0, 0, 0], [9, 0, 0, 0], [10, 0, 0, 0], [4, 2, 0, 0], [12, 8, 0, 0]] {
        parts.axioms.push(axiom);
    }
    let [start, count] = listed(&mut parts, &[0, 0]);
    parts.axioms.extend([[5, start, count, 0], [6, start, count, 0]]);
    parts
}

/// The rules alone, with consequents that are judged quickly and worked alike: the And of a class that one element has,
/// and the Some.
fn quick_rules(full: &Parts) -> Vec<[u32; 4]> {
    let quick = |axiom: &[u32; 4]| match *axiom {
        [0, leaf, some, _] => Some([0, leaf, some + 1, 0]),
        [1, start, 2, _] => Some([0, full.list(start, 2)[0], full.list(start, 2)[1] + 1, 0]),
        _ => None,
    };
    full.axioms.iter().filter_map(quick).collect()
}

/// A leaf under a Some of nested Ands: a class, and ancestors of it. And the fact that makes the same edge.
fn rule(size: &Size, parts: &mut Parts, rng: &mut Rng, k: u32) {
    let leaf = size.classes / 2 + rng.word(size.classes as usize / 2);
    let (class, role) = (rng.word(size.classes as usize), 4 + rng.word(size.roles as usize - 4));
    let above = ancestors(size, class);
    let mut body = class;
    for _ in 0..size.depth {
        let members = [body, rng.pick(&above), rng.pick(&above)];
        let [start, count] = listed(parts, &members);
        parts.concepts.push([6, start, count, 0]);
        body = parts.concepts.len() as u32 - 1;
    }
    parts.concepts.push([8, 2 * role, body, 0]);
    let some = parts.concepts.len() as u32 - 1;
    let [start, count] = listed(parts, &[size.classes - 1, some]);
    parts.concepts.push([6, start, count, 0]);
    let [start, count] = listed(parts, &[leaf, some]);
    parts.axioms.push(if k % 8 == 0 { [1, start, count, 0] } else { [0, leaf, some, 0] });
    parts.facts.push([leaf, role, class]);
}

/// The least of several times.
pub fn least<T>(mut work: impl FnMut() -> T) -> f64 {
    let (began, mut best, mut turns) = (now(), f64::MAX, 0);
    while turns < 4 || (now() - began < 2_000_000.0 && turns < 1000) {
        best = best.min(timed(&mut work));
        turns += 1;
    }
    best
}

fn line(what: &str, original: f64, here: f64) {
    println!("| {what} | {original:.1} | {here:.1} | {:.2} |", here / original);
}

/// What a run takes up to a phase, in microseconds: the original's building; ours whole, with reading and judging.
fn times(parts: &Parts, bounds: Bounds, last: u32) -> [f64; 2] {
    let (case, bytes) = (Case::new(parts), parts.bytes());
    let mut lent = Lent::marked(need(parts, bounds));
    let here = least(|| assert_eq!(lent.run(&bytes, bounds, last), 0));
    [least(|| case.build(bounds, last)), here]
}

/// The median difference between a run and the one with a phase less, taken in turns.
fn median(mut work: impl FnMut(u32), last: u32) -> f64 {
    let (began, mut found) = (now(), Vec::new());
    while found.len() < 5 || (now() - began < 3_000_000.0 && found.len() < 500) {
        let before = timed(|| work(last - 1));
        found.push(timed(|| work(last)) - before);
    }
    found.sort_by(f64::total_cmp);
    found[found.len() / 2]
}

/// What a phase takes.
fn phase(parts: &Parts, bounds: Bounds, last: u32) -> [f64; 2] {
    let (case, bytes) = (Case::new(parts), parts.bytes());
    let mut lent = Lent::marked(need(parts, bounds));
    let original = median(|last| drop(black_box(case.build(bounds, last))), last);
    [original, median(|last| assert_eq!(lent.run(&bytes, bounds, last), 0), last)]
}

fn time(size: &Size) {
    let full = deck(size);
    let with = |axioms: Vec<[u32; 4]>| Parts { axioms, ..full.clone() };
    let (bare, rules) = (with(Vec::new()), with(quick_rules(&full)));
    let links = with(full.axioms.iter().copied().filter(|axiom| axiom[0] == 5 || axiom[0] == 11).collect());
    let (case, bytes) = (Case::new(&full), full.bytes());
    assert!(crate::reader::read(&bytes).is_ok());
    let [elements, edges] = case.size(size.bounds, 4);
    for parts in [&bare, &rules, &links] {
        assert_eq!([elements, edges], Case::new(parts).size(size.bounds, 4));
    }
    let (read, bare_read) = (least(|| ours::check(&bytes)), least(|| ours::check(&bare.bytes())));
    let took = |parts: &Parts, last| phase(parts, size.bounds, last);
    let mut seed = times(&bare, size.bounds, 1);
    seed[1] -= bare_read;
    let phases = [seed, took(&bare, 2), took(&rules, 3), took(&links, 4)];
    let built = case.build(size.bounds, 4);
    let judging = least(|| case.verdicts(&built.model));
    let all = times(&full, size.bounds, 4);
    let built_here: f64 = phases.iter().map(|phase| phase[1]).sum();
    println!(
        "\n{}: N {}, R {}, C {}, A {}, {} facts; {elements} elements, {edges} edges; {} bytes\n",
        size.name,
        full.classes.len(),
        full.roles.len(),
        full.concepts.len(),
        full.axioms.len(),
        full.facts.len(),
        bytes.len()
    );
    println!("| | original, µs | here, µs | ratio |\n|---|---|---|---|");
    println!("| reading the deck | | {read:.1} | |");
    for (name, [original, here]) in ["1 seed", "2 expand", "3 axioms", "4 closing"].iter().zip(phases) {
        line(name, original, here);
    }
    line("judging all axioms", judging, all[1] - read - built_here);
    line("all", all[0] + judging, all[1]);
}

pub fn run() {
    let program = Bounds { elements: 255, edges: 1000, rounds: 100 };
    let large = Bounds { elements: 8000, edges: 6000, rounds: 100 };
    for size in [
        Size {
            name: "program",
            classes: 255,
            branches: 6,
            roles: 16,
            rules: 200,
            depth: 1,
            linked: 255,
            bounds: program,
        },
        Size { name: "large", classes: 4096, branches: 8, roles: 64, rules: 100, depth: 5, linked: 9, bounds: large },
    ] {
        time(&size);
    }
}
