//! Decks at the limits of what a deck may hold, and small ones: whole runs of the original and of the static library, in one
//! run.
use crate::answer::Bounds;
use crate::oracle::Case;
use crate::ours::{Lent, need};
use crate::parts::Parts;
use crate::speed::{least, listed, timed};
use std::sync::mpsc;
use std::thread;
use std::time::Duration;

/// Seconds after which the original is left alone.
const STOPPED: u64 = 60;

struct Extreme {
    name: &'static str,
    parts: Parts,
    bounds: Bounds,
}

/// Classes that are under themselves, and under class 0 if `under`; roles without others below them; the classes' atoms.
fn plain(classes: u32, under: bool, roles: u32) -> Parts {
    let mut parts = Parts { real: classes, ..Parts::default() };
    for k in 0..classes {
        let row = [0, k];
        let [start, count] = listed(&mut parts, &row[usize::from(!under || k == 0)..]);
        parts.classes.push([0, start, count]);
    }
    for r in 0..roles {
        let [start, count] = listed(&mut parts, &[r]);
        parts.roles.push([start, count, 0, 0]);
    }
    parts.concepts.extend((0..classes).map(|k| [2, k, 0, 0]));
    parts
}

fn facts() -> Parts {
    let mut parts = plain(4000, false, 16);
    parts.facts.extend((0..16_000).map(|k| [k % 4000, k / 1000, k * 7 % 4000]));
    parts.axioms.extend([[9, 0, 0, 0], [10, 0, 0, 0]]);
    parts
}

fn rules() -> Parts {
    let mut parts = plain(1000, false, 64);
    parts.concepts.extend((0..15_000).map(|k| [8, 2 * (k % 64), k * 7 % 1000, 0]));
    parts.axioms.extend((0..16_000).map(|k| [0, k % 1000, 1000 + k % 15_000, 0]));
    parts
}

/// Every element has class 0, and so an edge for each of 60 facts.
fn edges() -> Parts {
    let mut parts = plain(4096, true, 4);
    parts.facts.extend((0..60).map(|k| [0, k % 4, k * 64]));
    let some = parts.concepts.len() as u32;
    parts.concepts.extend([[8, 0, 0, 0], [8, 2, some, 0]]);
    parts.axioms.extend([[9, 0, 0, 0], [10, 0, 0, 0], [9, 2, some + 1, 0]]);
    parts
}

fn path() -> Parts {
    let mut parts = plain(300, false, 1);
    parts.facts.extend((1..300).map(|k| [k - 1, 0, k]));
    parts.axioms.push([11, 0, 0, 0]);
    parts
}

/// Superclasses of Ands in each other, without a Some.
fn ands() -> Parts {
    let mut parts = plain(4096, true, 1);
    for k in 0..100 {
        let mut body = k * 40;
        for _ in 0..20 {
            let [start, count] = listed(&mut parts, &[body, 0, k * 40]);
            parts.concepts.push([6, start, count, 0]);
            body = parts.concepts.len() as u32 - 1;
        }
        parts.axioms.push([0, k * 40, body, 0]);
    }
    parts
}

/// The original's building and judging, once, in microseconds, with its verdicts. None: it was stopped.
fn original(extreme: &Extreme) -> Option<(f64, Vec<[u32; 4]>)> {
    let (send, wait) = mpsc::channel();
    let (parts, bounds) = (extreme.parts.clone(), extreme.bounds);
    thread::spawn(move || {
        let (case, mut verdicts) = (Case::new(&parts), Vec::new());
        let took = timed(|| verdicts = case.verdicts(&case.build(bounds, 4).model));
        send.send((took, verdicts)).ok()
    });
    wait.recv_timeout(Duration::from_secs(STOPPED)).ok()
}

fn time(extreme: &Extreme) {
    let Extreme { name, parts, bounds } = extreme;
    let bytes = parts.bytes();
    assert!(crate::reader::read(&bytes).is_ok());
    let mut lent = Lent::marked(need(parts, *bounds));
    let here = least(|| assert_eq!(lent.run(&bytes, *bounds, 4), 0)) / 1e3;
    let answer = lent.taken(parts).unwrap();
    let built = format!("{name} | {} | {}", answer.elements, answer.edges.len());
    match original(extreme) {
        Some((took, verdicts)) => {
            assert_eq!(verdicts, answer.verdicts);
            println!("| {built} | {:.1} | {here:.1} | {:.3} |", took / 1e3, 1e3 * here / took);
        }
        None => println!("| {built} | over {STOPPED},000 | {here:.1} | |"),
    }
}

/// Document 01's deck W.
fn deck_w() -> Parts {
    let mut parts = plain(2, true, 1);
    parts.concepts.push([8, 0, 0, 0]);
    parts.facts.push([1, 0, 0]);
    parts.axioms.extend([[0, 1, 0, 0], [0, 1, 2, 0]]);
    parts
}

/// Classes under class 0, each with a fact and a rule to the next, a domain, a range and a transitive role.
fn small(classes: u32) -> Parts {
    let mut parts = plain(classes, true, 3);
    for k in 1..classes {
        parts.facts.push([k, 0, k / 2]);
        parts.concepts.push([8, 2, k / 2, 0]);
        parts.axioms.push([0, k, classes + k - 1, 0]);
    }
    parts.axioms.extend([[9, 0, 0, 0], [10, 2, 0, 0], [11, 4, 0, 0]]);
    parts
}

/// A small deck: the mean of many runs in microseconds, the least of several turns.
fn time_small(name: &str, parts: &Parts, bounds: Bounds) {
    const TIMES: u32 = 1000;
    let (bytes, case) = (parts.bytes(), Case::new(parts));
    assert!(crate::reader::read(&bytes).is_ok());
    let mut lent = Lent::marked(need(parts, bounds));
    let here = least(|| (0..TIMES).for_each(|_| assert_eq!(lent.run(&bytes, bounds, 4), 0))) / f64::from(TIMES);
    let answer = lent.taken(parts).unwrap();
    let there = least(|| {
        for _ in 0..TIMES {
            assert_eq!(case.verdicts(&case.build(bounds, 4).model).len(), answer.verdicts.len());
        }
    }) / f64::from(TIMES);
    let built = format!("{name} | {} | {}", answer.elements, answer.edges.len());
    println!("| {built} | {there:.2} | {here:.2} | {:.3} |", here / there);
}

fn run_small() {
    let bounds = Bounds { elements: 255, edges: 1000, rounds: 100 };
    println!(
        "\nSmall decks: whole runs\n\n| | elements | edges | original, µs | here, µs | ratio |\n|---|---|---|---|---|---|"
    );
    time_small("deck W", &deck_w(), bounds);
    for (name, classes) in [("5 classes", 5), ("20 classes", 20), ("60 classes", 60)] {
        time_small(name, &small(classes), bounds);
    }
}

pub fn run() {
    run_small();
    let most = Bounds { elements: 8000, edges: 300_000, rounds: 100 };
    let small = Bounds { elements: 8000, edges: 6000, rounds: 100 };
    println!(
        "\nExtremes: whole runs\n\n| | elements | edges | original, ms | here, ms | ratio |\n|---|---|---|---|---|---|"
    );
    for extreme in [
        Extreme { name: "16,000 facts", parts: facts(), bounds: most },
        Extreme { name: "16,000 rules", parts: rules(), bounds: most },
        Extreme { name: "245,760 edges", parts: edges(), bounds: most },
        Extreme { name: "nested Ands, N 4,096", parts: ands(), bounds: small },
        Extreme { name: "no facts, N 4,096", parts: plain(4096, true, 1), bounds: small },
        // The last, since the original may go on beside what follows.
        Extreme { name: "transitive path of 300", parts: path(), bounds: most },
    ] {
        time(&extreme);
    }
}
