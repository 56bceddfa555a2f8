//! The runs of `crates/test_runs`, through the wrapper: what each must answer, and leave in the lent memory, is in the
//! file `stdout` there, made by `tests/make_runs.py` from document 01.
use std::fmt::{Display, Write};
use std::path::PathBuf;
use style_deck::{run_in, Bounds, Edge, Element, Lent, Phase, RoleId};

fn data(name: &str) -> Vec<u8> {
    let path = PathBuf::from(env!("CARGO_MANIFEST_DIR")).join("../../crates/test_runs");
    std::fs::read(path.join(name)).unwrap()
}

/// The mark at a place of a buffer, which no run writes there.
fn mark(at: usize) -> u32 {
    3_000_000_000 + (at % 1_000_000) as u32
}

fn label_mark(at: usize) -> u64 {
    9_000_000_000_000_000_000 + u64::from(mark(at))
}

fn edge_mark(at: usize) -> Edge {
    Edge {
        role: RoleId(mark(at)),
        from: Element(mark(at) + 1_000_000),
        to: Element(mark(at) + 2_000_000),
    }
}

fn edge_words(edge: &Edge) -> [u32; 3] {
    [edge.role.0, edge.from.0, edge.to.0]
}

/// A line of the words at the start that are not as they were marked. Answers how many after those are not.
fn show<T: PartialEq + Display>(text: &mut String, name: &str, words: &[T], marks: &[T]) -> usize {
    let written = |k: &usize| words[*k] != marks[*k];
    let front = (0..words.len()).take_while(written).count();
    text.push_str(name);
    for word in &words[..front] {
        write!(text, " {word}").unwrap();
    }
    text.push('\n');
    (front..words.len()).filter(written).count()
}

fn run_case(bounds: Bounds, phase: Phase, lengths: [usize; 4], deck: &[u8]) -> String {
    let label_marks: Vec<u64> = (0..lengths[0]).map(label_mark).collect();
    let edge_marks: Vec<Edge> = (0..lengths[1]).map(edge_mark).collect();
    let word_marks: Vec<u32> = (0..lengths[2].max(lengths[3])).map(mark).collect();
    let mut labels = label_marks.clone();
    let mut edges = edge_marks.clone();
    let mut log = word_marks[..lengths[2]].to_vec();
    let mut verdicts = word_marks[..lengths[3]].to_vec();
    let lent = Lent {
        labels: &mut labels,
        edges: &mut edges,
        log: &mut log,
        verdicts: &mut verdicts,
    };
    let mut text = match run_in(deck, bounds, phase, lent) {
        Err(refusal) => {
            let word = refusal.word().map(|word| format!(" {}", word.0));
            let word = word.unwrap_or_default();
            format!(" refused {}{word}\n", refusal.number())
        }
        Ok(s) => format!(" {} {} {} {}\n", s.outcome, s.elements, s.edges, s.reasons),
    };
    let flat = |edges: &[Edge]| edges.iter().flat_map(edge_words).collect::<Vec<u32>>();
    let stray = show(&mut text, "labels", &labels, &label_marks)
        + show(&mut text, "edges", &flat(&edges), &flat(&edge_marks))
        + show(&mut text, "log", &log, &word_marks)
        + show(&mut text, "verdicts", &verdicts, &word_marks);
    assert_eq!(stray, 0);
    text.push_str("untouched\n");
    text
}

#[test]
fn all_runs() {
    let (input, wanted) = (data("stdin"), String::from_utf8(data("stdout")).unwrap());
    let wanted: Vec<&str> = wanted.split_inclusive("untouched\n").collect();
    let phases = [Phase::Seed, Phase::Expand, Phase::Axioms, Phase::Closing];
    let (mut at, mut case, mut ran) = (0, 0, 0);
    while at < input.len() {
        let word = |k: usize| {
            let bytes = &input[at + 4 * k..][..4];
            u32::from_le_bytes(bytes.try_into().unwrap())
        };
        let length = |k: usize| word(k) as usize;
        let name = &input[at + 40..][..length(0)];
        let start = at + 40 + length(0).next_multiple_of(4);
        let deck = &input[start..][..length(1)];
        let bounds = Bounds {
            max_elements: word(2),
            max_edges: word(3),
            max_rounds: word(4),
        };
        // a phase that is none cannot be said in Rust
        if let Some(&phase) = phases.iter().find(|&&p| p as u32 == word(5)) {
            let lengths = [length(6), length(7), length(8), length(9)];
            let text = run_case(bounds, phase, lengths, deck);
            let name = String::from_utf8_lossy(name);
            assert_eq!(format!("{name}{text}"), wanted[case]);
            ran += 1;
        }
        at = start + length(1).next_multiple_of(4);
        case += 1;
    }
    assert_eq!(
        case,
        wanted.iter().filter(|w| w.ends_with("untouched\n")).count()
    );
    assert!(ran > 400, "{ran} of {case}");
}
