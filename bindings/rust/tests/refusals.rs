//! Each refusal can be met from Rust, and leaves lent memory as it was.
mod common;

use common::{bytes, deck_w, Deck, AXIOMS, CLASSES, CONCEPTS, INJECTED, LISTS, ROLES};
use style_deck::{
    check_axiom, check_deck, eval_concept, run, run_in, Bounds, ConceptId, Edge, Element, Lent,
    Phase, Refusal, RoleId, Structure, Summary, WordIndex, REPORT_BYTES, STACK_BYTES,
};

const BOUNDS: Bounds = Bounds {
    max_elements: 3,
    max_edges: 4,
    max_rounds: 5,
};

/// What every function says of a deck that is not in order.
fn assert_deck_refused(deck: &[u8], refusal: Refusal) {
    let none = Structure::new(1, vec![], 0, vec![]);
    assert_eq!(check_deck(deck), Err(refusal));
    assert_eq!(run(deck, BOUNDS, Phase::Closing), Err(refusal));
    assert_eq!(
        eval_concept(deck, &none, ConceptId(9), Element(9)),
        Err(refusal)
    );
    assert_eq!(check_axiom(deck, &none, 9), Err(refusal));
}

/// The deck with one word of its trailer changed.
fn with_trailer(k: usize, word: u32) -> Vec<u8> {
    let mut words = deck_w().words();
    let at = words.len() - 18 + k;
    words[at] = word;
    bytes(&words)
}

#[test]
fn decks() {
    assert_deck_refused(&[], Refusal::TooShort);
    assert_deck_refused(&deck_w().bytes()[1..], Refusal::TooShort);
    assert_deck_refused(&with_trailer(0, 2), Refusal::UnknownEdition);
    assert_deck_refused(&with_trailer(3, 4_097), Refusal::CountOverLimit);
    assert_deck_refused(&with_trailer(4, 1), Refusal::BadLayout);
    let mut row = deck_w();
    row.parts[LISTS][1..3].rotate_left(1);
    assert_deck_refused(&row.bytes(), Refusal::BadOrder);
    let own = deck_w().with(CONCEPTS, &[5, 3, 0, 0]);
    assert_deck_refused(&own.bytes(), Refusal::ForwardOperand);
}

#[test]
fn faults_in_deck_w() {
    let faults = [
        ([26, 0, 0, 0], Refusal::UnknownTag(WordIndex(30))),
        ([23, 2, 1, 0], Refusal::OutOfRange(WordIndex(31))),
        ([23, 1, 1, 0], Refusal::FilledField(WordIndex(32))),
    ];
    for (axiom, refusal) in faults {
        assert_deck_refused(&deck_w().with(AXIOMS, &axiom).bytes(), refusal);
    }
}

/// The small decks of docs/FORMAT.md: records, each with its part, and M = 0.
#[test]
fn small_decks() {
    type Records<'a> = &'a [(usize, &'a [u32])];
    let assert_refused = |records: Records<'_>, refusal: Refusal| {
        let with = |deck: Deck, record: &(usize, &[u32])| deck.with(record.0, record.1);
        let deck = records.iter().fold(Deck::default(), with);
        assert_deck_refused(&deck.bytes(), refusal);
    };
    let role: &[u32] = &[0, 1, 1, 0];
    let class: &[u32] = &[0, 0, 1];

    let flag: Records = &[(CLASSES, &[2, 9, 9])];
    assert_refused(flag, Refusal::UnknownTag(WordIndex(0)));
    let not: Records = &[(CONCEPTS, &[5, 0, 1, 0])];
    assert_refused(not, Refusal::FilledField(WordIndex(2)));
    let earlier: Records = &[(CONCEPTS, &[5, 0, 0, 0]), (CONCEPTS, &[12, 0, 0, 0])];
    assert_refused(earlier, Refusal::ForwardOperand);

    let chain: Records = &[
        (ROLES, role),
        (AXIOMS, &[5, 1, 1, 2]),
        (LISTS, &[0]),
        (LISTS, &[2]),
    ];
    assert_refused(chain, Refusal::OutOfRange(WordIndex(9)));
    let empty: Records = &[(ROLES, &[0, 1, 9, 0]), (LISTS, &[0])];
    assert_refused(empty, Refusal::OutOfRange(WordIndex(2)));
    let long: Records = &[(CLASSES, &[0, 0, 2]), (LISTS, &[7])];
    assert_refused(long, Refusal::OutOfRange(WordIndex(1)));
    let shared: Records = &[(CLASSES, class), (CLASSES, class), (LISTS, &[2])];
    assert_refused(shared, Refusal::OutOfRange(WordIndex(6)));
    let unreal: Records = &[
        (CLASSES, class),
        (ROLES, role),
        (INJECTED, &[0, 0, 0]),
        (LISTS, &[0]),
    ];
    assert_refused(unreal, Refusal::OutOfRange(WordIndex(9)));
}

/// Buffers of these lengths, marked, lent to a run of deck W; and whether they are as they were.
fn run_over(lengths: [usize; 4], bounds: Bounds) -> (Result<Summary, Refusal>, bool) {
    const MARK: Edge = Edge {
        role: RoleId(7),
        from: Element(8),
        to: Element(9),
    };
    let mut labels = vec![77; lengths[0]];
    let mut edges = vec![MARK; lengths[1]];
    let mut log = vec![78; lengths[2]];
    let mut verdicts = vec![79; lengths[3]];
    let lent = Lent {
        labels: &mut labels,
        edges: &mut edges,
        log: &mut log,
        verdicts: &mut verdicts,
    };
    let answer = run_in(&deck_w().bytes(), bounds, Phase::Closing, lent);
    let untouched = labels.iter().all(|&w| w == 77)
        && edges.iter().all(|&e| e == MARK)
        && log.iter().all(|&w| w == 78)
        && verdicts.iter().all(|&w| w == 79);
    (answer, untouched)
}

#[test]
fn buffers() {
    let (answer, untouched) = run_over([4, 5, 0, 8], BOUNDS);
    assert!(answer.is_ok() && !untouched);
    for short in [[3, 5, 3, 8], [4, 4, 3, 8], [4, 5, 3, 7], [0, 0, 0, 0]] {
        let refused = (Err(Refusal::ShortBuffer), true);
        assert_eq!(run_over(short, BOUNDS), refused, "{short:?}");
    }
}

#[test]
fn bounds() {
    let bad = [(65_536, 4, 5), (3, 1_048_576, 5), (3, 4, 65_536)];
    for (max_elements, max_edges, max_rounds) in bad {
        let bounds = Bounds {
            max_elements,
            max_edges,
            max_rounds,
        };
        let refused = (Err(Refusal::BadBounds), true);
        assert_eq!(run_over([4, 5, 3, 8], bounds), refused);
        let owned = run(&deck_w().bytes(), bounds, Phase::Closing);
        assert_eq!(owned, Err(Refusal::BadBounds));
    }
    let largest = Bounds {
        max_elements: 65_535,
        max_edges: 1_048_575,
        max_rounds: 65_535,
    };
    assert!(run(&deck_w().bytes(), largest, Phase::Closing).is_ok());
}

fn edge(role: u32, from: u32, to: u32) -> Edge {
    Edge {
        role: RoleId(role),
        from: Element(from),
        to: Element(to),
    }
}

#[test]
fn structures() {
    let deck = deck_w().bytes();
    let foreign = [
        Structure::new(1, vec![1, 3], 3, vec![]),
        Structure::new(1, vec![1, 4], 2, vec![]),
        Structure::new(1, vec![1, 3], 2, vec![edge(1, 0, 0)]),
        Structure::new(1, vec![1, 3], 2, vec![edge(0, 2, 0)]),
        Structure::new(1, vec![1, 3], 2, vec![edge(0, 0, 2)]),
        Structure::new(1, vec![1; 65_537], 65_537, vec![]),
    ];
    for structure in foreign {
        let refused = Err(Refusal::ForeignStructure);
        assert_eq!(check_axiom(&deck, &structure, 9), refused);
        let judged = eval_concept(&deck, &structure, ConceptId(9), Element(9));
        assert_eq!(judged, Err(Refusal::ForeignStructure));
    }
    let own = Structure::new(1, vec![1, 3], 2, vec![edge(0, 1, 0)]);
    let absent = Err(Refusal::AbsentIndex);
    assert_eq!(check_axiom(&deck, &own, 2), Err(Refusal::AbsentIndex));
    assert_eq!(eval_concept(&deck, &own, ConceptId(3), Element(0)), absent);
    assert_eq!(eval_concept(&deck, &own, ConceptId(0), Element(2)), absent);
}

/// Labels of any width, also one that no deck has.
#[test]
fn classes_of_a_wide_label() {
    let widest = Structure::new(usize::MAX, vec![5, 2], 3, vec![]);
    let classes: Vec<u32> = widest.classes(Element(0)).iter().map(|k| k.0).collect();
    assert_eq!(classes, [0, 2, 65]);
    assert_eq!(widest.classes(Element(2)), []);
    assert_eq!(widest.classes(Element(3)), []);
    let none = Structure::new(0, vec![5], 2, vec![]);
    assert_eq!(none.classes(Element(1)), []);
}

/// A number that the header defines, as a product.
fn of_header(name: &str) -> usize {
    let header = concat!(env!("CARGO_MANIFEST_DIR"), "/../../include/style_deck.h");
    let header = std::fs::read_to_string(header).unwrap();
    let (_, after) = header.split_once(&format!("#define {name} ")).unwrap();
    let product = after.lines().next().unwrap().trim_matches(['(', ')']);
    let factors = product.split('*').map(|f| f.trim().trim_end_matches('u'));
    factors.map(|f| f.parse::<usize>().unwrap()).product()
}

/// The wrapper's stack is twice what the header calls enough.
#[test]
fn numbers_of_the_header() {
    assert_eq!(STACK_BYTES, 2 * of_header("STYLE_DECK_STACK_BYTES"));
    assert_eq!(REPORT_BYTES, of_header("STYLE_DECK_REPORT_BYTES"));
}

#[test]
fn numbers_and_words() {
    let alone = [
        (1, Refusal::TooShort),
        (2, Refusal::UnknownEdition),
        (3, Refusal::CountOverLimit),
        (4, Refusal::BadLayout),
        (6, Refusal::BadOrder),
        (7, Refusal::ForwardOperand),
        (8, Refusal::BadBounds),
        (9, Refusal::ShortBuffer),
        (10, Refusal::ForeignStructure),
        (11, Refusal::AbsentIndex),
    ];
    for (number, refusal) in alone {
        assert_eq!((refusal.number(), refusal.word()), (number, None));
    }
    let at = WordIndex(7);
    let with_word = [
        (12, Refusal::UnknownTag(at)),
        (13, Refusal::OutOfRange(at)),
        (14, Refusal::FilledField(at)),
    ];
    for (number, refusal) in with_word {
        assert_eq!((refusal.number(), refusal.word()), (number, Some(at)));
    }
    let text = Refusal::ShortBuffer.to_string();
    assert_eq!(text, "refused 9: label, edge or verdict buffer below need");
    let text = Refusal::FilledField(at).to_string();
    assert_eq!(text, "refused 14: unused field filled at word 7");
}

/// 16,383 Somes or Ands, each over the one before: a test's thread has not stack enough for that, the wrapper's has.
#[test]
fn the_deepest_decks() {
    const C: u32 = 16_384;
    for and_every in [1, 2, C] {
        let mut deck = Deck {
            real: 1,
            ..Deck::default()
        }
        .with(CLASSES, &[0, 0, 1])
        .with(ROLES, &[0, 1, 0, 0])
        .with(CONCEPTS, &[2, 0, 0, 0])
        .with(AXIOMS, &[0, 0, C - 1, 0]);
        for k in 1..C {
            let record = match k % and_every {
                0 => [6, k - 1, 1, 0],
                _ => [8, 0, k - 1, 0],
            };
            deck.parts[CONCEPTS].push(record.to_vec());
        }
        deck.parts[LISTS] = (0..C).map(|k| vec![k]).collect();
        let deck = deck.bytes();
        let run = run(&deck, BOUNDS, Phase::Closing).unwrap();
        let judged = eval_concept(&deck, &run.structure, ConceptId(C - 1), Element(0));
        assert!(judged.is_ok());
    }
}
