//! Deck W of document 01, its specimens, and what `verify` prints for it.
mod common;

use common::{deck_w, AXIOMS, CONCEPTS, LISTS};
use std::path::PathBuf;
use std::process::Command;
use style_deck::{
    check_axiom, check_deck, eval_concept, report, run, Bounds, ClassId, ConceptId, Edge, Element,
    Judgement, Outcome, Phase, Reason, RoleId, Structure, Unhandled, Verdict,
};

const BOUNDS: Bounds = Bounds {
    max_elements: 255,
    max_edges: 1_000,
    max_rounds: 100,
};

const EDGE: Edge = Edge {
    role: RoleId(0),
    from: Element(1),
    to: Element(0),
};

const PRINTED: &str = "confirmed 2 1 0\n0 holds\n1 holds\n";

/// Elements {0}, {0, 1}, edge 1 to 0.
fn structure_w() -> Structure {
    Structure::new(1, vec![1, 3], 2, vec![EDGE])
}

#[test]
fn deck_w_is_confirmed() {
    let deck = deck_w().bytes();
    assert_eq!(check_deck(&deck), Ok(()));
    let run = run(&deck, BOUNDS, Phase::Closing).unwrap();
    assert_eq!(run.outcome, Outcome::Confirmed);
    assert_eq!(run.structure, structure_w());
    assert_eq!(run.structure.elements(), 2);
    assert_eq!(run.structure.labels(), [1, 3]);
    assert_eq!(run.structure.edges(), [EDGE]);
    assert_eq!(run.structure.classes(Element(0)), [ClassId(0)]);
    assert_eq!(run.structure.classes(Element(1)), [ClassId(0), ClassId(1)]);
    assert_eq!(run.structure.classes(Element(2)), []);
    assert_eq!(run.verdicts, [Verdict::Holds, Verdict::Holds]);
    assert_eq!((run.reasons.len(), run.reason_total), (0, 0));
}

#[test]
fn seeding_alone_leaves_no_edge() {
    let run = run(&deck_w().bytes(), BOUNDS, Phase::Seed).unwrap();
    assert_eq!(run.structure, Structure::new(1, vec![1, 3], 2, vec![]));
    assert_eq!(run.outcome, Outcome::Failed);
    assert_eq!(run.verdicts[1], Verdict::Fails(vec![Element(1)]));
}

#[test]
fn specimen_12() {
    let deck = deck_w().bytes();
    let with = |max_edges| {
        let bounds = Bounds {
            max_edges,
            ..BOUNDS
        };
        run(&deck, bounds, Phase::Closing).unwrap()
    };
    let tripped = with(0);
    assert_eq!(tripped.outcome, Outcome::Open);
    assert_eq!(tripped.structure.edges(), [EDGE]);
    assert_eq!(tripped.reasons, [Reason::EdgesTripped { limit: 0 }]);
    assert_eq!(with(1).outcome, Outcome::Confirmed);
}

#[test]
fn specimen_13() {
    let deck = deck_w().bytes();
    let with = |max_elements| {
        let bounds = Bounds {
            max_elements,
            ..BOUNDS
        };
        run(&deck, bounds, Phase::Closing).unwrap()
    };
    let tripped = with(1);
    assert_eq!(tripped.outcome, Outcome::Failed);
    assert_eq!(tripped.structure.edges(), []);
    assert_eq!(tripped.verdicts[0], Verdict::Holds);
    assert_eq!(tripped.verdicts[1], Verdict::Fails(vec![Element(1)]));
    assert_eq!(tripped.reasons, [Reason::ElementsTripped { limit: 1 }]);
    assert_eq!(with(2).outcome, Outcome::Confirmed);
}

/// Specimens 1 to 3, over deck W with Not(concept 0) and And(Atomic 1, Not) besides.
#[test]
fn judgements() {
    let deck = deck_w()
        .with(CONCEPTS, &[6, 0, 0, 0]) // 3: the empty And
        .with(CONCEPTS, &[5, 0, 0, 0]) // 4: Not(concept 0)
        .with(CONCEPTS, &[6, 4, 2, 0]) // 5: And(Atomic 1, Not)
        .with(LISTS, &[1])
        .with(LISTS, &[4])
        .bytes();
    let at = |concept, element| {
        let (concept, element) = (ConceptId(concept), Element(element));
        eval_concept(&deck, &structure_w(), concept, element).unwrap()
    };
    assert_eq!([at(2, 0), at(2, 1)], [Judgement::False, Judgement::True]);
    assert_eq!([at(3, 0), at(3, 1)], [Judgement::True, Judgement::True]);
    assert_eq!(at(5, 0), Judgement::False);
    assert_eq!(at(5, 1), Judgement::Unresolved(5));
}

/// A verdict of each kind: specimens 5, 6, 10, 11, and axioms that are not judged.
#[test]
fn verdicts() {
    let deck = deck_w()
        .with(CONCEPTS, &[5, 0, 0, 0]) // 3: Not(concept 0)
        .with(AXIOMS, &[1, 4, 2, 0]) // 2: EquivalentClasses(Not, Not)
        .with(AXIOMS, &[2, 6, 2, 0]) // 3: DisjointClasses(Atomic 1, Atomic 1)
        .with(AXIOMS, &[11, 0, 0, 0]) // 4: TransitiveRole 0
        .with(AXIOMS, &[12, 0, 0, 0]) // 5: SymmetricRole 0
        .with(AXIOMS, &[7, 0, 0, 0]) // 6: DisjointObjectProperties()
        .with(AXIOMS, &[11, 1, 0, 0]) // 7: TransitiveRole, inverse
        .with(AXIOMS, &[5, 0, 0, 0]) // 8: a chain without links
        .with(AXIOMS, &[4, 1, 0, 0]) // 9: SubObjectPropertyOf, inverse
        .with(LISTS, &[3])
        .with(LISTS, &[3])
        .with(LISTS, &[1])
        .with(LISTS, &[1])
        .bytes();
    let unhandled = |tag, why| Verdict::UnhandledAxiom { tag, why };
    let wanted = [
        Verdict::Holds,
        Verdict::Holds,
        Verdict::UnhandledConcept { tag: 5 },
        Verdict::Fails(vec![Element(1)]),
        Verdict::Holds,
        Verdict::GuardedRoleHasEdges(RoleId(0)),
        unhandled(7, Unhandled::Variety),
        unhandled(11, Unhandled::InverseRole),
        unhandled(5, Unhandled::ChainLength),
        unhandled(4, Unhandled::InverseRole),
    ];
    for (axiom, verdict) in wanted.iter().enumerate() {
        let found = check_axiom(&deck, &structure_w(), axiom as u32);
        assert_eq!(found.as_ref(), Ok(verdict), "axiom {axiom}");
    }
    let run = run(&deck, BOUNDS, Phase::Closing).unwrap();
    assert_eq!(run.structure, structure_w());
    assert_eq!(run.verdicts, wanted);
    let text = report(&deck);
    let lines: Vec<&str> = text.lines().collect();
    assert_eq!(lines[0], "failed 2 1 0");
    assert_eq!(lines[3..6], ["2 open 3 5 0", "3 fails 1", "4 holds"]);
    assert_eq!(
        lines[6..9],
        ["5 open 4 0 0", "6 open 2 7 0", "7 open 2 11 1"]
    );
}

fn example(deck: &[u8]) -> String {
    let programs = std::env::current_exe().unwrap();
    let print = programs.ancestors().nth(2).unwrap().join("examples/print");
    let name = format!("style_deck_{}_{}.deck", std::process::id(), deck.len());
    let path = std::env::temp_dir().join(name);
    std::fs::write(&path, deck).unwrap();
    let printed = Command::new(&print).arg(&path).output();
    std::fs::remove_file(&path).unwrap();
    let printed = printed.unwrap_or_else(|e| panic!("{}: {e}", print.display()));
    assert!(printed.status.success());
    String::from_utf8(printed.stdout).unwrap()
}

/// A file of the program `verify`: its check runs it on `stdin`, and it must print `stdout`.
fn of_verify(name: &str) -> Vec<u8> {
    let path = PathBuf::from(env!("CARGO_MANIFEST_DIR")).join("../../crates/verify");
    std::fs::read(path.join(name)).unwrap()
}

#[test]
fn the_example_prints_what_verify_prints() {
    let deck = deck_w().bytes();
    assert_eq!(deck, of_verify("stdin"));
    assert_eq!(PRINTED.as_bytes(), of_verify("stdout"));
    assert_eq!(example(&deck), PRINTED);
    assert_eq!(report(&deck), PRINTED);
    assert_eq!(report(&deck[4..]), "refused 4\n");
    assert_eq!(report(&vec![0; 65_537]), "refused 9\n");
    assert_eq!(report(&vec![0; 65_536]), "refused 2\n");
}
