//! The original's answers to some hundred decks, as stdin and stdout of the program test_replay. Its main.rt has the form.
use crate::answer::{Answer, Bounds};
use crate::compare::{asked, building_deck, count_answer};
use crate::oracle::Case;
use crate::ours::need;
use crate::parts::Parts;
use crate::rng::Rng;
use crate::tally::Tally;
use std::{collections::BTreeSet, fs, io, path::Path};

const CASES: usize = 300;
const BYTES: usize = 400_000;
/// The decks are gone through several times. A case is taken if it shows so many new pairs of things.
const NEW_PAIRS: [usize; 6] = [40, 20, 10, 5, 2, 1];
const DECKS: u64 = 3000;

/// The room that the program has.
fn fits(parts: &Parts, bounds: Bounds, answer: &Answer) -> bool {
    let need = need(parts, bounds);
    need.labels <= 600 && need.edges <= 130 && need.verdicts <= 300 && 3 * answer.reasons.len() <= 300
}

/// What a case shows: of its answer, its deck and its bounds, every axiom by tag and verdict, every concept by tag and
/// judgement.
fn shown(
    parts: &Parts,
    last: u32,
    tripped_in: Option<u32>,
    answer: &Answer,
    judgements: &[[u32; 4]],
) -> BTreeSet<String> {
    let mut tally = Tally::default();
    count_answer(&mut tally, answer);
    tally.add("last", last, 1);
    tally.add("tripped", format!("{tripped_in:?}"), 1);
    tally.add("width", parts.width(), 1);
    tally.add("elements", answer.elements.min(4), 1);
    for (axiom, words) in parts.axioms.iter().zip(&answer.verdicts) {
        tally.add("axiom", format!("{} {}", axiom[0], words[0]), 1);
    }
    for (k, words) in judgements.iter().enumerate() {
        let concept = parts.concepts[k / answer.elements as usize];
        tally.add("concept", format!("{} {}", concept[0], words[0]), 1);
    }
    tally.seen().map(|(group, name)| format!("{group} {name}")).collect()
}

fn pairs(shown: &BTreeSet<String>) -> BTreeSet<(String, String)> {
    shown.iter().flat_map(|one| shown.range(one.clone()..).map(|other| (one.clone(), other.clone()))).collect()
}

/// The words of a case after those of the deck.
fn expected(answer: &Answer, judgements: &[[u32; 4]]) -> Vec<u32> {
    let mut words = vec![answer.outcome, answer.elements, answer.edges.len() as u32, answer.reasons.len() as u32];
    words.extend(answer.labels.iter().flat_map(|word| [*word as u32, (word >> 32) as u32]));
    words.extend(answer.edges.as_flattened());
    words.extend(answer.reasons.as_flattened());
    words.extend(answer.verdicts.as_flattened());
    words.extend(judgements.iter().map(|[kind, tag, ..]| if *kind == 2 { 2 + tag } else { *kind }));
    words
}

pub fn write(seed: u64, folder: &str) -> io::Result<()> {
    let (mut seen, mut given, mut cases, mut compared) = (BTreeSet::new(), Vec::new(), 0, 0);
    for (new_pairs, index) in NEW_PAIRS.into_iter().flat_map(|new| (0..DECKS).map(move |index| (new, index))) {
        if cases == CASES {
            break;
        }
        let rng = &mut Rng::new(seed, index);
        let parts = building_deck(rng);
        let case = Case::new(&parts);
        let (bounds, last) = asked(rng, &parts, &case);
        let built = case.build(bounds, last);
        let (judgements, tripped_in) = (case.judgements(&built.model), built.tripped_in);
        let mut answer = case.answer(built);
        let new = pairs(&shown(&parts, last, tripped_in, &answer, &judgements));
        if !fits(&parts, bounds, &answer) || new.difference(&seen).count() < new_pairs {
            continue;
        }
        seen.extend(new);
        answer.edges = case.edges_in_order(bounds, last, answer.edges.len());
        let (deck, words) = (parts.words(), expected(&answer, &judgements));
        let (labels, verdicts) = (answer.labels.len(), 4 * answer.verdicts.len());
        let head = [9 + deck.len() + words.len(), deck.len(), labels, verdicts, parts.concepts.len()];
        given.extend(head.map(|count| count as u32));
        given.extend([bounds.elements, bounds.edges, bounds.rounds, last]);
        given.extend(&deck);
        given.extend(&words);
        cases += 1;
        compared += words.len();
    }
    println!("{cases} cases of {DECKS} decks, {} bytes, {} pairs of things shown", 4 * given.len(), seen.len());
    assert!(4 * given.len() <= BYTES);
    let bytes: Vec<u8> = given.iter().flat_map(|word| word.to_le_bytes()).collect();
    fs::write(Path::new(folder).join("stdin"), bytes)?;
    fs::write(Path::new(folder).join("stdout"), format!("cases {cases}\nwords compared {compared}\ndifferences 0\n"))
}
