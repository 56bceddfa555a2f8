//! The style-deck verifier for Rust: a safe wrapper of `libcapi.a`, whose functions are proved in Rattle.
//!
//! [`run`] takes a deck from its bytes to an outcome, with the structure that was built and a verdict for every axiom.
//! [`check_deck`] only reads a deck; [`eval_concept`] and [`check_axiom`] ask about a [`Structure`], built or made by
//! hand. [`run_in`] is [`run`] over memory that the caller lends. [`report`] is the text of the program `verify`.
//!
//! `docs/FORMAT.md` in the repository describes a deck word by word, and says what each answer means;
//! `include/style_deck.h` describes the library's own functions.
//!
//! Judging and building go as deep as a deck's concepts nest. So that no deck can exhaust the stack of the caller, every
//! function but [`check_deck`] works on a thread of its own with [`STACK_BYTES`] of stack, and panics if the system has
//! no such thread to give.

#![deny(unsafe_code)]

mod answers;
mod ffi;
mod numbers;
mod structure;

pub use answers::{Judgement, Outcome, Reason, Refusal, Unhandled, Verdict};
pub use ffi::{REPORT_BYTES, STACK_BYTES};
pub use numbers::{Bounds, ClassId, ConceptId, Edge, Element, Phase, RoleId, WordIndex};
pub use structure::Structure;

use answers::reasons_of;
use numbers::Counts;

/// How many reasons [`run`] keeps. A caller who wants more lends a longer log to [`run_in`].
pub const REASONS_KEPT: usize = 1024;

/// What a run came to.
#[derive(Clone, Debug, PartialEq, Eq)]
pub struct Run {
    pub outcome: Outcome,
    /// The structure that was built.
    pub structure: Structure,
    /// A verdict for each axiom of the deck.
    pub verdicts: Vec<Verdict>,
    /// The first reasons that were given, at most [`REASONS_KEPT`].
    pub reasons: Vec<Reason>,
    /// How many reasons were given, up to 4,294,967,295.
    pub reason_total: u32,
}

/// Memory that is lent to [`run_in`]. Whatever its lengths, a run stays within them; too little is
/// [`Refusal::ShortBuffer`], except for the log, which may have any length.
#[derive(Debug)]
pub struct Lent<'a> {
    /// (max(N, max_elements) + 1) × ceil(N / 64) words, N being the number of classes.
    pub labels: &'a mut [u64],
    /// max_edges + 1 edges.
    pub edges: &'a mut [Edge],
    /// Three words for each reason that is to be kept.
    pub log: &'a mut [u32],
    /// Four words for each axiom.
    pub verdicts: &'a mut [u32],
}

/// What [`run_in`] came to: how much of the lent memory is in use.
#[derive(Clone, Copy, Debug, PartialEq, Eq)]
pub struct Summary {
    pub outcome: Outcome,
    pub elements: u32,
    pub edges: u32,
    pub reasons: u32,
}

/// Is the deck in order? A refusal is one of 1 to 4, 6, 7 and 12 to 14.
pub fn check_deck(deck: &[u8]) -> Result<(), Refusal> {
    Refusal::unless_zero(ffi::check(deck), deck)
}

/// Reads the deck, builds its structure within the bounds up to the last phase, and judges every axiom in it.
///
/// # Errors
/// As [`check_deck`] for the deck, then [`Refusal::BadBounds`].
///
/// # Panics
/// If the system gives no thread.
pub fn run(deck: &[u8], bounds: Bounds, last_phase: Phase) -> Result<Run, Refusal> {
    check_deck(deck)?;
    let counts = Counts::of(deck);
    let room = counts.room(bounds).ok_or(Refusal::BadBounds)?;
    let mut labels = vec![0; room.labels];
    let mut edges = vec![Edge::default(); room.edges];
    let mut log = vec![0; 3 * REASONS_KEPT];
    let mut verdicts = vec![0; room.verdicts];
    let lent = Lent {
        labels: &mut labels,
        edges: &mut edges,
        log: &mut log,
        verdicts: &mut verdicts,
    };
    let summary = run_in(deck, bounds, last_phase, lent)?;
    labels.truncate(summary.elements as usize * counts.width());
    edges.truncate(summary.edges as usize);
    Ok(Run {
        outcome: summary.outcome,
        structure: Structure::new(counts.width(), labels, summary.elements, edges),
        verdicts: verdicts.chunks_exact(4).map(Verdict::of_words).collect(),
        reasons: reasons_of(&log, summary.reasons),
        reason_total: summary.reasons,
    })
}

/// [`run`] over lent memory. What is in use stands at the start of each slice, and the rest is as it was; after a refusal,
/// all of it is.
///
/// # Errors
/// As [`check_deck`] for the deck, then [`Refusal::BadBounds`], then [`Refusal::ShortBuffer`].
///
/// # Panics
/// If the system gives no thread.
pub fn run_in(
    deck: &[u8],
    bounds: Bounds,
    last_phase: Phase,
    lent: Lent<'_>,
) -> Result<Summary, Refusal> {
    let mut answer = [0; 4];
    let number = ffi::run(deck, bounds, last_phase, lent, &mut answer);
    Refusal::unless_zero(number, deck)?;
    let [outcome, elements, edges, reasons] = answer;
    Ok(Summary {
        outcome: Outcome::of_word(outcome),
        elements,
        edges,
        reasons,
    })
}

/// The text that the program `verify` prints for an input, with the program's bounds and its limits: at most 65,536 bytes and
/// 256 classes.
///
/// # Panics
/// If the system gives no thread.
pub fn report(input: &[u8]) -> String {
    let mut out = vec![0; REPORT_BYTES];
    let length = report_in(input, &mut out).expect("the library is proved to need no more");
    out.truncate(length);
    String::from_utf8(out).expect("a text is ASCII")
}

/// [`report`] into lent memory: the length of the text, which stands at the start of `out`, and the rest is as it was; or
/// none where `out` is too short for the text, and then all of it is.
///
/// # Panics
/// If the system gives no thread.
pub fn report_in(input: &[u8], out: &mut [u8]) -> Option<usize> {
    match ffi::report(input, out) {
        0 => None,
        length => Some(length),
    }
}

/// Is the element in the concept, in that structure?
///
/// # Errors
/// As [`check_deck`] for the deck, then [`Refusal::ForeignStructure`], then [`Refusal::AbsentIndex`].
///
/// # Panics
/// If the system gives no thread.
pub fn eval_concept(
    deck: &[u8],
    structure: &Structure,
    concept: ConceptId,
    element: Element,
) -> Result<Judgement, Refusal> {
    let mut answer = [0; 4];
    let number = ffi::eval_concept(deck, structure, concept, element, &mut answer);
    Refusal::unless_zero(number, deck)?;
    Ok(Judgement::of_words(answer))
}

/// Is the axiom, by its number in the deck, satisfied in that structure?
///
/// # Errors
/// As for [`eval_concept`].
///
/// # Panics
/// If the system gives no thread.
pub fn check_axiom(deck: &[u8], structure: &Structure, axiom: u32) -> Result<Verdict, Refusal> {
    let mut answer = [0; 4];
    let number = ffi::check_axiom(deck, structure, axiom, &mut answer);
    Refusal::unless_zero(number, deck)?;
    Ok(Verdict::of_words(&answer))
}
