//! The library's functions as `include/style_deck.h` declares them, behind safe ones. All `unsafe` code is here.
//!
//! Why it is sound: the library is proved to read and write only within the slices that it is lent, for any contents and
//! lengths. A slice passes as its pointer, which Rust keeps non-null and aligned, and its length; the borrow checker sees
//! to it that what is written overlaps nothing else. What the proof does not cover is the stack: see `on_own_stack`.
#![allow(unsafe_code)]
use crate::numbers::{Bounds, ConceptId, Edge, Element, Phase};
use crate::structure::Structure;
use crate::{Lent, Refusal};
use std::thread;

/// The header's STYLE_DECK_STACK_BYTES, which says what the deepest deck takes.
const ENOUGH_STACK: usize = 8 << 20;

/// The stack of the thread on which a call works: twice what the header calls enough for every deck.
pub const STACK_BYTES: usize = 2 * ENOUGH_STACK;

/// The header's STYLE_DECK_REPORT_BYTES: enough for every text.
pub const REPORT_BYTES: usize = 204_864;

extern "C" {
    fn style_deck_check(deck: *const u8, deck_length: usize) -> u32;

    fn style_deck_fault_word(deck: *const u8, deck_length: usize) -> u32;

    fn style_deck_eval_concept(
        deck: *const u8,
        deck_length: usize,
        labels: *const u64,
        labels_length: usize,
        elements: u32,
        edges: *const Edge,
        edges_length: usize,
        edge_count: u32,
        concept: u32,
        element: u32,
        answer: *mut u32,
        answer_length: usize,
    ) -> u32;

    fn style_deck_check_axiom(
        deck: *const u8,
        deck_length: usize,
        labels: *const u64,
        labels_length: usize,
        elements: u32,
        edges: *const Edge,
        edges_length: usize,
        edge_count: u32,
        axiom: u32,
        answer: *mut u32,
        answer_length: usize,
    ) -> u32;

    fn style_deck_run(
        deck: *const u8,
        deck_length: usize,
        max_elements: u32,
        max_edges: u32,
        max_rounds: u32,
        last_phase: u32,
        labels: *mut u64,
        labels_length: usize,
        edges: *mut Edge,
        edges_length: usize,
        log: *mut u32,
        log_length: usize,
        verdicts: *mut u32,
        verdicts_length: usize,
        answer: *mut u32,
        answer_length: usize,
    ) -> u32;

    fn style_deck_report(
        input: *const u8,
        input_length: usize,
        out: *mut u8,
        out_length: usize,
    ) -> usize;
}

// An edge is three words, as the library takes it.
const _: () = assert!(size_of::<Edge>() == 12 && align_of::<Edge>() == align_of::<u32>());

/// Calls on a thread with stack enough. A caller's own could end: by default a thread has 2 MB.
fn on_own_stack<T: Send>(call: impl FnOnce() -> T + Send) -> T {
    thread::scope(|scope| {
        thread::Builder::new()
            .name("style_deck".into())
            .stack_size(STACK_BYTES)
            .spawn_scoped(scope, call)
            .expect("a thread for the verifier")
            .join()
            .expect("the library does not panic")
    })
}

pub fn check(deck: &[u8]) -> u32 {
    // SAFETY: the slice is lent whole; the function is not recursive.
    unsafe { style_deck_check(deck.as_ptr(), deck.len()) }
}

/// The word of the deck's refusal 12, 13 or 14.
pub fn fault_word(deck: &[u8]) -> u32 {
    // SAFETY: as for `check`.
    unsafe { style_deck_fault_word(deck.as_ptr(), deck.len()) }
}

/// Asks one of the two questions about a structure: the arguments that both have, and its own. More edges than a count can
/// say are more than the library takes.
macro_rules! ask {
    ($question:ident, $deck:ident, $structure:ident, $answer:ident, $($own:expr),+) => {{
        let Ok(count) = u32::try_from($structure.edges().len()) else {
            return Refusal::ForeignStructure.number();
        };
        let (labels, edges) = ($structure.labels(), $structure.edges());
        // SAFETY: every slice is lent whole, and `answer` is borrowed alone.
        on_own_stack(|| unsafe {
            $question(
                $deck.as_ptr(),
                $deck.len(),
                labels.as_ptr(),
                labels.len(),
                $structure.elements(),
                edges.as_ptr(),
                edges.len(),
                count,
                $($own),+,
                $answer.as_mut_ptr(),
                $answer.len(),
            )
        })
    }};
}

pub fn eval_concept(
    deck: &[u8],
    structure: &Structure,
    concept: ConceptId,
    element: Element,
    answer: &mut [u32; 4],
) -> u32 {
    ask!(
        style_deck_eval_concept,
        deck,
        structure,
        answer,
        concept.0,
        element.0
    )
}

pub fn check_axiom(deck: &[u8], structure: &Structure, axiom: u32, answer: &mut [u32; 4]) -> u32 {
    ask!(style_deck_check_axiom, deck, structure, answer, axiom)
}

pub fn run(
    deck: &[u8],
    bounds: Bounds,
    last_phase: Phase,
    lent: Lent<'_>,
    answer: &mut [u32; 4],
) -> u32 {
    // SAFETY: every slice is lent whole, and those that are written are borrowed alone.
    on_own_stack(|| unsafe {
        style_deck_run(
            deck.as_ptr(),
            deck.len(),
            bounds.max_elements,
            bounds.max_edges,
            bounds.max_rounds,
            last_phase as u32,
            lent.labels.as_mut_ptr(),
            lent.labels.len(),
            lent.edges.as_mut_ptr(),
            lent.edges.len(),
            lent.log.as_mut_ptr(),
            lent.log.len(),
            lent.verdicts.as_mut_ptr(),
            lent.verdicts.len(),
            answer.as_mut_ptr(),
            answer.len(),
        )
    })
}

/// The length of the text, or 0 where `out` is too short for it.
pub fn report(input: &[u8], out: &mut [u8]) -> usize {
    // SAFETY: both slices are lent whole, and `out` is borrowed alone.
    on_own_stack(|| unsafe {
        style_deck_report(input.as_ptr(), input.len(), out.as_mut_ptr(), out.len())
    })
}
