//! The static library: `include/style_deck.h`. A slice is a pointer and a length.
use crate::answer::{Answer, Bounds};
use crate::parts::Parts;

unsafe extern "C" {
    fn style_deck_check(deck: *const u8, length: usize) -> u32;
    fn style_deck_fault_word(deck: *const u8, length: usize) -> u32;
    fn style_deck_eval_concept(
        deck: *const u8,
        length: usize,
        labels: *const u64,
        label_words: usize,
        elements: u32,
        edges: *const [u32; 3],
        edge_records: usize,
        edge_count: u32,
        concept: u32,
        element: u32,
        answer: *mut u32,
        answer_words: usize,
    ) -> u32;
    fn style_deck_check_axiom(
        deck: *const u8,
        length: usize,
        labels: *const u64,
        label_words: usize,
        elements: u32,
        edges: *const [u32; 3],
        edge_records: usize,
        edge_count: u32,
        axiom: u32,
        answer: *mut u32,
        answer_words: usize,
    ) -> u32;
    fn style_deck_run(
        deck: *const u8,
        length: usize,
        max_elements: u32,
        max_edges: u32,
        max_rounds: u32,
        last_phase: u32,
        labels: *mut u64,
        label_words: usize,
        edges: *mut [u32; 3],
        edge_records: usize,
        log: *mut u32,
        log_words: usize,
        verdicts: *mut u32,
        verdict_words: usize,
        answer: *mut u32,
        answer_words: usize,
    ) -> u32;
}

pub fn check(deck: &[u8]) -> u32 {
    unsafe { style_deck_check(deck.as_ptr(), deck.len()) }
}

/// The word at which the first fault of a deck refused with 12, 13 or 14 lies; else NO_WORD.
pub fn fault_word(deck: &[u8]) -> u32 {
    unsafe { style_deck_fault_word(deck.as_ptr(), deck.len()) }
}

/// How long the lent buffers are: words of labels, records of edges, words of the log and of verdicts.
#[derive(Clone, Copy, Debug)]
pub struct Room {
    pub labels: usize,
    pub edges: usize,
    pub log: usize,
    pub verdicts: usize,
}

/// Document 01, section 1: "Labels need (max(N, max_elements) + 1) × ceil(N / 64) words …; edges max_edges + 1; verdicts
/// 4 × A words." The log may have any length.
pub fn need(parts: &Parts, bounds: Bounds) -> Room {
    Room {
        labels: (parts.classes.len().max(bounds.elements as usize) + 1) * parts.width(),
        edges: bounds.edges as usize + 1,
        log: 0,
        verdicts: 4 * parts.axioms.len(),
    }
}

/// The lent buffers. They are marked before a run, with words that no run writes.
#[derive(Clone, PartialEq, Eq)]
pub struct Lent {
    pub labels: Vec<u64>,
    pub edges: Vec<[u32; 3]>,
    pub log: Vec<u32>,
    pub verdicts: Vec<u32>,
    pub answer: [u32; 4],
}

impl Lent {
    pub fn marked(room: Room) -> Self {
        let mark = |at: usize| 3_000_000_000 + (at % 1_000_000) as u32;
        Self {
            labels: (0..room.labels).map(|at| 0xaaaa_0000_0000_0000 + at as u64).collect(),
            edges: (0..room.edges).map(|at| [mark(at), mark(at) + 1_000_000, mark(at) + 2_000_000]).collect(),
            log: (0..room.log).map(mark).collect(),
            verdicts: (0..room.verdicts).map(mark).collect(),
            answer: [3, 1_000_000_001, 1_000_000_002, 1_000_000_003].map(|word| word + 2_000_000_000),
        }
    }

    /// 0, or the number of the refusal.
    pub fn run(&mut self, deck: &[u8], bounds: Bounds, last_phase: u32) -> u32 {
        unsafe {
            style_deck_run(
                deck.as_ptr(),
                deck.len(),
                bounds.elements,
                bounds.edges,
                bounds.rounds,
                last_phase,
                self.labels.as_mut_ptr(),
                self.labels.len(),
                self.edges.as_mut_ptr(),
                self.edges.len(),
                self.log.as_mut_ptr(),
                self.log.len(),
                self.verdicts.as_mut_ptr(),
                self.verdicts.len(),
                self.answer.as_mut_ptr(),
                self.answer.len(),
            )
        }
    }

    /// What a run left, if the words past the used ends stand as they were marked.
    pub fn taken(&self, parts: &Parts) -> Result<Answer, String> {
        let [outcome, elements, edges, reasons] = self.answer;
        let room = Room {
            labels: self.labels.len(),
            edges: self.edges.len(),
            log: self.log.len(),
            verdicts: self.verdicts.len(),
        };
        let before = Self::marked(room);
        let (e, k) = (elements as usize * parts.width(), edges as usize);
        let (l, v) = (3 * (self.log.len() / 3).min(reasons as usize), 4 * parts.axioms.len());
        let past = self.labels.get(e..) == before.labels.get(e..)
            && self.edges.get(k..) == before.edges.get(k..)
            && self.log.get(l..) == before.log.get(l..)
            && self.verdicts.get(v..) == before.verdicts.get(v..);
        if !past || outcome > 2 {
            return Err("a word past a used end was written".into());
        }
        Ok(Answer {
            outcome,
            elements,
            labels: self.labels[..e].to_vec(),
            edges: self.edges[..k].to_vec(),
            reasons: self.log[..l].as_chunks().0.to_vec(),
            verdicts: self.verdicts[..v].as_chunks().0.to_vec(),
        })
    }
}

/// A lent structure to judge in.
pub struct Structure<'a> {
    pub labels: &'a [u64],
    pub elements: u32,
    pub edges: &'a [[u32; 3]],
    pub edge_count: u32,
}

/// Asks one of the two questions about a structure: the arguments that both have, and its own.
macro_rules! ask {
    ($question:ident, $structure:ident, $deck:ident, $($own:expr),+) => {{
        let mut answer = [u32::MAX; 4];
        let number = unsafe {
            $question(
                $deck.as_ptr(),
                $deck.len(),
                $structure.labels.as_ptr(),
                $structure.labels.len(),
                $structure.elements,
                $structure.edges.as_ptr(),
                $structure.edges.len(),
                $structure.edge_count,
                $($own),+,
                answer.as_mut_ptr(),
                answer.len(),
            )
        };
        answered(number, answer)
    }};
}

impl Structure<'_> {
    /// The judgement's words, or the number of the refusal.
    pub fn concept(&self, deck: &[u8], concept: u32, element: u32) -> Result<[u32; 4], u32> {
        ask!(style_deck_eval_concept, self, deck, concept, element)
    }

    /// The verdict's words, or the number of the refusal.
    pub fn axiom(&self, deck: &[u8], axiom: u32) -> Result<[u32; 4], u32> {
        ask!(style_deck_check_axiom, self, deck, axiom)
    }
}

/// A refusal writes nothing.
fn answered(number: u32, answer: [u32; 4]) -> Result<[u32; 4], u32> {
    match number {
        0 => Ok(answer),
        _ if answer == [u32::MAX; 4] => Err(number),
        _ => Err(1000 + number),
    }
}
