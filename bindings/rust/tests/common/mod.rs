//! Decks for the tests.
#![allow(dead_code)] // each test program uses a part of it

/// A deck in the making: records of words, part by part.
#[derive(Clone, Default)]
pub struct Deck {
    pub real: u32,
    pub dropped: u32,
    /// Classes, roles, injected, concepts, axioms, facts, lists.
    pub parts: [Vec<Vec<u32>>; 7],
}

pub const CLASSES: usize = 0;
pub const ROLES: usize = 1;
pub const INJECTED: usize = 2;
pub const CONCEPTS: usize = 3;
pub const AXIOMS: usize = 4;
pub const FACTS: usize = 5;
pub const LISTS: usize = 6;

const WIDTHS: [u32; 7] = [3, 4, 3, 4, 4, 3, 1];

impl Deck {
    pub fn words(&self) -> Vec<u32> {
        let mut words: Vec<u32> = self.parts.iter().flatten().flatten().copied().collect();
        let mut trailer = vec![1, self.real, self.dropped];
        let mut start = 0;
        for (part, width) in self.parts.iter().zip(WIDTHS) {
            trailer.extend([part.len() as u32, start]);
            start += part.len() as u32 * width;
        }
        trailer.push(start);
        words.extend(trailer);
        words
    }

    pub fn bytes(&self) -> Vec<u8> {
        bytes(&self.words())
    }

    pub fn with(mut self, part: usize, record: &[u32]) -> Deck {
        self.parts[part].push(record.to_vec());
        self
    }
}

pub fn bytes(words: &[u32]) -> Vec<u8> {
    words.iter().flat_map(|w| w.to_le_bytes()).collect()
}

/// Deck W of document 01.
pub fn deck_w() -> Deck {
    let mut deck = Deck {
        real: 2,
        ..Deck::default()
    }
    .with(CLASSES, &[0, 0, 1]) // row {0}
    .with(CLASSES, &[0, 1, 2]) // row {0, 1}
    .with(ROLES, &[3, 1, 4, 0]) // row {0}, no range
    .with(CONCEPTS, &[2, 0, 0, 0]) // Atomic 0
    .with(CONCEPTS, &[2, 1, 0, 0]) // Atomic 1
    .with(CONCEPTS, &[8, 0, 0, 0]) // Some(0, concept 0)
    .with(AXIOMS, &[0, 1, 0, 0]) // SubClassOf(1, 0)
    .with(AXIOMS, &[0, 1, 2, 0]) // SubClassOf(1, 2)
    .with(FACTS, &[1, 0, 0]);
    deck.parts[LISTS] = [0, 0, 1, 0].iter().map(|&w| vec![w]).collect();
    deck
}
