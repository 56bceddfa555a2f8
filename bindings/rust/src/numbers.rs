//! The numbers that a deck and a run are stated in.

#[derive(Clone, Copy, Debug, Default, PartialEq, Eq, PartialOrd, Ord, Hash)]
#[repr(transparent)]
pub struct ClassId(pub u32);

#[derive(Clone, Copy, Debug, Default, PartialEq, Eq, PartialOrd, Ord, Hash)]
#[repr(transparent)]
pub struct RoleId(pub u32);

#[derive(Clone, Copy, Debug, Default, PartialEq, Eq, PartialOrd, Ord, Hash)]
#[repr(transparent)]
pub struct ConceptId(pub u32);

#[derive(Clone, Copy, Debug, Default, PartialEq, Eq, PartialOrd, Ord, Hash)]
#[repr(transparent)]
pub struct Element(pub u32);

/// A word of a deck, counted from word 0: it stands from byte 4 × its number on.
#[derive(Clone, Copy, Debug, Default, PartialEq, Eq, PartialOrd, Ord, Hash)]
#[repr(transparent)]
pub struct WordIndex(pub u32);

/// Three words, in this order; the library sees an array of them.
#[derive(Clone, Copy, Debug, Default, PartialEq, Eq, PartialOrd, Ord, Hash)]
#[repr(C)]
pub struct Edge {
    pub role: RoleId,
    pub from: Element,
    pub to: Element,
}

/// The bounds of a run.
#[derive(Clone, Copy, Debug, PartialEq, Eq)]
pub struct Bounds {
    /// At most 65,535.
    pub max_elements: u32,
    /// At most 1,048,575.
    pub max_edges: u32,
    /// At most 65,535.
    pub max_rounds: u32,
}

/// The phases of building, in order. A run stops after its last.
#[derive(Clone, Copy, Debug, PartialEq, Eq, PartialOrd, Ord)]
#[repr(u32)]
pub enum Phase {
    Seed = 1,
    Expand = 2,
    Axioms = 3,
    Closing = 4,
}

/// How many words of labels, edges and words of verdicts a run needs.
pub(crate) struct Room {
    pub labels: usize,
    pub edges: usize,
    pub verdicts: usize,
}

/// The counts of an accepted deck that the room depends on.
pub(crate) struct Counts {
    classes: u32,
    axioms: u32,
}

impl Counts {
    /// Of a deck that was accepted: its last 18 words are the trailer, word 3 the classes, word 11 the axioms.
    pub fn of(deck: &[u8]) -> Counts {
        let word = |k: usize| {
            let at = deck.len() - 72 + 4 * k;
            u32::from_le_bytes([deck[at], deck[at + 1], deck[at + 2], deck[at + 3]])
        };
        Counts {
            classes: word(3),
            axioms: word(11),
        }
    }

    /// Words of a label.
    pub fn width(&self) -> usize {
        self.classes.div_ceil(64) as usize
    }

    /// The room for a run, or none if a bound is above its limit.
    pub fn room(&self, bounds: Bounds) -> Option<Room> {
        let Bounds {
            max_elements,
            max_edges,
            max_rounds,
        } = bounds;
        if max_elements > 65_535 || max_rounds > 65_535 || max_edges > 1_048_575 {
            return None;
        }
        let elements = self.classes.max(max_elements) as usize + 1;
        Some(Room {
            labels: elements * self.width(),
            edges: max_edges as usize + 1,
            verdicts: 4 * self.axioms as usize,
        })
    }
}
