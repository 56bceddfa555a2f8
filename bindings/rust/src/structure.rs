//! A finite structure: labelled elements and edges between them.
use crate::numbers::{ClassId, Edge, Element};

/// The labels of its elements, one after the other, and edges. A label takes ceil(N / 64) words, N being the number of the
/// deck's classes; class k is bit k mod 64 of word k / 64.
#[derive(Clone, Debug, PartialEq, Eq)]
pub struct Structure {
    width: usize,
    labels: Vec<u64>,
    elements: u32,
    edges: Vec<Edge>,
}

impl Structure {
    /// Labels of `width` words. Any content is allowed: where a structure is asked about, what does not fit the deck is
    /// refused as [`crate::Refusal::ForeignStructure`].
    pub fn new(width: usize, labels: Vec<u64>, elements: u32, edges: Vec<Edge>) -> Structure {
        Structure {
            width,
            labels,
            elements,
            edges,
        }
    }

    pub fn elements(&self) -> u32 {
        self.elements
    }

    pub fn labels(&self) -> &[u64] {
        &self.labels
    }

    /// Oldest first.
    pub fn edges(&self) -> &[Edge] {
        &self.edges
    }

    /// An element's classes, rising; none for an element or a label that is not there.
    pub fn classes(&self, element: Element) -> Vec<ClassId> {
        if element.0 >= self.elements {
            return Vec::new();
        }
        let Some(start) = self.width.checked_mul(element.0 as usize) else {
            return Vec::new();
        };
        let words = self.labels.iter().skip(start).take(self.width);
        // So many words have a bit for every number that a class can have.
        let bits = words.zip(0..1 << 26).flat_map(|(word, at)| {
            let set = (0..64).filter(move |bit| word >> bit & 1 == 1);
            set.map(move |bit| ClassId(64 * at + bit))
        });
        bits.collect()
    }
}
