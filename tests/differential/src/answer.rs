//! What a run is asked and what it answers, in the words of document 01.

#[derive(Clone, Copy, Debug)]
pub struct Bounds {
    pub elements: u32,
    pub edges: u32,
    pub rounds: u32,
}

pub const OUTCOMES: [&str; 3] = ["confirmed", "failed", "open"];

#[derive(Clone, Debug, PartialEq, Eq)]
pub struct Answer {
    pub outcome: u32,
    pub elements: u32,
    pub labels: Vec<u64>,
    /// Ours are oldest first; the original's by role, from and to.
    pub edges: Vec<[u32; 3]>,
    pub reasons: Vec<[u32; 3]>,
    pub verdicts: Vec<[u32; 4]>,
}
