//! Answers, read off the words of document 01.
use crate::ffi;
use crate::numbers::{ClassId, Element, RoleId, WordIndex};
use std::error::Error;
use std::fmt;

/// Why a deck, a run or a question is refused. The numbers are document 01's and 02's; 5 is retired. The last three have the
/// word at which the deck's first fault lies.
#[derive(Clone, Copy, Debug, PartialEq, Eq, PartialOrd, Ord, Hash)]
pub enum Refusal {
    TooShort,
    UnknownEdition,
    CountOverLimit,
    BadLayout,
    BadOrder,
    ForwardOperand,
    BadBounds,
    ShortBuffer,
    ForeignStructure,
    AbsentIndex,
    UnknownTag(WordIndex),
    OutOfRange(WordIndex),
    FilledField(WordIndex),
}

impl Refusal {
    pub fn number(self) -> u32 {
        match self {
            Refusal::TooShort => 1,
            Refusal::UnknownEdition => 2,
            Refusal::CountOverLimit => 3,
            Refusal::BadLayout => 4,
            Refusal::BadOrder => 6,
            Refusal::ForwardOperand => 7,
            Refusal::BadBounds => 8,
            Refusal::ShortBuffer => 9,
            Refusal::ForeignStructure => 10,
            Refusal::AbsentIndex => 11,
            Refusal::UnknownTag(_) => 12,
            Refusal::OutOfRange(_) => 13,
            Refusal::FilledField(_) => 14,
        }
    }

    /// The word at which the fault lies, for 12, 13 and 14.
    pub fn word(self) -> Option<WordIndex> {
        match self {
            Refusal::UnknownTag(word) | Refusal::OutOfRange(word) | Refusal::FilledField(word) => {
                Some(word)
            }
            _ => None,
        }
    }

    /// Of the number that a call over the deck returned. For 12, 13 and 14 the deck is asked for the word.
    pub(crate) fn unless_zero(number: u32, deck: &[u8]) -> Result<(), Refusal> {
        let word = || WordIndex(ffi::fault_word(deck));
        Err(match number {
            0 => return Ok(()),
            1 => Refusal::TooShort,
            2 => Refusal::UnknownEdition,
            3 => Refusal::CountOverLimit,
            4 => Refusal::BadLayout,
            6 => Refusal::BadOrder,
            7 => Refusal::ForwardOperand,
            8 => Refusal::BadBounds,
            9 => Refusal::ShortBuffer,
            10 => Refusal::ForeignStructure,
            11 => Refusal::AbsentIndex,
            12 => Refusal::UnknownTag(word()),
            13 => Refusal::OutOfRange(word()),
            14 => Refusal::FilledField(word()),
            n => unreachable!("the library is proved to return 0 to 4 or 6 to 14, not {n}"),
        })
    }

    fn given_when(self) -> &'static str {
        match self {
            Refusal::TooShort => "bytes not a multiple of 4, or under 72",
            Refusal::UnknownEdition => "edition is not 1",
            Refusal::CountOverLimit => "a count above its limit",
            Refusal::BadLayout => "a start, body count or M does not fit",
            Refusal::BadOrder => "order broken, or own number absent from a row",
            Refusal::ForwardOperand => "operand not below its concept",
            Refusal::BadBounds => "a bound above its limit",
            Refusal::ShortBuffer => "label, edge or verdict buffer below need",
            Refusal::ForeignStructure => "a structure that does not fit the deck",
            Refusal::AbsentIndex => "axiom, concept or element index past its count",
            Refusal::UnknownTag(_) => "unknown tag or flag",
            Refusal::OutOfRange(_) => "number or list out of range",
            Refusal::FilledField(_) => "unused field filled",
        }
    }
}

impl fmt::Display for Refusal {
    fn fmt(&self, f: &mut fmt::Formatter<'_>) -> fmt::Result {
        write!(f, "refused {}: {}", self.number(), self.given_when())?;
        match self.word() {
            Some(word) => write!(f, " at word {}", word.0),
            None => Ok(()),
        }
    }
}

impl Error for Refusal {}

/// What a run comes to.
#[derive(Clone, Copy, Debug, PartialEq, Eq, Hash)]
pub enum Outcome {
    /// Every axiom is true in the structure that was built.
    Confirmed,
    /// An axiom is false there.
    Failed,
    /// None is known to be false, but a verdict is unresolved or a reason was given.
    Open,
}

impl Outcome {
    pub(crate) fn of_word(word: u32) -> Outcome {
        match word {
            0 => Outcome::Confirmed,
            1 => Outcome::Failed,
            2 => Outcome::Open,
            n => unreachable!("the library is proved to answer 0 to 2, not {n}"),
        }
    }
}

impl fmt::Display for Outcome {
    fn fmt(&self, f: &mut fmt::Formatter<'_>) -> fmt::Result {
        f.write_str(match self {
            Outcome::Confirmed => "confirmed",
            Outcome::Failed => "failed",
            Outcome::Open => "open",
        })
    }
}

/// What a concept is at an element.
#[derive(Clone, Copy, Debug, PartialEq, Eq, Hash)]
pub enum Judgement {
    False,
    True,
    /// It turns on a construct with this tag, which is not judged.
    Unresolved(u32),
}

impl Judgement {
    pub(crate) fn of_words(words: [u32; 4]) -> Judgement {
        match words[0] {
            0 => Judgement::False,
            1 => Judgement::True,
            2 => Judgement::Unresolved(words[1]),
            n => unreachable!("the library is proved to answer 0 to 2, not {n}"),
        }
    }
}

/// Why an axiom is not judged.
#[derive(Clone, Copy, Debug, PartialEq, Eq, Hash)]
pub enum Unhandled {
    /// Axioms of its tag are not judged.
    Variety,
    /// It names an inverse role.
    InverseRole,
    /// Its chain has not two links.
    ChainLength,
}

impl Unhandled {
    fn of_word(word: u32) -> Unhandled {
        match word {
            0 => Unhandled::Variety,
            1 => Unhandled::InverseRole,
            2 => Unhandled::ChainLength,
            n => unreachable!("the library is proved to answer 0 to 2, not {n}"),
        }
    }
}

/// What an axiom is in a structure.
#[derive(Clone, Debug, PartialEq, Eq, Hash)]
pub enum Verdict {
    Holds,
    /// False at these elements, one to three.
    Fails(Vec<Element>),
    UnhandledAxiom {
        tag: u32,
        why: Unhandled,
    },
    UnhandledConcept {
        tag: u32,
    },
    GuardedRoleHasEdges(RoleId),
}

const NO_WITNESS: u32 = u32::MAX;

impl Verdict {
    /// Of a verdict's four words.
    pub(crate) fn of_words(words: &[u32]) -> Verdict {
        match words[0] {
            0 => Verdict::Holds,
            1 => Verdict::Fails(
                words[1..4]
                    .iter()
                    .filter(|&&w| w != NO_WITNESS)
                    .map(|&w| Element(w))
                    .collect(),
            ),
            2 => Verdict::UnhandledAxiom {
                tag: words[1],
                why: Unhandled::of_word(words[2]),
            },
            3 => Verdict::UnhandledConcept { tag: words[1] },
            4 => Verdict::GuardedRoleHasEdges(RoleId(words[1])),
            n => unreachable!("the library is proved to answer 0 to 4, not {n}"),
        }
    }
}

/// As the program `verify` prints it, after the axiom's number.
impl fmt::Display for Verdict {
    fn fmt(&self, f: &mut fmt::Formatter<'_>) -> fmt::Result {
        match self {
            Verdict::Holds => f.write_str("holds"),
            Verdict::Fails(witnesses) => {
                f.write_str("fails")?;
                witnesses.iter().try_for_each(|w| write!(f, " {}", w.0))
            }
            Verdict::UnhandledAxiom { tag, why } => write!(f, "open 2 {tag} {}", *why as u32),
            Verdict::UnhandledConcept { tag } => write!(f, "open 3 {tag} 0"),
            Verdict::GuardedRoleHasEdges(role) => write!(f, "open 4 {} 0", role.0),
        }
    }
}

/// Why building may have left something out.
#[derive(Clone, Copy, Debug, PartialEq, Eq, Hash)]
pub enum Reason {
    LabelNotClosed(ClassId, RoleId),
    RunDelta(ClassId),
    ElementsTripped {
        limit: u32,
    },
    EdgesTripped {
        limit: u32,
    },
    RoundsTripped {
        limit: u32,
    },
    AxiomsDropped(u32),
    /// Three words of the log that this wrapper has no name for.
    Unknown(u32, u32, u32),
}

impl Reason {
    fn of_words(words: &[u32]) -> Reason {
        match (words[0], words[1], words[2]) {
            (1, class, role) => Reason::LabelNotClosed(ClassId(class), RoleId(role)),
            (2, class, _) => Reason::RunDelta(ClassId(class)),
            (3, 0, limit) => Reason::ElementsTripped { limit },
            (3, 1, limit) => Reason::EdgesTripped { limit },
            (3, 2, limit) => Reason::RoundsTripped { limit },
            (4, dropped, _) => Reason::AxiomsDropped(dropped),
            (kind, one, other) => Reason::Unknown(kind, one, other),
        }
    }
}

/// Those of `total` reasons that the log has kept.
pub(crate) fn reasons_of(log: &[u32], total: u32) -> Vec<Reason> {
    log.chunks_exact(3)
        .take(total as usize)
        .map(Reason::of_words)
        .collect()
}

#[test]
fn a_reason_of_a_new_kind_is_told_as_it_stands() {
    let reasons = reasons_of(&[4, 7, 0, 5, 0, 0, 3, 9, 1], 3);
    assert_eq!(reasons[0], Reason::AxiomsDropped(7));
    assert_eq!(reasons[1], Reason::Unknown(5, 0, 0));
    assert_eq!(reasons[2], Reason::Unknown(3, 9, 1));
}
