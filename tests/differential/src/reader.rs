//! A reader of decks, written from document 01 and document 02, a): the parts of a deck, or its refusal.
use crate::parts::{LIMITS, Parts, TRAILER, WIDTHS};

/// What a record holds, a letter for each field: c concept, k class, q real class, r role number, w role word, f flag, n any
/// value, - unused; C, K, R, W, N a list of these (two fields). Those of concepts and axioms by tag, without it.
const CLASS: &str = "fK";
const ROLE: &str = "RK";
const INJECTED: &str = "krq";
const CONCEPTS: [&str; 12] = ["---", "---", "k--", "n--", "w--", "c--", "C-", "C-", "wc-", "wc-", "nwc", "nwc"];
const AXIOMS: [&str; 26] = [
    "cc-", "C-", "C-", "kC", "ww-", "Ww", "W-", "W-", "ww-", "wc-", "wc-", "w--", "w--", "w--", "w--", "w--", "w--",
    "w--", "cn-", "wnn", "wnn", "N-", "N-", "k--", "r--", "n--",
];
const FACT: &str = "krk";

/// The word of every number but 12, 13 and 14.
pub const NO_WORD: u32 = u32::MAX;

/// A refusal's number, and for 12, 13 and 14 the word at which the first fault lies.
#[derive(Clone, Copy, Debug, PartialEq, Eq)]
pub struct Refusal {
    pub number: u32,
    pub word: u32,
}

fn refuse(number: u32, when: bool) -> Result<(), Refusal> {
    if when { Err(Refusal { number, word: NO_WORD }) } else { Ok(()) }
}

fn refuse_at(number: u32, word: usize, when: bool) -> Result<(), Refusal> {
    if when { Err(Refusal { number, word: word as u32 }) } else { Ok(()) }
}

/// Document 01, section 1: "Order: 1 to 4; then records in part order", each tested for 12, 13, 14, then 6, 7.
pub fn read(deck: &[u8]) -> Result<Parts, Refusal> {
    refuse(1, deck.len() % 4 != 0 || deck.len() < 4 * TRAILER)?;
    let words: Vec<u32> = deck.chunks(4).map(|b| u32::from_le_bytes(b.try_into().unwrap())).collect();
    let parts = cut(&words)?;
    let reader = Reader { parts: &parts, starts: starts(&parts) };
    (0..parts.classes.len()).try_for_each(|k| reader.class(k))?;
    (0..parts.roles.len()).try_for_each(|r| reader.role(r))?;
    (0..parts.injected.len()).try_for_each(|i| reader.injected(i))?;
    for (k, record) in parts.concepts.iter().enumerate() {
        let named = reader.tagged(&CONCEPTS, reader.place(3, k), record)?;
        refuse(7, named.iter().any(|operand| *operand as usize >= k))?;
    }
    for (k, record) in parts.axioms.iter().enumerate() {
        reader.tagged(&AXIOMS, reader.place(4, k), record)?;
    }
    (0..parts.facts.len()).try_for_each(|k| reader.fields(FACT, reader.place(5, k), &parts.facts[k]).map(|_| ()))?;
    Ok(parts)
}

fn cut(words: &[u32]) -> Result<Parts, Refusal> {
    let (body, trailer) = words.split_at(words.len() - TRAILER);
    refuse(2, trailer[0] != 1)?;
    let pairs: Vec<(u32, u32)> = trailer[3..17].chunks(2).map(|pair| (pair[0], pair[1])).collect();
    refuse(3, pairs.iter().zip(LIMITS).any(|((count, _), limit)| *count > limit))?;
    let mut at = 0;
    for ((count, start), width) in pairs.iter().zip(WIDTHS) {
        refuse(4, *start as usize != at)?;
        at += *count as usize * width;
    }
    refuse(4, at != body.len() || trailer[17] as usize != body.len() || trailer[1] > pairs[0].0)?;
    let part = |p: usize| &body[pairs[p].1 as usize..][..pairs[p].0 as usize * WIDTHS[p]];
    Ok(Parts {
        real: trailer[1],
        dropped: trailer[2],
        classes: part(0).as_chunks().0.to_vec(),
        roles: part(1).as_chunks().0.to_vec(),
        injected: part(2).as_chunks().0.to_vec(),
        concepts: part(3).as_chunks().0.to_vec(),
        axioms: part(4).as_chunks().0.to_vec(),
        facts: part(5).as_chunks().0.to_vec(),
        lists: part(6).to_vec(),
    })
}

/// The word at which each part starts.
fn starts(parts: &Parts) -> [usize; 7] {
    let counts = [
        parts.classes.len(),
        parts.roles.len(),
        parts.injected.len(),
        parts.concepts.len(),
        parts.axioms.len(),
        parts.facts.len(),
        parts.lists.len(),
    ];
    std::array::from_fn(|p| (0..p).map(|before| counts[before] * WIDTHS[before]).sum())
}

struct Reader<'a> {
    parts: &'a Parts,
    starts: [usize; 7],
}

impl Reader<'_> {
    /// The word at which a record begins.
    fn place(&self, part: usize, record: usize) -> usize {
        self.starts[part] + record * WIDTHS[part]
    }

    fn number(&self, kind: char, word: usize, value: u32) -> Result<(), Refusal> {
        let (heap, end) = match kind {
            'c' => (13, self.parts.concepts.len()),
            'k' => (13, self.parts.classes.len()),
            'q' => (13, self.parts.real as usize),
            'r' => (13, self.parts.roles.len()),
            'w' => (13, 2 * self.parts.roles.len()),
            'f' => (12, 2),
            '-' => (14, 1),
            _ => return Ok(()),
        };
        refuse_at(heap, word, value as usize >= end)
    }

    /// The words of a list whose start field is the word `at` of the deck.
    fn list(&self, kind: char, at: usize, start: u32, count: u32) -> Result<&[u32], Refusal> {
        refuse_at(13, at, u64::from(start) + u64::from(count) > self.parts.lists.len() as u64)?;
        let members = self.parts.list(start, count);
        for (word, member) in (self.starts[6] + start as usize..).zip(members) {
            self.number(kind, word, *member)?;
        }
        Ok(members)
    }

    /// Goes through the fields from word `at` on, in order. Answers the concepts that they name.
    fn fields(&self, form: &str, at: usize, fields: &[u32]) -> Result<Vec<u32>, Refusal> {
        let (mut k, mut concepts) = (0, Vec::new());
        for kind in form.chars() {
            let members = if kind.is_ascii_uppercase() {
                k += 2;
                self.list(kind.to_ascii_lowercase(), at + k - 2, fields[k - 2], fields[k - 1])?
            } else {
                k += 1;
                self.number(kind, at + k - 1, fields[k - 1])?;
                &fields[k - 1..k]
            };
            if kind == 'c' || kind == 'C' {
                concepts.extend_from_slice(members);
            }
        }
        Ok(concepts)
    }

    fn tagged(&self, forms: &[&str], at: usize, record: &[u32; 4]) -> Result<Vec<u32>, Refusal> {
        let form = forms.get(record[0] as usize).ok_or(Refusal { number: 12, word: at as u32 })?;
        self.fields(form, at + 1, &record[1..])
    }

    fn class(&self, k: usize) -> Result<(), Refusal> {
        let [flag, start, count] = self.parts.classes[k];
        self.fields(CLASS, self.place(0, k), &self.parts.classes[k])?;
        let row = self.parts.list(start, count);
        refuse(6, !rises(row) || (flag == 0 && !row.contains(&(k as u32))))
    }

    fn role(&self, r: usize) -> Result<(), Refusal> {
        let [start, count, range_start, range_count] = self.parts.roles[r];
        self.fields(ROLE, self.place(1, r), &self.parts.roles[r])?;
        let (subs, ranges) = (self.parts.list(start, count), self.parts.list(range_start, range_count));
        refuse(6, !rises(subs) || !rises(ranges) || !subs.contains(&(r as u32)))
    }

    fn injected(&self, i: usize) -> Result<(), Refusal> {
        let record = &self.parts.injected[i];
        self.fields(INJECTED, self.place(2, i), record)?;
        refuse(6, i > 0 && self.parts.injected[i - 1][..2] >= record[..2])
    }
}

fn rises(row: &[u32]) -> bool {
    row.windows(2).all(|pair| pair[0] < pair[1])
}

/// The part in which a word of the body lies.
pub fn part_of(deck: &[u8], word: u32) -> &'static str {
    let trailer = &deck[deck.len() - 4 * TRAILER..];
    let start = |p: usize| u32::from_le_bytes(trailer[4 * (4 + 2 * p)..][..4].try_into().unwrap());
    let names = ["classes", "roles", "injected", "concepts", "axioms", "facts", "lists"];
    names[(0..7).rfind(|p| start(*p) <= word).unwrap()]
}

#[cfg(test)]
mod tests {
    use super::*;

    const ROLE_0: [u32; 4] = [0, 1, 0, 0];

    fn refused(parts: Parts, number: u32, word: u32) {
        assert_eq!(read(&parts.bytes()).unwrap_err(), Refusal { number, word });
    }

    #[test]
    fn an_earlier_record_before_a_later_one() {
        refused(Parts { concepts: vec![[5, 0, 0, 0], [12, 0, 0, 0]], ..Parts::default() }, 7, NO_WORD);
        refused(Parts { concepts: vec![[5, 0, 1, 0]], ..Parts::default() }, 14, 2);
    }

    #[test]
    fn list_words_before_the_next_field() {
        let (roles, axioms) = (vec![[0, 1, 1, 0]], vec![[5, 1, 1, 2]]);
        refused(Parts { roles, axioms, lists: vec![0, 2], ..Parts::default() }, 13, 9);
    }

    #[test]
    fn a_list_that_leaves_at_its_own_start() {
        refused(Parts { roles: vec![[0, 1, 9, 0]], lists: vec![0], ..Parts::default() }, 13, 2);
        refused(Parts { classes: vec![[0, 0, 2]], lists: vec![7], ..Parts::default() }, 13, 1);
        refused(Parts { concepts: vec![[6, 1, 0, 0]], ..Parts::default() }, 13, 1);
    }

    #[test]
    fn a_shared_list_word() {
        let (classes, concepts) = (vec![[1, 0, 1]; 2], vec![[6, 0, 1, 0]]);
        refused(Parts { classes, concepts, lists: vec![7], ..Parts::default() }, 13, 10);
    }

    #[test]
    fn q_that_is_not_real() {
        let (classes, roles, injected) = (vec![[0, 0, 1]], vec![ROLE_0], vec![[0, 0, 0]]);
        refused(Parts { classes, roles, injected, lists: vec![0], ..Parts::default() }, 13, 9);
    }

    #[test]
    fn a_flag_before_all_else() {
        refused(Parts { classes: vec![[2, 9, 9]], ..Parts::default() }, 12, 0);
    }
}
