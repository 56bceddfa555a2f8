//! The texts of `crates/test_report`, through the wrapper: what `report` must say of each deck there is in the file `stdout`,
//! made by `tests/make_reports.py` from document 01.
use std::path::PathBuf;
use style_deck::{report, report_in};

fn data(name: &str) -> Vec<u8> {
    let path = PathBuf::from(env!("CARGO_MANIFEST_DIR")).join("../../crates/test_report");
    std::fs::read(path.join(name)).unwrap()
}

/// The words of the data from some place on.
struct Words<'a>(std::slice::ChunksExact<'a, u8>);

impl Words<'_> {
    fn next(&mut self) -> Option<u32> {
        let bytes = self.0.next()?.try_into().unwrap();
        Some(u32::from_le_bytes(bytes))
    }

    fn take(&mut self, count: usize) -> Vec<u32> {
        (0..count).map(|_| self.next().unwrap()).collect()
    }

    /// A deck that is written as runs: `crates/cases/src/decks.rt` has the form.
    fn deck(&mut self, length: usize, runs: u32) -> Vec<u8> {
        let mut deck: Vec<u32> = Vec::new();
        for _ in 0..runs {
            let count = self.next().unwrap() as usize;
            match self.next().unwrap() as usize {
                0 => deck.extend(self.take(count)),
                width => {
                    let steps = self.take(width);
                    for k in 0..count {
                        let before = deck[deck.len() - width];
                        deck.push(before.wrapping_add(steps[k % width]));
                    }
                }
            }
        }
        let mut bytes: Vec<u8> = deck.iter().flat_map(|w| w.to_le_bytes()).collect();
        bytes.truncate(length);
        assert_eq!(bytes.len(), length);
        bytes
    }
}

/// The answer in a buffer of so many bytes 127, and what then stands there.
fn lent(deck: &[u8], length: usize) -> (Option<usize>, String) {
    let mut out = vec![0x7f; length];
    let answer = report_in(deck, &mut out);
    (answer, String::from_utf8(out).unwrap())
}

#[test]
fn all_texts() {
    let (input, wanted) = (data("stdin"), String::from_utf8(data("stdout")).unwrap());
    let mut wanted = wanted.split_inclusive("untouched\n");
    let mut words = Words(input.chunks_exact(4));
    let mut count = 0;
    while let Some(name_length) = words.next() {
        let (length, runs) = (words.next().unwrap(), words.next().unwrap());
        let name = words.take(name_length.div_ceil(4) as usize);
        let name: Vec<u8> = name.iter().flat_map(|w| w.to_le_bytes()).collect();
        let name = String::from_utf8_lossy(&name[..name_length as usize]);
        let deck = words.deck(length as usize, runs);
        let text = report(&deck);
        let whole = format!("{name}\n{text}untouched\n");
        assert_eq!(Some(whole.as_str()), wanted.next());
        assert_eq!(
            lent(&deck, text.len() + 3),
            (Some(text.len()), text.clone() + "\u{7f}\u{7f}\u{7f}")
        );
        assert_eq!(lent(&deck, text.len()), (Some(text.len()), text.clone()));
        assert_eq!(
            lent(&deck, text.len() - 1),
            (None, "\u{7f}".repeat(text.len() - 1))
        );
        count += 1;
    }
    assert_eq!(wanted.next(), Some(format!("{count} cases\n").as_str()));
}
