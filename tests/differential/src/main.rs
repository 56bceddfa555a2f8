//! Runs the original and the static library on the same decks and compares every answer.
//!
//!     (cd crates/capi && rt lib)
//!     cd tests/differential
//!     STYLE_DECK_RUST=… cargo run --offline --release -- SEED COUNT
//!
//! STYLE_DECK_RUST is the folder of the original files, the one that holds `crates/`. Other words than SEED COUNT:
//!
//!     SEED COUNT FIRST        the same, from deck number FIRST on
//!     large SEED COUNT        the same over decks of some hundred classes and some thousand edges
//!     shared SEED COUNT       the same over decks with Ands that share operands, in each place where they are walked
//!     replay SEED FOLDER      writes the original's answers to 300 decks as stdin and stdout of a program;
//!                             `replay 7 ../../crates/test_replay` wrote the ones there
//!     speed                   times both, phase by phase, and on decks at the limits
//!     extremes                the last of these only
mod answer;
mod compare;
mod extremes;
mod generate;
mod large;
mod oracle;
mod ours;
mod parts;
mod reader;
mod repeats;
mod replay;
mod rng;
mod sharing;
mod speed;
mod tally;

use rng::Rng;
use std::time::Instant;
use tally::Tally;

fn number(word: Option<&String>) -> u64 {
    word.and_then(|word| word.parse().ok()).unwrap_or_else(|| {
        eprintln!("differential SEED COUNT [FIRST] | large SEED COUNT | shared SEED COUNT | replay SEED FOLDER | speed | extremes");
        std::process::exit(2)
    })
}

type Made = fn(&mut Rng, &mut Tally) -> (Vec<u8>, Result<(), String>);

/// Pied type in three heaps. So many decks must show all of them.
const HEAPS: [u32; 3] = [12, 13, 14];
const ENOUGH: u64 = 5000;

/// Exit status 1 if an answer differs, or a number to meet is not met.
fn compare(made: Made, seed: u64, count: u64, first: u64, to_meet: &[u32]) -> i32 {
    let (mut tally, began) = (Tally::default(), Instant::now());
    let mut differences = 0;
    for index in first..first + count {
        tally.add("decks", "in all", 1);
        let (deck, found) = made(&mut Rng::new(seed, index), &mut tally);
        if let Err(what) = found {
            differences += 1;
            if differences <= 3 {
                let words: Vec<u32> = deck.chunks_exact(4).map(|b| u32::from_le_bytes(b.try_into().unwrap())).collect();
                println!("seed {seed}, deck {index}: {what}\n  deck {words:?}, {} bytes", deck.len());
            }
        }
    }
    tally.print();
    let heaps = HEAPS.map(|number| format!("{} with {number}", tally.count("refused", number))).join(", ");
    println!("seed {seed}, decks {first} to {}: {differences} differences; refused {heaps}", first + count - 1);
    eprintln!("{:.1} s", began.elapsed().as_secs_f64());
    i32::from(differences > 0 || to_meet.iter().any(|number| tally.count("refused", number) == 0))
}

fn main() {
    let words: Vec<String> = std::env::args().skip(1).collect();
    let status = match words.first().map(String::as_str) {
        Some("replay") if words.len() == 3 => {
            let written = replay::write(number(words.get(1)), &words[2]);
            written.inspect_err(|e| eprintln!("{e}")).is_err().into()
        }
        Some("speed") => {
            speed::run();
            extremes::run();
            0
        }
        Some("extremes") => {
            extremes::run();
            0
        }
        Some("large") => compare(compare::large, number(words.get(1)), number(words.get(2)), 0, &[]),
        Some("shared") => compare(compare::shared, number(words.get(1)), number(words.get(2)), 0, &[]),
        _ => {
            let first = words.get(2).map_or(0, |_| number(words.get(2)));
            let count = number(words.get(1));
            compare(compare::deck, number(words.first()), count, first, if count < ENOUGH { &[] } else { &HEAPS })
        }
    };
    std::process::exit(status);
}
