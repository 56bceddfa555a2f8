//! One deck through both: every answer must be the same.
use crate::answer::{Answer, Bounds, OUTCOMES};
use crate::oracle::{Case, Given, hierarchy};
use crate::ours::{self, Lent, Room, Structure, need};
use crate::parts::Parts;
use crate::reader::{NO_WORD, Refusal};
use crate::rng::Rng;
use crate::tally::Tally;
use crate::{generate, large, reader, repeats, sharing};

const BOUND_NAMES: [&str; 3] = ["elements", "edges", "rounds"];
const WIDE: u32 = 60;
/// The largest bounds that are not refused.
const MOST: Bounds = Bounds { elements: 65535, edges: 1_048_575, rounds: 65535 };

type Same = Result<(), String>;

pub fn same<T: PartialEq + std::fmt::Debug>(what: &str, ours: T, theirs: T) -> Same {
    if ours == theirs { Ok(()) } else { Err(format!("{what}\n  here     {ours:?}\n  expected {theirs:?}")) }
}

/// The deck of a seed and an index, through both.
pub fn deck(rng: &mut Rng, tally: &mut Tally) -> (Vec<u8>, Same) {
    let mut parts = building_deck(rng);
    repeats::add(rng, &mut parts);
    if rng.chance(15) {
        generate::misplace(rng, &mut parts);
    }
    let mut deck = parts.bytes();
    if rng.chance(25) {
        generate::damage(rng, &mut deck);
    }
    let found = match reader::read(&deck) {
        Err(refusal) => refused(rng, tally, &deck, refusal),
        Ok(parts) => accepted(rng, tally, &deck, &parts),
    };
    (deck, found)
}

/// A deck with Ands that share operands on purpose.
pub fn shared(rng: &mut Rng, tally: &mut Tally) -> (Vec<u8>, Same) {
    let mut parts = building_deck(rng);
    let (places, most) = sharing::add(rng, &mut parts);
    for place in places {
        tally.add("shared Ands in", place, 1);
    }
    tally.add("longest walk", if most > 256 { "over 256 concepts" } else { "up to 256 concepts" }, 1);
    let deck = parts.bytes();
    let found = accepted(rng, tally, &deck, &parts);
    (deck, found)
}

/// A deck, mostly one in which building adds edges.
pub fn building_deck(rng: &mut Rng) -> Parts {
    for _ in 0..rng.below(6) {
        let parts = generate::deck(rng);
        if Case::new(&parts).size(wide(&parts), 4)[1] > 1 {
            return parts;
        }
    }
    generate::deck(rng)
}

/// A refused deck: every entry gives its number, and leaves lent memory as it was. One entry gives the word.
fn refused(rng: &mut Rng, tally: &mut Tally, deck: &[u8], refusal: Refusal) -> Same {
    let Refusal { number, word } = refusal;
    tally.add("refused", number, 1);
    if word != NO_WORD {
        tally.add("first fault", format!("{number} in {}", reader::part_of(deck, word)), 1);
    }
    same("check", ours::check(deck), number)?;
    same("word of the first fault", ours::fault_word(deck), word)?;
    let room = Room { labels: rng.below(90), edges: rng.below(90), log: rng.below(9), verdicts: rng.below(90) };
    let bounds = Bounds { elements: rng.word(90000), edges: rng.word(90), rounds: rng.word(9) };
    refused_run(deck, bounds, rng.word(7), room, number)?;
    let structure = Structure { labels: &[], elements: 0, edges: &[], edge_count: 0 };
    same("concept", structure.concept(deck, 0, 0), Err(number))?;
    same("axiom", structure.axiom(deck, 0), Err(number))
}

fn refused_run(deck: &[u8], bounds: Bounds, last_phase: u32, room: Room, number: u32) -> Same {
    let mut lent = Lent::marked(room);
    same("refusal of a run", lent.run(deck, bounds, last_phase), number)?;
    same("lent memory after a refusal", lent == Lent::marked(room), true)
}

fn accepted(rng: &mut Rng, tally: &mut Tally, deck: &[u8], parts: &Parts) -> Same {
    tally.add("decks", "accepted", 1);
    same("check", ours::check(deck), 0)?;
    same("word of no fault", ours::fault_word(deck), NO_WORD)?;
    let case = Case::new(parts);
    count_deck(tally, parts);
    let (bounds, last_phase) = asked(rng, parts, &case);
    run(rng, tally, deck, parts, &case, bounds, last_phase)?;
    if rng.chance(10) {
        refused_measures(rng, tally, deck, parts, bounds, last_phase)?;
    }
    if rng.chance(30) { lent_structure(rng, tally, deck, parts, &case) } else { Ok(()) }
}

/// Bounds that small decks stay within, mostly.
pub fn wide(parts: &Parts) -> Bounds {
    Bounds { elements: parts.classes.len() as u32 + WIDE, edges: 2 * WIDE, rounds: 9 }
}

/// Wide bounds, or some that a phase trips, and seldom the largest.
pub fn asked(rng: &mut Rng, parts: &Parts, case: &Case) -> (Bounds, u32) {
    let (mut bounds, last_phase) = (wide(parts), rng.pick(&[4, 4, 4, 4, 4, 3, 3, 2, 1]));
    if rng.below(5000) == 0 {
        return (MOST, last_phase);
    }
    if last_phase == 1 || rng.chance(35) {
        return (bounds, last_phase);
    }
    let phase = 2 + rng.word(last_phase as usize - 1);
    let [before, after] = [phase - 1, phase].map(|last| case.size(bounds, last));
    let between = |rng: &mut Rng, k: usize| before[k] + rng.word((after[k] - before[k]) as usize);
    match rng.below(10) {
        0..=2 => bounds.elements = between(rng, 0),
        3..=6 => bounds.edges = between(rng, 1),
        7 | 8 => bounds.rounds = rng.word(3),
        _ => bounds = Bounds { elements: rng.word(9), edges: rng.word(9), rounds: rng.word(3) },
    }
    (bounds, last_phase)
}

fn run(rng: &mut Rng, tally: &mut Tally, deck: &[u8], parts: &Parts, case: &Case, bounds: Bounds, last: u32) -> Same {
    let built = case.build(bounds, last);
    let judgements = case.judgements(&built.model);
    tally.add("last phase", last, 1);
    if let (Some(phase), Some([_, bound, _])) = (built.tripped_in, built.trip()) {
        tally.add("tripped", format!("phase {phase} {}", BOUND_NAMES[bound as usize]), 1);
    }
    let theirs = case.answer(built);
    count_answer(tally, &theirs);
    tally.add("decks with", "parallel edges of sub-roles", u64::from(has_parallel(parts, &theirs.edges)));
    let mut room = need(parts, bounds);
    room.labels += rng.below(4);
    room.edges += rng.below(3);
    room.verdicts += rng.below(6);
    room.log = match rng.below(20) {
        0..=2 => rng.below(8),
        3..=5 => rng.below(3 * theirs.reasons.len() + 1),
        _ => 3 * theirs.reasons.len() + rng.below(4),
    };
    tally.add("decks with", "more reasons than the log takes", u64::from(room.log / 3 < theirs.reasons.len()));
    tally.add("decks with", "more than 256 reasons", u64::from(theirs.reasons.len() > 256));
    let mut lent = Lent::marked(room);
    same("refusal of a run", lent.run(deck, bounds, last), 0)?;
    let ours = lent.taken(parts)?;
    same("total of reasons", lent.answer[3] as usize, theirs.reasons.len())?;
    answers(&ours, &theirs, room.log / 3)?;
    if rng.chance(35) && ours.edges.len() <= 40 {
        same("edges, oldest first", &ours.edges, &case.edges_in_order(bounds, last, ours.edges.len()))?;
        tally.add("edges", "compared in order", ours.edges.len() as u64);
    }
    judged(tally, deck, parts, &lent, &ours, &judgements)
}

/// A large deck: a whole run, without every concept at every element.
pub fn large(rng: &mut Rng, tally: &mut Tally) -> (Vec<u8>, Same) {
    let (parts, bounds, last) = large::deck(rng);
    let deck = parts.bytes();
    let found = whole(tally, &deck, &parts, bounds, last);
    (deck, found)
}

fn whole(tally: &mut Tally, deck: &[u8], parts: &Parts, bounds: Bounds, last: u32) -> Same {
    same("check", ours::check(deck), 0)?;
    let case = Case::new(parts);
    let built = case.build(bounds, last);
    if let (Some(phase), Some([_, bound, _])) = (built.tripped_in, built.trip()) {
        tally.add("tripped", format!("phase {phase} {}", BOUND_NAMES[bound as usize]), 1);
    }
    let theirs = case.answer(built);
    count_answer(tally, &theirs);
    tally.add("elements", "in all", u64::from(theirs.elements));
    let mut lent = Lent::marked(Room { log: 3 * theirs.reasons.len(), ..need(parts, bounds) });
    same("refusal of a run", lent.run(deck, bounds, last), 0)?;
    answers(&lent.taken(parts)?, &theirs, theirs.reasons.len())
}

/// What a deck has that building turns on.
fn count_deck(tally: &mut Tally, parts: &Parts) {
    let unsatisfiable = |class: u32| parts.classes[class as usize][0] == 1;
    let q_unsatisfiable = parts.injected.iter().any(|[.., q]| unsatisfiable(*q));
    let universal = |concept: u32| matches!(parts.concepts[concept as usize], [0, ..] | [6, _, 0, _]);
    let repeats = |list: &[u32]| (1..list.len()).any(|k| list[..k].contains(&list[k]));
    let ands = parts.concepts.iter().filter(|concept| concept[0] == 6);
    let mut lists = ands.clone().chain(parts.axioms.iter().filter(|axiom| matches!(axiom[0], 1 | 2)));
    let one_some_twice = |and: &[u32; 4]| twice(parts, and).iter().any(|operand| is_some(parts, *operand));
    let [somes, shared] = depths(parts);
    for (name, has) in [
        ("unsatisfiable classes", parts.classes.iter().any(|class| class[0] == 1)),
        ("unsatisfiable q", q_unsatisfiable),
        ("classes that are not real", (parts.real as usize) < parts.classes.len()),
        ("ranges", parts.roles.iter().any(|role| role[3] > 0)),
        ("sub-roles", parts.roles.iter().any(|role| role[1] > 1)),
        ("a universal subclass", parts.axioms.iter().any(|axiom| axiom[0] == 0 && universal(axiom[1]))),
        ("an axiom right after itself", parts.axioms.windows(2).any(|pair| pair[0] == pair[1])),
        ("EquivalentClasses of four members or more", parts.axioms.iter().any(|axiom| axiom[0] == 1 && axiom[2] > 3)),
        ("repeated members", lists.any(|record| repeats(parts.list(record[1], record[2])))),
        ("labels of two words or three", parts.width() > 1),
        ("three nested Somes or more", somes > 2),
        ("operands shared on three levels or more", shared > 2),
        ("an And of one Some twice", ands.clone().any(one_some_twice)),
    ] {
        tally.add("decks with", name, u64::from(has));
    }
}

/// Is it a Some of a named role?
fn is_some(parts: &Parts, concept: u32) -> bool {
    let [tag, word, ..] = parts.concepts[concept as usize];
    tag == 8 && word % 2 == 0
}

/// The operands that an And lists more than once.
fn twice(parts: &Parts, and: &[u32; 4]) -> Vec<u32> {
    let operands = parts.list(and[1], and[2]);
    (1..operands.len()).filter(|k| operands[..*k].contains(&operands[*k])).map(|k| operands[k]).collect()
}

/// The deepest nesting of Somes, and of Ands that list an operand more than once, in what axioms about classes name.
fn depths(parts: &Parts) -> [u32; 2] {
    let mut below: Vec<[u32; 2]> = Vec::new();
    let most = |below: &[[u32; 2]], concepts: &[u32], k: usize| {
        concepts.iter().map(|concept| below[*concept as usize][k]).max().unwrap_or(0)
    };
    for (k, concept) in parts.concepts.iter().enumerate() {
        below.push(match *concept {
            [6, start, count, _] => {
                let operands = parts.list(start, count);
                let repeated = twice(parts, concept);
                let shared = most(&below, &repeated, 1) + u32::from(!repeated.is_empty());
                [most(&below, operands, 0), most(&below, operands, 1).max(shared)]
            }
            [8, _, body, _] if is_some(parts, k as u32) => [below[body as usize][0] + 1, below[body as usize][1]],
            _ => [0; 2],
        });
    }
    let named: Vec<u32> = parts
        .axioms
        .iter()
        .flat_map(|axiom| match *axiom {
            [0, sub, sup, _] => vec![sub, sup],
            [1 | 2, start, count, _] => parts.list(start, count).to_vec(),
            [9 | 10, _, concept, _] => vec![concept],
            _ => Vec::new(),
        })
        .collect();
    [0, 1].map(|k| most(&below, &named, k))
}

/// Are there edges of two sub-roles of a role between the same elements?
fn has_parallel(parts: &Parts, edges: &[[u32; 3]]) -> bool {
    let mut rows = parts.roles.iter().map(|[start, count, ..]| parts.list(*start, *count)).filter(|row| row.len() > 1);
    rows.any(|row| {
        let mut pairs: Vec<[u32; 2]> =
            edges.iter().filter(|edge| row.contains(&edge[0])).map(|[_, from, to]| [*from, *to]).collect();
        pairs.sort_unstable();
        pairs.windows(2).any(|two| two[0] == two[1])
    })
}

pub fn count_answer(tally: &mut Tally, answer: &Answer) {
    tally.add("outcome", OUTCOMES[answer.outcome as usize], 1);
    tally.add("edges", "in all", answer.edges.len() as u64);
    for [kind, which, _] in &answer.reasons {
        match kind {
            1 => tally.add("reason", "1 LabelNotClosed", 1),
            2 => tally.add("reason", "2 RunDelta", 1),
            3 => tally.add("reason", format!("3 BoundTripped {}", BOUND_NAMES[*which as usize]), 1),
            _ => tally.add("reason", "4 AxiomsDropped", 1),
        }
    }
    for [kind, tag, part, third] in &answer.verdicts {
        match kind {
            0 => tally.add("verdict", "0 Holds", 1),
            1 => {
                let missing = [*part, *third].iter().filter(|word| **word == u32::MAX).count();
                tally.add("verdict", format!("1 Fails with {}", 3 - missing), 1);
            }
            2 => tally.add("verdict", format!("2 UnhandledAxiom {tag:02} {part}"), 1),
            3 => tally.add("verdict", format!("3 UnhandledConcept {tag:02}"), 1),
            _ => tally.add("verdict", "4 GuardedRoleHasEdges", 1),
        }
    }
}

/// Labels element by element, edges bucket by bucket, the reasons that fit, verdicts, outcome.
fn answers(ours: &Answer, theirs: &Answer, fit: usize) -> Same {
    same("elements", ours.elements, theirs.elements)?;
    same("labels", &ours.labels, &theirs.labels)?;
    let mut edges = ours.edges.clone();
    edges.sort_unstable();
    same("edges", &edges, &theirs.edges)?;
    same("reasons", &ours.reasons[..], &theirs.reasons[..fit.min(theirs.reasons.len())])?;
    same("verdicts", &ours.verdicts, &theirs.verdicts)?;
    same("outcome", ours.outcome, theirs.outcome)
}

/// Every concept at every element of the structure that was built, and every axiom in it once more.
fn judged(tally: &mut Tally, deck: &[u8], parts: &Parts, lent: &Lent, ours: &Answer, theirs: &[[u32; 4]]) -> Same {
    let structure = Structure {
        labels: &lent.labels,
        elements: ours.elements,
        edges: &lent.edges,
        edge_count: ours.edges.len() as u32,
    };
    concepts(tally, deck, parts, &structure, theirs)?;
    axioms(deck, &structure, &ours.verdicts)
}

fn concepts(tally: &mut Tally, deck: &[u8], parts: &Parts, structure: &Structure, theirs: &[[u32; 4]]) -> Same {
    let mut expected = theirs.iter();
    for concept in 0..parts.concepts.len() as u32 {
        for element in 0..structure.elements {
            let words = *expected.next().unwrap();
            same("judgement", structure.concept(deck, concept, element), Ok(words))?;
        }
    }
    for kind in ["0 False", "1 True", "2 Unresolved"] {
        let of = |words: &&[u32; 4]| kind.starts_with(&words[0].to_string());
        tally.add("judgement", kind, theirs.iter().filter(of).count() as u64);
    }
    Ok(())
}

fn axioms(deck: &[u8], structure: &Structure, verdicts: &[[u32; 4]]) -> Same {
    for (k, words) in verdicts.iter().enumerate() {
        same("verdict by itself", structure.axiom(deck, k as u32), Ok(*words))?;
    }
    Ok(())
}

/// Refusals 8 and 9, each by the least step past a limit.
fn refused_measures(rng: &mut Rng, tally: &mut Tally, deck: &[u8], parts: &Parts, bounds: Bounds, last: u32) -> Same {
    let (mut bounds, mut last, mut room) = (bounds, last, need(parts, bounds));
    let number = match rng.below(8) {
        0 => {
            bounds.elements = rng.pick(&[65536, u32::MAX]);
            8
        }
        1 => {
            bounds.edges = rng.pick(&[1_048_576, u32::MAX]);
            8
        }
        2 => {
            bounds.rounds = rng.pick(&[65536, u32::MAX]);
            8
        }
        3 => {
            last = rng.pick(&[0, 5, u32::MAX]);
            8
        }
        4 | 5 if room.labels > 0 => {
            room.labels -= 1;
            9
        }
        6 if room.verdicts > 0 => {
            room.verdicts -= 1;
            9
        }
        _ => {
            room.edges -= 1;
            9
        }
    };
    tally.add("refused", number, 1);
    refused_run(deck, bounds, last, room, number)
}

/// What a lent structure has that judging turns on.
fn count_lent(tally: &mut Tally, parts: &Parts, edges: &[[u32; 3]]) {
    let again = |k: usize, apart: usize| (0..k.saturating_sub(apart)).any(|before| edges[before] == edges[k]);
    let runs: Vec<u32> = edges.chunk_by(|one, next| one[1] == next[1]).map(|run| run[0][1]).collect();
    for (name, has) in [
        ("lent edges that repeat", (0..edges.len()).any(|k| again(k, 0))),
        ("lent edges that repeat apart", (0..edges.len()).any(|k| again(k, 1))),
        ("lent edges of an element in several runs", (1..runs.len()).any(|k| runs[..k].contains(&runs[k]))),
        ("lent parallel edges of sub-roles", has_parallel(parts, edges)),
    ] {
        tally.add("decks with", name, u64::from(has));
    }
}

/// A structure that no run built, with repeated edges: judged by both. And refusals 10 and 11.
fn lent_structure(rng: &mut Rng, tally: &mut Tally, deck: &[u8], parts: &Parts, case: &Case) -> Same {
    let (n, width) = (parts.classes.len(), parts.width());
    let elements = rng.pick(&[0, 1, 2, 3, 3, 4, 4, 5, 5, 8, 12]);
    let mut labels = vec![0u64; elements as usize * width + rng.below(2)];
    for at in 0..elements as usize {
        (0..n).filter(|_| rng.chance(40)).for_each(|k| labels[at * width + k / 64] |= 1 << (k % 64));
    }
    let any = elements > 0 && !parts.roles.is_empty();
    let edges = if any { repeats::edges(rng, parts, elements as usize) } else { Vec::new() };
    count_lent(tally, parts, &edges);
    let given = Given { width, labels: &labels, elements, edges: &edges, hierarchy: hierarchy(parts) };
    let structure = Structure { labels: &labels, elements, edges: &edges, edge_count: edges.len() as u32 };
    tally.add("decks", "with a lent structure", 1);
    concepts(tally, deck, parts, &structure, &case.judgements(&given))?;
    axioms(deck, &structure, &case.verdicts(&given))?;
    absent(rng, tally, deck, parts, &structure)?;
    foreign(rng, tally, deck, parts, &structure)
}

fn absent(rng: &mut Rng, tally: &mut Tally, deck: &[u8], parts: &Parts, structure: &Structure) -> Same {
    let (concepts, axioms) = (parts.concepts.len() as u32, parts.axioms.len() as u32);
    let past = rng.pick(&[0, 1, u32::MAX / 2]);
    same("absent concept", structure.concept(deck, concepts + past, 0), Err(11))?;
    same("absent element", structure.concept(deck, 0, structure.elements + past), Err(11))?;
    tally.add("refused", 11, 3);
    same("absent axiom", structure.axiom(deck, axioms + past), Err(11))
}

fn foreign(rng: &mut Rng, tally: &mut Tally, deck: &[u8], parts: &Parts, structure: &Structure) -> Same {
    let (n, width) = (parts.classes.len(), parts.width());
    let mut labels = structure.labels.to_vec();
    let mut edges = structure.edges.to_vec();
    let (mut elements, mut edge_count) = (structure.elements, structure.edge_count);
    match rng.below(6) {
        0 if width > 0 => elements = (labels.len() / width) as u32 + 1,
        1 => edge_count += 1,
        2 if elements > 0 && n % 64 > 0 => labels[elements as usize * width - 1] |= 1 << rng.pick(&[n % 64, 63]),
        3 if edge_count > 0 => edges[rng.below(edge_count as usize)][0] = parts.roles.len() as u32,
        4 if edge_count > 0 => edges[rng.below(edge_count as usize)][1 + rng.below(2)] = elements,
        5 if width == 0 && edge_count == 0 => elements = 65537,
        _ => return Ok(()),
    }
    let structure = Structure { labels: &labels, elements, edges: &edges, edge_count };
    tally.add("refused", 10, 2);
    same("foreign structure, concept", structure.concept(deck, rng.word(30), rng.word(9)), Err(10))?;
    same("foreign structure, axiom", structure.axiom(deck, rng.word(30)), Err(10))
}
