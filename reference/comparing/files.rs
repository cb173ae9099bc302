//! The files that are compared, and the questions put to each: calls with a budget and with lent room or records.

use crate::draft::Draft;
use crate::faults::{cut, damage, noise, pad, spoil_value, stretch, Edge};
use crate::houses::house;
use crate::random::Random;
use reference::card::MOST_CERTIFICATES;
use reference::room::{Path, ENOUGH, MOST_SLOTS, SLOT};
use reference::{paused, reader, Reply};

/// Which call is made: the search, or the paused run with its k.
#[derive(Clone, Copy, PartialEq)]
pub enum Call {
    Search,
    Paused(u64),
}

/// What is lent for the paths that wait.
pub enum Lent {
    Room(Vec<u8>),
    Records(Vec<Path>),
}

/// A call and what is lent to it.
pub struct Question {
    pub call: Call,
    pub lent: Lent,
}

/// A file whose search takes a bearable number of steps, also one that misses the path to accept.
pub struct Made {
    pub bytes: Vec<u8>,
    pub roots: usize,
    pub bundle: usize,
    /// The file's budget, where it can be read.
    pub budget: Option<u64>,
    /// The least budget that brings a yes or a no, where it is bearable.
    pub settled: Option<u64>,
    /// The number of simple paths, where it is bearable.
    pub paths: Option<u64>,
}

pub fn make(random: &mut Random) -> Made {
    let bytes = some_file(random);
    let most = random.weighed(&[(650, 200), (300, 2_000), (49, 20_000), (1, 200_000)]);
    let mut file = bounded(bytes, most);
    if let Some(steps) = file.settled.filter(|_| random.chance(80)) {
        let far = file.paths.map_or(most, |_| u64::MAX);
        let budget = around(random, steps).min(far);
        set_budget(&mut file.bytes, budget);
        file.budget = Some(budget);
    }
    file
}

fn some_file(random: &mut Random) -> Vec<u8> {
    match random.below(1000) {
        0..=589 => sound(random).bytes(),
        590..=597 => long(random, 65_535),
        598..=612 => {
            let length = 65_536 + random.pick(&[0, 0, 1, 464, 20_000]);
            long(random, length)
        }
        613..=682 => changed(random, cut),
        683..=722 => changed(random, |random, file| file.extend(random.bytes(1..=40))),
        723..=802 => changed(random, |random, file| {
            for _ in 0..random.within(1..=3) {
                damage(random, file);
            }
        }),
        803..=882 => broken(random, |random, draft| {
            stretch(random, draft, Edge::Outside)
        }),
        883..=932 => broken(random, spoil_value),
        933..=957 => {
            let edition = random.pick(&[0, 2, 3, 255]);
            broken(random, |_, draft| draft.edition = edition)
        }
        958..=987 => empty(random),
        _ => noise(random),
    }
}

fn sound(random: &mut Random) -> Draft {
    let mut draft = house(random);
    if random.chance(15) {
        stretch(random, &mut draft, Edge::Inside);
    }
    draft
}

fn long(random: &mut Random, length: usize) -> Vec<u8> {
    let mut draft = house(random);
    while draft.certs() < 12 || draft.bytes().len() > length {
        draft = house(random);
    }
    pad(&mut draft, length);
    draft.bytes()
}

fn changed(random: &mut Random, change: impl Fn(&mut Random, &mut Vec<u8>)) -> Vec<u8> {
    let mut file = sound(random).bytes();
    change(random, &mut file);
    file
}

/// A draft with one fault, at times with a second one or cut off behind the first, so that the order of judging is asked.
fn broken(random: &mut Random, fault: impl Fn(&mut Random, &mut Draft)) -> Vec<u8> {
    let mut draft = sound(random);
    let before = draft.bytes();
    fault(random, &mut draft);
    if random.chance(15) {
        spoil_value(random, &mut draft);
    }
    let mut file = draft.bytes();
    let first = file.iter().zip(&before).position(|(a, b)| a != b);
    match first {
        Some(at) if random.chance(30) => file.truncate(at + random.pick(&[1, 1, 2, 3, 17])),
        _ => {}
    }
    file
}

/// No certificate in the bundle; at times a byte is left over.
fn empty(random: &mut Random) -> Vec<u8> {
    let mut draft = sound(random);
    draft.bundle.clear();
    draft.verdicts.clear();
    let mut file = draft.bytes();
    if random.chance(15) {
        file.push(0);
    }
    file
}

/// The file as it is, but for a budget that could take more than `most` steps: it is brought down.
pub fn bounded(mut bytes: Vec<u8>, most: u64) -> Made {
    let (roots, bundle, budget) = match reader::read(&bytes) {
        Ok(card) if !card.bundle.is_empty() => {
            (card.roots.len(), card.bundle.len(), card.task.budget)
        }
        _ => {
            return Made {
                roots: 0,
                bundle: bytes.len() % (MOST_CERTIFICATES + 1),
                bytes,
                budget: None,
                settled: None,
                paths: None,
            }
        }
    };
    let paths = steps_within(&rootless(&bytes), most);
    let budget = match paths {
        Some(_) => budget,
        None => budget % (most + 1),
    };
    set_budget(&mut bytes, budget);
    Made {
        roots,
        bundle,
        budget: Some(budget),
        settled: steps_within(&bytes, most),
        paths,
        bytes,
    }
}

/// The steps to a yes or a no, where they are at most `most`.
fn steps_within(file: &[u8], most: u64) -> Option<u64> {
    match paused(file, most, &ENOUGH).reply {
        Reply::Accepted { steps, .. } | Reply::Refused { steps } => Some(steps),
        _ => None,
    }
}

/// The file in which no root issued anything, so that every simple path is taken.
fn rootless(file: &[u8]) -> Vec<u8> {
    let mut file = file.to_vec();
    if let Ok(card) = reader::read(&file) {
        let (roots, bundle) = (card.roots.len(), card.bundle.len());
        let task = 19 + card.task.host.len();
        let rows = file.len() - task - (roots + bundle) * bundle;
        file[rows..rows + roots * bundle].fill(0);
    }
    file
}

/// A budget near the one that settles the file.
fn around(random: &mut Random, steps: u64) -> u64 {
    match random.below(20) {
        0 => 0,
        1..=3 => steps - 1,
        4..=9 => steps,
        10..=11 => steps + 1,
        12..=13 => random.next() % (steps + 1),
        _ => u64::MAX,
    }
}

/// The budget stands before the purpose and the host, which end the file.
fn set_budget(file: &mut [u8], budget: u64) {
    let host = reader::read(file).map_or(0, |card| card.task.host.len());
    let end = file.len() - host - 2;
    file[end - 8..end].copy_from_slice(&budget.to_be_bytes());
}

/// The search and some paused runs, each with room of its own and again with records.
pub fn questions(random: &mut Random, file: &Made) -> Vec<Question> {
    let mut calls = vec![Call::Search];
    let last = file.settled.unwrap_or(40);
    calls.push(Call::Paused(random.pick(&[0, 1, 2])));
    calls.push(Call::Paused(random.pick(&[last, last - 1])));
    calls.push(Call::Paused(match file.paths {
        Some(_) if random.chance(20) => u64::MAX,
        _ => random.next() % (last + 2),
    }));
    let ask = |call| {
        let room = Lent::Room(room(random, file.bundle));
        let records = Lent::Records(records(random, file.bundle));
        [room, records].map(|lent| Question { call, lent })
    };
    calls.into_iter().flat_map(ask).collect()
}

/// The slots that the paper's formula asks for.
pub fn slots(bundle: usize) -> usize {
    match bundle {
        0 => 0,
        n => (n - 1) * n.saturating_sub(2) / 2 + 1,
    }
}

/// How many slots are lent: mostly enough, often by a hair.
fn lent(random: &mut Random, bundle: usize) -> usize {
    let exact = slots(bundle);
    match random.below(100) {
        0..=49 => exact,
        50..=69 => exact + random.within(1..=3),
        70..=84 => MOST_SLOTS,
        85..=93 => exact.saturating_sub(1),
        _ => random.within(0..=2 * MOST_SLOTS),
    }
}

/// Room of any contents.
fn room(random: &mut Random, bundle: usize) -> Vec<u8> {
    let slots = lent(random, bundle);
    let part = random.pick(&[0, 0, 1, SLOT - 1]);
    contents(random, slots * SLOT + part)
}

/// Records of any contents.
fn records(random: &mut Random, bundle: usize) -> Vec<Path> {
    let slots = lent(random, bundle);
    let bytes = contents(random, slots * SLOT);
    let record = |slot: &[u8]| {
        let mut record = Path::NONE;
        record.length = slot[0];
        record.places.copy_from_slice(&slot[1..]);
        record
    };
    bytes.chunks_exact(SLOT).map(record).collect()
}

fn contents(random: &mut Random, length: usize) -> Vec<u8> {
    match random.below(4) {
        0 => vec![random.pick(&[0, 255]); length],
        _ => random.bytes(length..=length),
    }
}
