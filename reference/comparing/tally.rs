//! What was asked and answered, counted, so that a reader sees what a run has reached.

use crate::files::{slots, Call, Lent, Made, Question};
use crate::library::Said;
use reference::room::SLOT;
use std::collections::BTreeMap;
use std::fmt;

struct Row {
    title: &'static str,
    label: fn(u64) -> String,
    counts: BTreeMap<u64, u64>,
}

impl Row {
    fn new(title: &'static str, label: fn(u64) -> String) -> Row {
        Row {
            title,
            label,
            counts: BTreeMap::new(),
        }
    }

    fn count(&mut self, key: u64) {
        *self.counts.entry(key).or_insert(0) += 1;
    }
}

impl fmt::Display for Row {
    fn fmt(&self, f: &mut fmt::Formatter) -> fmt::Result {
        let count = |(key, count): (&u64, &u64)| format!("{} {count}", (self.label)(*key));
        let counts: Vec<String> = self.counts.iter().map(count).collect();
        writeln!(f, "{:<22}{}", self.title, counts.join(", "))
    }
}

pub struct Tally {
    bytes: Row,
    tasks: Row,
    searches: Row,
    roots: Row,
    bundles: Row,
    budgets: Row,
    rooms: Row,
    lengths: Row,
    ranks: Row,
    paused: Row,
    waiting: Row,
    records: Row,
    counts: Row,
    lines: Row,
}

fn reply(number: u64) -> String {
    match number {
        0 => "ACCEPT".into(),
        1 => "REFUSE".into(),
        2 => "EXHAUSTED".into(),
        _ => format!("ERROR-{number}"),
    }
}

fn reading(number: u64) -> String {
    match number {
        0 => "read".into(),
        _ => reply(number),
    }
}

fn of(number: u64) -> String {
    format!("{number}:")
}

/// Numbers by how many digits they have in base 10.
fn tens(digits: u64) -> String {
    match digits as u32 {
        1 => "0-9:".into(),
        d => format!("{}-{}:", 10_u64.pow(d - 1), 10_u64.pow(d) - 1),
    }
}

fn digits(number: u64) -> u64 {
    number.to_string().len() as u64
}

/// Numbers by how many digits they have in base 2.
fn twos(bits: u64) -> String {
    match bits {
        0 | 1 => format!("{bits}:"),
        b => format!("{}-{}:", 1_u64 << (b - 1), (1_u64 << b) - 1),
    }
}

fn bits(number: u64) -> u64 {
    (64 - number.leading_zeros()).into()
}

const BUDGETS: [&str; 7] = [
    "0:",
    "short:",
    "one short:",
    "exact:",
    "more:",
    "2^64-1:",
    "not settled:",
];
const ROOMS: [&str; 4] = ["too small:", "exact:", "exact and a part slot:", "more:"];
const COUNTS: [&str; 3] = ["too few:", "exact:", "more:"];

impl Tally {
    pub fn new() -> Tally {
        Tally {
            bytes: Row::new("bytes of a file", tens),
            tasks: Row::new("tasks", reading),
            searches: Row::new("searches", reply),
            roots: Row::new("  roots", twos),
            bundles: Row::new("  certificates", of),
            budgets: Row::new("  budget", |key| BUDGETS[key as usize].into()),
            rooms: Row::new("  room", |key| ROOMS[key as usize].into()),
            lengths: Row::new("  accepted path of", of),
            ranks: Row::new("  accepted at step", tens),
            paused: Row::new("paused runs", reply),
            waiting: Row::new("  paths that wait", twos),
            records: Row::new("both with records", reply),
            counts: Row::new("  records", |key| COUNTS[key as usize].into()),
            lines: Row::new("terminal's lines", reply),
        }
    }

    pub fn file(&mut self, bytes: usize) {
        self.bytes.count(digits(bytes as u64));
    }

    pub fn task(&mut self, number: u8) {
        self.tasks.count(number.into());
    }

    pub fn line(&mut self, number: u8) {
        self.lines.count(number.into());
    }

    pub fn answered(&mut self, file: &Made, question: &Question, said: &Said) {
        match (&question.lent, question.call) {
            (Lent::Room(room), Call::Search) => self.searched(file, room.len(), said),
            (Lent::Room(_), Call::Paused(_)) => {
                self.paused.count(said.number().into());
                if said.number() < 3 {
                    let waiting = said.waiting(slots(file.bundle));
                    self.waiting.count(bits(waiting as u64));
                }
            }
            (Lent::Records(records), _) => {
                self.records.count(said.number().into());
                if file.budget.is_some() {
                    let kind = records.len().cmp(&slots(file.bundle));
                    self.counts.count((kind as i64 + 1) as u64);
                }
            }
        }
    }

    fn searched(&mut self, file: &Made, room: usize, said: &Said) {
        self.searches.count(said.number().into());
        if let Some(budget) = file.budget {
            self.roots.count(bits(file.roots as u64));
            self.bundles.count(file.bundle as u64);
            self.rooms.count(room_kind(room, slots(file.bundle)));
            if said.number() < 3 {
                self.budgets.count(budget_kind(budget, file.settled));
            }
        }
        if said.number() == 0 {
            self.lengths.count(said.path_length().into());
            self.ranks.count(digits(said.steps()));
        }
    }
}

fn budget_kind(budget: u64, settled: Option<u64>) -> u64 {
    match settled {
        _ if budget == 0 => 0,
        None => 6,
        Some(_) if budget == u64::MAX => 5,
        Some(steps) if budget > steps => 4,
        Some(steps) if budget == steps => 3,
        Some(steps) if budget == steps - 1 => 2,
        Some(_) => 1,
    }
}

fn room_kind(bytes: usize, slots: usize) -> u64 {
    match bytes / SLOT {
        lent if lent < slots => 0,
        lent if lent > slots => 3,
        _ if bytes % SLOT == 0 => 1,
        _ => 2,
    }
}

impl fmt::Display for Tally {
    fn fmt(&self, f: &mut fmt::Formatter) -> fmt::Result {
        let rows = [
            &self.bytes,
            &self.tasks,
            &self.searches,
            &self.roots,
            &self.bundles,
            &self.budgets,
            &self.rooms,
            &self.lengths,
            &self.ranks,
            &self.paused,
            &self.waiting,
            &self.records,
            &self.counts,
            &self.lines,
        ];
        let used = rows.into_iter().filter(|row| !row.counts.is_empty());
        used.into_iter().try_for_each(|row| row.fmt(f))
    }
}
