//! The tables that are printed. A time stands in one only after the versions that it compares have answered alike.

use crate::answer::Answer;
use crate::clock::{agreed, times, Job};
use crate::inputs::{self, Alike, Ordinary, Own, HOST};
use crate::versions::{
    Version, BEFORE, DEPTHS, LEAN, LIBRARY, ORDINARY, PACKED, RECORDS, TUNED, UNCHECKED, UPSTREAM,
};
use reference::card::{MOST_CERTIFICATES, MOST_ROOTS};
use std::time::Duration;

const ALL: [&Version; 10] = [
    &LIBRARY, &BEFORE, &RECORDS, &ORDINARY, &UPSTREAM, &TUNED, &PACKED, &DEPTHS, &UNCHECKED, &LEAN,
];

/// Those whose parts are timed too.
const CLOSE: [&Version; 3] = [&LIBRARY, &BEFORE, &TUNED];

/// Those whose steps are timed: the ones that allocate nothing.
const WALKS: [&Version; 8] = [
    &LIBRARY, &BEFORE, &RECORDS, &TUNED, &PACKED, &DEPTHS, &UNCHECKED, &LEAN,
];

/// Many pairs of names, each the same by normal form only; the first path taken is accepted.
const RESPELT: Alike = Alike {
    certificates: 16,
    roots: 32,
    signed: true,
    own: Own::Respelt,
    budget: 1,
};

/// As many, each the same by another order of attributes only.
const TURNED: Alike = Alike {
    own: Own::Turned,
    ..RESPELT
};

/// The most pairs of names there can be, in either way.
fn full(of: Alike) -> Alike {
    Alike {
        certificates: MOST_CERTIFICATES,
        roots: MOST_ROOTS,
        ..of
    }
}

/// Whole answers, from the bytes of the file: the library's time, and its ratio to each other version.
pub fn beside(lasting: Duration) {
    header(&["file", "bytes", "reply", "steps"], &[""], &ALL);
    row(
        "complete graph of nine",
        &inputs::complete(9, u64::MAX),
        lasting,
    );
    row("names respelt", &inputs::alike(RESPELT), lasting);
    row("attributes turned", &inputs::alike(TURNED), lasting);
    full_row("names respelt, at the limits", RESPELT, lasting);
    full_row("attributes turned, at the limits", TURNED, lasting);
    row("keys renewed", &inputs::renewed(8).file(), lasting);
    let mut whole = vec![0.0; ALL.len()];
    for (name, file) in ordinary_files() {
        let times = row(&name, &file, lasting);
        for (sum, time) in whole.iter_mut().zip(times) {
            *sum += time;
        }
    }
    println!("| the set | | | | {} |", ratios(&whole, micros));
}

/// A table's head: its own columns, and for each kind of file one for each version.
fn header(own: &[&str], kinds: &[&str], versions: &[&Version]) {
    let named = |kind: &&str| {
        let first = format!("{kind}{}", versions[0].name);
        let others = versions[1..].iter().map(|version| version.name.to_string());
        std::iter::once(first).chain(others).collect::<Vec<_>>()
    };
    let columns: Vec<String> = kinds.iter().flat_map(named).collect();
    println!("| {} | {} |", own.join(" | "), columns.join(" | "));
    println!("|{}", "---|".repeat(own.len() + columns.len()));
}

fn ordinary_files() -> Vec<(String, Vec<u8>)> {
    let sizes = [
        (1, 1),
        (1, 8),
        (2, 1),
        (2, 8),
        (3, 8),
        (3, 32),
        (4, 32),
        (6, 32),
    ];
    let accepted = sizes.map(|size| (size, HOST));
    let refused = [(3, 8), (6, 32)].map(|size| (size, "www.elsewhere.example"));
    let all = accepted.into_iter().chain(refused);
    let file = |((certificates, roots), host)| {
        let wanted = Ordinary {
            certificates,
            roots,
            host,
        };
        let asked = if host == HOST { "" } else { ", another host" };
        (
            format!("certificates {certificates}, roots {roots}{asked}"),
            inputs::ordinary(wanted).file(),
        )
    };
    all.map(file).collect()
}

fn row(name: &str, file: &[u8], lasting: Duration) -> Vec<f64> {
    let answer = agreed(file, &ALL);
    let times = times(&jobs(file, &ALL), lasting);
    told(name, file, &answer, &times);
    times
}

/// A row on the largest file of its kind.
fn full_row(name: &str, of: Alike, lasting: Duration) {
    let file = inputs::alike(full(of));
    let able = able(&ALL);
    let answer = agreed(&file, &able);
    let times = times(&jobs(&file, &able), lasting);
    told(name, &file, &answer, &without_before(times, &ALL));
}

/// Those that read the largest files: before may have smaller limits.
fn able<'a>(versions: &[&'a Version]) -> Vec<&'a Version> {
    let able = |version: &&&Version| version.places() == MOST_CERTIFICATES;
    versions.iter().filter(able).copied().collect()
}

/// The times of those that read the largest files, and none for before, the second, where it does not.
fn without_before(mut times: Vec<f64>, versions: &[&Version]) -> Vec<f64> {
    if times.len() < versions.len() {
        times.insert(1, f64::NAN);
    }
    times
}

fn told(name: &str, file: &[u8], answer: &Answer, times: &[f64]) {
    println!(
        "| {name} | {} | {} | {} | {} |",
        file.len(),
        answer.number,
        answer.steps,
        ratios(times, micros)
    );
}

fn jobs<'a>(file: &'a [u8], versions: &[&'a Version]) -> Vec<Job<'a>> {
    let job = |version: &&'a Version| Job { file, version };
    versions.iter().map(job).collect()
}

/// The first time as it is, and its ratio to each of the others that was taken.
fn ratios(times: &[f64], shown: fn(f64) -> String) -> String {
    let others = times[1..].iter().map(|time| match time.is_nan() {
        true => "–".into(),
        false => format!("{:.2}", times[0] / time),
    });
    let cells: Vec<String> = std::iter::once(shown(times[0])).chain(others).collect();
    cells.join(" | ")
}

fn micros(nanos: f64) -> String {
    format!("{:.2} us", nanos / 1000.0)
}

fn nanos(nanos: f64) -> String {
    format!("{nanos:.1} ns")
}

/// The time a step of complete graphs, without a root and with 32 that are tried for each path in vain.
pub fn steps(lasting: Duration) {
    header(
        &["complete graph of", "steps"],
        &["no root: ", "32 roots in vain: "],
        &WALKS,
    );
    for certificates in 5..=10 {
        let steps = agreed(&inputs::complete(certificates, u64::MAX), &WALKS).steps;
        let without = a_step(inputs::complete, certificates, lasting);
        let with = a_step(inputs::barred, certificates, lasting);
        println!("| {certificates} | {steps} | {without} | {with} |");
    }
}

/// What the whole search of such a file takes beyond a search of one step, by the step.
fn a_step(file: fn(usize, u64) -> Vec<u8>, certificates: usize, lasting: Duration) -> String {
    let all = file(certificates, u64::MAX);
    let steps = agreed(&all, &WALKS).steps;
    let more = difference(&file(certificates, 1), &all, &WALKS, lasting);
    let each: Vec<f64> = more.iter().map(|time| time / (steps - 1) as f64).collect();
    ratios(&each, nanos)
}

/// What one file takes more than another.
fn difference(less: &[u8], more: &[u8], versions: &[&Version], lasting: Duration) -> Vec<f64> {
    agreed(less, versions);
    agreed(more, versions);
    let both = [jobs(less, versions), jobs(more, versions)].concat();
    let times = times(&both, lasting);
    let (less, more) = times.split_at(versions.len());
    more.iter()
        .zip(less)
        .map(|(more, less)| more - less)
        .collect()
}

/// A file with a byte left over is read to its end and then answered: its time is the reader's.
fn left_over(mut file: Vec<u8>) -> Vec<u8> {
    file.push(0);
    file
}

pub fn reading(lasting: Duration) {
    header(&["bytes"], &[""], &CLOSE);
    for bytes in [1000, 2000, 4000, 8000, 16_000, 32_000, 65_000] {
        let file = left_over(inputs::long(bytes));
        assert_eq!(agreed(&file, &CLOSE).number, 9);
        let times = times(&jobs(&file, &CLOSE), lasting);
        println!("| {} | {} |", file.len() - 1, ratios(&times, micros));
    }
}

/// The time past reading, with a budget of no steps: who issued whom, and the judging of each certificate.
pub fn issuing(lasting: Duration) {
    header(
        &["certificates", "roots"],
        &["every signature holds: ", "names respelt: ", "none holds: "],
        &CLOSE,
    );
    for certificates in [4, 8, 16] {
        for roots in [1, 8, 32] {
            issuing_row(certificates, roots, &CLOSE, lasting);
        }
    }
    issuing_row(MOST_CERTIFICATES, MOST_ROOTS, &able(&CLOSE), lasting);
}

fn issuing_row(certificates: usize, roots: usize, versions: &[&Version], lasting: Duration) {
    let kinds = [
        (true, Own::Alike),
        (true, Own::Respelt),
        (false, Own::Alike),
    ];
    let taken = kinds.map(|(signed, own)| {
        let file = inputs::alike(Alike {
            certificates,
            roots,
            signed,
            own,
            budget: 0,
        });
        let past_reading = difference(&left_over(file.clone()), &file, versions, lasting);
        ratios(&without_before(past_reading, &CLOSE), micros)
    });
    println!("| {certificates} | {roots} | {} |", taken.join(" | "));
}
