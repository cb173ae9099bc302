//! `reference`: reads a card file from standard input and prints the terminal's line.
//! `reference paused K`: the line of the paused run, then a line for each waiting path, the bottom one first.
//! `reference waiting CARD...`: the same of the card files named, each for k = 0, 1, 2, one less than the number of simple paths
//! and that number, where it is bearable, with K:NAME before each run's line. It is how the paused runs of crates/replay were recorded.

use reference::{paused, reader, room, search, terminal};
use std::collections::BTreeSet;
use std::io::{self, Read};
use std::path::Path;
use std::process::ExitCode;

/// A file with more simple paths than this is not walked to its end.
const BEARABLE: u64 = 10_000_000;

const USAGE: &str = "usage: reference [paused K] < card, or reference waiting CARD...";

fn main() -> ExitCode {
    let words: Vec<String> = std::env::args().skip(1).collect();
    let words: Vec<&str> = words.iter().map(String::as_str).collect();
    match words[..] {
        [] => answer(|file| println!("{}", terminal(file))),
        ["paused", k] => match k.parse() {
            Ok(k) => answer(|file| print_paused(file, k)),
            Err(_) => fail(USAGE),
        },
        ["waiting", ref cards @ ..] if !cards.is_empty() => record(cards),
        _ => fail(USAGE),
    }
}

fn record(cards: &[&str]) -> ExitCode {
    for card in cards {
        match std::fs::read(card) {
            Ok(file) => print_waiting(Path::new(card), &file),
            Err(error) => return fail(&format!("reference: {card}: {error}")),
        }
    }
    ExitCode::SUCCESS
}

/// A card whose file can't be read, or with no certificates, has no paths, and every run of it says so.
fn print_waiting(card: &Path, file: &[u8]) {
    let name = card.file_name().unwrap_or_default().to_string_lossy();
    let paths = match reader::read(file) {
        Ok(read) if !read.bundle.is_empty() => search::paths_within(&read, BEARABLE),
        _ => Some(0),
    };
    let mut pauses = BTreeSet::from([0, 1, 2]);
    pauses.extend(paths.iter().flat_map(|n| [n.saturating_sub(1), *n]));
    for k in pauses {
        print!("{k}:{name} ");
        print_paused(file, k);
    }
}

fn answer(print: impl Fn(&[u8])) -> ExitCode {
    let mut file = Vec::new();
    match io::stdin().read_to_end(&mut file) {
        Ok(_) => print(&file),
        Err(error) => return fail(&format!("reference: standard input: {error}")),
    }
    ExitCode::SUCCESS
}

fn print_paused(file: &[u8], k: u64) {
    let answer = paused(file, k, &room::ENOUGH);
    println!("{}", answer.reply);
    for path in room::shown(&answer.room) {
        let places: Vec<String> = path.iter().map(u8::to_string).collect();
        println!("WAITS {}", places.join(" "));
    }
}

fn fail(message: &str) -> ExitCode {
    eprintln!("{message}");
    ExitCode::from(2)
}
