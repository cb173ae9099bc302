//! Holds the library and the terminal to the reference, on files of its own making, on damaged samples or on pairs of values or RDNs.
//!
//! compare OUT SEED COUNT [-- TERMINAL..]   OUT: where files that are answered differently are kept
//! compare OUT damage CARD..
//! compare OUT values
//! compare OUT rdns
//! compare OUT make SEED NUMBER             writes that file of the seed to standard output

mod draft;
mod faults;
mod files;
mod houses;
mod library;
mod plans;
mod random;
mod rdns;
mod tally;
mod terminal;
mod values;
mod watch;
mod wording;

use files::{bounded, make, questions, Call, Lent, Made, Question};
use library::{by_library, by_reference, room_byte, task_by_library, task_by_reference, Said};
use random::Random;
use reference::room::SLOT;
use std::fs;
use std::io::{self, Write};
use std::path::{Path, PathBuf};
use std::process::ExitCode;
use tally::Tally;
use terminal::Terminal;
use watch::Watch;

/// How many files of a run go through the terminal too.
const TERMINAL_FILES: u64 = 300;

struct Run {
    out: PathBuf,
    tally: Tally,
    watch: Watch,
    passed: u64,
    failed: u64,
}

fn main() -> ExitCode {
    let words: Vec<String> = std::env::args().skip(1).collect();
    let (own, program) = match words.iter().position(|word| word == "--") {
        Some(at) => (&words[..at], &words[at + 1..]),
        None => (&words[..], &[][..]),
    };
    let own: Vec<&str> = own.iter().map(String::as_str).collect();
    let answer = match own[..] {
        [_, "make", seed, number] => write_file(seed, number),
        [out, "damage", ref cards @ ..] => damage_run(Run::new(out), cards),
        [_, "values"] => Ok(pairs_run(values::compare)),
        [_, "rdns"] => Ok(pairs_run(rdns::compare)),
        [out, seed, count] => seed_run(Run::new(out), seed, count, program),
        _ => Err("usage: compare SEED COUNT | damage | values | rdns | make SEED NUMBER".into()),
    };
    answer.unwrap_or_else(|message| {
        eprintln!("compare: {message}");
        ExitCode::from(2)
    })
}

fn number(word: &str) -> Result<u64, String> {
    word.parse().map_err(|_| format!("'{word}' is no number"))
}

fn write_file(seed: &str, of: &str) -> Result<ExitCode, String> {
    let file = make(&mut Random::new(seed, number(of)?));
    let written = io::stdout().write_all(&file.bytes);
    written.map_err(|error| error.to_string())?;
    Ok(ExitCode::SUCCESS)
}

fn seed_run(mut run: Run, seed: &str, count: &str, program: &[String]) -> Result<ExitCode, String> {
    let count = number(count)?;
    let terminal = Terminal {
        words: program.to_vec(),
        scratch: run.out.join("terminal.card"),
    };
    let stride = count.div_ceil(TERMINAL_FILES).max(1);
    for of in 0..count {
        let mut random = Random::new(seed, of);
        let file = make(&mut random);
        let questions = questions(&mut random, &file);
        let title = format!("seed {seed} file {of}");
        let mut same = run.compare(&title, &file, &questions);
        if of % stride == 0 && !program.is_empty() {
            same &= run.compare_line(&title, &file, &terminal, of / stride % 2 == 0);
        }
        run.count(same);
    }
    Ok(run.end())
}

fn damage_run(mut run: Run, cards: &[&str]) -> Result<ExitCode, String> {
    for card in cards {
        let whole = fs::read(card).map_err(|error| format!("{card}: {error}"))?;
        let name = Path::new(card).file_name().unwrap_or_default();
        let name = name.to_string_lossy();
        for (what, bytes) in damaged(&whole) {
            let title = format!("{name} {what}");
            let mut random = Random::new(&title, 0);
            let file = bounded(bytes, 10_000);
            let questions = questions(&mut random, &file);
            let same = run.compare(&title, &file, &questions);
            run.count(same);
        }
    }
    Ok(run.end())
}

fn pairs_run(compare: fn() -> (u64, u64)) -> ExitCode {
    let (passed, failed) = compare();
    ended(passed, failed)
}

/// The run's last line, and its exit status.
fn ended(passed: u64, failed: u64) -> ExitCode {
    println!("{passed} passed, {failed} failed");
    ExitCode::from(u8::from(failed > 0))
}

/// Every truncation, and each byte set to 0, to 255, one more and one less.
fn damaged(whole: &[u8]) -> Vec<(String, Vec<u8>)> {
    let mut all = Vec::new();
    for (at, byte) in whole.iter().enumerate() {
        all.push((format!("cut to {at}"), whole[..at].to_vec()));
        for set in [0, 255, byte.wrapping_add(1), byte.wrapping_sub(1)] {
            let mut changed = whole.to_vec();
            changed[at] = set;
            all.push((format!("byte {at} set to {set}"), changed));
        }
    }
    all
}

impl Run {
    fn new(out: &str) -> Run {
        Run {
            out: out.into(),
            tally: Tally::new(),
            watch: Watch::start(),
            passed: 0,
            failed: 0,
        }
    }

    fn count(&mut self, same: bool) {
        match same {
            true => self.passed += 1,
            false => self.failed += 1,
        }
    }

    fn end(self) -> ExitCode {
        self.watch.rest();
        print!("{}", self.tally);
        ended(self.passed, self.failed)
    }

    /// A file that gets no answer is a difference, and the last one of the run.
    fn begin(&self, title: &str) {
        let (passed, failed) = (self.passed, self.failed + 1);
        let counts = format!("{passed} passed, {failed} failed");
        let late = format!("DIFFERENCE {title}: no answer in a minute\n{counts}");
        self.watch.begin(late);
    }

    /// Asks both what the file asks, and puts each question to both; says whether all their answers are the same.
    fn compare(&mut self, title: &str, file: &Made, questions: &[Question]) -> bool {
        self.tally.file(file.bytes.len());
        self.begin(title);
        let mut same = self.compare_task(title, &file.bytes);
        for question in questions {
            let before = file.bytes.clone();
            let library = by_library(&file.bytes, question);
            let reference = by_reference(&file.bytes, question);
            self.tally.answered(file, question, &reference);
            if library != reference || file.bytes != before {
                same = false;
                self.show(title, &before, &called(question));
                show_both(question, &library, &reference);
            }
        }
        same
    }

    fn compare_task(&mut self, title: &str, bytes: &[u8]) -> bool {
        let library = task_by_library(bytes);
        let reference = task_by_reference(bytes);
        self.tally.task(reference.number);
        let same = library == reference;
        if !same {
            self.show(title, bytes, "task");
            println!("  library    {library:?}");
            println!("  reference  {reference:?}");
        }
        same
    }

    /// The same for the program's line; a program that can't be run or fails is a difference too.
    fn compare_line(
        &mut self,
        title: &str,
        file: &Made,
        terminal: &Terminal,
        from_pipe: bool,
    ) -> bool {
        let reply = reference::terminal(&file.bytes);
        self.tally.line(reply.number());
        let expected = format!("{reply}\n");
        let wrote = terminal.line(&file.bytes, from_pipe);
        let same = wrote.as_ref() == Ok(&expected);
        if !same {
            self.show(title, &file.bytes, "terminal");
            println!("  terminal   {wrote:?}");
            println!("  reference  {expected:?}");
        }
        same
    }

    /// Says which file is answered differently, and keeps it.
    fn show(&self, title: &str, bytes: &[u8], call: &str) {
        let plain = |c: char| {
            if c.is_ascii_alphanumeric() || c == '.' {
                c
            } else {
                '-'
            }
        };
        let name: String = title.chars().map(plain).collect();
        let kept = self.out.join(name + ".card");
        let kept = match fs::write(&kept, bytes) {
            Ok(()) => format!("kept as {}", kept.display()),
            Err(error) => format!("not kept: {}: {error}", kept.display()),
        };
        let head = bytes.iter().take(40);
        let head: Vec<String> = head.map(|byte| format!("{byte:02X}")).collect();
        println!("DIFFERENCE {title}: {call}");
        println!("  file       {} bytes, {kept}", bytes.len());
        println!("             {}", head.join(" "));
    }
}

fn called(question: &Question) -> String {
    let lent = match &question.lent {
        Lent::Room(room) => format!("room of {} bytes", room.len()),
        Lent::Records(records) => format!("{} records", records.len()),
    };
    match question.call {
        Call::Search => format!("search, {lent}"),
        Call::Paused(k) => format!("paused at {k}, {lent}"),
    }
}

/// A byte of the room, or of which record it is one.
fn spot(lent: &Lent, byte: isize) -> String {
    let slot = SLOT as isize;
    match lent {
        Lent::Room(_) => format!("byte {byte}"),
        Lent::Records(_) => format!(
            "record {}, byte {}",
            byte.div_euclid(slot),
            byte.rem_euclid(slot)
        ),
    }
}

fn show_both(question: &Question, library: &Said, reference: &Said) {
    println!("  library    {:?}", library.answer);
    println!("  reference  {:?}", reference.answer);
    let both = library.room.iter().zip(&reference.room);
    if let Some((place, (ours, other))) = both.enumerate().find(|(_, (a, b))| a != b) {
        let place = spot(&question.lent, room_byte(place));
        println!("  lent       {place}: library {ours}, reference {other}");
    }
}
