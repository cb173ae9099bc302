//! `bench [SECONDS]`: times the proved library beside other versions of the same search, so many seconds a row, and prints tables.
//! `bench stack`: says how much stack the library's searches take.

mod answer;
mod cards;
mod clock;
mod depths;
mod inputs;
mod lean;
mod library;
mod ordinary;
mod packed;
mod question;
mod reader;
mod seats;
mod stack;
mod tables;
mod tuned;
mod versions;

use std::time::Duration;

fn main() {
    let word = std::env::args().nth(1);
    if word.as_deref() == Some("stack") {
        return stack::tell();
    }
    let seconds = match word.map(|word| word.parse()) {
        None => 2.0,
        Some(Ok(seconds)) => seconds,
        Some(Err(_)) => {
            eprintln!("usage: bench [SECONDS | stack]");
            std::process::exit(2);
        }
    };
    time(Duration::from_secs_f64(seconds));
}

fn time(lasting: Duration) {
    println!(
        "Whole answers: the time of {}, and its ratio to the others\n",
        versions::LIBRARY.name
    );
    tables::beside(lasting);
    println!("\nTime a step\n");
    tables::steps(lasting);
    println!("\nTime to read\n");
    tables::reading(lasting);
    println!("\nTime to fill the table of who issued whom and to judge each certificate\n");
    tables::issuing(lasting);
}
