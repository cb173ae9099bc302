//! Every pair of short values of a few bytes. The library says of each whether they are the same in normal form, which it tells without
//! writing either form, and is held to the two forms that it writes itself and to those of the reference.

use crate::library::{normal_by_library, same_by_library};
use reference::text::normalise;

/// The bytes that a value is made of: a space, a letter in both cases, and another letter.
const BYTES: [u8; 4] = *b" aAb";

/// The longest value.
const LONGEST: usize = 5;

/// The most differences that are printed.
const SHOWN: u64 = 20;

/// How many pairs were told rightly, and how many not.
pub fn compare() -> (u64, u64) {
    let values = values();
    let own: Vec<Vec<u8>> = values
        .iter()
        .map(|value| normal_by_library(value))
        .collect();
    let other: Vec<Vec<u8>> = values.iter().map(|value| normalise(value)).collect();
    let (mut passed, mut failed) = (0, 0);
    for (at, a) in values.iter().enumerate() {
        for (bt, b) in values.iter().enumerate() {
            let library = same_by_library(a, b);
            let forms = u8::from(own[at] == own[bt]);
            let reference = u8::from(other[at] == other[bt]);
            if library == forms && library == reference {
                passed += 1;
                continue;
            }
            failed += 1;
            if failed <= SHOWN {
                show(a, b, library, forms, reference);
            }
        }
    }
    (passed, failed)
}

/// All of them, the shortest first.
fn values() -> Vec<Vec<u8>> {
    let mut all = vec![vec![]];
    let mut longest = all.clone();
    for _ in 0..LONGEST {
        let longer = |value: &Vec<u8>| BYTES.map(|byte| [&value[..], &[byte]].concat());
        longest = longest.iter().flat_map(longer).collect();
        all.extend_from_slice(&longest);
    }
    all
}

fn show(a: &[u8], b: &[u8], library: u8, forms: u8, reference: u8) {
    let (a, b) = (String::from_utf8_lossy(a), String::from_utf8_lossy(b));
    println!("DIFFERENCE '{a}' and '{b}'");
    println!("  library                 {library}");
    println!("  by its normal forms     {forms}");
    println!("  by the reference's      {reference}");
}
