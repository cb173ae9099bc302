//! Every two RDNs of up to four attributes out of three, as they stand and in normal form. The library says of each pair whether the first is
//! the same as the second and whether it lies under it, and is held to the rules as the paper words them and to the reference.

use crate::library::rdns_by_library;
use reference::card::Attribute;
use reference::names::same_rdn;

/// Two that are the same in normal form alone, and one with another OID.
const ATTRIBUTES: [Attribute; 3] = [
    Attribute {
        oid: b"a",
        value: b"x",
    },
    Attribute {
        oid: b"a",
        value: b" X",
    },
    Attribute {
        oid: b"b",
        value: b"x",
    },
];

/// The most attributes of an RDN.
const MOST: usize = 4;

/// The most differences that are printed.
const SHOWN: u64 = 20;

/// Places in the list of attributes.
type Rdn = Vec<usize>;

/// How many pairs were told rightly, each with both flags, and how many not.
pub fn compare() -> (u64, u64) {
    let rdns = rdns();
    let (mut passed, mut failed) = (0, 0);
    for a in &rdns {
        for b in &rdns {
            for normalise in [false, true] {
                let library = rdns_by_library(&encoded(a), &encoded(b), normalise);
                let paper = by_paper(a, b, normalise);
                let reference = same_rdn(&attributes(a), &attributes(b));
                if library == paper && (!normalise || library.0 == u8::from(reference)) {
                    passed += 1;
                    continue;
                }
                failed += 1;
                if failed <= SHOWN {
                    println!("DIFFERENCE {a:?} and {b:?}, normalise {normalise}: same and under");
                    println!("  library    {library:?}");
                    println!("  paper      {paper:?}");
                    println!("  reference  {reference}, normalised");
                }
            }
        }
    }
    (passed, failed)
}

/// All of them, the shortest first.
fn rdns() -> Vec<Rdn> {
    let mut all = vec![];
    let mut longest: Vec<Rdn> = vec![vec![]];
    for _ in 0..MOST {
        let longer = |rdn: &Rdn| [0, 1, 2].map(|next| [&rdn[..], &[next]].concat());
        longest = longest.iter().flat_map(longer).collect();
        all.extend_from_slice(&longest);
    }
    all
}

fn attributes(rdn: &Rdn) -> Vec<Attribute<'static>> {
    let attribute = |at: &usize| {
        let Attribute { oid, value } = ATTRIBUTES[*at];
        Attribute { oid, value }
    };
    rdn.iter().map(attribute).collect()
}

fn encoded(rdn: &Rdn) -> Vec<u8> {
    let mut bytes = vec![rdn.len() as u8];
    for Attribute { oid, value } in attributes(rdn) {
        for string in [oid, value] {
            bytes.push(string.len() as u8);
            bytes.extend(string);
        }
    }
    bytes
}

/// The same: as many, each of the first with a match in the second. Under: no more, and likewise.
fn by_paper(a: &Rdn, b: &Rdn, normalise: bool) -> (u8, u8) {
    let same = |x: usize, y: usize| x == y || (normalise && x < 2 && y < 2);
    let matched = a.iter().all(|x| b.iter().any(|y| same(*x, *y)));
    let as_many = a.len() == b.len();
    let no_more = a.len() <= b.len();
    (u8::from(as_many && matched), u8::from(no_more && matched))
}
