//! Names, key ids, serials and hosts that look like real ones, the ways in which they are written, and near misses.

use crate::draft::{Attribute, Name};
use crate::random::Random;

/// How much the records of a file carry.
#[derive(Clone, Copy, PartialEq)]
pub enum Dress {
    Bare,
    Plain,
    Rich,
}

const COUNTRY: &[u8] = &[0x55, 4, 6];
const PLACE: &[u8] = &[0x55, 4, 7];
const HOUSE: &[u8] = &[0x55, 4, 10];
const UNIT: &[u8] = &[0x55, 4, 11];
const COMMON: &[u8] = &[0x55, 4, 3];
const NUMBER: &[u8] = &[0x55, 4, 5];
const DOMAIN: &[u8] = &[9, 0x92, 0x26, 0x89, 0x93, 0xF2, 0x2C, 0x64, 1, 25];

const COUNTRIES: [&str; 6] = ["IT", "NL", "FR", "GB", "DE", "CH"];
const HOUSES: [&str; 8] = [
    "Bembo Roman",
    "Caslon Letter Works",
    "Didot & Fils",
    "Enschedé en Zonen",
    "Fournier le Jeune",
    "Garamond Punches",
    "Imprimerie Plantin",
    "Walbaum Giesserei",
];
const KINDS: [&str; 4] = ["Issuing CA", "Root@CA", "Policy CA [2]", "Cutting Desk"];
const DOMAINS: [&str; 5] = ["bembo.example", "a.com", "type.co.example", "x", "a..b"];
const LABELS: [&str; 7] = ["www", "cut", "x", "Orders", "a-1", "*", "Q@[Z"];

fn attribute(oid: &[u8], value: &str) -> Attribute {
    (oid.to_vec(), value.as_bytes().to_vec())
}

/// The name of one of the houses that a file knows. In a bare file house 0 has the name of no RDNs.
pub fn name_of(entity: usize, dress: Dress) -> Name {
    let house = HOUSES[entity % HOUSES.len()];
    let common = format!("{house} {} G{entity}", KINDS[entity % KINDS.len()]);
    let country = vec![attribute(COUNTRY, COUNTRIES[entity % COUNTRIES.len()])];
    match dress {
        Dress::Bare if entity == 0 => vec![],
        Dress::Bare => vec![vec![(vec![1], vec![b'A' + (entity % 26) as u8])]],
        Dress::Plain if entity % 2 == 0 => vec![
            country,
            vec![attribute(HOUSE, house)],
            vec![attribute(COMMON, &common)],
        ],
        Dress::Plain => vec![
            country,
            vec![attribute(HOUSE, house), attribute(COMMON, &common)],
        ],
        Dress::Rich => vec![
            country,
            vec![attribute(PLACE, "Via dei  Torchi 9")],
            vec![attribute(HOUSE, house), attribute(UNIT, "Matrices")],
            vec![attribute(DOMAIN, "example"), attribute(DOMAIN, "")],
            vec![
                attribute(COMMON, &common),
                attribute(NUMBER, &entity.to_string()),
                attribute(UNIT, "Key Desk"),
            ],
        ],
    }
}

/// The same name to `same_dn`, written in another way. In one of fifty an attribute may stand twice, in another's place, which is still the
/// same where it comes first and no longer where it comes second; one in a hundred is a near miss.
pub fn varied(random: &mut Random, name: &Name) -> Name {
    let mut name = name.clone();
    let wholly = random.chance(20);
    for (_, value) in name.iter_mut().flatten() {
        match random.below(12) {
            _ if wholly => *value = respelt(random, value),
            0 => flip_cases(random, value),
            1 => value.insert(0, b' '),
            2 => value.extend(b"  "),
            3 => *value = spaced(value),
            _ => {}
        }
    }
    for rdn in &mut name {
        if random.chance(30) {
            random.shuffle(rdn);
        }
    }
    if random.chance(2) {
        repeat(random, &mut name);
    }
    if random.chance(1) {
        miss(random, &mut name);
    }
    name
}

/// The issuer name and the subject name of a certificate that its own house issued: the same bytes, the same by normal form only, by another
/// order of attributes only or in this direction only; or not the same, by the direction or by a near miss.
pub fn renewed(random: &mut Random, name: &Name) -> (Name, Name) {
    let (mut issuer, mut subject) = (name.clone(), name.clone());
    match random.below(8) {
        0 => {}
        1 => {
            for (_, value) in subject.iter_mut().flatten() {
                *value = respelt(random, value);
            }
        }
        2 => subject.iter_mut().for_each(|rdn| rdn.reverse()),
        3 | 4 => repeat(random, &mut issuer),
        5 | 6 => repeat(random, &mut subject),
        _ => miss(random, &mut subject),
    }
    (issuer, subject)
}

/// An RDN for the issuer name and one for the subject name of a certificate. Every issuer's is the same as every subject's but for one's own,
/// whose issuer name then differs from its subject name, in this direction only or in both.
pub fn estranged(random: &mut Random, own: bool) -> [Vec<Attribute>; 2] {
    let [p, q] = ["Old Matrix", "New Matrix"].map(|value| attribute(UNIT, value));
    let twice = |one: &Attribute| vec![one.clone(), one.clone()];
    let mut both = vec![p.clone(), q.clone()];
    random.shuffle(&mut both);
    match own {
        true if random.chance(50) => [both, twice(&q)],
        true => [twice(&p), twice(&q)],
        false => [twice(&q), both],
    }
}

/// Puts an attribute of each RDN of several in any of their places.
fn repeat(random: &mut Random, name: &mut Name) {
    let several = name.iter_mut().filter(|rdn| rdn.len() > 1);
    for rdn in several {
        let again = rdn[random.below(rdn.len())].clone();
        let place = random.below(rdn.len());
        rdn[place] = again;
    }
}

fn flip_cases(random: &mut Random, value: &mut [u8]) {
    for byte in value {
        if byte.is_ascii_alphabetic() && random.chance(50) {
            *byte ^= 32;
        }
    }
}

fn spaced(value: &[u8]) -> Vec<u8> {
    let words: Vec<&[u8]> = value.split(|byte| *byte == b' ').collect();
    words.join(&b"   "[..])
}

/// The same words with other spaces between them and at both ends, and their letters in any case.
fn respelt(random: &mut Random, value: &[u8]) -> Vec<u8> {
    let words = value.split(|byte| *byte == b' ');
    let mut other = spaces(random, 0);
    for (at, word) in words.filter(|word| !word.is_empty()).enumerate() {
        if at > 0 {
            other.extend(spaces(random, 1));
        }
        other.extend(word);
    }
    other.extend(spaces(random, 0));
    flip_cases(random, &mut other);
    other
}

/// So many spaces, or up to two more.
fn spaces(random: &mut Random, least: usize) -> Vec<u8> {
    vec![b' '; random.within(least..=least + 2)]
}

/// Makes a name that is close to the given one and not the same; to that of no RDNs none is close.
fn miss(random: &mut Random, name: &mut Name) {
    if name.is_empty() {
        return;
    }
    let rdn = random.below(name.len());
    let (oid, value) = &mut name[rdn][0];
    match random.below(13) {
        0 => value.push(b'\t'),
        1 => value.retain(|byte| *byte != b' '),
        2 => value.push(0xE9),
        3 => flip_neighbours(value),
        4 => oid.push(0),
        5 => name[rdn].truncate(1),
        6 => name[rdn].push(attribute(UNIT, "")),
        7 => name.reverse(),
        8 => name.push(vec![attribute(UNIT, "")]),
        9 => value.insert(value.len() / 2, b' '),
        10 => tab(value),
        11 => without_last_word(value),
        _ => drop(name.pop()),
    }
}

/// A tab is no space.
fn tab(value: &mut [u8]) {
    let spaces = value.iter_mut().filter(|byte| **byte == b' ');
    spaces.for_each(|byte| *byte = b'\t');
}

/// The space before the last word then ends the value.
fn without_last_word(value: &mut Vec<u8>) {
    if let Some(space) = value.iter().rposition(|byte| *byte == b' ') {
        value.truncate(space + 1);
    }
}

/// The bytes beside A and Z have no other case.
fn flip_neighbours(value: &mut [u8]) {
    for byte in value {
        if matches!(*byte, b'@' | b'[' | b'`' | b'{') {
            *byte ^= 32;
        }
    }
}

pub fn key_of(entity: usize, renewed: bool, dress: Dress) -> Vec<u8> {
    let length = if dress == Dress::Bare { 1 } else { 20 };
    let mut key = Random::new("key", entity as u64).bytes(length..=length);
    key[0] ^= u8::from(renewed);
    key
}

pub fn serial_of(entity: usize, dress: Dress) -> Vec<u8> {
    let longest = if dress == Dress::Bare { 1 } else { 20 };
    Random::new("serial", entity as u64).bytes(1..=longest)
}

pub fn host(random: &mut Random) -> Vec<u8> {
    let (label, domain) = (random.pick(&LABELS), random.pick(&DOMAINS));
    match random.below(16) {
        0 | 1 => domain.into(),
        2 => format!("{label}.{label}.{domain}").into(),
        3 => format!(".{domain}").into(),
        4 => random.pick(&["*.", "*", ".", "*..", "*.*."]).into(),
        _ => format!("{label}.{domain}").into(),
    }
}

/// A DNS name that mostly matches the host.
pub fn pattern(random: &mut Random, host: &[u8]) -> Vec<u8> {
    let dot = host.iter().position(|byte| *byte == b'.').unwrap_or(0);
    let (label, rest) = host.split_at(dot);
    let mut pattern = match random.below(16) {
        0..=5 => host.to_vec(),
        6..=9 => [b"*", rest].concat(),
        10 => [b"*.", host].concat(),
        11 => [label, b"*", rest].concat(),
        12 => [b".", host].concat(),
        13 => [b"*.*", rest].concat(),
        14 => random.pick(&[&b"*."[..], b"*", b".", b"*.."]).to_vec(),
        _ => [host, b"."].concat(),
    };
    match random.below(10) {
        0..=2 => flip_cases(random, &mut pattern),
        3 => flip_neighbours(&mut pattern),
        _ => {}
    }
    pattern.truncate(253);
    if pattern.is_empty() {
        pattern.push(b'x');
    }
    pattern
}
