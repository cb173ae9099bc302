//! The card files that are timed.

use crate::cards::{Card, Certificate, Name};

const NOW: u64 = 1_700_000_000;
const YEAR: u64 = 31_536_000;
const COUNTRY: &[u8] = &[0x55, 4, 6];
const ORGANISATION: &[u8] = &[0x55, 4, 10];
const UNIT: &[u8] = &[0x55, 4, 11];
const COMMON: &[u8] = &[0x55, 4, 3];
/// The host that the leaf is for.
pub const HOST: &str = "www.letterfoundry.example";
/// sha256WithRSAEncryption with its null parameters, as in a certificate.
const ALGORITHM: [u8; 13] = [6, 9, 0x2A, 0x86, 0x48, 0x86, 0xF7, 0x0D, 1, 1, 11, 5, 0];

const HOUSES: [&str; 6] = [
    "Fonderie Olive Certification SA",
    "Type Trust Services Ltd",
    "DigiMatrix Inc",
    "Bauersche Giesserei GmbH",
    "Lanston Monotype Security LLC",
    "Amsterdam Letter Authority B.V.",
];

fn ca_name(house: usize, common: &str) -> Name {
    let name = HOUSES[house % HOUSES.len()];
    vec![
        vec![(COUNTRY, "NL".into())],
        vec![(ORGANISATION, name.into())],
        vec![(UNIT, format!("{name} Certification Services"))],
        vec![(COMMON, common.into())],
    ]
}

/// So many bytes that no other seed has.
fn bytes(seed: usize, count: usize) -> Vec<u8> {
    let mut state = seed as u64 + 1;
    let mut next = || {
        state = state
            .wrapping_mul(6_364_136_223_846_793_005)
            .wrapping_add(1_442_695_040_888_963_407);
        (state >> 56) as u8
    };
    (0..count).map(|_| next()).collect()
}

/// A certificate of an authority; `key` tells the keys apart.
fn authority(subject: Name, key: usize, issuer: Name, issuer_key: usize) -> Certificate {
    Certificate {
        version: 2,
        not_before: NOW - 2 * YEAR,
        not_after: NOW + 8 * YEAR,
        serial: bytes(1000 + key, 16),
        algorithm: ALGORITHM.into(),
        issuer,
        subject,
        authority_key_id: bytes(issuer_key, 20),
        subject_key_id: bytes(key, 20),
        authority: true,
        ..Certificate::default()
    }
}

/// A host's own certificate, for `www` and a few more names below its domain.
fn leaf(issuer: Name, issuer_key: usize) -> Certificate {
    let names = ["www", "orders", "catalogue", "proofs", "*"];
    Certificate {
        serial: bytes(2000, 16),
        subject: vec![vec![(COMMON, HOST.into())]],
        issuer,
        authority_key_id: bytes(issuer_key, 20),
        subject_key_id: bytes(3000, 20),
        authority: false,
        not_before: NOW - YEAR / 8,
        not_after: NOW + YEAR / 8,
        usages: vec![0, 1],
        dns_names: names
            .map(|name| format!("{name}.letterfoundry.example"))
            .into(),
        ..authority(vec![], 0, vec![], 0)
    }
}

fn root_name(root: usize) -> Name {
    ca_name(root, &format!("Global Root CA G{root}"))
}

/// A root signs itself; its key is its place.
fn root(place: usize) -> Certificate {
    authority(root_name(place), place, root_name(place), place)
}

/// The names and keys of the authorities below the roots.
fn between_name(at: usize) -> Name {
    ca_name(at, &format!("TLS Issuing CA {at} 2024"))
}

fn between_key(at: usize) -> usize {
    100 + at
}

/// The same name by normal form only: the case of every letter is turned, and for each space there are two.
fn respelt(mut name: Name) -> Name {
    for (_, value) in name.iter_mut().flatten() {
        *value = other_case(value).replace(' ', "  ");
    }
    name
}

fn other_case(value: &str) -> String {
    let turn = |letter: char| match letter.is_ascii_uppercase() {
        true => letter.to_ascii_lowercase(),
        false => letter.to_ascii_uppercase(),
    };
    value.chars().map(turn).collect()
}

/// The same attributes, two in an RDN.
fn paired(name: Name) -> Name {
    name.chunks(2).map(|pair| pair.concat()).collect()
}

/// The same name by another order in each RDN.
fn turned(mut name: Name) -> Name {
    name.iter_mut().for_each(|rdn| rdn.reverse());
    name
}

/// How a certificate writes its own name beside its issuer's.
#[derive(Clone, Copy)]
pub enum Own {
    Alike,
    Respelt,
    Turned,
}

/// What a file is made of in which all certificates have one name, and so are all compared where signatures hold.
#[derive(Clone, Copy)]
pub struct Alike {
    pub certificates: usize,
    pub roots: usize,
    pub signed: bool,
    pub own: Own,
    pub budget: u64,
}

pub fn alike(wanted: Alike) -> Vec<u8> {
    let name = between_name(0);
    let (own, issuer) = match wanted.own {
        Own::Alike => (name.clone(), name),
        Own::Respelt => (respelt(name.clone()), name),
        Own::Turned => (turned(paired(name.clone())), paired(name)),
    };
    let each = || authority(own.clone(), 100, issuer.clone(), 100);
    let card = Card {
        roots: (0..wanted.roots).map(|_| each()).collect(),
        bundle: (0..wanted.certificates).map(|_| each()).collect(),
        signed: Box::new(move |_, _| wanted.signed),
        now: NOW,
        budget: wanted.budget,
        host: String::new(),
    };
    card.file()
}

/// So many certificates that all issue each other, and no root: every simple path is taken, and the file is refused.
pub fn complete(certificates: usize, budget: u64) -> Vec<u8> {
    alike(Alike {
        certificates,
        roots: 0,
        signed: true,
        own: Own::Alike,
        budget,
    })
}

/// The issuer name and the subject name of one of so many certificates that all issue each other, some of which are not self-issued and have
/// an RDN of their own for it. An RDN of two attributes is the same as another where both are among the other's: (q, q) is the same as (p, q)
/// and as (q, q), and (p, p) as (p, q) but not as (q, q). So each issuer name is the same as each subject name that has another own RDN or none.
fn mutual_names(certificates: usize, own: Option<usize>) -> (Name, Name) {
    let name = |mine: [&str; 2], theirs: [&str; 2]| -> Name {
        let pair = |rdn| if own == Some(rdn) { mine } else { theirs };
        let rdn = |rdn| pair(rdn).map(|value| (COMMON, value.into())).into();
        (0..certificates).map(rdn).collect()
    };
    (name(["p", "p"], ["q", "q"]), name(["q", "q"], ["p", "q"]))
}

/// As many that all issue each other, every second one self-issued, and 32 roots that issued the others but the first and let none that counts
/// stand below them. Each path is walked, and for each that ends at one of theirs the roots are tried in vain, since that one counts.
pub fn barred(certificates: usize, budget: u64) -> Vec<u8> {
    const ROOTS: usize = 32;
    let counts = |place: usize| place % 2 == 0;
    let each = |own| {
        let (issuer, subject) = mutual_names(certificates, own);
        authority(subject, 100, issuer, 100)
    };
    let root = || Certificate {
        path_length: Some(0),
        ..each(None)
    };
    let card = Card {
        roots: (0..ROOTS).map(|_| root()).collect(),
        bundle: (0..certificates)
            .map(|place| each(counts(place).then_some(place)))
            .collect(),
        signed: Box::new(move |issuer, subject| {
            issuer >= ROOTS || (subject > 0 && counts(subject))
        }),
        now: NOW,
        budget,
        host: String::new(),
    };
    card.file()
}

/// What an ordinary file differs in.
#[derive(Clone, Copy)]
pub struct Ordinary {
    pub certificates: usize,
    pub roots: usize,
    pub host: &'static str,
}

/// A leaf, the authorities above it up to a root in the middle of the list, and, past three certificates, others that a host sends
/// along: a second certificate of the leaf's issuer, from a root that is not there, and authorities of other chains.
pub fn ordinary(wanted: Ordinary) -> Card {
    let top = wanted.roots / 2;
    let chain = wanted.certificates.min(3);
    let mut bundle = vec![];
    for at in 0..chain {
        let (issuer, key) = if at + 1 == chain {
            (root_name(top), top)
        } else {
            (between_name(at + 1), between_key(at + 1))
        };
        bundle.push(match at {
            0 => leaf(issuer, key),
            _ => authority(between_name(at), between_key(at), issuer, key),
        });
    }
    for at in chain..wanted.certificates {
        let of = if at == 3 { 1 } else { at };
        let elsewhere = 90 + at;
        bundle.push(authority(
            between_name(of),
            between_key(of),
            root_name(elsewhere),
            elsewhere,
        ));
    }
    signed_by_keys(wanted, bundle)
}

/// A leaf, the two certificates by which its issuer twice renewed its key under its own name, that issuer's first one, and a root. Each path
/// length is the least that lets this chain stand, since the two are not counted.
pub fn renewed(roots: usize) -> Card {
    let wanted = Ordinary {
        certificates: 4,
        roots,
        host: HOST,
    };
    let top = roots / 2;
    let issuer = |key, above: Name, above_key| Certificate {
        path_length: Some(0),
        ..authority(between_name(1), key, above, above_key)
    };
    let key = between_key;
    let mut card = signed_by_keys(
        wanted,
        vec![
            leaf(between_name(1), key(3)),
            issuer(key(3), between_name(1), key(2)),
            issuer(key(2), between_name(1), key(1)),
            issuer(key(1), root_name(top), top),
        ],
    );
    card.roots[top].path_length = Some(1);
    card
}

/// A signature holds where the issuer has the key that the subject names.
fn signed_by_keys(wanted: Ordinary, bundle: Vec<Certificate>) -> Card {
    let roots: Vec<Certificate> = (0..wanted.roots).map(root).collect();
    let issuers = roots.iter().chain(&bundle);
    let keys: Vec<Vec<u8>> = issuers.map(|each| each.subject_key_id.clone()).collect();
    let named: Vec<Vec<u8>> = bundle
        .iter()
        .map(|each| each.authority_key_id.clone())
        .collect();
    Card {
        signed: Box::new(move |issuer, subject| keys[issuer] == named[subject]),
        roots,
        bundle,
        now: NOW,
        budget: 1000,
        host: wanted.host.into(),
    }
}

/// A file of about so many bytes, at least a thousand: a leaf, and roots that are filled up with DNS names.
pub fn long(bytes: usize) -> Vec<u8> {
    let wanted = Ordinary {
        certificates: 1,
        roots: (bytes / 1000).min(32),
        host: HOST,
    };
    let mut card = ordinary(wanted);
    let left = bytes.saturating_sub(card.file().len()) / wanted.roots;
    let names = left.div_ceil(60).min(32);
    for root in &mut card.roots {
        root.dns_names = vec!["n".repeat(left / names - 1); names];
    }
    card.file()
}
