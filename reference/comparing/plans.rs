//! Who is who in a file: which house each certificate names as its subject and as its issuer, and which verdicts hold.

use crate::random::Random;
use reference::card::{MOST_CERTIFICATES, MOST_ROOTS};

/// A certificate by the numbers of the houses that it names.
#[derive(Clone, Copy)]
pub struct Who {
    pub subject: usize,
    pub issuer: usize,
}

impl Who {
    /// Issued by its own house, as a certificate that renews another one.
    pub fn self_issued(self) -> bool {
        self.subject == self.issuer
    }
}

pub struct Plan {
    pub roots: Vec<Who>,
    pub bundle: Vec<Who>,
    /// The places of a chain that holds whatever the verdicts' luck, the leaf first, and its root.
    pub chain: Vec<usize>,
    pub root: Option<usize>,
    /// How many in a hundred verdicts are 1: of roots and of the bundle where names fit, and of all where they don't.
    pub root_hit: usize,
    pub hit: usize,
    pub noise: usize,
    /// What every root says of its path length, so that a short chain is found behind many longer ones.
    pub root_path_length: Option<u8>,
}

pub fn plan(random: &mut Random) -> Plan {
    match random.below(100) {
        0..=42 => chain(random),
        43..=57 => renewals(random),
        58..=71 => web(random),
        72..=88 => complete(random),
        _ => layers(random),
    }
}

fn bundle_size(random: &mut Random) -> usize {
    match random.below(100) {
        0..=9 => 1,
        10..=69 => random.within(2..=6),
        70..=85 => random.within(7..=16),
        86..=95 => random.within(17..=MOST_CERTIFICATES),
        _ => MOST_CERTIFICATES,
    }
}

fn root_count(random: &mut Random) -> usize {
    match random.below(100) {
        0..=4 => 0,
        5..=44 => 1,
        45..=74 => random.within(2..=4),
        75..=85 => random.within(5..=32),
        86..=95 => random.within(33..=MOST_ROOTS),
        _ => MOST_ROOTS,
    }
}

fn shuffled(random: &mut Random, mut places: Vec<usize>) -> Vec<usize> {
    for i in (1..places.len()).rev() {
        places.swap(i, random.within(0..=i));
    }
    places
}

/// One chain through some of the bundle to a root, among certificates that cross it, repeat its
/// houses or have nothing to do with it.
fn chain(random: &mut Random) -> Plan {
    let n = bundle_size(random);
    let part = random.within(1..=n);
    let length = random.pick(&[n, part, part]);
    let links = links(random, length, 20);
    linked(random, n, links)
}

/// The same with few others, and most between leaf and root self-issued. Few verdicts beside the chain's hold, so that there is seldom a way
/// round these.
fn renewals(random: &mut Random) -> Plan {
    let length = random.within(3..=7);
    let n = length + random.below(3);
    let links = links(random, length, 60);
    Plan {
        hit: random.pick(&[0, 0, 60]),
        ..linked(random, n, links)
    }
}

/// A chain of these certificates, the leaf first, among n, and roots of which one issued the last.
fn linked(random: &mut Random, n: usize, links: Vec<Who>) -> Plan {
    let others = shuffled(random, (1..n).collect());
    let places = [0].into_iter().chain(others);
    let chain: Vec<usize> = places.take(links.len()).collect();
    let highest = links[links.len() - 1].issuer;
    let mut bundle = strays(random, n, highest);
    for (place, link) in chain.iter().zip(links) {
        bundle[*place] = link;
    }
    let mut roots = tops(random, highest);
    let root = random.below(roots.len());
    roots[root] = top(highest);
    Plan {
        roots,
        bundle,
        chain,
        root: Some(root),
        root_hit: random.pick(&[60, 90, 100]),
        hit: random.pick(&[60, 90, 100]),
        noise: random.pick(&[0, 5, 30]),
        root_path_length: None,
    }
}

/// A chain's certificates from the leaf up, each issued by the next house; above the leaf so many in a hundred by their own.
fn links(random: &mut Random, length: usize, renewals: usize) -> Vec<Who> {
    let mut subject = 0;
    let mut link = |_| {
        let renews = subject > 0 && random.chance(renewals);
        let issuer = if renews { subject } else { subject + 1 };
        let link = Who { subject, issuer };
        subject = issuer;
        link
    };
    (0..length).map(&mut link).collect()
}

/// n certificates beside a chain of so many houses: some repeat or cross it, the others have nothing to do with it.
fn strays(random: &mut Random, n: usize, length: usize) -> Vec<Who> {
    let stray = |place: usize| Who {
        subject: 100 + place,
        issuer: 200 + place,
    };
    let mut bundle: Vec<Who> = (0..n).map(stray).collect();
    for who in bundle.iter_mut().skip(1) {
        if random.chance(60) {
            let subject = random.within(1..=length);
            let issuer = random.within(subject..=length);
            *who = Who { subject, issuer };
        }
    }
    bundle
}

/// Roots of which some are of the chain's top house, and some of a house below it.
fn tops(random: &mut Random, length: usize) -> Vec<Who> {
    let count = root_count(random).max(1);
    let mut roots: Vec<Who> = (0..count).map(|place| top(300 + place)).collect();
    for root in &mut roots {
        match random.below(10) {
            0..=2 => *root = top(length),
            3 => *root = top(random.within(1..=length)),
            _ => {}
        }
    }
    roots
}

fn top(house: usize) -> Who {
    Who {
        subject: house,
        issuer: house,
    }
}

/// A few houses that issue for each other at random.
fn web(random: &mut Random) -> Plan {
    let houses = random.within(1..=4);
    let mut who = |count: usize| {
        let mut one = |_| Who {
            subject: random.below(houses),
            issuer: random.below(houses),
        };
        (0..count).map(&mut one).collect::<Vec<Who>>()
    };
    let (n, r) = (who(MOST_CERTIFICATES), who(MOST_ROOTS));
    let (bundle, roots) = (bundle_size(random), root_count(random));
    Plan {
        roots: r[..roots].to_vec(),
        bundle: n[..bundle].to_vec(),
        chain: vec![0],
        root: None,
        root_hit: random.within(10..=100),
        hit: random.within(20..=100),
        noise: random.below(30),
        root_path_length: random.chance(30).then_some(random.below(4) as u8),
    }
}

/// All issue all.
fn complete(random: &mut Random) -> Plan {
    let n = match random.below(10) {
        0..=7 => random.within(2..=7),
        8 => random.within(8..=16),
        _ => random.within(17..=MOST_CERTIFICATES),
    };
    let house = Who {
        subject: 0,
        issuer: 0,
    };
    let elsewhere = Who {
        subject: 9,
        issuer: 9,
    };
    let roots = match random.below(10) {
        0..=2 => vec![],
        3 => vec![elsewhere; random.within(1..=3)],
        _ => vec![house; random.within(1..=3)],
    };
    Plan {
        roots,
        bundle: vec![house; n],
        chain: vec![0],
        root: None,
        root_hit: random.pick(&[15, 30, 60]),
        hit: random.pick(&[100, 100, 60]),
        noise: 0,
        root_path_length: random.chance(80).then_some(random.pick(&[1, 1, 2, 3])),
    }
}

/// Rows of alike certificates, each row issued by the whole row above it, and some by their own row; the roots stand above the last row.
fn layers(random: &mut Random) -> Plan {
    let mut bundle = vec![Who {
        subject: 0,
        issuer: 1,
    }];
    let deep = random.within(1..=9);
    for layer in 1..=deep {
        for _ in 0..random.within(1..=3) {
            let issuer = if random.chance(20) { layer } else { layer + 1 };
            let subject = layer;
            bundle.push(Who { subject, issuer });
        }
    }
    bundle.truncate(MOST_CERTIFICATES);
    let issuers = bundle.iter().map(|who| who.issuer);
    let top = issuers.fold(0, usize::max);
    let order = shuffled(random, (1..bundle.len()).collect());
    let rest: Vec<Who> = order.iter().map(|place| bundle[*place]).collect();
    bundle.truncate(1);
    bundle.extend(rest);
    let root = Who {
        subject: top,
        issuer: top,
    };
    Plan {
        roots: vec![root; random.within(1..=4)],
        bundle,
        chain: vec![0],
        root: None,
        root_hit: random.pick(&[15, 50, 100]),
        hit: random.pick(&[80, 100]),
        noise: random.pick(&[0, 10]),
        root_path_length: None,
    }
}
