//! What a card asks of the search, worked out once: who issued whom as rows of bits, and what each certificate may stand for.

use crate::reader::{Card, Record};
use reference::card::{MOST_CERTIFICATES, MOST_ROOTS};

pub struct Question {
    pub size: usize,
    pub budget: u64,
    /// For each place the places of the bundle that issued it.
    pub issuers: [u32; MOST_CERTIFICATES],
    /// For each place the roots that issued it and may stand above some path.
    pub roots: [u64; MOST_CERTIFICATES],
    /// The places that may stand between leaf and root, where their path length allows.
    pub between: u32,
    /// Of those the ones that path lengths count: they are not self-issued. The leaf never counts.
    pub counted: u32,
    /// How many certificates that count each place, and each root, lets stand between it and the leaf.
    pub place_limits: [u8; MOST_CERTIFICATES],
    pub root_limits: [u8; MOST_ROOTS],
}

impl Question {
    pub fn of(card: &Card) -> Question {
        let (roots, bundle) = (card.roots.all(), card.bundle.all());
        let mut question = Question {
            size: bundle.len(),
            budget: card.budget,
            issuers: [0; MOST_CERTIFICATES],
            roots: [0; MOST_CERTIFICATES],
            between: 0,
            counted: 0,
            place_limits: [0; MOST_CERTIFICATES],
            root_limits: [0; MOST_ROOTS],
        };
        question.judge(card);
        let mut rows = card.verdicts.chunks_exact(bundle.len());
        for (place, root) in roots.iter().enumerate() {
            let row = rows.next().unwrap_or(&[]);
            fill(&mut question.roots, row, root, place, bundle);
        }
        for (place, issuer) in bundle.iter().enumerate() {
            let row = rows.next().unwrap_or(&[]);
            fill(&mut question.issuers, row, issuer, place, bundle);
        }
        let asked = question.roots.iter().fold(0, |all, row| all | row);
        let above = above(card, asked);
        question.roots.iter_mut().for_each(|row| *row &= above);
        question
    }

    fn judge(&mut self, card: &Card) {
        for (place, cert) in card.bundle.all().iter().enumerate() {
            self.place_limits[place] = cert.path_length;
            let sound = in_date(cert, card.now) && well_formed(cert) && authority(cert);
            self.between |= u32::from(sound) << place;
            let counts = place > 0 && sound && !same_name(cert.issuer, cert.subject);
            self.counted |= u32::from(counts) << place;
        }
        for (place, root) in card.roots.all().iter().enumerate() {
            self.root_limits[place] = root.path_length;
        }
    }

    /// The lowest root by which a path qualifies.
    #[inline]
    pub fn root_above(&self, path: &[u8]) -> Option<u8> {
        let last = usize::from(path[path.len() - 1]);
        if self.roots[last] == 0 {
            return None;
        }
        self.lowest_root(last, self.counted_after_leaf(path)?)
    }

    /// The lowest root that issued a place and lets so many certificates that count stand between it and the leaf.
    #[inline]
    pub fn lowest_root(&self, place: usize, counted: u8) -> Option<u8> {
        let mut roots = self.roots[place];
        while roots != 0 {
            let root = roots.trailing_zeros() as u8;
            if counted <= self.root_limits[usize::from(root)] {
                return Some(root);
            }
            roots &= roots - 1;
        }
        None
    }

    /// How many places of a path count, the leaf aside, if each may stand where it does.
    fn counted_after_leaf(&self, path: &[u8]) -> Option<u8> {
        path[1..].iter().try_fold(0, |between, place| {
            let stands = self.stands(*place, between);
            stands.then(|| between + self.counts(*place))
        })
    }

    /// Whether a place may stand in a chain with so many certificates that count between it and the leaf.
    #[inline]
    fn stands(&self, place: u8, between: u8) -> bool {
        self.between >> place & 1 != 0 && between <= self.place_limits[usize::from(place)]
    }

    /// What a place adds to the number of those that count.
    #[inline]
    pub fn counts(&self, place: u8) -> u8 {
        (self.counted >> place & 1) as u8
    }

    /// For each place the numbers with which it stands, as bits: so a number is one bit, and gone where it meets a place that does not stand.
    /// The leaf stands with nothing before it.
    pub fn standing(&self) -> [u32; MOST_CERTIFICATES] {
        let mut standing = [0; MOST_CERTIFICATES];
        for (place, numbers) in standing[..self.size].iter_mut().enumerate() {
            let sound = self.between >> place & 1;
            *numbers = sound * up_to(self.place_limits[place]);
        }
        standing[0] = 1;
        standing
    }
}

/// The numbers up to a limit as bits; in no path do more count than come after the leaf.
pub fn up_to(limit: u8) -> u32 {
    (2 << limit.min(MOST_CERTIFICATES as u8 - 1)) - 1
}

/// Sets the bit of an issuer's place in the row of each certificate that it issued.
fn fill<Row>(rows: &mut [Row], signed: &[u8], issuer: &Record, place: usize, of: &[Record])
where
    Row: Copy + From<bool> + std::ops::BitOrAssign + std::ops::Shl<usize, Output = Row>,
{
    for ((row, signed), subject) in rows.iter_mut().zip(signed).zip(of) {
        if *signed == 1 && likely_issued(issuer, subject) {
            *row |= Row::from(true) << place;
        }
    }
}

fn likely_issued(issuer: &Record, subject: &Record) -> bool {
    let key_ids_differ =
        subject.has(1) && issuer.has(4) && subject.authority_key_id != issuer.subject_key_id;
    let serials_differ = subject.has(2) && subject.authority_serial != issuer.serial;
    !key_ids_differ && !serials_differ && same_name(subject.issuer, issuer.subject)
}

/// Whether an encoded name is the same as another: each attribute of the first has a match in the second. Equal bytes are, and are looked at
/// first.
fn same_name(a: &[u8], b: &[u8]) -> bool {
    a == b || (a[0] == b[0] && same_rdns(&a[1..], &b[1..]))
}

fn same_rdns(mut a: &[u8], mut b: &[u8]) -> bool {
    while !a.is_empty() && !b.is_empty() {
        if a[0] != b[0] {
            return false;
        }
        let attributes = a[0];
        (a, b) = (&a[1..], &b[1..]);
        let whole = b;
        for _ in 0..attributes {
            let (x, y) = (next_attribute(&mut a), next_attribute(&mut b));
            if !same_attribute(x, y) && !has(whole, attributes, x) {
                return false;
            }
        }
    }
    true
}

type Attribute<'a> = (&'a [u8], &'a [u8]);

fn same_attribute(x: Attribute, y: Attribute) -> bool {
    x.0 == y.0 && (x.1 == y.1 || normal(x.1).eq(normal(y.1)))
}

/// Whether an attribute has a match among so many; of one it has been compared with that one already.
fn has(mut rdn: &[u8], attributes: u8, x: Attribute) -> bool {
    attributes > 1 && (0..attributes).any(|_| same_attribute(x, next_attribute(&mut rdn)))
}

fn next_attribute<'a>(rest: &mut &'a [u8]) -> Attribute<'a> {
    (next_string(rest), next_string(rest))
}

fn next_string<'a>(rest: &mut &'a [u8]) -> &'a [u8] {
    let (string, after) = rest[1..].split_at(usize::from(rest[0]));
    *rest = after;
    string
}

/// The bytes of a string's normal form.
fn normal(s: &[u8]) -> impl Iterator<Item = u8> + '_ {
    let s = s.trim_ascii_end_spaces();
    let mut before = b' ';
    s.iter().filter_map(move |byte| {
        let kept = *byte != b' ' || before != b' ';
        before = *byte;
        kept.then(|| byte.to_ascii_lowercase())
    })
}

trait Spaces {
    fn trim_ascii_end_spaces(&self) -> &[u8];
}

impl Spaces for [u8] {
    fn trim_ascii_end_spaces(&self) -> &[u8] {
        let end = self.iter().rposition(|byte| *byte != b' ');
        &self[..end.map_or(0, |last| last + 1)]
    }
}

fn in_date(cert: &Record, now: u64) -> bool {
    cert.not_before <= now && now <= cert.not_after
}

fn well_formed(cert: &Record) -> bool {
    cert.version == 2 && cert.outer == cert.inner && !cert.has(128)
}

fn authority(cert: &Record) -> bool {
    cert.has(8) && cert.flags & 96 != 32
}

/// The roots that may stand above, of those that issued any: none where the leaf is not sound.
fn above(card: &Card, asked: u64) -> u64 {
    let leaf = &card.bundle.all()[0];
    if !(in_date(leaf, card.now) && well_formed(leaf) && serves(leaf) && named(leaf, card.host)) {
        return 0;
    }
    let sound = |root: &Record| in_date(root, card.now) && !root.has(128) && authority(root);
    let (mut rest, mut row) = (asked, 0);
    while rest != 0 {
        let place = rest.trailing_zeros();
        row |= u64::from(sound(&card.roots.all()[place as usize])) << place;
        rest &= rest - 1;
    }
    row
}

fn serves(leaf: &Record) -> bool {
    leaf.usages.is_empty() || leaf.usages.iter().any(|usage| matches!(usage, 0 | 6))
}

fn named(leaf: &Record, host: &[u8]) -> bool {
    if host.is_empty() {
        return true;
    }
    let mut names = leaf.dns_names;
    while !names.is_empty() {
        if matches_host(next_string(&mut names), host) {
            return true;
        }
    }
    false
}

/// A DNS name as a pattern, no case told apart.
fn matches_host(pattern: &[u8], host: &[u8]) -> bool {
    match pattern.strip_prefix(b"*.") {
        None => pattern.eq_ignore_ascii_case(host),
        Some(b"") => false,
        Some(domain) => match host.iter().position(|byte| *byte == b'.') {
            Some(dot) => dot > 0 && domain.eq_ignore_ascii_case(&host[dot + 1..]),
            None => false,
        },
    }
}
