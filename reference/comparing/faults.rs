//! What can be wrong with a card file: parts at or past their limits, bad values, and damage to the bytes.

use crate::draft::{Attribute, Draft, Name};
use crate::random::Random;
use reference::card::{MOST_CERTIFICATES, MOST_ROOTS};

/// Where a part is put: to the largest size that is read, or outside its range.
#[derive(Clone, Copy, PartialEq)]
pub enum Edge {
    Inside,
    Outside,
}

/// Sets one count or length of the draft to an edge of its range.
pub fn stretch(random: &mut Random, draft: &mut Draft, edge: Edge) {
    let place = random.below(draft.certs());
    let size = |random: &mut Random, least: usize, most: usize| match edge {
        Edge::Inside => most,
        Edge::Outside if least > 0 && random.chance(40) => least - 1,
        Edge::Outside => most + 1,
    };
    let kind = match edge {
        Edge::Inside => random.below(12),
        Edge::Outside => random.below(18),
    };
    let cert = draft.cert(place);
    match kind {
        0 => cert.serial.resize(size(random, 1, 20), 7),
        1 => cert.outer.resize(size(random, 1, 32), 7),
        2 => cert.inner.resize(size(random, 1, 32), 7),
        3 => cert.authority_key_id = Some(vec![7; size(random, 1, 64)]),
        4 => cert.authority_serial = Some(vec![7; size(random, 1, 20)]),
        5 => cert.subject_key_id = Some(vec![7; size(random, 1, 64)]),
        6 => cert.usages.resize(size(random, 0, 8), 6),
        7 => cert
            .dns_names
            .resize(size(random, 0, 32), b"*.a.com".to_vec()),
        8 => cert.dns_names.push(vec![b'x'; size(random, 1, 253)]),
        9 => draft.host.resize(size(random, 0, 253), b'x'),
        10 | 11 if edge == Edge::Inside => fill_names(random, draft),
        10..=12 => stretch_name(random, name_at(place, draft)),
        13 | 14 => draft.stray_verdicts = random.pick(&[1, 255, 256, 512, u16::MAX]),
        15 => draft.tasks = random.pick(&[0, 2, 255]),
        _ => crowd(random, draft),
    }
}

fn name_at(place: usize, draft: &mut Draft) -> &mut Name {
    let subject = place % 2 == 0;
    let cert = draft.cert(place);
    if subject {
        &mut cert.subject
    } else {
        &mut cert.issuer
    }
}

fn attribute(oid: usize, value: usize) -> Attribute {
    (vec![0x55; oid], vec![b'C'; value])
}

/// Adds the same to every name of the file, so that those that fit still do, and takes one of a name's limits.
fn fill_names(random: &mut Random, draft: &mut Draft) {
    let (added, rdns) = match random.below(4) {
        0 => (vec![attribute(3, 1)], 16),
        1 => (vec![attribute(3, 1); 4], 0),
        2 => (vec![attribute(16, 1)], 0),
        _ => (vec![attribute(3, 255)], 0),
    };
    for place in 0..draft.certs() {
        let cert = draft.cert(place);
        for name in [&mut cert.issuer, &mut cert.subject] {
            name.resize(rdns.max(name.len() + 1), added.clone());
        }
    }
}

/// Puts a count or a length of a name outside its range.
fn stretch_name(random: &mut Random, name: &mut Name) {
    name.push(vec![attribute(3, 6)]);
    let rdn = random.below(name.len());
    match random.below(5) {
        0 => name.resize(17, vec![attribute(3, 6)]),
        1 => name[rdn].clear(),
        2 => name[rdn].resize(5, attribute(3, 6)),
        3 => name[rdn][0].0.clear(),
        _ => name[rdn][0].0.resize(17, 1),
    }
}

/// More roots or more certificates than a file may have, with all the verdicts that they ask for.
fn crowd(random: &mut Random, draft: &mut Draft) {
    let cert = draft.bundle[0].clone();
    let row = draft.verdicts[draft.roots.len()].clone();
    let beyond = random.pick(&[1, 1, 2, 8]);
    if random.chance(50) {
        draft.roots.resize(MOST_ROOTS + beyond, cert);
    } else {
        draft.bundle.resize(MOST_CERTIFICATES + beyond, cert);
    }
    draft.verdicts.resize(draft.certs(), row);
    for row in &mut draft.verdicts {
        row.resize(draft.bundle.len(), 1);
    }
}

/// Sets one verdict, usage, purpose or pair of flags to what reply 8 is for.
pub fn spoil_value(random: &mut Random, draft: &mut Draft) {
    let row = random.below(draft.verdicts.len());
    let column = random.below(draft.verdicts[row].len());
    let place = random.below(draft.certs());
    let bad = random.pick(&[2, 3, 128, 255]);
    let cert = draft.cert(place);
    match random.below(6) {
        0 => draft.verdicts[row][column] = bad,
        1 => {
            let among = random.within(0..=cert.usages.len().min(7));
            cert.usages.insert(among, random.pick(&[8, 9, 255]));
            cert.usages.truncate(8);
        }
        2 => (cert.ca, cert.stray_flags) = (false, 16),
        3 => (cert.key_usage, cert.stray_flags) = (None, 64),
        4 => (cert.ca, cert.key_usage, cert.stray_flags) = (false, None, 16 | 64),
        _ => draft.purpose = bad - 1,
    }
}

/// Adds DNS names until the file has so many bytes; the draft has no more, and needs a dozen certificates to reach the longest files.
pub fn pad(draft: &mut Draft, target: usize) {
    let mut missing = target - draft.bytes().len();
    for place in 0..draft.certs() {
        let names = &mut draft.cert(place).dns_names;
        while missing > 1 && names.len() < 32 {
            let whole = missing.min(254);
            let piece = if missing - whole == 1 {
                whole - 1
            } else {
                whole
            };
            names.push(vec![b'p'; piece - 1]);
            missing -= piece;
        }
    }
}

/// Cuts the file off, half of the time near its end.
pub fn cut(random: &mut Random, file: &mut Vec<u8>) {
    let last = file.len() - 1;
    let least = if random.chance(50) {
        0
    } else {
        last.saturating_sub(40)
    };
    file.truncate(random.within(least..=last));
}

/// Changes, adds or removes one byte.
pub fn damage(random: &mut Random, file: &mut Vec<u8>) {
    if file.is_empty() {
        return;
    }
    let place = random.below(file.len());
    let byte = file[place];
    match random.below(8) {
        0 => file[place] = 0,
        1 => file[place] = 255,
        2 => file[place] = byte.wrapping_add(1),
        3 => file[place] = byte.wrapping_sub(1),
        4 => file[place] ^= 1 << random.below(8),
        5 => file[place] = random.byte(),
        6 => file.insert(place, byte),
        _ => drop(file.remove(place)),
    }
}

/// A short file of small numbers, as a reader can follow for a while.
pub fn noise(random: &mut Random) -> Vec<u8> {
    let mut file = random.bytes(0..=90);
    for byte in &mut file {
        *byte = random.pick(&[0, 0, 0, 1, 1, 2, *byte % 9, *byte]);
    }
    if let Some(first) = file.first_mut() {
        *first = random.pick(&[1, 1, 1, *first]);
    }
    file
}
