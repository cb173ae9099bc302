//! The paper's worked cases: "Cards pulled from the drawer". And path lengths, with self-issued certificates and without; the limits; and
//! records lent in place of bytes.

use crate::card::{flag, Attribute, Name, Record, Task, MOST_CERTIFICATES, MOST_ROOTS};
use crate::issuing::self_issued;
use crate::names::{same_dn, same_rdn};
use crate::policy;
use crate::room::{Path, ENOUGH, MOST_SLOTS, SLOT, SLOTS};
use crate::text::{match_name, normalise};
use crate::{paused, paused_records, search, search_records, terminal};

fn line(file: &[u8]) -> String {
    terminal(file).to_string()
}

/// A record of 28 bytes: no names, no dates, nothing optional.
fn plain(flags: u8) -> Vec<u8> {
    let mut record = vec![2, flags];
    record.extend([0; 16]);
    record.extend([1, 1, 1, 0x2A, 1, 0x2A, 0, 0, 0, 0]);
    record
}

/// A file of plain records in which every verdict is 1.
fn complete(roots: usize, bundle: usize, budget: u64) -> Vec<u8> {
    let verdicts = (roots + bundle) * bundle;
    let mut file = vec![1, roots as u8];
    file.extend(plain(8).repeat(roots));
    file.push(bundle as u8);
    file.extend(plain(8).repeat(bundle));
    file.extend((verdicts as u16).to_be_bytes());
    file.extend(vec![1; verdicts]);
    file.push(1);
    file.extend([0; 8]);
    file.extend(budget.to_be_bytes());
    file.extend([0, 0]);
    file
}

#[test]
fn text() {
    assert_eq!(normalise(b"  Bembo   Roman "), b"bembo roman");
    assert_eq!(normalise(b"   "), b"");
    assert_eq!(normalise(b"\tA "), b"\ta");
}

#[test]
fn patterns() {
    let domain = b"*.a.com";
    assert!(!match_name(domain, b"a.com"));
    assert!(match_name(domain, b"x.a.com"));
    assert!(!match_name(domain, b".a.com"));
    assert!(!match_name(domain, b"x.y.a.com"));
    assert!(!match_name(b"*.com", b"com"));
    assert!(!match_name(b"*..", b"."));
    assert!(match_name(b"*..", b"x.."));
    assert!(!match_name(b"*.", b"*."));
    assert!(!match_name(b"*.", b""));
    assert!(match_name(b"*", b"*"));
    assert!(!match_name(b"*", b"x"));
}

#[test]
fn names() {
    let attribute = |oid: &'static [u8]| Attribute { oid, value: b"" };
    let aa = || vec![attribute(b"a"), attribute(b"a")];
    let ab = || vec![attribute(b"a"), attribute(b"b")];
    let ba = || vec![attribute(b"b"), attribute(b"a")];
    assert!(same_rdn(&ab(), &ab()));
    assert!(same_rdn(&ab(), &ba()));
    assert!(same_rdn(&aa(), &ab()));
    assert!(!same_rdn(&ab(), &aa()));
    assert!(!same_rdn(&ab()[..1], &ab()));
    assert!(same_dn(&[ab(), ba()], &[ab(), ba()]));
    assert!(same_dn(&[aa(), ba()], &[ba(), ab()]));
    assert!(!same_dn(&[ab(), ba()], &[ba(), aa()]));
    assert!(!same_dn(&[ab()], &[ab(), ba()]));
    assert!(same_dn(&[], &[]));
}

/// A name of one RDN, of these values.
fn name(values: &[&'static str]) -> Name<'static> {
    let attribute = |value: &&'static str| Attribute {
        oid: b"a",
        value: value.as_bytes(),
    };
    vec![values.iter().map(attribute).collect()]
}

/// An authority with no path length.
fn authority(issuer: &[&'static str], subject: &[&'static str]) -> Record<'static> {
    Record {
        version: 2,
        flags: flag::CA,
        not_before: 0,
        not_after: 0,
        serial: b"1",
        outer_algorithm: b"*",
        inner_algorithm: b"*",
        issuer: name(issuer),
        subject: name(subject),
        authority_key_id: None,
        authority_serial: None,
        subject_key_id: None,
        path_length: None,
        usages: vec![],
        dns_names: vec![],
    }
}

/// One that another authority issued, and one that is self-issued.
fn other() -> Record<'static> {
    authority(&["a"], &["b"])
}

fn own() -> Record<'static> {
    authority(&["a"], &["a"])
}

fn limit(path_length: u8, cert: Record) -> Record {
    Record {
        path_length: Some(path_length),
        ..cert
    }
}

fn holds<const LENGTH: usize>(chain: [Record; LENGTH]) -> bool {
    let task = Task {
        now: 0,
        budget: 0,
        host: b"",
    };
    policy::satisfied(&chain.each_ref(), &task)
}

#[test]
fn path_lengths() {
    assert!(holds([other(), other(), limit(1, other()), own()]));
    assert!(!holds([other(), other(), limit(0, other()), own()]));
    assert!(holds([other(), own(), limit(0, other()), own()]));
    assert!(holds([other(), own(), own(), limit(0, other()), own()]));
    assert!(holds([other(), own(), other(), limit(1, other()), own()]));
    assert!(!holds([other(), own(), other(), limit(0, other()), own()]));
}

#[test]
fn path_lengths_of_self_issued() {
    assert!(holds([other(), limit(0, own()), own()]));
    assert!(holds([other(), own(), limit(0, own()), own()]));
    assert!(holds([other(), other(), limit(1, own()), own()]));
    assert!(!holds([other(), other(), limit(0, own()), own()]));
    assert!(!holds([other(), other(), own(), limit(0, own()), own()]));
}

#[test]
fn path_lengths_of_roots() {
    assert!(holds([own(), limit(0, own())]));
    assert!(holds([other(), limit(0, other())]));
    assert!(holds([other(), own(), limit(0, own())]));
    assert!(holds([other(), own(), limit(0, other())]));
    assert!(!holds([other(), other(), limit(0, own())]));
    assert!(!holds([other(), other(), limit(0, other())]));
    assert!(holds([other(), other(), own(), limit(1, own())]));
    assert!(!holds([other(), other(), other(), limit(1, own())]));
}

#[test]
fn self_issued_names() {
    let same = |issuer, subject| self_issued(&authority(issuer, subject));
    assert!(same(&["Bembo Roman"], &["Bembo Roman"]));
    assert!(same(&["Bembo Roman"], &[" bembo   ROMAN"]));
    assert!(!same(&["Bembo Roman"], &["Bembo\tRoman"]));
    assert!(same(&["a", "b"], &["b", "a"]));
    assert!(same(&["a", "a"], &["a", "b"]));
    assert!(!same(&["a", "b"], &["a", "a"]));
    assert!(!same(&["a"], &["a", "a"]));
}

#[test]
fn self_issued_with_another_key() {
    let renewed = Record {
        authority_key_id: Some(b"old"),
        subject_key_id: Some(b"new"),
        ..own()
    };
    assert!(holds([other(), renewed, limit(0, other()), own()]));
}

#[test]
fn whole_files() {
    let mut empty = vec![1, 0, 0, 0, 0, 1];
    empty.extend([0; 18]);
    assert_eq!(line(&empty), "ERROR 3");
    empty.push(0);
    assert_eq!(line(&empty), "ERROR 9");
    assert_eq!(line(b""), "ERROR 6");

    let mut one = vec![1, 1];
    one.extend(plain(8));
    one.push(1);
    one.extend(plain(0));
    one.extend([0, 2, 1, 0, 1]);
    one.extend([0; 15]);
    one.extend([1, 0, 0]);
    assert_eq!(one.len(), 82);
    assert_eq!(line(&one), "ACCEPT steps 1 root 0 path 0");
    one[79] = 0;
    assert_eq!(line(&one), "EXHAUSTED steps 0");
}

#[test]
fn four_that_issue_each_other() {
    assert_eq!(line(&complete(0, 4, 16)), "REFUSE steps 16");
    assert_eq!(line(&complete(0, 4, 15)), "EXHAUSTED steps 15");
    let file = complete(0, 4, 0);
    let mut taken = Vec::new();
    for k in 0..5 {
        let room = paused(&file, k, &ENOUGH).room;
        let waiting = crate::room::shown(&room);
        assert!(waiting.len() <= 4);
        taken.push(waiting[waiting.len() - 1].to_vec());
    }
    assert_eq!(
        taken,
        [&[0][..], &[0, 3], &[0, 3, 2], &[0, 3, 2, 1], &[0, 3, 1]]
    );
}

#[test]
fn limits() {
    assert_eq!((MOST_CERTIFICATES, MOST_ROOTS), (24, 64));
    assert_eq!(line(&complete(0, 24, 3)), "EXHAUSTED steps 3");
    assert_eq!(line(&complete(0, 25, 3)), "ERROR 7");
    assert_eq!(line(&complete(64, 24, 1)), "ACCEPT steps 1 root 0 path 0");
    assert_eq!(line(&complete(65, 24, 1)), "ERROR 7");
}

/// The file whose one path of n places leads, the leaf first, through places 0 to n - 1 to the last of the roots.
fn chain(roots: usize, bundle: usize) -> Vec<u8> {
    let mut file = complete(roots, bundle, 1000);
    let rows = file.len() - 19 - (roots + bundle) * bundle;
    let mut rows: Vec<&mut [u8]> = file[rows..].chunks_mut(bundle).collect();
    for (issuer, row) in rows[..roots + bundle].iter_mut().enumerate() {
        row.fill(0);
        match issuer.checked_sub(roots) {
            Some(place) if place > 0 => row[place - 1] = 1,
            None if issuer + 1 == roots => row[bundle - 1] = 1,
            _ => {}
        }
    }
    file
}

#[test]
fn the_longest_path() {
    let path: Vec<String> = (0..24).map(|place| place.to_string()).collect();
    let accepted = format!("ACCEPT steps 24 root 63 path {}", path.join(" "));
    assert_eq!(line(&chain(64, 24)), accepted);
    let waits = paused(&chain(64, 24), 23, &ENOUGH).room;
    let mut slot: Vec<u8> = (0..24).collect();
    slot.insert(0, 24);
    assert_eq!(waits[..SLOT], slot);
    assert_eq!(waits[SLOT..], ENOUGH[SLOT..]);
}

#[test]
fn rooms() {
    assert_eq!((SLOT, MOST_SLOTS), (25, 254));
    let file = complete(0, 24, 1);
    let room = vec![9; 6350];
    let short = search(&file, &room[..6349]);
    assert_eq!(short.reply.number(), 10);
    assert_eq!(short.room, &room[..6349]);
    let enough = search(&file, &room);
    assert_eq!(enough.reply.number(), 2);
    assert_eq!(enough.room, [0; 6350]);
}

#[test]
fn records() {
    let file = complete(0, 24, 1);
    let nine = Path {
        length: 9,
        places: [9; 24],
    };
    let lent = [nine; 256];
    let few = search_records(&file, &lent[..253]);
    assert_eq!(few.reply.number(), 10);
    assert_eq!(few.room, [nine; 253]);
    let enough = search_records(&file, &lent);
    assert_eq!(enough.reply.number(), 2);
    assert_eq!(enough.room[..254], [Path::NONE; 254]);
    assert_eq!(enough.room[254..], [nine; 2]);
}

#[test]
fn records_hold_what_the_slots_do() {
    let bytes = |record: &Path| [&[record.length], &record.places[..]].concat();
    for file in [complete(0, 24, 0), complete(1, 5, 0), chain(64, 24)] {
        for k in 0..60 {
            let by_bytes = paused(&file, k, &ENOUGH);
            let by_records = paused_records(&file, k, &[Path::NONE; MOST_SLOTS]);
            assert_eq!(by_records.reply, by_bytes.reply);
            let same: Vec<Vec<u8>> = by_records.room.iter().map(bytes).collect();
            assert_eq!(same.concat(), by_bytes.room);
        }
    }
}

/// The walk that always takes the highest place goes as deep as there are certificates, and never waits with more paths than the table has.
#[test]
fn the_most_that_wait() {
    let waiting = |k| crate::room::shown(&paused(&complete(0, 24, 0), k, &ENOUGH).room).len();
    assert_eq!(waiting(22), 254);
    assert!((0..200).all(|k| waiting(k) <= 254));
}

#[test]
fn the_table_has_its_formula() {
    assert_eq!(SLOTS[0], 0);
    for (n, slots) in SLOTS.iter().enumerate().skip(1) {
        assert_eq!(*slots, (n - 1) * n.saturating_sub(2) / 2 + 1);
    }
}
