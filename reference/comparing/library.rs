//! The library behind its C face, and what the reference's answers are in that form.

use crate::files::{Call, Lent, Question};
use reference::card::MOST_CERTIFICATES;
use reference::room::{Path, SLOT};
use reference::{paused, paused_records, reader, search, search_records, Reply};
use std::mem::{align_of, size_of};

/// `savuneco_answer`.
#[repr(C)]
#[derive(Debug, Clone, PartialEq, Eq)]
pub struct Answer {
    steps: u64,
    number: u8,
    root: u8,
    length: u8,
    path: [u8; MOST_CERTIFICATES],
}

impl Answer {
    const NONE: Answer = Answer {
        steps: 0,
        number: 0,
        root: 0,
        length: 0,
        path: [0; MOST_CERTIFICATES],
    };
}

/// `savuneco_normal`.
#[repr(C)]
struct Normal {
    length: u64,
    number: u8,
}

/// `savuneco_asked`.
#[repr(C)]
#[derive(Debug, Default, PartialEq, Eq)]
pub struct Asked {
    now: u64,
    budget: u64,
    host_at: u64,
    host_length: u64,
    pub number: u8,
    roots: u8,
    certificates: u8,
}

// The place for an answer of more than two words comes first: so x86-64's way of calling passes it.
extern "C" {
    fn savuneco_task(asked: *mut Asked, file: *const u8, file_len: usize);
    fn savuneco_search(
        answer: *mut Answer,
        file: *const u8,
        file_len: usize,
        room: *mut u8,
        room_len: usize,
    );
    fn savuneco_paused(
        answer: *mut Answer,
        file: *const u8,
        file_len: usize,
        k: u64,
        room: *mut u8,
        room_len: usize,
    );
    fn savuneco_search_records(
        answer: *mut Answer,
        file: *const u8,
        file_len: usize,
        records: *mut Path,
        count: usize,
    );
    fn savuneco_paused_records(
        answer: *mut Answer,
        file: *const u8,
        file_len: usize,
        k: u64,
        records: *mut Path,
        count: usize,
    );
    fn savuneco_normalize(s: *const u8, len: usize, out: *mut u8, out_len: usize) -> Normal;
    fn savuneco_same_attr(
        a: *const u8,
        a_len: usize,
        b: *const u8,
        b_len: usize,
        normalise: u8,
    ) -> u8;
    fn savuneco_same_rdn(
        a: *const u8,
        a_len: usize,
        b: *const u8,
        b_len: usize,
        normalise: u8,
    ) -> u8;
    fn savuneco_is_subtree_rdn(
        a: *const u8,
        a_len: usize,
        b: *const u8,
        b_len: usize,
        normalise: u8,
    ) -> u8;
}

/// What a call answered, and the bytes that it left in the lent room, or in the lent records one after the other, and on both sides of it.
#[derive(PartialEq, Eq)]
pub struct Said {
    pub answer: Answer,
    pub room: Vec<u8>,
}

const FENCE: usize = 64;

fn fenced(room: &[u8]) -> Vec<u8> {
    [&[0xA5; FENCE], room, &[0xA5; FENCE]].concat()
}

/// The byte of the room that a place in `Said::room` stands for; negative before it.
pub fn room_byte(place: usize) -> isize {
    place as isize - FENCE as isize
}

// A record has its bytes in the order of its slot and no others, so that a row of records lies where a room's bytes do.
const _: () = assert!(size_of::<Path>() == SLOT && align_of::<Path>() == 1);

fn bytes_of(records: &[Path]) -> Vec<u8> {
    let bytes = |record: &Path| [&[record.length], &record.places[..]].concat();
    records.iter().flat_map(bytes).collect()
}

/// The face takes a null pointer for nothing.
fn pointer(bytes: &[u8]) -> *const u8 {
    match bytes {
        [] => std::ptr::null(),
        _ => bytes.as_ptr(),
    }
}

/// The normal form of a value, which is lent as many bytes as it has.
pub fn normal_by_library(value: &[u8]) -> Vec<u8> {
    let mut room = vec![b'#'; value.len()];
    let out = match room.is_empty() {
        true => std::ptr::null_mut(),
        false => room.as_mut_ptr(),
    };
    // SAFETY: each pointer is valid for its length, and the room overlaps nothing else that is in use.
    let normal = unsafe { savuneco_normalize(pointer(value), value.len(), out, room.len()) };
    assert_eq!(normal.number, 0, "room of the value's length was refused");
    room.truncate(normal.length as usize);
    room
}

/// What is answered of two attributes with one OID and these values, compared in normal form.
pub fn same_by_library(a: &[u8], b: &[u8]) -> u8 {
    let encoded = |value: &[u8]| [&[1, b'x', value.len() as u8], value].concat();
    let (a, b) = (encoded(a), encoded(b));
    // SAFETY: each pointer is valid for its length.
    unsafe { savuneco_same_attr(a.as_ptr(), a.len(), b.as_ptr(), b.len(), 1) }
}

/// What is answered of two encoded RDNs: whether the first is the same as the second, and whether it lies under it.
pub fn rdns_by_library(a: &[u8], b: &[u8], normalise: bool) -> (u8, u8) {
    let asked = |question: unsafe extern "C" fn(*const u8, usize, *const u8, usize, u8) -> u8| {
        // SAFETY: each pointer is valid for its length.
        unsafe {
            question(
                a.as_ptr(),
                a.len(),
                b.as_ptr(),
                b.len(),
                u8::from(normalise),
            )
        }
    };
    (asked(savuneco_same_rdn), asked(savuneco_is_subtree_rdn))
}

pub fn task_by_library(file: &[u8]) -> Asked {
    let mut asked = Asked::default();
    // SAFETY: the file's pointer is valid for its length, and the answer's place overlaps nothing else that is in use.
    unsafe { savuneco_task(&mut asked, pointer(file), file.len()) };
    asked
}

/// The host's place is told by its bytes, which are borrowed from the file.
pub fn task_by_reference(file: &[u8]) -> Asked {
    let card = match reader::read(file) {
        Ok(card) => card,
        Err(fault) => {
            return Asked {
                number: fault as u8,
                ..Asked::default()
            }
        }
    };
    let host = card.task.host;
    Asked {
        now: card.task.now,
        budget: card.task.budget,
        host_at: (host.as_ptr() as usize - file.as_ptr() as usize) as u64,
        host_length: host.len() as u64,
        number: 0,
        roots: card.roots.len() as u8,
        certificates: card.bundle.len() as u8,
    }
}

pub fn by_library(file: &[u8], question: &Question) -> Said {
    let mut room = match &question.lent {
        Lent::Room(room) => fenced(room),
        Lent::Records(records) => fenced(&bytes_of(records)),
    };
    let end = room.len() - FENCE;
    let lent = &mut room[FENCE..end];
    let answer = match &question.lent {
        Lent::Room(_) => with_room(file, question.call, lent),
        Lent::Records(_) => with_records(file, question.call, lent),
    };
    Said { answer, room }
}

fn pointer_mut(lent: &mut [u8]) -> *mut u8 {
    match lent {
        [] => std::ptr::null_mut(),
        _ => lent.as_mut_ptr(),
    }
}

fn with_room(file: &[u8], call: Call, lent: &mut [u8]) -> Answer {
    let mut answer = Answer::NONE;
    let (at, file_at, file_len) = (&mut answer, pointer(file), file.len());
    let (lent_at, lent_len) = (pointer_mut(lent), lent.len());
    // SAFETY: each pointer is valid for its length, and answer and room overlap nothing else that is in use.
    unsafe {
        match call {
            Call::Search => savuneco_search(at, file_at, file_len, lent_at, lent_len),
            Call::Paused(k) => savuneco_paused(at, file_at, file_len, k, lent_at, lent_len),
        }
    };
    answer
}

/// The bytes are those of whole records.
fn with_records(file: &[u8], call: Call, lent: &mut [u8]) -> Answer {
    let mut answer = Answer::NONE;
    let (at, file_at, file_len) = (&mut answer, pointer(file), file.len());
    let (records, count) = (pointer_mut(lent).cast(), lent.len() / SLOT);
    // SAFETY: as in `with_room`, and a record may have any bytes and any address.
    unsafe {
        match call {
            Call::Search => savuneco_search_records(at, file_at, file_len, records, count),
            Call::Paused(k) => savuneco_paused_records(at, file_at, file_len, k, records, count),
        }
    };
    answer
}

pub fn by_reference(file: &[u8], question: &Question) -> Said {
    let (reply, room) = match &question.lent {
        Lent::Room(room) => {
            let said = match question.call {
                Call::Search => search(file, room),
                Call::Paused(k) => paused(file, k, room),
            };
            (said.reply, said.room)
        }
        Lent::Records(records) => {
            let said = match question.call {
                Call::Search => search_records(file, records),
                Call::Paused(k) => paused_records(file, k, records),
            };
            (said.reply, bytes_of(&said.room))
        }
    };
    Said {
        answer: plain(&reply),
        room: fenced(&room),
    }
}

/// A reply as the face tells it.
fn plain(reply: &Reply) -> Answer {
    let mut answer = Answer {
        steps: reply.steps(),
        number: reply.number(),
        ..Answer::NONE
    };
    if let Reply::Accepted { root, path, .. } = reply {
        answer.root = *root as u8;
        answer.length = path.len() as u8;
        for (byte, place) in answer.path.iter_mut().zip(path) {
            *byte = *place as u8;
        }
    }
    answer
}

impl Said {
    pub fn number(&self) -> u8 {
        self.answer.number
    }

    pub fn steps(&self) -> u64 {
        self.answer.steps
    }

    pub fn path_length(&self) -> u8 {
        self.answer.length
    }

    /// How many paths the needed slots hold.
    pub fn waiting(&self, slots: usize) -> usize {
        let lent = &self.room[FENCE..self.room.len() - FENCE];
        let used = |slot: &&[u8]| slot[0] > 0;
        lent.chunks_exact(SLOT).take(slots).filter(used).count()
    }
}
