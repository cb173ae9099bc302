//! The proved library behind its C face, with bytes lent and with records, and the one that it is timed against.

use crate::answer::Answer;
use reference::room::{Path, SLOT};

// The place for the answer comes first: so x86-64's way of calling passes it.
extern "C" {
    fn savuneco_search(
        answer: *mut Answer,
        file: *const u8,
        file_len: usize,
        room: *mut u8,
        room_len: usize,
    );

    fn savuneco_paused(
        answer: *mut Answer,
        file: *const u8,
        file_len: usize,
        k: u64,
        room: *mut u8,
        room_len: usize,
    );

    fn savuneco_search_records(
        answer: *mut Answer,
        file: *const u8,
        file_len: usize,
        records: *mut Path,
        count: usize,
    );

    fn savuneco_paused_records(
        answer: *mut Answer,
        file: *const u8,
        file_len: usize,
        k: u64,
        records: *mut Path,
        count: usize,
    );

    /// `savuneco_search` and `savuneco_slots` of the object that `bench/run` was given as the one before. Its answer may have fewer places: it
    /// is then shorter, and lies at the beginning of ours.
    fn before_search(
        answer: *mut Answer,
        file: *const u8,
        file_len: usize,
        room: *mut u8,
        room_len: usize,
    );
    fn before_slots(n: u8) -> u8;
}

const _: () = assert!(size_of::<Path>() == SLOT && align_of::<Path>() == 1);

type Face = unsafe extern "C" fn(*mut Answer, *const u8, usize, *mut u8, usize);

pub fn search(file: &[u8], room: &mut [u8]) -> Answer {
    by(savuneco_search, file, room)
}

pub fn before(file: &[u8], room: &mut [u8]) -> Answer {
    by(before_search, file, room)
}

/// The most places of a path in the object before: the largest bundle that has slots there.
pub fn places_before() -> usize {
    // SAFETY: it is handed a number and answers one.
    let has_slots = |n: &u8| unsafe { before_slots(*n) } > 0;
    (0..=u8::MAX).rfind(has_slots).map_or(0, usize::from)
}

#[inline(always)]
fn by(face: Face, file: &[u8], room: &mut [u8]) -> Answer {
    let mut answer = Answer::without_path(0, 0);
    let (at, len, lent) = (file.as_ptr(), file.len(), room.len());
    // SAFETY: each pointer is valid for its length, and answer and room are lent to nothing else.
    unsafe { face(&mut answer, at, len, room.as_mut_ptr(), lent) };
    answer
}

/// The room's whole slots are lent as records, which have the same bytes.
pub fn search_records(file: &[u8], room: &mut [u8]) -> Answer {
    let mut answer = Answer::without_path(0, 0);
    let (at, len) = (file.as_ptr(), file.len());
    let (records, count) = (room.as_mut_ptr().cast(), room.len() / SLOT);
    // SAFETY: as in `by`, and a record may have any bytes and any address.
    unsafe { savuneco_search_records(&mut answer, at, len, records, count) };
    answer
}

pub fn paused(file: &[u8], k: u64, room: &mut [u8]) -> Answer {
    let mut answer = Answer::without_path(0, 0);
    let (at, len, lent) = (file.as_ptr(), file.len(), room.len());
    // SAFETY: as in `by`.
    unsafe { savuneco_paused(&mut answer, at, len, k, room.as_mut_ptr(), lent) };
    answer
}

pub fn paused_records(file: &[u8], k: u64, room: &mut [u8]) -> Answer {
    let mut answer = Answer::without_path(0, 0);
    let (at, len) = (file.as_ptr(), file.len());
    let (records, count) = (room.as_mut_ptr().cast(), room.len() / SLOT);
    // SAFETY: as in `search_records`.
    unsafe { savuneco_paused_records(&mut answer, at, len, k, records, count) };
    answer
}
