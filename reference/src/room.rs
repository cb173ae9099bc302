//! What is lent for the paths that wait: slots in a row, each a length and as many places as a path can have. They are lent as bytes,
//! where a part slot at the end does not count, or as records.

use crate::card::MOST_CERTIFICATES;
use crate::reply::Fault;

/// The bytes of a slot.
pub const SLOT: usize = 1 + MOST_CERTIFICATES;

/// The slots needed for a bundle of so many certificates.
pub const SLOTS: [usize; MOST_CERTIFICATES + 1] = [
    0, 1, 1, 2, 4, 7, 11, 16, 22, 29, 37, 46, 56, 67, 79, 92, 106, 121, 137, 154, 172, 191, 211,
    232, 254,
];

/// Slots for the largest bundle.
pub const MOST_SLOTS: usize = SLOTS[MOST_CERTIFICATES];

/// Room for the largest bundle, all zero.
pub const ENOUGH: [u8; MOST_SLOTS * SLOT] = [0; MOST_SLOTS * SLOT];

/// A slot as a record.
#[repr(C)]
#[derive(Debug, Clone, Copy, PartialEq, Eq)]
pub struct Path {
    pub length: u8,
    pub places: [u8; MOST_CERTIFICATES],
}

impl Path {
    /// A slot that is not used.
    pub const NONE: Path = Path {
        length: 0,
        places: [0; MOST_CERTIFICATES],
    };

    fn of(path: &[usize]) -> Path {
        let mut record = Path::NONE;
        record.length = path.len() as u8;
        for (byte, place) in record.places.iter_mut().zip(path) {
            *byte = *place as u8;
        }
        record
    }
}

/// What slots can be lent as.
pub trait Lent: Copy {
    /// The whole slots among what is lent.
    fn whole(lent: &[Self]) -> usize;

    /// Sets the first slots to these paths.
    fn set(lent: &mut [Self], slots: &[Path]);
}

impl Lent for u8 {
    fn whole(lent: &[u8]) -> usize {
        lent.len() / SLOT
    }

    fn set(lent: &mut [u8], slots: &[Path]) {
        for (bytes, slot) in lent.chunks_exact_mut(SLOT).zip(slots) {
            bytes[0] = slot.length;
            bytes[1..].copy_from_slice(&slot.places);
        }
    }
}

impl Lent for Path {
    fn whole(lent: &[Path]) -> usize {
        lent.len()
    }

    fn set(lent: &mut [Path], slots: &[Path]) {
        lent[..slots.len()].copy_from_slice(slots);
    }
}

/// The slots needed for a bundle, or reply 10 where fewer are lent.
pub fn needed<L: Lent>(lent: &[L], bundle: usize) -> Result<usize, Fault> {
    let slots = SLOTS[bundle];
    match L::whole(lent) < slots {
        true => Err(Fault::NoRoom),
        false => Ok(slots),
    }
}

/// Sets so many slots to these paths, the first in slot 0, and those that are left to zero.
pub fn show<L: Lent>(lent: &mut [L], slots: usize, paths: &[Vec<usize>]) {
    assert!(
        paths.len() <= slots,
        "more paths wait than the table allows"
    );
    let mut shown: Vec<Path> = paths.iter().map(|path| Path::of(path)).collect();
    shown.resize(slots, Path::NONE);
    L::set(lent, &shown);
}

/// The paths that the slots of a room hold, up to the first unused slot.
pub fn shown(room: &[u8]) -> Vec<&[u8]> {
    room.chunks_exact(SLOT)
        .take_while(|slot| slot[0] > 0)
        .map(|slot| &slot[1..=usize::from(slot[0])])
        .collect()
}
