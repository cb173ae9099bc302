//! The versions that are timed, each from the bytes of a card file to the answer and the room as it leaves it.

use crate::answer::Answer;
use crate::question::Question;
use crate::reader::Card;
use crate::{depths, lean, library, ordinary, packed, tuned};
use reference::card::MOST_CERTIFICATES;
use reference::room::{SLOT, SLOTS};

pub struct Version {
    pub name: &'static str,
    pub search: fn(&[u8], &mut [u8]) -> Answer,
}

impl Version {
    /// The most places of a path, in its answers and in its slots: before may have fewer.
    pub fn places(&self) -> usize {
        match self.name == BEFORE.name {
            true => library::places_before(),
            false => MOST_CERTIFICATES,
        }
    }
}

pub const LIBRARY: Version = Version {
    name: "Savuneco",
    search: library::search,
};

/// The object that BEFORE named, or the library once more.
pub const BEFORE: Version = Version {
    name: "before",
    search: library::before,
};

/// The library with records lent in place of bytes.
pub const RECORDS: Version = Version {
    name: "records",
    search: library::search_records,
};

pub const ORDINARY: Version = Version {
    name: "ordinary",
    search: |file, room| search(file, room, |question, _| ordinary::walk(question)),
};

pub const UPSTREAM: Version = Version {
    name: "upstream",
    search: upstream,
};

pub const TUNED: Version = Version {
    name: "tuned",
    search: |file, room| search(file, room, tuned::walk),
};

pub const PACKED: Version = Version {
    name: "packed",
    search: |file, room| search(file, room, |question, _| packed::walk(question)),
};

pub const DEPTHS: Version = Version {
    name: "depths",
    search: |file, room| search(file, room, |question, _| depths::walk::<true>(question)),
};

pub const UNCHECKED: Version = Version {
    name: "unchecked",
    search: |file, room| search(file, room, |question, _| depths::walk::<false>(question)),
};

pub const LEAN: Version = Version {
    name: "lean",
    search: |file, room| search(file, room, |question, _| lean::walk(question)),
};

/// A search that walks over what the reader without allocation has read.
fn search(file: &[u8], room: &mut [u8], walk: fn(&Question, &mut [u8]) -> Answer) -> Answer {
    let mut card = Card::NONE;
    if let Err(fault) = card.read(file) {
        return Answer::without_path(fault, 0);
    }
    let size = card.bundle.all().len();
    if size == 0 {
        return Answer::without_path(3, 0);
    }
    if room.len() / SLOT < SLOTS[size] {
        return Answer::without_path(10, 0);
    }
    let slots = &mut room[..SLOTS[size] * SLOT];
    let answer = walk(&Question::of(&card), slots);
    slots.fill(0);
    answer
}

/// The reference as it stands, reader included; its room is a copy of the lent one.
fn upstream(file: &[u8], room: &mut [u8]) -> Answer {
    let answer = reference::search(file, room);
    room.copy_from_slice(&answer.room);
    match answer.reply {
        reference::Reply::Accepted { steps, root, path } => {
            let places: Vec<u8> = path.iter().map(|place| *place as u8).collect();
            Answer::accepted(steps, root as u8, &places)
        }
        reply => Answer::without_path(reply.number(), reply.steps()),
    }
}
