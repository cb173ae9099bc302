//! Packed Rust: a path in one number, five bits a place; beside it the mask of its places, and a bit for how many of them count.
//!
//! The number has 128 bits, since two of 64 make a step no faster and a short search slower. The last place stands lowest: where the first one
//! does, a place is moved by the path's length, and a step takes a third longer.

use crate::answer::Answer;
use crate::question::Question;
use reference::card::MOST_CERTIFICATES;
use reference::room::MOST_SLOTS;
use std::mem::MaybeUninit;

#[derive(Clone, Copy)]
struct Path {
    places: u128,
    used: u32,
    length: u8,
    last: u8,
    /// The bit of how many places count, the leaf aside: none if one may not stand where it does.
    counted: u32,
}

impl Path {
    const LEAF: Path = Path {
        places: 0,
        used: 1,
        length: 1,
        last: 0,
        counted: 1,
    };

    /// The path that goes on by a place, which stands with these numbers.
    fn with(self, place: u8, numbers: u32, question: &Question) -> Path {
        Path {
            places: self.places << 5 | u128::from(place),
            used: self.used | 1 << place,
            length: self.length + 1,
            last: place,
            counted: (self.counted & numbers) << question.counts(place),
        }
    }

    fn root(self, question: &Question) -> Option<u8> {
        let last = usize::from(self.last);
        if question.roots[last] == 0 || self.counted == 0 {
            return None;
        }
        question.lowest_root(last, self.counted.trailing_zeros() as u8)
    }

    fn accepted(self, steps: u64, root: u8) -> Answer {
        let mut places = [0; MOST_CERTIFICATES];
        let path = &mut places[..usize::from(self.length)];
        for (at, place) in path.iter_mut().rev().enumerate() {
            *place = (self.places >> (5 * at) & 31) as u8;
        }
        Answer::accepted(steps, root, path)
    }
}

pub fn walk(question: &Question) -> Answer {
    let standing = question.standing();
    // not filled first, which would add a fifth to the time of a small file
    let mut stack = [const { MaybeUninit::uninit() }; MOST_SLOTS];
    stack[0].write(Path::LEAF);
    let mut waiting = 1;
    let mut steps = 0;
    while waiting > 0 {
        if steps == question.budget {
            return Answer::without_path(2, steps);
        }
        waiting -= 1;
        steps += 1;
        // SAFETY: each of the paths that wait was written.
        let path: Path = unsafe { stack[waiting].assume_init() };
        if let Some(root) = path.root(question) {
            return path.accepted(steps, root);
        }
        let mut next = question.issuers[usize::from(path.last)] & !path.used;
        while next != 0 {
            let place = next.trailing_zeros() as u8;
            stack[waiting].write(path.with(place, standing[usize::from(place)], question));
            waiting += 1;
            next &= next - 1;
        }
    }
    Answer::without_path(1, steps)
}
