//! The leanest walk by depths in Rust: rows of 32 bits, and how a path stands as a bit, which a step moves by what its place says. No number is
//! looked up for it. The lent room is left as it is.

use crate::answer::Answer;
use crate::question::{up_to, Question};
use reference::card::MOST_CERTIFICATES;

/// What a step asks of its place, each kind by itself, since a number is found faster than a struct of three.
struct Places {
    issuers: [u32; MOST_CERTIFICATES],
    /// The numbers of certificates that count with which a place stands, as bits.
    standing: [u32; MOST_CERTIFICATES],
    /// The numbers, those places counted, that some root lets stand below it.
    rooted: [u32; MOST_CERTIFICATES],
    counted: u32,
}

impl Places {
    fn of(question: &Question) -> Places {
        Places {
            issuers: question.issuers,
            standing: question.standing(),
            rooted: question.roots.map(|roots| rooted(question, roots)),
            counted: question.counted,
        }
    }
}

fn rooted(question: &Question, mut roots: u64) -> u32 {
    let mut numbers = 0;
    while roots != 0 {
        numbers |= up_to(question.root_limits[roots.trailing_zeros() as usize]);
        roots &= roots - 1;
    }
    numbers
}

/// Where a walk stands at one depth.
#[derive(Clone, Copy)]
struct Rows {
    /// The places still to be taken here.
    ahead: u32,
    /// The places that the path before leaves free.
    free: u32,
    /// The bit of how many places of the path before count, the leaf aside: none if one may not stand where it does.
    counted: u32,
}

impl Rows {
    /// At the first depth only the leaf is to be taken.
    fn first(size: usize) -> Rows {
        Rows {
            ahead: 1,
            free: (1 << size) - 1,
            counted: 1,
        }
    }

    /// Takes the highest place, which the versions with a stack push last.
    fn take(&mut self) -> usize {
        let place = self.ahead.ilog2();
        self.ahead ^= 1 << place;
        place as usize
    }

    /// The rows past a place.
    fn past(self, place: usize, places: &Places) -> Rows {
        let free = self.free ^ 1 << place;
        let counts = places.counted >> place & 1;
        Rows {
            ahead: free & places.issuers[place],
            free,
            counted: (self.counted & places.standing[place]) << counts,
        }
    }
}

/// The rows of the depths before, likewise each kind by itself.
struct Depths {
    ahead: [u32; MOST_CERTIFICATES],
    free: [u32; MOST_CERTIFICATES],
    counted: [u32; MOST_CERTIFICATES],
}

impl Depths {
    const NONE: Depths = Depths {
        ahead: [0; MOST_CERTIFICATES],
        free: [0; MOST_CERTIFICATES],
        counted: [0; MOST_CERTIFICATES],
    };

    fn keep(&mut self, depth: usize, rows: Rows) {
        self.ahead[depth] = rows.ahead;
        self.free[depth] = rows.free;
        self.counted[depth] = rows.counted;
    }

    fn kept(&self, depth: usize) -> Rows {
        Rows {
            ahead: self.ahead[depth],
            free: self.free[depth],
            counted: self.counted[depth],
        }
    }
}

pub fn walk(question: &Question) -> Answer {
    let places = Places::of(question);
    let mut rows = Rows::first(question.size);
    let mut before = Depths::NONE;
    let mut path = [0; MOST_CERTIFICATES];
    let mut depth = 0;
    let mut steps = 0;
    loop {
        if rows.ahead == 0 {
            if depth == 0 {
                return Answer::without_path(1, steps);
            }
            depth -= 1;
            rows = before.kept(depth);
            continue;
        }
        if steps == question.budget {
            return Answer::without_path(2, steps);
        }
        steps += 1;
        let place = rows.take();
        path[depth] = place as u8;
        let next = rows.past(place, &places);
        let rooted = next.counted & places.rooted[place];
        let length = depth + 1;
        // deeper first, as in the library: with the roots looked at first a step takes nearly twice the time on x86-64
        if next.ahead != 0 {
            before.keep(depth, rows);
            depth = length;
            rows = next;
        }
        if rooted != 0 {
            let root = question.lowest_root(place, rooted.trailing_zeros() as u8);
            return Answer::accepted(steps, root.unwrap_or(0), &path[..length]);
        }
    }
}
