//! Rust by depths: the library's own walk, with all that it keeps: rows of 64 bits, and for each depth the places that the path before
//! leaves free and how that path stands. A step goes through no path. The lent room is left as it is.
//!
//! CHECKED says whether Rust looks at each index: with it the walk is ordinary safe Rust, without it what the library is, whose indexes
//! are proved to be within their arrays.

use crate::answer::Answer;
use crate::question::Question;
use crate::seats::Seats;
use reference::card::MOST_CERTIFICATES;

fn at<const CHECKED: bool, T: Copy, const LENGTH: usize>(list: &[T; LENGTH], index: usize) -> T {
    if CHECKED {
        return list[index];
    }
    // SAFETY: the walk is the library's, of which it is proved that every index is within its array
    unsafe { *list.get_unchecked(index) }
}

fn put<const CHECKED: bool, T>(list: &mut [T; MOST_CERTIFICATES], index: usize, value: T) {
    if CHECKED {
        list[index] = value;
        return;
    }
    // SAFETY: as in `at`
    unsafe { *list.get_unchecked_mut(index) = value }
}

/// How a path stands: its seat. It grows by one with each certificate that counts, and is 0 if one may not stand where it does.
#[derive(Clone, Copy)]
struct Standing {
    seat: usize,
}

impl Standing {
    const BEGUN: Standing = Standing { seat: 1 };

    /// The roots that may stand above the path.
    fn over<const CHECKED: bool>(self, seats: &Seats) -> u64 {
        if self.seat < Seats::MOST {
            return at::<CHECKED, _, _>(&seats.rows, self.seat);
        }
        0
    }

    /// How a path stands that goes on by a place.
    fn added<const CHECKED: bool>(self, seats: &Seats, place: usize) -> Standing {
        let seat = self.seat;
        if seat < Seats::MOST {
            if at::<CHECKED, _, _>(&seats.rows, Seats::COUNTED + seat) >> place & 1 != 0 {
                return Standing { seat: seat + 1 };
            }
            if at::<CHECKED, _, _>(&seats.rows, Seats::OTHERS + seat) >> place & 1 != 0 {
                return Standing { seat };
            }
        }
        Standing { seat: 0 }
    }
}

/// What is kept of a depth beside the places that are still to be taken there.
#[derive(Clone, Copy)]
struct Level {
    /// The places that the path before leaves free.
    free: u64,
    standing: Standing,
}

pub fn walk<const CHECKED: bool>(question: &Question) -> Answer {
    let seats = Seats::of(question);
    let issuers = question.issuers.map(u64::from);
    let roots = question.roots;
    let mut here = Level {
        free: (1 << question.size) - 1,
        standing: Standing::BEGUN,
    };
    let mut row: u64 = 1;
    let mut ahead = [0; MOST_CERTIFICATES];
    let mut levels = [here; MOST_CERTIFICATES];
    let mut path = [0; MOST_CERTIFICATES];
    let mut depth = 0;
    let mut steps = 0;
    loop {
        if row == 0 {
            if depth == 0 {
                return Answer::without_path(1, steps);
            }
            depth -= 1;
            row = at::<CHECKED, _, _>(&ahead, depth);
            here = at::<CHECKED, _, _>(&levels, depth);
            continue;
        }
        if steps == question.budget {
            return Answer::without_path(2, steps);
        }
        steps += 1;
        let place = row.ilog2() as usize;
        put::<CHECKED, _>(&mut path, depth, place as u8);
        row ^= 1 << place;
        let free = here.free & !(1 << place);
        let next = free & at::<CHECKED, _, _>(&issuers, place);
        let standing = here.standing.added::<CHECKED>(&seats, place);
        let tops = standing.over::<CHECKED>(&seats) & at::<CHECKED, _, _>(&roots, place);
        let length = depth + 1;
        if next != 0 {
            put::<CHECKED, _>(&mut ahead, depth, row);
            put::<CHECKED, _>(&mut levels, depth, here);
            here = Level { free, standing };
            row = next;
            depth = length;
        }
        if tops != 0 {
            let root = tops.trailing_zeros() as u8;
            return Answer::accepted(steps, root, &path[..length]);
        }
    }
}
