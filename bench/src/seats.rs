//! Who may stand where in the walks by depths, worked out once from the path lengths.

use crate::question::Question;
use reference::card::MOST_CERTIFICATES;

/// Three rows for each seat: the roots that may stand above, the places that may come next and count, and those that may and don't. Seat 0
/// is none, seat 1 is before the leaf, and each after it is above the leaf and one certificate more that counts.
pub struct Seats {
    pub rows: [u64; Seats::ROWS],
}

impl Seats {
    pub const MOST: usize = MOST_CERTIFICATES + 2;
    pub const COUNTED: usize = Seats::MOST;
    pub const OTHERS: usize = 2 * Seats::MOST;
    pub const ROWS: usize = 3 * Seats::MOST;

    pub fn of(question: &Question) -> Seats {
        let last = question.size - 1;
        let counted = u64::from(question.counted);
        let others = u64::from(question.between) & !counted;
        // only roots that issued some place are ever asked for
        let roots = question.roots.iter().fold(0, |all, row| all | row);
        let mut rows = [0; Seats::ROWS];
        let (above, places) = rows.split_at_mut(Seats::COUNTED);
        let (counting, not) = places.split_at_mut(Seats::OTHERS - Seats::COUNTED);
        fill(&mut above[2..], last, roots, &question.root_limits);
        fill(&mut counting[2..], last, counted, &question.place_limits);
        fill(&mut not[2..], last, others, &question.place_limits);
        counting[1] = 1;
        Seats { rows }
    }
}

/// Who may stand above so many may stand above fewer, so each is entered in the last row where it may and then handed on.
fn fill(rows: &mut [u64], last: usize, sound: u64, limits: &[u8]) {
    let mut rest = sound;
    while rest != 0 {
        let one = rest.trailing_zeros() as usize;
        rows[usize::from(limits[one]).min(last)] |= 1 << one;
        rest &= rest - 1;
    }
    for row in (1..=last).rev() {
        rows[row - 1] |= rows[row];
    }
}
