//! What every version answers, in the form of the library's C face.

use reference::card::MOST_CERTIFICATES;

#[repr(C)]
#[derive(Debug, Clone, Copy, PartialEq, Eq)]
pub struct Answer {
    pub steps: u64,
    pub number: u8,
    pub root: u8,
    pub length: u8,
    pub path: [u8; MOST_CERTIFICATES],
}

impl Answer {
    pub fn accepted(steps: u64, root: u8, places: &[u8]) -> Answer {
        let mut path = [0; MOST_CERTIFICATES];
        path[..places.len()].copy_from_slice(places);
        Answer {
            steps,
            number: 0,
            root,
            length: places.len() as u8,
            path,
        }
    }

    /// An answer that shows no path, under the paper's number.
    pub fn without_path(number: u8, steps: u64) -> Answer {
        Answer {
            steps,
            number,
            root: 0,
            length: 0,
            path: [0; MOST_CERTIFICATES],
        }
    }
}
