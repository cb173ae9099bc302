//! Ordinary Rust: a stack of paths in arrays of places, and a scan of the path for each candidate.

use crate::answer::Answer;
use crate::question::Question;
use reference::card::MOST_CERTIFICATES;

#[derive(Clone, Copy)]
struct Path {
    length: usize,
    places: [u8; MOST_CERTIFICATES],
}

impl Path {
    fn places(&self) -> &[u8] {
        &self.places[..self.length]
    }

    fn with(mut self, place: u8) -> Path {
        self.places[self.length] = place;
        self.length += 1;
        self
    }
}

pub fn walk(question: &Question) -> Answer {
    let leaf = Path {
        length: 1,
        places: [0; MOST_CERTIFICATES],
    };
    let mut stack = vec![leaf];
    let mut steps = 0;
    while let Some(path) = stack.pop() {
        if steps == question.budget {
            return Answer::without_path(2, steps);
        }
        steps += 1;
        if let Some(root) = question.root_above(path.places()) {
            return Answer::accepted(steps, root, path.places());
        }
        let last = usize::from(path.places[path.length - 1]);
        for place in 0..question.size as u8 {
            if question.issuers[last] >> place & 1 != 0 && !path.places().contains(&place) {
                stack.push(path.with(place));
            }
        }
    }
    Answer::without_path(1, steps)
}
