//! Tuned Rust: the library's own slots in the lent room, the places of a path as the bits of a mask, no allocation.

use crate::answer::Answer;
use crate::question::Question;
use reference::room::SLOT;

pub fn walk(question: &Question, slots: &mut [u8]) -> Answer {
    let (slots, _) = slots.as_chunks_mut::<SLOT>();
    slots[0] = [0; SLOT];
    slots[0][0] = 1;
    let mut waiting = 1;
    let mut steps = 0;
    while waiting > 0 {
        if steps == question.budget {
            return Answer::without_path(2, steps);
        }
        waiting -= 1;
        steps += 1;
        let slot = slots[waiting];
        let length = usize::from(slot[0]);
        let path = &slot[1..=length];
        if let Some(root) = question.root_above(path) {
            return Answer::accepted(steps, root, path);
        }
        let used = path.iter().fold(0, |used, place| used | 1 << place);
        let mut next = question.issuers[usize::from(slot[length])] & !used;
        while next != 0 {
            let child = &mut slots[waiting];
            *child = slot;
            child[0] += 1;
            child[length + 1] = next.trailing_zeros() as u8;
            waiting += 1;
            next &= next - 1;
        }
    }
    Answer::without_path(1, steps)
}
