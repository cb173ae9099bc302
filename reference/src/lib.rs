//! An ordinary Rust version of the card-file paper: reader, issuing, policy and search. It is what the proved library is held
//! against, so it is plain rather than fast, and shares no code with it.

pub mod card;
pub mod issuing;
pub mod names;
pub mod policy;
pub mod reader;
pub mod reply;
pub mod room;
pub mod search;
pub mod text;

#[cfg(test)]
mod tests;

pub use reply::{Fault, Reply};

use room::{Lent, Path};

/// What a call answers, and what it was lent, bytes or records, as it leaves it.
#[derive(Debug, PartialEq, Eq)]
pub struct Answer<L> {
    pub reply: Reply,
    pub room: Vec<L>,
}

/// The search with the file's own budget; `room` is the room as it is lent.
pub fn search(file: &[u8], room: &[u8]) -> Answer<u8> {
    answer(file, None, room)
}

/// The paused run: `k` in the budget's place, and the waiting paths shown in the room, the bottom one in slot 0.
pub fn paused(file: &[u8], k: u64, room: &[u8]) -> Answer<u8> {
    answer(file, Some(k), room)
}

/// The search with a record lent for each slot.
pub fn search_records(file: &[u8], records: &[Path]) -> Answer<Path> {
    answer(file, None, records)
}

/// The paused run likewise.
pub fn paused_records(file: &[u8], k: u64, records: &[Path]) -> Answer<Path> {
    answer(file, Some(k), records)
}

/// The reply that the terminal prints: the search in room that is always enough.
pub fn terminal(file: &[u8]) -> Reply {
    search(file, &room::ENOUGH).reply
}

fn answer<L: Lent>(file: &[u8], pause: Option<u64>, lent: &[L]) -> Answer<L> {
    let mut room = lent.to_vec();
    let reply = judge(file, pause, &mut room).unwrap_or_else(Reply::Fault);
    Answer { reply, room }
}

/// The faults in the paper's order, then the search. What is lent is written only where no fault is left.
fn judge<L: Lent>(file: &[u8], pause: Option<u64>, room: &mut [L]) -> Result<Reply, Fault> {
    let card = reader::read(file)?;
    if card.bundle.is_empty() {
        return Err(Fault::EmptyChain);
    }
    let slots = room::needed(room, card.bundle.len())?;
    let budget = pause.unwrap_or(card.task.budget);
    let (reply, waiting) = search::validate(&card, budget);
    let shown: &[Vec<usize>] = if pause.is_some() { &waiting } else { &[] };
    room::show(room, slots, shown);
    Ok(reply)
}
