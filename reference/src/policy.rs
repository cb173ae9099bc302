//! The policy on a chain, the leaf first and the root last: one function for each rule, in the paper's order.

use crate::card::{flag, usage, Record, Task};
use crate::issuing::self_issued;
use crate::text::match_name;

pub fn satisfied(chain: &[&Record], task: &Task) -> bool {
    let (leaf, above) = (chain[0], &chain[1..]);
    let below_root = &chain[..chain.len() - 1];
    chain.iter().all(|cert| in_time(cert, task.now))
        && below_root.iter().all(|cert| well_formed(cert))
        && chain.iter().all(|cert| !cert.has(flag::UNHANDLED_CRITICAL))
        && above.iter().all(|cert| may_issue(cert))
        && (0..chain.len()).all(|j| within_path_length(chain, j))
        && serves(leaf)
        && answers_to(leaf, task.host)
}

fn in_time(cert: &Record, now: u64) -> bool {
    cert.not_before <= now && now <= cert.not_after
}

fn well_formed(cert: &Record) -> bool {
    cert.version == 2 && cert.outer_algorithm == cert.inner_algorithm
}

fn may_issue(cert: &Record) -> bool {
    cert.has(flag::CA) && (!cert.has(flag::KEY_USAGE) || cert.has(flag::MAY_SIGN))
}

/// A path length counts the certificates between its own and the leaf that are not self-issued.
fn within_path_length(chain: &[&Record], j: usize) -> bool {
    let between = chain[..j].iter().skip(1);
    match chain[j].path_length {
        Some(p) => between.filter(|cert| !self_issued(cert)).count() <= usize::from(p),
        None => true,
    }
}

fn serves(leaf: &Record) -> bool {
    let fits = |u: &u8| *u == usage::SERVER || *u == usage::ANY;
    leaf.usages.is_empty() || leaf.usages.iter().any(fits)
}

fn answers_to(leaf: &Record, host: &[u8]) -> bool {
    let host = host.to_ascii_lowercase();
    let matches = |name: &&[u8]| match_name(&name.to_ascii_lowercase(), &host);
    host.is_empty() || leaf.dns_names.iter().any(matches)
}
