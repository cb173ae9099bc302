//! The search for a chain: a stack of paths, as upstream has it, with a budget of steps.

use crate::card::{Card, Record};
use crate::issuing::Issuers;
use crate::policy;
use crate::reply::Reply;

/// Takes at most `budget` simple paths in the paper's order. Gives the reply and the paths that wait after its steps, the next
/// one last. The bundle must not be empty.
pub fn validate(card: &Card, budget: u64) -> (Reply, Vec<Vec<usize>>) {
    let issuers = Issuers::of(card);
    let mut stack: Vec<Vec<usize>> = vec![vec![0]];
    let mut steps = 0;
    while let Some(path) = stack.pop() {
        if steps == budget {
            stack.push(path);
            return (Reply::Exhausted { steps }, stack);
        }
        steps += 1;
        push_extensions(&mut stack, &path, &issuers);
        if let Some(root) = root_for(card, &path, &issuers) {
            return (Reply::Accepted { steps, root, path }, stack);
        }
    }
    (Reply::Refused { steps }, stack)
}

/// The number of simple paths, found by taking them all, where it is at most `most`: 22 certificates can have more than a u64 counts.
/// The bundle must not be empty.
pub fn paths_within(card: &Card, most: u64) -> Option<u64> {
    let issuers = Issuers::of(card);
    let mut stack: Vec<Vec<usize>> = vec![vec![0]];
    let mut number = 0;
    while let Some(path) = stack.pop() {
        if number == most {
            return None;
        }
        number += 1;
        push_extensions(&mut stack, &path, &issuers);
    }
    Some(number)
}

fn last_of(path: &[usize]) -> usize {
    path[path.len() - 1]
}

/// The larger place is pushed later, and so taken sooner.
fn push_extensions(stack: &mut Vec<Vec<usize>>, path: &[usize], issuers: &Issuers) {
    for place in &issuers.bundle[last_of(path)] {
        if !path.contains(place) {
            let mut longer = path.to_vec();
            longer.push(*place);
            stack.push(longer);
        }
    }
}

/// The lowest root that the path reaches and under which its chain satisfies the policy.
fn root_for(card: &Card, path: &[usize], issuers: &Issuers) -> Option<usize> {
    let satisfies = |root: &usize| {
        let below = path.iter().map(|place| &card.bundle[*place]);
        let chain: Vec<&Record> = below.chain([&card.roots[*root]]).collect();
        policy::satisfied(&chain, &card.task)
    };
    let reached = &issuers.roots[last_of(path)];
    reached.iter().copied().find(satisfies)
}
