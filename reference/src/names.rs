//! When two names are the same, values compared in normal form.

use crate::card::Attribute;
use crate::text::normalise;

pub fn same_attr(a: &Attribute, b: &Attribute) -> bool {
    a.oid == b.oid && normalise(a.value) == normalise(b.value)
}

/// As many attributes, and each of the first has a match in the second. Which is the first can decide: (a, a) is the same as (a, b), and
/// (a, b) is not the same as (a, a).
pub fn same_rdn(a: &[Attribute], b: &[Attribute]) -> bool {
    a.len() == b.len() && a.iter().all(|x| b.iter().any(|y| same_attr(x, y)))
}

/// As many RDNs, each of the first the same as the one at its place in the second.
pub fn same_dn(a: &[Vec<Attribute>], b: &[Vec<Attribute>]) -> bool {
    a.len() == b.len() && a.iter().zip(b).all(|(x, y)| same_rdn(x, y))
}
