//! Who issued whom: names and key ids that fit, and a verdict of 1. And who is self-issued: by the names alone.

use crate::card::{Card, Record};
use crate::names::same_dn;

/// The issuers of each bundle place, in rising order. They are worked out once for a card; upstream keeps those among the roots
/// and asks for those in the bundle again at every step.
pub struct Issuers {
    pub roots: Vec<Vec<usize>>,
    pub bundle: Vec<Vec<usize>>,
}

impl Issuers {
    pub fn of(card: &Card) -> Issuers {
        let all = |issuers: &[Record], rows: &[Vec<bool>]| {
            let subjects = card.bundle.iter().enumerate();
            subjects
                .map(|(column, subject)| issuers_of(subject, column, issuers, rows))
                .collect()
        };
        Issuers {
            roots: all(&card.roots, &card.verdicts.by_root),
            bundle: all(&card.bundle, &card.verdicts.by_bundle),
        }
    }
}

fn issuers_of(
    subject: &Record,
    column: usize,
    issuers: &[Record],
    rows: &[Vec<bool>],
) -> Vec<usize> {
    let issued = |place: &usize| rows[*place][column] && likely_issued(&issuers[*place], subject);
    (0..issuers.len()).filter(issued).collect()
}

/// The subject's issuer name comes first.
pub fn likely_issued(issuer: &Record, subject: &Record) -> bool {
    same_dn(&subject.issuer, &issuer.subject) && check_auth_key_id(issuer, subject)
}

/// Issued under its own name, whoever's key signed it. As above, the issuer name comes first.
pub fn self_issued(cert: &Record) -> bool {
    same_dn(&cert.issuer, &cert.subject)
}

/// A part of the subject's authority key id that is missing asks for nothing, nor does a key id that the issuer lacks.
pub fn check_auth_key_id(issuer: &Record, subject: &Record) -> bool {
    let key_id = match (subject.authority_key_id, issuer.subject_key_id) {
        (Some(authority), Some(own)) => authority == own,
        _ => true,
    };
    let serial = match subject.authority_serial {
        Some(authority) => authority == issuer.serial,
        None => true,
    };
    key_id && serial
}
