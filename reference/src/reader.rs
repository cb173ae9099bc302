//! Reads a card file from left to right. The first fault met is the reply, so each count, length and value is judged
//! as soon as it is read.

use crate::card::{flag, usage, Attribute, Card, Name, Rdn, Record, Task, Verdicts};
use crate::card::{MOST_CERTIFICATES, MOST_ROOTS};
use crate::reply::Fault;
use std::ops::RangeInclusive;

const LONGEST_FILE: usize = 65_535;
const EDITION: u8 = 1;
const PURPOSE_SERVER: u8 = 0;

type Read<T> = Result<T, Fault>;

/// The card in `file`, or the first of replies 5, 6, 4, 7, 8 and 9 that the paper's order finds.
pub fn read(file: &[u8]) -> Read<Card<'_>> {
    if file.len() > LONGEST_FILE {
        return Err(Fault::TooLong);
    }
    let mut cursor = Cursor { rest: file };
    if cursor.byte()? != EDITION {
        return Err(Fault::UnknownEdition);
    }
    let roots = cursor.many(0..=MOST_ROOTS as u8, Cursor::record)?;
    let bundle = cursor.many(0..=MOST_CERTIFICATES as u8, Cursor::record)?;
    let verdicts = cursor.verdicts(roots.len(), bundle.len())?;
    let task = cursor.task()?;
    if !cursor.rest.is_empty() {
        return Err(Fault::LeftOver);
    }
    Ok(Card {
        roots,
        bundle,
        verdicts,
        task,
    })
}

struct Cursor<'a> {
    rest: &'a [u8],
}

impl<'a> Cursor<'a> {
    fn take(&mut self, n: usize) -> Read<&'a [u8]> {
        if n > self.rest.len() {
            return Err(Fault::CutShort);
        }
        let (taken, rest) = self.rest.split_at(n);
        self.rest = rest;
        Ok(taken)
    }

    fn byte(&mut self) -> Read<u8> {
        Ok(self.take(1)?[0])
    }

    fn number(&mut self, bytes: usize) -> Read<u64> {
        let taken = self.take(bytes)?;
        Ok(taken.iter().fold(0, |n, byte| n << 8 | u64::from(*byte)))
    }

    /// A count or a length, judged before anything that it counts.
    fn count(&mut self, range: RangeInclusive<u8>) -> Read<usize> {
        let count = self.byte()?;
        if !range.contains(&count) {
            return Err(Fault::BadCount);
        }
        Ok(usize::from(count))
    }

    fn string(&mut self, range: RangeInclusive<u8>) -> Read<&'a [u8]> {
        let length = self.count(range)?;
        self.take(length)
    }

    fn many<T>(
        &mut self,
        range: RangeInclusive<u8>,
        item: impl Fn(&mut Self) -> Read<T>,
    ) -> Read<Vec<T>> {
        let count = self.count(range)?;
        (0..count).map(|_| item(self)).collect()
    }

    fn value(&mut self, range: RangeInclusive<u8>) -> Read<u8> {
        let value = self.byte()?;
        if !range.contains(&value) {
            return Err(Fault::BadValue);
        }
        Ok(value)
    }

    fn name(&mut self) -> Read<Name<'a>> {
        self.many(0..=16, Self::rdn)
    }

    fn rdn(&mut self) -> Read<Rdn<'a>> {
        self.many(1..=4, Self::attribute)
    }

    fn attribute(&mut self) -> Read<Attribute<'a>> {
        Ok(Attribute {
            oid: self.string(1..=16)?,
            value: self.string(0..=255)?,
        })
    }

    fn flags(&mut self) -> Read<u8> {
        let flags = self.byte()?;
        let needs = |this: u8, that: u8| flags & this == 0 || flags & that != 0;
        if needs(flag::PATH_LENGTH, flag::CA) && needs(flag::MAY_SIGN, flag::KEY_USAGE) {
            Ok(flags)
        } else {
            Err(Fault::BadValue)
        }
    }

    fn record(&mut self) -> Read<Record<'a>> {
        let version = self.byte()?;
        let flags = self.flags()?;
        // fields of a literal are read in the order in which they are written, which is the file's
        Ok(Record {
            version,
            flags,
            not_before: self.number(8)?,
            not_after: self.number(8)?,
            serial: self.string(1..=20)?,
            outer_algorithm: self.string(1..=32)?,
            inner_algorithm: self.string(1..=32)?,
            issuer: self.name()?,
            subject: self.name()?,
            authority_key_id: self.string_if(flags & flag::AUTHORITY_KEY_ID, 1..=64)?,
            authority_serial: self.string_if(flags & flag::AUTHORITY_SERIAL, 1..=20)?,
            subject_key_id: self.string_if(flags & flag::SUBJECT_KEY_ID, 1..=64)?,
            path_length: match flags & flag::PATH_LENGTH {
                0 => None,
                _ => Some(self.byte()?),
            },
            usages: self.many(0..=8, |cursor| cursor.value(0..=usage::OTHER))?,
            dns_names: self.many(0..=32, |cursor| cursor.string(1..=253))?,
        })
    }

    fn string_if(&mut self, flag: u8, range: RangeInclusive<u8>) -> Read<Option<&'a [u8]>> {
        match flag {
            0 => Ok(None),
            _ => self.string(range).map(Some),
        }
    }

    fn verdicts(&mut self, roots: usize, bundle: usize) -> Read<Verdicts> {
        if self.number(2)? != ((roots + bundle) * bundle) as u64 {
            return Err(Fault::BadCount);
        }
        Ok(Verdicts {
            by_root: self.rows(roots, bundle)?,
            by_bundle: self.rows(bundle, bundle)?,
        })
    }

    fn rows(&mut self, rows: usize, columns: usize) -> Read<Vec<Vec<bool>>> {
        let mut row = || {
            (0..columns)
                .map(|_| Ok(self.value(0..=1)? == 1))
                .collect::<Read<Vec<bool>>>()
        };
        (0..rows).map(|_| row()).collect()
    }

    fn task(&mut self) -> Read<Task<'a>> {
        self.count(1..=1)?;
        let now = self.number(8)?;
        let budget = self.number(8)?;
        self.value(PURPOSE_SERVER..=PURPOSE_SERVER)?;
        let host = self.string(0..=253)?;
        Ok(Task { now, budget, host })
    }
}
