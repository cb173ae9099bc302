//! Reads a card file with no allocation: a record is numbers and parts of the file, and a name stays as it is encoded.

use reference::card::{MOST_CERTIFICATES, MOST_ROOTS};
use std::ops::RangeInclusive;

/// The paper's number of a fault.
pub type Fault = u8;
const UNKNOWN_EDITION: Fault = 4;
const TOO_LONG: Fault = 5;
const CUT_SHORT: Fault = 6;
const BAD_COUNT: Fault = 7;
const BAD_VALUE: Fault = 8;
const LEFT_OVER: Fault = 9;

type Read<T> = Result<T, Fault>;

#[derive(Clone, Copy)]
pub struct Record<'a> {
    pub version: u8,
    pub flags: u8,
    pub not_before: u64,
    pub not_after: u64,
    pub serial: &'a [u8],
    pub outer: &'a [u8],
    pub inner: &'a [u8],
    pub issuer: &'a [u8],
    pub subject: &'a [u8],
    pub authority_key_id: &'a [u8],
    pub authority_serial: &'a [u8],
    pub subject_key_id: &'a [u8],
    pub path_length: u8,
    pub usages: &'a [u8],
    pub dns_names: &'a [u8],
}

impl Record<'_> {
    const NONE: Record<'static> = Record {
        version: 0,
        flags: 0,
        not_before: 0,
        not_after: 0,
        serial: &[],
        outer: &[],
        inner: &[],
        issuer: &[],
        subject: &[],
        authority_key_id: &[],
        authority_serial: &[],
        subject_key_id: &[],
        path_length: 0,
        usages: &[],
        dns_names: &[],
    };

    pub fn has(&self, flag: u8) -> bool {
        self.flags & flag != 0
    }
}

pub struct Records<'a, const MOST: usize> {
    count: usize,
    records: [Record<'a>; MOST],
}

impl<'a, const MOST: usize> Records<'a, MOST> {
    const NONE: Self = Records {
        count: 0,
        records: [Record::NONE; MOST],
    };

    pub fn all(&self) -> &[Record<'a>] {
        &self.records[..self.count]
    }
}

pub struct Card<'a> {
    pub roots: Records<'a, MOST_ROOTS>,
    pub bundle: Records<'a, MOST_CERTIFICATES>,
    /// A row for each issuer, the roots first; in each row a byte for each subject.
    pub verdicts: &'a [u8],
    pub now: u64,
    pub budget: u64,
    pub host: &'a [u8],
}

impl<'a> Card<'a> {
    pub const NONE: Card<'static> = Card {
        roots: Records::NONE,
        bundle: Records::NONE,
        verdicts: &[],
        now: 0,
        budget: 0,
        host: &[],
    };

    /// Reads a file into this card, which is then whole where there is no fault.
    pub fn read(&mut self, file: &'a [u8]) -> Read<()> {
        if file.len() > 65_535 {
            return Err(TOO_LONG);
        }
        let mut cursor = Cursor { rest: file };
        if cursor.byte()? != 1 {
            return Err(UNKNOWN_EDITION);
        }
        cursor.records(&mut self.roots)?;
        cursor.records(&mut self.bundle)?;
        self.verdicts = cursor.verdicts(self.roots.count, self.bundle.count)?;
        cursor.count(1..=1)?;
        self.now = cursor.u64()?;
        self.budget = cursor.u64()?;
        if cursor.byte()? != 0 {
            return Err(BAD_VALUE);
        }
        self.host = cursor.string(0..=253)?;
        if cursor.rest.is_empty() {
            Ok(())
        } else {
            Err(LEFT_OVER)
        }
    }
}

struct Cursor<'a> {
    rest: &'a [u8],
}

impl<'a> Cursor<'a> {
    #[inline]
    fn take(&mut self, n: usize) -> Read<&'a [u8]> {
        let (taken, rest) = self.rest.split_at_checked(n).ok_or(CUT_SHORT)?;
        self.rest = rest;
        Ok(taken)
    }

    #[inline]
    fn byte(&mut self) -> Read<u8> {
        let (byte, rest) = self.rest.split_first().ok_or(CUT_SHORT)?;
        self.rest = rest;
        Ok(*byte)
    }

    #[inline]
    fn u64(&mut self) -> Read<u64> {
        let (bytes, rest) = self.rest.split_first_chunk().ok_or(CUT_SHORT)?;
        self.rest = rest;
        Ok(u64::from_be_bytes(*bytes))
    }

    #[inline]
    fn count(&mut self, range: RangeInclusive<u8>) -> Read<usize> {
        let count = self.byte()?;
        if range.contains(&count) {
            Ok(usize::from(count))
        } else {
            Err(BAD_COUNT)
        }
    }

    #[inline]
    fn string(&mut self, range: RangeInclusive<u8>) -> Read<&'a [u8]> {
        let length = self.count(range)?;
        self.take(length)
    }

    #[inline]
    fn string_if(&mut self, present: bool, range: RangeInclusive<u8>) -> Read<&'a [u8]> {
        if present {
            self.string(range)
        } else {
            Ok(&[])
        }
    }

    /// What a reader passes, as it is encoded.
    #[inline]
    fn passed(&mut self, read: impl FnOnce(&mut Self) -> Read<()>) -> Read<&'a [u8]> {
        let all = self.rest;
        read(self)?;
        Ok(&all[..all.len() - self.rest.len()])
    }

    fn name(&mut self) -> Read<&'a [u8]> {
        self.passed(|cursor| {
            for _ in 0..cursor.count(0..=16)? {
                for _ in 0..cursor.count(1..=4)? {
                    cursor.string(1..=16)?;
                    cursor.string(0..=255)?;
                }
            }
            Ok(())
        })
    }

    fn flags(&mut self) -> Read<u8> {
        let flags = self.byte()?;
        if flags & 24 == 16 || flags & 96 == 64 {
            return Err(BAD_VALUE);
        }
        Ok(flags)
    }

    fn bytes_to(&mut self, count: usize, most: u8) -> Read<&'a [u8]> {
        let there = &self.rest[..count.min(self.rest.len())];
        if there.iter().any(|byte| *byte > most) {
            return Err(BAD_VALUE);
        }
        self.take(count)
    }

    fn usages(&mut self) -> Read<&'a [u8]> {
        let count = self.count(0..=8)?;
        self.bytes_to(count, 7)
    }

    fn dns_names(&mut self) -> Read<&'a [u8]> {
        let count = self.count(0..=32)?;
        self.passed(|cursor| (0..count).try_for_each(|_| cursor.string(1..=253).map(|_| ())))
    }

    fn record(&mut self) -> Read<Record<'a>> {
        let version = self.byte()?;
        let flags = self.flags()?;
        Ok(Record {
            version,
            flags,
            not_before: self.u64()?,
            not_after: self.u64()?,
            serial: self.string(1..=20)?,
            outer: self.string(1..=32)?,
            inner: self.string(1..=32)?,
            issuer: self.name()?,
            subject: self.name()?,
            authority_key_id: self.string_if(flags & 1 != 0, 1..=64)?,
            authority_serial: self.string_if(flags & 2 != 0, 1..=20)?,
            subject_key_id: self.string_if(flags & 4 != 0, 1..=64)?,
            path_length: if flags & 16 != 0 { self.byte()? } else { 255 },
            usages: self.usages()?,
            dns_names: self.dns_names()?,
        })
    }

    fn records<const MOST: usize>(&mut self, into: &mut Records<'a, MOST>) -> Read<()> {
        into.count = self.count(0..=MOST as u8)?;
        for record in &mut into.records[..into.count] {
            *record = self.record()?;
        }
        Ok(())
    }

    fn verdicts(&mut self, roots: usize, bundle: usize) -> Read<&'a [u8]> {
        let (bytes, rest) = self.rest.split_first_chunk().ok_or(CUT_SHORT)?;
        self.rest = rest;
        let count = usize::from(u16::from_be_bytes(*bytes));
        if count != (roots + bundle) * bundle {
            return Err(BAD_COUNT);
        }
        self.bytes_to(count, 1)
    }
}
