//! What a card file holds once it is read. Strings are borrowed from the file.

/// The most roots that a file has.
pub const MOST_ROOTS: usize = 64;
/// The most certificates that a bundle has, and so the most places of a path.
pub const MOST_CERTIFICATES: usize = 24;

pub struct Card<'a> {
    pub roots: Vec<Record<'a>>,
    pub bundle: Vec<Record<'a>>,
    pub verdicts: Verdicts,
    pub task: Task<'a>,
}

/// Which signatures held: a row for each issuer, in it a column for each bundle subject.
pub struct Verdicts {
    pub by_root: Vec<Vec<bool>>,
    pub by_bundle: Vec<Vec<bool>>,
}

pub struct Task<'a> {
    pub now: u64,
    pub budget: u64,
    /// Empty where no host is asked.
    pub host: &'a [u8],
}

pub struct Record<'a> {
    pub version: u8,
    pub flags: u8,
    pub not_before: u64,
    pub not_after: u64,
    pub serial: &'a [u8],
    pub outer_algorithm: &'a [u8],
    pub inner_algorithm: &'a [u8],
    pub issuer: Name<'a>,
    pub subject: Name<'a>,
    pub authority_key_id: Option<&'a [u8]>,
    pub authority_serial: Option<&'a [u8]>,
    pub subject_key_id: Option<&'a [u8]>,
    pub path_length: Option<u8>,
    pub usages: Vec<u8>,
    pub dns_names: Vec<&'a [u8]>,
}

/// RDNs in order, each of one to four attributes.
pub type Name<'a> = Vec<Rdn<'a>>;
pub type Rdn<'a> = Vec<Attribute<'a>>;

pub struct Attribute<'a> {
    pub oid: &'a [u8],
    pub value: &'a [u8],
}

pub mod flag {
    //! The bits of a record's flags byte.
    pub const AUTHORITY_KEY_ID: u8 = 1;
    pub const AUTHORITY_SERIAL: u8 = 2;
    pub const SUBJECT_KEY_ID: u8 = 4;
    pub const CA: u8 = 8;
    pub const PATH_LENGTH: u8 = 16;
    pub const KEY_USAGE: u8 = 32;
    pub const MAY_SIGN: u8 = 64;
    pub const UNHANDLED_CRITICAL: u8 = 128;
}

pub mod usage {
    //! The usages that the policy asks for.
    pub const SERVER: u8 = 0;
    pub const ANY: u8 = 6;
    /// The last usage that a record may list.
    pub const OTHER: u8 = 7;
}

impl Record<'_> {
    pub fn has(&self, flag: u8) -> bool {
        self.flags & flag != 0
    }
}
