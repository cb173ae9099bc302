//! Makes card files: certificates in plain Rust values, and the bytes that stand for them (docs/CARD-FILE.md, "Layout").

pub type Name = Vec<Rdn>;

/// Attributes, each an OID and a value.
pub type Rdn = Vec<(&'static [u8], String)>;

#[derive(Clone, Default)]
pub struct Certificate {
    pub version: u8,
    pub not_before: u64,
    pub not_after: u64,
    pub serial: Vec<u8>,
    pub algorithm: Vec<u8>,
    pub issuer: Name,
    pub subject: Name,
    pub authority_key_id: Vec<u8>,
    pub subject_key_id: Vec<u8>,
    pub authority: bool,
    pub path_length: Option<u8>,
    pub usages: Vec<u8>,
    pub dns_names: Vec<String>,
}

pub struct Card {
    pub roots: Vec<Certificate>,
    pub bundle: Vec<Certificate>,
    /// Whether a signature held: the issuer's place, the roots first, and the subject's place in the bundle.
    pub signed: Box<dyn Fn(usize, usize) -> bool>,
    pub now: u64,
    pub budget: u64,
    pub host: String,
}

impl Card {
    pub fn file(&self) -> Vec<u8> {
        let mut file = vec![1, self.roots.len() as u8];
        self.roots.iter().for_each(|root| root.put(&mut file));
        file.push(self.bundle.len() as u8);
        self.bundle.iter().for_each(|each| each.put(&mut file));
        let issuers = self.roots.len() + self.bundle.len();
        let verdicts = issuers * self.bundle.len();
        file.extend((verdicts as u16).to_be_bytes());
        for issuer in 0..issuers {
            file.extend((0..self.bundle.len()).map(|subject| (self.signed)(issuer, subject) as u8));
        }
        file.push(1);
        file.extend(self.now.to_be_bytes());
        file.extend(self.budget.to_be_bytes());
        file.push(0);
        put_string(&mut file, self.host.as_bytes());
        file
    }
}

impl Certificate {
    fn flags(&self) -> u8 {
        let mut flags = 0;
        for (holds, flag) in [
            (!self.authority_key_id.is_empty(), 1),
            (!self.subject_key_id.is_empty(), 4),
            (self.authority, 8 + 32 + 64),
            (self.path_length.is_some(), 16),
        ] {
            flags += if holds { flag } else { 0 };
        }
        flags
    }

    fn put(&self, file: &mut Vec<u8>) {
        file.extend([self.version, self.flags()]);
        file.extend(self.not_before.to_be_bytes());
        file.extend(self.not_after.to_be_bytes());
        put_string(file, &self.serial);
        put_string(file, &self.algorithm);
        put_string(file, &self.algorithm);
        put_name(file, &self.issuer);
        put_name(file, &self.subject);
        for id in [&self.authority_key_id, &self.subject_key_id] {
            if !id.is_empty() {
                put_string(file, id);
            }
        }
        file.extend(self.path_length);
        put_string(file, &self.usages);
        file.push(self.dns_names.len() as u8);
        for name in &self.dns_names {
            put_string(file, name.as_bytes());
        }
    }
}

fn put_string(file: &mut Vec<u8>, bytes: &[u8]) {
    file.push(bytes.len() as u8);
    file.extend(bytes);
}

fn put_name(file: &mut Vec<u8>, name: &Name) {
    file.push(name.len() as u8);
    for rdn in name {
        file.push(rdn.len() as u8);
        for (oid, value) in rdn {
            put_string(file, oid);
            put_string(file, value.as_bytes());
        }
    }
}
