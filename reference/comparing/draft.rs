//! A card file in the making. Its parts may have any length and value, also such as a reader refuses.

pub type Attribute = (Vec<u8>, Vec<u8>);
pub type Name = Vec<Vec<Attribute>>;

#[derive(Clone)]
pub struct Cert {
    pub version: u8,
    pub ca: bool,
    /// Whether it may sign certificates, where it has a key usage.
    pub key_usage: Option<bool>,
    pub critical: bool,
    /// Flags set beside those that the parts ask for.
    pub stray_flags: u8,
    pub not_before: u64,
    pub not_after: u64,
    pub serial: Vec<u8>,
    pub outer: Vec<u8>,
    pub inner: Vec<u8>,
    pub issuer: Name,
    pub subject: Name,
    pub authority_key_id: Option<Vec<u8>>,
    pub authority_serial: Option<Vec<u8>>,
    pub subject_key_id: Option<Vec<u8>>,
    pub path_length: Option<u8>,
    pub usages: Vec<u8>,
    pub dns_names: Vec<Vec<u8>>,
}

pub struct Draft {
    pub edition: u8,
    pub roots: Vec<Cert>,
    pub bundle: Vec<Cert>,
    /// A row for each issuer, the roots first.
    pub verdicts: Vec<Vec<u8>>,
    /// What the count of verdicts says too much.
    pub stray_verdicts: u16,
    pub tasks: u8,
    pub now: u64,
    pub budget: u64,
    pub purpose: u8,
    pub host: Vec<u8>,
}

impl Draft {
    pub fn bytes(&self) -> Vec<u8> {
        let mut out = vec![self.edition];
        for certs in [&self.roots, &self.bundle] {
            out.push(certs.len() as u8);
            certs.iter().for_each(|cert| cert.write(&mut out));
        }
        let verdicts = self.verdicts.concat();
        let count = (verdicts.len() as u16).wrapping_add(self.stray_verdicts);
        out.extend(count.to_be_bytes());
        out.extend(verdicts);
        out.push(self.tasks);
        out.extend(self.now.to_be_bytes());
        out.extend(self.budget.to_be_bytes());
        out.push(self.purpose);
        string(&mut out, &self.host);
        out
    }

    /// The record at a place, counted through roots and bundle.
    pub fn cert(&mut self, place: usize) -> &mut Cert {
        let roots = self.roots.len();
        match place < roots {
            true => &mut self.roots[place],
            false => &mut self.bundle[place - roots],
        }
    }

    pub fn certs(&self) -> usize {
        self.roots.len() + self.bundle.len()
    }
}

impl Cert {
    fn flags(&self) -> u8 {
        let bits = [
            self.authority_key_id.is_some(),
            self.authority_serial.is_some(),
            self.subject_key_id.is_some(),
            self.ca,
            self.path_length.is_some(),
            self.key_usage.is_some(),
            self.key_usage == Some(true),
            self.critical,
        ];
        let flags = (0..8).map(|bit| u8::from(bits[bit]) << bit).sum::<u8>();
        flags | self.stray_flags
    }

    fn write(&self, out: &mut Vec<u8>) {
        out.extend([self.version, self.flags()]);
        out.extend(self.not_before.to_be_bytes());
        out.extend(self.not_after.to_be_bytes());
        for part in [&self.serial, &self.outer, &self.inner] {
            string(out, part);
        }
        name(out, &self.issuer);
        name(out, &self.subject);
        let optional = [
            &self.authority_key_id,
            &self.authority_serial,
            &self.subject_key_id,
        ];
        for part in optional.into_iter().flatten() {
            string(out, part);
        }
        out.extend(self.path_length);
        string(out, &self.usages);
        out.push(self.dns_names.len() as u8);
        self.dns_names.iter().for_each(|dns| string(out, dns));
    }
}

fn string(out: &mut Vec<u8>, bytes: &[u8]) {
    out.push(bytes.len() as u8);
    out.extend(bytes);
}

fn name(out: &mut Vec<u8>, name: &Name) {
    out.push(name.len() as u8);
    for rdn in name {
        out.push(rdn.len() as u8);
        for (oid, value) in rdn {
            string(out, oid);
            string(out, value);
        }
    }
}
