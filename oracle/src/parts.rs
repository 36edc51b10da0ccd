//! A segment taken apart, and put together again with lengths and checksums that are right unless told otherwise.

#[derive(Clone)]
pub struct Entry {
    pub name_at: u32,
    pub name_len: u32,
    pub list_at: u64,
    pub list_len: u64,
    pub df: u32,
    pub checksum: u32,
}

#[derive(Clone)]
pub struct Parts {
    pub magic: [u8; 8],
    pub version: u32,
    pub flags: u32,
    pub documents: u32,
    pub terms: u32,
    pub entries: Vec<Entry>,
    /// bytes behind the last whole entry
    pub directory_tail: Vec<u8>,
    pub names: Vec<u8>,
    pub metadata: Vec<u8>,
    pub postings: Vec<u8>,
    /// added to the right lengths, and exclusive-or'd to the right checksums
    pub wrong_lengths: [u64; 4],
    pub wrong_checksums: [u32; 4],
}

fn u32_at(bytes: &[u8], at: usize) -> u32 {
    u32::from_le_bytes(bytes[at..at + 4].try_into().unwrap())
}

fn u64_at(bytes: &[u8], at: usize) -> u64 {
    u64::from_le_bytes(bytes[at..at + 8].try_into().unwrap())
}

impl Parts {
    /// Of a segment without documents and terms.
    pub fn empty() -> Self {
        Parts {
            magic: *b"PSTP0001",
            version: 2,
            flags: 0,
            documents: 0,
            terms: 0,
            entries: Vec::new(),
            directory_tail: Vec::new(),
            names: Vec::new(),
            metadata: Vec::new(),
            postings: Vec::new(),
            wrong_lengths: [0; 4],
            wrong_checksums: [0; 4],
        }
    }

    /// Of a segment whose header fits.
    pub fn of(bytes: &[u8]) -> Option<Self> {
        if bytes.len() < 72 {
            return None;
        }
        let mut rest = &bytes[72..];
        let mut section = |at: usize| {
            let length = usize::try_from(u64_at(bytes, at)).ok().filter(|length| *length <= rest.len())?;
            let (section, behind) = rest.split_at(length);
            rest = behind;
            Some(section)
        };
        let (directory, names, metadata, postings) = (section(24)?, section(32)?, section(40)?, section(48)?);
        let whole = directory.len() / 32 * 32;
        let entries = directory[..whole].chunks(32).map(|entry| Entry {
            name_at: u32_at(entry, 0),
            name_len: u32_at(entry, 4),
            list_at: u64_at(entry, 8),
            list_len: u64_at(entry, 16),
            df: u32_at(entry, 24),
            checksum: u32_at(entry, 28),
        });
        Some(Parts {
            magic: bytes[..8].try_into().unwrap(),
            version: u32_at(bytes, 8),
            flags: u32_at(bytes, 12),
            documents: u32_at(bytes, 16),
            terms: u32_at(bytes, 20),
            entries: entries.collect(),
            directory_tail: directory[whole..].to_vec(),
            names: names.to_vec(),
            metadata: metadata.to_vec(),
            postings: postings.to_vec(),
            wrong_lengths: [0; 4],
            wrong_checksums: [0; 4],
        })
    }

    pub fn list(&self, entry: &Entry) -> Option<&[u8]> {
        let start = usize::try_from(entry.list_at).ok()?;
        let end = start.checked_add(usize::try_from(entry.list_len).ok()?)?;
        self.postings.get(start..end)
    }

    /// Gives an entry another list, behind all others; the old one's bytes are skipped.
    pub fn put_list(&mut self, entry: usize, list: &[u8]) {
        self.entries[entry].list_at = self.postings.len() as u64;
        self.entries[entry].list_len = list.len() as u64;
        self.postings.extend(list);
    }

    /// Makes the lists' checksums right.
    pub fn sign_lists(&mut self) {
        for i in 0..self.entries.len() {
            if let Some(list) = self.list(&self.entries[i]) {
                self.entries[i].checksum = crc32fast::hash(list);
            }
        }
    }

    /// Takes a byte of the names away; the names behind it move up.
    pub fn cut_name(&mut self, at: usize) {
        self.names.remove(at);
        for entry in &mut self.entries {
            let (start, end) = (u64::from(entry.name_at), u64::from(entry.name_at) + u64::from(entry.name_len));
            entry.name_len -= u32::from((start..end).contains(&(at as u64)));
            entry.name_at -= u32::from(start > at as u64);
        }
    }

    /// Takes a byte of the postings away; the lists behind it move up.
    pub fn cut_list(&mut self, at: usize) {
        self.postings.remove(at);
        for entry in &mut self.entries {
            let (start, end) = (entry.list_at, entry.list_at.saturating_add(entry.list_len));
            entry.list_len -= u64::from((start..end).contains(&(at as u64)));
            entry.list_at -= u64::from(start > at as u64);
        }
    }

    fn directory(&self) -> Vec<u8> {
        let mut bytes = Vec::with_capacity(self.entries.len() * 32);
        for entry in &self.entries {
            bytes.extend(entry.name_at.to_le_bytes());
            bytes.extend(entry.name_len.to_le_bytes());
            bytes.extend(entry.list_at.to_le_bytes());
            bytes.extend(entry.list_len.to_le_bytes());
            bytes.extend(entry.df.to_le_bytes());
            bytes.extend(entry.checksum.to_le_bytes());
        }
        bytes.extend(&self.directory_tail);
        bytes
    }

    pub fn bytes(&self) -> Vec<u8> {
        let directory = self.directory();
        let sections = [&directory, &self.names, &self.metadata, &self.postings];
        let mut bytes = self.magic.to_vec();
        for field in [self.version, self.flags, self.documents, self.terms] {
            bytes.extend(field.to_le_bytes());
        }
        for (section, wrong) in sections.iter().zip(self.wrong_lengths) {
            bytes.extend((section.len() as u64).wrapping_add(wrong).to_le_bytes());
        }
        for (section, wrong) in sections.iter().zip(self.wrong_checksums) {
            bytes.extend((crc32fast::hash(section) ^ wrong).to_le_bytes());
        }
        for section in sections {
            bytes.extend(section);
        }
        bytes
    }
}

/// Makes the four checksums of any bytes right, where the header's ranges fit.
pub fn signed(bytes: &[u8]) -> Vec<u8> {
    let mut signed = bytes.to_vec();
    let mut at = 72usize;
    for section in 0..4 {
        if bytes.len() < 72 {
            break;
        }
        let length = usize::try_from(u64_at(bytes, 24 + 8 * section)).unwrap_or(usize::MAX);
        let Some(end) = at.checked_add(length).filter(|end| *end <= bytes.len()) else { break };
        signed[56 + 4 * section..60 + 4 * section].copy_from_slice(&crc32fast::hash(&bytes[at..end]).to_le_bytes());
        at = end;
    }
    signed
}
