//! Files as records of four little-endian words.

pub const RECORD_BYTES: usize = 16;

#[derive(Clone, Copy, Debug, PartialEq, Eq)]
pub struct Record {
    pub kind: u32,
    pub a: u32,
    pub b: u32,
    pub c: u32,
}

impl Record {
    pub const fn new(kind: u32, a: u32, b: u32, c: u32) -> Record {
        Record { kind, a, b, c }
    }

    pub fn from_bytes(bytes: &[u8]) -> Record {
        let word = |i: usize| {
            let mut four = [0; 4];
            four.copy_from_slice(&bytes[4 * i..4 * i + 4]);
            u32::from_le_bytes(four)
        };
        Record::new(word(0), word(1), word(2), word(3))
    }

    /// A rule node's chain of parts.
    pub fn parts(self) -> u32 {
        self.a
    }

    /// A rule node's chain of premises.
    pub fn premises(self) -> u32 {
        self.b
    }

    pub fn words(self) -> [u32; 4] {
        [self.kind, self.a, self.b, self.c]
    }
}

/// The whole records of a file, header first; bytes after the last whole record are left out.
pub fn records(bytes: &[u8]) -> Vec<Record> {
    bytes
        .chunks_exact(RECORD_BYTES)
        .map(Record::from_bytes)
        .collect()
}

pub fn to_bytes(records: &[Record]) -> Vec<u8> {
    let mut bytes = Vec::with_capacity(records.len() * RECORD_BYTES);
    for record in records {
        for word in record.words() {
            bytes.extend_from_slice(&word.to_le_bytes());
        }
    }
    bytes
}
