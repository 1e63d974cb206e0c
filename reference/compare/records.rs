//! Records as they are written: kind, length, check, payload.

/// The longest file.
pub const LONGEST: usize = 65_536;

#[derive(Clone)]
pub struct Record {
    pub kind: u8,
    /// The length that the header tells, which damage can make a lie.
    pub length: u32,
    pub check: u32,
    pub payload: Vec<u8>,
}

impl Record {
    pub fn new(kind: u8, payload: Vec<u8>) -> Record {
        let mut record = Record { kind, length: 0, check: 0, payload };
        record.seal();
        record
    }

    /// Makes length and check fit the payload.
    pub fn seal(&mut self) {
        self.length = self.payload.len() as u32;
        self.check = check_of(&self.payload);
    }

    pub fn bytes(&self) -> Vec<u8> {
        let mut bytes = vec![self.kind];
        bytes.extend(&self.length.to_le_bytes()[..3]);
        bytes.extend(self.check.to_le_bytes());
        bytes.extend(&self.payload);
        bytes
    }
}

/// One plus the sum of place times byte, places from 1, modulo 2^32.
pub fn check_of(payload: &[u8]) -> u32 {
    let mut check = 1u32;
    for (index, &byte) in payload.iter().enumerate() {
        check = check.wrapping_add((index as u32 + 1).wrapping_mul(u32::from(byte)));
    }
    check
}

/// The file that these records make.
pub fn joined(records: &[Record]) -> Vec<u8> {
    records.iter().flat_map(Record::bytes).collect()
}

/// Puts a note before the record at this place, so long that the file has exactly so many bytes.
pub fn fill(records: &mut Vec<Record>, place: usize, length: usize) {
    let taken = joined(records).len() + 8;
    let payload = vec![b'.'; length.saturating_sub(taken)];
    records.insert(place, Record::new(200, payload));
}
