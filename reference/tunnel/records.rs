//! A file is a row of records: each has a kind, a length, a check and a payload (docs/FILES.md).
use crate::fault::Fault;

/// The longest file.
const LONGEST: usize = 65_536;
/// The bytes before a payload.
const HEADER: usize = 8;
/// The known kinds in their order: head, rules, map, field, book, end.
const ORDER: [u8; 6] = [2, 3, 4, 5, 6, 1];
/// Records of this kind or a higher one are skipped.
const SKIPPED: u8 = 128;

/// A known record: its number in the file, skipped ones counted, and its payload.
pub struct Record<'a> {
    pub number: usize,
    pub payload: &'a [u8],
}

/// The six known records of a file in order, or the first fault of the file.
pub fn walk(file: &[u8]) -> Result<Vec<Record<'_>>, Fault> {
    if file.is_empty() || file.len() > LONGEST {
        return Err(Fault::new(1, 0, 0));
    }
    let mut known = Vec::new();
    let mut rest = file;
    let mut number = 0;
    while known.len() < ORDER.len() && !rest.is_empty() {
        let (kind, payload, behind) = first_record(rest, number)?;
        if kind < SKIPPED {
            judge_kind(kind, known.len(), number)?;
            known.push(Record { number, payload });
        }
        rest = behind;
        number += 1;
    }
    if known.len() < ORDER.len() || !rest.is_empty() {
        return Err(Fault::new(6, number, 0));
    }
    Ok(known)
}

/// Kind, payload and what is behind, of a record that is whole and fits its check.
fn first_record(bytes: &[u8], number: usize) -> Result<(u8, &[u8], &[u8]), Fault> {
    if bytes.len() < HEADER {
        return Err(Fault::new(2, number, 0));
    }
    let length = little_endian(&bytes[1..4]) as usize;
    let check = little_endian(&bytes[4..8]);
    let rest = &bytes[HEADER..];
    if rest.len() < length {
        return Err(Fault::new(2, number, 0));
    }
    let (payload, behind) = rest.split_at(length);
    if check_of(payload) != check {
        return Err(Fault::new(3, number, 0));
    }
    Ok((bytes[0], payload, behind))
}

/// A kind below 128 has to exist, and to be next in order.
fn judge_kind(kind: u8, known: usize, number: usize) -> Result<(), Fault> {
    if !ORDER.contains(&kind) {
        return Err(Fault::new(4, number, 0));
    }
    if kind != ORDER[known] {
        return Err(Fault::new(5, number, 0));
    }
    Ok(())
}

/// One plus the sum of place times byte, places from 1, modulo 2^32.
fn check_of(payload: &[u8]) -> u64 {
    let weighted = (1..).zip(payload).map(|(place, &byte): (u64, &u8)| place * u64::from(byte));
    (1 + weighted.sum::<u64>()) % (1 << 32)
}

/// The number of at most eight bytes, the lowest first.
pub fn little_endian(bytes: &[u8]) -> u64 {
    bytes.iter().rev().fold(0, |number, &byte| number << 8 | u64::from(byte))
}
