//! A job file opened: its payloads judged in file order, each by rising fault number (docs/FILES.md).
use crate::fault::Fault;
use crate::gas::Gas;
use crate::records::{Record, little_endian, walk};
use crate::tunnel::{ACCOUNT_RANGE, Account, STEP_LIMIT, Tunnel};
use crate::twist::Twist;

/// The numbers of a head behind its two kinds.
struct Head {
    width: usize,
    height: usize,
    period: u32,
    steps: u32,
    mark: u32,
}

/// The tunnel that a file holds, for a run of this gas and this twist source.
pub fn open(file: &[u8], (gas, twist): (Gas, Twist)) -> Result<Tunnel, Fault> {
    let records = walk(file)?;
    let [head, rules, map, field, book, end] = &records[..] else { unreachable!("the walk answers six records") };
    let head = read_head(head, gas, twist)?;
    let cells = head.width * head.height;
    judge_rules(rules, gas)?;
    judge_bytes(map, cells, 17, 12)?;
    judge_bytes(field, cells, gas.states(), 13)?;
    let book = read_book(book, head.steps)?;
    judge_length(end, 0)?;
    Ok(Tunnel {
        gas,
        twist,
        entries: rules.payload.to_vec(),
        width: head.width,
        height: head.height,
        period: head.period,
        steps: head.steps,
        mark: head.mark,
        map: map.payload.to_vec(),
        field: field.payload.to_vec(),
        book,
    })
}

fn judge_length(record: &Record, length: usize) -> Result<(), Fault> {
    refuse_unless(record.payload.len() == length, 7, record, 0)
}

fn refuse_unless(lawful: bool, number: u32, record: &Record, offset: usize) -> Result<(), Fault> {
    if lawful { Ok(()) } else { Err(Fault::new(number, record.number, offset)) }
}

/// The head: its length, then the kinds, then the limits, then the mark.
fn read_head(record: &Record, gas: Gas, twist: Twist) -> Result<Head, Fault> {
    judge_length(record, 16)?;
    let bytes = record.payload;
    refuse_unless(bytes[0] == gas.kind(), 8, record, 0)?;
    refuse_unless(bytes[1] == twist.kind(), 8, record, 1)?;
    let head = Head {
        width: little_endian(&bytes[2..4]) as usize,
        height: little_endian(&bytes[4..6]) as usize,
        period: little_endian(&bytes[6..8]) as u32,
        steps: little_endian(&bytes[8..12]) as u32,
        mark: little_endian(&bytes[12..16]) as u32,
    };
    judge_limits(&head, record)?;
    refuse_unless(twist.is_lawful(head.mark), 10, record, 12)?;
    Ok(head)
}

fn judge_limits(head: &Head, record: &Record) -> Result<(), Fault> {
    let even = head.height % 2 == 0;
    refuse_unless((2..=256).contains(&head.width), 9, record, 2)?;
    refuse_unless((2..=256).contains(&head.height) && even, 9, record, 4)?;
    refuse_unless(head.width * head.height <= 16_384, 9, record, 2)?;
    refuse_unless(head.period <= 999, 9, record, 6)?;
    refuse_unless(head.steps <= STEP_LIMIT, 9, record, 8)
}

/// The rules: an entry for each state under twist 0, then for each under twist 1, every one sound.
fn judge_rules(record: &Record, gas: Gas) -> Result<(), Fault> {
    judge_length(record, 2 * gas.states())?;
    for (offset, &outcome) in record.payload.iter().enumerate() {
        let state = (offset % gas.states()) as u8;
        refuse_unless(gas.is_sound(state, outcome), 11, record, offset)?;
    }
    Ok(())
}

/// A map or a field: a byte for each cell, every one below the limit.
fn judge_bytes(record: &Record, cells: usize, limit: usize, number: u32) -> Result<(), Fault> {
    judge_length(record, cells)?;
    for (offset, &byte) in record.payload.iter().enumerate() {
        refuse_unless(usize::from(byte) < limit, number, record, offset)?;
    }
    Ok(())
}

/// The book: sixteen accounts of two numbers, every one in the range of the step count.
fn read_book(record: &Record, steps: u32) -> Result<[Account; 16], Fault> {
    judge_length(record, 256)?;
    let range = ACCOUNT_RANGE * u64::from(steps);
    let mut numbers = [0; 32];
    for (index, bytes) in record.payload.chunks(8).enumerate() {
        numbers[index] = little_endian(bytes) as i64;
        refuse_unless(numbers[index].unsigned_abs() <= range, 14, record, 8 * index)?;
    }
    Ok(std::array::from_fn(|account| (numbers[2 * account], numbers[2 * account + 1])))
}
