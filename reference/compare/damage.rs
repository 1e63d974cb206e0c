//! Damage: what can be wrong with an input, from its first line to the last number of its book.
use crate::first_lines::FIRST_LINES;
use crate::jobs::{ACCOUNT_RANGE, Job, STEP_LIMIT, sound_job, sound_job_on};
use crate::notes::put_notes;
use crate::random::Random;
use crate::records::{LONGEST, Record, check_of, fill, joined};
use crate::rules::Gas;

/// Damage to what the records say (their checks fit), to the records, or to the file's bytes.
#[derive(Clone, Copy)]
pub enum Damage {
    Job(fn(&mut Job, &mut Random)),
    /// The payload of the record of this kind is too long or too short.
    Length(u8),
    Records(fn(&mut Vec<Record>, &mut Random)),
    Bytes(fn(&mut Vec<u8>, &mut Random)),
}

/// Every damage. The first makes the job anew, so it has to come before others.
pub const DAMAGES: [Damage; 36] = [
    Damage::Job(report_too_long),
    Damage::Job(bad_first_line),
    Damage::Job(patch_that_does_not_divide),
    Damage::Job(step_count_at_its_end),
    Damage::Job(wrong_gas_kind),
    Damage::Job(wrong_twist_kind),
    Damage::Job(bad_width),
    Damage::Job(too_many_cells),
    Damage::Job(bad_height),
    Damage::Job(bad_period),
    Damage::Job(bad_step_count),
    Damage::Job(unlawful_mark),
    Damage::Job(unsound_entry),
    Damage::Job(bad_map_byte),
    Damage::Job(bad_field_byte),
    Damage::Job(bad_account),
    Damage::Length(2),
    Damage::Length(3),
    Damage::Length(4),
    Damage::Length(5),
    Damage::Length(6),
    Damage::Length(1),
    Damage::Records(wrong_check),
    Damage::Records(unknown_kind),
    Damage::Records(other_kind),
    Damage::Records(swapped_records),
    Damage::Records(missing_record),
    Damage::Records(missing_end),
    Damage::Records(doubled_record),
    Damage::Records(lying_length),
    Damage::Records(file_too_long),
    Damage::Records(file_goes_on),
    Damage::Bytes(cut),
    Damage::Bytes(flipped),
    Damage::Bytes(bytes_behind),
    Damage::Bytes(emptied),
];

/// A sound input, with notes or without.
pub fn sound_input(random: &mut Random) -> Vec<u8> {
    let job = sound_job(random);
    let mut records = job.records();
    put_notes(&mut records, random);
    [job.first_line(), joined(&records)].concat()
}

/// An input with these damages.
pub fn damaged_input(damages: &[Damage], random: &mut Random) -> Vec<u8> {
    let job = damaged_job(damages, random);
    let records = damaged_records(&job, damages, random);
    let bytes = damaged_bytes(&records, damages, random);
    [job.first_line(), bytes].concat()
}

fn damaged_job(damages: &[Damage], random: &mut Random) -> Job {
    let mut job = sound_job(random);
    for damage in damages {
        if let Damage::Job(harm) = damage {
            harm(&mut job, random);
        }
    }
    job
}

fn damaged_records(job: &Job, damages: &[Damage], random: &mut Random) -> Vec<Record> {
    let mut records = job.records();
    put_notes(&mut records, random);
    for damage in damages {
        match damage {
            Damage::Records(harm) => harm(&mut records, random),
            Damage::Length(kind) => wrong_length(&mut records, *kind, random),
            _ => {}
        }
    }
    records
}

fn damaged_bytes(records: &[Record], damages: &[Damage], random: &mut Random) -> Vec<u8> {
    let mut bytes = joined(records);
    for damage in damages {
        if let Damage::Bytes(harm) = damage {
            harm(&mut bytes, random);
        }
    }
    bytes
}

// Damage to the first line and to the arguments.

fn bad_first_line(job: &mut Job, random: &mut Random) {
    let (line, _) = random.pick(&FIRST_LINES);
    job.line = Some(line.as_bytes().to_vec());
}

/// Patches that fit neither side of the grid, or one of them alone.
fn patch_that_does_not_divide(job: &mut Job, random: &mut Random) {
    let fits = |b: u32| [job.width, job.height].map(|side| u32::from(side) % b == 0);
    let neither: Vec<u32> = (1..=64).filter(|&b| fits(b) == [false, false]).collect();
    let one: Vec<u32> = (1..=64).filter(|&b| fits(b)[0] != fits(b)[1]).collect();
    let chosen = if one.is_empty() || random.one_in(3) { neither } else { one };
    if !chosen.is_empty() {
        job.b = random.pick(&chosen);
    }
}

fn report_too_long(job: &mut Job, random: &mut Random) {
    let (width, height) = random.pick(&[(128, 128), (256, 64), (90, 80), (70, 80), (46, 120)]);
    *job = sound_job_on(width, height, random);
    job.b = 1;
}

fn step_count_at_its_end(job: &mut Job, random: &mut Random) {
    job.k = random.pick(&[job.k, 65_535, 40_000]);
    let short = random.from_to(1, u64::from(job.k)) as u32;
    job.steps = STEP_LIMIT - job.k + random.pick(&[1, short]);
}

// Damage to the head.

fn wrong_gas_kind(job: &mut Job, random: &mut Random) {
    let any = random.byte();
    job.gas_kind = random.pick(&[0, 4, 7, 6, 68, 255, any]);
}

fn wrong_twist_kind(job: &mut Job, random: &mut Random) {
    let any = random.byte();
    job.twist_kind = random.pick(&[0, 1, 2, 3, 65, 66, any]);
}

fn bad_width(job: &mut Job, random: &mut Random) {
    job.width = random.pick(&[0, 1, 257, 258, 512, 65_535]);
}

fn bad_height(job: &mut Job, random: &mut Random) {
    job.height = random.pick(&[0, 1, 3, 7, 255, 257, 258, 512, 65_534]);
}

fn too_many_cells(job: &mut Job, random: &mut Random) {
    (job.width, job.height) = random.pick(&[(256, 66), (66, 256), (129, 128), (256, 256), (65, 254)]);
}

fn bad_period(job: &mut Job, random: &mut Random) {
    job.period = random.pick(&[1000, 1001, 1024, 32_768, 65_535]);
}

fn bad_step_count(job: &mut Job, random: &mut Random) {
    job.steps = random.pick(&[STEP_LIMIT + 1, 2_000_000_000, u32::MAX]);
}

fn unlawful_mark(job: &mut Job, random: &mut Random) {
    job.mark = match job.twist_kind {
        1 => random.pick(&[1, 0xACE1, 65_536, u32::MAX]),
        _ => random.pick(&[0, 65_536, 0x0001_0001, 0xACE1_0000, u32::MAX]),
    };
}

// Damage to rules, map, field and book.

fn unsound_entry(job: &mut Job, random: &mut Random) {
    let place = random.place(job.entries.len());
    let state = place % job.gas.states();
    let unsound: Vec<usize> = (0..256).filter(|&outcome| !is_sound(job.gas, state, outcome)).collect();
    let alike = |outcome: &usize| *outcome < job.gas.states() && shares_a_sum(job.gas, state, *outcome);
    let nearly: Vec<usize> = unsound.iter().copied().filter(alike).collect();
    let chosen = if random.one_in(3) || nearly.is_empty() { unsound } else { nearly };
    job.entries[place] = random.pick(&chosen) as u8;
}

fn is_sound(gas: Gas, state: usize, outcome: usize) -> bool {
    outcome < gas.states() && gas.sums(outcome) == gas.sums(state)
}

/// The same particle count, or the same momentum: wrong, but not at the first glance.
fn shares_a_sum(gas: Gas, state: usize, outcome: usize) -> bool {
    let (before, after) = (gas.sums(state), gas.sums(outcome));
    before[0] == after[0] || before[1..] == after[1..]
}

fn bad_map_byte(job: &mut Job, random: &mut Random) {
    for _ in 0..random.pick(&[1, 1, 3]) {
        let place = random.place(job.map.len());
        job.map[place] = random.pick(&[17, 18, 127, 128, 255]);
    }
}

fn bad_field_byte(job: &mut Job, random: &mut Random) {
    for _ in 0..random.pick(&[1, 1, 3]) {
        let place = random.place(job.field.len());
        job.field[place] = random.from_to(job.gas.states() as u64, 255) as u8;
    }
}

fn bad_account(job: &mut Job, random: &mut Random) {
    let range = ACCOUNT_RANGE * i64::from(job.steps);
    for _ in 0..random.pick(&[1, 1, 3]) {
        let place = random.place(job.book.len());
        job.book[place] = random.pick(&[range + 1, -range - 1, i64::MIN, i64::MAX, -i64::MAX]);
    }
}

// Damage to records.

/// A payload too long or too short, under a fitting header.
fn wrong_length(records: &mut [Record], kind: u8, random: &mut Random) {
    for record in records.iter_mut().filter(|record| record.kind == kind) {
        match random.from_to(0, 3) {
            0 if kind != 1 => record.payload.clear(),
            1 if kind != 1 => drop(record.payload.pop()),
            _ => record.payload.push(0),
        }
        record.seal();
    }
}

fn wrong_check(records: &mut Vec<Record>, random: &mut Random) {
    let place = random.place(records.len());
    let record = &mut records[place];
    let shorter = record.payload.len().saturating_sub(1);
    record.check = match random.from_to(0, 4) {
        0 => record.check.wrapping_sub(1),
        1 => record.check.wrapping_add(1),
        2 => record.check ^ 1 << 31,
        3 => record.check.swap_bytes(),
        _ => check_of(&record.payload[..shorter]),
    };
}

fn unknown_kind(records: &mut Vec<Record>, random: &mut Random) {
    let place = random.place(records.len());
    let any = random.from_to(7, 127) as u8;
    records[place].kind = random.pick(&[0, 7, 127, any]);
}

/// A kind that exists, in a place where it may not stand: a note's too.
fn other_kind(records: &mut Vec<Record>, random: &mut Random) {
    let place = random.place(records.len());
    records[place].kind = random.pick(&[1, 2, 3, 4, 5, 6, 128, 255]);
}

fn swapped_records(records: &mut Vec<Record>, random: &mut Random) {
    let (one, other) = (random.place(records.len()), random.place(records.len()));
    records.swap(one, other);
}

fn missing_record(records: &mut Vec<Record>, random: &mut Random) {
    records.remove(random.place(records.len()));
}

fn missing_end(records: &mut Vec<Record>, _: &mut Random) {
    records.pop();
}

fn doubled_record(records: &mut Vec<Record>, random: &mut Random) {
    let copy = random.pick(records);
    let place = random.place(records.len() + 1);
    records.insert(place, copy);
}

fn lying_length(records: &mut Vec<Record>, random: &mut Random) {
    let place = random.place(records.len());
    let length = records[place].length;
    records[place].length = random.pick(&[length + 1, length + 8, length + 65_536, length / 2]);
}

fn file_too_long(records: &mut Vec<Record>, random: &mut Random) {
    let place = random.place(records.len());
    let length = random.pick(&[LONGEST, LONGEST + 1, LONGEST + 2, LONGEST + 9, 80_000]);
    fill(records, place, length);
}

fn file_goes_on(records: &mut Vec<Record>, random: &mut Random) {
    let kind = random.pick(&[1, 2, 9, 128]);
    records.push(Record::new(kind, b"behind the end".to_vec()));
}

// Damage to bytes.

fn cut(bytes: &mut Vec<u8>, random: &mut Random) {
    bytes.truncate(random.place(bytes.len() + 1));
}

fn flipped(bytes: &mut Vec<u8>, random: &mut Random) {
    if bytes.is_empty() {
        return;
    }
    for _ in 0..random.from_to(1, 3) {
        let place = random.place(bytes.len());
        bytes[place] ^= 1 << random.place(8);
    }
}

fn bytes_behind(bytes: &mut Vec<u8>, random: &mut Random) {
    let count = random.pick(&[1, 7, 8, 30]);
    bytes.extend(random.bytes(count));
}

fn emptied(bytes: &mut Vec<u8>, _: &mut Random) {
    bytes.clear();
}
