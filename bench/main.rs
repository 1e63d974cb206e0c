//! Times the proved steps against plain Rust and tuned C, once all are seen to agree.
mod cut;
mod plain;

use std::time::Instant;

#[link(name = "timing", kind = "static")]
unsafe extern "C" {
    fn proved_steps(
        width: u32,
        height: u32,
        period: u32,
        count: u32,
        map: *const u8,
        map_length: usize,
        field: *mut u8,
        field_length: usize,
        spare: *mut u8,
        spare_length: usize,
        numbers: *mut i64,
        numbers_length: usize,
    ) -> u32;
}

#[link(name = "tuned", kind = "static")]
unsafe extern "C" {
    fn tuned_steps(
        entries: *const u8,
        width: usize,
        height: usize,
        period: u32,
        count: u32,
        map: *const u8,
        field: *mut u8,
        spare: *mut u8,
        accounts: *mut [i64; 2],
    ) -> u32;
}

const PERIOD: u32 = 3;
const ROUNDS: usize = 25;

/// A tunnel at its beginning.
struct Job {
    entries: [u8; 256],
    width: usize,
    height: usize,
    map: Vec<u8>,
    field: Vec<u8>,
}

/// All that so many steps leave.
#[derive(PartialEq)]
struct Left {
    field: Vec<u8>,
    spare: Vec<u8>,
    accounts: [[i64; 2]; 16],
    mark: u32,
}

type Steps = fn(&Job, u32, &mut Left);

const ALL: [Steps; 4] = [proved, indexed, cut, tuned];

fn proved(job: &Job, count: u32, left: &mut Left) {
    let cells = job.map.len();
    // SAFETY: each length is that of its buffer, and a job is a sound tunnel.
    left.mark = unsafe {
        proved_steps(
            job.width as u32,
            job.height as u32,
            PERIOD,
            count,
            job.map.as_ptr(),
            cells,
            left.field.as_mut_ptr(),
            cells,
            left.spare.as_mut_ptr(),
            cells,
            left.accounts.as_mut_ptr().cast(),
            32,
        )
    };
}

fn indexed(job: &Job, count: u32, left: &mut Left) {
    left.mark = plain::steps(
        &job.entries,
        job.width,
        job.height,
        PERIOD,
        count,
        &job.map,
        &mut left.field,
        &mut left.spare,
        &mut left.accounts,
    );
}

fn cut(job: &Job, count: u32, left: &mut Left) {
    left.mark = cut::steps(
        &job.entries,
        job.width,
        job.height,
        PERIOD,
        count,
        &job.map,
        &mut left.field,
        &mut left.spare,
        &mut left.accounts,
    );
}

fn tuned(job: &Job, count: u32, left: &mut Left) {
    // SAFETY: each buffer has as many bytes as the grid has cells.
    left.mark = unsafe {
        tuned_steps(
            job.entries.as_ptr(),
            job.width,
            job.height,
            PERIOD,
            count,
            job.map.as_ptr(),
            left.field.as_mut_ptr(),
            left.spare.as_mut_ptr(),
            left.accounts.as_mut_ptr(),
        )
    };
}

/// The state with its moving particles turned by so many channels.
fn turned(state: u8, by: u32) -> u8 {
    let moving = u16::from(state & 63) << by;
    state & 64 | (moving & 63) as u8 | (moving >> 6) as u8
}

/// The house rules, found from one state of each kind by turning it.
fn house() -> [u8; 256] {
    let mut entries: [u8; 256] = std::array::from_fn(|k| (k % 128) as u8);
    for by in 0..6 {
        for (twist, half) in [0, 128].into_iter().enumerate() {
            let mut set = |from: u8, to: u8| entries[half + turned(from, by) as usize] = turned(to, by);
            for rest in [0, 64] {
                set(9 | rest, if twist == 0 { 18 } else { 36 } | rest);
                set(21 | rest, 42 | rest);
            }
            set(65, 34);
            set(34, 65);
        }
    }
    entries
}

/// Walls below and above, two blocks, a slanted plate and a fan column, in a gas of all states.
fn job(width: usize, height: usize) -> Job {
    let mut seed = 88172645463325252u64;
    let mut next = || {
        seed ^= seed << 13;
        seed ^= seed >> 7;
        seed ^= seed << 17;
        (seed % 128) as u8
    };
    let mut map = vec![0; width * height];
    for column in 0..width {
        map[column] = 1;
        map[(height - 1) * width + column] = 2;
    }
    for row in 1..height - 1 {
        map[row * width + 5] = 16;
    }
    for place in 0..height / 4 {
        for breadth in 0..width / 24 {
            map[(height / 5 + place) * width + width / 3 + breadth] = 3;
            map[(height / 2 + place) * width + width / 2 + breadth] = 4;
        }
        map[(height / 4 + place) * width + 3 * width / 4 + place] = 15;
    }
    let field = map.iter().map(|_| next()).collect();
    Job { entries: house(), width, height, map, field }
}

/// What so many steps of a job leave.
fn run(steps: Steps, job: &Job, count: u32) -> Left {
    let mut left = Left {
        field: job.field.clone(),
        spare: vec![0; job.field.len()],
        accounts: [[0; 2]; 16],
        mark: 0,
    };
    steps(job, count, &mut left);
    left
}

/// The best time of all rounds, in nanoseconds, of each; they take turns.
fn times(job: &Job, count: u32) -> [f64; 4] {
    let mut best = [f64::MAX; 4];
    for _ in 0..ROUNDS {
        for (best, steps) in best.iter_mut().zip(ALL) {
            let mut left = run(steps, job, 0);
            let start = Instant::now();
            steps(job, count, &mut left);
            *best = best.min(start.elapsed().as_nanos() as f64);
        }
    }
    best
}

/// Whether all leave the same after so many steps.
fn agree(job: &Job, count: u32) -> bool {
    let left = run(proved, job, count);
    ALL.iter().all(|&steps| left == run(steps, job, count))
}

fn main() {
    for (width, height) in [(256, 64), (64, 64), (64, 256), (37, 22)] {
        for count in [1, 2, 50, 1000] {
            assert!(agree(&job(width, height), count), "{width} x {height}, {count} steps: they differ");
        }
    }
    println!("Field, spare, accounts and mark agree, on 4 grids, after 1, 2, 50 and 1,000 steps.\n");
    println!("Nanoseconds for each cell and step, the best of {ROUNDS} rounds:\n");
    println!("| Grid | Steps | Proved | Plain Rust | Plain Rust, rows cut | Tuned C | to plain | to cut | to tuned |");
    println!("|---|---|---|---|---|---|---|---|---|");
    for (width, height, count) in [(256, 64, 400), (256, 64, 800), (256, 64, 1600), (64, 64, 1600), (64, 256, 400)] {
        let works = (width * height) as f64 * f64::from(count);
        let [ours, plain, cut, tuned] = times(&job(width, height), count).map(|time| time / works);
        print!("| {width} x {height} | {count} | {ours:.2} | {plain:.2} | {cut:.2} | {tuned:.2} |");
        println!(" {:.2} | {:.2} | {:.2} |", ours / plain, ours / cut, ours / tuned);
    }
}
