//! Compares two programs on fixed and on random jobs: `compare PROVED REFERENCE FOLDER [SEED]`.
mod damage;
mod first_lines;
mod fixed;
mod jobs;
mod notes;
mod random;
mod records;
mod rules;

use damage::{DAMAGES, damaged_input, sound_input};
use fixed::{Fixed, Wanted, fixed_cases};
use random::Random;
use std::fs::{self, File};
use std::io;
use std::path::PathBuf;
use std::process::{Command, ExitCode, Output, Stdio};

/// How many random jobs are sound, and how many have one damage, each in its turn.
const SOUND_JOBS: usize = 1400;
const DAMAGED_JOBS: usize = 20 * DAMAGES.len();
const SEED: u64 = 20_260_712;
/// The faults that the program can print, each of which has to be met so often.
const FAULTS: [usize; 17] = [1, 2, 3, 4, 5, 6, 7, 8, 9, 10, 11, 12, 13, 14, 17, 18, 19];
const OFTEN: usize = 10;

fn main() -> ExitCode {
    let arguments: Vec<String> = std::env::args().skip(1).collect();
    let [proved, reference, folder, rest @ ..] = &arguments[..] else {
        println!("usage: compare PROVED REFERENCE FOLDER [SEED]");
        return ExitCode::FAILURE;
    };
    let seed = rest.first().and_then(|text| text.parse().ok()).unwrap_or(SEED);
    let mut comparison = Comparison::new(proved, reference, folder);
    match compare_all(&mut comparison, seed) {
        Ok(true) => ExitCode::SUCCESS,
        Ok(false) => ExitCode::FAILURE,
        Err(error) => {
            println!("the comparison could not be made: {error}");
            ExitCode::FAILURE
        }
    }
}

/// Runs every job and tells the outcome; true if nothing differs and every fault was met.
fn compare_all(comparison: &mut Comparison, seed: u64) -> io::Result<bool> {
    println!("comparing with seed {seed}");
    let mut random = Random::new(seed);
    compare_fixed_cases(comparison)?;
    compare_sound_jobs(comparison, &mut random)?;
    compare_damaged_jobs(comparison, &mut random)?;
    compare_pairs(comparison, &mut random)?;
    let all_met = comparison.tell_faults();
    println!("compared {} jobs, {} differ", comparison.jobs, comparison.differing);
    Ok(all_met && comparison.differing == 0)
}

fn compare_fixed_cases(comparison: &mut Comparison) -> io::Result<()> {
    for case in fixed_cases() {
        comparison.compare_fixed(&case)?;
    }
    Ok(())
}

fn compare_sound_jobs(comparison: &mut Comparison, random: &mut Random) -> io::Result<()> {
    for number in 0..SOUND_JOBS {
        comparison.compare(&format!("sound job {number}"), &sound_input(random))?;
    }
    Ok(())
}

fn compare_damaged_jobs(comparison: &mut Comparison, random: &mut Random) -> io::Result<()> {
    for number in 0..DAMAGED_JOBS {
        let damage = DAMAGES[number % DAMAGES.len()];
        let input = damaged_input(&[damage], random);
        comparison.compare(&format!("damaged job {number}"), &input)?;
    }
    Ok(())
}

/// Every two damages in one job: this shows in which order they are judged.
fn compare_pairs(comparison: &mut Comparison, random: &mut Random) -> io::Result<()> {
    for (place, &one) in DAMAGES.iter().enumerate() {
        for (other_place, &other) in DAMAGES.iter().enumerate().skip(place + 1) {
            let input = damaged_input(&[one, other], random);
            comparison.compare(&format!("job with damages {place} and {other_place}"), &input)?;
        }
    }
    Ok(())
}

/// Two programs, a folder for their input, and what has been seen so far.
struct Comparison {
    proved: PathBuf,
    reference: PathBuf,
    folder: PathBuf,
    jobs: usize,
    differing: usize,
    reports: usize,
    /// How often each fault was printed, by its number.
    met: [usize; 32],
}

impl Comparison {
    fn new(proved: &str, reference: &str, folder: &str) -> Comparison {
        Comparison {
            proved: proved.into(),
            reference: reference.into(),
            folder: folder.into(),
            jobs: 0,
            differing: 0,
            reports: 0,
            met: [0; 32],
        }
    }

    /// Runs both programs on one input, and answers what the proved one printed.
    fn compare(&mut self, name: &str, input: &[u8]) -> io::Result<Vec<u8>> {
        let job = self.folder.join("job");
        fs::write(&job, input)?;
        let proved = start(&self.proved, File::open(&job)?)?;
        let reference = start(&self.reference, File::open(&job)?)?.wait_with_output()?;
        let proved = proved.wait_with_output()?;
        self.jobs += 1;
        if !both_done(&proved, &reference) || proved.stdout != reference.stdout {
            self.tell_difference(name, input, &proved, &reference)?;
        }
        self.count(&proved.stdout);
        Ok(proved.stdout)
    }

    /// Compares a fixed case, and then what was printed with what is wanted.
    fn compare_fixed(&mut self, case: &Fixed) -> io::Result<()> {
        let differing = self.differing;
        let printed = self.compare(case.name, &case.input)?;
        let is_report = printed.starts_with(b"step ");
        let fits = match &case.wanted {
            Wanted::Text(text) => printed == text.as_bytes(),
            Wanted::Length(length) => is_report && printed.len() == *length,
            Wanted::Report => is_report,
            Wanted::AsFor(other) => is_report && printed == self.compare(case.name, other)?,
        };
        if !fits && self.differing == differing {
            println!("{}: both print what is not wanted: {}", case.name, beginning(&printed));
            self.keep(&case.input)?;
        }
        Ok(())
    }

    fn tell_difference(&mut self, name: &str, input: &[u8], proved: &Output, reference: &Output) -> io::Result<()> {
        if self.differing == 0 {
            println!("{name} differs:");
            println!("  proved, {}: {}", proved.status, beginning(&proved.stdout));
            println!("  reference, {}: {}", reference.status, beginning(&reference.stdout));
        }
        self.keep(input)
    }

    /// Counts a job that differs; the first is kept in a file.
    fn keep(&mut self, input: &[u8]) -> io::Result<()> {
        if self.differing == 0 {
            let kept = self.folder.join("differs");
            fs::write(&kept, input)?;
            println!("  the job is kept in {}", kept.display());
        }
        self.differing += 1;
        Ok(())
    }

    fn count(&mut self, printed: &[u8]) {
        match fault_number(printed) {
            Some(number) if number < self.met.len() => self.met[number] += 1,
            _ => self.reports += 1,
        }
    }

    /// Tells how often each fault was met; true if each was met often enough.
    fn tell_faults(&self) -> bool {
        let counts: Vec<String> = FAULTS.iter().map(|&fault| format!("{fault}: {}", self.met[fault])).collect();
        println!("{} reports; refusals by fault: {}", self.reports, counts.join(", "));
        let rare: Vec<usize> = FAULTS.into_iter().filter(|&fault| self.met[fault] < OFTEN).collect();
        if !rare.is_empty() {
            println!("met fewer than {OFTEN} times: faults {rare:?}");
        }
        rare.is_empty()
    }
}

fn start(program: &PathBuf, input: File) -> io::Result<std::process::Child> {
    let mut command = Command::new(program);
    let started = command.stdin(input).stdout(Stdio::piped()).stderr(Stdio::piped()).spawn();
    started.map_err(|error| io::Error::other(format!("{}: {error}", program.display())))
}

fn both_done(one: &Output, other: &Output) -> bool {
    one.status.code() == Some(0) && other.status.code() == Some(0)
}

/// The number in a line `refused NUMBER ..`.
fn fault_number(printed: &[u8]) -> Option<usize> {
    let text = std::str::from_utf8(printed).ok()?;
    let (number, _) = text.strip_prefix("refused ")?.split_once(' ')?;
    number.parse().ok()
}

/// The beginning of a text, to be shown in one line.
fn beginning(printed: &[u8]) -> String {
    let first = &printed[..printed.len().min(100)];
    format!("{:?}", String::from_utf8_lossy(first))
}
