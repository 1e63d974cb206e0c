//! Fixed inputs of which it is known beforehand what has to be printed.
use crate::first_lines::FIRST_LINES;
use crate::jobs::{Job, STEP_LIMIT};
use crate::notes::{wall_record, walls, walls_and_header};
use crate::records::{LONGEST, Record, fill, joined};
use crate::rules::Gas;

/// What has to be printed.
pub enum Wanted {
    Text(&'static str),
    /// A report of so many bytes.
    Length(usize),
    /// A report, whatever it says.
    Report,
    /// What is printed for this other input: a report.
    AsFor(Vec<u8>),
}

pub struct Fixed {
    pub name: &'static str,
    pub input: Vec<u8>,
    pub wanted: Wanted,
}

const WORKED_REPORT: &str = "step 3\n0 0 1 -1 0\n1 0 0 0 0\nwall 1 2 0\ntotal 1 -1 0\n";

pub fn fixed_cases() -> Vec<Fixed> {
    let mut cases = worked_and_limits();
    cases.extend(short_inputs());
    cases.extend(FIRST_LINES.map(bad_first_line));
    cases.extend(wrong_pairings());
    cases.extend(step_limits());
    cases.extend(report_limits());
    cases.extend(file_limits());
    cases.extend(noted());
    cases
}

fn case(name: &'static str, input: Vec<u8>, wanted: Wanted) -> Fixed {
    Fixed { name, input, wanted }
}

fn input_of(job: &Job, records: &[Record]) -> Vec<u8> {
    [job.first_line(), joined(records)].concat()
}

fn plain(job: &Job) -> Vec<u8> {
    input_of(job, &job.records())
}

/// One east particle that meets a wall of obstacle 1 in its third step.
fn worked_job() -> Job {
    let mut job = Job::empty(Gas::Square, 4, 2);
    (job.k, job.b) = (3, 2);
    job.map[2] = 1;
    job.field[0] = 1;
    job
}

/// The hexagonal gas and the register on a grid where every cell has particles.
fn busy_job(width: u16, height: u16) -> Job {
    let mut job = Job::empty(Gas::Hexagonal, width, height);
    (job.k, job.b) = (3, 2);
    (job.twist_kind, job.mark, job.period) = (2, 0xACE1, 2);
    for cell in 0..job.field.len() {
        job.field[cell] = (cell % 128) as u8;
        job.map[cell] = if cell % 11 == 5 { 16 } else { 0 };
    }
    job
}

fn worked_and_limits() -> Vec<Fixed> {
    let widest = busy_job(256, 64);
    let too_wide = busy_job(256, 66);
    vec![
        case("the worked job", plain(&worked_job()), Wanted::Text(WORKED_REPORT)),
        case("256 by 64 cells", plain(&widest), Wanted::Report),
        case("256 by 66 cells", plain(&too_wide), Wanted::Text("refused 9 2 0 2\n")),
    ]
}

/// Inputs that end in the first line or behind it.
fn short_inputs() -> Vec<Fixed> {
    vec![
        case("no input", Vec::new(), Wanted::Text("refused 17 3 0 1\n")),
        case("a line without its end", b"3 2".to_vec(), Wanted::Text("refused 17 3 0 2\n")),
        case("an empty file", b"3 2\n".to_vec(), Wanted::Text("refused 1 1 0 0\n")),
    ]
}

/// A bad first line before the worked job's file.
fn bad_first_line((line, position): (&'static str, usize)) -> Fixed {
    let input = [line.as_bytes(), &joined(&worked_job().records())].concat();
    let refusal = if position == 1 { "refused 17 3 0 1\n" } else { "refused 17 3 0 2\n" };
    case("a bad first line", input, Wanted::Text(refusal))
}

/// No pairing suits: the last one, hexagonal with the register, says why.
fn wrong_pairings() -> Vec<Fixed> {
    let mut no_gas = worked_job();
    no_gas.gas_kind = 9;
    let mut no_twist = worked_job();
    no_twist.twist_kind = 3;
    let mut no_twist_hexagonal = busy_job(4, 2);
    no_twist_hexagonal.twist_kind = 3;
    vec![
        case("an unknown gas", plain(&no_gas), Wanted::Text("refused 8 2 0 0\n")),
        case("square, an unknown twist", plain(&no_twist), Wanted::Text("refused 8 2 0 0\n")),
        case("hexagonal, an unknown twist", plain(&no_twist_hexagonal), Wanted::Text("refused 8 2 0 1\n")),
    ]
}

/// The step count may reach its limit and not pass it; k may be its largest.
fn step_limits() -> Vec<Fixed> {
    let mut last = worked_job();
    last.steps = STEP_LIMIT - last.k;
    let mut beyond = worked_job();
    beyond.steps = STEP_LIMIT - beyond.k + 1;
    let mut most = busy_job(4, 2);
    most.k = 65_535;
    vec![
        case("the last step count", plain(&last), Wanted::Report),
        case("one step too many", plain(&beyond), Wanted::Text("refused 18 3 0 0\n")),
        case("65,535 steps", plain(&most), Wanted::Report),
    ]
}

/// The report of this empty grid by single cells, with the line `wall 1 1 0`, has exactly 65,536 bytes.
fn report_limits() -> Vec<Fixed> {
    let mut fits = Job::empty(Gas::Square, 46, 120);
    fits.steps = 999_999;
    fits.book[0] = 1;
    let mut too_long = fits.clone();
    too_long.book[0] = 10;
    vec![
        case("the longest report", plain(&fits), Wanted::Length(65_536)),
        case("a report one byte too long", plain(&too_long), Wanted::Text("refused 19 3 0 0\n")),
    ]
}

fn file_limits() -> Vec<Fixed> {
    let job = busy_job(8, 6);
    let filled = |length: usize| {
        let mut records = job.records();
        fill(&mut records, 2, length);
        input_of(&job, &records)
    };
    vec![
        case("the longest file", filled(LONGEST), Wanted::AsFor(plain(&job))),
        case("a file one byte too long", filled(LONGEST + 1), Wanted::Text("refused 1 1 0 0\n")),
    ]
}

/// A note before the map changes nothing, though its text would read as walls.
fn noted() -> Vec<Fixed> {
    let job = busy_job(8, 6);
    let map = &job.records()[2];
    let cells = map.payload.len();
    let with_note = |text: Vec<u8>| {
        let mut records = job.records();
        records.insert(2, Record::new(128, text));
        input_of(&job, &records)
    };
    let same = || Wanted::AsFor(plain(&job));
    vec![
        case("a note of walls", with_note(walls(cells)), same()),
        case("a note that is a map record", with_note(wall_record(cells)), same()),
        case("a note that ends with a map's header", with_note(walls_and_header(map)), same()),
        case("an empty note", with_note(Vec::new()), same()),
    ]
}
