//! Sound jobs: every number lawful, drawn so that rare cases are met too.
use crate::random::Random;
use crate::records::Record;
use crate::rules::{Gas, house, table};

pub const STEP_LIMIT: u32 = 1_000_000_000;
/// How far from zero a number of an account may lie for each step counted.
pub const ACCOUNT_RANGE: i64 = 458_752;
/// So many cells times steps a job may cost, that the comparison stays quick.
const WORK: u64 = 200_000;
/// Large grids at the limits.
const LARGE: [(u16, u16); 6] = [(256, 64), (64, 256), (128, 128), (2, 256), (256, 2), (96, 130)];

/// A job before it is bytes: damage can set any of it to what is not lawful.
#[derive(Clone)]
pub struct Job {
    pub k: u32,
    pub b: u32,
    /// A first line that stands in for `k b`.
    pub line: Option<Vec<u8>>,
    pub gas: Gas,
    pub gas_kind: u8,
    pub twist_kind: u8,
    pub width: u16,
    pub height: u16,
    pub period: u16,
    pub steps: u32,
    pub mark: u32,
    pub entries: Vec<u8>,
    pub map: Vec<u8>,
    pub field: Vec<u8>,
    pub book: Vec<i64>,
}

impl Job {
    pub fn first_line(&self) -> Vec<u8> {
        let line = format!("{} {}\n", self.k, self.b);
        self.line.clone().unwrap_or(line.into_bytes())
    }

    /// The six records of the file.
    pub fn records(&self) -> Vec<Record> {
        let book = self.book.iter().flat_map(|number| number.to_le_bytes()).collect();
        vec![
            Record::new(2, self.head()),
            Record::new(3, self.entries.clone()),
            Record::new(4, self.map.clone()),
            Record::new(5, self.field.clone()),
            Record::new(6, book),
            Record::new(1, Vec::new()),
        ]
    }

    fn head(&self) -> Vec<u8> {
        let mut head = vec![self.gas_kind, self.twist_kind];
        head.extend(self.width.to_le_bytes());
        head.extend(self.height.to_le_bytes());
        head.extend(self.period.to_le_bytes());
        head.extend(self.steps.to_le_bytes());
        head.extend(self.mark.to_le_bytes());
        head
    }

    /// An empty tunnel at its beginning, by the house rules and parity.
    pub fn empty(gas: Gas, width: u16, height: u16) -> Job {
        let cells = usize::from(width) * usize::from(height);
        let entries = [house(gas, 0), house(gas, 1)].concat();
        Job {
            k: 1,
            b: 1,
            line: None,
            gas,
            gas_kind: gas.kind(),
            twist_kind: 1,
            width,
            height,
            period: 0,
            steps: 0,
            mark: 0,
            entries,
            map: vec![0; cells],
            field: vec![0; cells],
            book: vec![0; 32],
        }
    }
}

/// A sound job on a grid of any size, small ones mostly.
pub fn sound_job(random: &mut Random) -> Job {
    let (width, height) = grid(random);
    sound_job_on(width, height, random)
}

pub fn sound_job_on(width: u16, height: u16, random: &mut Random) -> Job {
    let gas = random.pick(&[Gas::Square, Gas::Hexagonal]);
    let mut job = Job::empty(gas, width, height);
    job.twist_kind = random.pick(&[1, 2]);
    job.k = step_number(job.map.len(), random);
    job.b = patch(width, height, random);
    job.period = random.pick(&[0, 0, 1, 2, 3, 5, 999]);
    job.steps = step_count(job.k, random);
    job.mark = mark(job.twist_kind, random);
    job.entries = table(gas, random);
    job.map = map(job.map.len(), random);
    job.field = field(job.field.len(), gas, random);
    job.book = book(job.steps, random);
    job
}

fn grid(random: &mut Random) -> (u16, u16) {
    match random.from_to(0, 19) {
        0 => random.pick(&LARGE),
        1..=3 => (random.from_to(2, 80) as u16, 2 * random.from_to(1, 40) as u16),
        _ => (random.from_to(2, 12) as u16, 2 * random.from_to(1, 6) as u16),
    }
}

/// How many steps to take: few mostly, and never more than the work allowed.
fn step_number(cells: usize, random: &mut Random) -> u32 {
    let most = (WORK / cells as u64).clamp(1, 65_535);
    let few = most.min(12);
    match random.from_to(0, 9) {
        0 => random.from_to(1, most) as u32,
        _ => random.from_to(1, few) as u32,
    }
}

/// How wide the patches are: any number that divides both sides.
fn patch(width: u16, height: u16, random: &mut Random) -> u32 {
    let divides = |b: &u16| width % b == 0 && height % b == 0;
    let dividers: Vec<u16> = (1..=64).filter(divides).collect();
    u32::from(random.pick(&dividers))
}

/// A step count that leaves room for k steps, and sometimes for no more.
fn step_count(k: u32, random: &mut Random) -> u32 {
    let most = STEP_LIMIT - k;
    match random.from_to(0, 9) {
        0 => most,
        1..=3 => random.from_to(0, u64::from(most)) as u32,
        4..=5 => random.from_to(0, 2000) as u32,
        _ => 0,
    }
}

fn mark(twist_kind: u8, random: &mut Random) -> u32 {
    if twist_kind == 1 {
        return 0;
    }
    let any = random.from_to(1, 65_535) as u32;
    random.pick(&[0xACE1, 1, 65_535, any, any, any])
}

fn map(cells: usize, random: &mut Random) -> Vec<u8> {
    let style = random.from_to(0, 5);
    let obstacle = random.from_to(1, 15) as u8;
    let mut byte = || match style {
        0 => 0,
        1 => random.pick(&[0, 0, 0, 0, 0, 16]),
        2 => random.pick(&[0, 0, obstacle, 16]),
        3 => random.from_to(0, 16) as u8,
        4 => random.from_to(1, 15) as u8,
        _ => random.pick(&[0, 0, 0, 0, 0, 0, 0, obstacle]),
    };
    (0..cells).map(|_| byte()).collect()
}

fn field(cells: usize, gas: Gas, random: &mut Random) -> Vec<u8> {
    let style = random.from_to(0, 5);
    let last = gas.states() as u64 - 1;
    let mut byte = || match style {
        0 => 0,
        1 => last as u8,
        2 if random.one_in(6) => 1 << random.place(gas.vectors().len()),
        2 => 0,
        _ => random.from_to(0, last) as u8,
    };
    (0..cells).map(|_| byte()).collect()
}

fn book(steps: u32, random: &mut Random) -> Vec<i64> {
    let range = ACCOUNT_RANGE * i64::from(steps);
    let full = random.one_in(3);
    let mut number = || match random.from_to(0, 7) {
        0 => range,
        1 => -range,
        2..=4 if full => random.from_to(0, 2 * range as u64) as i64 - range,
        _ => 0,
    };
    (0..32).map(|_| number()).collect()
}
