//! The program `tunnel` once more, in plain Rust: written from docs/ alone, to be compared with the proved one.
mod fault;
mod first_line;
mod gas;
mod job;
mod records;
mod report;
mod tunnel;
mod twist;

use fault::Fault;
use gas::Gas;
use std::io::{Read, Write};
use tunnel::Tunnel;
use twist::Twist;

/// The pairings in the order in which they are tried.
const PAIRINGS: [(Gas, Twist); 4] = [
    (Gas::Square, Twist::Parity),
    (Gas::Square, Twist::Register),
    (Gas::Hexagonal, Twist::Parity),
    (Gas::Hexagonal, Twist::Register),
];

fn main() -> std::io::Result<()> {
    let mut input = Vec::new();
    std::io::stdin().read_to_end(&mut input)?;
    let text = match answer(&input) {
        Ok(report) => report,
        Err(fault) => fault.line(),
    };
    std::io::stdout().write_all(text.as_bytes())
}

/// What the program prints: the report, or else the refusal.
fn answer(input: &[u8]) -> Result<String, Fault> {
    let order = first_line::read(input)?;
    let mut tunnel = open(order.file)?;
    tunnel.advance(order.steps)?;
    report::report(&tunnel, order.patch)
}

/// The file opened by the first pairing that is not refused by fault 8, or by the last.
fn open(file: &[u8]) -> Result<Tunnel, Fault> {
    let [first, others @ ..] = PAIRINGS;
    let mut opened = job::open(file, first);
    for pairing in others {
        if is_refused_by_8(&opened) {
            opened = job::open(file, pairing);
        }
    }
    opened
}

fn is_refused_by_8(opened: &Result<Tunnel, Fault>) -> bool {
    matches!(opened, Err(fault) if fault.number == 8)
}
