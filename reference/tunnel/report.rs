//! The report: the step count, the patches by rows, the accounts that are not zero, the total (docs/REPORT.md).
use crate::fault::Fault;
use crate::gas::sum;
use crate::tunnel::{FAN, Tunnel};

/// The longest report.
const LONGEST: usize = 65_536;

/// The report by patches of this width, which has to divide the grid both ways.
pub fn report(tunnel: &Tunnel, patch: usize) -> Result<String, Fault> {
    if tunnel.width % patch != 0 || tunnel.height % patch != 0 {
        return Err(Fault::argument(1));
    }
    let text = text_of(tunnel, patch);
    if text.len() > LONGEST {
        return Err(Fault::new(19, 0, 0));
    }
    Ok(text)
}

fn text_of(tunnel: &Tunnel, patch: usize) -> String {
    let step = format!("step {}\n", tunnel.steps);
    let patches = patch_lines(tunnel, patch);
    let accounts: String = (1..=FAN).map(|account| account_line(tunnel, account)).collect();
    let total = sums_of(tunnel, 0..tunnel.field.len());
    format!("{step}{patches}{accounts}total {total}")
}

fn patch_lines(tunnel: &Tunnel, patch: usize) -> String {
    let mut lines = String::new();
    for row in 0..tunnel.height / patch {
        for column in 0..tunnel.width / patch {
            lines += &patch_line(tunnel, patch, column, row);
        }
    }
    lines
}

fn patch_line(tunnel: &Tunnel, patch: usize, column: usize, row: usize) -> String {
    let rows = row * patch..(row + 1) * patch;
    let first = column * patch;
    let cells = rows.flat_map(|row| (first..first + patch).map(move |column| row * tunnel.width + column));
    format!("{column} {row} {}", sums_of(tunnel, cells))
}

/// The line of an account; nothing if it is zero.
fn account_line(tunnel: &Tunnel, account: u8) -> String {
    match (account, tunnel.book[usize::from(account) - 1]) {
        (_, (0, 0)) => String::new(),
        (FAN, (along, across)) => format!("fan {along} {across}\n"),
        (obstacle, (along, across)) => format!("wall {obstacle} {along} {across}\n"),
    }
}

/// Particles, along and across over some cells, to the end of a line.
fn sums_of(tunnel: &Tunnel, cells: impl Iterator<Item = usize>) -> String {
    let mut particles = 0;
    let mut momentum = (0, 0);
    for cell in cells {
        let state = tunnel.field[cell];
        particles += tunnel.gas.particles(state);
        momentum = sum(momentum, tunnel.gas.momentum(state));
    }
    format!("{particles} {} {}\n", momentum.0, momentum.1)
}
