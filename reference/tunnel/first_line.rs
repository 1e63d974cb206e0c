//! The input is a first line `k b` and then a job file (docs/PROGRAM.md).
use crate::fault::Fault;

/// What is ordered: so many steps, a report by patches of that width, of this file.
pub struct Order<'a> {
    pub steps: u32,
    pub patch: usize,
    pub file: &'a [u8],
}

/// Reads the first line; k is judged before b, and b before the line's end.
pub fn read(input: &[u8]) -> Result<Order<'_>, Fault> {
    let line_end = place_of(b'\n', input);
    let line = &input[..line_end.unwrap_or(input.len())];
    let (k, b) = match place_of(b' ', line) {
        Some(blank) => (&line[..blank], &line[blank + 1..]),
        None => (line, &line[line.len()..]),
    };
    let steps = number_up_to(65_535, k).ok_or(Fault::argument(1))?;
    let patch = number_up_to(64, b).ok_or(Fault::argument(2))?;
    let line_end = line_end.ok_or(Fault::argument(2))?;
    Ok(Order { steps, patch: patch as usize, file: &input[line_end + 1..] })
}

fn place_of(byte: u8, bytes: &[u8]) -> Option<usize> {
    bytes.iter().position(|&other| other == byte)
}

/// The number from 1 to the limit whose decimal text this is, if there is one.
fn number_up_to(limit: u32, text: &[u8]) -> Option<u32> {
    let plain = (1..=5).contains(&text.len()) && text.iter().all(u8::is_ascii_digit);
    if !plain || text[0] == b'0' {
        return None;
    }
    let number = text.iter().fold(0, |so_far, digit| so_far * 10 + u32::from(digit - b'0'));
    (number <= limit).then_some(number)
}
