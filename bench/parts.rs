// What both plain peers are made of; each includes it, so that each is compiled by itself.

/// The bit at the lowest end is the answer.
struct Register {
    mark: u32,
}

impl Register {
    fn ask(&mut self) -> bool {
        let old = self.mark;
        self.mark = if old % 2 == 1 { (old / 2) ^ 0xB400 } else { old / 2 };
        old % 2 == 1
    }
}

/// A wall's state: each particle in the opposite channel.
fn bounce(state: u8) -> u8 {
    (state & 7) << 3 | (state >> 3) & 7 | state & 64
}

/// The along and across parts of each channel.
const VECTORS: [(i64, i64); 7] = [(2, 0), (1, 1), (-1, 1), (-2, 0), (-1, -1), (1, -1), (0, 0)];

fn momentum(state: u8) -> (i64, i64) {
    let mut sum = (0, 0);
    for (channel, vector) in VECTORS.iter().enumerate() {
        if state >> channel & 1 == 1 {
            sum.0 += vector.0;
            sum.1 += vector.1;
        }
    }
    sum
}

fn collide(entries: &[u8; 256], twist: bool, state: u8) -> u8 {
    let half = if twist { 128 } else { 0 };
    entries[half + state as usize]
}

/// Streams one row: the edges by themselves, and what lies between in one loop.
fn stream_row(from: &[u8], width: usize, height: usize, row: usize, to: &mut [u8]) {
    let here = row * width;
    let south = if row == 0 { height - 1 } else { row - 1 } * width;
    let north = if row + 1 == height { 0 } else { row + 1 } * width;
    let odd = row % 2;
    let last = width - 1;
    let gather = |west: usize, middle: usize, east: usize, left: usize, right: usize| {
        from[here + west] & 1
            | from[south + left] & 2
            | from[south + right] & 4
            | from[here + east] & 8
            | from[north + right] & 16
            | from[north + left] & 32
            | from[here + middle] & 64
    };
    let (left, right) = if odd == 0 { (last, 0) } else { (0, 1) };
    to[0] = gather(last, 0, 1, left, right);
    for column in 1..last {
        to[column] = gather(column - 1, column, column + 1, column + odd - 1, column + odd);
    }
    let (left, right) = if odd == 0 { (last - 1, last) } else { (last, 0) };
    to[last] = gather(last - 1, last, 0, left, right);
}
