//! The two twist sources: lawful marks, the bit and the next mark (docs/MODEL.md).

#[derive(Clone, Copy)]
pub enum Twist {
    Parity,
    Register,
}

impl Twist {
    pub fn kind(self) -> u8 {
        match self {
            Twist::Parity => 1,
            Twist::Register => 2,
        }
    }

    pub fn is_lawful(self, mark: u32) -> bool {
        match self {
            Twist::Parity => mark == 0,
            Twist::Register => (1..=65_535).contains(&mark),
        }
    }

    /// The bit at this mark for a step and a cell: 0 or 1.
    pub fn bit(self, mark: u32, step: u32, column: usize, row: usize) -> usize {
        match self {
            Twist::Parity => (column + row + step as usize) % 2,
            Twist::Register => (mark & 1) as usize,
        }
    }

    pub fn next(self, mark: u32) -> u32 {
        match self {
            Twist::Parity => 0,
            Twist::Register if mark & 1 == 1 => mark >> 1 ^ 0xB400,
            Twist::Register => mark >> 1,
        }
    }
}
