//! Rule tables: the house rules of both gases, and customers' own sound tables.
use crate::random::Random;

#[derive(Clone, Copy, PartialEq)]
pub enum Gas {
    Square,
    Hexagonal,
}

const SQUARE_VECTORS: [[i32; 2]; 4] = [[1, 0], [0, 1], [-1, 0], [0, -1]];
const HEXAGONAL_VECTORS: [[i32; 2]; 7] = [[2, 0], [1, 1], [-1, 1], [-2, 0], [-1, -1], [1, -1], [0, 0]];

impl Gas {
    pub fn kind(self) -> u8 {
        match self {
            Gas::Square => 4,
            Gas::Hexagonal => 7,
        }
    }

    pub fn vectors(self) -> &'static [[i32; 2]] {
        match self {
            Gas::Square => &SQUARE_VECTORS,
            Gas::Hexagonal => &HEXAGONAL_VECTORS,
        }
    }

    /// How many states a cell can have.
    pub fn states(self) -> usize {
        1 << self.vectors().len()
    }

    /// Particles, along and across of a state: an outcome is sound if it has the same.
    pub fn sums(self, state: usize) -> [i32; 3] {
        let mut sums = [0; 3];
        for (channel, vector) in self.vectors().iter().enumerate() {
            if state >> channel & 1 == 1 {
                sums = [sums[0] + 1, sums[1] + vector[0], sums[2] + vector[1]];
            }
        }
        sums
    }

    /// The states with the sums of this one.
    pub fn class(self, state: usize) -> Vec<usize> {
        (0..self.states()).filter(|&other| self.sums(other) == self.sums(state)).collect()
    }
}

/// A sound table: the house rules, or outcomes exchanged in their classes, or any outcomes of the classes.
pub fn table(gas: Gas, random: &mut Random) -> Vec<u8> {
    let style = random.from_to(0, 3);
    let mut entries = Vec::new();
    for twist in 0..2 {
        entries.extend(match style {
            0 => house(gas, twist),
            1 => any_of_class(gas, random),
            _ => exchanged(gas, random),
        });
    }
    entries
}

/// The house rules under one twist.
pub fn house(gas: Gas, twist: u8) -> Vec<u8> {
    let outcome = |state: usize| match gas {
        Gas::Square => square_outcome(state as u8),
        Gas::Hexagonal => hexagonal_outcome(state as u8, twist),
    };
    (0..gas.states()).map(outcome).collect()
}

fn square_outcome(state: u8) -> u8 {
    match state {
        5 => 10,
        10 => 5,
        _ => state,
    }
}

fn hexagonal_outcome(state: u8, twist: u8) -> u8 {
    let (moving, rest) = (state & 63, state & 64);
    let bit = |i: u8| 1 << (i % 6);
    for i in 0..6 {
        let beside = bit(i + 5) | bit(i + 1);
        if moving == bit(i) | bit(i + 3) {
            let turned = if twist == 0 { i + 1 } else { i + 5 };
            return rest | bit(turned) | bit(turned + 3);
        }
        if moving == bit(i) | bit(i + 2) | bit(i + 4) {
            return rest | (63 - moving);
        }
        if state == 64 | bit(i) {
            return beside;
        }
        if state == beside {
            return 64 | bit(i);
        }
    }
    state
}

/// Outcomes exchanged inside their classes: every state is the outcome of one.
fn exchanged(gas: Gas, random: &mut Random) -> Vec<u8> {
    let mut outcomes: Vec<u8> = (0..gas.states()).map(|state| state as u8).collect();
    for state in 0..gas.states() {
        let other = random.pick(&gas.class(state));
        outcomes.swap(state, other);
    }
    outcomes
}

fn any_of_class(gas: Gas, random: &mut Random) -> Vec<u8> {
    (0..gas.states()).map(|state| random.pick(&gas.class(state)) as u8).collect()
}
