//! The two gases: channels, vectors, opposites, neighbours, and what makes an entry sound (docs/MODEL.md).

/// A vector: its number along the tunnel and its number across.
pub type Vector = (i64, i64);

#[derive(Clone, Copy)]
pub enum Gas {
    Square,
    Hexagonal,
}

const SQUARE_VECTORS: [Vector; 4] = [(1, 0), (0, 1), (-1, 0), (0, -1)];
const HEXAGONAL_VECTORS: [Vector; 7] = [(2, 0), (1, 1), (-1, 1), (-2, 0), (-1, -1), (1, -1), (0, 0)];

impl Gas {
    pub fn kind(self) -> u8 {
        match self {
            Gas::Square => 4,
            Gas::Hexagonal => 7,
        }
    }

    pub fn channels(self) -> usize {
        match self {
            Gas::Square => 4,
            Gas::Hexagonal => 7,
        }
    }

    /// How many states a cell can have.
    pub fn states(self) -> usize {
        1 << self.channels()
    }

    pub fn vector(self, channel: usize) -> Vector {
        match self {
            Gas::Square => SQUARE_VECTORS[channel],
            Gas::Hexagonal => HEXAGONAL_VECTORS[channel],
        }
    }

    pub fn opposite(self, channel: usize) -> usize {
        match (self, channel) {
            (Gas::Square, _) => (channel + 2) % 4,
            (Gas::Hexagonal, 6) => 6,
            (Gas::Hexagonal, _) => (channel + 3) % 6,
        }
    }

    /// How far a channel leads from a cell of this row, in columns and in rows.
    fn way(self, channel: usize, row: usize) -> (isize, isize) {
        let odd = (row % 2) as isize;
        match (self, channel) {
            (Gas::Square, 0) | (Gas::Hexagonal, 0) => (1, 0),
            (Gas::Square, 1) => (0, 1),
            (Gas::Square, 2) | (Gas::Hexagonal, 3) => (-1, 0),
            (Gas::Square, _) => (0, -1),
            (Gas::Hexagonal, 1) => (odd, 1),
            (Gas::Hexagonal, 2) => (odd - 1, 1),
            (Gas::Hexagonal, 4) => (odd - 1, -1),
            (Gas::Hexagonal, 5) => (odd, -1),
            (Gas::Hexagonal, _) => (0, 0),
        }
    }

    /// The cell to which a channel leads; columns and rows wrap.
    pub fn neighbour(self, channel: usize, cell: usize, width: usize, height: usize) -> usize {
        let (column, row) = (cell % width, cell / width);
        let (columns, rows) = self.way(channel, row);
        wrapped(row, rows, height) * width + wrapped(column, columns, width)
    }

    /// The channels in which a state has a particle.
    pub fn held(self, state: u8) -> impl Iterator<Item = usize> {
        (0..self.channels()).filter(move |&channel| state >> channel & 1 == 1)
    }

    pub fn particles(self, state: u8) -> i64 {
        self.held(state).count() as i64
    }

    pub fn momentum(self, state: u8) -> Vector {
        self.held(state).map(|channel| self.vector(channel)).fold((0, 0), sum)
    }

    /// Every particle in its opposite channel.
    pub fn turned_round(self, state: u8) -> u8 {
        self.held(state).fold(0, |turned, channel| turned | 1 << self.opposite(channel))
    }

    /// An outcome is sound if it is a state and has the particle count and the momentum of the state before.
    pub fn is_sound(self, state: u8, outcome: u8) -> bool {
        usize::from(outcome) < self.states()
            && self.particles(outcome) == self.particles(state)
            && self.momentum(outcome) == self.momentum(state)
    }
}

pub fn sum(a: Vector, b: Vector) -> Vector {
    (a.0 + b.0, a.1 + b.1)
}

fn wrapped(place: usize, way: isize, size: usize) -> usize {
    (place as isize + way).rem_euclid(size as isize) as usize
}
