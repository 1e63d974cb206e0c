//! The tunnel and its steps: collision, walls, fan, streaming and the book (docs/MODEL.md).
use crate::fault::Fault;
use crate::gas::{Gas, Vector, sum};
use crate::twist::Twist;

/// The highest step count.
pub const STEP_LIMIT: u32 = 1_000_000_000;
/// How far from zero a number of an account can come in one step.
pub const ACCOUNT_RANGE: u64 = 458_752;
/// The map byte of a fan cell, and the fan's account.
pub const FAN: u8 = 16;

/// What an obstacle or the fan took up, along and across.
pub type Account = Vector;

pub struct Tunnel {
    pub gas: Gas,
    pub twist: Twist,
    pub entries: Vec<u8>,
    pub width: usize,
    pub height: usize,
    pub period: u32,
    pub steps: u32,
    pub mark: u32,
    pub map: Vec<u8>,
    pub field: Vec<u8>,
    /// Accounts 1 to 16, in this order.
    pub book: [Account; 16],
}

impl Tunnel {
    /// So many steps, one after the other.
    pub fn advance(&mut self, count: u32) -> Result<(), Fault> {
        if self.steps + count > STEP_LIMIT {
            return Err(Fault::new(18, 0, 0));
        }
        for _ in 0..count {
            self.step();
        }
        Ok(())
    }

    fn step(&mut self) {
        let collided: Vec<u8> = (0..self.field.len()).map(|cell| self.collide(cell)).collect();
        self.field = self.streamed(&collided);
        self.steps += 1;
    }

    /// The state of a cell after the collision; pushes go into the book.
    fn collide(&mut self, cell: usize) -> u8 {
        let twist = self.ask(cell);
        let state = self.field[cell];
        let outcome = self.entries[twist * self.gas.states() + usize::from(state)];
        match self.map[cell] {
            0 => outcome,
            FAN if self.fan_acts() => self.fanned(outcome),
            FAN => outcome,
            obstacle => {
                self.push_twice(obstacle, self.gas.momentum(state));
                self.gas.turned_round(state)
            }
        }
    }

    /// Asks the twist source for a cell: its bit, and then its mark moves on.
    fn ask(&mut self, cell: usize) -> usize {
        let (column, row) = (cell % self.width, cell / self.width);
        let bit = self.twist.bit(self.mark, self.steps, column, row);
        self.mark = self.twist.next(self.mark);
        bit
    }

    fn fan_acts(&self) -> bool {
        self.period != 0 && self.steps % self.period == 0
    }

    /// An acting fan moves a particle from the opposite of east to east, if east is empty.
    fn fanned(&mut self, state: u8) -> u8 {
        let east = 1 << 0;
        let west = 1 << self.gas.opposite(0);
        if state & west == 0 || state & east != 0 {
            return state;
        }
        self.push_twice(FAN, self.gas.vector(0));
        state - west + east
    }

    fn push_twice(&mut self, account: u8, push: Vector) {
        let place = usize::from(account) - 1;
        self.book[place] = sum(self.book[place], sum(push, push));
    }

    /// Every particle in the neighbour by its channel.
    fn streamed(&self, collided: &[u8]) -> Vec<u8> {
        let mut field = vec![0; collided.len()];
        for (cell, &state) in collided.iter().enumerate() {
            for channel in self.gas.held(state) {
                field[self.gas.neighbour(channel, cell, self.width, self.height)] |= 1 << channel;
            }
        }
        field
    }
}
