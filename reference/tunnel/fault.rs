//! A fault has a number, a layer, a record and an offset (docs/FAULTS.md).

#[derive(Debug)]
pub struct Fault {
    pub number: u32,
    record: usize,
    offset: usize,
}

impl Fault {
    pub fn new(number: u32, record: usize, offset: usize) -> Fault {
        Fault { number, record, offset }
    }

    /// An argument of a call that breaks its rule, by its position from 1.
    pub fn argument(position: usize) -> Fault {
        Fault::new(17, 0, position)
    }

    /// Records have layer 1, jobs layer 2, calls layer 3.
    fn layer(&self) -> u32 {
        match self.number {
            1..=6 => 1,
            7..=14 => 2,
            _ => 3,
        }
    }

    /// The line that tells the refusal.
    pub fn line(&self) -> String {
        format!("refused {} {} {} {}\n", self.number, self.layer(), self.record, self.offset)
    }
}
