//! What jobs are made of: drawn numbers, records, and drafts of jobs. Good
//! schedules need to know which lanes are busy, so a draft carries a machine
//! along.

use crate::machine::{End, Errand, Machine, Sizes};

/// The number generator known as SplitMix64.
pub struct Dice(pub u64);

impl Dice {
    pub fn next(&mut self) -> u64 {
        self.0 = self.0.wrapping_add(0x9E37_79B9_7F4A_7C15);
        let mut z = self.0;
        z = (z ^ (z >> 30)).wrapping_mul(0xBF58_476D_1CE4_E5B9);
        z = (z ^ (z >> 27)).wrapping_mul(0x94D0_49BB_1331_11EB);
        z ^ (z >> 31)
    }

    /// A number from `low` to `high`, both included.
    pub fn from_to(&mut self, low: usize, high: usize) -> usize {
        low + (self.next() % (high - low + 1) as u64) as usize
    }

    pub fn one_in(&mut self, times: usize) -> bool {
        self.from_to(1, times) == 1
    }

    pub fn byte(&mut self) -> u8 {
        self.next() as u8
    }

    pub fn pick<T: Copy>(&mut self, list: &[T]) -> T {
        list[self.from_to(0, list.len() - 1)]
    }
}

// ---------------------------------------------------------------- records

pub const END: u8 = 6;

pub fn sizes_record(sizes: [u8; 4]) -> Vec<u8> {
    [&[1][..], &sizes].concat()
}

pub fn start_record(lane: u8, key: u32, errand: Errand) -> Vec<u8> {
    let (kind, value) = match errand {
        Errand::Read => (2, None),
        Errand::Delete => (3, None),
        Errand::Insert { value } => (4, Some(value)),
    };
    let mut record = vec![kind, lane];
    record.extend(key.to_le_bytes());
    if let Some(value) = value {
        record.extend(value.to_le_bytes());
    }
    record
}

pub fn step_record(lane: u8, byte: u8) -> Vec<u8> {
    vec![5, lane, byte]
}

pub const ERRANDS: [Errand; 3] = [Errand::Read, Errand::Delete, Errand::Insert { value: 7 }];

// ----------------------------------------------------------------- drafts

/// A job under way, all its records good so far.
pub struct Draft {
    pub bytes: Vec<u8>,
    pub machine: Machine,
    pub lanes: usize,
}

impl Draft {
    pub fn new(sizes: [u8; 4]) -> Draft {
        let [h, w, l, n] = sizes;
        Draft {
            bytes: sizes_record(sizes),
            machine: Machine::new(Sizes::new(h, w, l, n).expect("a draft has good sizes")),
            lanes: n as usize,
        }
    }

    pub fn start(&mut self, lane: usize, key: u32, errand: Errand) {
        self.bytes.extend(start_record(lane as u8, key, errand));
        self.machine.start(lane as u8, key, errand).expect("a good start");
    }

    pub fn step(&mut self, lane: usize, byte: u8) -> Option<End> {
        self.bytes.extend(step_record(lane as u8, byte));
        self.machine.step(lane as u8, byte).expect("a good step")
    }

    pub fn finish(mut self) -> Vec<u8> {
        self.bytes.push(END);
        self.bytes
    }

    pub fn busy(&self) -> Vec<usize> {
        (0..self.lanes).filter(|lane| self.machine.is_busy(*lane)).collect()
    }

    pub fn idle(&self) -> Vec<usize> {
        (0..self.lanes).filter(|lane| !self.machine.is_busy(*lane)).collect()
    }

    /// A whole operation by one lane, the pick steps getting these bytes.
    pub fn alone(&mut self, lane: usize, key: u32, errand: Errand, picks: &[u8]) -> End {
        self.start(lane, key, errand);
        let mut picks = picks.iter();
        loop {
            let byte = if self.machine.at_pick(lane) { *picks.next().unwrap_or(&0) } else { 0xEE };
            if let Some(end) = self.step(lane, byte) {
                return end;
            }
        }
    }
}
