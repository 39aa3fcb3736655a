// The C library's functions, the lent memory, and one way to ask the library or the model.

use crate::model::{Sizes, Table, DELETE, READ};

#[repr(C)]
pub struct SgOpened {
    pub number: u32,
    pub index: u32,
}

#[repr(C)]
pub struct SgStepped {
    pub number: u32,
    pub end: u32,
    pub value: u32,
}

macro_rules! door {
    ($($name:ident($($last:ident: $kind:ty),*) -> $answer:ty;)*) => {
        extern "C" {
            pub fn sg_lane_numbers() -> u32;
            $(fn $name(
                rows: u32, columns: u32, locks: u32, lanes: u32,
                slots: *mut u32, slots_length: usize, lock_words: *mut u32, lock_words_length: usize,
                lane_records: *mut u32, lane_records_length: usize, path: *mut u32, path_length: usize,
                $($last: $kind),*
            ) -> $answer;)*
        }
    };
}

door! {
    sg_open() -> SgOpened;
    sg_start_read(lane: u32, key: u32) -> u32;
    sg_start_delete(lane: u32, key: u32) -> u32;
    sg_start_insert(lane: u32, key: u32, value: u32) -> u32;
    sg_step(lane: u32, byte: u8) -> SgStepped;
}

/// Numbers on either side of each lent list, that no call may touch.
pub const MARGIN: usize = 3;

/// Slots, lock words, lane records and path, each between its margins.
#[derive(Clone, PartialEq)]
pub struct Memory(pub [Vec<u32>; 4]);

impl Memory {
    pub fn new(lengths: [usize; 4], margin: u32) -> Memory {
        Memory(lengths.map(|n| {
            let mut list = vec![margin; n + 2 * MARGIN];
            list[MARGIN..MARGIN + n].fill(0);
            list
        }))
    }

    pub fn copy_from(&mut self, other: &Memory) {
        for (a, b) in self.0.iter_mut().zip(&other.0) {
            a.copy_from_slice(b);
        }
    }

    pub fn lend(&mut self, sizes: Sizes, lengths: [usize; 4]) -> Table<'_> {
        let [a, b, c, d] = &mut self.0;
        let [i, j, k, l] = lengths;
        Table {
            sizes,
            slots: &mut a[MARGIN..MARGIN + i],
            locks: &mut b[MARGIN..MARGIN + j],
            lanes: &mut c[MARGIN..MARGIN + k],
            path: &mut d[MARGIN..MARGIN + l],
        }
    }
}

#[derive(Clone, Copy, Debug)]
pub enum Call {
    Open,
    Start { op: u32, lane: u32, key: u32, value: u32 },
    Step { lane: u32, byte: u8 },
}

/// An opening's number and index, a start's number, a step's number, end and value; 0 for the rest.
pub type Answer = (u32, u32, u32);

pub fn ask_model(mut t: Table, call: Call) -> Answer {
    match call {
        Call::Open => {
            let (number, index) = t.open();
            (number, index, 0)
        }
        Call::Start { op, lane, key, value } => (t.start(op, lane, key, value), 0, 0),
        Call::Step { lane, byte } => t.step(lane, byte),
    }
}

pub fn ask_library(t: Table, call: Call) -> Answer {
    let Sizes { rows, columns, locks, lanes } = t.sizes;
    macro_rules! ask {
        ($name:ident $(, $last:expr)*) => {
            // The four lists are apart from each other, aligned, not null, and as long as said.
            unsafe {
                $name(
                    rows, columns, locks, lanes, t.slots.as_mut_ptr(), t.slots.len(), t.locks.as_mut_ptr(), t.locks.len(),
                    t.lanes.as_mut_ptr(), t.lanes.len(), t.path.as_mut_ptr(), t.path.len() $(, $last)*
                )
            }
        };
    }
    match call {
        Call::Open => {
            let opened = ask!(sg_open);
            (opened.number, opened.index, 0)
        }
        Call::Start { op: READ, lane, key, .. } => (ask!(sg_start_read, lane, key), 0, 0),
        Call::Start { op: DELETE, lane, key, .. } => (ask!(sg_start_delete, lane, key), 0, 0),
        Call::Start { lane, key, value, .. } => (ask!(sg_start_insert, lane, key, value), 0, 0),
        Call::Step { lane, byte } => {
            let stepped = ask!(sg_step, lane, byte);
            (stepped.number, stepped.end, stepped.value)
        }
    }
}
