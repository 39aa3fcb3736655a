// 01's tapes to try, through both: the model must give what 01 says, the library what the model gives.

use crate::door::{Call, Memory};
use crate::model::*;
use crate::steps::*;
use crate::Tester;

struct Bench<'a> {
    tester: &'a mut Tester,
    sizes: Sizes,
    memory: Memory,
    theirs: Memory,
    good: bool,
}

impl Bench<'_> {
    fn expect(&mut self, what: &str, good: bool) {
        if !good {
            println!("tape: {what}: not what 01 says");
            self.good = false;
        }
    }

    /// A table of these sizes with these rows of keys, each key its own value, opened.
    fn open(&mut self, sizes: [u32; 4], rows: &[&[u32]]) -> u32 {
        let [rows_, columns, locks, lanes] = sizes;
        self.sizes = Sizes { rows: rows_, columns, locks, lanes };
        let lengths = if self.sizes.ok() { self.sizes.lengths() } else { [12, 4, 14, 12] };
        self.memory = Memory::new(lengths, 77);
        self.theirs = self.memory.clone();
        for (row, keys) in rows.iter().enumerate() {
            for (column, &key) in keys.iter().enumerate() {
                self.table().put_slot(row as u32, column as u32, Slot { mark: 1, key, value: key });
            }
        }
        self.tester.ask(&mut self.memory, &mut self.theirs, self.sizes, lengths, Call::Open).0
    }

    fn table(&mut self) -> Table<'_> {
        self.memory.lend(self.sizes, self.sizes.lengths())
    }

    fn ask(&mut self, call: Call) -> (u32, u32, u32) {
        self.tester.ask(&mut self.memory, &mut self.theirs, self.sizes, self.sizes.lengths(), call)
    }

    /// Lane 0 alone, from its start to its end: steps taken, end, value. Pick steps take the bytes in turn.
    fn alone(&mut self, op: u32, key: u32, value: u32, bytes: &[u8]) -> (u32, u32, u32) {
        self.ask(Call::Start { op, lane: 0, key, value });
        let mut picks = 0;
        for steps in 1.. {
            let stage = self.table().lane(0).stage;
            let picking = stage == PICK || stage == PICK_NEXT;
            let byte = if picking { bytes[picks] } else { 255 };
            picks += picking as usize;
            let (number, end, value) = self.ask(Call::Step { lane: 0, byte });
            if number != 0 || end != GOES_ON {
                return (steps, end, value);
            }
        }
        unreachable!()
    }

    fn keys(&mut self) -> Vec<u32> {
        self.table().slots.chunks(3).map(|s| if s[0] == 1 { s[1] } else { u32::MAX }).collect()
    }
}

pub fn run(tester: &mut Tester) -> bool {
    let none = Memory::new([0; 4], 0);
    let sizes = Sizes { rows: 2, columns: 1, locks: 1, lanes: 1 };
    let mut b = Bench { tester, sizes, theirs: none.clone(), memory: none, good: true };
    limits(&mut b);
    step_counts(&mut b);
    walk(&mut b);
    b.good
}

fn limits(b: &mut Bench) {
    for sizes in [[1, 1, 1, 1], [65, 1, 1, 1], [2, 9, 1, 1], [2, 1, 3, 1], [2, 1, 1, 0]] {
        let number = b.open(sizes, &[]);
        b.expect("sizes out of limits", number == 1);
    }
    let number = b.open([64, 8, 64, 8], &[]);
    b.expect("largest sizes", number == 0);
    for (key, due) in [(LAST_KEY, 0), (LAST_KEY + 1, 10)] {
        let number = b.ask(Call::Start { op: READ, lane: due % 8, key, value: 0 }).0;
        b.expect("last key", number == due);
    }
    for (rows, key, homes) in [(3, 1024, (1, 0)), (2, 5, (1, 0)), (4, 8, (0, 3)), (4, 9, (1, 0)), (4, 11, (3, 2))] {
        let s = Sizes { rows, columns: 1, locks: 1, lanes: 1 };
        b.expect("home rows", s.homes(key) == homes);
    }
}

fn step_counts(b: &mut Bench) {
    for w in 1..=8 {
        for (locks, read, delete, insert) in [(4, 8, 6, 11), (1, 4, 3, 8)] {
            b.open([4, w, locks, 1], &[]);
            let got = b.alone(READ, 8, 0, &[]);
            b.expect("absent read", got == (read + 2 * w, READ_NONE, 0));
            let got = b.alone(DELETE, 8, 0, &[]);
            b.expect("absent delete", got == (delete + 2 * w, DELETED, 0));
            let got = b.alone(INSERT, 8, 5, &[]);
            b.expect("insert", got == (insert + 2 * w, INSERTED, 0));
            let row = if locks == 1 { 3 } else { 0 };
            let there = b.table().holds(row, 0, 8);
            b.expect("row of the insert", there);
        }
    }
    b.open([3, 1, 3, 1], &[]);
    let got = b.alone(INSERT, 1024, 7, &[]);
    b.expect("whole case, insert", got == (13, INSERTED, 0));
    let got = b.alone(READ, 1024, 0, &[]);
    b.expect("whole case, read", got == (5, READ_VALUE, 7));
}

fn walk(b: &mut Bench) {
    let rows: &[&[u32]] = &[&[24, 12], &[9, 1], &[], &[11, 23]];
    b.open([4, 2, 4, 1], rows);
    let got = b.alone(INSERT, 8, 5, &[0, 0, 0, 1]);
    b.expect("walk, its end", got.1 == IN_VAIN);
    let e = u32::MAX;
    let keys = b.keys();
    b.expect("walk, its rows", keys == [9, 12, e, 24, 1, e, 11, 23]);
    let t = b.table();
    let clear = t.locks.iter().chain(t.lanes.iter()).chain(t.path.iter()).all(|&x| x == 0);
    b.expect("walk, all clear", clear);
    b.open([4, 2, 4, 1], rows);
    b.ask(Call::Start { op: INSERT, lane: 0, key: 8, value: 5 });
    while b.table().lane(0).stage != DROP_FIRST {
        b.ask(Call::Step { lane: 0, byte: 3 });
    }
    let picked = b.table().place(0);
    b.expect("byte 3", picked == Place { row: 3, column: 1, key: 23 });
}
