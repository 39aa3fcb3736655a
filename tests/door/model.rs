// Document 01 in plain Rust, on lent numbers: sizes, lengths, opening, start and every refusal.
// Written from 01, the points it leaves open, docs/LANES.md, the table of stages of a design page (not in this repository) and the source's `places_ok`;
// not from the code or the definitions that it judges.
// The standing check is in standing.rs, the steps are in steps.rs.

pub const LAST_KEY: u32 = 8_388_607;
pub const LANE: usize = 14;

pub const READ: u32 = 1;
pub const DELETE: u32 = 2;
pub const INSERT: u32 = 3;
pub const AGAIN: u32 = 4;

pub const R1: u32 = 1;
pub const R2: u32 = 2;
pub const R3: u32 = 3;
pub const R4: u32 = 4;
pub const W1: u32 = 5;
pub const W2: u32 = 6;

pub const TAKE_MAIN: u32 = 1;
pub const TAKE_FIRST: u32 = 2;
pub const SEEK_FIRST: u32 = 3;
pub const TAKE_SECOND: u32 = 4;
pub const SEEK_SECOND: u32 = 5;
pub const ROOM_FIRST: u32 = 6;
pub const ROOM_SECOND: u32 = 7;
pub const WRITE_HIT: u32 = 8;
pub const WRITE_ROOM: u32 = 9;
pub const PICK: u32 = 10;
pub const DROP_FIRST: u32 = 11;
pub const DROP_SECOND: u32 = 12;
pub const DROP_MAIN: u32 = 13;
pub const TAKE_NEXT: u32 = 14;
pub const LOOK_NEXT: u32 = 15;
pub const PICK_NEXT: u32 = 16;
pub const DROP_NEXT: u32 = 17;
pub const TAKE_LOW: u32 = 18;
pub const TAKE_HIGH: u32 = 19;
pub const SWING: u32 = 20;
pub const DROP_LOW: u32 = 21;
pub const DROP_HIGH: u32 = 22;

// Endings of a pass (stages 11 and 12), of an insert (13) and of an attempt (17).
pub const HIT: u32 = 1;
pub const WRITTEN: u32 = 2;
pub const FILLED: u32 = 3;
pub const MISS: u32 = 4;
pub const PICKED: u32 = 5;
pub const NOTHING: u32 = 6;
pub const YES: u32 = 1;
pub const SEARCHED: u32 = 2;
pub const WALKED: u32 = 3;
pub const ROOM: u32 = 1;
pub const FULL: u32 = 2;

#[derive(Clone, Copy, PartialEq, Debug)]
pub struct Sizes {
    pub rows: u32,
    pub columns: u32,
    pub locks: u32,
    pub lanes: u32,
}

impl Sizes {
    pub fn ok(self) -> bool {
        let in_limits = |n: u32, low: u32, high: u32| low <= n && n <= high;
        in_limits(self.rows, 2, 64)
            && in_limits(self.columns, 1, 8)
            && in_limits(self.locks, 1, self.rows)
            && in_limits(self.lanes, 1, 8)
    }

    /// What slots, lock words, lane records and path need, for sizes in the limits.
    pub fn lengths(self) -> [usize; 4] {
        let [h, w, l, n] = [self.rows, self.columns, self.locks, self.lanes].map(|n| n as usize);
        [3 * h * w, 2 * (l + 1), LANE * n, 3 * (h + 2)]
    }

    pub fn homes(self, key: u32) -> (u32, u32) {
        let h = self.rows;
        let one = key % h;
        (one, (one + 1 + (key / h) % (h - 1)) % h)
    }

    pub fn at_home(self, row: u32, key: u32) -> bool {
        let (one, two) = self.homes(key);
        row == one || row == two
    }

    pub fn other(self, row: u32, key: u32) -> u32 {
        let (one, two) = self.homes(key);
        if row == one { two } else { one }
    }

    pub fn lock_of(self, row: u32) -> u32 {
        row % self.locks
    }

    /// The key's rows in the order in which they are locked.
    pub fn order(self, key: u32) -> (u32, u32) {
        let (one, two) = self.homes(key);
        if self.lock_of(one) < self.lock_of(two) { (one, two) } else { (two, one) }
    }

    pub fn shared(self, key: u32) -> bool {
        let (one, two) = self.homes(key);
        self.lock_of(one) == self.lock_of(two)
    }
}

#[derive(Clone, Copy, PartialEq, Default, Debug)]
pub struct Slot {
    pub mark: u32,
    pub key: u32,
    pub value: u32,
}

#[derive(Clone, Copy, PartialEq, Default, Debug)]
pub struct Place {
    pub row: u32,
    pub column: u32,
    pub key: u32,
}

/// The 14 numbers of a lane record, in their order.
#[derive(Clone, Copy, PartialEq, Default, Debug)]
pub struct Lane {
    pub stage: u32,
    pub op: u32,
    pub key: u32,
    pub value: u32,
    pub grab: u32,
    pub noted: u32,
    pub side: u32,
    pub column: u32,
    pub ending: u32,
    pub picks: u32,
    pub places: u32,
    pub free_row: u32,
    pub free_column: u32,
    pub seen: u32,
}

impl Lane {
    pub fn of(n: &[u32]) -> Lane {
        Lane {
            stage: n[0],
            op: n[1],
            key: n[2],
            value: n[3],
            grab: n[4],
            noted: n[5],
            side: n[6],
            column: n[7],
            ending: n[8],
            picks: n[9],
            places: n[10],
            free_row: n[11],
            free_column: n[12],
            seen: n[13],
        }
    }

    pub fn numbers(&self) -> [u32; LANE] {
        [
            self.stage, self.op, self.key, self.value, self.grab, self.noted, self.side, self.column,
            self.ending, self.picks, self.places, self.free_row, self.free_column, self.seen,
        ]
    }

    /// The same operation at another stage, every number that the stage may use 0.
    pub fn at(&self, stage: u32) -> Lane {
        Lane { stage, op: self.op, key: self.key, value: self.value, ..Lane::default() }
    }
}

/// What is lent, with the sizes that came with it.
pub struct Table<'a> {
    pub sizes: Sizes,
    pub slots: &'a mut [u32],
    pub locks: &'a mut [u32],
    pub lanes: &'a mut [u32],
    pub path: &'a mut [u32],
}

impl Table<'_> {
    fn slot_start(&self, row: u32, column: u32) -> usize {
        3 * (row as usize * self.sizes.columns as usize + column as usize)
    }

    pub fn slot(&self, row: u32, column: u32) -> Slot {
        let i = self.slot_start(row, column);
        Slot { mark: self.slots[i], key: self.slots[i + 1], value: self.slots[i + 2] }
    }

    pub fn put_slot(&mut self, row: u32, column: u32, s: Slot) {
        let i = self.slot_start(row, column);
        self.slots[i..i + 3].copy_from_slice(&[s.mark, s.key, s.value]);
    }

    pub fn holds(&self, row: u32, column: u32, key: u32) -> bool {
        let s = self.slot(row, column);
        s.mark == 1 && s.key == key
    }

    pub fn empty(&self, row: u32, column: u32) -> bool {
        self.slot(row, column).mark == 0
    }

    pub fn lane(&self, i: usize) -> Lane {
        Lane::of(&self.lanes[LANE * i..LANE * i + LANE])
    }

    pub fn put_lane(&mut self, i: usize, a: Lane) {
        self.lanes[LANE * i..LANE * i + LANE].copy_from_slice(&a.numbers());
    }

    pub fn place(&self, i: u32) -> Place {
        let i = 3 * i as usize;
        Place { row: self.path[i], column: self.path[i + 1], key: self.path[i + 2] }
    }

    pub fn put_place(&mut self, i: u32, p: Place) {
        let i = 3 * i as usize;
        self.path[i..i + 3].copy_from_slice(&[p.row, p.column, p.key]);
    }

    /// The last of a lane's places; zeros where it has none.
    pub fn last(&self, a: &Lane) -> Place {
        if a.places == 0 { Place::default() } else { self.place(a.places - 1) }
    }

    fn outer_refusal(&self) -> u32 {
        if !self.sizes.ok() {
            return 1;
        }
        let lent = [self.slots.len(), self.locks.len(), self.lanes.len(), self.path.len()];
        if lent != self.sizes.lengths() { 2 } else { 0 }
    }

    /// The lowest slot index that breaks a rule, behind the number of that rule.
    pub fn slot_fault(&self) -> Option<(u32, u32)> {
        for i in 0..self.slots.len() / 3 {
            let (mark, key, value) = (self.slots[3 * i], self.slots[3 * i + 1], self.slots[3 * i + 2]);
            if mark > 1 || key > LAST_KEY || (mark == 0 && (key != 0 || value != 0)) {
                return Some((3, i as u32));
            }
            if mark == 0 {
                continue;
            }
            if !self.sizes.at_home(i as u32 / self.sizes.columns, key) {
                return Some((4, i as u32));
            }
            if (0..i).any(|j| self.slots[3 * j] == 1 && self.slots[3 * j + 1] == key) {
                return Some((5, i as u32));
            }
        }
        None
    }

    /// Number and index.
    pub fn open(&mut self) -> (u32, u32) {
        let outer = self.outer_refusal();
        if outer != 0 {
            return (outer, 0);
        }
        if let Some(fault) = self.slot_fault() {
            return fault;
        }
        self.locks.fill(0);
        self.lanes.fill(0);
        self.path.fill(0);
        (0, 0)
    }

    /// 1, 2, 9 or 6, or 0 where none of them is due.
    pub fn refusal(&self, lane: u32) -> u32 {
        let outer = self.outer_refusal();
        if outer != 0 {
            return outer;
        }
        if self.standing().is_err() {
            return 9;
        }
        if lane >= self.sizes.lanes { 6 } else { 0 }
    }

    pub fn start(&mut self, op: u32, lane: u32, key: u32, value: u32) -> u32 {
        let refusal = self.refusal(lane);
        if refusal != 0 {
            return refusal;
        }
        if self.lane(lane as usize).stage != 0 {
            return 7;
        }
        if key > LAST_KEY {
            return 10;
        }
        let stage = if op == INSERT { TAKE_MAIN } else { TAKE_FIRST };
        let grab = if op == READ { R1 } else { W1 };
        self.put_lane(lane as usize, Lane { stage, op, key, value, grab, ..Lane::default() });
        0
    }
}
