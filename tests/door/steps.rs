// 01's steps: one match arm for each stage of a lane.

use crate::model::*;

pub const GOES_ON: u32 = 0;
pub const READ_NONE: u32 = 1;
pub const READ_VALUE: u32 = 2;
pub const DELETED: u32 = 3;
pub const INSERTED: u32 = 4;
pub const GAVE_UP: u32 = 5;
pub const IN_VAIN: u32 = 6;

/// Where a step leads: the lane goes on, or ends with an end and a value.
enum After {
    On(Lane),
    End(u32, u32),
}
use After::{End, On};

impl Table<'_> {
    /// Number, end, value.
    pub fn step(&mut self, lane: u32, byte: u8) -> (u32, u32, u32) {
        let refusal = self.refusal(lane);
        if refusal != 0 {
            return (refusal, 0, 0);
        }
        let i = lane as usize;
        let a = self.lane(i);
        if a.stage == 0 {
            return (8, 0, 0);
        }
        match self.turn(a, byte as u32) {
            On(b) => {
                self.put_lane(i, b);
                (0, GOES_ON, 0)
            }
            End(end, value) => {
                self.put_lane(i, Lane::default());
                (0, end, value)
            }
        }
    }

    fn turn(&mut self, a: Lane, byte: u32) -> After {
        let s = self.sizes;
        let (first, second) = s.order(a.key);
        let last_column = a.column + 1 == s.columns;
        let aside = Lane { column: a.column + 1, ..a };
        On(match a.stage {
            TAKE_MAIN => self.grab(a, Lane { grab: W1, ..a.at(TAKE_FIRST) }),
            TAKE_FIRST => self.grab(a, a.at(SEEK_FIRST)),
            SEEK_FIRST if self.holds(first, a.column, a.key) => self.hit(a, 1, first),
            SEEK_FIRST if !last_column => aside,
            SEEK_FIRST if s.shared(a.key) => a.at(SEEK_SECOND),
            SEEK_FIRST => Lane { grab: if a.op == READ { R1 } else { W1 }, ..a.at(TAKE_SECOND) },
            TAKE_SECOND => self.grab(a, a.at(SEEK_SECOND)),
            SEEK_SECOND if self.holds(second, a.column, a.key) => self.hit(a, 2, second),
            SEEK_SECOND if !last_column => aside,
            SEEK_SECOND if a.op == READ || a.op == DELETE => Lane { ending: MISS, ..a.at(DROP_FIRST) },
            SEEK_SECOND => a.at(ROOM_FIRST),
            ROOM_FIRST if self.empty(first, a.column) => Lane { side: 1, column: a.column, ..a.at(WRITE_ROOM) },
            ROOM_FIRST if !last_column => aside,
            ROOM_FIRST => a.at(ROOM_SECOND),
            ROOM_SECOND if self.empty(second, a.column) => Lane { side: 2, column: a.column, ..a.at(WRITE_ROOM) },
            ROOM_SECOND if !last_column => aside,
            ROOM_SECOND if a.op == INSERT => a.at(PICK),
            ROOM_SECOND => Lane { ending: NOTHING, ..a.at(DROP_FIRST) },
            WRITE_HIT | WRITE_ROOM => self.write(a),
            PICK => {
                let (one, two) = s.homes(a.key);
                self.pick(0, if byte % 2 == 0 { one } else { two }, (byte >> 1) % s.columns);
                Lane { ending: PICKED, places: 1, ..a.at(DROP_FIRST) }
            }
            DROP_FIRST => {
                self.release(s.lock_of(first), a.op == READ);
                if !self.drops_two(&a) {
                    return self.passed(a);
                }
                Lane { stage: DROP_SECOND, ..a }
            }
            DROP_SECOND => {
                self.release(s.lock_of(second), a.op == READ);
                return self.passed(a);
            }
            DROP_MAIN => {
                self.release(s.locks, false);
                self.path.fill(0);
                return End([INSERTED, GAVE_UP, IN_VAIN][a.ending as usize - 1], 0);
            }
            TAKE_NEXT => self.grab(a, Lane { picks: a.picks, places: a.places, ..a.at(LOOK_NEXT) }),
            LOOK_NEXT if self.empty(self.next_row(&a), a.column) => Lane { stage: DROP_NEXT, ending: ROOM, ..a },
            LOOK_NEXT if !last_column => aside,
            LOOK_NEXT => Lane { stage: PICK_NEXT, column: 0, ..a },
            PICK_NEXT => {
                self.pick(a.places, self.next_row(&a), byte % s.columns);
                Lane { stage: DROP_NEXT, ending: FULL, picks: a.picks + 1, places: a.places + 1, ..a }
            }
            DROP_NEXT => {
                let row = self.next_row(&a);
                self.release(s.lock_of(row), true);
                self.attempted(a, row)
            }
            TAKE_LOW | TAKE_HIGH => {
                let (low, high) = self.swing_locks(&a);
                let higher = a.stage == TAKE_LOW && low != high;
                let stage = if higher { TAKE_HIGH } else { SWING };
                self.grab(a, Lane { stage, grab: if higher { W1 } else { 0 }, ..a })
            }
            SWING => {
                self.swing(&a);
                Lane { stage: DROP_LOW, ..a }
            }
            DROP_LOW | DROP_HIGH => {
                let (low, high) = self.swing_locks(&a);
                self.release(if a.stage == DROP_LOW { low } else { high }, false);
                if a.stage == DROP_LOW && low != high { Lane { stage: DROP_HIGH, ..a } } else { self.swung(a) }
            }
            other => unreachable!("stage {other}"),
        })
    }

    /// One step of taking the wanted lock; `held` is where the lane goes once it has it.
    fn grab(&mut self, a: Lane, held: Lane) -> Lane {
        let flag = 2 * self.wanted(&a) as usize;
        let count = flag + 1;
        let to = |grab: u32| Lane { grab, noted: 0, ..a };
        match a.grab {
            R1 => Lane { noted: self.locks[count], ..to(R2) },
            R2 if self.locks[count] != a.noted => to(R1),
            R2 => {
                self.locks[count] += 1;
                to(R3)
            }
            R3 if self.locks[flag] == 0 => held,
            R3 => to(R4),
            R4 => {
                self.locks[count] -= 1;
                to(R1)
            }
            W1 if self.locks[flag] == 0 => {
                self.locks[flag] = 1;
                to(W2)
            }
            W2 if self.locks[count] == 0 => held,
            _ => a,
        }
    }

    fn release(&mut self, lock: u32, reading: bool) {
        if reading {
            self.locks[2 * lock as usize + 1] -= 1;
        } else {
            self.locks[2 * lock as usize] = 0;
        }
    }

    fn hit(&self, a: Lane, side: u32, row: u32) -> Lane {
        let found = Lane { side, column: a.column, ..a.at(WRITE_HIT) };
        if a.op == READ {
            let seen = self.slot(row, a.column).value;
            Lane { stage: DROP_FIRST, ending: HIT, seen, ..found }
        } else {
            found
        }
    }

    fn write(&mut self, a: Lane) -> Lane {
        let (first, second) = self.sizes.order(a.key);
        let row = if a.side == 1 { first } else { second };
        let full = Slot { mark: 1, key: a.key, value: a.value };
        self.put_slot(row, a.column, if a.op == DELETE { Slot::default() } else { full });
        if a.stage == WRITE_HIT {
            Lane { ending: WRITTEN, side: a.side, ..a.at(DROP_FIRST) }
        } else {
            Lane { ending: FILLED, ..a.at(DROP_FIRST) }
        }
    }

    fn pick(&mut self, index: u32, row: u32, column: u32) {
        let key = self.slot(row, column).key;
        self.put_place(index, Place { row, column, key });
    }

    /// The rows of a pass are released.
    fn passed(&self, a: Lane) -> After {
        match (a.op, a.ending) {
            (READ, HIT) => End(READ_VALUE, a.seen),
            (READ, _) => End(READ_NONE, 0),
            (DELETE, _) => End(DELETED, 0),
            (_, PICKED) => On(Lane { grab: R1, places: 1, ..a.at(TAKE_NEXT) }),
            (_, NOTHING) => On(Lane { ending: WALKED, ..a.at(DROP_MAIN) }),
            _ => On(Lane { ending: YES, ..a.at(DROP_MAIN) }),
        }
    }

    /// The row of an attempt is released.
    fn attempted(&self, a: Lane, row: u32) -> Lane {
        if a.ending == ROOM {
            Lane { grab: W1, places: a.places, free_row: row, free_column: a.column, ..a.at(TAKE_LOW) }
        } else if a.picks == self.sizes.rows + 1 {
            Lane { ending: SEARCHED, places: a.places, ..a.at(DROP_MAIN) }
        } else {
            Lane { grab: R1, picks: a.picks, places: a.places, ..a.at(TAKE_NEXT) }
        }
    }

    fn swing(&mut self, a: &Lane) {
        let last = self.last(a);
        if self.holds(last.row, last.column, last.key) && self.empty(a.free_row, a.free_column) {
            self.put_slot(a.free_row, a.free_column, self.slot(last.row, last.column));
            self.put_slot(last.row, last.column, Slot::default());
        }
    }

    /// The locks of a swing are released: its place leaves the path and is the free place.
    fn swung(&mut self, a: Lane) -> Lane {
        let last = self.last(&a);
        self.put_place(a.places - 1, Place::default());
        if a.places == 1 {
            return Lane { op: AGAIN, grab: W1, ..a.at(TAKE_FIRST) };
        }
        let free = Lane { free_row: last.row, free_column: last.column, ..a.at(TAKE_LOW) };
        Lane { grab: W1, places: a.places - 1, ..free }
    }
}
