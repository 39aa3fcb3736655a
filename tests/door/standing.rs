// 01's standing check. It says which part failed first, so that the test can count how each part was tried.

use crate::model::*;

#[derive(Clone, Copy, PartialEq, Debug)]
pub enum Fault {
    Slots,
    Record,
    Path,
    Locks,
    Claims,
}

/// A lane's part in a lock.
#[derive(Clone, Copy, PartialEq)]
pub enum Part {
    PastW1,
    Writing,
    Counted,
    Reading,
}

pub const NOTED: u32 = 1;
pub const GRAB: u32 = 2;
pub const SIDE: u32 = 4;
pub const COLUMN: u32 = 8;
pub const PICKS: u32 = 16;
pub const PLACES: u32 = 32;
pub const FREE: u32 = 64;
pub const SEEN: u32 = 128;

/// The operations that may stand at a stage with an ending, and the numbers used there.
pub fn form(stage: u32, ending: u32) -> Option<(&'static [u32], u32)> {
    let any: &[u32] = &[READ, DELETE, INSERT, AGAIN];
    let writers: &[u32] = &[DELETE, INSERT, AGAIN];
    let inserts: &[u32] = &[INSERT, AGAIN];
    let form: (&[u32], u32) = match (stage, ending) {
        (TAKE_MAIN, 0) => (&[INSERT], GRAB),
        (TAKE_FIRST | TAKE_SECOND, 0) => (any, GRAB | NOTED),
        (SEEK_FIRST | SEEK_SECOND, 0) => (any, COLUMN),
        (ROOM_FIRST | ROOM_SECOND, 0) => (inserts, COLUMN),
        (WRITE_HIT, 0) => (writers, SIDE | COLUMN),
        (WRITE_ROOM, 0) => (inserts, SIDE | COLUMN),
        (PICK, 0) => (&[INSERT], 0),
        (DROP_FIRST | DROP_SECOND, HIT) => (&[READ], SIDE | COLUMN | SEEN),
        (DROP_FIRST | DROP_SECOND, WRITTEN) => (writers, SIDE),
        (DROP_FIRST | DROP_SECOND, FILLED) => (inserts, 0),
        (DROP_FIRST | DROP_SECOND, MISS) => (&[READ, DELETE], 0),
        (DROP_FIRST | DROP_SECOND, PICKED) => (&[INSERT], PLACES),
        (DROP_FIRST | DROP_SECOND, NOTHING) => (&[AGAIN], 0),
        (DROP_MAIN, YES) => (inserts, 0),
        (DROP_MAIN, SEARCHED) => (&[INSERT], PLACES),
        (DROP_MAIN, WALKED) => (&[AGAIN], 0),
        (TAKE_NEXT, 0) => (&[INSERT], GRAB | NOTED | PICKS | PLACES),
        (LOOK_NEXT, 0) => (&[INSERT], COLUMN | PICKS | PLACES),
        (PICK_NEXT, 0) => (&[INSERT], PICKS | PLACES),
        (DROP_NEXT, ROOM) => (&[INSERT], COLUMN | PICKS | PLACES),
        (DROP_NEXT, FULL) => (&[INSERT], PICKS | PLACES),
        (TAKE_LOW | TAKE_HIGH, 0) => (&[INSERT], GRAB | PLACES | FREE),
        (SWING | DROP_LOW | DROP_HIGH, 0) => (&[INSERT], PLACES | FREE),
        _ => return None,
    };
    Some(form)
}

impl Table<'_> {
    pub fn standing(&self) -> Result<(), Fault> {
        let all = |ok: &dyn Fn(&Lane) -> bool| (0..self.sizes.lanes as usize).all(|i| ok(&self.lane(i)));
        if self.slot_fault().is_some() {
            return Err(Fault::Slots);
        }
        if !all(&|a| self.record_ok(a)) {
            return Err(Fault::Record);
        }
        if !self.path_ok() {
            return Err(Fault::Path);
        }
        if !self.due_locks().is_some_and(|due| due[..self.locks.len()] == self.locks[..]) || self.mixed() {
            return Err(Fault::Locks);
        }
        if !all(&|a| self.claims_ok(a)) {
            return Err(Fault::Claims);
        }
        Ok(())
    }

    /// Every number is in range for the lane's place in the steps, and 0 where that place does not use it.
    pub fn record_ok(&self, a: &Lane) -> bool {
        if a.stage == 0 {
            return a.numbers() == [0; LANE];
        }
        let Some((ops, uses)) = form(a.stage, a.ending) else { return false };
        let s = self.sizes;
        let unless = |number: u32, used: u32| uses & used != 0 || number == 0;
        let reading = a.op == READ || a.stage == TAKE_NEXT;
        let grabs = if uses & GRAB == 0 { 0..=0 } else if reading { R1..=R4 } else { W1..=W2 };
        let hit_side = if a.ending == HIT || a.ending == WRITTEN { a.side } else { 2 };
        ops.contains(&a.op)
            && a.key <= LAST_KEY
            && (a.value == 0 || a.op == INSERT || a.op == AGAIN)
            && grabs.contains(&a.grab)
            && if a.grab == R2 { a.noted <= s.lanes } else { a.noted == 0 }
            && if uses & SIDE == 0 { a.side == 0 } else { a.side == 1 || a.side == 2 }
            && a.column < s.columns
            && unless(a.column, COLUMN)
            && unless(a.picks, PICKS)
            && unless(a.places, PLACES)
            && self.lengths_ok(a)
            && a.free_row < s.rows
            && a.free_column < s.columns
            && unless(a.free_row, FREE)
            && unless(a.free_column, FREE)
            && unless(a.seen, SEEN)
            && !(a.stage == TAKE_SECOND && s.shared(a.key))
            && !(a.stage == DROP_SECOND && (s.shared(a.key) || hit_side != 2))
    }

    /// Search picks and places, as far as the stage bounds them.
    fn lengths_ok(&self, a: &Lane) -> bool {
        let h = self.sizes.rows;
        match a.stage {
            DROP_FIRST | DROP_SECOND => a.places == (a.ending == PICKED) as u32,
            DROP_MAIN => a.places == if a.ending == SEARCHED { h + 2 } else { 0 },
            TAKE_NEXT | LOOK_NEXT | PICK_NEXT => a.picks <= h && a.places == a.picks + 1,
            DROP_NEXT if a.ending == ROOM => a.picks <= h && a.places == a.picks + 1,
            DROP_NEXT => 1 <= a.picks && a.picks <= h + 1 && a.places == a.picks + 1,
            TAKE_LOW | TAKE_HIGH | SWING | DROP_LOW | DROP_HIGH => 1 <= a.places && a.places <= h + 1,
            _ => true,
        }
    }

    /// One lane at most has places; neighbours agree, the rest is zeros, and the free place fits. Records are in range.
    pub fn path_ok(&self) -> bool {
        let s = self.sizes;
        let mut holder = Lane::default();
        for i in 0..s.lanes as usize {
            let a = self.lane(i);
            if a.places > 0 && holder.places > 0 {
                return false;
            }
            if a.places > 0 {
                holder = a;
            }
        }
        let n = holder.places;
        let in_range = |p: Place| p.row < s.rows && p.column < s.columns && p.key <= LAST_KEY && s.at_home(p.row, p.key);
        let neighbours = |i: u32| self.place(i + 1).row == s.other(self.place(i).row, self.place(i).key);
        (0..n).all(|i| in_range(self.place(i)))
            && (1..n).all(|i| neighbours(i - 1))
            && self.path[3 * n as usize..].iter().all(|&x| x == 0)
            && (holder.stage < TAKE_LOW || self.free_ok(&holder))
    }

    fn free_ok(&self, a: &Lane) -> bool {
        let last = self.last(a);
        let (low, high) = self.swing_locks(a);
        a.free_row == self.sizes.other(last.row, last.key) && (low != high || (a.stage != TAKE_HIGH && a.stage != DROP_HIGH))
    }

    /// The locks of the swing's two rows, the lower first.
    pub fn swing_locks(&self, a: &Lane) -> (u32, u32) {
        let (one, two) = (self.sizes.lock_of(self.last(a).row), self.sizes.lock_of(a.free_row));
        (one.min(two), one.max(two))
    }

    /// True where a pass at DropFirst holds both rows' locks, and these are two.
    pub fn drops_two(&self, a: &Lane) -> bool {
        !self.sizes.shared(a.key) && !((a.ending == HIT || a.ending == WRITTEN) && a.side == 1)
    }

    /// The row that an attempt of the search reads.
    pub fn next_row(&self, a: &Lane) -> u32 {
        let last = self.last(a);
        if a.stage == DROP_NEXT && a.ending == FULL { last.row } else { self.sizes.other(last.row, last.key) }
    }

    /// Every lock that a lane is taking or holds, for a record and a path that are in range.
    pub fn parts(&self, a: &Lane, mut each: impl FnMut(u32, Part)) {
        let s = self.sizes;
        let (one, two) = s.order(a.key);
        let (first, second) = (s.lock_of(one), s.lock_of(two));
        let held = if a.op == READ { Part::Reading } else { Part::Writing };
        let taking = match a.grab {
            R3 | R4 => Some(Part::Counted),
            W2 => Some(Part::PastW1),
            _ => None,
        };
        if a.stage > TAKE_MAIN && (a.op == INSERT || a.op == AGAIN) {
            each(s.locks, Part::Writing);
        }
        if SEEK_FIRST <= a.stage && a.stage <= DROP_FIRST {
            each(first, held);
        }
        let holds_second = match a.stage {
            SEEK_SECOND | ROOM_FIRST | ROOM_SECOND | WRITE_ROOM | PICK | DROP_SECOND => true,
            WRITE_HIT => a.side == 2,
            DROP_FIRST => self.drops_two(a),
            _ => false,
        };
        if holds_second && first != second {
            each(second, held);
        }
        if LOOK_NEXT <= a.stage && a.stage <= DROP_NEXT {
            each(s.lock_of(self.next_row(a)), Part::Reading);
        }
        if a.stage >= TAKE_LOW {
            let (low, high) = self.swing_locks(a);
            if TAKE_HIGH <= a.stage && a.stage <= DROP_LOW {
                each(low, Part::Writing);
            }
            if a.stage >= SWING && low != high {
                each(high, Part::Writing);
            }
        }
        if let Some(part) = taking {
            each(self.wanted(a), part);
        }
    }

    /// The lock that a lane at a grab wants.
    pub fn wanted(&self, a: &Lane) -> u32 {
        let s = self.sizes;
        match a.stage {
            TAKE_MAIN => s.locks,
            TAKE_FIRST => s.lock_of(s.order(a.key).0),
            TAKE_SECOND => s.lock_of(s.order(a.key).1),
            TAKE_NEXT => s.lock_of(self.next_row(a)),
            TAKE_LOW => self.swing_locks(a).0,
            _ => self.swing_locks(a).1,
        }
    }

    /// Flags and counts as the lanes call for them; none where two lanes want one flag.
    pub fn due_locks(&self) -> Option<[u32; 130]> {
        let mut due = [0; 130];
        for i in 0..self.sizes.lanes as usize {
            self.parts(&self.lane(i), |lock, part| match part {
                Part::PastW1 | Part::Writing => due[2 * lock as usize] += 1,
                Part::Counted | Part::Reading => due[2 * lock as usize + 1] += 1,
            });
        }
        due.iter().step_by(2).all(|&flag| flag <= 1).then_some(due)
    }

    /// True where a lock is held both for writing and for reading.
    fn mixed(&self) -> bool {
        let mut held = [(false, false); 65];
        for i in 0..self.sizes.lanes as usize {
            self.parts(&self.lane(i), |lock, part| match part {
                Part::Writing => held[lock as usize].0 = true,
                Part::Reading => held[lock as usize].1 = true,
                Part::PastW1 | Part::Counted => {}
            });
        }
        held.contains(&(true, true))
    }

    /// What the lane's looks have seen is still so in the rows it holds.
    pub fn claims_ok(&self, a: &Lane) -> bool {
        let w = self.sizes.columns;
        let c = a.column;
        let (first, second) = self.sizes.order(a.key);
        let at = if a.side == 1 { first } else { second };
        let lacks = |row: u32, below: u32| (0..below).all(|k| !self.holds(row, k, a.key));
        let full = |row: u32, below: u32| (0..below).all(|k| !self.empty(row, k));
        let neither = || lacks(first, w) && lacks(second, w);
        match a.stage {
            SEEK_FIRST => lacks(first, c),
            TAKE_SECOND => lacks(first, w),
            SEEK_SECOND => lacks(first, w) && lacks(second, c),
            ROOM_FIRST => neither() && full(first, c),
            ROOM_SECOND => neither() && full(first, w) && full(second, c),
            WRITE_HIT => self.holds(at, c, a.key),
            WRITE_ROOM => neither() && (a.side == 1 || full(first, w)) && full(at, c) && self.empty(at, c),
            PICK => neither() && full(first, w) && full(second, w),
            DROP_FIRST | DROP_SECOND => {
                let gone = a.stage == DROP_SECOND;
                match a.ending {
                    HIT => self.holds(at, c, a.key) && self.slot(at, c).value == a.seen,
                    MISS => (gone || lacks(first, w)) && lacks(second, w),
                    PICKED | NOTHING => (gone || (lacks(first, w) && full(first, w))) && lacks(second, w) && full(second, w),
                    _ => true,
                }
            }
            LOOK_NEXT => full(self.next_row(a), c),
            PICK_NEXT => full(self.next_row(a), w),
            DROP_NEXT if a.ending == ROOM => full(self.next_row(a), c) && self.empty(self.next_row(a), c),
            DROP_NEXT => full(self.next_row(a), w),
            _ => true,
        }
    }
}
