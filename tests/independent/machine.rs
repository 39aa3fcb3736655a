//! The table, its locks and its lanes, written from the rules of document 01.
//! Words in double quotes in the comments are 01's own sentences.
//!
//! A lane's operation is a `Work`. Its `doing` names the one item that the
//! lane's next step carries out. Each item knows what comes after it, so one
//! call of `Machine::step` is one step of 01.

use std::collections::BTreeMap;
use std::fmt;

/// "Keys are strokes, 0..8388607."
pub const LAST_KEY: u32 = 8_388_607;

// "Numbers the desk answers with". Only those that the table gives in a job.
pub const SIZE_OUT_OF_LIMITS: u8 = 1;
pub const LANE_NOT_BELOW_N: u8 = 6;
pub const LANE_IS_BUSY: u8 = 7;
pub const LANE_IS_IDLE: u8 = 8;
pub const KEY_ABOVE_LAST: u8 = 10;

#[derive(Clone, Copy, Debug, PartialEq, Eq)]
pub struct Sizes {
    /// H
    pub rows: usize,
    /// W
    pub columns: usize,
    /// L
    pub locks: usize,
    /// N
    pub lanes: usize,
}

impl Sizes {
    /// "Sizes: H rows 2..64, W columns 1..8, L row locks 1..H, N lanes 1..8."
    pub fn new(h: u8, w: u8, l: u8, n: u8) -> Result<Sizes, u8> {
        let good = (2..=64).contains(&h)
            && (1..=8).contains(&w)
            && (1..=h).contains(&l)
            && (1..=8).contains(&n);
        if !good {
            return Err(SIZE_OUT_OF_LIMITS);
        }
        Ok(Sizes {
            rows: h as usize,
            columns: w as usize,
            locks: l as usize,
            lanes: n as usize,
        })
    }

    /// "h1 = key mod H; h2 = (h1 + 1 + (key div H) mod (H - 1)) mod H."
    pub fn home_rows(&self, key: u32) -> (usize, usize) {
        let key = key as usize;
        let h1 = key % self.rows;
        let h2 = (h1 + 1 + (key / self.rows) % (self.rows - 1)) % self.rows;
        (h1, h2)
    }

    /// The home row of `key` that is not `row`.
    fn other_row(&self, key: u32, row: usize) -> usize {
        let (h1, h2) = self.home_rows(key);
        assert!(row == h1 || row == h2, "a key stands outside its home rows");
        if row == h1 {
            h2
        } else {
            h1
        }
    }

    /// "lock of a row = row mod L. Two rows may share a lock."
    pub fn lock_of(&self, row: usize) -> usize {
        row % self.locks
    }

    /// "the main lock stands after the L row locks"
    fn main_lock(&self) -> usize {
        self.locks
    }

    /// "Two rows are taken lower lock first; with locks l1 < l2 the order is
    /// h1, h2, otherwise h2, h1." Equal locks are "otherwise": h2, h1.
    pub fn rows_in_order(&self, key: u32) -> [usize; 2] {
        let (h1, h2) = self.home_rows(key);
        if self.lock_of(h1) < self.lock_of(h2) {
            [h1, h2]
        } else {
            [h2, h1]
        }
    }
}

/// A full slot. An empty one is `None`.
#[derive(Clone, Copy, Debug, PartialEq, Eq)]
pub struct Pair {
    pub key: u32,
    pub value: u32,
}

/// "Each lock has a flag and a count"
#[derive(Clone, Debug, Default, PartialEq, Eq)]
struct Lock {
    flag: bool,
    count: u32,
}

#[derive(Clone, Copy, Debug, PartialEq, Eq)]
enum Mode {
    Reading,
    Writing,
}

/// A place of the path: "(row, column, key)".
#[derive(Clone, Copy, Debug, PartialEq, Eq)]
struct Place {
    row: usize,
    column: usize,
    key: u32,
}

/// The free slot that a swing moves into.
#[derive(Clone, Copy, Debug, PartialEq, Eq)]
struct Free {
    row: usize,
    column: usize,
}

#[derive(Clone, Copy, Debug, PartialEq, Eq)]
pub enum Errand {
    Read,
    Delete,
    Insert { value: u32 },
}

/// How an operation ended.
#[derive(Clone, Copy, Debug, PartialEq, Eq)]
pub enum End {
    ReadValue(u32),
    ReadNone,
    Delete,
    InsertYes,
    InsertSearched,
    InsertWalked,
}

/// As printed: "lane 0 insert yes", "lane 0 read 7", and "Other ends print
/// `read none`, `delete`, `insert searched`, `insert walked`."
impl fmt::Display for End {
    fn fmt(&self, out: &mut fmt::Formatter<'_>) -> fmt::Result {
        match self {
            End::ReadValue(value) => write!(out, "read {value}"),
            End::ReadNone => write!(out, "read none"),
            End::Delete => write!(out, "delete"),
            End::InsertYes => write!(out, "insert yes"),
            End::InsertSearched => write!(out, "insert searched"),
            End::InsertWalked => write!(out, "insert walked"),
        }
    }
}

/// The first or the second of the key's two rows, in the order of taking.
#[derive(Clone, Copy, Debug, PartialEq, Eq)]
enum Nth {
    First,
    Second,
}

#[derive(Clone, Copy, Debug, PartialEq, Eq)]
enum Pass {
    First,
    Second,
}

/// The item that the lane's next step carries out.
#[derive(Clone, Copy, Debug, PartialEq, Eq)]
enum Doing {
    R1 { lock: usize, then: Then },
    R2 { lock: usize, noted: u32, then: Then },
    R3 { lock: usize, then: Then },
    R4 { lock: usize, then: Then },
    W1 { lock: usize, then: Then },
    W2 { lock: usize, then: Then },
    /// Is the key in this column?
    LookForKey { nth: Nth, column: usize },
    /// Is this column empty, for the insert to fill?
    LookForEmpty { nth: Nth, column: usize },
    /// Overwrite or fill (`Some`), or empty (`None`) one slot.
    Write { row: usize, column: usize, new: Option<Pair>, end: End },
    /// The pick step that begins the path.
    FirstPick,
    /// Is this column of the search's row empty?
    LookForFree { row: usize, column: usize },
    /// The pick step that appends to the path.
    SearchPick { row: usize },
    /// Move the pair of the last path place into the free slot, or skip.
    Swing { free: Free },
    /// Release the first taken row lock that is still held.
    ReleaseRow { then: Then },
    ReleaseMain { end: End },
}

/// What a lane turns to when a lock is held, or its row locks are released.
#[derive(Clone, Copy, Debug, PartialEq, Eq)]
enum Then {
    /// Lock the key's first row: a pass begins.
    Pass,
    /// Look through this row for the key.
    LookThrough(Nth),
    /// One attempt of the search.
    Attempt,
    /// Look through this row for free space.
    LookForFree { row: usize },
    /// Take the locks for a swing from the last path place into `free`.
    Walk { free: Free },
    /// The swing's first lock is held, this is its second.
    SecondSwingLock { lock: usize, free: Free },
    /// The swing's locks are held.
    Swing { free: Free },
    /// The swing's locks are released.
    SwingDone,
    /// The row locks are released and the answer is known.
    Finish(End),
}

/// A busy lane.
#[derive(Clone, Debug)]
struct Work {
    errand: Errand,
    key: u32,
    /// The key's home rows in the order of taking.
    rows: [usize; 2],
    pass: Pass,
    /// The row locks held, first taken first.
    held: Vec<(usize, Mode)>,
    holds_main: bool,
    /// The path store. It belongs to the main lock's holder, so here it lies
    /// in the work of the lane that holds main.
    path: Vec<Place>,
    /// Number of the search attempt under way, 1 for the first.
    attempt: usize,
    doing: Doing,
}

impl Work {
    fn mode(&self) -> Mode {
        match self.errand {
            Errand::Read => Mode::Reading,
            Errand::Delete | Errand::Insert { .. } => Mode::Writing,
        }
    }

    fn row(&self, nth: Nth) -> usize {
        match nth {
            Nth::First => self.rows[0],
            Nth::Second => self.rows[1],
        }
    }

    fn last_place(&self) -> Place {
        *self.path.last().expect("search and walk have a path")
    }
}

#[derive(Clone)]
pub struct Machine {
    pub sizes: Sizes,
    slots: Vec<Option<Pair>>,
    locks: Vec<Lock>,
    lanes: Vec<Option<Work>>,
    /// How often each thing was met, where `counting` is set. No rule looks at
    /// either.
    pub tally: BTreeMap<&'static str, u64>,
    pub counting: bool,
}

impl Machine {
    pub fn new(sizes: Sizes) -> Machine {
        Machine {
            sizes,
            slots: vec![None; sizes.rows * sizes.columns],
            // L row locks and the main lock after them.
            locks: vec![Lock::default(); sizes.locks + 1],
            lanes: vec![None; sizes.lanes],
            tally: BTreeMap::new(),
            counting: false,
        }
    }

    #[allow(dead_code)] // for the generator
    pub fn is_busy(&self, lane: usize) -> bool {
        self.lanes[lane].is_some()
    }

    /// "Full slots follow in index order": row, column, pair.
    pub fn full_slots(&self) -> Vec<(usize, usize, Pair)> {
        let mut full = Vec::new();
        for row in 0..self.sizes.rows {
            for column in 0..self.sizes.columns {
                if let Some(pair) = self.slot(row, column) {
                    full.push((row, column, pair));
                }
            }
        }
        full
    }

    /// For start: "6, 7, 10".
    pub fn start(&mut self, lane: u8, key: u32, errand: Errand) -> Result<(), u8> {
        let lane = lane as usize;
        if lane >= self.sizes.lanes {
            return Err(LANE_NOT_BELOW_N);
        }
        if self.lanes[lane].is_some() {
            return Err(LANE_IS_BUSY);
        }
        if key > LAST_KEY {
            return Err(KEY_ABOVE_LAST);
        }
        let mut work = Work {
            errand,
            key,
            rows: self.sizes.rows_in_order(key),
            pass: Pass::First,
            held: Vec::new(),
            holds_main: false,
            path: Vec::new(),
            attempt: 0,
            doing: Doing::FirstPick, // replaced at once, below
        };
        // "A start costs no step."
        match errand {
            Errand::Read | Errand::Delete => self.turn(&mut work, Then::Pass),
            // "Insert. Main lock (writing), first row, ..."
            Errand::Insert { .. } => {
                let main = self.sizes.main_lock();
                work.doing = Doing::W1 { lock: main, then: Then::Pass };
            }
        }
        self.lanes[lane] = Some(work);
        Ok(())
    }

    /// For step: "6, 8". `Ok(None)`: the lane goes on.
    pub fn step(&mut self, lane: u8, byte: u8) -> Result<Option<End>, u8> {
        let lane = lane as usize;
        if lane >= self.sizes.lanes {
            return Err(LANE_NOT_BELOW_N);
        }
        let Some(mut work) = self.lanes[lane].take() else {
            return Err(LANE_IS_IDLE);
        };
        let end = self.advance(&mut work, byte);
        // "an ended lane is idle"
        if end.is_none() {
            self.lanes[lane] = Some(work);
        } else {
            assert!(work.held.is_empty() && !work.holds_main);
        }
        Ok(end)
    }

    fn slot(&self, row: usize, column: usize) -> Option<Pair> {
        self.slots[row * self.sizes.columns + column]
    }

    fn set_slot(&mut self, row: usize, column: usize, new: Option<Pair>) {
        // "slot index = row x W + column"
        self.slots[row * self.sizes.columns + column] = new;
    }

    fn met(&mut self, what: &'static str) {
        if self.counting {
            *self.tally.entry(what).or_insert(0) += 1;
        }
    }

    /// Carries out `work.doing`: one step.
    fn advance(&mut self, work: &mut Work, byte: u8) -> Option<End> {
        match work.doing {
            // "R1 note the count."
            Doing::R1 { lock, then } => {
                let noted = self.locks[lock].count;
                work.doing = Doing::R2 { lock, noted, then };
                None
            }
            // "R2 if it is still that, add 1, else R1."
            Doing::R2 { lock, noted, then } => {
                if self.locks[lock].count == noted {
                    self.locks[lock].count += 1;
                    work.doing = Doing::R3 { lock, then };
                } else {
                    self.met("R2 back to R1");
                    work.doing = Doing::R1 { lock, then };
                }
                None
            }
            // "R3 if the flag is clear the lock is held, else R4."
            Doing::R3 { lock, then } => {
                if self.locks[lock].flag {
                    self.met("R3 to R4");
                    work.doing = Doing::R4 { lock, then };
                } else {
                    work.held.push((lock, Mode::Reading));
                    self.turn(work, then);
                }
                None
            }
            // "R4 subtract 1, back to R1."
            Doing::R4 { lock, then } => {
                self.locks[lock].count -= 1;
                work.doing = Doing::R1 { lock, then };
                None
            }
            // "W1 if the flag is clear set it, else stay."
            Doing::W1 { lock, then } => {
                if self.locks[lock].flag {
                    self.met(if lock == self.sizes.main_lock() {
                        "W1 of main stays"
                    } else {
                        "W1 of a row stays"
                    });
                } else {
                    self.locks[lock].flag = true;
                    work.doing = Doing::W2 { lock, then };
                }
                None
            }
            // "W2 if the count is 0 the lock is held, else stay."
            Doing::W2 { lock, then } => {
                if self.locks[lock].count == 0 {
                    if lock == self.sizes.main_lock() {
                        work.holds_main = true;
                    } else {
                        work.held.push((lock, Mode::Writing));
                    }
                    self.turn(work, then);
                } else {
                    self.met("W2 stays");
                }
                None
            }
            // "look at one slot a step"
            Doing::LookForKey { nth, column } => {
                let row = work.row(nth);
                match self.slot(row, column) {
                    Some(pair) if pair.key == work.key => self.hit(work, nth, column, pair),
                    _ => self.key_not_here(work, nth, column),
                }
                None
            }
            // "Else look for an empty slot in the first row, then the second;
            // fill it in one step."
            Doing::LookForEmpty { nth, column } => {
                self.look_for_empty(work, nth, column);
                None
            }
            // "A hit is overwritten in one step." "fill it in one step"
            // "after a hit one step empties the slot"
            // Then "Release those held: first, second, main; end".
            Doing::Write { row, column, new, end } => {
                self.set_slot(row, column, new);
                work.doing = Doing::ReleaseRow { then: Then::Finish(end) };
                None
            }
            // "a pick step: byte r even takes h1, odd h2; column (r >> 1) mod W;
            // that place and its key begin the path. Release both rows."
            Doing::FirstPick => {
                let (h1, h2) = self.sizes.home_rows(work.key);
                let row = if byte % 2 == 0 { h1 } else { h2 };
                let column = (byte >> 1) as usize % self.sizes.columns;
                self.met(if row == work.rows[0] {
                    "first pick in the row taken first"
                } else {
                    "first pick in the row taken second"
                });
                let key = self.slot(row, column).expect("a pick finds full rows").key;
                work.path.push(Place { row, column, key });
                work.doing = Doing::ReleaseRow { then: Then::Attempt };
                None
            }
            // "look from column 0; the first empty column is free space:
            // release, walk. All full: a pick step"
            Doing::LookForFree { row, column } => {
                if self.slot(row, column).is_none() {
                    let free = Free { row, column };
                    self.met("search finds free space");
                    work.doing = Doing::ReleaseRow { then: Then::Walk { free } };
                } else if column + 1 < self.sizes.columns {
                    work.doing = Doing::LookForFree { row, column: column + 1 };
                } else {
                    work.doing = Doing::SearchPick { row };
                }
                None
            }
            // "All full: a pick step, column r mod W, appends place and key;
            // release. After attempt H+1 finds a full row: release main, end no
            // (searched)."
            Doing::SearchPick { row } => {
                let column = byte as usize % self.sizes.columns;
                let key = self.slot(row, column).expect("a pick finds a full row").key;
                work.path.push(Place { row, column, key });
                let then = if work.attempt == self.sizes.rows + 1 {
                    Then::Finish(End::InsertSearched)
                } else {
                    Then::Attempt
                };
                work.doing = Doing::ReleaseRow { then };
                None
            }
            // "One step moves the pair if the source still holds that key and
            // the target is empty, else skips. Release both."
            Doing::Swing { free } => {
                let from = work.last_place();
                let source = self.slot(from.row, from.column);
                let target = self.slot(free.row, free.column);
                match (source, target) {
                    (Some(pair), None) if pair.key == from.key => {
                        self.set_slot(free.row, free.column, Some(pair));
                        self.set_slot(from.row, from.column, None);
                        self.met("swing moves");
                    }
                    (_, Some(_)) => self.met("swing skips, target full"),
                    (Some(_), None) => self.met("swing skips, source holds another key"),
                    (None, None) => self.met("swing skips, source empty"),
                }
                work.doing = Doing::ReleaseRow { then: Then::SwingDone };
                None
            }
            // "Release: subtract 1, or clear the flag; first taken row lock
            // first, main last."
            Doing::ReleaseRow { then } => {
                let (lock, mode) = work.held.remove(0);
                match mode {
                    Mode::Reading => self.locks[lock].count -= 1,
                    Mode::Writing => self.locks[lock].flag = false,
                }
                if !work.held.is_empty() {
                    return None;
                }
                match then {
                    Then::Finish(end) if !work.holds_main => Some(end),
                    Then::Finish(end) => {
                        work.doing = Doing::ReleaseMain { end };
                        None
                    }
                    _ => {
                        self.turn(work, then);
                        None
                    }
                }
            }
            Doing::ReleaseMain { end } => {
                let main = self.sizes.main_lock();
                self.locks[main].flag = false;
                work.holds_main = false;
                Some(end)
            }
        }
    }

    /// "a lane turns to its next item at once": sets `work.doing`, no step.
    fn turn(&mut self, work: &mut Work, then: Then) {
        work.doing = match then {
            // "Lock the first row" (read, delete), "first row" (insert), and
            // for the second pass "As the first, main being held already".
            Then::Pass => {
                let lock = self.sizes.lock_of(work.row(Nth::First));
                take(lock, work.mode(), Then::LookThrough(Nth::First))
            }
            Then::LookThrough(nth) => Doing::LookForKey { nth, column: 0 },
            // "From the last place, read-lock the key's other row"
            Then::Attempt => {
                work.attempt += 1;
                self.met("search attempts");
                let last = work.last_place();
                let row = self.sizes.other_row(last.key, last.row);
                let lock = self.sizes.lock_of(row);
                take(lock, Mode::Reading, Then::LookForFree { row })
            }
            Then::LookForFree { row } => Doing::LookForFree { row, column: 0 },
            // "From the last place back: take both rows' locks, lower first."
            // "equal locks are taken once and released once"
            Then::Walk { free } => {
                let source = self.sizes.lock_of(work.last_place().row);
                let target = self.sizes.lock_of(free.row);
                if source == target {
                    self.met("swing under one shared lock");
                    take(source, Mode::Writing, Then::Swing { free })
                } else {
                    let lower = source.min(target);
                    let higher = source.max(target);
                    take(lower, Mode::Writing, Then::SecondSwingLock { lock: higher, free })
                }
            }
            Then::SecondSwingLock { lock, free } => {
                take(lock, Mode::Writing, Then::Swing { free })
            }
            Then::Swing { free } => Doing::Swing { free },
            // "With the last of these releases the free slot becomes the place
            // just left, skip or not, and that place leaves the path."
            Then::SwingDone => {
                let left = work.path.pop().expect("a swing has a place");
                let free = Free { row: left.row, column: left.column };
                if work.path.is_empty() {
                    work.pass = Pass::Second;
                    self.met("second passes");
                    self.turn(work, Then::Pass);
                } else {
                    self.turn(work, Then::Walk { free });
                }
                return;
            }
            Then::Finish(_) => unreachable!("ReleaseRow finishes by itself"),
        };
    }

    /// The key stands in this column.
    fn hit(&mut self, work: &mut Work, nth: Nth, column: usize, pair: Pair) {
        let row = work.row(nth);
        if work.pass == Pass::Second {
            self.met("hit in a second pass");
        }
        work.doing = match work.errand {
            // "Hit: release, end with the value."
            Errand::Read => {
                let end = End::ReadValue(pair.value);
                Doing::ReleaseRow { then: Then::Finish(end) }
            }
            // "after a hit one step empties the slot"
            Errand::Delete => Doing::Write { row, column, new: None, end: End::Delete },
            // "A hit is overwritten in one step."
            Errand::Insert { value } => {
                let new = Some(Pair { key: work.key, value });
                Doing::Write { row, column, new, end: End::InsertYes }
            }
        };
    }

    /// The look at this column passed without the key.
    fn key_not_here(&mut self, work: &mut Work, nth: Nth, column: usize) {
        if column + 1 < self.sizes.columns {
            work.doing = Doing::LookForKey { nth, column: column + 1 };
            return;
        }
        match nth {
            // "Miss: lock and look through the second." Equal locks are taken
            // once, so a shared one is held already.
            Nth::First => {
                let first = self.sizes.lock_of(work.row(Nth::First));
                let second = self.sizes.lock_of(work.row(Nth::Second));
                if first == second {
                    self.met("one lock for both home rows");
                    self.turn(work, Then::LookThrough(Nth::Second));
                } else {
                    work.doing = take(second, work.mode(), Then::LookThrough(Nth::Second));
                }
            }
            Nth::Second => {
                work.doing = match work.errand {
                    // "Release first, then second; end."
                    Errand::Read => Doing::ReleaseRow { then: Then::Finish(End::ReadNone) },
                    Errand::Delete => Doing::ReleaseRow { then: Then::Finish(End::Delete) },
                    Errand::Insert { .. } => Doing::LookForEmpty { nth: Nth::First, column: 0 },
                };
            }
        }
    }

    fn look_for_empty(&mut self, work: &mut Work, nth: Nth, column: usize) {
        let row = work.row(nth);
        if self.slot(row, column).is_none() {
            let Errand::Insert { value } = work.errand else {
                unreachable!("only an insert looks for an empty slot")
            };
            if work.pass == Pass::Second {
                self.met("fill in a second pass");
            }
            let new = Some(Pair { key: work.key, value });
            work.doing = Doing::Write { row, column, new, end: End::InsertYes };
        } else if column + 1 < self.sizes.columns {
            work.doing = Doing::LookForEmpty { nth, column: column + 1 };
        } else if nth == Nth::First {
            work.doing = Doing::LookForEmpty { nth: Nth::Second, column: 0 };
        } else {
            work.doing = match work.pass {
                // "If none is empty, a pick step"
                Pass::First => Doing::FirstPick,
                // "without the pick. If nothing is found or empty: release all,
                // end no (walked)."
                Pass::Second => Doing::ReleaseRow { then: Then::Finish(End::InsertWalked) },
            };
        }
    }

    /// Does this lane's next step use the byte? "The byte is used by pick
    /// steps only."
    #[allow(dead_code)] // for the generator and the checks
    pub fn at_pick(&self, lane: usize) -> bool {
        match &self.lanes[lane] {
            Some(work) => matches!(work.doing, Doing::FirstPick | Doing::SearchPick { .. }),
            None => false,
        }
    }
}

/// The first item of taking a lock.
fn take(lock: usize, mode: Mode, then: Then) -> Doing {
    match mode {
        Mode::Reading => Doing::R1 { lock, then },
        Mode::Writing => Doing::W1 { lock, then },
    }
}

#[cfg(test)]
mod tests {
    use super::*;
    use std::collections::BTreeMap;

    fn machine(h: u8, w: u8, l: u8, n: u8) -> Machine {
        let mut machine = Machine::new(Sizes::new(h, w, l, n).unwrap());
        machine.counting = true;
        machine
    }

    /// Runs lane 0 alone, handing the pick steps these bytes in turn and every
    /// other step a byte that must not matter. Answers the end and the steps.
    fn alone(m: &mut Machine, key: u32, errand: Errand, picks: &[u8]) -> (End, usize) {
        m.start(0, key, errand).unwrap();
        let mut picks = picks.iter();
        for steps in 1.. {
            let byte = if m.at_pick(0) { *picks.next().unwrap_or(&0) } else { 0xA5 };
            if let Some(end) = m.step(0, byte).unwrap() {
                assert!(picks.next().is_none(), "a pick byte is left over");
                assert_all_clear(m);
                return (end, steps);
            }
        }
        unreachable!()
    }

    fn insert(m: &mut Machine, key: u32) -> (End, usize) {
        alone(m, key, Errand::Insert { value: key + 100 }, &[])
    }

    fn assert_all_clear(m: &Machine) {
        assert!(m.locks.iter().all(|lock| *lock == Lock::default()));
    }

    /// The keys of the slots in index order.
    fn keys(m: &Machine) -> Vec<Option<u32>> {
        m.slots.iter().map(|slot| slot.map(|pair| pair.key)).collect()
    }

    fn set_keys(m: &mut Machine, keys: &[Option<u32>]) {
        m.slots = keys
            .iter()
            .map(|key| key.map(|key| Pair { key, value: key + 100 }))
            .collect();
    }

    // "H=3, key 1024: rows 1, 0. H=2, key 5: rows 1, 0. H=4: key 8 rows 0, 3;
    // key 9 rows 1, 0; key 11 rows 3, 2."
    #[test]
    fn home_rows_of_the_tapes() {
        for (h, key, rows) in
            [(3, 1024, (1, 0)), (2, 5, (1, 0)), (4, 8, (0, 3)), (4, 9, (1, 0)), (4, 11, (3, 2))]
        {
            assert_eq!(Sizes::new(h, 1, 1, 1).unwrap().home_rows(key), rows);
        }
        // "So h1 and h2 always differ."
        for h in 2..=64 {
            let sizes = Sizes::new(h, 1, 1, 1).unwrap();
            for key in (0..10_000).chain(LAST_KEY - 10_000..=LAST_KEY) {
                let (h1, h2) = sizes.home_rows(key);
                assert!(h1 != h2 && h1 < h as usize && h2 < h as usize);
            }
        }
    }

    // "H=1 or 65, W=9, L=H+1, N=0: 1. Sizes 64, 8, 64, 8: accepted."
    #[test]
    fn sizes_of_the_tapes() {
        for (h, w, l, n) in [(1, 1, 1, 1), (65, 1, 1, 1), (2, 9, 1, 1), (4, 1, 5, 1), (2, 1, 1, 0)] {
            assert_eq!(Sizes::new(h, w, l, n), Err(1));
        }
        for (h, w, l, n) in [(2, 0, 1, 1), (2, 1, 0, 1), (2, 1, 1, 9), (0, 1, 0, 1)] {
            assert_eq!(Sizes::new(h, w, l, n), Err(1));
        }
        assert!(Sizes::new(64, 8, 64, 8).is_ok());
        assert!(Sizes::new(2, 1, 1, 1).is_ok());
    }

    // "Alone, distinct locks, empty table: insert takes 11 + 2W steps; absent
    // delete 6 + 2W; absent read 8 + 2W; absent read with one shared lock
    // 4 + 2W." Shared, by the same items: insert 8 + 2W, absent delete 3 + 2W.
    #[test]
    fn step_counts_of_the_tapes() {
        for w in 1..=8 {
            let columns = w as usize;
            for h in [2, 3, 4, 7, 64] {
                for key in [0, 1, 2, 5, 8, 1024, LAST_KEY] {
                    let insert = Errand::Insert { value: 1 };
                    let empty = |l| machine(h, w, l, 1);
                    let steps = |m: &mut Machine, errand| alone(m, key, errand, &[]);

                    assert_eq!(steps(&mut empty(h), insert), (End::InsertYes, 11 + 2 * columns));
                    assert_eq!(steps(&mut empty(h), Errand::Delete), (End::Delete, 6 + 2 * columns));
                    assert_eq!(steps(&mut empty(h), Errand::Read), (End::ReadNone, 8 + 2 * columns));

                    assert_eq!(steps(&mut empty(1), insert), (End::InsertYes, 8 + 2 * columns));
                    assert_eq!(steps(&mut empty(1), Errand::Delete), (End::Delete, 3 + 2 * columns));
                    assert_eq!(steps(&mut empty(1), Errand::Read), (End::ReadNone, 4 + 2 * columns));

                    // A hit in column 0 of the first row: lock, look, (write,)
                    // release; the second row is not locked.
                    for l in [1, h] {
                        let mut m = empty(l);
                        steps(&mut m, Errand::Insert { value: 77 });
                        assert_eq!(steps(&mut m, Errand::Read), (End::ReadValue(77), 5));
                        assert_eq!(steps(&mut m, Errand::Insert { value: 78 }), (End::InsertYes, 8));
                        assert_eq!(steps(&mut m, Errand::Read), (End::ReadValue(78), 5));
                        assert_eq!(steps(&mut m, Errand::Delete), (End::Delete, 5));
                        assert!(m.full_slots().is_empty());
                    }
                }
            }
        }
    }

    // Equal locks: "otherwise h2, h1". H=4, L=1: key 8 (rows 0, 3) fills row 3.
    #[test]
    fn equal_locks_take_the_second_home_row_first() {
        let mut m = machine(4, 1, 1, 1);
        insert(&mut m, 8);
        assert_eq!(keys(&m), [None, None, None, Some(8)]);
    }

    const WALK_BEFORE: [Option<u32>; 8] =
        [Some(24), Some(12), Some(9), Some(1), None, None, Some(11), Some(23)];
    const WALK_AFTER: [Option<u32>; 8] =
        [Some(9), Some(12), None, Some(24), Some(1), None, Some(11), Some(23)];

    // "H=4, W=2, L=4. Rows: 24, 12 / 9, 1 / empty / 11, 23. Insert 8 with pick
    // bytes 0, 0, 0, 1: path (0,0), (1,0), (0,0), (1,1), free (2,0). Key 1
    // moves, 24 moves, 9 moves, the last swing skips. Rows: 9, 12 / empty, 24 /
    // 1, empty / 11, 23. Answer walked, all locks clear."
    #[test]
    fn the_walk_case() {
        let mut m = machine(4, 2, 4, 1);
        // The table of the case, made by inserts and deletes. 2 and 14 keep
        // row 2 full while 11 and 23 come, so that these go to row 3.
        for key in [24, 12, 9, 1, 2, 14, 11, 23] {
            assert_eq!(insert(&mut m, key).0, End::InsertYes);
        }
        for key in [2, 14] {
            assert_eq!(alone(&mut m, key, Errand::Delete, &[]).0, End::Delete);
        }
        assert_eq!(keys(&m), WALK_BEFORE);

        // Up to the walk: the path and the free slot.
        let mut upto = m.clone();
        upto.start(0, 8, Errand::Insert { value: 5 }).unwrap();
        let mut picks = [0, 0, 0, 1].iter();
        loop {
            let work = upto.lanes[0].as_ref().unwrap();
            if let Doing::Swing { free } = work.doing {
                let path: Vec<_> = work.path.iter().map(|p| (p.row, p.column, p.key)).collect();
                assert_eq!(path, [(0, 0, 24), (1, 0, 9), (0, 0, 24), (1, 1, 1)]);
                assert_eq!(free, Free { row: 2, column: 0 });
                break;
            }
            let byte = if upto.at_pick(0) { *picks.next().unwrap() } else { 0xFF };
            assert_eq!(upto.step(0, byte), Ok(None));
        }

        // First pass 17, three full attempts of 7, one of 5 that finds free
        // space, four swings of 7, second pass 15: 86 steps.
        let answer = alone(&mut m, 8, Errand::Insert { value: 5 }, &[0, 0, 0, 1]);
        assert_eq!(answer, (End::InsertWalked, 86));
        assert_eq!(keys(&m), WALK_AFTER);
        assert!(m.full_slots().iter().all(|(_, _, pair)| pair.value == pair.key + 100));
        assert_eq!(m.tally["swing moves"], 3);
        assert_eq!(m.tally["swing skips, source holds another key"], 1);
    }

    // A walk that makes room: the second pass fills the place that was left.
    #[test]
    fn a_walk_that_ends_yes() {
        let mut m = machine(4, 2, 4, 1);
        set_keys(&mut m, &WALK_BEFORE);
        // Byte 2: h1, column 1, that is key 12 of row 0, other row 1. Then
        // column 1, key 1, other row 2, free (2,0).
        // 17 + 7 + 5 + 2 x 7, second pass 2+2+2+2 looks and locks, 2 looks for
        // an empty slot, fill, 3 releases = 14: 57 steps.
        let answer = alone(&mut m, 8, Errand::Insert { value: 5 }, &[2, 1]);
        assert_eq!(answer, (End::InsertYes, 57));
        assert_eq!(
            keys(&m),
            [Some(24), Some(8), Some(9), Some(12), Some(1), None, Some(11), Some(23)]
        );
    }

    // "H=4, byte 3, W=2: row h2, column 1." And the row is h2 also where the
    // second home row is taken first (l1 > l2).
    #[test]
    fn first_pick_goes_by_h1_and_h2() {
        let full = [0u32, 12, 1, 13, 2, 14, 3, 15].map(Some);
        for (key, l) in [(8, 4), (20, 4), (21, 4), (25, 4), (22, 4), (8, 1), (9, 2), (7, 4)] {
            for byte in 0..=255u8 {
                let mut m = machine(4, 2, l, 1);
                set_keys(&mut m, &full);
                m.start(0, key, Errand::Insert { value: 5 }).unwrap();
                while !m.at_pick(0) {
                    assert_eq!(m.step(0, !byte), Ok(None));
                }
                assert_eq!(m.step(0, byte), Ok(None));
                let (h1, h2) = m.sizes.home_rows(key);
                let place = m.lanes[0].as_ref().unwrap().path[0];
                let row = if byte & 1 == 0 { h1 } else { h2 };
                assert_eq!((place.row, place.column), (row, (byte as usize / 2) % 2));
                if byte == 3 {
                    assert_eq!((place.row, place.column), (h2, 1));
                }
            }
        }
    }

    // "At most H+1 attempts." "The path then has H+2 places".
    #[test]
    fn a_full_table_is_searched_h_plus_1_times() {
        // H=4, W=1: keys 0, 1, 2, 3 stand in rows 0..3; 8 has rows 0, 3.
        let mut m = machine(4, 1, 4, 1);
        set_keys(&mut m, &[0, 1, 2, 3].map(Some));
        // First pass: 2 main, 2 + 1, 2 + 1, 2 looks for empty, pick, 2 releases
        // = 13. Five attempts of 3 + 1 + pick + release = 6. Main: 1. 44 steps.
        let answer = alone(&mut m, 8, Errand::Insert { value: 5 }, &[0, 0, 0, 0, 0, 0]);
        assert_eq!(answer, (End::InsertSearched, 44));
        assert_eq!(m.tally["search attempts"], 5);
        assert_eq!(keys(&m), [0, 1, 2, 3].map(Some));

        // The path just before main is released.
        m.start(0, 8, Errand::Insert { value: 5 }).unwrap();
        for _ in 0..43 {
            assert_eq!(m.step(0, 0), Ok(None));
        }
        let work = m.lanes[0].as_ref().unwrap();
        assert_eq!(work.path.len(), 6);
        assert_eq!(work.doing, Doing::ReleaseMain { end: End::InsertSearched });
    }

    // A writer waits at W2 while a reader remains; a reader that finds the flag
    // goes R3, R4, R1.
    #[test]
    fn readers_and_a_writer_wait_for_each_other() {
        let mut m = machine(2, 1, 1, 3);
        m.start(0, 0, Errand::Read).unwrap();
        m.start(1, 0, Errand::Delete).unwrap();
        m.start(2, 0, Errand::Read).unwrap();
        for _ in 0..3 {
            m.step(0, 0).unwrap(); // R1 R2 R3: lane 0 holds the lock
        }
        assert_eq!(m.locks[0], Lock { flag: false, count: 1 });
        for _ in 0..5 {
            m.step(1, 0).unwrap(); // W1, then W2 stays
        }
        assert_eq!(m.locks[0], Lock { flag: true, count: 1 });
        m.step(2, 0).unwrap(); // R1
        m.step(2, 0).unwrap(); // R2 adds 1
        assert_eq!(m.locks[0], Lock { flag: true, count: 2 });
        m.step(2, 0).unwrap(); // R3 finds the flag
        assert_eq!(m.locks[0], Lock { flag: true, count: 2 });
        m.step(2, 0).unwrap(); // R4
        assert_eq!(m.locks[0], Lock { flag: true, count: 1 });
        m.step(2, 0).unwrap(); // R1 notes 1
        // Lane 0: two looks, then its release ends it.
        assert_eq!(m.step(0, 0), Ok(None));
        assert_eq!(m.step(0, 0), Ok(None));
        assert_eq!(m.step(0, 0), Ok(Some(End::ReadNone)));
        assert_eq!(m.locks[0], Lock { flag: true, count: 0 });
        m.step(2, 0).unwrap(); // R2 finds another count: back to R1
        assert_eq!(m.tally["R2 back to R1"], 1);
        // Lane 1: W2, two looks, release.
        for _ in 0..3 {
            assert_eq!(m.step(1, 0), Ok(None));
        }
        assert_eq!(m.step(1, 0), Ok(Some(End::Delete)));
        // Lane 2 from R1: 3 + 2 + 1 steps.
        for _ in 0..5 {
            assert_eq!(m.step(2, 0), Ok(None));
        }
        assert_eq!(m.step(2, 0), Ok(Some(End::ReadNone)));
        assert_all_clear(&m);
    }

    // "For start: 6, 7, 10. For step: 6, 8." A refusal changes nothing.
    #[test]
    fn refusals_in_their_order() {
        let mut m = machine(2, 1, 2, 2);
        let bad_key = LAST_KEY + 1;
        m.start(0, LAST_KEY, Errand::Read).unwrap();
        assert_eq!(m.start(2, bad_key, Errand::Read), Err(6));
        assert_eq!(m.start(0, bad_key, Errand::Read), Err(7));
        assert_eq!(m.start(1, bad_key, Errand::Read), Err(10));
        assert_eq!(m.start(0, 1, Errand::Delete), Err(7));
        assert_eq!(m.step(2, 0), Err(6));
        assert_eq!(m.step(255, 0), Err(6));
        assert_eq!(m.step(1, 0), Err(8));
        assert!(m.is_busy(0) && !m.is_busy(1));
    }

    struct Dice(u64);
    impl Dice {
        fn roll(&mut self, below: u64) -> u64 {
            self.0 = self.0.wrapping_mul(6_364_136_223_846_793_005).wrapping_add(1_442_695_040_888_963_407);
            (self.0 >> 33) % below
        }
    }

    /// "Sound slots", and what 01 says of flags and counts: "a lock's flag is
    /// set exactly when one lane is past W1 or holds it for writing, and never
    /// two; its count is the number of lanes at R3, R4 or holding it for
    /// reading".
    fn assert_standing(m: &Machine) {
        let full = m.full_slots();
        for (i, (row, _, pair)) in full.iter().enumerate() {
            let (h1, h2) = m.sizes.home_rows(pair.key);
            assert!(pair.key <= LAST_KEY && (*row == h1 || *row == h2));
            assert!(full[..i].iter().all(|(_, _, lower)| lower.key != pair.key));
        }
        for (number, lock) in m.locks.iter().enumerate() {
            let mut writers = 0;
            let mut readers = 0;
            for work in m.lanes.iter().flatten() {
                match work.doing {
                    Doing::R3 { lock, .. } | Doing::R4 { lock, .. } if lock == number => readers += 1,
                    Doing::W2 { lock, .. } if lock == number => writers += 1,
                    _ => {}
                }
                writers += work.held.iter().filter(|h| **h == (number, Mode::Writing)).count();
                readers += work.held.iter().filter(|h| **h == (number, Mode::Reading)).count();
                if number == m.sizes.locks && work.holds_main {
                    writers += 1;
                }
            }
            assert!(writers <= 1);
            assert_eq!(lock.flag, writers == 1);
            assert_eq!(lock.count as usize, readers);
        }
        for work in m.lanes.iter().flatten() {
            assert!(work.path.len() <= m.sizes.rows + 2);
            assert!(work.path.is_empty() || work.holds_main);
            for pair in work.path.windows(2) {
                assert_eq!(m.sizes.other_row(pair[0].key, pair[0].row), pair[1].row);
            }
        }
    }

    // Lanes in each other's way, any bytes: the table stays sound, and every
    // operation can be brought to its end.
    #[test]
    fn the_table_stands_under_any_schedule() {
        let mut dice = Dice(1);
        for round in 0..400 {
            let h = 2 + dice.roll(6) as u8;
            let w = 1 + dice.roll(3) as u8;
            let l = 1 + dice.roll(h as u64) as u8;
            let n = 1 + dice.roll(8) as u8;
            let mut m = machine(h, w, l, n);
            let key_count = 1 + dice.roll(2 * h as u64 * w as u64);
            for _ in 0..1500 {
                let lane = dice.roll(n as u64) as u8;
                if m.is_busy(lane as usize) {
                    m.step(lane, dice.roll(256) as u8).unwrap();
                } else {
                    let key = (dice.roll(key_count) * (1 + round)) as u32;
                    let errand = match dice.roll(6) {
                        0 => Errand::Read,
                        1 => Errand::Delete,
                        _ => Errand::Insert { value: dice.roll(1000) as u32 },
                    };
                    m.start(lane, key, errand).unwrap();
                }
                assert_standing(&m);
            }
            let mut left = 100_000;
            while m.lanes.iter().any(Option::is_some) {
                let lane = dice.roll(n as u64) as u8;
                if m.is_busy(lane as usize) {
                    m.step(lane, dice.roll(256) as u8).unwrap();
                }
                left -= 1;
                assert!(left > 0, "operations do not end");
            }
            assert_all_clear(&m);
        }
    }

    // One lane: the answers are those of a plain map, and a no from insert
    // leaves the map alone. No lone operation takes more than demand 3's
    // 20 x (rows + 2) x (columns + 2) steps.
    #[test]
    fn one_lane_is_a_plain_map() {
        let mut dice = Dice(2);
        for round in 0..300 {
            let h = 2 + dice.roll(8) as u8;
            let w = 1 + dice.roll(4) as u8;
            let l = 1 + dice.roll(h as u64) as u8;
            let mut m = machine(h, w, l, 1);
            let mut map = BTreeMap::new();
            let key_count = 1 + dice.roll(2 * h as u64 * w as u64);
            let bound = 20 * (h as usize + 2) * (w as usize + 2);
            for _ in 0..200 {
                let key = (dice.roll(key_count) * (1 + round)) as u32;
                let value = dice.roll(1000) as u32;
                let errand = match dice.roll(6) {
                    0 => Errand::Read,
                    1 => Errand::Delete,
                    _ => Errand::Insert { value },
                };
                m.start(0, key, errand).unwrap();
                let mut steps = 0;
                let end = loop {
                    steps += 1;
                    if let Some(end) = m.step(0, dice.roll(256) as u8).unwrap() {
                        break end;
                    }
                };
                assert!(steps <= bound);
                match end {
                    End::ReadValue(found) => assert_eq!(map.get(&key), Some(&found)),
                    End::ReadNone => assert!(!map.contains_key(&key)),
                    End::Delete => drop(map.remove(&key)),
                    End::InsertYes => drop(map.insert(key, value)),
                    End::InsertSearched | End::InsertWalked => {
                        assert!(!map.contains_key(&key))
                    }
                }
                let now: BTreeMap<u32, u32> =
                    m.full_slots().iter().map(|(_, _, pair)| (pair.key, pair.value)).collect();
                assert_eq!(now, map);
            }
        }
    }
}
