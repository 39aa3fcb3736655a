// Random worlds: a table of some sizes, damaged openings, an opening, then calls by many lanes in each other's way.
// Some calls come with wrong sizes, lengths, lanes or keys, or on a table that was changed by hand.

use crate::door::{Call, Memory, MARGIN};
use crate::forge::{damage_slots, furnish, tamper};
use crate::model::*;
use crate::random::Random;
use crate::Tester;

struct World {
    sizes: Sizes,
    lengths: [usize; 4],
    memory: Memory,
    theirs: Memory,
    /// Keys are mostly below this.
    pool: u32,
    /// How many of eight starts are inserts.
    inserts: u32,
    /// How many of sixteen calls stay with the lane of the call before.
    stays: u32,
    lane: u32,
    tampered: bool,
}

pub fn run(tester: &mut Tester, seed: u64, calls: u64) {
    let mut r = Random(seed);
    while tester.calls() < calls {
        let mut world = World::new(&mut r);
        world.open(&mut r, tester);
        let rounds = if world.sizes.rows > 16 { 60 } else { r.between(50, 300) };
        for _ in 0..rounds {
            world.round(&mut r, tester);
        }
    }
}

fn some_sizes(r: &mut Random) -> Sizes {
    let (rows, columns) = match r.below(40) {
        0 => (64, 8),
        1 => (r.between(17, 64), r.between(1, 8)),
        2 | 3 => (r.between(7, 16), r.between(1, 8)),
        4 => (r.between(2, 3), r.between(1, 8)),
        _ => (r.between(2, 6), r.between(1, 3)),
    };
    let locks = if r.chance(1, 3) { rows } else { r.between(1, rows) };
    Sizes { rows, columns, locks, lanes: r.between(1, 8) }
}

impl World {
    fn new(r: &mut Random) -> World {
        let sizes = some_sizes(r);
        let lengths = sizes.lengths();
        let memory = Memory::new(lengths, r.number());
        let wide = r.chance(1, 8);
        let pool = 2 * sizes.rows * (sizes.columns + sizes.rows) * r.one_of(&[1, 1, 4]);
        World {
            sizes,
            lengths,
            theirs: memory.clone(),
            memory,
            pool: if wide { LAST_KEY + 1 } else { pool },
            inserts: r.one_of(&[0, 4, 6, 7, 8]),
            stays: r.one_of(&[0, 8, 12, 15]),
            lane: 0,
            tampered: r.chance(3, 4),
        }
    }

    fn ask(&mut self, tester: &mut Tester, call: Call) -> u32 {
        tester.ask(&mut self.memory, &mut self.theirs, self.sizes, self.lengths, call).0
    }

    fn table(&mut self) -> Table<'_> {
        self.memory.lend(self.sizes, self.lengths)
    }

    /// Openings of damaged slots and over junk, then a good one.
    fn open(&mut self, r: &mut Random, tester: &mut Tester) {
        let eighths = r.one_of(&[0, 2, 4, 6, 7, 7, 8, 8]);
        for _ in 0..r.below(6) {
            let pool = self.pool;
            let mut t = self.table();
            furnish(r, &mut t, pool, eighths);
            damage_slots(r, &mut t);
            self.ask(tester, Call::Open);
        }
        let pool = self.pool;
        let mut t = self.table();
        furnish(r, &mut t, pool, eighths);
        for list in [t.locks, t.lanes, t.path] {
            list.fill_with(|| r.number() >> r.below(32));
        }
        self.ask(tester, Call::Open);
    }

    /// One call, or a few on a table changed by hand, which is put back if it does not stand.
    fn round(&mut self, r: &mut Random, tester: &mut Tester) {
        if !(self.tampered && r.chance(1, 4)) {
            return self.one_call(r, tester);
        }
        let before = self.memory.clone();
        let pool = self.pool;
        for _ in 0..r.one_of(&[1, 1, 1, 2, 3]) {
            tamper(r, &mut self.table(), pool);
        }
        let stood = self.table().standing().is_ok();
        tester.forged += 1;
        tester.forged_stood += stood as u64;
        for _ in 0..r.one_of(&[1, 1, 2]) {
            self.one_call(r, tester);
        }
        if self.table().standing().is_err() {
            self.memory.copy_from(&before);
        }
    }

    fn one_call(&mut self, r: &mut Random, tester: &mut Tester) {
        let mut call = self.some_call(r);
        let (sizes, lengths) = (self.sizes, self.lengths);
        if r.chance(1, 12) {
            if r.chance(1, 4) {
                self.sizes = wrong_sizes(r, sizes);
            }
            if r.chance(1, 4) {
                self.lengths = wrong_lengths(r, lengths);
            }
            call = wrong_words(r, call, sizes);
        }
        self.ask(tester, call);
        (self.sizes, self.lengths) = (sizes, lengths);
    }

    fn some_call(&mut self, r: &mut Random) -> Call {
        if r.chance(1, 400) {
            return Call::Open;
        }
        if !r.chance(self.stays, 16) {
            self.lane = self.some_lane(r);
        }
        let lane = self.lane;
        let busy = self.table().lane(lane as usize).stage != 0;
        if r.chance(if busy { 39 } else { 4 }, 40) {
            return Call::Step { lane, byte: r.number() as u8 };
        }
        let op = if r.chance(self.inserts, 8) { INSERT } else { r.between(READ, DELETE) };
        let value = if op == INSERT { r.number() >> r.below(32) } else { 0 };
        Call::Start { op, lane, key: self.some_key(r), value }
    }

    /// Any lane, and half the time the one that has main, if one has it.
    fn some_lane(&mut self, r: &mut Random) -> u32 {
        let lane = r.below(self.sizes.lanes);
        let t = self.table();
        let has_main = |a: Lane| a.op >= INSERT && a.stage > TAKE_MAIN;
        let holder = (0..t.sizes.lanes).find(|&i| has_main(t.lane(i as usize)));
        if r.chance(1, 2) { holder.unwrap_or(lane) } else { lane }
    }

    /// A key that stands in the table, or one of the pool, or any.
    fn some_key(&mut self, r: &mut Random) -> u32 {
        let (row, column) = (r.below(self.sizes.rows), r.below(self.sizes.columns));
        match r.below(16) {
            0 => r.one_of(&[0, LAST_KEY]),
            1 => r.below(LAST_KEY + 1),
            2..=6 => self.table().slot(row, column).key.min(LAST_KEY),
            _ => r.below(self.pool),
        }
    }
}

fn wrong_sizes(r: &mut Random, s: Sizes) -> Sizes {
    let mut list = [s.rows, s.columns, s.locks, s.lanes];
    for _ in 0..r.one_of(&[1, 1, 2, 4]) {
        let i = r.below(4) as usize;
        let old = list[i];
        let any = r.number();
        list[i] = r.one_of(&[
            0, 1, 8, 9, 64, 65, s.rows + 1, old + 1, old - 1, old + 256, old + (1 << 16), old | 1 << 30, old | 1 << 31,
            u32::MAX, u32::MAX - 1, u32::MAX / 3 + 1, any,
        ]);
    }
    Sizes { rows: list[0], columns: list[1], locks: list[2], lanes: list[3] }
}

fn wrong_lengths(r: &mut Random, right: [usize; 4]) -> [usize; 4] {
    let mut lengths = right;
    for _ in 0..r.one_of(&[1, 1, 1, 2, 4]) {
        let i = r.below(4) as usize;
        lengths[i] = r.one_of(&[right[i] - 1, right[i] + 1, right[i] + MARGIN, 0, right[i] / 2]);
    }
    lengths
}

fn wrong_words(r: &mut Random, call: Call, s: Sizes) -> Call {
    let any = r.number();
    let lanes = [s.lanes, s.lanes, s.lanes + 1, 256, 1 << 16, 1 << 31, u32::MAX, any];
    let keys = [LAST_KEY + 1, LAST_KEY + 2, 1 << 31, u32::MAX, any | 1 << 23];
    let lane_or = |r: &mut Random, lane: u32| if r.chance(1, 3) { r.one_of(&lanes) } else { lane };
    match call {
        Call::Open => Call::Open,
        Call::Start { op, lane, key, value } => {
            let key = if r.chance(3, 4) { r.one_of(&keys) } else { key };
            Call::Start { op, lane: lane_or(r, lane), key, value }
        }
        Call::Step { lane, byte } => {
            let step = Call::Step { lane: lane_or(r, lane), byte };
            let start = Call::Start { op: r.between(READ, DELETE), lane: lane_or(r, lane), key: r.one_of(&keys), value: 0 };
            if r.chance(2, 3) { step } else { start }
        }
    }
}
