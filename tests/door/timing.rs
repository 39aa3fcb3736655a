// Times the library and the model on one schedule of eight lanes at the largest sizes.

use crate::door::{ask_library, ask_model, Answer, Call, Memory};
use crate::forge::furnish;
use crate::model::*;
use crate::random::Random;
use std::time::Instant;

const SIZES: Sizes = Sizes { rows: 64, columns: 8, locks: 64, lanes: 8 };
const BLOCK: usize = 500;

/// Nanoseconds of each start, then of each step.
#[derive(Default)]
struct Spent([Vec<u64>; 2]);

impl Spent {
    fn replay(&mut self, memory: &mut Memory, calls: &[Call], ask: fn(Table, Call) -> Answer) {
        for &call in calls {
            let kind = matches!(call, Call::Step { .. }) as usize;
            let table = memory.lend(SIZES, SIZES.lengths());
            let begun = Instant::now();
            let answer = ask(table, call);
            self.0[kind].push(begun.elapsed().as_nanos() as u64);
            assert_eq!(answer.0, 0, "a call of the schedule is accepted");
        }
    }

    fn median(&mut self, kind: usize) -> u64 {
        self.0[kind].sort();
        self.0[kind][self.0[kind].len() / 2]
    }
}

/// An idle lane starts, a busy one steps; lanes take turns at random.
fn schedule(r: &mut Random, mut memory: Memory, calls: u64) -> Vec<Call> {
    let mut list = Vec::new();
    for _ in 0..calls {
        let lane = r.below(SIZES.lanes);
        let op = if r.chance(1, 8) { INSERT } else { r.between(READ, DELETE) };
        let start = Call::Start { op, lane, key: r.below(4096), value: if op == INSERT { r.number() } else { 0 } };
        let table = memory.lend(SIZES, SIZES.lengths());
        let idle = table.lane(lane as usize).stage == 0;
        let call = if idle { start } else { Call::Step { lane, byte: r.number() as u8 } };
        ask_model(table, call);
        list.push(call);
    }
    list
}

pub fn run(seed: u64, calls: u64) -> bool {
    let mut r = Random(seed);
    let mut mine = Memory::new(SIZES.lengths(), 0);
    furnish(&mut r, &mut mine.lend(SIZES, SIZES.lengths()), 4096, 7);
    let mut theirs = mine.clone();
    let list = schedule(&mut r, mine.clone(), calls);
    let (mut model, mut library) = (Spent::default(), Spent::default());
    for block in list.chunks(BLOCK) {
        model.replay(&mut mine, block, ask_model);
        library.replay(&mut theirs, block, ask_library);
    }
    println!("{SIZES:?}, seed {seed}");
    for (kind, name) in ["sg_start", "sg_step"].iter().enumerate() {
        let (calls, a, b) = (model.0[kind].len(), library.median(kind), model.median(kind));
        println!("{name}: {calls} calls, median: library {a} ns, plain Rust {b} ns, ratio {:.2}", a as f64 / b as f64);
    }
    println!("lent numbers agree: {}", mine == theirs);
    mine == theirs
}
