// Compares the C library with the model of 01, call by call: answers, and every lent number afterwards.
// door [SEED] [CALLS], or door time [SEED] [CALLS]. Status 1 on a difference, or where a number or an end was met too seldom.

mod door;
mod forge;
mod model;
mod random;
mod standing;
mod steps;
mod tapes;
mod timing;
mod worlds;

use door::{ask_library, ask_model, Answer, Call, Memory};
use model::{Sizes, LANE};
use standing::Fault;

const ENOUGH: u64 = 1000;
const PARTS: [Fault; 5] = [Fault::Slots, Fault::Record, Fault::Path, Fault::Locks, Fault::Claims];
const ENDS: [&str; 7] = ["goes on", "read none", "read", "delete", "insert yes", "insert searched", "insert walked"];

/// What was met.
#[derive(Default)]
pub struct Tester {
    pub openings: u64,
    pub starts: u64,
    pub steps: u64,
    pub numbers: [u64; 11],
    pub ends: [u64; 7],
    pub stages: [u64; 23],
    pub parts: [u64; 5],
    pub forged: u64,
    pub forged_stood: u64,
    pub differences: u64,
}

impl Tester {
    pub fn calls(&self) -> u64 {
        self.openings + self.starts + self.steps
    }

    /// Asks both, compares, counts, and leaves in `memory` what the model left.
    pub fn ask(&mut self, memory: &mut Memory, theirs: &mut Memory, sizes: Sizes, lengths: [usize; 4], call: Call) -> Answer {
        theirs.copy_from(memory);
        let part = if let Call::Open = call { None } else { failing_part(memory, sizes, lengths) };
        let stage = stage_of(memory, sizes, lengths, call);
        let mine = ask_model(memory.lend(sizes, lengths), call);
        let got = ask_library(theirs.lend(sizes, lengths), call);
        if got != mine || theirs != memory {
            self.differences += 1;
            if self.differences <= 5 {
                println!("difference at {call:?}, {sizes:?}, lengths {lengths:?}: 01 says {mine:?}, the library {got:?}");
                println!("  stage {stage}, standing part {part:?}, lent numbers agree: {}", theirs == memory);
            }
        }
        self.count(call, mine, stage, part);
        mine
    }

    fn count(&mut self, call: Call, answer: Answer, stage: u32, part: Option<Fault>) {
        self.numbers[answer.0 as usize] += 1;
        match call {
            Call::Open => self.openings += 1,
            Call::Start { .. } => self.starts += 1,
            Call::Step { .. } => {
                self.steps += 1;
                if answer.0 == 0 {
                    self.ends[answer.1 as usize] += 1;
                    self.stages[stage as usize] += 1;
                }
            }
        }
        for (i, &p) in PARTS.iter().enumerate() {
            self.parts[i] += (part == Some(p)) as u64;
        }
    }

    fn report(&self) -> bool {
        let list = |counts: &[u64], names: &dyn Fn(usize) -> String| {
            let shown: Vec<String> = counts.iter().enumerate().map(|(i, n)| format!("{} {n}", names(i))).collect();
            shown.join(", ")
        };
        println!("calls: {} ({} openings, {} starts, {} steps)", self.calls(), self.openings, self.starts, self.steps);
        println!("numbers: {}", list(&self.numbers, &|i| format!("{i}:")));
        println!("ends: {}", list(&self.ends, &|i| format!("{}:", ENDS[i])));
        println!("accepted steps by stage: {}", list(&self.stages[1..], &|i| format!("{}:", i + 1)));
        println!("standing check failed first in: {}", list(&self.parts, &|i| format!("{:?}:", PARTS[i])));
        println!("tables changed by hand: {}, of which stood: {}", self.forged, self.forged_stood);
        println!("differences: {}", self.differences);
        let seldom = self.numbers.iter().chain(&self.ends).any(|&n| n < ENOUGH);
        if seldom {
            println!("a number or an end was met fewer than {ENOUGH} times");
        }
        self.differences == 0 && !seldom
    }
}

/// The part of the standing check that fails first, where sizes and lengths are right.
fn failing_part(memory: &mut Memory, sizes: Sizes, lengths: [usize; 4]) -> Option<Fault> {
    let fits = sizes.ok() && sizes.lengths() == lengths;
    if fits { memory.lend(sizes, lengths).standing().err() } else { None }
}

fn stage_of(memory: &mut Memory, sizes: Sizes, lengths: [usize; 4], call: Call) -> u32 {
    match call {
        Call::Step { lane, .. } if lane < sizes.lanes && LANE * (lane as usize + 1) <= lengths[2] => {
            memory.lend(sizes, lengths).lane(lane as usize).stage
        }
        _ => 0,
    }
}

fn main() {
    let mut words: Vec<String> = std::env::args().skip(1).collect();
    let timed = words.first().is_some_and(|w| w == "time");
    if timed {
        words.remove(0);
    }
    let number = |i: usize, default: u64| words.get(i).map_or(default, |w| w.parse().expect("a number"));
    let good = if timed {
        timing::run(number(0, 1), number(1, 20_000))
    } else {
        let mut tester = Tester::default();
        if unsafe { door::sg_lane_numbers() } != LANE as u32 {
            println!("difference: a lane record is not {LANE} numbers");
            tester.differences += 1;
        }
        let tapes_good = tapes::run(&mut tester);
        worlds::run(&mut tester, number(0, 1), number(1, 1_000_000));
        tester.report() && tapes_good
    };
    std::process::exit(if good { 0 } else { 1 });
}
