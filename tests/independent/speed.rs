//! Times a program and the independent one on the longest jobs: 60,000 bytes,
//! the largest table, eight lanes that are busy all the time.

use crate::draft::{Dice, Draft};
use crate::job::{print_of, LONGEST_JOB};
use crate::machine::{Errand, LAST_KEY};
use crate::run::Runner;
use std::time::Duration;

/// So many runs of each program on each job, in turns.
const RUNS: usize = 201;

/// So many measures of a job at most, until one is quiet.
const TRIES: usize = 8;

/// A program may take so many times as long as the independent one.
const MOST: f64 = 2.0;

/// How the lanes of a longest job are kept busy.
struct Plan {
    name: &'static str,
    keys: Vec<u32>,
    /// Out of ten starts, so many inserts and so many deletes; the rest reads.
    inserts: usize,
    deletes: usize,
    /// One lane takes all the steps, or each lane in no order.
    one_lane: bool,
}

fn plans() -> Vec<Plan> {
    let mut dice = Dice(60_000);
    let any: Vec<u32> = (0..2000).map(|_| dice.next() as u32 % (LAST_KEY + 1)).collect();
    // h1 = 0 and h2 = 1 for each of these.
    let two_rows: Vec<u32> = (0..2000).map(|i| i * 64 * 63).collect();
    let plan = |name, keys: &[u32], inserts, deletes, one_lane| Plan {
        name,
        keys: keys.to_vec(),
        inserts,
        deletes,
        one_lane,
    };
    vec![
        plan("mixed", &any, 4, 2, false),
        plan("reads", &any, 0, 0, false),
        plan("deletes and reads", &any[..20], 0, 5, false),
        plan("one lane fills the table", &any, 10, 0, true),
        plan("one lane searches two full rows", &two_rows, 10, 0, true),
        plan("lanes wait for a search", &two_rows, 7, 1, false),
    ]
}

/// A job of just the longest length. A lane that ends is started again at once.
/// `None` where the last records don't fit in what is left; then another seed is
/// tried.
fn longest_job(plan: &Plan, seed: u64) -> Option<Vec<u8>> {
    let mut dice = Dice(seed);
    let mut draft = Draft::new([64, 8, 64, 8]);
    loop {
        let left = LONGEST_JOB - 1 - draft.bytes.len();
        if left < 3 {
            return (left == 0).then(|| draft.finish());
        }
        let idle = draft.idle();
        match idle.first() {
            Some(lane) if left >= 10 => {
                let errand = errand(&mut dice, plan, left);
                draft.start(*lane, dice.pick(&plan.keys), errand);
            }
            _ => {
                let busy = draft.busy();
                let lane = if plan.one_lane { busy[0] } else { dice.pick(&busy) };
                draft.step(lane, dice.byte());
            }
        }
    }
}

/// An insert's record leaves 1 byte over when steps take 3 each, other starts
/// leave none. So the last starts are inserts only as long as bytes are over.
fn errand(dice: &mut Dice, plan: &Plan, left: usize) -> Errand {
    let insert = Errand::Insert { value: dice.next() as u32 };
    let drawn = dice.from_to(1, 10);
    if left < 6000 {
        return if left % 3 == 0 { Errand::Read } else { insert };
    }
    match drawn {
        n if n <= plan.inserts => insert,
        n if n <= plan.inserts + plan.deletes => Errand::Delete,
        _ => Errand::Read,
    }
}

/// The runs of one contestant on one job, in milliseconds.
struct Times {
    quarter: f64,
    median: f64,
}

fn times_of(mut runs: Vec<Duration>) -> Times {
    runs.sort();
    let at = |place: usize| runs[place].as_secs_f64() * 1000.0;
    Times { quarter: at(runs.len() / 4), median: at(runs.len() / 2) }
}

/// The program, the independent program, and the independent program again, so
/// that the noise shows: what two equal programs differ by.
struct Measured {
    program: Times,
    independent: Times,
    again: Times,
}

impl Measured {
    fn ratio(&self) -> f64 {
        self.program.median / self.independent.median.min(self.again.median)
    }

    fn quarter_ratio(&self) -> f64 {
        self.program.quarter / self.independent.quarter.min(self.again.quarter)
    }

    fn noise(&self) -> f64 {
        let [one, two] = [self.independent.median, self.again.median];
        one.max(two) / one.min(two)
    }

    /// A busy machine makes some runs wait for a core. As long as those are fewer
    /// than half, a median is near its lowest quarter. Where they are about half,
    /// a median says nothing.
    fn is_quiet(&self) -> bool {
        let near = |times: &Times| times.median <= 1.25 * times.quarter;
        self.noise() <= 1.1 && near(&self.program) && near(&self.independent) && near(&self.again)
    }
}

fn measure(runners: &mut [Runner; 3]) -> Measured {
    let mut runs = [Vec::new(), Vec::new(), Vec::new()];
    for turn in 0..RUNS {
        for place in 0..3 {
            // Each contestant comes first, second and last equally often.
            let who = (turn + place) % 3;
            runs[who].push(runners[who].run_again().1);
        }
    }
    let [program, independent, again] = runs.map(times_of);
    Measured { program, independent, again }
}

/// The first quiet measure of a job, or the last of a few that were not.
fn measure_quiet(runners: &mut [Runner; 3], name: &str, job: &[u8]) -> Measured {
    let own = print_of(job);
    for runner in &mut *runners {
        assert!(runner.run(job).print == own.as_bytes(), "the prints of {name} differ");
    }
    let mut measured = measure(runners);
    for _ in 1..TRIES {
        if measured.is_quiet() {
            break;
        }
        measured = measure(runners);
    }
    measured
}

/// Is the program fast enough on every job? `None` if the machine was too busy
/// to tell.
pub fn speed(program: &str, independent: &str) -> Option<bool> {
    let mut runners = [program, independent, independent].map(Runner::new);
    println!("medians of {RUNS} runs each, in turns, in milliseconds; in brackets the ratio of the lowest quarters");
    println!("{:32} {:>8} {:>11} {:>8}  ratio", "job", "program", "independent", "again");
    let mut show = |name: &str, job: &[u8]| {
        let measured = measure_quiet(&mut runners, name, job);
        let Measured { program, independent, again } = &measured;
        println!(
            "{name:32} {:8.3} {:11.3} {:8.3}  {:.2} ({:.2}){}",
            program.median,
            independent.median,
            again.median,
            measured.ratio(),
            measured.quarter_ratio(),
            if measured.is_quiet() { "" } else { "  too busy" },
        );
        measured
    };
    show("no bytes, so the start alone", &[]);
    let mut worst = 0.0f64;
    let mut quiet = true;
    for plan in plans() {
        let job = (0..).find_map(|seed| longest_job(&plan, seed)).expect("a seed does it");
        assert_eq!(job.len(), LONGEST_JOB);
        let measured = show(plan.name, &job);
        worst = worst.max(measured.ratio());
        quiet &= measured.is_quiet();
    }
    if !quiet {
        println!("the machine was too busy to tell; worst ratio of the longest jobs {worst:.2}");
        return None;
    }
    println!("worst ratio of the longest jobs {worst:.2}, at most {MOST} is asked for");
    Some(worst <= MOST)
}
