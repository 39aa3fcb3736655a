//! Compares a program's prints with the independent ones, byte for byte, and
//! counts what was met.

use crate::draw::Jobs;
use crate::job::print_and_table;
use crate::run::{Outcome, Runner};
use std::collections::BTreeMap;

/// So many differences are shown.
const SHOWN: usize = 5;

/// What was met in all jobs.
#[derive(Default)]
pub struct Met {
    bytes: usize,
    pub lines: BTreeMap<String, u64>,
    pub turns: BTreeMap<&'static str, u64>,
}

impl Met {
    /// The independent print of a job, its lines and turns counted.
    pub fn print_of(&mut self, job: &[u8]) -> String {
        let (print, table) = print_and_table(job, true);
        self.bytes += job.len();
        for line in print.lines() {
            *self.lines.entry(kind_of(line)).or_insert(0) += 1;
        }
        for (what, times) in table.iter().flat_map(|table| &table.tally) {
            *self.turns.entry(what).or_insert(0) += times;
        }
        print
    }

    fn show(&self) {
        println!("lines of each kind:");
        for (kind, times) in &self.lines {
            println!("{times:9} {kind}");
        }
        println!("turns of the steps:");
        for (turn, times) in &self.turns {
            println!("{times:9} {turn}");
        }
    }
}

/// What kind of line this is. Numbers of refusals stay, so that each is counted.
fn kind_of(line: &str) -> String {
    let words: Vec<&str> = line.split(' ').collect();
    match words[..] {
        ["sizes", ..] => "sizes".to_string(),
        ["lane", _, "read", "none"] => "read none".to_string(),
        ["lane", _, "read", _] => "read VALUE".to_string(),
        ["lane", _, "delete"] => "delete".to_string(),
        ["lane", _, "insert", answer] => format!("insert {answer}"),
        ["row", _, "col", ..] => "row".to_string(),
        ["refused", number, "at", _] => format!("refused {number:>2}"),
        ["end"] => "end".to_string(),
        _ => panic!("a line of no kind: {line}"),
    }
}

/// Is every print the same?
pub fn compare(seed: u64, count: usize, program: Option<&str>) -> bool {
    let jobs = Jobs::new(seed);
    let mut met = Met::default();
    let mut runner = program.map(Runner::new);
    let mut differences = 0;
    let mut not_zero = 0;
    for index in 0..count {
        let job = jobs.job(index);
        let own = met.print_of(&job);
        let Some(runner) = &mut runner else { continue };
        let outcome = runner.run(&job);
        // 01 says nothing of the status, so it is only counted.
        if !outcome.status.is_some_and(|status| status.success()) {
            not_zero += 1;
        }
        if differs(&outcome, &own) {
            differences += 1;
            if differences <= SHOWN {
                println!("job {index} differs; trial job {seed} {index} makes it:");
                show_difference(&outcome, &own);
            }
        }
    }
    println!("jobs {count}, {} bytes", met.bytes);
    met.show();
    match runner {
        None => println!("no program to compare with"),
        Some(_) => {
            println!("status not 0 in {not_zero} jobs");
            println!("differences {differences}");
        }
    }
    differences == 0
}

/// A run that was ended, by the watch or by a signal, differs whatever it wrote.
fn differs(outcome: &Outcome, own: &str) -> bool {
    let ended = !outcome.status.is_some_and(|status| status.code().is_some());
    ended || outcome.print != own.as_bytes()
}

/// The first line that differs.
fn show_difference(outcome: &Outcome, own: &str) {
    let print = String::from_utf8_lossy(&outcome.print);
    let (mut theirs, mut ours) = (print.lines(), own.lines());
    loop {
        match (theirs.next(), ours.next()) {
            (None, None) => break println!("  no line differs; status {:?}", outcome.status),
            (their, our) if their == our => {}
            (their, our) => {
                println!("  it prints  {}", their.unwrap_or("nothing more"));
                println!("  we print   {}", our.unwrap_or("nothing more"));
                break;
            }
        }
    }
}
