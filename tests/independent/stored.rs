//! Writes the tapes that are stored beside the crate `tapes`: the list that it
//! reads and the prints that it must write.

use crate::draw::{drawn_job, DRAWN_KINDS};
use crate::job::print_of;
use crate::tapes::{tapes, Tape};

/// The drawn jobs among them are of this seed: the first few of each kind that
/// are not longer than this.
const SEED: u64 = 1;
const OF_EACH_KIND: usize = 9;
const LONGEST: usize = 900;

/// The tapes with names, then drawn ones.
fn list() -> Vec<Tape> {
    let mut list = tapes();
    for kind in 0..DRAWN_KINDS {
        let drawn = (kind..)
            .step_by(DRAWN_KINDS)
            .map(|index| Tape {
                name: format!("drawn {index} of seed {SEED}"),
                job: drawn_job(SEED, index),
                print: None,
            })
            .filter(|tape| tape.job.len() <= LONGEST);
        list.extend(drawn.take(OF_EACH_KIND));
    }
    list
}

/// For each tape a byte with the length of its name, the name, four bytes with
/// the length of the job, little-endian, and the job.
pub fn write(stdin: &str, stdout: &str) -> bool {
    let list = list();
    let mut jobs = Vec::new();
    let mut prints = String::new();
    for Tape { name, job, print } in &list {
        let own = print_of(job);
        if print.as_ref().is_some_and(|print| *print != own) {
            println!("tape {name} prints what 01 does not call for");
            return false;
        }
        jobs.push(u8::try_from(name.len()).expect("names are short"));
        jobs.extend(name.as_bytes());
        jobs.extend(u32::try_from(job.len()).expect("jobs are short").to_le_bytes());
        jobs.extend(job);
        prints += &format!("tape {name}\n{own}");
    }
    println!("{} tapes, {} bytes, prints {} bytes", list.len(), jobs.len(), prints.len());
    std::fs::write(stdin, jobs).expect("the list can be written");
    std::fs::write(stdout, prints).expect("the prints can be written");
    true
}

#[cfg(test)]
mod tests {
    use super::*;
    use crate::compare::Met;

    /// A job can say six refusals; the six ends, and every turn of the steps
    /// that a table can reach, are among the tapes.
    #[test]
    fn the_list_meets_every_line_and_every_turn() {
        let mut met = Met::default();
        for tape in list() {
            met.print_of(&tape.job);
        }
        let lines: Vec<&str> = met.lines.keys().map(String::as_str).collect();
        assert_eq!(
            lines,
            [
                "delete",
                "end",
                "insert searched",
                "insert walked",
                "insert yes",
                "read VALUE",
                "read none",
                "refused  1",
                "refused  6",
                "refused  7",
                "refused  8",
                "refused 10",
                "refused 11",
                "row",
                "sizes",
            ]
        );
        let turns: Vec<&str> = met.turns.keys().copied().collect();
        assert_eq!(
            turns,
            [
                "R2 back to R1",
                "R3 to R4",
                "W1 of a row stays",
                "W1 of main stays",
                "W2 stays",
                "fill in a second pass",
                "first pick in the row taken first",
                "first pick in the row taken second",
                "one lock for both home rows",
                "search attempts",
                "search finds free space",
                "second passes",
                "swing moves",
                "swing skips, source empty",
                "swing skips, source holds another key",
                "swing skips, target full",
                "swing under one shared lock",
            ]
        );
    }

    /// The program has room for so many bytes.
    #[test]
    fn the_list_is_short() {
        let bytes: usize = list().iter().map(|tape| 5 + tape.name.len() + tape.job.len()).sum();
        assert!(bytes < 200_000, "{bytes}");
    }
}
