//! The records of a job and its print, as document 01's section "Job file and
//! print" says. Words in double quotes are 01's own sentences.

use crate::machine::{Errand, Machine, Sizes};
use std::fmt::Write as _;

/// "At most 60,000 bytes, from standard input"
pub const LONGEST_JOB: usize = 60_000;

/// "11 | job file malformed"
const JOB_MALFORMED: u8 = 11;

/// "from the fixed row of letters"
const LETTERS: [u8; 23] = *b"#STKPWHRAO*EUFRPBLGTSDZ";

/// A record, its body read but not judged.
enum Record {
    Sizes { h: u8, w: u8, l: u8, n: u8 },
    Start { lane: u8, key: u32, errand: Errand },
    Step { lane: u8, byte: u8 },
    End,
}

/// "The job is read through a reader that holds the lent bytes and its place."
struct Reader<'a> {
    job: &'a [u8],
    place: usize,
}

impl Reader<'_> {
    fn byte(&mut self) -> Option<u8> {
        let byte = *self.job.get(self.place)?;
        self.place += 1;
        Some(byte)
    }

    /// "numbers are little-endian"
    fn number(&mut self) -> Option<u32> {
        Some(u32::from_le_bytes([self.byte()?, self.byte()?, self.byte()?, self.byte()?]))
    }

    /// "1 sizes: H, W, L, N. 2 read: lane, key (4). 3 delete: lane, key.
    /// 4 insert: lane, key, value (4). 5 step: lane, byte. 6 end."
    /// `None`: the record is missing, of no known kind, or cut short. "A record
    /// cut short is 11 before anything else in it."
    fn record(&mut self) -> Option<Record> {
        Some(match self.byte()? {
            1 => Record::Sizes {
                h: self.byte()?,
                w: self.byte()?,
                l: self.byte()?,
                n: self.byte()?,
            },
            2 => Record::Start {
                lane: self.byte()?,
                key: self.number()?,
                errand: Errand::Read,
            },
            3 => Record::Start {
                lane: self.byte()?,
                key: self.number()?,
                errand: Errand::Delete,
            },
            4 => Record::Start {
                lane: self.byte()?,
                key: self.number()?,
                errand: Errand::Insert { value: self.number()? },
            },
            5 => Record::Step {
                lane: self.byte()?,
                byte: self.byte()?,
            },
            6 => Record::End,
            _ => return None,
        })
    }
}

/// "A fault or other refusal prints `refused N at B`"
struct Refused {
    number: u8,
    at: usize,
}

/// The whole print of a job.
pub fn print_of(job: &[u8]) -> String {
    print_and_table(job, false).0
}

/// The whole print of a job, and its table as the last record left it, with
/// what was met in it if `counting`.
pub fn print_and_table(job: &[u8], counting: bool) -> (String, Option<Machine>) {
    let mut print = String::new();
    let mut machine = None;
    let refused = if job.len() > LONGEST_JOB {
        // "a longer job prints only `refused 11 at 60000`"
        Err(Refused { number: JOB_MALFORMED, at: LONGEST_JOB })
    } else {
        run(job, counting, &mut print, &mut machine)
    };
    // "and stops; earlier lines stay"
    if let Err(Refused { number, at }) = refused {
        writeln!(print, "refused {number} at {at}").unwrap();
    }
    (print, machine)
}

fn run(
    job: &[u8],
    counting: bool,
    print: &mut String,
    opened: &mut Option<Machine>,
) -> Result<(), Refused> {
    let mut reader = Reader { job, place: 0 };
    loop {
        // "B the offset of the record's kind byte (of the missing one, the
        // job's length)"
        let at = reader.place;
        let refuse = |number| Refused { number, at };
        let record = reader.record().ok_or(refuse(JOB_MALFORMED))?;
        match (record, opened.as_mut()) {
            // "Kind 1 stands first and once"
            (Record::Sizes { h, w, l, n }, None) => {
                let sizes = Sizes::new(h, w, l, n).map_err(refuse)?;
                writeln!(print, "sizes {h} {w} {l} {n}").unwrap();
                let mut machine = Machine::new(sizes);
                machine.counting = counting;
                *opened = Some(machine);
            }
            (Record::Sizes { .. }, Some(_)) | (_, None) => return Err(refuse(JOB_MALFORMED)),
            (Record::Start { lane, key, errand }, Some(machine)) => {
                machine.start(lane, key, errand).map_err(refuse)?;
            }
            (Record::Step { lane, byte }, Some(machine)) => {
                if let Some(end) = machine.step(lane, byte).map_err(refuse)? {
                    writeln!(print, "lane {lane} {end}").unwrap();
                }
            }
            // "6 last; a byte after it is a fault at that byte's offset, found
            // before kind 6 prints"
            (Record::End, Some(machine)) => {
                if reader.place < job.len() {
                    return Err(Refused { number: JOB_MALFORMED, at: reader.place });
                }
                // "Full slots follow in index order."
                for (row, column, pair) in machine.full_slots() {
                    let stroke = stroke(pair.key);
                    writeln!(print, "row {row} col {column} {stroke} {}", pair.value).unwrap();
                }
                writeln!(print, "end").unwrap();
                return Ok(());
            }
        }
    }
}

/// "A stroke prints as 23 characters, bit 0 first, from the fixed row of
/// letters `#STKPWHRAO*EUFRPBLGTSDZ`, a dot for a key that is up."
pub fn stroke(key: u32) -> String {
    let mut text = String::new();
    for (bit, letter) in LETTERS.iter().enumerate() {
        let down = key >> bit & 1 == 1;
        text.push(if down { *letter as char } else { '.' });
    }
    text
}

#[cfg(test)]
mod tests {
    use super::*;

    fn steps(lane: u8, times: usize) -> Vec<u8> {
        [5, lane, 0].repeat(times)
    }

    // "Whole case: bytes `01 03 01 03 01`, `04 00 00 04 00 00 07 00 00 00`,
    // thirteen times `05 00 00`, `02 00 00 04 00 00`, five times `05 00 00`,
    // `06`"
    fn whole_case() -> Vec<u8> {
        [
            vec![1, 3, 1, 3, 1],
            vec![4, 0, 0, 4, 0, 0, 7, 0, 0, 0],
            steps(0, 13),
            vec![2, 0, 0, 4, 0, 0],
            steps(0, 5),
            vec![6],
        ]
        .concat()
    }

    #[test]
    fn the_whole_case() {
        assert_eq!(
            print_of(&whole_case()),
            "sizes 3 1 3 1\n\
             lane 0 insert yes\n\
             lane 0 read 7\n\
             row 0 col 0 ..........*............ 7\n\
             end\n"
        );
    }

    // The whole case cut at every byte: the line of the cut record, worked out
    // here from the offsets of its records.
    #[test]
    fn the_whole_case_cut_at_every_byte() {
        let job = whole_case();
        assert_eq!(job.len(), 76);
        let mut starts = vec![0, 5];
        starts.extend((0..13).map(|i| 15 + 3 * i)); // to 54
        starts.push(54);
        starts.extend((0..5).map(|i| 60 + 3 * i)); // to 75
        starts.push(75);
        for cut in 0..job.len() {
            let mut expected = String::new();
            if cut >= 5 {
                expected += "sizes 3 1 3 1\n";
            }
            if cut >= 54 {
                expected += "lane 0 insert yes\n";
            }
            if cut >= 75 {
                expected += "lane 0 read 7\n";
            }
            // The record that the cut falls into, or the one missing there.
            let at = starts.iter().filter(|start| **start <= cut).max().unwrap();
            expected += &format!("refused 11 at {at}\n");
            assert_eq!(print_of(&job[..cut]), expected);
        }
    }

    #[test]
    fn first_record() {
        assert_eq!(print_of(&[]), "refused 11 at 0\n");
        assert_eq!(print_of(&[6]), "refused 11 at 0\n");
        assert_eq!(print_of(&[6, 6]), "refused 11 at 0\n");
        assert_eq!(print_of(&[2, 0, 1, 0, 0, 0, 6]), "refused 11 at 0\n");
        assert_eq!(print_of(&[5, 0, 0, 6]), "refused 11 at 0\n");
        assert_eq!(print_of(&[0]), "refused 11 at 0\n");
        assert_eq!(print_of(&[1, 1, 1, 1]), "refused 11 at 0\n");
        assert_eq!(print_of(&[1, 1, 1, 1, 1, 6]), "refused 1 at 0\n");
        assert_eq!(print_of(&[1, 65, 1, 1, 1]), "refused 1 at 0\n");
        assert_eq!(print_of(&[1, 64, 8, 64, 8, 6]), "sizes 64 8 64 8\nend\n");
        assert_eq!(print_of(&[1, 64, 8, 64, 8]), "sizes 64 8 64 8\nrefused 11 at 5\n");
    }

    #[test]
    fn refusals_with_their_offsets() {
        let sizes = [1, 2, 1, 2, 2];
        let read = [2, 1, 0, 0, 0, 0];
        let after = |rest: &[&[u8]], line: &str| {
            let job = [&sizes[..], &rest.concat()].concat();
            assert_eq!(print_of(&job), format!("sizes 2 1 2 2\n{line}\n"));
        };
        after(&[&[5, 2, 0], &[6]], "refused 6 at 5");
        after(&[&[2, 2, 0, 0, 128, 0]], "refused 6 at 5");
        after(&[&read, &[2, 1, 0, 0, 128, 0]], "refused 7 at 11");
        after(&[&read, &[5, 1, 0], &[3, 1, 0, 0, 0, 0], &[6]], "refused 7 at 14");
        after(&[&[5, 1, 0]], "refused 8 at 5");
        after(&[&read, &[5, 0, 0]], "refused 8 at 11");
        // 8388607 accepted, 8388608 not.
        after(&[&[2, 0, 255, 255, 127, 0], &[6]], "end");
        after(&[&[2, 0, 0, 0, 128, 0], &[6]], "refused 10 at 5");
        after(&[&[3, 0, 0, 0, 128, 0], &[6]], "refused 10 at 5");
        after(&[&[4, 0, 0, 0, 128, 0, 1, 2, 3, 4], &[6]], "refused 10 at 5");
        after(&[&[4, 0, 0, 0, 0, 1, 1, 2, 3, 4], &[6]], "refused 10 at 5");
        // Malformed: a second kind 1, an unknown kind, a record cut short, no
        // kind 6, a byte after it.
        after(&[&sizes, &[6]], "refused 11 at 5");
        after(&[&read, &[1, 0, 0, 0, 0], &[6]], "refused 11 at 11");
        after(&[&[7], &[6]], "refused 11 at 5");
        after(&[&[0], &[6]], "refused 11 at 5");
        after(&[&[5, 2]], "refused 11 at 5");
        after(&[&[2, 9, 255, 255, 255]], "refused 11 at 5");
        after(&[&read], "refused 11 at 11");
        after(&[&[6], &[6]], "refused 11 at 6");
        after(&[&read, &[6], &[0, 1]], "refused 11 at 12");
        // Unfinished lanes are no fault.
        after(&[&read, &[5, 1, 0], &[6]], "end");
    }

    #[test]
    fn strokes() {
        assert_eq!(stroke(0), ".......................");
        assert_eq!(stroke(8_388_607), "#STKPWHRAO*EUFRPBLGTSDZ");
        assert_eq!(stroke(1), "#......................");
        assert_eq!(stroke(1 << 22), "......................Z");
        // Insert takes 11 + 2W = 13 steps; any 32 bits are a value.
        let job = [
            vec![1, 2, 1, 2, 1],
            vec![4, 0, 255, 255, 127, 0, 255, 255, 255, 255],
            steps(0, 13),
            vec![6],
        ];
        assert_eq!(
            print_of(&job.concat()),
            "sizes 2 1 2 1\nlane 0 insert yes\n\
             row 0 col 0 #STKPWHRAO*EUFRPBLGTSDZ 4294967295\nend\n"
        );
    }

    // "At most 60,000 bytes ...; a longer job prints only `refused 11 at 60000`."
    #[test]
    fn the_longest_job() {
        // A writer at W2 that waits for a reader uses up any number of steps:
        // 5 + 6 + 9 + 6 + 3 x 19,991 = 59,999.
        let mut job = [
            vec![1, 2, 1, 1, 2],
            vec![2, 0, 1, 0, 0, 0],
            steps(0, 3),
            vec![3, 1, 1, 0, 0, 0],
            steps(1, 19_991),
        ]
        .concat();
        assert_eq!(job.len(), 59_999);
        let after = |job: &[u8], more: &[u8]| print_of(&[job, more].concat());
        let sizes = "sizes 2 1 1 2\n";
        assert_eq!(after(&job, &[]), format!("{sizes}refused 11 at 59999\n"));
        assert_eq!(after(&job, &[6]), format!("{sizes}end\n"));
        assert_eq!(after(&job, &[5]), format!("{sizes}refused 11 at 59999\n"));
        assert_eq!(after(&job, &[6, 6]), "refused 11 at 60000\n");
        assert_eq!(after(&job, &[5, 1]), "refused 11 at 60000\n");
        // One step less, and a kind 6 with a byte after it.
        job.truncate(59_996);
        assert_eq!(after(&job, &[6, 6, 6, 6]), format!("{sizes}refused 11 at 59997\n"));
        assert_eq!(after(&job, &[6, 6, 6, 6, 6]), "refused 11 at 60000\n");
        // Exactly 60,000 bytes of whole records without an end: the last record
        // is an insert of 10 bytes for a third lane.
        job[4] = 3;
        job.truncate(59_990);
        job.extend([4, 2, 1, 0, 0, 0, 7, 0, 0, 0]);
        assert_eq!(job.len(), 60_000);
        assert_eq!(after(&job, &[]), "sizes 2 1 1 3\nrefused 11 at 60000\n");
    }

    // The walk case as a job: W=2, so an insert takes 15 steps, one more for
    // each full column passed in looking for an empty slot.
    #[test]
    fn the_walk_case_as_a_job() {
        let mut job = vec![1, 4, 2, 4, 1];
        for (key, steps_taken) in
            [(24, 15), (12, 16), (9, 17), (1, 16), (2, 15), (14, 16), (11, 17), (23, 18)]
        {
            job.extend([4, 0, key, 0, 0, 0, key, 0, 0, 0]);
            job.extend(steps(0, steps_taken));
        }
        // A hit in the first row: W1, W2, looks, empty it, release.
        for (key, steps_taken) in [(2, 5), (14, 6)] {
            job.extend([3, 0, key, 0, 0, 0]);
            job.extend(steps(0, steps_taken));
        }
        job.extend([4, 0, 8, 0, 0, 0, 5, 0, 0, 0]);
        // The first pick is step 15, the others follow 3 + 2 looks + 1 later:
        // releases 16, 17; attempts 18..24, 25..31, 32..38, their picks the
        // steps 23, 30, 37.
        let mut last = vec![0xFF; 86];
        for (step, byte) in [(15, 0), (23, 0), (30, 0), (37, 1)] {
            last[step - 1] = byte;
        }
        for byte in last {
            job.extend([5, 0, byte]);
        }
        job.push(6);
        assert_eq!(
            print_of(&job),
            "sizes 4 2 4 1\n".to_string()
                + &"lane 0 insert yes\n".repeat(8)
                + &"lane 0 delete\n".repeat(2)
                + "lane 0 insert walked\n\
                   row 0 col 0 #..K................... 9\n\
                   row 0 col 1 ..TK................... 12\n\
                   row 1 col 1 ...KP.................. 24\n\
                   row 2 col 0 #...................... 1\n\
                   row 3 col 0 #S.K................... 11\n\
                   row 3 col 1 #ST.P.................. 23\n\
                   end\n"
        );
    }
}
