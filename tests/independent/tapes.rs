//! Jobs with names: 01's "Tapes to try" as far as a job can say them, what 01
//! calls "Dust that looks like ink", and the edges of the job file's rules.
//! Words in double quotes are 01's own sentences. A tape of 01 carries the
//! print that 01 calls for, worked out by hand from 01 and not by the machine;
//! its steps are counted by hand too.

use crate::draft::{sizes_record, start_record, step_record, Draft, END, ERRANDS};
use crate::job::stroke;
use crate::machine::{Errand, LAST_KEY};

pub struct Tape {
    pub name: String,
    pub job: Vec<u8>,
    /// What 01 says that it prints, where that is worked out here.
    pub print: Option<String>,
}

/// All tapes, those of 01 first.
pub fn tapes() -> Vec<Tape> {
    [
        home_rows(),
        sizes_and_keys(),
        step_counts(),
        walk_case(),
        picks(),
        searches(),
        shared_lock(),
        writer_and_reader(),
        whole_case(),
        first_records(),
        sizes_at_their_limits(),
        later_records(),
        lanes_and_keys(),
        strokes(),
        other_picks(),
        unfinished_lanes(),
    ]
    .into_iter()
    .flatten()
    .collect()
}

// ------------------------------------------------------------ making tapes

fn tape(name: impl Into<String>, job: &[Vec<u8>]) -> Tape {
    Tape { name: name.into(), job: job.concat(), print: None }
}

/// A tape and the lines that 01 calls for.
fn known(name: impl Into<String>, job: &[Vec<u8>], lines: &[String]) -> Tape {
    let print = lines.iter().map(|line| format!("{line}\n")).collect();
    Tape { print: Some(print), ..tape(name, job) }
}

fn sizes(h: u8, w: u8, l: u8, n: u8) -> Vec<u8> {
    sizes_record([h, w, l, n])
}

fn sizes_line(h: u8, w: u8, l: u8, n: u8) -> String {
    format!("sizes {h} {w} {l} {n}")
}

fn read(lane: u8, key: u32) -> Vec<u8> {
    start_record(lane, key, Errand::Read)
}

fn delete(lane: u8, key: u32) -> Vec<u8> {
    start_record(lane, key, Errand::Delete)
}

fn insert(lane: u8, key: u32, value: u32) -> Vec<u8> {
    start_record(lane, key, Errand::Insert { value })
}

/// So many steps of one lane. "The byte is used by pick steps only", so it is
/// one that would be seen in any other.
fn steps(lane: u8, times: usize) -> Vec<u8> {
    step_record(lane, 0xFF).repeat(times)
}

/// So many steps of lane 0, of which the named ones, counted from 1, have these
/// bytes.
fn steps_with(times: usize, bytes: &[(usize, u8)]) -> Vec<u8> {
    let mut records = steps(0, times);
    for (step, byte) in bytes {
        records[step * 3 - 1] = *byte;
    }
    records
}

fn end() -> Vec<u8> {
    vec![END]
}

fn slot_line(row: usize, column: usize, key: u32, value: u32) -> String {
    format!("row {row} col {column} {} {value}", stroke(key))
}

fn line(text: &str) -> String {
    text.to_string()
}

// ---------------------------------------------------- 01's "Tapes to try"

/// "H=3, key 1024: rows 1, 0. H=2, key 5: rows 1, 0. H=4: key 8 rows 0, 3; key 9
/// rows 1, 0; key 11 rows 3, 2." Equal locks take h2 first, so under one lock a
/// key goes to h2, and to h1 if another key fills h2. Under a lock for each row
/// it goes to the lower row.
fn home_rows() -> Vec<Tape> {
    let mut tapes = Vec::new();
    for (h, key, h1, h2, other) in
        [(3, 1024, 1, 0, 4), (2, 5, 1, 0, 1), (4, 8, 0, 3, 2), (4, 9, 1, 0, 3), (4, 11, 3, 2, 1)]
    {
        let name = format!("H={h}, key {key}: rows {h1}, {h2}");
        let yes = line("lane 0 insert yes");
        tapes.push(known(
            format!("{name}; one lock, so the second row"),
            &[sizes(h, 1, 1, 1), insert(0, key, 7), steps(0, 10), end()],
            &[sizes_line(h, 1, 1, 1), yes.clone(), slot_line(h2, 0, key, 7), line("end")],
        ));
        let mut slots = [slot_line(h2, 0, other, 6), slot_line(h1, 0, key, 7)];
        if h1 < h2 {
            slots.reverse();
        }
        let [low, high] = slots;
        tapes.push(known(
            format!("{name}; one lock, {other} fills the second row, so the first"),
            &[
                sizes(h, 1, 1, 1),
                insert(0, other, 6),
                steps(0, 10),
                insert(0, key, 7),
                steps(0, 11),
                end(),
            ],
            &[sizes_line(h, 1, 1, 1), yes.clone(), yes.clone(), low, high, line("end")],
        ));
        tapes.push(known(
            format!("{name}; a lock for each row, so the lower row"),
            &[sizes(h, 1, h, 1), insert(0, key, 7), steps(0, 13), end()],
            &[sizes_line(h, 1, h, 1), yes, slot_line(h1.min(h2), 0, key, 7), line("end")],
        ));
    }
    tapes
}

/// "H=1 or 65, W=9, L=H+1, N=0: 1. Sizes 64, 8, 64, 8: accepted. Key 8388607
/// accepted, 8388608: 10."
fn sizes_and_keys() -> Vec<Tape> {
    let mut tapes = Vec::new();
    for (name, [h, w, l, n]) in [
        ("H=1", [1, 1, 1, 1]),
        ("H=65", [65, 1, 1, 1]),
        ("W=9", [2, 9, 1, 1]),
        ("L=H+1", [2, 1, 3, 1]),
        ("L=H+1, all else at its highest", [64, 8, 65, 8]),
        ("N=0", [2, 1, 1, 0]),
    ] {
        let job = [sizes(h, w, l, n), end()];
        tapes.push(known(format!("{name}: 1"), &job, &[line("refused 1 at 0")]));
    }
    tapes.push(known(
        "sizes 64, 8, 64, 8: accepted",
        &[sizes(64, 8, 64, 8), end()],
        &[sizes_line(64, 8, 64, 8), line("end")],
    ));
    // Rows 63 and 31, so row 31 is taken first.
    tapes.push(known(
        "key 8388607 accepted: inserted, read, deleted, read",
        &[
            sizes(64, 8, 64, 8),
            insert(0, 8_388_607, u32::MAX),
            steps(0, 27),
            read(7, 8_388_607),
            steps(7, 5),
            insert(1, 8_388_607, 0),
            steps(1, 8),
            delete(2, 8_388_607),
            steps(2, 5),
            read(3, 8_388_607),
            steps(3, 24),
            insert(4, 8_388_607, 8_388_608),
            steps(4, 27),
            end(),
        ],
        &[
            sizes_line(64, 8, 64, 8),
            line("lane 0 insert yes"),
            line("lane 7 read 4294967295"),
            line("lane 1 insert yes"),
            line("lane 2 delete"),
            line("lane 3 read none"),
            line("lane 4 insert yes"),
            slot_line(31, 0, 8_388_607, 8_388_608),
            line("end"),
        ],
    ));
    for (errand, start) in [
        ("read", read(0, 8_388_608)),
        ("delete", delete(0, 8_388_608)),
        ("insert", insert(0, 8_388_608, 1)),
    ] {
        tapes.push(known(
            format!("key 8388608: 10, {errand}"),
            &[sizes(64, 8, 64, 8), start, end()],
            &[sizes_line(64, 8, 64, 8), line("refused 10 at 5")],
        ));
    }
    tapes
}

/// "Alone, distinct locks, empty table: insert takes 11 + 2W steps; absent
/// delete 6 + 2W; absent read 8 + 2W; absent read with one shared lock 4 + 2W."
/// A shared lock saves an insert W1, W2 and a release, a delete the same.
fn step_counts() -> Vec<Tape> {
    let mut tapes = Vec::new();
    // The rows of 8 are 0, 3, those of 1024 are 1, 0.
    for (h, key, lower, second, widths) in
        [(4, 8, 0, 3, &[1, 2, 3, 4, 5, 6, 7, 8][..]), (3, 1024, 0, 0, &[1, 2, 8])]
    {
        for w in widths.iter().copied() {
            for (what, start, own, l, ended, filled) in [
                ("insert", insert(0, key, 7), 11, h, "insert yes", Some(lower)),
                ("absent delete", delete(0, key), 6, h, "delete", None),
                ("absent read", read(0, key), 8, h, "read none", None),
                ("shared lock, insert", insert(0, key, 7), 8, 1, "insert yes", Some(second)),
                ("shared lock, absent delete", delete(0, key), 3, 1, "delete", None),
                ("shared lock, absent read", read(0, key), 4, 1, "read none", None),
            ] {
                let name = format!("{what} takes {own} + 2W steps, key {key}, W={w}");
                let begun = [sizes(h, w, l, 1), start].concat();
                let ended = [sizes_line(h, w, l, 1), format!("lane 0 {ended}")];
                let slots: Vec<String> =
                    filled.iter().map(|row| slot_line(*row, 0, key, 7)).collect();
                let count = own + 2 * w as usize;
                tapes.extend(around_its_end(&name, begun, count, ended, &slots));
            }
        }
    }
    tapes
}

/// An operation with one step fewer than it takes, just enough, and one more,
/// which is refused. The releases come last, so its slot is full before.
fn around_its_end(
    name: &str,
    begun: Vec<u8>,
    count: usize,
    [sized, ended]: [String; 2],
    slots: &[String],
) -> [Tape; 3] {
    let job = |count| [begun.clone(), steps(0, count), end()];
    let last = [line("end")];
    let refused = format!("refused 8 at {}", begun.len() + 3 * count);
    [
        known(
            format!("{name}: {}, one fewer", count - 1),
            &job(count - 1),
            &[&[sized.clone()], slots, &last].concat(),
        ),
        known(
            format!("{name}: {count}"),
            &job(count),
            &[&[sized.clone(), ended.clone()], slots, &last].concat(),
        ),
        known(
            format!("{name}: {}, one more", count + 1),
            &job(count + 1),
            &[sized, ended, refused],
        ),
    ]
}

/// "H=4, W=2, L=4. Rows: 24, 12 / 9, 1 / empty / 11, 23." Made by inserts and
/// deletes: 2 and 14 keep row 2 full while 11 and 23 come. An insert alone takes
/// 15 steps, one more for each full column that it passes.
fn walk_table(lanes: u8) -> Vec<u8> {
    let mut job = sizes(4, 2, 4, lanes);
    for (key, times) in
        [(24, 15), (12, 16), (9, 17), (1, 16), (2, 15), (14, 16), (11, 17), (23, 18)]
    {
        job.extend([insert(0, key, key), steps(0, times)].concat());
    }
    // A hit in the first row: W1, W2, looks, empty it, release.
    for (key, times) in [(2, 5), (14, 6)] {
        job.extend([delete(0, key), steps(0, times)].concat());
    }
    job
}

/// The lines of `walk_table`, then these.
fn after_walk_table(lanes: u8, more: &[String]) -> Vec<String> {
    let mut lines = vec![sizes_line(4, 2, 4, lanes)];
    lines.extend(vec![line("lane 0 insert yes"); 8]);
    lines.extend(vec![line("lane 0 delete"); 2]);
    lines.extend_from_slice(more);
    lines
}

/// Lines of full slots: row, column, key. Values are the keys, that of 8 is 5.
fn slot_lines(slots: &[(usize, usize, u32)]) -> Vec<String> {
    let value = |key| if key == 8 { 5 } else { key };
    slots.iter().map(|(row, column, key)| slot_line(*row, *column, *key, value(*key))).collect()
}

const WALK_TABLE: [(usize, usize, u32); 6] =
    [(0, 0, 24), (0, 1, 12), (1, 0, 9), (1, 1, 1), (3, 0, 11), (3, 1, 23)];
const WALKED_TABLE: [(usize, usize, u32); 6] =
    [(0, 0, 9), (0, 1, 12), (1, 1, 24), (2, 0, 1), (3, 0, 11), (3, 1, 23)];

/// "Insert 8 with pick bytes 0, 0, 0, 1: path (0,0), (1,0), (0,0), (1,1), free
/// (2,0). Key 1 moves, 24 moves, 9 moves, the last swing skips. Rows: 9, 12 /
/// empty, 24 / 1, empty / 11, 23. Answer walked, all locks clear." The picks are
/// steps 15, 23, 30 and 37, the swings 48, 55, 62 and 69.
fn walk_case() -> Vec<Tape> {
    let job = |times: usize, rest: Vec<u8>| {
        let picks = [(15, 0), (23, 0), (30, 0), (37, 1)];
        let steps = steps_with(86, &picks)[..3 * times].to_vec();
        [walk_table(1), insert(0, 8, 5), steps, rest, end()]
    };
    let printed = |answers: &[&str], slots: &[(usize, usize, u32)]| {
        let answers: Vec<String> = answers.iter().map(|answer| line(answer)).collect();
        after_walk_table(1, &[answers, slot_lines(slots), vec![line("end")]].concat())
    };
    let walked = "lane 0 insert walked";
    let mut tapes = vec![known(
        "the walk: insert 8 with pick bytes 0, 0, 0, 1 ends walked",
        &job(86, Vec::new()),
        &printed(&[walked], &WALKED_TABLE),
    )];
    let one_moved = [(0, 0, 24), (0, 1, 12), (1, 0, 9), (2, 0, 1), (3, 0, 11), (3, 1, 23)];
    let two_moved = [(0, 1, 12), (1, 0, 9), (1, 1, 24), (2, 0, 1), (3, 0, 11), (3, 1, 23)];
    for (name, times, slots) in [
        ("the table before it", 0, &WALK_TABLE),
        ("just before the first swing", 47, &WALK_TABLE),
        ("key 1 moves", 48, &one_moved),
        ("just before the second swing", 54, &one_moved),
        ("24 moves", 55, &two_moved),
        ("just before the third swing", 61, &two_moved),
        ("9 moves", 62, &WALKED_TABLE),
        ("the last swing skips", 69, &WALKED_TABLE),
        ("one step before its end", 85, &WALKED_TABLE),
    ] {
        tapes.push(known(
            format!("the walk: {name}"),
            &job(times, Vec::new()),
            &printed(&[], slots),
        ));
    }
    // Operations alone take what they take with all locks clear. The rows of 8
    // are 0, 3, of 5 are 1, 3, of 6 are 2, 0, of 10 are 2, 1. An insert of 9, in
    // row 0 now, overwrites at its first look.
    let clear = [
        (delete(0, 8), 10),
        (delete(0, 5), 10),
        (delete(0, 6), 10),
        (delete(0, 10), 10),
        (read(0, 8), 12),
        (read(0, 10), 12),
        (insert(0, 9, 9), 8),
    ];
    let rest = clear.iter().flat_map(|(start, times)| [start.clone(), steps(0, *times)]);
    let gone = "lane 0 delete";
    let none = "lane 0 read none";
    let yes = "lane 0 insert yes";
    tapes.push(known(
        "the walk: all locks are clear after it",
        &job(86, rest.collect::<Vec<_>>().concat()),
        &printed(&[walked, gone, gone, gone, gone, none, none, yes], &WALKED_TABLE),
    ));
    let mut refused = printed(&[walked], &[]);
    refused.pop();
    refused.push(format!("refused 8 at {}", job(86, Vec::new()).concat().len() - 1));
    tapes.push(known("the walk: one step more", &job(86, steps(0, 1)), &refused));
    tapes
}

/// "H=4, byte 3, W=2: row h2, column 1." On the walk's table insert 8 picks 23,
/// which moves to row 2. And "Choosing the pick row by lock order instead of h1":
/// the rows of 21 are 1, 0, taken 0, 1; an even byte takes row 1 all the same.
fn picks() -> Vec<Tape> {
    let job = |key: u32, value: u32, byte: u8, times: usize| {
        let steps = steps_with(times, &[(15, byte)]);
        [walk_table(1), insert(0, key, value), steps, end()]
    };
    let printed = |slots: &[(usize, usize, u32)]| {
        let yes = vec![line("lane 0 insert yes")];
        after_walk_table(1, &[yes, slot_lines(slots), vec![line("end")]].concat())
    };
    // To the pick 15, releases 2, attempt 5, swing 7, locks and looks 8; then the
    // looks for the empty slot, the fill, 3 releases.
    vec![
        known(
            "H=4, byte 3, W=2: row h2, column 1",
            &job(8, 5, 3, 37 + 4 + 1 + 3),
            &printed(&[
                (0, 0, 24),
                (0, 1, 12),
                (1, 0, 9),
                (1, 1, 1),
                (2, 0, 23),
                (3, 0, 11),
                (3, 1, 8),
            ]),
        ),
        known(
            "the pick row goes by h1, not by lock order: byte 2 takes row 1 of 1, 0",
            &job(21, 21, 2, 37 + 4 + 1 + 3),
            &printed(&[
                (0, 0, 24),
                (0, 1, 12),
                (1, 0, 9),
                (1, 1, 21),
                (2, 0, 1),
                (3, 0, 11),
                (3, 1, 23),
            ]),
        ),
    ]
}

/// "At most H+1 attempts." Key 21 on the walk's table goes to and fro between
/// rows 1 and 0; attempt 5 finds row 2 or row 0. The picks are steps 15, 23, 30,
/// 37 and 44. And "Stopping the walk at a skipped swing": a delete takes key 1
/// away between the search and the walk.
fn searches() -> Vec<Tape> {
    let yes = line("lane 0 insert yes");
    let far = [(15, 0), (23, 0), (30, 0), (37, 0), (44, 1)];
    let round = [(15, 0), (23, 0), (30, 0), (37, 0), (44, 0), (51, 0)];
    let moved: &[(usize, usize, u32)] =
        &[(0, 0, 9), (0, 1, 12), (1, 0, 21), (1, 1, 24), (2, 0, 1), (3, 0, 11), (3, 1, 23)];
    let in_place: &[(usize, usize, u32)] =
        &[(0, 0, 8), (0, 1, 12), (1, 0, 9), (1, 1, 24), (3, 0, 11), (3, 1, 23)];
    vec![
        known(
            "attempt H + 1 finds free space",
            &[walk_table(1), insert(0, 21, 21), steps_with(100, &far), end()],
            &after_walk_table(
                1,
                &[vec![yes.clone()], slot_lines(moved), vec![line("end")]].concat(),
            ),
        ),
        known(
            "attempt H + 1 finds a full row: searched",
            &[walk_table(1), insert(0, 21, 21), steps_with(53, &round), end()],
            &after_walk_table(
                1,
                &[vec![line("lane 0 insert searched")], slot_lines(&WALK_TABLE), vec![line("end")]]
                    .concat(),
            ),
        ),
        known(
            "attempt H + 1 finds a full row: one step before its end",
            &[walk_table(1), insert(0, 21, 21), steps_with(52, &round), end()],
            &after_walk_table(1, &[slot_lines(&WALK_TABLE), vec![line("end")]].concat()),
        ),
        known(
            "the walk goes on after a skipped swing",
            &[
                walk_table(2),
                insert(0, 8, 5),
                steps_with(29, &[(15, 0), (23, 1)]),
                delete(1, 1),
                steps(1, 6),
                steps(0, 27),
                end(),
            ],
            &after_walk_table(
                2,
                &[vec![line("lane 1 delete"), yes], slot_lines(in_place), vec![line("end")]]
                    .concat(),
            ),
        ),
    ]
}

/// "equal locks are taken once and released once", and "Taking one shared lock
/// twice, also for reading: a writer between the two blocks both."
fn shared_lock() -> Vec<Tape> {
    vec![
        known(
            "one shared lock: a read, and a delete that comes between its two rows",
            &[
                sizes(4, 1, 1, 2),
                read(0, 8),
                steps(0, 4),
                delete(1, 9),
                steps(1, 2),
                steps(0, 2),
                steps(1, 4),
                end(),
            ],
            &[sizes_line(4, 1, 1, 2), line("lane 0 read none"), line("lane 1 delete"), line("end")],
        ),
        known(
            "one shared lock: a delete, and a read that comes between its two rows",
            &[
                sizes(4, 1, 1, 2),
                delete(0, 8),
                steps(0, 3),
                read(1, 9),
                steps(1, 4),
                steps(0, 2),
                steps(1, 6),
                end(),
            ],
            &[sizes_line(4, 1, 1, 2), line("lane 0 delete"), line("lane 1 read none"), line("end")],
        ),
        known(
            "one shared lock: an insert, and another that waits for main",
            &[
                sizes(4, 1, 1, 2),
                insert(0, 8, 6),
                steps(0, 6),
                insert(1, 9, 7),
                steps(1, 5),
                steps(0, 4),
                steps(1, 10),
                end(),
            ],
            &[
                sizes_line(4, 1, 1, 2),
                line("lane 0 insert yes"),
                line("lane 1 insert yes"),
                slot_line(0, 0, 9, 7),
                slot_line(3, 0, 8, 6),
                line("end"),
            ],
        ),
    ]
}

/// "Letting the write flag alone admit a writer while readers remain." A delete
/// waits at W2 until the read has its value; a read that meets the flag goes
/// back; one that meets another count notes it anew.
fn writer_and_reader() -> Vec<Tape> {
    let filled = [sizes(4, 1, 4, 3), insert(0, 8, 7), steps(0, 13)].concat();
    let sized = sizes_line(4, 1, 4, 3);
    let yes = line("lane 0 insert yes");
    vec![
        known(
            "the flag alone admits no writer while a reader remains",
            &[
                filled.clone(),
                read(0, 8),
                steps(0, 3),
                delete(1, 8),
                steps(1, 4),
                steps(0, 2),
                steps(1, 4),
                end(),
            ],
            &[
                sized.clone(),
                yes.clone(),
                line("lane 0 read 7"),
                line("lane 1 delete"),
                line("end"),
            ],
        ),
        known(
            "a reader that meets the flag goes back to R1",
            &[
                filled.clone(),
                delete(1, 8),
                steps(1, 2),
                read(0, 8),
                steps(0, 4),
                steps(1, 3),
                steps(0, 10),
                end(),
            ],
            &[
                sized.clone(),
                yes.clone(),
                line("lane 1 delete"),
                line("lane 0 read none"),
                line("end"),
            ],
        ),
        known(
            "a reader that meets another count goes back to R1",
            &[
                filled,
                read(0, 8),
                steps(0, 1),
                read(2, 8),
                steps(2, 2),
                steps(0, 1),
                steps(2, 3),
                steps(0, 5),
                end(),
            ],
            &[
                sized,
                yes,
                line("lane 2 read 7"),
                line("lane 0 read 7"),
                slot_line(0, 0, 8, 7),
                line("end"),
            ],
        ),
    ]
}

// --------------------------------------------------- the job file's rules

/// 01's "Whole case", byte for byte.
fn whole() -> Vec<u8> {
    [
        vec![1, 3, 1, 3, 1],
        vec![4, 0, 0, 4, 0, 0, 7, 0, 0, 0],
        [5, 0, 0].repeat(13),
        vec![2, 0, 0, 4, 0, 0],
        [5, 0, 0].repeat(5),
        vec![6],
    ]
    .concat()
}

/// The whole case, cut at every offset, and with bytes after its end. A cut
/// falls into a record or before a missing one: 11 at that record's offset.
fn whole_case() -> Vec<Tape> {
    let job = whole();
    let lines = |count: usize, last: &str| {
        let all = ["sizes 3 1 3 1", "lane 0 insert yes", "lane 0 read 7"];
        let mut lines: Vec<String> = all[..count].iter().map(|text| line(text)).collect();
        lines.extend(last.lines().map(line));
        lines
    };
    let mut tapes = vec![known(
        "the whole case",
        &[job.clone()],
        &lines(3, "row 0 col 0 ..........*............ 7\nend"),
    )];
    let mut starts = vec![0, 5];
    starts.extend((15..54).step_by(3));
    starts.push(54);
    starts.extend((60..=75).step_by(3));
    for cut in 0..job.len() {
        let printed = [5, 54, 75].iter().filter(|offset| **offset <= cut).count();
        let at = starts.iter().filter(|start| **start <= cut).max().unwrap();
        tapes.push(known(
            format!("the whole case, cut at {cut}"),
            &[job[..cut].to_vec()],
            &lines(printed, &format!("refused 11 at {at}")),
        ));
    }
    for (name, after) in [
        ("another end", vec![6]),
        ("a byte 0", vec![0]),
        ("a byte 1", vec![1]),
        ("two more ends", vec![6, 6]),
        ("itself", whole()),
    ] {
        tapes.push(known(
            format!("the whole case, {name} after it"),
            &[job.clone(), after],
            &lines(3, "refused 11 at 76"),
        ));
    }
    tapes
}

/// "Kind 1 stands first and once, 6 last". What stands first and is no whole
/// record of kind 1 is 11 at 0.
fn first_records() -> Vec<Tape> {
    let at_0 = [line("refused 11 at 0")];
    let mut tapes = vec![
        known("06 06", &[vec![6, 6]], &at_0),
        known("the empty job", &[], &at_0),
        known("255 alone", &[vec![255]], &at_0),
    ];
    for first in 0..=8 {
        tapes.push(known(format!("{first} alone"), &[vec![first]], &at_0));
        // With 06 after 06 the second is named above.
        if first != 6 {
            tapes.push(known(format!("{first}, then an end"), &[vec![first, 6]], &at_0));
        }
        let zeros = if first == 1 { line("refused 1 at 0") } else { line("refused 11 at 0") };
        tapes.push(known(format!("{first}, then zeros"), &[vec![first], vec![0; 12]], &[zeros]));
    }
    for (name, first) in [
        ("read", read(0, 1)),
        ("delete", delete(0, 1)),
        ("insert", insert(0, 1, 7)),
        ("step", steps(0, 1)),
    ] {
        let job = [first, sizes(2, 1, 1, 1), end()];
        tapes.push(known(format!("a {name} before the sizes"), &job, &at_0));
    }
    tapes
}

/// "Sizes: H rows 2..64, W columns 1..8, L row locks 1..H, N lanes 1..8."
/// Each with an end, with no end, with a byte after the end, and cut short.
fn sizes_at_their_limits() -> Vec<Tape> {
    let mut tapes = Vec::new();
    for (h, w, l, n, good) in [
        (2, 1, 1, 1, true),
        (2, 1, 2, 8, true),
        (64, 8, 64, 8, true),
        (64, 1, 1, 1, true),
        (64, 8, 1, 8, true),
        (0, 1, 1, 1, false),
        (1, 1, 1, 1, false),
        (65, 1, 1, 1, false),
        (65, 8, 65, 8, false),
        (255, 1, 1, 1, false),
        (2, 0, 1, 1, false),
        (2, 9, 1, 1, false),
        (2, 255, 1, 1, false),
        (2, 1, 0, 1, false),
        (2, 1, 3, 1, false),
        (64, 8, 65, 8, false),
        (64, 8, 255, 8, false),
        (2, 1, 1, 0, false),
        (2, 1, 1, 9, false),
        (2, 1, 1, 255, false),
        (0, 0, 0, 0, false),
        (255, 255, 255, 255, false),
    ] {
        let name = format!("sizes {h}, {w}, {l}, {n}");
        let record = sizes(h, w, l, n);
        let lines = |last: &str| match good {
            true => vec![sizes_line(h, w, l, n), line(last)],
            false => vec![line("refused 1 at 0")],
        };
        let ended = [record.clone(), end()];
        tapes.push(known(format!("{name}, an end"), &ended, &lines("end")));
        let twice = [record.clone(), end(), end()];
        tapes.push(known(format!("{name}, two ends"), &twice, &lines("refused 11 at 6")));
        tapes.push(known(format!("{name}, no end"), &[record.clone()], &lines("refused 11 at 5")));
        let short = [record[..4].to_vec()];
        tapes.push(known(format!("{name}, cut short"), &short, &[line("refused 11 at 0")]));
    }
    tapes
}

/// After the sizes: a second kind 1, unknown kinds.
fn later_records() -> Vec<Tape> {
    let first = sizes(2, 1, 2, 2);
    let refused = [sizes_line(2, 1, 2, 2), line("refused 11 at 5")];
    let mut tapes = Vec::new();
    for (name, second) in [
        ("the same sizes again", sizes(2, 1, 2, 2)),
        ("bad sizes after good ones", sizes(0, 0, 0, 0)),
        ("the same sizes again, cut by one", vec![1, 2, 1, 2]),
        ("the same sizes again, cut to the kind", vec![1]),
    ] {
        let job = [first.clone(), second.clone(), end()];
        tapes.push(known(format!("{name}, and an end"), &job, &refused));
        tapes.push(known(format!("{name}, and no end"), &[first.clone(), second], &refused));
    }
    for kind in (0..=255).filter(|kind| !(1..=6).contains(kind)).step_by(7) {
        let job = [first.clone(), vec![kind, END]];
        tapes.push(known(format!("kind {kind}, and an end"), &job, &refused));
    }
    for kind in [0, 7, 8, 254, 255] {
        let job = [first.clone(), vec![kind]];
        tapes.push(known(format!("kind {kind}, and no end"), &job, &refused));
    }
    tapes
}

/// Keys and lanes at and past their limits, idle lanes, busy lanes, and which
/// refusal comes first: "For start: .. 6, 7, 10. For step: .. 6, 8." Lane 1 is
/// busy, lane 0 is not.
fn lanes_and_keys() -> Vec<Tape> {
    let begun = [sizes(2, 1, 2, 2), read(1, 3)].concat();
    let lines = |last: Option<u8>| match last {
        Some(number) => vec![sizes_line(2, 1, 2, 2), format!("refused {number} at 11")],
        None => vec![sizes_line(2, 1, 2, 2), line("end")],
    };
    let mut tapes = Vec::new();
    for (name, errand) in ["read", "delete", "insert"].into_iter().zip(ERRANDS) {
        for lane in [0, 1, 2, 8, 255] {
            for key in [0, LAST_KEY, LAST_KEY + 1, 1 << 24, 1 << 31, u32::MAX] {
                let refused = match (lane, key) {
                    (2.., _) => Some(6),
                    (1, _) => Some(7),
                    (_, 8_388_608..) => Some(10),
                    _ => None,
                };
                let job = [begun.clone(), start_record(lane, key, errand), end()];
                let name = format!("lane 1 of 2 busy: lane {lane} starts {name} {key}");
                tapes.push(known(name, &job, &lines(refused)));
            }
        }
    }
    for lane in [0, 1, 2, 8, 255] {
        let refused = match lane {
            0 => Some(8),
            1 => None,
            _ => Some(6),
        };
        let job = [begun.clone(), steps(lane, 1), end()];
        tapes.push(known(format!("lane 1 of 2 busy: lane {lane} steps"), &job, &lines(refused)));
    }
    tapes
}

// --------------------------------- tapes whose schedules the machine draws

/// Key 0 and value 0, key 8388607 and the greatest value, each bit alone.
fn strokes() -> Vec<Tape> {
    let mut tapes = Vec::new();
    for [h, w, l, n] in [[64, 8, 64, 8], [3, 8, 1, 1]] {
        let mut draft = Draft::new([h, w, l, n]);
        draft.alone(0, 0, Errand::Insert { value: 0 }, &[]);
        draft.alone(0, LAST_KEY, Errand::Insert { value: u32::MAX }, &[]);
        for bit in 0..23 {
            draft.alone(0, 1 << bit, Errand::Insert { value: 1 << (31 - bit) }, &[]);
        }
        for bit in 0..23 {
            draft.alone(0, 1 << bit, Errand::Read, &[]);
        }
        draft.alone(0, LAST_KEY, Errand::Read, &[]);
        tapes.push(tape(
            format!("each bit of a stroke, sizes {h}, {w}, {l}, {n}"),
            &[draft.finish()],
        ));
    }
    tapes
}

/// The walk's table with other pick bytes.
fn other_picks() -> Vec<Tape> {
    let mut tapes = Vec::new();
    for bytes in [[3, 0, 0, 0], [2, 1, 0, 0], [1, 1, 1, 1], [0, 1, 0, 0], [255, 254, 253, 252]] {
        let mut draft = Draft::new([4, 2, 4, 1]);
        for key in [24, 12, 9, 1, 2, 14, 11, 23] {
            draft.alone(0, key, Errand::Insert { value: key }, &[]);
        }
        for key in [2, 14] {
            draft.alone(0, key, Errand::Delete, &[]);
        }
        draft.alone(0, 8, Errand::Insert { value: 5 }, &bytes);
        let [a, b, c, d] = bytes;
        let name = format!("the walk's table, insert 8 with pick bytes {a}, {b}, {c}, {d}");
        tapes.push(tape(name, &[draft.finish()]));
    }
    tapes
}

/// Kind 6 while an insert that searches a full table and a delete stand at each
/// of their places.
fn unfinished_lanes() -> Vec<Tape> {
    let mut tapes = Vec::new();
    let mut draft = Draft::new([3, 1, 3, 2]);
    for key in [0, 1, 2] {
        draft.alone(0, key, Errand::Insert { value: key }, &[]);
    }
    draft.start(0, 9, Errand::Insert { value: 9 });
    draft.start(1, 1, Errand::Delete);
    for turns in 0.. {
        let name = format!("an end after {turns} turns of an insert and a delete");
        tapes.push(tape(name, &[draft.bytes.clone(), end()]));
        if draft.busy().is_empty() {
            break;
        }
        for lane in draft.busy() {
            draft.step(lane, 0);
        }
    }
    tapes
}

#[cfg(test)]
mod tests {
    use super::*;
    use crate::job::print_of;
    use std::collections::BTreeSet;

    #[test]
    fn each_tape_prints_what_01_calls_for() {
        for tape in tapes() {
            if let Some(print) = tape.print {
                assert_eq!(print_of(&tape.job), print, "{}", tape.name);
            }
        }
    }

    #[test]
    fn names_are_short_and_no_two_alike() {
        let tapes = tapes();
        let names: BTreeSet<&str> = tapes.iter().map(|tape| &tape.name[..]).collect();
        assert_eq!(names.len(), tapes.len());
        assert!(names.iter().all(|name| name.is_ascii() && name.len() < 256));
    }
}
