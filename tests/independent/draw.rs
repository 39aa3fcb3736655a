//! Makes jobs to run programs on. The same seed gives the same jobs.
//!
//! The first jobs are fixed ones: the tapes with names, and pick bytes. Then come
//! jobs drawn by the seed: one short job cut at every byte, jobs at the limit of
//! 60,000 bytes, and drawn jobs without end.

use crate::draft::{sizes_record, start_record, step_record, Dice, Draft, END, ERRANDS};
use crate::machine::{End, Errand, LAST_KEY};
use crate::tapes::tapes;

// -------------------------------------------------------------- schedules

/// Whose turn it is.
#[derive(Clone, Copy)]
enum Pace {
    /// Any busy lane.
    Even,
    /// The same lane for a while.
    Bursts,
    /// One lane after the other.
    Round,
    /// One lane is left standing for a while, wherever it is.
    Stalled,
    /// Low lanes much more often.
    Favoured,
}

/// Bytes for the steps.
#[derive(Clone, Copy)]
enum Bytes {
    Any,
    Low,
    Always(u8),
}

impl Bytes {
    fn draw(self, dice: &mut Dice) -> u8 {
        match self {
            Bytes::Any => dice.byte(),
            Bytes::Low => dice.byte() % 4,
            Bytes::Always(byte) => byte,
        }
    }
}

struct Plan {
    keys: Vec<u32>,
    /// Out of ten starts, so many inserts and so many deletes; the rest reads.
    inserts: usize,
    deletes: usize,
    starts: usize,
    pace: Pace,
    bytes: Bytes,
    /// Let every lane come to its end before the job ends.
    drain: bool,
    /// Stop the schedule at this length.
    longest: usize,
}

fn draw_errand(dice: &mut Dice, plan: &Plan) -> Errand {
    let value = match dice.from_to(0, 7) {
        0 => 0,
        1 => u32::MAX,
        2 => dice.next() as u32,
        _ => dice.from_to(0, 999) as u32,
    };
    match dice.from_to(1, 10) {
        n if n <= plan.inserts => Errand::Insert { value },
        n if n <= plan.inserts + plan.deletes => Errand::Delete,
        _ => Errand::Read,
    }
}

/// Starts and steps by the plan. Ends early at the plan's length.
fn schedule(dice: &mut Dice, draft: &mut Draft, plan: &Plan) {
    let mut starts_left = plan.starts;
    let mut turn = 0; // the lane of Round, or the lane that Bursts stays with
    let mut burst = 0;
    let mut stalled = 0; // the lane that Stalled leaves standing
    let eagerness = dice.pick(&[1, 2, 4, 15]);
    while draft.bytes.len() + 11 <= plan.longest {
        let busy = draft.busy();
        let idle = draft.idle();
        if starts_left == 0 && (busy.is_empty() || !plan.drain) {
            // Without draining a few more steps are drawn, then it stops.
            if busy.is_empty() || dice.one_in(10) {
                return;
            }
        }
        if starts_left > 0 && !idle.is_empty() && (busy.is_empty() || dice.one_in(eagerness)) {
            let errand = draw_errand(dice, plan);
            let (lane, key) = (dice.pick(&idle), dice.pick(&plan.keys));
            draft.start(lane, key, errand);
            starts_left -= 1;
            continue;
        }
        let lane = match plan.pace {
            Pace::Even => dice.pick(&busy),
            Pace::Bursts => {
                if burst == 0 || !busy.contains(&turn) {
                    turn = dice.pick(&busy);
                    burst = dice.from_to(1, 25);
                }
                burst -= 1;
                turn
            }
            Pace::Round => {
                turn = (turn + 1) % draft.lanes;
                while !busy.contains(&turn) {
                    turn = (turn + 1) % draft.lanes;
                }
                turn
            }
            Pace::Stalled => {
                if dice.one_in(40) {
                    stalled = dice.from_to(0, draft.lanes - 1);
                }
                let others: Vec<usize> =
                    busy.iter().copied().filter(|lane| *lane != stalled).collect();
                dice.pick(if others.is_empty() { &busy } else { &others })
            }
            Pace::Favoured => {
                let one = dice.pick(&busy);
                let another = dice.pick(&busy);
                one.min(another).min(dice.pick(&busy))
            }
        };
        let byte = plan.bytes.draw(dice);
        draft.step(lane, byte);
    }
}

fn draw_pace(dice: &mut Dice) -> Pace {
    dice.pick(&[Pace::Even, Pace::Bursts, Pace::Round, Pace::Stalled, Pace::Favoured])
}

fn draw_bytes(dice: &mut Dice) -> Bytes {
    let always = Bytes::Always(dice.byte());
    dice.pick(&[Bytes::Any, Bytes::Any, Bytes::Any, Bytes::Low, always])
}

/// Keys to draw from.
fn draw_keys(dice: &mut Dice, sizes: [u8; 4], count: usize) -> Vec<u32> {
    let h = sizes[0] as u32;
    match dice.from_to(0, 3) {
        // The lowest keys.
        0 => (0..count as u32).collect(),
        // Keys from anywhere, the two outermost among them.
        1 => {
            let mut keys: Vec<u32> =
                (0..count).map(|_| dice.next() as u32 % (LAST_KEY + 1)).collect();
            keys.extend([0, LAST_KEY]);
            keys
        }
        // Keys of one or two first home rows.
        2 => {
            let row = dice.from_to(0, h as usize - 1) as u32;
            (0..count as u32).map(|i| (i * h + row + i % 2) % (LAST_KEY + 1)).collect()
        }
        // Keys from a short stretch.
        _ => {
            let from = dice.from_to(0, LAST_KEY as usize - 2000) as u32;
            (0..count).map(|_| from + dice.from_to(0, 2000) as u32).collect()
        }
    }
}

fn draw_sizes(dice: &mut Dice, most_rows: usize, most_columns: usize) -> [u8; 4] {
    let h = dice.from_to(2, most_rows);
    let w = dice.from_to(1, most_columns);
    let l = match dice.from_to(0, 3) {
        0 => 1,
        1 => h,
        _ => dice.from_to(1, h),
    };
    [h as u8, w as u8, l as u8, dice.from_to(1, 8) as u8]
}

// ------------------------------------------------- drawn jobs, kind by kind

/// A good job of any sizes, any operations.
fn mixed(dice: &mut Dice) -> Draft {
    let (rows, columns) = dice.pick(&[(4, 2), (8, 4), (20, 8), (64, 8)]);
    let sizes = draw_sizes(dice, rows, columns);
    let count = dice.from_to(1, 2 * sizes[0] as usize * sizes[1] as usize);
    let plan = Plan {
        keys: draw_keys(dice, sizes, count),
        inserts: dice.from_to(2, 7),
        deletes: dice.from_to(0, 3),
        starts: dice.from_to(1, 60),
        pace: draw_pace(dice),
        bytes: draw_bytes(dice),
        drain: dice.one_in(2),
        longest: 20_000,
    };
    let mut draft = Draft::new(sizes);
    schedule(dice, &mut draft, &plan);
    draft
}

/// Many lanes, few locks, few keys: lanes in each other's way.
fn crowded(dice: &mut Dice) -> Draft {
    let h = dice.from_to(2, 6);
    let w = dice.from_to(1, 3);
    let l = dice.from_to(1, h.min(3));
    let sizes = [h as u8, w as u8, l as u8, dice.from_to(3, 8) as u8];
    let count = dice.from_to(1, 4);
    let plan = Plan {
        keys: draw_keys(dice, sizes, count),
        inserts: dice.from_to(1, 5),
        deletes: dice.from_to(1, 4),
        starts: dice.from_to(5, 60),
        pace: draw_pace(dice),
        bytes: draw_bytes(dice),
        drain: !dice.one_in(3),
        longest: 20_000,
    };
    let mut draft = Draft::new(sizes);
    schedule(dice, &mut draft, &plan);
    draft
}

/// A table filled by one lane until inserts say no, or until it is nearly full.
fn fill(dice: &mut Dice, draft: &mut Draft, keys: &[u32], most_noes: usize, longest: usize) {
    let mut noes = 0;
    for key in keys {
        if draft.bytes.len() > longest || noes == most_noes {
            return;
        }
        draft.start(0, *key, Errand::Insert { value: key % 1000 });
        loop {
            if let Some(end) = draft.step(0, dice.byte()) {
                if end != End::InsertYes {
                    noes += 1;
                }
                break;
            }
        }
    }
}

/// A full table: searches that give up, and overwrites, deletes, reads in it.
fn full(dice: &mut Dice) -> Draft {
    let sizes = draw_sizes(dice, 9, 3);
    let slots = sizes[0] as usize * sizes[1] as usize;
    let keys = draw_keys(dice, sizes, 3 * slots);
    let mut draft = Draft::new(sizes);
    let noes = dice.from_to(1, 4);
    fill(dice, &mut draft, &keys, noes, 20_000);
    let plan = Plan {
        keys,
        inserts: dice.from_to(4, 9),
        deletes: dice.from_to(0, 1),
        starts: dice.from_to(0, 25),
        pace: draw_pace(dice),
        bytes: draw_bytes(dice),
        drain: dice.one_in(2),
        longest: 30_000,
    };
    schedule(dice, &mut draft, &plan);
    draft
}

/// A nearly full table with deletes among many inserts: searches that find
/// free space far away, walks, swings that skip.
fn walks(dice: &mut Dice) -> Draft {
    let h = dice.from_to(3, 9);
    let w = dice.from_to(1, 3);
    let l = if dice.one_in(2) { h } else { dice.from_to(1, h) };
    let sizes = [h as u8, w as u8, l as u8, dice.from_to(1, 4) as u8];
    let count = h * w + dice.from_to(1, 6);
    let keys: Vec<u32> = (0..count).map(|_| dice.from_to(0, 50 * h) as u32).collect();
    let mut draft = Draft::new(sizes);
    fill(dice, &mut draft, &keys, 3, 15_000);
    let plan = Plan {
        keys,
        inserts: 6,
        deletes: 3,
        starts: dice.from_to(10, 50),
        pace: draw_pace(dice),
        bytes: draw_bytes(dice),
        drain: dice.one_in(2),
        longest: 30_000,
    };
    schedule(dice, &mut draft, &plan);
    draft
}

/// A delete or read set against every place of a search and walk: an insert
/// runs some steps, then the others run, then it goes on.
fn walk_disturbed(dice: &mut Dice) -> Draft {
    let h = dice.from_to(3, 7);
    let w = dice.from_to(1, 2);
    let l = if dice.one_in(3) { dice.from_to(1, h) } else { h };
    let sizes = [h as u8, w as u8, l as u8, 3];
    let keys: Vec<u32> = (0..3 * h * w).map(|_| dice.from_to(0, 50 * h) as u32).collect();
    let mut draft = Draft::new(sizes);
    fill(dice, &mut draft, &keys, 2, 10_000);
    for _ in 0..dice.from_to(3, 8) {
        // The key of a full slot leaves, so that there is free space.
        let full = draft.machine.full_slots();
        if draft.machine.is_busy(0) || full.is_empty() {
            break;
        }
        let leaving = dice.pick(&full).2.key;
        draft.alone(1, leaving, Errand::Delete, &[]);
        let key = dice.from_to(0, 50 * h) as u32;
        draft.start(0, key, Errand::Insert { value: 1 });
        // Many turns of: the insert some steps, a whole delete beside it.
        while draft.machine.is_busy(0) && draft.bytes.len() < 30_000 {
            for _ in 0..dice.from_to(1, 20) {
                if draft.machine.is_busy(0) {
                    draft.step(0, dice.byte());
                }
            }
            let full = draft.machine.full_slots();
            if full.is_empty() || !dice.one_in(3) {
                continue;
            }
            let lane = dice.from_to(1, 2);
            if !draft.machine.is_busy(lane) {
                let key = dice.pick(&full).2.key;
                let errand = dice.pick(&[Errand::Delete, Errand::Delete, Errand::Read]);
                draft.start(lane, key, errand);
            }
            for _ in 0..dice.from_to(1, 20) {
                if draft.machine.is_busy(lane) {
                    draft.step(lane, dice.byte());
                }
            }
        }
        // Lanes 1 and 2 come to their end.
        for _ in 0..200 {
            for lane in [1, 2] {
                if draft.machine.is_busy(lane) {
                    draft.step(lane, 0);
                }
            }
        }
        if !draft.busy().is_empty() {
            break;
        }
    }
    draft
}

/// Inserts that end walked. Their path comes back to its first place, so keys
/// and bytes are tried on a copy of the table until one ends so.
fn walked(dice: &mut Dice) -> Draft {
    let h = dice.from_to(3, 8);
    let w = dice.from_to(1, 3);
    let l = if dice.one_in(3) { dice.from_to(1, h) } else { h };
    let sizes = [h as u8, w as u8, l as u8, dice.from_to(1, 3) as u8];
    let keys: Vec<u32> = (0..3 * h * w).map(|_| dice.from_to(0, 50 * h) as u32).collect();
    let mut draft = Draft::new(sizes);
    fill(dice, &mut draft, &keys, 2, 10_000);
    for _ in 0..dice.from_to(1, 4) {
        let full = draft.machine.full_slots();
        if full.is_empty() {
            break;
        }
        draft.alone(0, dice.pick(&full).2.key, Errand::Delete, &[]);
        for _ in 0..60 {
            let key = dice.from_to(0, 50 * h) as u32;
            let insert = Errand::Insert { value: key };
            let picks: Vec<u8> = (0..h + 2).map(|_| dice.byte()).collect();
            let mut copy =
                Draft { bytes: Vec::new(), machine: draft.machine.clone(), lanes: draft.lanes };
            if copy.alone(0, key, insert, &picks) == End::InsertWalked {
                draft.alone(0, key, insert, &picks);
                break;
            }
        }
    }
    draft
}

/// A big table, filled as far as the job's length allows.
fn big(dice: &mut Dice) -> Draft {
    let sizes = match dice.from_to(0, 2) {
        0 => [64, 8, 64, 8],
        1 => [64, 1, dice.from_to(1, 64) as u8, 8],
        _ => [dice.from_to(20, 64) as u8, dice.from_to(1, 2) as u8, 20, dice.from_to(1, 8) as u8],
    };
    let keys: Vec<u32> = (0..600).map(|_| dice.next() as u32 % (LAST_KEY + 1)).collect();
    let mut draft = Draft::new(sizes);
    fill(dice, &mut draft, &keys, 2, 40_000);
    let plan = Plan {
        keys,
        inserts: 5,
        deletes: 2,
        starts: dice.from_to(0, 200),
        pace: draw_pace(dice),
        bytes: draw_bytes(dice),
        drain: dice.one_in(2),
        longest: 59_900,
    };
    schedule(dice, &mut draft, &plan);
    draft
}

/// A short or middling good job.
fn any_draft(dice: &mut Dice) -> Draft {
    match dice.from_to(0, 9) {
        0..=3 => mixed(dice),
        4..=6 => crowded(dice),
        7 => full(dice),
        8 => walks(dice),
        _ => walk_disturbed(dice),
    }
}

/// A short good draft.
fn short_draft(dice: &mut Dice, starts: usize) -> Draft {
    let sizes = draw_sizes(dice, 6, 2);
    let plan = Plan {
        keys: draw_keys(dice, sizes, 4),
        inserts: 6,
        deletes: 2,
        starts,
        pace: draw_pace(dice),
        bytes: Bytes::Any,
        drain: false,
        longest: 2000,
    };
    let mut draft = Draft::new(sizes);
    schedule(dice, &mut draft, &plan);
    draft
}

/// One bad record after a good schedule, and bytes after it that no longer
/// count.
fn refused(dice: &mut Dice) -> Vec<u8> {
    let mut draft = if dice.one_in(6) {
        any_draft(dice)
    } else {
        let starts = dice.from_to(0, 12);
        short_draft(dice, starts)
    };
    let errand = dice.pick(&ERRANDS);
    let beyond = dice.pick(&[draft.lanes as u8, draft.lanes as u8 + 1, 8, 9, 127, 128, 255]);
    let beyond = beyond.max(draft.lanes as u8);
    let good_key = dice.next() as u32 % (LAST_KEY + 1);
    let bad_key = match dice.from_to(0, 3) {
        0 => LAST_KEY + 1,
        1 => u32::MAX,
        2 => 1 << dice.from_to(23, 31),
        _ => (LAST_KEY + 1) | dice.next() as u32,
    };
    let any_key = if dice.one_in(2) { good_key } else { bad_key };
    let wanted = dice.from_to(0, 7);
    // Some refusals want a busy lane, some an idle one.
    if wanted == 2 && draft.busy().is_empty() {
        draft.start(0, good_key, errand);
    }
    if matches!(wanted, 3 | 4) {
        // Bring a lane to its end, if none is idle.
        while draft.idle().is_empty() && draft.bytes.len() < 59_000 {
            let lane = dice.pick(&draft.busy());
            draft.step(lane, dice.byte());
        }
        if draft.idle().is_empty() {
            return draft.finish();
        }
    }
    let bad = match wanted {
        // 6, with a good or a bad key.
        0 => start_record(beyond, any_key, errand),
        1 => step_record(beyond, dice.byte()),
        // 7, with a good or a bad key.
        2 => start_record(dice.pick(&draft.busy()) as u8, any_key, errand),
        // 8
        3 => step_record(dice.pick(&draft.idle()) as u8, dice.byte()),
        // 10
        4 => start_record(dice.pick(&draft.idle()) as u8, bad_key, errand),
        // 11: a second kind 1, good or bad; an unknown kind.
        5 => {
            let sizes = draw_sizes(dice, 64, 8);
            sizes_record(dice.pick(&[sizes, [0, 0, 0, 0], [255, 255, 255, 255]]))
        }
        6 => vec![dice.pick(&[0, 7, 8, 16, 128, 255])],
        _ => {
            let kind = dice.byte();
            vec![if (1..=6).contains(&kind) { 0 } else { kind }]
        }
    };
    let mut bytes = draft.bytes;
    bytes.extend(bad);
    match dice.from_to(0, 2) {
        0 => bytes.push(END),
        1 => bytes.extend((0..dice.from_to(0, 30)).map(|_| dice.byte())),
        _ => {}
    }
    bytes
}

/// Sizes of which some are out of limits.
fn bad_sizes(dice: &mut Dice) -> Vec<u8> {
    let mut sizes = draw_sizes(dice, 64, 8);
    let which = dice.from_to(0, 3);
    sizes[which] = match (which, dice.one_in(2)) {
        (0, true) => dice.pick(&[0, 1]),
        (0, false) => dice.from_to(65, 255) as u8,
        (2, false) => dice.from_to(sizes[0] as usize + 1, 255) as u8,
        (_, true) => 0,
        (_, false) => dice.from_to(9, 255) as u8,
    };
    let mut bytes = sizes_record(sizes);
    bytes.extend((0..dice.from_to(0, 12)).map(|_| dice.byte()));
    bytes
}

/// A good job, cut anywhere.
fn cut(dice: &mut Dice) -> Vec<u8> {
    let mut bytes = any_draft(dice).finish();
    bytes.truncate(dice.from_to(0, bytes.len() - 1));
    bytes
}

/// A bad record cut short: 11 before its 1, 6, 7, 8 or 10.
fn bad_and_cut(dice: &mut Dice) -> Vec<u8> {
    let starts = dice.from_to(0, 6);
    let draft = short_draft(dice, starts);
    let mut record = match dice.from_to(0, 2) {
        0 => start_record(dice.byte(), dice.next() as u32, dice.pick(&ERRANDS)),
        1 => step_record(dice.byte(), dice.byte()),
        _ => sizes_record([dice.byte(); 4]),
    };
    record.truncate(dice.from_to(1, record.len() - 1));
    [draft.bytes, record].concat()
}

/// A good job with bytes after its end.
fn bytes_after_the_end(dice: &mut Dice) -> Vec<u8> {
    let mut bytes = any_draft(dice).finish();
    match dice.from_to(0, 2) {
        0 => bytes.push(END),
        1 => bytes.push(dice.byte()),
        _ => bytes.extend((0..dice.from_to(2, 40)).map(|_| dice.byte())),
    }
    bytes
}

/// A good job with a few bytes changed, left out or put in.
fn damaged(dice: &mut Dice) -> Vec<u8> {
    let mut bytes = any_draft(dice).finish();
    for _ in 0..dice.from_to(1, 4) {
        let place = dice.from_to(0, bytes.len() - 1);
        match dice.from_to(0, 3) {
            0 => bytes[place] = dice.byte(),
            1 => bytes[place] ^= 1 << dice.from_to(0, 7),
            2 => bytes.insert(place, dice.byte()),
            _ if bytes.len() > 1 => drop(bytes.remove(place)),
            _ => {}
        }
    }
    bytes
}

/// Good sizes, then low bytes that often are records.
fn noise(dice: &mut Dice) -> Vec<u8> {
    let mut bytes = Vec::new();
    if !dice.one_in(5) {
        bytes = sizes_record(draw_sizes(dice, 8, 3));
    }
    let below = dice.pick(&[3, 7, 8, 255]);
    bytes.extend((0..dice.from_to(0, 200)).map(|_| dice.from_to(0, below) as u8));
    bytes
}

// ------------------------------------------------- jobs at the limit

/// Good records without an end, exactly `length` bytes of them.
fn exactly(dice: &mut Dice, length: usize) -> Vec<u8> {
    let sizes = dice.pick(&[[5, 2, 3, 4], [64, 8, 64, 8], [2, 1, 1, 2], [9, 3, 9, 8]]);
    let slots = sizes[0] as usize * sizes[1] as usize;
    let mut draft = Draft::new(sizes);
    let keys = draw_keys(dice, sizes, slots + 5);
    fill(dice, &mut draft, &keys, 3, 30_000);
    // All records but inserts and sizes are multiples of 3 bytes long, an
    // insert leaves 1 over.
    while (length - draft.bytes.len()) % 3 != 0 {
        draft.alone(0, dice.pick(&keys), Errand::Insert { value: 3 }, &[0, 1, 2, 3]);
    }
    // Lane 0 begins a read and stands still, so that some lane is busy at the
    // end. A read takes at least five steps.
    draft.start(0, 1, Errand::Read);
    while length - draft.bytes.len() > 12 {
        let others: Vec<usize> = draft.busy().into_iter().filter(|lane| *lane != 0).collect();
        if others.is_empty() {
            let lane = dice.from_to(1, draft.lanes - 1);
            draft.start(lane, dice.pick(&keys), dice.pick(&[Errand::Read, Errand::Delete]));
        } else {
            draft.step(dice.pick(&others), dice.byte());
        }
    }
    while draft.bytes.len() < length {
        draft.step(0, 0);
    }
    assert_eq!(draft.bytes.len(), length);
    draft.bytes
}

fn limit_job(dice: &mut Dice, which: usize) -> Vec<u8> {
    let with = |mut bytes: Vec<u8>, more: &[u8]| {
        bytes.extend(more);
        bytes
    };
    match which {
        // Exactly 60,000 bytes: ended; no end; cut by one, by two; a byte after
        // the end; an unknown kind last; a second kind 1 cut short.
        0 => with(exactly(dice, 59_999), &[END]),
        1 => exactly(dice, 60_000),
        2 => with(exactly(dice, 59_998), &[5, 0]),
        3 => with(exactly(dice, 59_999), &[5]),
        4 => with(exactly(dice, 59_998), &[END, END]),
        5 => with(exactly(dice, 59_999), &[9]),
        6 => with(exactly(dice, 59_997), &[1, 2, 1]),
        // 60,001 bytes: ended at the last byte, ended before it, no end, cut.
        7 => with(exactly(dice, 60_000), &[END]),
        8 => with(exactly(dice, 59_999), &[END, END]),
        9 => exactly(dice, 60_001),
        10 => with(exactly(dice, 60_000), &[5]),
        // 59,999 bytes, ended.
        11 => with(exactly(dice, 59_998), &[END]),
        // Longer jobs that are faulty before: only the one line.
        12 => vec![0; 60_001],
        13 => vec![6; 60_002],
        14 => with(vec![1, 1, 1, 1, 1], &vec![6; 60_000]),
        15 => with(exactly(dice, 60_000), &vec![END; 40_000]),
        // 60,000 bytes that are faulty at once.
        16 => vec![6; 60_000],
        17 => vec![0; 60_000],
        18 => with(vec![1, 1, 1, 1, 1], &vec![6; 59_995]),
        _ => with(vec![1, 2, 1, 1, 1, 6], &vec![6; 59_994]),
    }
}

const LIMIT_JOBS: usize = 20;

// ---------------------------------------------------------- fixed jobs

/// Every pick byte on a full table, for keys whose rows are taken in the one
/// order and in the other, and for shared locks. The first row of each key can
/// be told from the walk: one slot far off is free.
fn pick_bytes() -> Vec<Vec<u8>> {
    let mut jobs = Vec::new();
    for byte in (0..=9).chain([127, 128, 254, 255]) {
        for l in [1, 2, 4] {
            let mut draft = Draft::new([4, 2, l, 1]);
            for key in [0, 12, 1, 13, 2, 14, 3, 15, 4, 5, 6, 7] {
                draft.alone(0, key, Errand::Insert { value: key }, &[byte; 6]);
            }
            let full = draft.machine.full_slots();
            for (at, key) in [(1, 9), (3, 8), (5, 22), (0, 25)] {
                draft.alone(0, full[at].2.key, Errand::Delete, &[]);
                draft.alone(0, key, Errand::Insert { value: key }, &[byte; 6]);
            }
            jobs.push(draft.finish());
        }
    }
    jobs
}

/// The tapes with names, then `pick_bytes`.
fn fixed_jobs() -> Vec<Vec<u8>> {
    tapes().into_iter().map(|tape| tape.job).chain(pick_bytes()).collect()
}

// ------------------------------------------------------------- all jobs

/// One short drawn job, to be cut at every byte.
fn job_to_cut(seed: u64) -> Vec<u8> {
    let mut dice = Dice(seed ^ 0x0C07);
    loop {
        let job = short_draft(&mut dice, 6).finish();
        if (150..400).contains(&job.len()) {
            return job;
        }
    }
}

/// Jobs whose indices differ by a multiple of this are of one kind.
pub const DRAWN_KINDS: usize = 24;

pub fn drawn_job(seed: u64, index: usize) -> Vec<u8> {
    let mut dice = Dice(seed.wrapping_mul(0x1_0000_0001).wrapping_add(index as u64) ^ 0xD1CE);
    dice.next();
    let mut dice = Dice(dice.next());
    match index % DRAWN_KINDS {
        0..=2 => mixed(&mut dice).finish(),
        3..=6 => crowded(&mut dice).finish(),
        7 | 8 => full(&mut dice).finish(),
        9 => walked(&mut dice).finish(),
        10..=12 => walks(&mut dice).finish(),
        13 | 14 => walk_disturbed(&mut dice).finish(),
        15..=18 => refused(&mut dice),
        19 => cut(&mut dice),
        20 => bad_and_cut(&mut dice),
        21 => bytes_after_the_end(&mut dice),
        22 => damaged(&mut dice),
        _ => match dice.from_to(0, 7) {
            0..=2 => noise(&mut dice),
            3 | 4 => bad_sizes(&mut dice),
            5 | 6 => big(&mut dice).finish(),
            _ => {
                let which = dice.from_to(0, LIMIT_JOBS - 1);
                limit_job(&mut dice, which)
            }
        },
    }
}

/// The jobs of a seed, one by one.
pub struct Jobs {
    seed: u64,
    fixed: Vec<Vec<u8>>,
    to_cut: Vec<u8>,
}

impl Jobs {
    pub fn new(seed: u64) -> Jobs {
        Jobs { seed, fixed: fixed_jobs(), to_cut: job_to_cut(seed) }
    }

    pub fn job(&self, index: usize) -> Vec<u8> {
        let mut index = index;
        if index < self.fixed.len() {
            return self.fixed[index].clone();
        }
        index -= self.fixed.len();
        if index <= self.to_cut.len() {
            return self.to_cut[..index].to_vec();
        }
        index -= self.to_cut.len() + 1;
        if index < LIMIT_JOBS {
            let mut dice = Dice(self.seed.wrapping_mul(64).wrapping_add(index as u64));
            return limit_job(&mut dice, index);
        }
        drawn_job(self.seed, index - LIMIT_JOBS)
    }
}
