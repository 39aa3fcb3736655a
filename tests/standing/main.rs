// A twin of the definitions under crates/*/specs, and trials of the standing check on it.
// Part one follows the definitions name by name and clause by clause. Part two makes states and tries them.
#![allow(dead_code)]

use std::process::exit;

// ======================================================================== part one: the twin

type Nat = u64;
type List = Vec<Nat>;

// ---- lists

fn cell(k: Nat, xs: &[Nat], i: Nat, f: Nat) -> Nat {
    xs.get((i * k + f) as usize).copied().unwrap_or(0)
}

fn put(k: Nat, xs: &[Nat], i: Nat, vs: &[Nat]) -> List {
    let mut ys = xs.to_vec();
    for (a, v) in vs.iter().enumerate() {
        let at = (i * k) as usize + a;
        if at < ys.len() {
            ys[at] = *v;
        }
    }
    ys
}

fn sum_below(n: Nat, f: impl Fn(Nat) -> Nat) -> Nat {
    (0..n).map(f).sum()
}

fn all_below(n: Nat, p: impl Fn(Nat) -> bool) -> bool {
    (0..n).all(p)
}

fn any_below(n: Nat, p: impl Fn(Nat) -> bool) -> bool {
    (0..n).any(p)
}

fn first_below(n: Nat, p: impl Fn(Nat) -> bool) -> Nat {
    (0..n).find(|i| p(*i)).unwrap_or(n)
}

fn all_of(bs: &[bool]) -> bool {
    bs.iter().all(|b| *b)
}

fn monus(a: Nat, b: Nat) -> Nat {
    a.saturating_sub(b)
}

// ---- places

#[derive(Clone, Copy, PartialEq, Debug)]
struct Sizes {
    rows: Nat,
    columns: Nat,
    locks: Nat,
    lanes: Nat,
}

#[derive(Clone, Copy, PartialEq, Debug)]
struct RowPair {
    first: Nat,
    second: Nat,
    shared: bool,
}

const MIN_ROWS: Nat = 2;
const MAX_ROWS: Nat = 64;
const MAX_COLUMNS: Nat = 8;
const MAX_LANES: Nat = 8;
const MAX_KEY: Nat = 8388607;

fn in_limits(low: Nat, x: Nat, high: Nat) -> bool {
    low <= x && x <= high
}

fn sizes_ok(z: Sizes) -> bool {
    in_limits(MIN_ROWS, z.rows, MAX_ROWS) && in_limits(1, z.columns, MAX_COLUMNS) && in_limits(1, z.locks, z.rows) && in_limits(1, z.lanes, MAX_LANES)
}

fn slot_index(z: Sizes, row: Nat, column: Nat) -> Nat {
    row * z.columns + column
}

fn slot_count(z: Sizes) -> Nat {
    z.rows * z.columns
}

fn row_at(z: Sizes, i: Nat) -> Nat {
    i / z.columns
}

fn home_one(z: Sizes, key: Nat) -> Nat {
    key % z.rows
}

fn home_two(z: Sizes, key: Nat) -> Nat {
    (home_one(z, key) + 1 + key / z.rows % (z.rows - 1)) % z.rows
}

fn lock_of(z: Sizes, row: Nat) -> Nat {
    row % z.locks
}

fn lock_order(z: Sizes, a: Nat, b: Nat) -> RowPair {
    let low = lock_of(z, a) < lock_of(z, b);
    RowPair { first: if low { a } else { b }, second: if low { b } else { a }, shared: lock_of(z, a) == lock_of(z, b) }
}

fn rows_of(z: Sizes, key: Nat) -> RowPair {
    lock_order(z, home_one(z, key), home_two(z, key))
}

// ---- slots

#[derive(Clone, Copy, PartialEq, Debug)]
struct Slot {
    mark: Nat,
    key: Nat,
    value: Nat,
}

fn slot_at(xs: &[Nat], i: Nat) -> Slot {
    Slot { mark: cell(3, xs, i, 0), key: cell(3, xs, i, 1), value: cell(3, xs, i, 2) }
}

fn with_slot(xs: &[Nat], i: Nat, s: Slot) -> List {
    put(3, xs, i, &[s.mark, s.key, s.value])
}

fn is_empty(s: Slot) -> bool {
    s.mark == 0
}

fn is_full(s: Slot) -> bool {
    s.mark == 1
}

const EMPTY_SLOT: Slot = Slot { mark: 0, key: 0, value: 0 };

fn full_slot(key: Nat, value: Nat) -> Slot {
    Slot { mark: 1, key, value }
}

fn holds(s: Slot, key: Nat) -> bool {
    is_full(s) && s.key == key
}

fn bad_shape(s: Slot) -> bool {
    1 < s.mark || MAX_KEY < s.key || (is_empty(s) && (s.key != 0 || s.value != 0))
}

fn strays(z: Sizes, i: Nat, key: Nat) -> bool {
    row_at(z, i) != home_one(z, key) && row_at(z, i) != home_two(z, key)
}

fn stands_below(xs: &[Nat], i: Nat, key: Nat) -> bool {
    any_below(i, |j| holds(slot_at(xs, j), key))
}

fn fault_of(z: Sizes, xs: &[Nat], i: Nat, s: Slot) -> Nat {
    if bad_shape(s) {
        3
    } else if is_full(s) && strays(z, i, s.key) {
        4
    } else if is_full(s) && stands_below(xs, i, s.key) {
        5
    } else {
        0
    }
}

fn is_faulty(z: Sizes, xs: &[Nat], i: Nat) -> bool {
    fault_of(z, xs, i, slot_at(xs, i)) != 0
}

fn lowest_fault(z: Sizes, xs: &[Nat]) -> Nat {
    first_below(slot_count(z), |i| is_faulty(z, xs, i))
}

fn sound(z: Sizes, xs: &[Nat]) -> bool {
    !any_below(slot_count(z), |i| is_faulty(z, xs, i))
}

#[derive(Clone, Copy, PartialEq, Debug)]
struct Finding {
    number: Nat,
    index: Nat,
}

fn finding(number: Nat, index: Nat) -> Finding {
    Finding { number, index }
}

fn opening_fault(z: Sizes, xs: &[Nat]) -> Finding {
    if sound(z, xs) {
        finding(0, 0)
    } else {
        let low = lowest_fault(z, xs);
        finding(fault_of(z, xs, low, slot_at(xs, low)), low)
    }
}

fn bound(z: Sizes, xs: &[Nat], key: Nat) -> Option<Nat> {
    let i = first_below(slot_count(z), |i| holds(slot_at(xs, i), key));
    if i < slot_count(z) {
        Some(slot_at(xs, i).value)
    } else {
        None
    }
}

// ---- locks

#[derive(Clone, Copy, PartialEq, Debug)]
struct Lock {
    flag: Nat,
    count: Nat,
}

#[derive(Clone, Copy, PartialEq, Debug)]
enum Mode {
    Reading,
    Writing,
}
use Mode::*;

#[derive(Clone, Copy, PartialEq, Debug)]
enum Grab {
    R1,
    R2(Nat),
    R3,
    R4,
    W1,
    W2,
}
use Grab::*;

#[derive(Clone, Copy, PartialEq, Debug)]
enum Tried {
    Held,
    Waits(Grab),
}
use Tried::*;

#[derive(Clone, Copy, PartialEq, Debug)]
struct Attempt {
    lock: Lock,
    tried: Tried,
}

#[derive(Clone, Copy, PartialEq, Debug)]
enum Part {
    NoPart,
    Tries(Grab),
    Holds(Mode),
}
use Part::*;

fn lock_at(ls: &[Nat], k: Nat) -> Lock {
    Lock { flag: cell(2, ls, k, 0), count: cell(2, ls, k, 1) }
}

fn with_lock(ls: &[Nat], k: Nat, w: Lock) -> List {
    put(2, ls, k, &[w.flag, w.count])
}

fn with_flag(w: Lock, f: Nat) -> Lock {
    Lock { flag: f, count: w.count }
}

fn with_count(w: Lock, c: Nat) -> Lock {
    Lock { flag: w.flag, count: c }
}

fn held(w: Lock) -> Attempt {
    Attempt { lock: w, tried: Held }
}

fn waits(w: Lock, g: Grab) -> Attempt {
    Attempt { lock: w, tried: Waits(g) }
}

fn grab_of(m: Mode) -> Grab {
    match m {
        Reading => R1,
        Writing => W1,
    }
}

fn try_lock(g: Grab, w: Lock) -> Attempt {
    match g {
        R1 => waits(w, R2(w.count)),
        R2(noted) => {
            if noted == w.count {
                waits(with_count(w, w.count + 1), R3)
            } else {
                waits(w, R1)
            }
        }
        R3 => {
            if w.flag == 0 {
                held(w)
            } else {
                waits(w, R4)
            }
        }
        R4 => waits(with_count(w, monus(w.count, 1)), R1),
        W1 => {
            if w.flag == 0 {
                waits(with_flag(w, 1), W2)
            } else {
                waits(w, W1)
            }
        }
        W2 => {
            if w.count == 0 {
                held(w)
            } else {
                waits(w, W2)
            }
        }
    }
}

fn released(m: Mode, w: Lock) -> Lock {
    match m {
        Reading => with_count(w, monus(w.count, 1)),
        Writing => with_flag(w, 0),
    }
}

fn grab_flag(g: Grab) -> Nat {
    match g {
        R1 | R2(_) | R3 | R4 | W1 => 0,
        W2 => 1,
    }
}

fn mode_flag(m: Mode) -> Nat {
    match m {
        Reading => 0,
        Writing => 1,
    }
}

fn part_flag(p: Part) -> Nat {
    match p {
        NoPart => 0,
        Tries(g) => grab_flag(g),
        Holds(m) => mode_flag(m),
    }
}

fn grab_count(g: Grab) -> Nat {
    match g {
        R3 | R4 => 1,
        R1 | R2(_) | W1 | W2 => 0,
    }
}

fn mode_count(m: Mode) -> Nat {
    match m {
        Reading => 1,
        Writing => 0,
    }
}

fn part_count(p: Part) -> Nat {
    match p {
        NoPart => 0,
        Tries(g) => grab_count(g),
        Holds(m) => mode_count(m),
    }
}

fn part_writes(p: Part) -> Nat {
    match p {
        NoPart | Tries(_) => 0,
        Holds(m) => mode_flag(m),
    }
}

fn part_reads(p: Part) -> Nat {
    match p {
        NoPart | Tries(_) => 0,
        Holds(m) => mode_count(m),
    }
}

// ---- paths

#[derive(Clone, Copy, PartialEq, Debug)]
struct Place {
    row: Nat,
    column: Nat,
    key: Nat,
}

fn path_places(z: Sizes) -> Nat {
    z.rows + 2
}

fn place_at(ps: &[Nat], i: Nat) -> Place {
    Place { row: cell(3, ps, i, 0), column: cell(3, ps, i, 1), key: cell(3, ps, i, 2) }
}

fn with_place(ps: &[Nat], i: Nat, p: Place) -> List {
    put(3, ps, i, &[p.row, p.column, p.key])
}

const NO_PLACE: Place = Place { row: 0, column: 0, key: 0 };

fn emptied(ps: &[Nat]) -> List {
    vec![0; ps.len()]
}

fn last_of(ps: &[Nat], n: Nat) -> Place {
    if n == 0 {
        NO_PLACE
    } else {
        place_at(ps, n - 1)
    }
}

fn other_row(z: Sizes, p: Place) -> Nat {
    if p.row == home_one(z, p.key) {
        home_two(z, p.key)
    } else {
        home_one(z, p.key)
    }
}

// ---- lanes: the record

#[derive(Clone, Copy, PartialEq, Debug)]
enum Op {
    NoOp,
    Read,
    Delete,
    Insert,
    Again,
}
use Op::*;

#[derive(Clone, Copy, PartialEq, Debug)]
enum Side {
    First,
    Second,
}
use Side::*;

#[derive(Clone, Copy, PartialEq, Debug)]
struct Trail {
    picks: Nat,
    places: Nat,
}

#[derive(Clone, Copy, PartialEq, Debug)]
struct Walk {
    places: Nat,
    row: Nat,
    column: Nat,
}

#[derive(Clone, Copy, PartialEq, Debug)]
enum Outcome {
    Hit(Side, Nat, Nat),
    Wrote(Side),
    Filled,
    Miss,
    Picked,
    Stuck,
}
use Outcome::*;

#[derive(Clone, Copy, PartialEq, Debug)]
enum Found {
    Room(Nat),
    Full,
}
use Found::*;

#[derive(Clone, Copy, PartialEq, Debug)]
enum Ending {
    Yes,
    Searched(Nat),
    Walked,
}
use Ending::*;

#[derive(Clone, Copy, PartialEq, Debug)]
enum Stage {
    Idle,
    TakeMain(Grab),
    TakeFirst(Grab),
    SeekFirst(Nat),
    TakeSecond(Grab),
    SeekSecond(Nat),
    RoomFirst(Nat),
    RoomSecond(Nat),
    WriteHit(Side, Nat),
    WriteRoom(Side, Nat),
    Pick,
    DropFirst(Outcome),
    DropSecond(Outcome),
    DropMain(Ending),
    TakeNext(Grab, Trail),
    LookNext(Nat, Trail),
    PickNext(Trail),
    DropNext(Found, Trail),
    TakeLow(Grab, Walk),
    TakeHigh(Grab, Walk),
    Swing(Walk),
    DropLow(Walk),
    DropHigh(Walk),
}
use Stage::*;

#[derive(Clone, Copy, PartialEq, Debug)]
struct Lane {
    op: Op,
    key: Nat,
    value: Nat,
    stage: Stage,
}

const LANE_NUMBERS: Nat = 14;

#[derive(Clone, Copy, PartialEq, Debug)]
struct Words {
    code: Nat,
    grab: Nat,
    noted: Nat,
    side: Nat,
    column: Nat,
    ending: Nat,
    picks: Nat,
    places: Nat,
    free_row: Nat,
    free_column: Nat,
    seen: Nat,
}

fn words(c: Nat, g: Nat, n: Nat, s: Nat, k: Nat, e: Nat, p: Nat, q: Nat, r: Nat, f: Nat) -> Words {
    Words { code: c, grab: g, noted: n, side: s, column: k, ending: e, picks: p, places: q, free_row: r, free_column: f, seen: 0 }
}

fn op_code(op: Op) -> Nat {
    match op {
        NoOp => 0,
        Read => 1,
        Delete => 2,
        Insert => 3,
        Again => 4,
    }
}

fn get_d<T: Copy>(xs: &[T], i: Nat, d: T) -> T {
    xs.get(i as usize).copied().unwrap_or(d)
}

fn op_of(c: Nat) -> Op {
    get_d(&[NoOp, Read, Delete, Insert, Again], c, NoOp)
}

fn grab_code(g: Grab) -> Nat {
    match g {
        R1 => 1,
        R2(_) => 2,
        R3 => 3,
        R4 => 4,
        W1 => 5,
        W2 => 6,
    }
}

fn grab_noted(g: Grab) -> Nat {
    match g {
        R2(noted) => noted,
        R1 | R3 | R4 | W1 | W2 => 0,
    }
}

fn grab_from(c: Nat, noted: Nat) -> Grab {
    get_d(&[R1, R1, R2(noted), R3, R4, W1, W2], c, R1)
}

fn side_code(s: Side) -> Nat {
    match s {
        First => 1,
        Second => 2,
    }
}

fn side_of(c: Nat) -> Side {
    get_d(&[First, First, Second], c, First)
}

fn outcome_words(c: Nat, o: Outcome) -> Words {
    match o {
        Hit(side, column, value) => Words {
            code: c,
            grab: 0,
            noted: 0,
            side: side_code(side),
            column,
            ending: 1,
            picks: 0,
            places: 0,
            free_row: 0,
            free_column: 0,
            seen: value,
        },
        Wrote(side) => words(c, 0, 0, side_code(side), 0, 2, 0, 0, 0, 0),
        Filled => words(c, 0, 0, 0, 0, 3, 0, 0, 0, 0),
        Miss => words(c, 0, 0, 0, 0, 4, 0, 0, 0, 0),
        Picked => words(c, 0, 0, 0, 0, 5, 0, 1, 0, 0),
        Stuck => words(c, 0, 0, 0, 0, 6, 0, 0, 0, 0),
    }
}

fn outcome_of(w: Words) -> Outcome {
    get_d(&[Miss, Hit(side_of(w.side), w.column, w.seen), Wrote(side_of(w.side)), Filled, Miss, Picked, Stuck], w.ending, Miss)
}

fn ending_words(e: Ending) -> Words {
    match e {
        Yes => words(13, 0, 0, 0, 0, 1, 0, 0, 0, 0),
        Searched(places) => words(13, 0, 0, 0, 0, 2, 0, places, 0, 0),
        Walked => words(13, 0, 0, 0, 0, 3, 0, 0, 0, 0),
    }
}

fn ending_of(w: Words) -> Ending {
    get_d(&[Yes, Yes, Searched(w.places), Walked], w.ending, Yes)
}

fn found_words(f: Found, t: Trail) -> Words {
    match f {
        Room(column) => words(17, 0, 0, 0, column, 1, t.picks, t.places, 0, 0),
        Full => words(17, 0, 0, 0, 0, 2, t.picks, t.places, 0, 0),
    }
}

fn found_of(w: Words) -> Found {
    get_d(&[Full, Room(w.column), Full], w.ending, Full)
}

fn walk_words(c: Nat, g: Nat, n: Nat, w: Walk) -> Words {
    words(c, g, n, 0, 0, 0, 0, w.places, w.row, w.column)
}

fn stage_words(s: Stage) -> Words {
    match s {
        Idle => words(0, 0, 0, 0, 0, 0, 0, 0, 0, 0),
        TakeMain(g) => words(1, grab_code(g), grab_noted(g), 0, 0, 0, 0, 0, 0, 0),
        TakeFirst(g) => words(2, grab_code(g), grab_noted(g), 0, 0, 0, 0, 0, 0, 0),
        SeekFirst(column) => words(3, 0, 0, 0, column, 0, 0, 0, 0, 0),
        TakeSecond(g) => words(4, grab_code(g), grab_noted(g), 0, 0, 0, 0, 0, 0, 0),
        SeekSecond(column) => words(5, 0, 0, 0, column, 0, 0, 0, 0, 0),
        RoomFirst(column) => words(6, 0, 0, 0, column, 0, 0, 0, 0, 0),
        RoomSecond(column) => words(7, 0, 0, 0, column, 0, 0, 0, 0, 0),
        WriteHit(side, column) => words(8, 0, 0, side_code(side), column, 0, 0, 0, 0, 0),
        WriteRoom(side, column) => words(9, 0, 0, side_code(side), column, 0, 0, 0, 0, 0),
        Pick => words(10, 0, 0, 0, 0, 0, 0, 0, 0, 0),
        DropFirst(o) => outcome_words(11, o),
        DropSecond(o) => outcome_words(12, o),
        DropMain(e) => ending_words(e),
        TakeNext(g, t) => words(14, grab_code(g), grab_noted(g), 0, 0, 0, t.picks, t.places, 0, 0),
        LookNext(column, t) => words(15, 0, 0, 0, column, 0, t.picks, t.places, 0, 0),
        PickNext(t) => words(16, 0, 0, 0, 0, 0, t.picks, t.places, 0, 0),
        DropNext(f, t) => found_words(f, t),
        TakeLow(g, w) => walk_words(18, grab_code(g), grab_noted(g), w),
        TakeHigh(g, w) => walk_words(19, grab_code(g), grab_noted(g), w),
        Swing(w) => walk_words(20, 0, 0, w),
        DropLow(w) => walk_words(21, 0, 0, w),
        DropHigh(w) => walk_words(22, 0, 0, w),
    }
}

fn trail_of(w: Words) -> Trail {
    Trail { picks: w.picks, places: w.places }
}

fn walk_of(w: Words) -> Walk {
    Walk { places: w.places, row: w.free_row, column: w.free_column }
}

fn stage_of(w: Words) -> Stage {
    match w.code {
        0 => Idle,
        1 => TakeMain(grab_from(w.grab, w.noted)),
        2 => TakeFirst(grab_from(w.grab, w.noted)),
        3 => SeekFirst(w.column),
        4 => TakeSecond(grab_from(w.grab, w.noted)),
        5 => SeekSecond(w.column),
        6 => RoomFirst(w.column),
        7 => RoomSecond(w.column),
        8 => WriteHit(side_of(w.side), w.column),
        9 => WriteRoom(side_of(w.side), w.column),
        10 => Pick,
        11 => DropFirst(outcome_of(w)),
        12 => DropSecond(outcome_of(w)),
        13 => DropMain(ending_of(w)),
        14 => TakeNext(grab_from(w.grab, w.noted), trail_of(w)),
        15 => LookNext(w.column, trail_of(w)),
        16 => PickNext(trail_of(w)),
        17 => DropNext(found_of(w), trail_of(w)),
        18 => TakeLow(grab_from(w.grab, w.noted), walk_of(w)),
        19 => TakeHigh(grab_from(w.grab, w.noted), walk_of(w)),
        20 => Swing(walk_of(w)),
        21 => DropLow(walk_of(w)),
        22 => DropHigh(walk_of(w)),
        _ => Idle,
    }
}

fn numbers_of(l: Lane) -> [Nat; 14] {
    let w = stage_words(l.stage);
    [w.code, op_code(l.op), l.key, l.value, w.grab, w.noted, w.side, w.column, w.ending, w.picks, w.places, w.free_row, w.free_column, w.seen]
}

fn words_at(ls: &[Nat], i: Nat) -> Words {
    Words {
        code: cell(14, ls, i, 0),
        grab: cell(14, ls, i, 4),
        noted: cell(14, ls, i, 5),
        side: cell(14, ls, i, 6),
        column: cell(14, ls, i, 7),
        ending: cell(14, ls, i, 8),
        picks: cell(14, ls, i, 9),
        places: cell(14, ls, i, 10),
        free_row: cell(14, ls, i, 11),
        free_column: cell(14, ls, i, 12),
        seen: cell(14, ls, i, 13),
    }
}

fn lane_at(ls: &[Nat], i: Nat) -> Lane {
    Lane { op: op_of(cell(14, ls, i, 1)), key: cell(14, ls, i, 2), value: cell(14, ls, i, 3), stage: stage_of(words_at(ls, i)) }
}

fn with_lane(ls: &[Nat], i: Nat, l: Lane) -> List {
    put(14, ls, i, &numbers_of(l))
}

fn decodes(ls: &[Nat], i: Nat) -> bool {
    let ns = numbers_of(lane_at(ls, i));
    all_below(LANE_NUMBERS, |f| cell(14, ls, i, f) == ns[f as usize])
}

const IDLE_LANE: Lane = Lane { op: NoOp, key: 0, value: 0, stage: Idle };

// ---- lanes: steps

#[derive(Clone, Copy, PartialEq, Debug)]
enum Tail {
    Keep,
    TakeOff(Nat),
    Clear,
}
use Tail::*;

#[derive(Clone, Copy, PartialEq, Debug)]
enum Act {
    Rest,
    Try(Nat, Grab),
    Release(Nat, Mode, Tail),
    Look(Nat, Nat),
    Store(Nat, Nat, Slot),
    PickOne(Nat, Nat),
    PickFrom(Nat, Nat),
    Move(Place, Nat, Nat),
}
use Act::*;

#[derive(Clone, Copy, PartialEq, Debug)]
struct Seen {
    tried: Tried,
    slot: Slot,
}

#[derive(Clone, Copy, PartialEq, Debug)]
enum Answer {
    GoesOn,
    ReadNone,
    ReadValue(Nat),
    Deleted,
    InsertYes,
    InsertSearched,
    InsertWalked,
}
use Answer::*;

#[derive(Clone, Copy, PartialEq, Debug)]
struct Moved {
    lane: Lane,
    answer: Answer,
}

fn main_lock(z: Sizes) -> Nat {
    z.locks
}

fn mode_of(op: Op) -> Mode {
    match op {
        Read => Reading,
        NoOp | Delete | Insert | Again => Writing,
    }
}

fn row_on(z: Sizes, key: Nat, side: Side) -> Nat {
    match side {
        First => rows_of(z, key).first,
        Second => rows_of(z, key).second,
    }
}

fn shared_rows(z: Sizes, key: Nat) -> bool {
    rows_of(z, key).shared
}

fn swing_rows(z: Sizes, last: Place, w: Walk) -> RowPair {
    lock_order(z, last.row, w.row)
}

fn drops_two(shared: bool, o: Outcome) -> bool {
    match o {
        Hit(First, _, _) | Wrote(First) => false,
        Hit(Second, _, _) | Wrote(Second) | Filled | Miss | Picked | Stuck => !shared,
    }
}

fn outcome_places(o: Outcome) -> Nat {
    match o {
        Picked => 1,
        Hit(..) | Wrote(_) | Filled | Miss | Stuck => 0,
    }
}

fn ending_places(e: Ending) -> Nat {
    match e {
        Searched(places) => places,
        Yes | Walked => 0,
    }
}

fn path_length(s: Stage) -> Nat {
    match s {
        Idle | TakeMain(_) | TakeFirst(_) | SeekFirst(_) | TakeSecond(_) | SeekSecond(_) => 0,
        RoomFirst(_) | RoomSecond(_) | WriteHit(..) | WriteRoom(..) | Pick => 0,
        DropFirst(o) | DropSecond(o) => outcome_places(o),
        DropMain(e) => ending_places(e),
        TakeNext(_, t) | LookNext(_, t) | PickNext(t) | DropNext(_, t) => t.places,
        TakeLow(_, w) | TakeHigh(_, w) | Swing(w) | DropLow(w) | DropHigh(w) => w.places,
    }
}

fn written(op: Op, key: Nat, value: Nat) -> Slot {
    match op {
        NoOp | Read | Delete => EMPTY_SLOT,
        Insert | Again => full_slot(key, value),
    }
}

fn sought_row(z: Sizes, last: Place, f: Found) -> Nat {
    match f {
        Room(_) => other_row(z, last),
        Full => last.row,
    }
}

fn act_at(z: Sizes, l: Lane, last: Place, stage: Stage) -> Act {
    match stage {
        Idle => Rest,
        TakeMain(g) => Try(main_lock(z), g),
        TakeFirst(g) => Try(lock_of(z, row_on(z, l.key, First)), g),
        SeekFirst(column) => Look(row_on(z, l.key, First), column),
        TakeSecond(g) => Try(lock_of(z, row_on(z, l.key, Second)), g),
        SeekSecond(column) => Look(row_on(z, l.key, Second), column),
        RoomFirst(column) => Look(row_on(z, l.key, First), column),
        RoomSecond(column) => Look(row_on(z, l.key, Second), column),
        WriteHit(side, column) => Store(row_on(z, l.key, side), column, written(l.op, l.key, l.value)),
        WriteRoom(side, column) => Store(row_on(z, l.key, side), column, full_slot(l.key, l.value)),
        Pick => PickOne(home_one(z, l.key), home_two(z, l.key)),
        DropFirst(_) => Release(lock_of(z, row_on(z, l.key, First)), mode_of(l.op), Keep),
        DropSecond(_) => Release(lock_of(z, row_on(z, l.key, Second)), mode_of(l.op), Keep),
        DropMain(_) => Release(main_lock(z), Writing, Clear),
        TakeNext(g, _) => Try(lock_of(z, other_row(z, last)), g),
        LookNext(column, _) => Look(other_row(z, last), column),
        PickNext(t) => PickFrom(other_row(z, last), t.places),
        DropNext(f, _) => Release(lock_of(z, sought_row(z, last, f)), Reading, Keep),
        TakeLow(g, w) => Try(lock_of(z, swing_rows(z, last, w).first), g),
        TakeHigh(g, w) => Try(lock_of(z, swing_rows(z, last, w).second), g),
        Swing(w) => Move(last, w.row, w.column),
        DropLow(w) => Release(
            lock_of(z, swing_rows(z, last, w).first),
            Writing,
            if swing_rows(z, last, w).shared { TakeOff(monus(w.places, 1)) } else { Keep },
        ),
        DropHigh(w) => Release(lock_of(z, swing_rows(z, last, w).second), Writing, TakeOff(monus(w.places, 1))),
    }
}

fn act_of(z: Sizes, l: Lane, last: Place) -> Act {
    act_at(z, l, last, l.stage)
}

#[derive(Clone, PartialEq, Debug)]
struct Memory {
    slots: List,
    locks: List,
    path: List,
}

struct Performed {
    memory: Memory,
    seen: Seen,
}

const SAW_NOTHING: Seen = Seen { tried: Held, slot: EMPTY_SLOT };

fn with_slots(m: &Memory, xs: List) -> Memory {
    Memory { slots: xs, locks: m.locks.clone(), path: m.path.clone() }
}

fn with_locks(m: &Memory, ls: List) -> Memory {
    Memory { slots: m.slots.clone(), locks: ls, path: m.path.clone() }
}

fn with_path(m: &Memory, ps: List) -> Memory {
    Memory { slots: m.slots.clone(), locks: m.locks.clone(), path: ps }
}

fn slot_in(z: Sizes, m: &Memory, row: Nat, column: Nat) -> Slot {
    slot_at(&m.slots, slot_index(z, row, column))
}

fn tailed(tail: Tail, ps: &[Nat]) -> List {
    match tail {
        Keep => ps.to_vec(),
        TakeOff(i) => with_place(ps, i, NO_PLACE),
        Clear => emptied(ps),
    }
}

fn place_of(z: Sizes, m: &Memory, row: Nat, column: Nat) -> Place {
    Place { row, column, key: slot_in(z, m, row, column).key }
}

fn swung(z: Sizes, xs: &[Nat], from: Place, row: Nat, column: Nat) -> List {
    let source = slot_index(z, from.row, from.column);
    let target = slot_index(z, row, column);
    if holds(slot_at(xs, source), from.key) && is_empty(slot_at(xs, target)) {
        with_slot(&with_slot(xs, source, EMPTY_SLOT), target, slot_at(xs, source))
    } else {
        xs.to_vec()
    }
}

fn perform(z: Sizes, act: Act, byte: Nat, m: &Memory) -> Performed {
    match act {
        Rest => Performed { memory: m.clone(), seen: SAW_NOTHING },
        Try(k, g) => {
            let a = try_lock(g, lock_at(&m.locks, k));
            Performed { memory: with_locks(m, with_lock(&m.locks, k, a.lock)), seen: Seen { tried: a.tried, slot: EMPTY_SLOT } }
        }
        Release(k, mode, tail) => Performed {
            memory: Memory {
                slots: m.slots.clone(),
                locks: with_lock(&m.locks, k, released(mode, lock_at(&m.locks, k))),
                path: tailed(tail, &m.path),
            },
            seen: SAW_NOTHING,
        },
        Look(row, column) => Performed { memory: m.clone(), seen: Seen { tried: Held, slot: slot_in(z, m, row, column) } },
        Store(row, column, s) => Performed { memory: with_slots(m, with_slot(&m.slots, slot_index(z, row, column), s)), seen: SAW_NOTHING },
        PickOne(one, two) => Performed {
            memory: with_path(m, with_place(&m.path, 0, place_of(z, m, if byte % 2 == 0 { one } else { two }, byte / 2 % z.columns))),
            seen: SAW_NOTHING,
        },
        PickFrom(row, i) => Performed { memory: with_path(m, with_place(&m.path, i, place_of(z, m, row, byte % z.columns))), seen: SAW_NOTHING },
        Move(from, row, column) => Performed { memory: with_slots(m, swung(z, &m.slots, from, row, column)), seen: SAW_NOTHING },
    }
}

fn goes_to(l: Lane, stage: Stage) -> Moved {
    Moved { lane: Lane { op: l.op, key: l.key, value: l.value, stage }, answer: GoesOn }
}

fn ends(a: Answer) -> Moved {
    Moved { lane: IDLE_LANE, answer: a }
}

fn on_try(t: Tried, stay: impl Fn(Grab) -> Stage, next: Stage) -> Stage {
    match t {
        Held => next,
        Waits(g) => stay(g),
    }
}

fn next_column(z: Sizes, column: Nat, at: impl Fn(Nat) -> Stage, next: Stage) -> Stage {
    if column + 1 < z.columns {
        at(column + 1)
    } else {
        next
    }
}

fn on_hit(l: Lane, op: Op, side: Side, column: Nat, s: Slot) -> Moved {
    match op {
        Read => goes_to(l, DropFirst(Hit(side, column, s.value))),
        NoOp | Delete | Insert | Again => goes_to(l, WriteHit(side, column)),
    }
}

fn after_first(z: Sizes, l: Lane) -> Stage {
    if shared_rows(z, l.key) {
        SeekSecond(0)
    } else {
        TakeSecond(grab_of(mode_of(l.op)))
    }
}

fn after_second(op: Op) -> Stage {
    match op {
        NoOp | Read | Delete => DropFirst(Miss),
        Insert | Again => RoomFirst(0),
    }
}

fn after_room(op: Op) -> Stage {
    match op {
        Insert => Pick,
        NoOp | Read | Delete | Again => DropFirst(Stuck),
    }
}

fn after_write(l: Lane, op: Op) -> Moved {
    match op {
        NoOp | Read | Delete => ends(Deleted),
        Insert | Again => goes_to(l, DropMain(Yes)),
    }
}

fn after_miss(op: Op) -> Answer {
    match op {
        Delete => Deleted,
        NoOp | Read | Insert | Again => ReadNone,
    }
}

fn leave(l: Lane, o: Outcome) -> Moved {
    match o {
        Hit(_, _, value) => ends(ReadValue(value)),
        Wrote(_) => after_write(l, l.op),
        Filled => goes_to(l, DropMain(Yes)),
        Miss => ends(after_miss(l.op)),
        Picked => goes_to(l, TakeNext(grab_of(Reading), Trail { picks: 0, places: 1 })),
        Stuck => goes_to(l, DropMain(Walked)),
    }
}

fn insert_end(e: Ending) -> Answer {
    match e {
        Yes => InsertYes,
        Searched(_) => InsertSearched,
        Walked => InsertWalked,
    }
}

fn after_attempt(z: Sizes, last: Place, f: Found, t: Trail) -> Stage {
    match f {
        Room(column) => TakeLow(grab_of(Writing), Walk { places: t.places, row: other_row(z, last), column }),
        Full => {
            if z.rows < t.picks {
                DropMain(Searched(t.places))
            } else {
                TakeNext(grab_of(Reading), t)
            }
        }
    }
}

fn after_swing(l: Lane, last: Place, left: Nat) -> Moved {
    if left == 0 {
        Moved { lane: Lane { op: Again, key: l.key, value: l.value, stage: TakeFirst(grab_of(Writing)) }, answer: GoesOn }
    } else {
        goes_to(l, TakeLow(grab_of(Writing), Walk { places: left, row: last.row, column: last.column }))
    }
}

fn advance_at(z: Sizes, l: Lane, last: Place, seen: Seen, stage: Stage) -> Moved {
    match stage {
        Idle => goes_to(l, Idle),
        TakeMain(_) => goes_to(l, on_try(seen.tried, TakeMain, TakeFirst(grab_of(mode_of(l.op))))),
        TakeFirst(_) => goes_to(l, on_try(seen.tried, TakeFirst, SeekFirst(0))),
        SeekFirst(column) => {
            if holds(seen.slot, l.key) {
                on_hit(l, l.op, First, column, seen.slot)
            } else {
                goes_to(l, next_column(z, column, SeekFirst, after_first(z, l)))
            }
        }
        TakeSecond(_) => goes_to(l, on_try(seen.tried, TakeSecond, SeekSecond(0))),
        SeekSecond(column) => {
            if holds(seen.slot, l.key) {
                on_hit(l, l.op, Second, column, seen.slot)
            } else {
                goes_to(l, next_column(z, column, SeekSecond, after_second(l.op)))
            }
        }
        RoomFirst(column) => goes_to(
            l,
            if is_empty(seen.slot) { WriteRoom(First, column) } else { next_column(z, column, RoomFirst, RoomSecond(0)) },
        ),
        RoomSecond(column) => goes_to(
            l,
            if is_empty(seen.slot) { WriteRoom(Second, column) } else { next_column(z, column, RoomSecond, after_room(l.op)) },
        ),
        WriteHit(side, _) => goes_to(l, DropFirst(Wrote(side))),
        WriteRoom(_, _) => goes_to(l, DropFirst(Filled)),
        Pick => goes_to(l, DropFirst(Picked)),
        DropFirst(o) => {
            if drops_two(shared_rows(z, l.key), o) {
                goes_to(l, DropSecond(o))
            } else {
                leave(l, o)
            }
        }
        DropSecond(o) => leave(l, o),
        DropMain(e) => ends(insert_end(e)),
        TakeNext(_, t) => goes_to(l, on_try(seen.tried, |h| TakeNext(h, t), LookNext(0, t))),
        LookNext(column, t) => goes_to(
            l,
            if is_empty(seen.slot) { DropNext(Room(column), t) } else { next_column(z, column, |c| LookNext(c, t), PickNext(t)) },
        ),
        PickNext(t) => goes_to(l, DropNext(Full, Trail { picks: t.picks + 1, places: t.places + 1 })),
        DropNext(f, t) => goes_to(l, after_attempt(z, last, f, t)),
        TakeLow(_, w) => goes_to(
            l,
            on_try(seen.tried, |h| TakeLow(h, w), if swing_rows(z, last, w).shared { Swing(w) } else { TakeHigh(grab_of(Writing), w) }),
        ),
        TakeHigh(_, w) => goes_to(l, on_try(seen.tried, |h| TakeHigh(h, w), Swing(w))),
        Swing(w) => goes_to(l, DropLow(w)),
        DropLow(w) => {
            if swing_rows(z, last, w).shared {
                after_swing(l, last, monus(w.places, 1))
            } else {
                goes_to(l, DropHigh(w))
            }
        }
        DropHigh(w) => after_swing(l, last, monus(w.places, 1)),
    }
}

fn advance(z: Sizes, l: Lane, last: Place, seen: Seen) -> Moved {
    advance_at(z, l, last, seen, l.stage)
}

struct LaneStepped {
    memory: Memory,
    lane: Lane,
    answer: Answer,
}

fn step_lane(z: Sizes, m: &Memory, l: Lane, byte: Nat) -> LaneStepped {
    let last = last_of(&m.path, path_length(l.stage));
    let p = perform(z, act_of(z, l, last), byte, m);
    let a = advance(z, l, last, p.seen);
    LaneStepped { memory: p.memory, lane: a.lane, answer: a.answer }
}

// ---- lanes: claims

#[derive(Clone, Copy, PartialEq, Debug)]
struct RowClaim {
    row: Nat,
    lacking: Nat,
    full: Nat,
}

#[derive(Clone, Copy, PartialEq, Debug)]
enum SlotClaim {
    NoClaim,
    HasKey(Nat, Nat),
    HasPair(Nat, Nat, Nat),
    HasRoom(Nat, Nat),
}
use SlotClaim::*;

#[derive(Clone, Copy, PartialEq, Debug)]
struct Claims {
    one: RowClaim,
    two: RowClaim,
    slot: SlotClaim,
}

#[derive(Clone, Copy, PartialEq, Debug)]
struct RowPart {
    lock: Nat,
    part: Part,
}

#[derive(Clone, Copy, PartialEq, Debug)]
struct Grip {
    main: Part,
    one: RowPart,
    two: RowPart,
}

fn is_idle_op(op: Op) -> bool {
    op_code(op) == 0
}

fn is_read(op: Op) -> bool {
    op_code(op) == 1
}

fn only_seeks(op: Op) -> bool {
    op_code(op) == 1 || op_code(op) == 2
}

fn writes_hit(op: Op) -> bool {
    1 < op_code(op)
}

fn is_insert(op: Op) -> bool {
    2 < op_code(op)
}

fn is_first_pass(op: Op) -> bool {
    op_code(op) == 3
}

fn is_second_pass(op: Op) -> bool {
    op_code(op) == 4
}

fn grab_in(z: Sizes, m: Mode, g: Grab) -> bool {
    match (m, g) {
        (Reading, R1) => true,
        (Reading, R2(noted)) => noted <= z.lanes,
        (Reading, R3) => true,
        (Reading, R4) => true,
        (Reading, W1) => false,
        (Reading, W2) => false,
        (Writing, R1) => false,
        (Writing, R2(_)) => false,
        (Writing, R3) => false,
        (Writing, R4) => false,
        (Writing, W1) => true,
        (Writing, W2) => true,
    }
}

fn outcome_in(z: Sizes, op: Op, o: Outcome) -> Vec<bool> {
    match o {
        Hit(_, column, _) => vec![is_read(op), column < z.columns],
        Wrote(_) => vec![writes_hit(op)],
        Filled => vec![is_insert(op)],
        Miss => vec![only_seeks(op)],
        Picked => vec![is_first_pass(op)],
        Stuck => vec![is_second_pass(op)],
    }
}

fn ending_in(z: Sizes, op: Op, e: Ending) -> Vec<bool> {
    match e {
        Yes => vec![is_insert(op)],
        Searched(places) => vec![is_first_pass(op), places == z.rows + 2],
        Walked => vec![is_second_pass(op)],
    }
}

fn trail_in(z: Sizes, t: Trail) -> Vec<bool> {
    vec![t.picks <= z.rows, t.places == t.picks + 1]
}

fn found_in(z: Sizes, f: Found, t: Trail) -> Vec<bool> {
    match f {
        Room(column) => cons(&[column < z.columns], trail_in(z, t)),
        Full => vec![1 <= t.picks, t.picks <= z.rows + 1, t.places == t.picks + 1],
    }
}

fn walk_in(z: Sizes, last: Place, w: Walk) -> Vec<bool> {
    vec![1 <= w.places, w.places <= z.rows + 1, w.column < z.columns, w.row == other_row(z, last)]
}

fn cons(a: &[bool], b: Vec<bool>) -> Vec<bool> {
    let mut r = a.to_vec();
    r.extend(b);
    r
}

fn stage_in(z: Sizes, l: Lane, last: Place, stage: Stage) -> Vec<bool> {
    match stage {
        Idle => vec![is_idle_op(l.op), l.key == 0],
        TakeMain(g) => vec![is_first_pass(l.op), grab_in(z, Writing, g)],
        TakeFirst(g) => vec![!is_idle_op(l.op), grab_in(z, mode_of(l.op), g)],
        SeekFirst(column) => vec![!is_idle_op(l.op), column < z.columns],
        TakeSecond(g) => vec![!is_idle_op(l.op), grab_in(z, mode_of(l.op), g), !shared_rows(z, l.key)],
        SeekSecond(column) => vec![!is_idle_op(l.op), column < z.columns],
        RoomFirst(column) => vec![is_insert(l.op), column < z.columns],
        RoomSecond(column) => vec![is_insert(l.op), column < z.columns],
        WriteHit(_, column) => vec![writes_hit(l.op), column < z.columns],
        WriteRoom(_, column) => vec![is_insert(l.op), column < z.columns],
        Pick => vec![is_first_pass(l.op)],
        DropFirst(o) => outcome_in(z, l.op, o),
        DropSecond(o) => cons(&[drops_two(shared_rows(z, l.key), o)], outcome_in(z, l.op, o)),
        DropMain(e) => ending_in(z, l.op, e),
        TakeNext(g, t) => cons(&[is_first_pass(l.op), grab_in(z, Reading, g)], trail_in(z, t)),
        LookNext(column, t) => cons(&[is_first_pass(l.op), column < z.columns], trail_in(z, t)),
        PickNext(t) => cons(&[is_first_pass(l.op)], trail_in(z, t)),
        DropNext(f, t) => cons(&[is_first_pass(l.op)], found_in(z, f, t)),
        TakeLow(g, w) => cons(&[is_first_pass(l.op), grab_in(z, Writing, g)], walk_in(z, last, w)),
        TakeHigh(g, w) => cons(&[is_first_pass(l.op), grab_in(z, Writing, g), !swing_rows(z, last, w).shared], walk_in(z, last, w)),
        Swing(w) => cons(&[is_first_pass(l.op)], walk_in(z, last, w)),
        DropLow(w) => cons(&[is_first_pass(l.op)], walk_in(z, last, w)),
        DropHigh(w) => cons(&[is_first_pass(l.op), !swing_rows(z, last, w).shared], walk_in(z, last, w)),
    }
}

fn lane_in(z: Sizes, l: Lane, last: Place) -> Vec<bool> {
    cons(&[l.key <= MAX_KEY, is_insert(l.op) || l.value == 0], stage_in(z, l, last, l.stage))
}

fn grip(main: Part, lock_one: Nat, one: Part, lock_two: Nat, two: Part) -> Grip {
    Grip { main, one: RowPart { lock: lock_one, part: one }, two: RowPart { lock: lock_two, part: two } }
}

fn main_part(op: Op) -> Part {
    if is_insert(op) {
        Holds(Writing)
    } else {
        NoPart
    }
}

fn second_part(shared: bool, p: Part) -> Part {
    if shared {
        NoPart
    } else {
        p
    }
}

fn pass_grip(z: Sizes, l: Lane, one: Part, two: Part) -> Grip {
    grip(main_part(l.op), lock_of(z, row_on(z, l.key, First)), one, lock_of(z, row_on(z, l.key, Second)), two)
}

fn search_grip(z: Sizes, row: Nat, one: Part) -> Grip {
    grip(Holds(Writing), lock_of(z, row), one, lock_of(z, row), NoPart)
}

fn walk_grip(z: Sizes, last: Place, w: Walk, one: Part, two: Part) -> Grip {
    grip(Holds(Writing), lock_of(z, swing_rows(z, last, w).first), one, lock_of(z, swing_rows(z, last, w).second), two)
}

fn both_rows(z: Sizes, l: Lane) -> Grip {
    pass_grip(z, l, Holds(mode_of(l.op)), second_part(shared_rows(z, l.key), Holds(mode_of(l.op))))
}

fn hit_rows(z: Sizes, l: Lane, side: Side) -> Grip {
    match side {
        First => pass_grip(z, l, Holds(mode_of(l.op)), NoPart),
        Second => both_rows(z, l),
    }
}

fn grip_at(z: Sizes, l: Lane, last: Place, stage: Stage) -> Grip {
    let m = Holds(mode_of(l.op));
    match stage {
        Idle => pass_grip(z, l, NoPart, NoPart),
        TakeMain(g) => grip(Tries(g), main_lock(z), NoPart, main_lock(z), NoPart),
        TakeFirst(g) => pass_grip(z, l, Tries(g), NoPart),
        SeekFirst(_) => pass_grip(z, l, m, NoPart),
        TakeSecond(g) => pass_grip(z, l, m, Tries(g)),
        SeekSecond(_) => both_rows(z, l),
        RoomFirst(_) => both_rows(z, l),
        RoomSecond(_) => both_rows(z, l),
        WriteHit(side, _) => hit_rows(z, l, side),
        WriteRoom(_, _) => both_rows(z, l),
        Pick => both_rows(z, l),
        DropFirst(o) => pass_grip(z, l, m, if drops_two(shared_rows(z, l.key), o) { m } else { NoPart }),
        DropSecond(_) => pass_grip(z, l, NoPart, m),
        DropMain(_) => pass_grip(z, l, NoPart, NoPart),
        TakeNext(g, _) => search_grip(z, other_row(z, last), Tries(g)),
        LookNext(_, _) => search_grip(z, other_row(z, last), Holds(Reading)),
        PickNext(_) => search_grip(z, other_row(z, last), Holds(Reading)),
        DropNext(f, _) => search_grip(z, sought_row(z, last, f), Holds(Reading)),
        TakeLow(g, w) => walk_grip(z, last, w, Tries(g), NoPart),
        TakeHigh(g, w) => walk_grip(z, last, w, Holds(Writing), Tries(g)),
        Swing(w) => walk_grip(z, last, w, Holds(Writing), second_part(swing_rows(z, last, w).shared, Holds(Writing))),
        DropLow(w) => walk_grip(z, last, w, Holds(Writing), second_part(swing_rows(z, last, w).shared, Holds(Writing))),
        DropHigh(w) => walk_grip(z, last, w, NoPart, Holds(Writing)),
    }
}

fn grip_of(z: Sizes, l: Lane, last: Place) -> Grip {
    grip_at(z, l, last, l.stage)
}

fn on_lock(k: Nat, lock: Nat, n: Nat) -> Nat {
    if k == lock {
        n
    } else {
        0
    }
}

fn share(z: Sizes, f: fn(Part) -> Nat, g: Grip, k: Nat) -> Nat {
    on_lock(k, main_lock(z), f(g.main)) + on_lock(k, g.one.lock, f(g.one.part)) + on_lock(k, g.two.lock, f(g.two.part))
}

fn row_claim(row: Nat, lacking: Nat, full: Nat) -> RowClaim {
    RowClaim { row, lacking, full }
}

fn no_claims() -> Claims {
    Claims { one: row_claim(0, 0, 0), two: row_claim(0, 0, 0), slot: NoClaim }
}

fn pass_claims(z: Sizes, l: Lane, lack_one: Nat, lack_two: Nat, full_one: Nat, full_two: Nat, s: SlotClaim) -> Claims {
    Claims { one: row_claim(row_on(z, l.key, First), lack_one, full_one), two: row_claim(row_on(z, l.key, Second), lack_two, full_two), slot: s }
}

fn search_claims(row: Nat, full: Nat, s: SlotClaim) -> Claims {
    Claims { one: row_claim(row, 0, full), two: row_claim(0, 0, 0), slot: s }
}

fn drop_claims(z: Sizes, l: Lane, o: Outcome) -> Claims {
    let w = z.columns;
    match o {
        Hit(side, column, value) => pass_claims(z, l, 0, 0, 0, 0, HasPair(row_on(z, l.key, side), column, value)),
        Wrote(_) => no_claims(),
        Filled => no_claims(),
        Miss => pass_claims(z, l, w, w, 0, 0, NoClaim),
        Picked => pass_claims(z, l, w, w, w, w, NoClaim),
        Stuck => pass_claims(z, l, w, w, w, w, NoClaim),
    }
}

fn late_claims(z: Sizes, l: Lane, o: Outcome) -> Claims {
    let w = z.columns;
    match o {
        Hit(side, column, value) => pass_claims(z, l, 0, 0, 0, 0, HasPair(row_on(z, l.key, side), column, value)),
        Wrote(_) => no_claims(),
        Filled => no_claims(),
        Miss => pass_claims(z, l, 0, w, 0, 0, NoClaim),
        Picked => pass_claims(z, l, 0, w, 0, w, NoClaim),
        Stuck => pass_claims(z, l, 0, w, 0, w, NoClaim),
    }
}

fn room_claims(z: Sizes, l: Lane, side: Side, column: Nat) -> Claims {
    let w = z.columns;
    match side {
        First => pass_claims(z, l, w, w, column, 0, HasRoom(row_on(z, l.key, First), column)),
        Second => pass_claims(z, l, w, w, w, column, HasRoom(row_on(z, l.key, Second), column)),
    }
}

fn found_claims(z: Sizes, last: Place, f: Found) -> Claims {
    match f {
        Room(column) => search_claims(other_row(z, last), column, HasRoom(other_row(z, last), column)),
        Full => search_claims(last.row, z.columns, NoClaim),
    }
}

fn claims_at(z: Sizes, l: Lane, last: Place, stage: Stage) -> Claims {
    let w = z.columns;
    match stage {
        Idle => no_claims(),
        TakeMain(_) => no_claims(),
        TakeFirst(_) => no_claims(),
        SeekFirst(column) => pass_claims(z, l, column, 0, 0, 0, NoClaim),
        TakeSecond(_) => pass_claims(z, l, w, 0, 0, 0, NoClaim),
        SeekSecond(column) => pass_claims(z, l, w, column, 0, 0, NoClaim),
        RoomFirst(column) => pass_claims(z, l, w, w, column, 0, NoClaim),
        RoomSecond(column) => pass_claims(z, l, w, w, w, column, NoClaim),
        WriteHit(side, column) => pass_claims(z, l, 0, 0, 0, 0, HasKey(row_on(z, l.key, side), column)),
        WriteRoom(side, column) => room_claims(z, l, side, column),
        Pick => pass_claims(z, l, w, w, w, w, NoClaim),
        DropFirst(o) => drop_claims(z, l, o),
        DropSecond(o) => late_claims(z, l, o),
        DropMain(_) => no_claims(),
        TakeNext(_, _) => no_claims(),
        LookNext(column, _) => search_claims(other_row(z, last), column, NoClaim),
        PickNext(_) => search_claims(other_row(z, last), w, NoClaim),
        DropNext(f, _) => found_claims(z, last, f),
        TakeLow(..) | TakeHigh(..) | Swing(_) | DropLow(_) | DropHigh(_) => no_claims(),
    }
}

fn claims_of(z: Sizes, l: Lane, last: Place) -> Claims {
    claims_at(z, l, last, l.stage)
}

// ---- desk: standing

#[derive(Clone, PartialEq, Debug)]
struct Table {
    slots: List,
    locks: List,
    lanes: List,
    path: List,
}

fn last_at(t: &Table, j: Nat) -> Place {
    last_of(&t.path, path_length(lane_at(&t.lanes, j).stage))
}

fn parts_in(z: Sizes, f: fn(Part) -> Nat, t: &Table, k: Nat) -> Nat {
    sum_below(z.lanes, |j| share(z, f, grip_of(z, lane_at(&t.lanes, j), last_at(t, j)), k))
}

fn lock_stands(z: Sizes, t: &Table, k: Nat) -> bool {
    lock_at(&t.locks, k).flag == parts_in(z, part_flag, t, k)
        && parts_in(z, part_flag, t, k) <= 1
        && lock_at(&t.locks, k).count == parts_in(z, part_count, t, k)
        && (parts_in(z, part_writes, t, k) == 0 || parts_in(z, part_reads, t, k) == 0)
}

fn place_stands(z: Sizes, p: Place) -> bool {
    p.row < z.rows && p.column < z.columns && p.key <= MAX_KEY && (p.row == home_one(z, p.key) || p.row == home_two(z, p.key))
}

fn linked(z: Sizes, ps: &[Nat], i: Nat) -> bool {
    place_at(ps, i + 1).row == other_row(z, place_at(ps, i))
}

fn unused(ps: &[Nat], i: Nat) -> bool {
    place_at(ps, i).row == 0 && place_at(ps, i).column == 0 && place_at(ps, i).key == 0
}

fn path_used(z: Sizes, t: &Table) -> Nat {
    sum_below(z.lanes, |j| path_length(lane_at(&t.lanes, j).stage))
}

fn path_stands(z: Sizes, t: &Table) -> bool {
    let n = path_used(z, t);
    all_below(n, |i| place_stands(z, place_at(&t.path, i)))
        && all_below(monus(n, 1), |i| linked(z, &t.path, i))
        && all_below(path_places(z), |i| i < n || unused(&t.path, i))
}

fn row_stands(z: Sizes, xs: &[Nat], key: Nat, c: RowClaim) -> bool {
    all_below(c.lacking, |i| !holds(slot_at(xs, slot_index(z, c.row, i)), key)) && all_below(c.full, |i| is_full(slot_at(xs, slot_index(z, c.row, i))))
}

fn slot_stands(z: Sizes, xs: &[Nat], key: Nat, s: SlotClaim) -> bool {
    match s {
        NoClaim => true,
        HasKey(row, column) => holds(slot_at(xs, slot_index(z, row, column)), key),
        HasPair(row, column, value) => holds(slot_at(xs, slot_index(z, row, column)), key) && slot_at(xs, slot_index(z, row, column)).value == value,
        HasRoom(row, column) => is_empty(slot_at(xs, slot_index(z, row, column))),
    }
}

fn claim_tests(z: Sizes, xs: &[Nat], key: Nat, c: Claims) -> [bool; 3] {
    [row_stands(z, xs, key, c.one), row_stands(z, xs, key, c.two), slot_stands(z, xs, key, c.slot)]
}

fn lane_stands(z: Sizes, t: &Table, j: Nat) -> bool {
    decodes(&t.lanes, j) && all_of(&lane_in(z, lane_at(&t.lanes, j), last_at(t, j))) && {
        let l = lane_at(&t.lanes, j);
        all_of(&claim_tests(z, &t.slots, l.key, claims_of(z, l, last_at(t, j))))
    }
}

fn standing(z: Sizes, t: &Table) -> bool {
    sound(z, &t.slots) && all_below(z.lanes, |j| lane_stands(z, t, j)) && path_stands(z, t) && all_below(z.locks + 1, |k| lock_stands(z, t, k))
}

// ---- desk: calls

fn lengths_ok(z: Sizes, t: &Table) -> bool {
    t.slots.len() as Nat == slot_count(z) * 3
        && t.locks.len() as Nat == (z.locks + 1) * 2
        && t.lanes.len() as Nat == z.lanes * LANE_NUMBERS
        && t.path.len() as Nat == path_places(z) * 3
}

fn opened(t: &Table) -> Table {
    Table { slots: t.slots.clone(), locks: emptied(&t.locks), lanes: emptied(&t.lanes), path: emptied(&t.path) }
}

fn opening_number(z: Sizes, t: &Table) -> Finding {
    if !sizes_ok(z) {
        finding(1, 0)
    } else if !lengths_ok(z, t) {
        finding(2, 0)
    } else {
        opening_fault(z, &t.slots)
    }
}

fn after_opening(z: Sizes, t: &Table) -> Table {
    if opening_number(z, t).number == 0 {
        opened(t)
    } else {
        t.clone()
    }
}

#[derive(Clone, Copy, PartialEq, Debug)]
enum Request {
    AskRead(Nat),
    AskDelete(Nat),
    AskInsert(Nat, Nat),
}
use Request::*;

#[derive(Clone, Copy, PartialEq, Debug)]
enum Started {
    StartAccepted,
    StartBadSizes,
    StartBadLengths,
    StartNotStanding,
    StartNoLane,
    StartBusy,
    StartBadKey,
}
use Started::*;

#[derive(Clone, Copy, PartialEq, Debug)]
enum Stepped {
    StepDone(Answer),
    StepBadSizes,
    StepBadLengths,
    StepNotStanding,
    StepNoLane,
    StepIdle,
}
use Stepped::*;

fn key_of(r: Request) -> Nat {
    match r {
        AskRead(key) | AskDelete(key) | AskInsert(key, _) => key,
    }
}

fn begun(r: Request) -> Lane {
    match r {
        AskRead(key) => Lane { op: Read, key, value: 0, stage: TakeFirst(grab_of(Reading)) },
        AskDelete(key) => Lane { op: Delete, key, value: 0, stage: TakeFirst(grab_of(Writing)) },
        AskInsert(key, value) => Lane { op: Insert, key, value, stage: TakeMain(grab_of(Writing)) },
    }
}

fn start_answer(z: Sizes, t: &Table, j: Nat, r: Request) -> Started {
    if !sizes_ok(z) {
        StartBadSizes
    } else if !lengths_ok(z, t) {
        StartBadLengths
    } else if !standing(z, t) {
        StartNotStanding
    } else if !(j < z.lanes) {
        StartNoLane
    } else if !is_idle_op(lane_at(&t.lanes, j).op) {
        StartBusy
    } else if MAX_KEY < key_of(r) {
        StartBadKey
    } else {
        StartAccepted
    }
}

fn start_number(s: Started) -> Nat {
    match s {
        StartAccepted => 0,
        StartBadSizes => 1,
        StartBadLengths => 2,
        StartNotStanding => 9,
        StartNoLane => 6,
        StartBusy => 7,
        StartBadKey => 10,
    }
}

fn started(t: &Table, j: Nat, r: Request) -> Table {
    Table { slots: t.slots.clone(), locks: t.locks.clone(), lanes: with_lane(&t.lanes, j, begun(r)), path: t.path.clone() }
}

fn after_start(z: Sizes, t: &Table, j: Nat, r: Request) -> Table {
    if start_number(start_answer(z, t, j, r)) == 0 {
        started(t, j, r)
    } else {
        t.clone()
    }
}

fn memory_of(t: &Table) -> Memory {
    Memory { slots: t.slots.clone(), locks: t.locks.clone(), path: t.path.clone() }
}

struct Turn {
    table: Table,
    answer: Answer,
}

fn turned(z: Sizes, t: &Table, j: Nat, byte: Nat) -> Turn {
    let s = step_lane(z, &memory_of(t), lane_at(&t.lanes, j), byte);
    Turn {
        table: Table { slots: s.memory.slots, locks: s.memory.locks, lanes: with_lane(&t.lanes, j, s.lane), path: s.memory.path },
        answer: s.answer,
    }
}

fn step_answer(z: Sizes, t: &Table, j: Nat, byte: Nat) -> Stepped {
    if !sizes_ok(z) {
        StepBadSizes
    } else if !lengths_ok(z, t) {
        StepBadLengths
    } else if !standing(z, t) {
        StepNotStanding
    } else if !(j < z.lanes) {
        StepNoLane
    } else if is_idle_op(lane_at(&t.lanes, j).op) {
        StepIdle
    } else {
        StepDone(turned(z, t, j, byte).answer)
    }
}

fn step_number(s: Stepped) -> Nat {
    match s {
        StepDone(_) => 0,
        StepBadSizes => 1,
        StepBadLengths => 2,
        StepNotStanding => 9,
        StepNoLane => 6,
        StepIdle => 8,
    }
}

fn after_step(z: Sizes, t: &Table, j: Nat, byte: Nat) -> Table {
    if step_number(step_answer(z, t, j, byte)) == 0 {
        turned(z, t, j, byte).table
    } else {
        t.clone()
    }
}

// ======================================================================== part two: the trials

struct Rng(u64);

impl Rng {
    fn next(&mut self) -> u64 {
        self.0 = self.0.wrapping_add(0x9E37_79B9_7F4A_7C15);
        let mut x = self.0;
        x = (x ^ (x >> 30)).wrapping_mul(0xBF58_476D_1CE4_E5B9);
        x = (x ^ (x >> 27)).wrapping_mul(0x94D0_49BB_1331_11EB);
        x ^ (x >> 31)
    }
    fn below(&mut self, n: Nat) -> Nat {
        (self.next() >> 11) % n
    }
    fn chance(&mut self, a: Nat, b: Nat) -> bool {
        self.below(b) < a
    }
    fn of<T: Copy>(&mut self, xs: &[T]) -> T {
        xs[self.below(xs.len() as Nat) as usize]
    }
}

// ---- counts

const LABELS: usize = 230;
const STAGE_NAMES: [&str; 23] = [
    "Idle", "TakeMain", "TakeFirst", "SeekFirst", "TakeSecond", "SeekSecond", "RoomFirst", "RoomSecond", "WriteHit", "WriteRoom", "Pick", "DropFirst",
    "DropSecond", "DropMain", "TakeNext", "LookNext", "PickNext", "DropNext", "TakeLow", "TakeHigh", "Swing", "DropLow", "DropHigh",
];
const OP_NAMES: [&str; 5] = ["NoOp", "Read", "Delete", "Insert", "Again"];
const ANSWER_NAMES: [&str; 7] = ["GoesOn", "ReadNone", "ReadValue", "Deleted", "InsertYes", "InsertSearched", "InsertWalked"];
const SWING_NAMES: [&str; 4] = ["moved", "skipped, source no longer holds the key", "skipped, target full", "skipped, both"];

fn code(s: Stage) -> usize {
    stage_words(s).code as usize
}

fn label(s: Stage) -> usize {
    code(s) * 10
        + match s {
            TakeMain(g) | TakeFirst(g) | TakeSecond(g) | TakeNext(g, _) | TakeLow(g, _) | TakeHigh(g, _) => grab_code(g) as usize,
            WriteHit(side, _) | WriteRoom(side, _) => side_code(side) as usize,
            DropFirst(o) | DropSecond(o) => match o {
                Hit(First, _, _) => 1,
                Hit(Second, _, _) => 2,
                Wrote(First) => 3,
                Wrote(Second) => 4,
                Filled => 5,
                Miss => 6,
                Picked => 7,
                Stuck => 8,
            },
            DropMain(e) => match e {
                Yes => 1,
                Searched(_) => 2,
                Walked => 3,
            },
            DropNext(f, _) => match f {
                Room(_) => 1,
                Full => 2,
            },
            _ => 0,
        }
}

fn label_name(b: usize) -> String {
    let sub = b % 10;
    let tail = match b / 10 {
        1 | 2 | 4 | 14 | 18 | 19 => ["", "R1", "R2", "R3", "R4", "W1", "W2"][sub],
        8 | 9 => ["", "First", "Second"][sub],
        11 | 12 => ["", "Hit First", "Hit Second", "Wrote First", "Wrote Second", "Filled", "Miss", "Picked", "Stuck"][sub],
        13 => ["", "Yes", "Searched", "Walked"][sub],
        17 => ["", "Room", "Full"][sub],
        _ => "",
    };
    if tail.is_empty() {
        STAGE_NAMES[b / 10].to_string()
    } else {
        format!("{} {}", STAGE_NAMES[b / 10], tail)
    }
}

struct Stats {
    ways: Vec<u64>,
    stages: [u64; 23],
    stage_ops: [[u64; 5]; 23],
    answers: [u64; 7],
    swings: [u64; 4],
    beside: [[u64; 23]; 23],
    steps: u64,
    starts: u64,
}

impl Stats {
    fn new() -> Stats {
        Stats {
            ways: vec![0; LABELS * LABELS],
            stages: [0; 23],
            stage_ops: [[0; 5]; 23],
            answers: [0; 7],
            swings: [0; 4],
            beside: [[0; 23]; 23],
            steps: 0,
            starts: 0,
        }
    }
}

fn answer_index(a: Answer) -> usize {
    match a {
        GoesOn => 0,
        ReadNone => 1,
        ReadValue(_) => 2,
        Deleted => 3,
        InsertYes => 4,
        InsertSearched => 5,
        InsertWalked => 6,
    }
}

// ---- the facts tried at a step and at a start

// which clause of standing fails
fn why(z: Sizes, t: &Table) -> String {
    if !sound(z, &t.slots) {
        return format!("slots not sound: {:?}", opening_fault(z, &t.slots));
    }
    for j in 0..z.lanes {
        let l = lane_at(&t.lanes, j);
        let last = last_at(t, j);
        if !decodes(&t.lanes, j) {
            return format!("lane {} does not decode", j);
        }
        if !all_of(&lane_in(z, l, last)) {
            return format!("lane {} out of range: {:?} last {:?} tests {:?}", j, l, last, lane_in(z, l, last));
        }
        let c = claims_of(z, l, last);
        if !all_of(&claim_tests(z, &t.slots, l.key, c)) {
            return format!("lane {} claims fail: {:?} claims {:?} tests {:?}", j, l, c, claim_tests(z, &t.slots, l.key, c));
        }
    }
    if !path_stands(z, t) {
        return format!("path does not stand, {} places used", path_used(z, t));
    }
    for k in 0..z.locks + 1 {
        if !lock_stands(z, t, k) {
            return format!(
                "lock {}: {:?}, parts flag {} count {} writes {} reads {}",
                k,
                lock_at(&t.locks, k),
                parts_in(z, part_flag, t, k),
                parts_in(z, part_count, t, k),
                parts_in(z, part_writes, t, k),
                parts_in(z, part_reads, t, k)
            );
        }
    }
    "stands".to_string()
}

// a lane has at most one part in a lock, and claims something only of rows whose lock it holds
fn claims_held(z: Sizes, t: &Table, j: Nat) -> Result<(), String> {
    let l = lane_at(&t.lanes, j);
    let last = last_at(t, j);
    let c = claims_of(z, l, last);
    let g = grip_of(z, l, last);
    for k in 0..z.locks + 1 {
        if share(z, part_flag, g, k) + share(z, part_count, g, k) > 1 {
            return Err(format!("lane {} {:?} has two parts in lock {}", j, l, k));
        }
    }
    let has = |row: Nat| row < z.rows && share(z, part_writes, g, lock_of(z, row)) + share(z, part_reads, g, lock_of(z, row)) >= 1;
    for r in [c.one, c.two] {
        if (r.lacking > 0 || r.full > 0) && !has(r.row) {
            return Err(format!("lane {} {:?} claims row {} whose lock it does not hold", j, l, r.row));
        }
    }
    match c.slot {
        NoClaim => {}
        HasKey(row, column) | HasPair(row, column, _) | HasRoom(row, column) => {
            if !has(row) || column >= z.columns {
                return Err(format!("lane {} {:?} claims slot {} {} whose lock it does not hold", j, l, row, column));
            }
        }
    }
    Ok(())
}

fn changed(a: &[Nat], b: &[Nat]) -> Vec<Nat> {
    (0..a.len()).filter(|i| a[*i] != b[*i]).map(|i| i as Nat).collect()
}

fn act_in_range(z: Sizes, act: Act) -> bool {
    match act {
        Rest => false,
        Try(k, _) => k <= z.locks,
        Release(k, _, tail) => {
            k <= z.locks
                && match tail {
                    TakeOff(i) => i < path_places(z),
                    _ => true,
                }
        }
        Look(row, column) => row < z.rows && column < z.columns,
        Store(row, column, _) => row < z.rows && column < z.columns,
        PickOne(one, two) => one < z.rows && two < z.rows,
        PickFrom(row, i) => row < z.rows && i < path_places(z),
        Move(from, row, column) => from.row < z.rows && from.column < z.columns && row < z.rows && column < z.columns && from.row != row,
    }
}

// t stands, lane j is busy
fn check_step(z: Sizes, t: &Table, j: Nat, byte: Nat, stats: Option<&mut Stats>) -> Result<(Table, Answer), String> {
    let l = lane_at(&t.lanes, j);
    let last = last_at(t, j);
    let act = act_of(z, l, last);
    let g = grip_of(z, l, last);
    if !act_in_range(z, act) {
        return Err(format!("act out of range: {:?}", act));
    }
    let turn = turned(z, t, j, byte);
    let u = turn.table;
    let after = lane_at(&u.lanes, j);
    if !lengths_ok(z, &u) {
        return Err("a length changed".to_string());
    }
    for i in 0..z.lanes {
        if !decodes(&u.lanes, i) {
            return Err(format!("lane {} does not decode", i));
        }
        if i != j && (0..14).any(|f| cell(14, &t.lanes, i, f) != cell(14, &u.lanes, i, f)) {
            return Err(format!("lane {} changed by a step of lane {}", i, j));
        }
    }
    if !standing(z, &u) {
        return Err(format!("standing is not kept: {}", why(z, &u)));
    }
    // locks: at most one word, of the lock that the act names
    let words = changed(&t.locks, &u.locks);
    let named = match act {
        Try(k, _) | Release(k, _, _) => Some(k),
        _ => None,
    };
    if words.len() > 1 || words.iter().any(|i| Some(i / 2) != named) {
        return Err(format!("lock words {:?} changed by {:?}", words, act));
    }
    // slots: those that the act names, in rows held for writing
    let mut touched: Vec<Nat> = changed(&t.slots, &u.slots).iter().map(|i| i / 3).collect();
    touched.dedup();
    let allowed: Vec<Nat> = match act {
        Store(row, column, _) => vec![slot_index(z, row, column)],
        Move(from, row, column) => vec![slot_index(z, from.row, from.column), slot_index(z, row, column)],
        _ => vec![],
    };
    if touched.iter().any(|i| !allowed.contains(i)) {
        return Err(format!("slots {:?} changed by {:?}", touched, act));
    }
    for i in &touched {
        if share(z, part_writes, g, lock_of(z, row_at(z, *i))) != 1 {
            return Err(format!("slot {} changed though its row is not held for writing", i));
        }
    }
    if let Store(row, ..) = act {
        if share(z, part_writes, g, lock_of(z, row)) != 1 {
            return Err("store in a row not held for writing".to_string());
        }
    }
    if let Look(row, _) = act {
        if share(z, part_writes, g, lock_of(z, row)) + share(z, part_reads, g, lock_of(z, row)) != 1 {
            return Err("look in a row not held".to_string());
        }
    }
    // path: by main's holder only
    if t.path != u.path {
        if share(z, part_writes, g, main_lock(z)) != 1 {
            return Err("path changed by a lane that does not hold main".to_string());
        }
        match act {
            PickOne(..) | PickFrom(..) | Release(_, _, TakeOff(_)) | Release(_, _, Clear) => {}
            _ => return Err(format!("path changed by {:?}", act)),
        }
    }
    // answer
    let idle = after.stage == Idle;
    if (turn.answer == GoesOn) == idle {
        return Err(format!("answer {:?} and lane {:?}", turn.answer, after));
    }
    if idle && (0..14).any(|f| cell(14, &u.lanes, j, f) != 0) {
        return Err("an ended lane's numbers are not 0".to_string());
    }
    if let ReadValue(v) = turn.answer {
        if bound(z, &t.slots, l.key) != Some(v) {
            return Err("a read answers what is not bound".to_string());
        }
    }
    // bindings
    let mut keys: Vec<Nat> = (0..slot_count(z)).flat_map(|i| [slot_at(&t.slots, i), slot_at(&u.slots, i)]).filter(|s| is_full(*s)).map(|s| s.key).collect();
    keys.push(l.key);
    keys.sort();
    keys.dedup();
    if t.slots != u.slots || matches!(l.stage, WriteHit(..) | WriteRoom(..)) {
        for key in keys {
            let b = bound(z, &t.slots, key);
            let a = bound(z, &u.slots, key);
            if key == l.key && matches!(l.stage, WriteHit(..) | WriteRoom(..)) {
                let was = if matches!(l.stage, WriteHit(..)) { b.is_some() } else { b.is_none() };
                let want = if l.op == Delete { None } else { Some(l.value) };
                if !was || a != want {
                    return Err(format!("binding of {} from {:?} to {:?} at a write", key, b, a));
                }
            } else if a != b {
                return Err(format!("binding of {} from {:?} to {:?}", key, b, a));
            }
        }
    }
    for i in 0..z.lanes {
        claims_held(z, &u, i)?;
    }
    if let Some(s) = stats {
        s.steps += 1;
        s.ways[label(l.stage) * LABELS + label(after.stage)] += 1;
        s.stages[code(l.stage)] += 1;
        s.stage_ops[code(l.stage)][op_code(l.op) as usize] += 1;
        s.answers[answer_index(turn.answer)] += 1;
        if let Swing(w) = l.stage {
            let source = holds(slot_at(&t.slots, slot_index(z, last.row, last.column)), last.key);
            let target = is_empty(slot_at(&t.slots, slot_index(z, w.row, w.column)));
            s.swings[(if source { 0 } else { 1 }) + (if target { 0 } else { 2 })] += 1;
        }
        for i in 0..z.lanes {
            if i != j {
                s.beside[code(l.stage)][code(lane_at(&t.lanes, i).stage)] += 1;
            }
        }
    }
    Ok((u, turn.answer))
}

// t stands, lane j is idle, the key is in range
fn check_start(z: Sizes, t: &Table, j: Nat, r: Request) -> Result<Table, String> {
    let u = started(t, j, r);
    if !standing(z, &u) {
        return Err(format!("standing is not kept by a start: {}", why(z, &u)));
    }
    if !lengths_ok(z, &u) || u.slots != t.slots || u.locks != t.locks || u.path != t.path {
        return Err("a start changed more than its lane".to_string());
    }
    for i in 0..z.lanes {
        if i != j && (0..14).any(|f| cell(14, &t.lanes, i, f) != cell(14, &u.lanes, i, f)) {
            return Err(format!("lane {} changed by a start of lane {}", i, j));
        }
        claims_held(z, &u, i)?;
    }
    Ok(u)
}

// ---- failing

fn print_table(z: Sizes, t: &Table) {
    println!("  sizes H {} W {} L {} N {}", z.rows, z.columns, z.locks, z.lanes);
    println!("  slots {:?}", t.slots);
    println!("  locks {:?}", t.locks);
    println!("  lanes {:?}", t.lanes);
    println!("  path  {:?}", t.path);
    for j in 0..z.lanes {
        println!("  lane {}: {:?} last {:?}", j, lane_at(&t.lanes, j), last_at(t, j));
    }
}

fn fail(text: &str) -> ! {
    println!("FAILED: {}", text);
    exit(1)
}

// a smaller state that stands and fails likewise
fn shrink(z: Sizes, t: &Table, keep: Nat, fails: &dyn Fn(&Table) -> bool) -> Table {
    let mut best = t.clone();
    loop {
        let mut better = None;
        let mut tries: Vec<Table> = vec![];
        for j in 0..z.lanes {
            if j != keep && !is_idle_op(lane_at(&best.lanes, j).op) {
                let mut u = best.clone();
                remove_lane(&mut u, j);
                set_locks(z, &mut u);
                tries.push(u);
            }
        }
        for i in 0..slot_count(z) {
            let s = slot_at(&best.slots, i);
            if is_full(s) {
                let mut u = best.clone();
                u.slots = with_slot(&best.slots, i, EMPTY_SLOT);
                tries.push(u);
                if s.value != 0 {
                    let mut u = best.clone();
                    u.slots = with_slot(&best.slots, i, full_slot(s.key, 0));
                    tries.push(u);
                }
            }
        }
        for u in tries {
            if standing(z, &u) && fails(&u) {
                better = Some(u);
                break;
            }
        }
        match better {
            Some(u) => best = u,
            None => return best,
        }
    }
}

fn fail_step(z: Sizes, t: &Table, j: Nat, byte: Nat, text: &str) -> ! {
    let s = shrink(z, t, j, &|u| check_step(z, u, j, byte, None).is_err());
    let text = match check_step(z, &s, j, byte, None) {
        Err(e) => e,
        Ok(_) => text.to_string(),
    };
    println!("before the step of lane {} with byte {}:", j, byte);
    print_table(z, &s);
    let u = turned(z, &s, j, byte);
    println!("after it, answer {:?}:", u.answer);
    print_table(z, &u.table);
    fail(&text)
}

fn fail_start(z: Sizes, t: &Table, j: Nat, r: Request, text: &str) -> ! {
    let s = shrink(z, t, j, &|u| check_start(z, u, j, r).is_err());
    println!("before the start of lane {} with {:?}:", j, r);
    print_table(z, &s);
    fail(text)
}

// ---- making tables

fn remove_lane(t: &mut Table, j: Nat) {
    if path_length(lane_at(&t.lanes, j).stage) > 0 {
        t.path = emptied(&t.path);
    }
    t.lanes = with_lane(&t.lanes, j, IDLE_LANE);
}

fn set_locks(z: Sizes, t: &mut Table) {
    for k in 0..z.locks + 1 {
        let w = Lock { flag: parts_in(z, part_flag, t, k), count: parts_in(z, part_count, t, k) };
        t.locks = with_lock(&t.locks, k, w);
    }
}

fn blank(z: Sizes) -> Table {
    Table {
        slots: vec![0; (slot_count(z) * 3) as usize],
        locks: vec![0; ((z.locks + 1) * 2) as usize],
        lanes: vec![0; (z.lanes * LANE_NUMBERS) as usize],
        path: vec![0; (path_places(z) * 3) as usize],
    }
}

fn small_sizes(r: &mut Rng) -> Sizes {
    let rows = 2 + r.below(5);
    let locks = if r.chance(1, 2) { rows } else { 1 + r.below(rows) };
    Sizes { rows, columns: 1 + r.below(3), locks, lanes: 1 + r.below(4) }
}

// few rows and lanes: searches that come back to a place, and so walks that skip
fn crowded_sizes(r: &mut Rng) -> Sizes {
    let rows = 3 + r.below(2);
    Sizes { rows, columns: 1 + r.below(2), locks: 1 + r.below(rows), lanes: 1 + r.below(2) }
}

fn large_sizes(r: &mut Rng) -> Sizes {
    let rows = if r.chance(1, 3) { 64 } else { 2 + r.below(63) };
    Sizes { rows, columns: 1 + r.below(8), locks: if r.chance(1, 2) { rows } else { 1 + r.below(rows) }, lanes: 1 + r.below(8) }
}

// a key that has this row as a home row
fn key_for_row(r: &mut Rng, z: Sizes, row: Nat) -> Nat {
    let h1 = if r.chance(1, 2) { row } else { (row + 1 + r.below(z.rows - 1)) % z.rows };
    let rounds = if r.chance(1, 20) { MAX_KEY / z.rows / z.rows } else { 3 };
    let q = if h1 == row { r.below(z.rows - 1) } else { (row + z.rows - h1 - 1) % z.rows };
    let key = h1 + z.rows * (q + (z.rows - 1) * r.below(rounds + 1));
    if key <= MAX_KEY {
        key
    } else {
        h1 + z.rows * q
    }
}

fn any_value(r: &mut Rng) -> Nat {
    if r.chance(1, 10) {
        4294967295
    } else {
        r.below(4)
    }
}

fn fresh_key(r: &mut Rng, z: Sizes, slots: &[Nat], row: Nat, not: Nat) -> Option<Nat> {
    for _ in 0..20 {
        let key = key_for_row(r, z, row);
        if key != not && bound(z, slots, key).is_none() {
            return Some(key);
        }
    }
    None
}

fn random_slots(r: &mut Rng, z: Sizes, t: &mut Table) {
    let density = r.of(&[0, 3, 6, 8, 9, 10, 10, 10]);
    // often full but for one or two slots
    let gaps = if density == 10 && r.chance(2, 3) { [r.below(slot_count(z)), r.below(slot_count(z))] } else { [slot_count(z); 2] };
    for i in 0..slot_count(z) {
        if r.chance(density, 10) && !gaps.contains(&i) {
            if let Some(key) = fresh_key(r, z, &t.slots, row_at(z, i), MAX_KEY + 1) {
                let s = full_slot(key, any_value(r));
                t.slots = with_slot(&t.slots, i, s);
            }
        }
    }
}

fn random_pool(r: &mut Rng, z: Sizes, t: &Table) -> Vec<Nat> {
    let mut pool: Vec<Nat> = vec![];
    let n = 1 + r.below(5);
    for _ in 0..n {
        let row = r.below(z.rows);
        pool.push(key_for_row(r, z, row));
    }
    let mine: Vec<Nat> = (0..slot_count(z)).map(|i| slot_at(&t.slots, i)).filter(|s| is_full(*s)).map(|s| s.key).collect();
    if !mine.is_empty() {
        for _ in 0..r.below(5) {
            pool.push(r.of(&mine));
        }
    }
    if r.chance(1, 10) {
        pool.push(MAX_KEY);
    }
    pool
}

// ---- runs from an opening

struct Run {
    events: u64,
    refusals: u64,
    longest: u64,
}

fn try_refusals(r: &mut Rng, z: Sizes, t: &Table, run: &mut Run) {
    let j = r.below(z.lanes);
    let byte = r.below(256);
    let key = r.below(50);
    let busy = !is_idle_op(lane_at(&t.lanes, j).op);
    let cases: Vec<(Sizes, Table, Nat, Request, Nat, Nat)> = vec![
        (z, t.clone(), z.lanes + r.below(3), AskRead(MAX_KEY + 1), 6, 6),
        (z, t.clone(), j, AskInsert(MAX_KEY + 1, 3), if busy { 7 } else { 10 }, if busy { 0 } else { 8 }),
        (z, t.clone(), j, AskDelete(key), if busy { 7 } else { 0 }, if busy { 0 } else { 8 }),
        (Sizes { rows: 1, ..z }, t.clone(), j, AskRead(key), 1, 1),
        (Sizes { columns: 9, ..z }, t.clone(), j, AskRead(key), 1, 1),
        (Sizes { locks: z.rows + 1, ..z }, t.clone(), j, AskRead(key), 1, 1),
        (Sizes { lanes: 0, ..z }, t.clone(), j, AskRead(key), 1, 1),
        (z, Table { path: t.path[1..].to_vec(), ..t.clone() }, z.lanes, AskRead(MAX_KEY + 1), 2, 2),
        (z, Table { slots: [t.slots.clone(), vec![0]].concat(), ..t.clone() }, j, AskRead(key), 2, 2),
        (z, Table { locks: put(1, &t.locks, r.below(2 * (z.locks + 1)), &[77]), ..t.clone() }, z.lanes, AskRead(MAX_KEY + 1), 9, 9),
    ];
    for (y, u, j, ask, start, step) in cases {
        let a = start_number(start_answer(y, &u, j, ask));
        let b = step_number(step_answer(y, &u, j, byte));
        if a != start || b != step {
            print_table(z, t);
            fail(&format!("refusals: start {} wanted {}, step {} wanted {}, {:?} lane {}", a, start, b, step, ask, j));
        }
        if a != 0 && after_start(y, &u, j, ask) != u || b != 0 && after_step(y, &u, j, byte) != u {
            fail("a refusal changed something");
        }
        run.refusals += 1;
    }
}

// one run; the states it passed, every so often, go to the list
fn random_run(r: &mut Rng, z: Sizes, events: u64, stats: &mut Stats, run: &mut Run, keep: &mut Vec<(Sizes, Table)>) {
    let mut t = blank(z);
    random_slots(r, z, &mut t);
    // opening does not look at what the others hold
    for i in 0..t.lanes.len() {
        t.lanes[i] = r.below(3);
    }
    if opening_number(z, &t) != finding(0, 0) {
        fail("an opening of sound slots is refused");
    }
    t = after_opening(z, &t);
    if !standing(z, &t) {
        fail(&format!("an opened table does not stand: {}", why(z, &t)));
    }
    let pool = random_pool(r, z, &t);
    let mix = r.of(&[[1, 1, 1], [1, 1, 6], [0, 1, 5], [4, 1, 1], [1, 4, 2], [2, 2, 6], [0, 0, 1], [0, 1, 2], [0, 2, 3]]);
    // how often a key is none of the pool
    let fresh = r.of(&[1, 1, 6]);
    let stay = r.of(&[0, 5, 9, 19]);
    let mut lane = 0;
    let mut alone = 0;
    let bound_alone = 28 + 9 * z.columns + z.rows * z.columns + 12 * z.rows;
    for _ in 0..events {
        if !r.chance(stay, 20) {
            lane = r.below(z.lanes);
        }
        if r.chance(1, 200) {
            try_refusals(r, z, &t, run);
        }
        run.events += 1;
        if is_idle_op(lane_at(&t.lanes, lane).op) {
            let key = if r.chance(fresh, 8) { let row = r.below(z.rows); key_for_row(r, z, row) } else { r.of(&pool) };
            let d = r.below(mix[0] + mix[1] + mix[2]);
            let ask = if d < mix[0] { AskRead(key) } else if d < mix[0] + mix[1] { AskDelete(key) } else { AskInsert(key, any_value(r)) };
            if r.chance(1, 16) && start_number(start_answer(z, &t, lane, ask)) != 0 {
                fail("a start is refused");
            }
            match check_start(z, &t, lane, ask) {
                Ok(u) => t = u,
                Err(e) => fail_start(z, &t, lane, ask, &e),
            }
            stats.starts += 1;
            alone = 0;
        } else {
            let byte = r.below(256);
            if r.chance(1, 16) && (step_number(step_answer(z, &t, lane, byte)) != 0 || after_step(z, &t, lane, byte) != turned(z, &t, lane, byte).table) {
                fail("a step is refused");
            }
            match check_step(z, &t, lane, byte, Some(stats)) {
                Ok((u, _)) => t = u,
                Err(e) => fail_step(z, &t, lane, byte, &e),
            }
            alone += 1;
            if z.lanes == 1 {
                run.longest = run.longest.max(alone * 1000 / bound_alone);
                if alone > bound_alone {
                    fail(&format!("a lone operation took more than {} steps", bound_alone));
                }
            }
        }
        if r.chance(1, 40) && slot_count(z) < 40 {
            if keep.len() < 2000 {
                keep.push((z, t.clone()));
            } else {
                let i = r.below(2000) as usize;
                keep[i] = (z, t.clone());
            }
        }
    }
}

// ---- forged states

fn random_grab(r: &mut Rng, z: Sizes, m: Mode) -> Grab {
    match m {
        Reading => match r.below(4) {
            0 => R1,
            1 => R2(r.below(z.lanes + 1)),
            2 => R3,
            _ => R4,
        },
        Writing => {
            if r.chance(1, 2) {
                W1
            } else {
                W2
            }
        }
    }
}

fn random_path(r: &mut Rng, z: Sizes, t: &mut Table, n: Nat) {
    let mut row = r.below(z.rows);
    let honest = r.below(5);
    for i in 0..n {
        let column = r.below(z.columns);
        let s = slot_at(&t.slots, slot_index(z, row, column));
        let key = if is_full(s) && r.chance(honest, 4) { s.key } else { key_for_row(r, z, row) };
        let p = Place { row, column, key };
        t.path = with_place(&t.path, i, p);
        row = other_row(z, p);
    }
}

fn random_column(r: &mut Rng, z: Sizes, t: &Table, row: Nat) -> Nat {
    let column = r.below(z.columns);
    if r.chance(1, 2) {
        let e = first_below(z.columns, |c| is_empty(slot_at(&t.slots, slot_index(z, row, c))));
        if e < z.columns {
            return e;
        }
    }
    column
}

// lane j at a stage of this code, its numbers at random, slots and path made to fit, locks set to the sums
fn forge_lane(r: &mut Rng, z: Sizes, t: &Table, j: Nat, c: usize, pool: &[Nat]) -> Option<Table> {
    let mut u = t.clone();
    remove_lane(&mut u, j);
    let op = match c {
        1 | 10 | 14..=22 => Insert,
        2..=5 => r.of(&[Read, Delete, Insert, Again]),
        6 | 7 | 9 => r.of(&[Insert, Again]),
        8 => r.of(&[Delete, Insert, Again]),
        11 | 12 => r.of(&[Read, Delete, Insert, Again]),
        13 => r.of(&[Insert, Again]),
        _ => NoOp,
    };
    // sometimes numbers that may be out of range: then the standing check decides
    let wild = r.chance(1, 3);
    let bent = wild && r.chance(1, 3);
    let grab_mode = |m: Mode| if bent { if m == Reading { Writing } else { Reading } } else { m };
    let op = if wild && r.chance(1, 4) { r.of(&[NoOp, Read, Delete, Insert, Again]) } else { op };
    let key = if r.chance(1, 3) { let row = r.below(z.rows); key_for_row(r, z, row) } else { r.of(pool) };
    let key = if wild && r.chance(1, 20) { key + z.rows * (z.rows - 1) * (MAX_KEY / z.rows / (z.rows - 1) + 1) } else { key };
    let value = if is_insert(op) || wild && r.chance(1, 4) { any_value(r) } else { 0 };
    let m = mode_of(op);
    let column = r.below(z.columns + if wild { 1 } else { 0 });
    let side = r.of(&[First, Second]);
    let outcome = match op {
        Read => {
            if r.chance(2, 3) {
                Hit(side, column, any_value(r))
            } else {
                Miss
            }
        }
        Delete => r.of(&[Wrote(side), Miss]),
        Insert => r.of(&[Wrote(side), Filled, Picked]),
        _ => r.of(&[Wrote(side), Filled, Stuck]),
    };
    let outcome = if wild && r.chance(1, 2) { r.of(&[Hit(side, column, 0), Wrote(side), Filled, Miss, Picked, Stuck]) } else { outcome };
    let ending = if op == Insert { r.of(&[Yes, Searched(z.rows + 2)]) } else { r.of(&[Yes, Walked]) };
    let some = Searched(1 + r.below(z.rows + 3));
    let ending = if wild { r.of(&[Yes, some, Walked, ending]) } else { ending };
    let more = if wild { r.below(3) } else { 0 };
    let picks = more + if r.chance(1, 3) { z.rows } else { r.below(z.rows + 1) };
    let trail = Trail { picks, places: if wild && r.chance(1, 4) { r.below(z.rows + 3) } else { picks + 1 } };
    let made = more + if r.chance(1, 3) { z.rows + 1 } else { 1 + r.below(z.rows + 1) };
    let places = monus(more + if r.chance(1, 3) { 1 } else { 1 + r.below(z.rows + 1) }, if wild { 1 } else { 0 });
    let length = match c {
        11 | 12 => outcome_places(outcome),
        13 => ending_places(ending),
        14..=16 => trail.places,
        17 => 0,
        18..=22 => places,
        _ => 0,
    };
    if length > 0 {
        random_path(r, z, &mut u, length);
    }
    let last = last_of(&u.path, length);
    let walk = {
        let row = if wild && r.chance(1, 4) { r.below(z.rows) } else { other_row(z, last) };
        Walk { places, row, column: random_column(r, z, &u, row) }
    };
    // often a walk whose next swing moves its pair
    if c >= 18 && r.chance(1, 2) {
        for i in 0..slot_count(z) {
            if holds(slot_at(&u.slots, i), last.key) {
                u.slots = with_slot(&u.slots, i, EMPTY_SLOT);
            }
        }
        let s = full_slot(last.key, any_value(r));
        u.slots = with_slot(&u.slots, slot_index(z, last.row, last.column), s);
        u.slots = with_slot(&u.slots, slot_index(z, walk.row, walk.column), EMPTY_SLOT);
    }
    let stage = match c {
        1 => TakeMain(random_grab(r, z, grab_mode(Writing))),
        2 => TakeFirst(random_grab(r, z, grab_mode(m))),
        3 => SeekFirst(column),
        4 => TakeSecond(random_grab(r, z, grab_mode(m))),
        5 => SeekSecond(column),
        6 => RoomFirst(column),
        7 => RoomSecond(column),
        8 => WriteHit(side, column),
        9 => WriteRoom(side, column),
        10 => Pick,
        11 => DropFirst(outcome),
        12 => DropSecond(outcome),
        13 => DropMain(ending),
        14 => TakeNext(random_grab(r, z, grab_mode(Reading)), trail),
        15 => LookNext(column, trail),
        16 => PickNext(trail),
        17 => {
            let (f, trail) = if r.chance(1, 2) { (Room(column), trail) } else { (Full, Trail { picks: made, places: made + 1 }) };
            let trail = if wild && r.chance(1, 4) { Trail { picks: monus(trail.picks, 1), places: trail.places } } else { trail };
            random_path(r, z, &mut u, trail.places);
            DropNext(f, trail)
        }
        18 => TakeLow(random_grab(r, z, grab_mode(Writing)), walk),
        19 => TakeHigh(random_grab(r, z, grab_mode(Writing)), walk),
        20 => Swing(walk),
        21 => DropLow(walk),
        22 => DropHigh(walk),
        _ => Idle,
    };
    let l = Lane { op, key, value, stage };
    u.lanes = with_lane(&u.lanes, j, l);
    // the slots made to fit the claims
    let last = last_at(&u, j);
    let claims = claims_of(z, l, last);
    for rc in [claims.one, claims.two] {
        for i in 0..rc.lacking.max(rc.full) {
            let at = slot_index(z, rc.row, i);
            let s = slot_at(&u.slots, at);
            let unwanted = i < rc.lacking && holds(s, key);
            if unwanted && i >= rc.full {
                u.slots = with_slot(&u.slots, at, EMPTY_SLOT);
            }
            if i < rc.full && (unwanted || is_empty(s)) {
                let k = fresh_key(r, z, &u.slots, rc.row, key)?;
                let v = any_value(r);
                u.slots = with_slot(&u.slots, at, full_slot(k, v));
            }
        }
    }
    let take = |u: &mut Table, at: Nat, v: Nat| {
        for i in 0..slot_count(z) {
            if holds(slot_at(&u.slots, i), key) {
                u.slots = with_slot(&u.slots, i, EMPTY_SLOT);
            }
        }
        u.slots = with_slot(&u.slots, at, full_slot(key, v));
    };
    match claims.slot {
        NoClaim => {}
        HasKey(row, column) => {
            let v = any_value(r);
            take(&mut u, slot_index(z, row, column), v)
        }
        HasPair(row, column, v) => take(&mut u, slot_index(z, row, column), v),
        HasRoom(row, column) => u.slots = with_slot(&u.slots, slot_index(z, row, column), EMPTY_SLOT),
    }
    set_locks(z, &mut u);
    if standing(z, &u) {
        Some(u)
    } else {
        None
    }
}

struct Forge {
    tried: u64,
    accepted: u64,
    from_reached: u64,
    altered_tried: u64,
    altered: u64,
    held: [u64; 23],
}

fn forged(r: &mut Rng, kept: &[(Sizes, Table)], f: &mut Forge) -> Option<(Sizes, Table)> {
    f.tried += 1;
    let reached = r.chance(1, 4) && !kept.is_empty();
    let (z, mut t) = if reached {
        kept[r.below(kept.len() as Nat) as usize].clone()
    } else {
        let z = if r.chance(1, 2000) { large_sizes(r) } else { small_sizes(r) };
        let mut t = blank(z);
        random_slots(r, z, &mut t);
        (z, t)
    };
    let pool = random_pool(r, z, &t);
    let mut put_in = 0;
    let mut order: Vec<Nat> = (0..z.lanes).collect();
    for i in 0..order.len() {
        let k = r.below(order.len() as Nat) as usize;
        order.swap(i, k);
    }
    if reached {
        order.truncate(1 + r.below(2) as usize);
    }
    for j in order {
        if put_in > 0 && r.chance(1, 8) {
            continue;
        }
        let c = 1 + r.below(22) as usize;
        for attempt in 0..12 {
            let c = if attempt < 6 { c } else { 1 + r.below(22) as usize };
            if let Some(u) = forge_lane(r, z, &t, j, c, &pool) {
                t = u;
                put_in += 1;
                break;
            }
        }
    }
    if put_in == 0 {
        return None;
    }
    f.accepted += 1;
    if reached {
        f.from_reached += 1;
    }
    Some((z, t))
}

// one or two numbers altered, the locks sometimes set to the sums again
fn altered(r: &mut Rng, z: Sizes, t: &Table) -> Table {
    let mut u = t.clone();
    for _ in 0..1 + r.below(2) {
        let list = match r.below(6) {
            0 => &mut u.slots,
            1 => &mut u.locks,
            2 => &mut u.path,
            _ => &mut u.lanes,
        };
        let i = r.below(list.len() as Nat) as usize;
        list[i] = match r.below(4) {
            0 => list[i] + 1,
            1 => monus(list[i], 1),
            2 => r.below(4),
            _ => r.below(24),
        };
    }
    if r.chance(1, 2) {
        set_locks(z, &mut u);
    }
    u
}

fn try_state(r: &mut Rng, z: Sizes, t: &Table, stats: &mut Stats) {
    for j in 0..z.lanes {
        claims_held(z, t, j).unwrap_or_else(|e| {
            print_table(z, t);
            fail(&e)
        });
        if is_idle_op(lane_at(&t.lanes, j).op) {
            let row = r.below(z.rows);
            let key = key_for_row(r, z, row);
            for ask in [AskRead(key), AskDelete(key), AskInsert(key, any_value(r))] {
                if let Err(e) = check_start(z, t, j, ask) {
                    fail_start(z, t, j, ask, &e)
                }
                stats.starts += 1;
            }
        } else {
            for _ in 0..2 {
                let byte = r.below(256);
                if let Err(e) = check_step(z, t, j, byte, Some(stats)) {
                    fail_step(z, t, j, byte, &e)
                }
            }
        }
    }
}

// ---- 01's cases

fn step_or_fail(z: Sizes, t: &Table, j: Nat, byte: Nat) -> (Table, Answer) {
    match check_step(z, t, j, byte, None) {
        Ok(x) => x,
        Err(e) => fail_step(z, t, j, byte, &e),
    }
}

// lane 0 alone from its start to its end: steps, answer, table
fn alone(z: Sizes, t: &Table, ask: Request) -> (Nat, Answer, Table) {
    if start_answer(z, t, 0, ask) != StartAccepted {
        fail("a case's start is refused");
    }
    let mut t = after_start(z, t, 0, ask);
    for n in 1..10000 {
        let (u, a) = step_or_fail(z, &t, 0, 0);
        t = u;
        if a != GoesOn {
            return (n, a, t);
        }
    }
    fail("a lone lane does not end")
}

fn want<T: PartialEq + std::fmt::Debug>(name: &str, got: T, wanted: T) {
    if got != wanted {
        fail(&format!("{}: {:?}, wanted {:?}", name, got, wanted));
    }
}

fn with_keys(z: Sizes, t: &mut Table, keys: &[(Nat, Nat, Nat)]) {
    for (row, column, key) in keys {
        t.slots = with_slot(&t.slots, slot_index(z, *row, *column), full_slot(*key, 100 + key));
    }
}

fn cases() {
    let homes = |rows: Nat, key: Nat| {
        let z = Sizes { rows, columns: 1, locks: rows, lanes: 1 };
        (home_one(z, key), home_two(z, key))
    };
    want("rows of 1024, H 3", homes(3, 1024), (1, 0));
    want("rows of 5, H 2", homes(2, 5), (1, 0));
    want("rows of 8, H 4", homes(4, 8), (0, 3));
    want("rows of 9, H 4", homes(4, 9), (1, 0));
    want("rows of 11, H 4", homes(4, 11), (3, 2));
    for (z, ok) in [(1, 1, 1, 1, false), (65, 1, 1, 1, false), (4, 9, 1, 1, false), (4, 1, 5, 1, false), (4, 1, 1, 0, false), (64, 8, 64, 8, true), (2, 1, 1, 1, true)]
        .map(|(rows, columns, locks, lanes, ok)| (Sizes { rows, columns, locks, lanes }, ok))
    {
        want("sizes", opening_number(z, &blank(z)).number, if ok { 0 } else { 1 });
    }
    let z = Sizes { rows: 3, columns: 1, locks: 3, lanes: 1 };
    want("key 8388607", start_answer(z, &blank(z), 0, AskRead(8388607)), StartAccepted);
    want("key 8388608", start_answer(z, &blank(z), 0, AskRead(8388608)), StartBadKey);
    for w in 1..9 {
        let z = Sizes { rows: 4, columns: w, locks: 4, lanes: 1 };
        let s = Sizes { rows: 4, columns: w, locks: 1, lanes: 1 };
        for key in [8, 9, 11] {
            let (n, a, t) = alone(z, &blank(z), AskInsert(key, 7));
            want("insert, distinct", (n, a, bound(z, &t.slots, key)), (11 + 2 * w, InsertYes, Some(7)));
            want("delete, distinct", { let (n, a, _) = alone(z, &blank(z), AskDelete(key)); (n, a) }, (6 + 2 * w, Deleted));
            want("read, distinct", { let (n, a, _) = alone(z, &blank(z), AskRead(key)); (n, a) }, (8 + 2 * w, ReadNone));
            let (n, a, t) = alone(s, &blank(s), AskInsert(key, 7));
            want("insert, shared", (n, a, bound(s, &t.slots, key)), (8 + 2 * w, InsertYes, Some(7)));
            want("shared: filled in row h2", slot_at(&t.slots, slot_index(s, home_two(s, key), 0)), full_slot(key, 7));
            want("delete, shared", { let (n, a, _) = alone(s, &blank(s), AskDelete(key)); (n, a) }, (3 + 2 * w, Deleted));
            want("read, shared", { let (n, a, _) = alone(s, &blank(s), AskRead(key)); (n, a) }, (4 + 2 * w, ReadNone));
        }
    }
    // 01's whole case
    let z = Sizes { rows: 3, columns: 1, locks: 3, lanes: 1 };
    let (n, a, t) = alone(z, &blank(z), AskInsert(1024, 7));
    want("whole case, insert", (n, a), (13, InsertYes));
    want("whole case, slot", slot_at(&t.slots, 0), full_slot(1024, 7));
    let (n, a, _) = alone(z, &t, AskRead(1024));
    want("whole case, read", (n, a), (5, ReadValue(7)));
    // the first pick: bytes and rows, also where the locks are in the other order than h1, h2
    let z = Sizes { rows: 4, columns: 2, locks: 4, lanes: 1 };
    for (key, byte, row, column) in [(8, 3, 3, 1), (8, 2, 0, 1), (8, 0, 0, 0), (8, 1, 3, 0), (9, 3, 0, 1), (9, 2, 1, 1), (9, 0, 1, 0), (9, 1, 0, 0)] {
        let p = perform(z, act_at(z, Lane { op: Insert, key, value: 0, stage: Pick }, NO_PLACE, Pick), byte, &memory_of(&blank(z)));
        want("pick", place_at(&p.memory.path, 0), Place { row, column, key: 0 });
    }
    // the walk case
    let mut t = blank(z);
    with_keys(z, &mut t, &[(0, 0, 24), (0, 1, 12), (1, 0, 9), (1, 1, 1), (3, 0, 11), (3, 1, 23)]);
    want("walk case, opening", opening_number(z, &t), finding(0, 0));
    let mut t = after_start(z, &after_opening(z, &t), 0, AskInsert(8, 5));
    let bytes = [0, 0, 0, 1];
    let mut used = 0;
    let mut n = 0;
    let mut skips = vec![];
    loop {
        let l = lane_at(&t.lanes, 0);
        let byte = if matches!(l.stage, Pick | PickNext(_)) {
            used += 1;
            bytes[used - 1]
        } else {
            255
        };
        if let TakeLow(W1, w) = l.stage {
            if w.places == 4 {
                let path: Vec<Place> = (0..4).map(|i| place_at(&t.path, i)).collect();
                let places: Vec<(Nat, Nat)> = path.iter().map(|p| (p.row, p.column)).collect();
                want("walk case, path", places, vec![(0, 0), (1, 0), (0, 0), (1, 1)]);
                want("walk case, free", (w.row, w.column), (2, 0));
                println!("walk case: path {}, free ({},{}), at step {}", path.iter().map(|p| format!("({},{}) key {}", p.row, p.column, p.key)).collect::<Vec<_>>().join(", "), w.row, w.column, n);
            }
        }
        let before = t.clone();
        let (u, a) = step_or_fail(z, &t, 0, byte);
        n += 1;
        if let Swing(_) = l.stage {
            skips.push(before.slots == u.slots);
        }
        t = u;
        if a != GoesOn {
            want("walk case, answer", a, InsertWalked);
            break;
        }
    }
    want("walk case, swings skipped", skips, vec![false, false, false, true]);
    let keys: Vec<Option<Nat>> = (0..8).map(|i| slot_at(&t.slots, i)).map(|s| if is_full(s) { Some(s.key) } else { None }).collect();
    want("walk case, rows", keys, vec![Some(9), Some(12), None, Some(24), Some(1), None, Some(11), Some(23)]);
    want("walk case, locks", t.locks.iter().sum(), 0);
    want("walk case, path zeros", t.path.iter().sum(), 0);
    want("walk case, lane zeros", t.lanes.iter().sum(), 0);
    println!("walk case: {} steps in all, answer walked", n);
}

// ---- all

fn print_stats(name: &str, s: &Stats) {
    println!("{}: {} steps, {} starts", name, s.steps, s.starts);
    for i in 1..7 {
        println!("  answer {}: {}", ANSWER_NAMES[i], s.answers[i]);
    }
    for i in 0..4 {
        println!("  swing {}: {}", SWING_NAMES[i], s.swings[i]);
    }
}

fn main() {
    let args: Vec<String> = std::env::args().collect();
    let number = |i: usize, d: u64| args.get(i).map(|a| a.parse().unwrap_or_else(|_| fail("give SEED and COUNT as numbers"))).unwrap_or(d);
    let seed = number(1, 1);
    let count = number(2, 100000);
    let mut r = Rng(seed);
    cases();
    println!("cases of 01: as wanted");

    let mut reached = Stats::new();
    let mut run = Run { events: 0, refusals: 0, longest: 0 };
    let mut kept = vec![];
    let runs = count / 25 + 40;
    for i in 0..runs {
        let large = i % 100 == 99;
        let z = if large { large_sizes(&mut r) } else if i % 3 == 0 { crowded_sizes(&mut r) } else { small_sizes(&mut r) };
        let events = if large { 300 } else { 100 + r.below(500) };
        random_run(&mut r, z, events, &mut reached, &mut run, &mut kept);
    }
    println!(
        "runs from an opening: {}, events {}, refused calls {}, longest lone operation {} thousandths of the bound",
        runs, run.events, run.refusals, run.longest
    );

    let mut f = Forge { tried: 0, accepted: 0, from_reached: 0, altered_tried: 0, altered: 0, held: [0; 23] };
    let mut made = Stats::new();
    while f.accepted < count {
        if let Some((z, t)) = forged(&mut r, &kept, &mut f) {
            for j in 0..z.lanes {
                f.held[code(lane_at(&t.lanes, j).stage)] += 1;
            }
            try_state(&mut r, z, &t, &mut made);
            if slot_count(z) < 40 {
                for _ in 0..6 {
                    let u = altered(&mut r, z, &t);
                    f.altered_tried += 1;
                    if u != t && standing(z, &u) {
                        f.altered += 1;
                        try_state(&mut r, z, &u, &mut made);
                    }
                }
            }
        }
    }
    println!("forged states: {} tried, {} stand, {} of them from a reached one", f.tried, f.accepted, f.from_reached);
    println!("altered states: {} tried, {} stand", f.altered_tried, f.altered);
    print_stats("reached", &reached);
    print_stats("forged", &made);

    println!("stage: steps from it reached, forged; forged steps of another lane while a lane is there");
    let mut missing = vec![];
    for c in 1..23 {
        let beside: u64 = (1..23).map(|a| made.beside[a][c]).sum();
        println!("  {:<11} {:>9} {:>9} {:>9}", STAGE_NAMES[c], reached.stages[c], made.stages[c], beside);
        if count >= 1000 && (reached.stages[c] < 20 || made.stages[c] < 20 || beside < 20) {
            missing.push(STAGE_NAMES[c]);
        }
    }
    println!("stage by operation, forged: Read Delete Insert Again");
    for c in 1..23 {
        let n = made.stage_ops[c];
        println!("  {:<11} {:>9} {:>9} {:>9} {:>9}", STAGE_NAMES[c], n[1], n[2], n[3], n[4]);
    }
    let holders = |c: usize| c >= 6 && c != 8 && c != 11 && c != 12;
    let mut unpaired = vec![];
    for a in 1..23 {
        for b in 1..23 {
            if made.beside[a][b] == 0 && !(holders(a) && holders(b)) {
                unpaired.push(format!("{} beside {}", STAGE_NAMES[a], STAGE_NAMES[b]));
            }
        }
    }
    println!("pairs of stages (one steps, one beside it; not both holding main) never met: {} {:?}", unpaired.len(), unpaired);
    println!("way: reached, forged");
    for b in 0..LABELS {
        for a in 0..LABELS {
            let i = b * LABELS + a;
            if reached.ways[i] + made.ways[i] > 0 {
                println!("  {:<24} to {:<24} {:>9} {:>9}", label_name(b), label_name(a), reached.ways[i], made.ways[i]);
            }
        }
    }
    if !missing.is_empty() {
        fail(&format!("stages met too seldom: {:?}", missing));
    }
    println!("seed {} count {}: all kept", seed, count);
}
