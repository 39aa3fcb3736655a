// Tables to start from, and changes to a table: damage, and forged states that may still stand.

use crate::model::*;
use crate::random::Random;
use crate::standing::*;

/// A key with `row` among its home rows; small ones where `pool` is small.
pub fn key_at(r: &mut Random, s: Sizes, row: u32, pool: u32) -> u32 {
    for _ in 0..200 {
        let key = r.below(pool);
        if s.at_home(row, key) {
            return key;
        }
    }
    row
}

fn stands_somewhere(t: &Table, key: u32) -> bool {
    (0..t.sizes.rows).any(|row| (0..t.sizes.columns).any(|c| t.holds(row, c, key)))
}

/// Fills an empty slot with a key that stands nowhere yet, if one is found soon.
fn fill_slot(r: &mut Random, t: &mut Table, row: u32, column: u32, pool: u32) {
    for _ in 0..20 {
        let key = key_at(r, t.sizes, row, pool);
        if t.empty(row, column) && !stands_somewhere(t, key) {
            t.put_slot(row, column, Slot { mark: 1, key, value: r.number() });
        }
    }
}

/// Sound slots, of which `eighths` in eight are full.
pub fn furnish(r: &mut Random, t: &mut Table, pool: u32, eighths: u32) {
    for row in 0..t.sizes.rows {
        for column in 0..t.sizes.columns {
            t.put_slot(row, column, Slot::default());
            if r.chance(eighths, 8) {
                fill_slot(r, t, row, column, pool);
            }
        }
    }
}

fn near(r: &mut Random, old: u32) -> u32 {
    match r.below(7) {
        0 => old ^ 1,
        1 => old.wrapping_add(1),
        2 => old.wrapping_sub(1),
        3 => r.below(8),
        4 => 0,
        5 => old ^ (1 << r.below(32)),
        _ => r.one_of(&[u32::MAX, LAST_KEY, LAST_KEY + 1, 1 << 31, r.0 as u32]),
    }
}

fn change_one(r: &mut Random, list: &mut [u32]) {
    if !list.is_empty() {
        let i = r.below(list.len() as u32) as usize;
        list[i] = near(r, list[i]);
    }
}

/// Breaks a rule of the slots, or several, or by chance none.
pub fn damage_slots(r: &mut Random, t: &mut Table) {
    let n = t.slots.len() / 3;
    for _ in 0..=r.below(3) {
        let [i, j] = [r.below(n as u32), r.below(n as u32)].map(|i| 3 * i as usize);
        match r.below(5) {
            0 => change_one(r, t.slots),
            1 => change_one(r, &mut t.slots[i..i + 3]),
            2 => t.slots.copy_within(i..i + 3, j),
            3 if t.slots[i] == 1 => {
                let s = t.sizes;
                let row = s.other(i as u32 / 3 / s.columns, t.slots[i + 1] % (LAST_KEY + 1)) % s.rows;
                let j = 3 * (row * s.columns + r.below(s.columns)) as usize;
                t.slots.copy_within(i..i + 3, j);
            }
            _ => {
                let wide = r.chance(1, 2);
                t.slots[i..i + 3].copy_from_slice(&[1, if wide { r.number() } else { r.below(LAST_KEY + 1) }, 1]);
            }
        }
    }
}

/// Records and path are in range, so that parts and rows can be told.
fn in_range(t: &Table) -> bool {
    (0..t.sizes.lanes as usize).all(|i| t.record_ok(&t.lane(i))) && t.path_ok()
}

/// A row that a lane may hold, or any.
fn some_row(r: &mut Random, t: &Table, a: &Lane) -> u32 {
    let (one, two) = t.sizes.homes(a.key % (LAST_KEY + 1));
    let searching = in_range(t) && LOOK_NEXT <= a.stage && a.stage <= DROP_NEXT;
    if searching { t.next_row(a) } else { r.one_of(&[one, two, r.0 as u32 % t.sizes.rows]) }
}

/// Changes a slot and leaves the slots sound: another value, emptied, filled, or another key.
fn change_soundly(r: &mut Random, t: &mut Table, pool: u32) {
    let claims = |a: &Lane| SEEK_FIRST <= a.stage && a.stage <= DROP_NEXT && a.stage != DROP_MAIN && a.stage != TAKE_NEXT;
    let mut a = t.lane(r.below(t.sizes.lanes) as usize);
    for _ in 0..4 {
        if !claims(&a) {
            a = t.lane(r.below(t.sizes.lanes) as usize);
        }
    }
    let (row, column) = (some_row(r, t, &a), r.below(t.sizes.columns));
    let old = t.slot(row, column);
    let wanted = a.key;
    match r.below(4) {
        0 if old.mark == 1 => t.put_slot(row, column, Slot { value: near(r, old.value), ..old }),
        1 => t.put_slot(row, column, Slot::default()),
        2 if wanted <= LAST_KEY && !stands_somewhere(t, wanted) => {
            let home = t.sizes.homes(wanted);
            t.put_slot(r.one_of(&[home.0, home.1]), column, Slot { mark: 1, key: wanted, value: r.number() });
        }
        _ => {
            t.put_slot(row, column, Slot::default());
            fill_slot(r, t, row, column, pool);
        }
    }
}

/// A path of `n` places, each next one in the other row of the key before; most on full slots.
fn forge_path(r: &mut Random, t: &mut Table, n: u32, pool: u32) {
    let s = t.sizes;
    let mut row = r.below(s.rows);
    t.path.fill(0);
    for i in 0..n {
        let column = r.below(s.columns);
        let there = t.slot(row, column);
        let key = if there.mark == 1 && r.chance(7, 8) { there.key } else { key_at(r, s, row, pool) };
        t.put_place(i, Place { row, column, key });
        row = s.other(row, key);
    }
}

/// Puts lane `i` at any stage with numbers in range, and the path that goes with it.
fn forge_lane(r: &mut Random, t: &mut Table, i: usize, pool: u32) {
    let s = t.sizes;
    let stage = r.between(TAKE_MAIN, DROP_HIGH);
    let ending = r.one_of(&[0, 0, 0, 1, 2, 3, 4, 5, 6]);
    let Some((ops, uses)) = form(stage, ending) else { return forge_lane(r, t, i, pool) };
    let op = r.one_of(ops);
    let mut a = Lane { stage, ending, op, key: r.below(pool), ..Lane::default() };
    if op >= INSERT {
        a.value = r.number();
    }
    if uses & GRAB != 0 {
        a.grab = if op == READ || stage == TAKE_NEXT { r.between(R1, R4) } else { r.between(W1, W2) };
    }
    if uses & NOTED != 0 && a.grab == R2 {
        a.noted = r.between(0, s.lanes);
    }
    if uses & SIDE != 0 {
        a.side = r.between(1, 2);
    }
    if uses & COLUMN != 0 {
        a.column = r.below(s.columns);
    }
    if uses & PICKS != 0 {
        let some = r.between(1, s.rows);
        a.picks = r.one_of(&[0, some, some, s.rows, s.rows + 1]);
        a.places = a.picks + 1;
    } else if uses & PLACES != 0 {
        let some = r.between(1, s.rows + 1);
        a.places = if ending == PICKED { 1 } else { r.one_of(&[some, s.rows + 1, s.rows + 2]) };
    }
    if r.chance(1, 3) {
        nudge(r, s, &mut a);
    }
    if a.places > 0 {
        forge_path(r, t, a.places.min(s.rows + 2), pool);
    }
    if uses & FREE != 0 && 0 < a.places && a.places <= s.rows + 2 {
        let last = t.last(&a);
        a.free_row = s.other(last.row, last.key);
        a.free_column = if r.chance(1, 16) { s.columns } else { r.below(s.columns) };
    }
    suit(r, t, &mut a, pool);
    t.put_lane(i, a);
}

/// Sets one number of a lane to the edge of its range or a little beyond.
fn nudge(r: &mut Random, s: Sizes, a: &mut Lane) {
    match r.below(10) {
        0 | 1 => a.op = r.between(READ, AGAIN),
        2 => a.ending = r.between(0, 6),
        3 => a.noted = r.between(0, s.lanes + 1),
        4 => a.side = r.between(0, 3),
        5 => a.column = r.between(0, s.columns),
        6 => a.places += 1,
        7 => a.picks ^= 1,
        8 => a.grab = r.between(0, 7),
        _ => a.value = 1,
    }
}

/// Most times makes the lane's claims likely: a hit on a full slot, room at the first empty one, rows full.
fn suit(r: &mut Random, t: &mut Table, a: &mut Lane, pool: u32) {
    let s = t.sizes;
    if r.chance(1, 4) {
        return;
    }
    let (row, column) = (r.below(s.rows), r.below(s.columns));
    if (a.stage == WRITE_HIT || (a.op == READ && a.ending == HIT)) && !t.empty(row, column) {
        a.key = t.slot(row, column).key;
        a.column = column;
        a.side = if row == s.order(a.key).0 { 1 } else { 2 };
        a.seen = if a.op == READ { t.slot(row, column).value } else { 0 };
    }
    let (first, second) = s.order(a.key);
    let searching = LOOK_NEXT <= a.stage && a.stage <= DROP_NEXT && a.places <= s.rows + 2;
    let next = if searching { t.next_row(a) } else { first };
    if r.chance(1, 2) {
        for c in 0..s.columns {
            fill_slot(r, t, next, c, pool);
            fill_slot(r, t, second, c, pool);
        }
    }
    let later = r.chance(1, 4);
    let room = |row: u32| {
        let mut rooms = (0..s.columns).filter(|&c| t.empty(row, c));
        if later { rooms.last() } else { rooms.next() }
    };
    match a.stage {
        WRITE_ROOM => (a.side, a.column) = room(first).map_or((2, room(second).unwrap_or(0)), |c| (1, c)),
        DROP_NEXT if a.ending == ROOM => a.column = room(next).unwrap_or(0),
        _ => {}
    }
}

/// Sets the lock words to what the lanes call for, where that can be told. Records may be a little out of range.
fn mend_locks(t: &mut Table) {
    let n = t.locks.len();
    if (0..t.sizes.lanes as usize).all(|i| t.lane(i).places <= t.sizes.rows + 2) {
        if let Some(due) = t.due_locks() {
            t.locks.copy_from_slice(&due[..n]);
        }
    }
}

/// Takes other lanes out of the way of lane `i`: those that hold main, or all.
fn make_way(r: &mut Random, t: &mut Table, i: usize) {
    let all = r.chance(1, 3);
    for j in 0..t.sizes.lanes as usize {
        let b = t.lane(j);
        if j != i && (all || (b.op >= INSERT && b.stage != TAKE_MAIN)) {
            t.put_lane(j, Lane::default());
        }
    }
    if !(0..t.sizes.lanes as usize).any(|j| t.lane(j).places > 0) {
        t.path.fill(0);
    }
}

/// One change to a table whose lengths are right; it may stand afterwards or not.
pub fn tamper(r: &mut Random, t: &mut Table, pool: u32) {
    let i = r.below(t.sizes.lanes) as usize;
    match r.below(17) {
        0 => change_one(r, t.slots),
        1 => change_one(r, t.locks),
        2 => change_one(r, t.path),
        3 => change_one(r, &mut t.lanes[LANE * i..LANE * i + LANE]),
        4 => damage_slots(r, t),
        5..=8 => change_soundly(r, t, pool),
        9 => {
            change_one(r, &mut t.lanes[LANE * i..LANE * i + LANE]);
            mend_locks(t);
        }
        10 => {
            let n = (0..t.sizes.lanes as usize).map(|j| t.lane(j).places).max().unwrap_or(0);
            let n = if r.chance(1, 8) { n + 1 } else { n };
            forge_path(r, t, n.min(t.sizes.rows + 2), pool);
            mend_locks(t);
        }
        _ => {
            if r.chance(7, 8) {
                make_way(r, t, i);
            }
            forge_lane(r, t, i, pool);
            mend_locks(t);
        }
    }
}
