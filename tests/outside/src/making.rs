//! Random configurations that keep their table, and random well-formed states.

use crate::random::Random;
use crate::reference::{
    image_head, Board, Configuration, Row, State, ALL_PRESENT, CONDITIONS, CONFIRMED, COUNTS,
    EDITION_1, EDITION_2, FAILED_SINCE_CLEAR, FAILED_THIS_CYCLE, FRESH_STATUS, KIND_COUNTER,
    KIND_INTERNAL, KIND_TIME, NOT_COMPLETED_SINCE_CLEAR, NOT_COMPLETED_THIS_CYCLE, PENDING,
    TEST_FAILED, WARNING,
};

/// The largest trouble code.
const LAST_CODE: i32 = 16_777_214;

/// n, M and F: mostly small, so that a story meets its events often; sometimes
/// at the bounds.
fn front(random: &mut Random) -> [i32; 3] {
    let n = match random.below(100) {
        0..70 => random.between(1, 6),
        70..92 => random.between(7, 40),
        92..96 => random.between(41, 511),
        _ => 512,
    };
    let m = match random.below(10) {
        0..6 => random.between(1, 4),
        6..9 => random.between(5, 63),
        _ => 64,
    };
    let f = match random.below(10) {
        0..3 => 0,
        3..7 => random.between(1, 4),
        7..9 => random.between(5, 31),
        _ => 32,
    };
    [n, m, f]
}

pub fn configuration(random: &mut Random) -> Vec<i32> {
    let front = front(random);
    let mut numbers = front.to_vec();
    let n = front[0];
    let widest = random.pick(&[1, 1, 7, 300, 30_000]);
    let from_end = random.one_in(4);
    let mut code = if from_end {
        LAST_CODE - n + 1
    } else {
        random.between(1, widest)
    };
    let priorities = random.pick(&[&[5, 9][..], &[1, 255], &[7], &[1, 2, 3, 4, 255]]);
    let cycles = random.pick(&[&[0][..], &[0, 1], &[0, 1, 2, 3], &[3]]);
    for _ in 0..n {
        numbers.extend([code, random.pick(priorities), random.pick(cycles)]);
        numbers.extend(debouncing(random));
        numbers.extend(counts(random));
        numbers.push(needed(random));
        code += if from_end {
            1
        } else {
            random.between(1, widest)
        };
    }
    numbers
}

/// Kind, P, Q, up, down, jumps.
fn debouncing(random: &mut Random) -> [i32; 6] {
    let bound = |random: &mut Random| match random.below(4) {
        0 => random.pick(&[1, 2, 29_999, 30_000]),
        1 => random.between(1, 30_000),
        _ => random.between(1, 8),
    };
    let kind = random.between(0, 2);
    match kind {
        KIND_INTERNAL => [kind, 0, 0, 0, 0, 0],
        KIND_COUNTER => {
            let (p, q) = (-bound(random), bound(random));
            let (up, down) = (bound(random), bound(random));
            [kind, p, q, up, down, random.between(0, 3)]
        }
        _ => [kind, -bound(random), bound(random), 0, 0, 0],
    }
}

/// Events of kind time in one cycle that confirm and age soon, and a memory of few places: one tick
/// stores, displaces and loses, one stop ages several.
pub fn timed(random: &mut Random) -> Vec<i32> {
    let n = random.between(5, 9);
    let mut numbers = vec![n, random.between(1, 3), random.between(0, 2)];
    for (event, priority) in (0..n).zip([9, 9, 5, 3].into_iter().cycle()) {
        numbers.extend([1 + event, priority, 0]);
        numbers.extend([KIND_TIME, -random.between(1, 8), random.between(1, 8)]);
        numbers.extend([0; 3]);
        let (heal, indicator) = (random.between(1, 3), random.between(0, 1));
        numbers.extend([1, heal, 1, indicator, needed(random)]);
    }
    numbers
}

/// C confirm, H heal, A age, indicator.
fn counts(random: &mut Random) -> [i32; 4] {
    let count = |random: &mut Random| random.pick(&[1, 1, 2, 2, 3, 4, 254, 255]);
    let (confirm, heal, age) = (count(random), count(random), count(random));
    [confirm, heal, age, random.between(0, 1)]
}

/// The set of conditions that an event needs: mostly none, one or a few, rarely many or all.
fn needed(random: &mut Random) -> i32 {
    let mut one = || 1 << random.below(CONDITIONS as usize);
    let few = one() | one() | one();
    match random.below(20) {
        0..10 => 0,
        10..14 => 1 << random.below(3),
        14..18 => few,
        18 => random.next() as i32 & i32::MAX,
        _ => i32::MAX,
    }
}

/// Bit 31 of a set, which is no condition.
pub const NO_CONDITION: u32 = 1 << 31;

/// The set that is lent as present, for an event that needs this one: all, just what it needs,
/// short of one or of all of that, or any; with and without bit 31.
pub fn present(random: &mut Random, needed: i32) -> u32 {
    let needed = needed as u32;
    let is_needed = |number: &u32| needed & (1u32 << number) != 0;
    let numbers: Vec<u32> = (0..CONDITIONS).filter(is_needed).collect();
    let one = match numbers.is_empty() {
        true => 0,
        false => 1u32 << random.pick(&numbers),
    };
    let set = match random.below(12) {
        0..4 => ALL_PRESENT,
        4..6 => needed,
        6..8 => ALL_PRESENT & !one,
        8 => needed & !one,
        9 => ALL_PRESENT & !needed,
        10 => 0,
        _ => random.next() as u32,
    };
    match random.one_in(4) {
        true => set | NO_CONDITION,
        false => set,
    }
}

/// Any well-formed state, also such as no story comes to soon.
pub fn state(random: &mut Random, config: &Configuration, board: Board) -> State {
    let mut state = State {
        records: Vec::with_capacity(4 * config.events),
        debounce: Vec::with_capacity(config.events),
        memory: vec![0; config.memory()],
        counts: counts_lent(random),
        board,
    };
    for row in config.rows() {
        state.records.extend(record(random, &row));
        let runs = board.running[row.cycle as usize];
        let d = if runs { debounce(random, &row) } else { 0 };
        state.debounce.push(d);
    }
    fill_memory(random, config, &mut state);
    state
}

/// Counts as they are lent: none of them near the limit, or some of them at it, or just below, or as far
/// from it as a tick of 512 events can carry them.
pub fn counts_lent(random: &mut Random) -> Vec<u32> {
    let far = random.one_in(3);
    let mut count = || match (far, random.below(8)) {
        (true, _) | (_, 0 | 1) => random.below(1000) as u32,
        (_, 2 | 3) => u32::MAX,
        (_, 4) => u32::MAX - 1,
        (_, 5) => u32::MAX - random.below(6) as u32,
        (_, 6) => u32::MAX - 510 - random.below(4) as u32,
        _ => random.next() as u32,
    };
    (0..COUNTS).map(|_| count()).collect()
}

/// Counts with room for no entry, or for one or a few.
pub fn counts_near(random: &mut Random) -> Vec<u32> {
    let mut count = || match random.below(6) {
        0 => 0,
        1..4 => u32::MAX,
        4 => u32::MAX - 1,
        _ => u32::MAX - random.below(4) as u32,
    };
    (0..COUNTS).map(|_| count()).collect()
}

/// "A restore sets admitted to the entries present and the rest to 0".
pub fn counts_restored(state: &State) -> Vec<u32> {
    vec![u32::from(state.memory[0]), 0, 0, 0, 0]
}

pub fn board(random: &mut Random) -> Board {
    let running = match random.below(4) {
        0 => [false; 4],
        1 => [true; 4],
        _ => [(); 4].map(|()| random.one_in(2)),
    };
    Board {
        running,
        overflow: random.one_in(2),
    }
}

fn debounce(random: &mut Random, row: &Row) -> i32 {
    let (bottom, top) = (row.bottom(), row.top());
    if row.kind == KIND_INTERNAL {
        return 0;
    }
    match random.below(5) {
        0 => 0,
        1 => random.pick(&[bottom, top]),
        2 => random.pick(&[bottom + 1, top - 1]),
        3 => random.pick(&[-1, 1]),
        _ => random.between(bottom, top),
    }
}

fn record(random: &mut Random, row: &Row) -> [u8; 4] {
    let status = status(random, row);
    let near = |random: &mut Random, limit: i32| match random.below(3) {
        0 => 0,
        1 => (limit - 1) as u8,
        _ => random.below(limit as usize) as u8,
    };
    let k = match status & PENDING {
        0 => 0,
        _ => random.pick(&[1, 1, 2, 3, 253, 254, 255]),
    };
    let h = match status & WARNING {
        0 => 0,
        _ => near(random, row.heal),
    };
    let g = match status & CONFIRMED {
        0 => 0,
        _ => near(random, row.age),
    };
    [status, k, h, g]
}

/// A random byte, bent until it keeps the clauses on the status.
fn status(random: &mut Random, row: &Row) -> u8 {
    let mut status = random.byte();
    if status & NOT_COMPLETED_SINCE_CLEAR != 0 && random.one_in(3) {
        return FRESH_STATUS;
    }
    status &= !NOT_COMPLETED_SINCE_CLEAR;
    if status & FAILED_THIS_CYCLE != 0 {
        status = (status | PENDING) & !NOT_COMPLETED_THIS_CYCLE;
    }
    if row.indicator == 0 {
        status &= !WARNING;
    }
    if status & WARNING != 0 {
        status |= CONFIRMED;
    }
    if status & (TEST_FAILED | PENDING | CONFIRMED) != 0 {
        status |= FAILED_SINCE_CLEAR;
    }
    status
}

/// Entries for some of the events with bit 5, in any order.
fn fill_memory(random: &mut Random, config: &Configuration, state: &mut State) {
    let failed = |event: &usize| state.records[4 * event] & FAILED_SINCE_CLEAR != 0;
    let mut events: Vec<usize> = (0..config.events).filter(failed).collect();
    let mut wanted = config.places.min(events.len());
    if random.one_in(3) {
        wanted = random.below(wanted + 1);
    }
    for entry in state.memory[1..]
        .chunks_exact_mut(config.entry())
        .take(wanted)
    {
        let event = events.swap_remove(random.below(events.len()));
        let count = random.pick(&[1, 2, 3, 254, 255]);
        entry[..3].copy_from_slice(&[(event >> 8) as u8, event as u8, count]);
        entry[3..].fill_with(|| random.byte());
        // Some failed once only: both frames are the same.
        if random.one_in(3) {
            entry.copy_within(3..3 + config.frame, 3 + config.frame);
        }
    }
    state.memory[0] = wanted as u8;
}

/// The events that have entries, the oldest first.
pub fn events_of(config: &Configuration, state: &State) -> Vec<usize> {
    let entries = state.memory[1..].chunks_exact(config.entry());
    let in_use = entries.take(usize::from(state.memory[0]));
    in_use
        .map(|entry| usize::from(entry[0]) << 8 | usize::from(entry[1]))
        .collect()
}

/// Blocks of the right lengths that hold anything.
pub fn junk(random: &mut Random, config: &Configuration) -> State {
    State {
        records: random.bytes(4 * config.events),
        debounce: (0..config.events).map(|_| random.next() as i32).collect(),
        memory: random.bytes(config.memory()),
        counts: (0..COUNTS).map(|_| random.next() as u32).collect(),
        board: board(random),
    }
}

pub fn edition(random: &mut Random) -> u8 {
    random.pick(&[EDITION_1, EDITION_2])
}

/// The image of this edition that a state's bytes make, well formed or not: the
/// first byte of memory says how many entries it holds, and zeros stand for missing
/// ones. Of edition 1 it has the first frames alone.
pub fn image(config: &Configuration, edition: u8, state: &State) -> Vec<u8> {
    let count = state.memory.first().copied().unwrap_or(0);
    let mut entries = state.memory.get(1..).unwrap_or_default().to_vec();
    entries.resize(usize::from(count) * config.entry(), 0);
    let width = config.entry_of(edition).expect("an edition");
    let mut memory = vec![count];
    for entry in entries.chunks_exact(config.entry()) {
        memory.extend(&entry[..width]);
    }
    let mut image = image_head(config, edition, memory.len()).to_vec();
    image.extend(&state.records);
    image.extend(memory);
    image.push(u8::from(state.board.overflow));
    image
}

/// The state that an image of edition 1 of this state tells: each entry's one frame is both.
pub fn told_by_edition_1(config: &Configuration, state: &State) -> State {
    let mut told = state.clone();
    let entries = usize::from(state.memory[0]);
    for entry in told.memory[1..]
        .chunks_exact_mut(config.entry())
        .take(entries)
    {
        entry.copy_within(3..3 + config.frame, 3 + config.frame);
    }
    told
}
