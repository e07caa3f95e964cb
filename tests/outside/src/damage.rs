//! Damage to configurations, states and images: small, near the bounds, or wild.

use crate::random::Random;
use crate::reference::{Configuration, State, EDITION_1, EDITION_2, ROW};

/// Numbers of the configuration in front of its rows.
const FRONT: usize = 3;

/// The bounds of the three numbers in front, and of a row's fourteen.
const FRONT_BOUNDS: [(i32, i32); FRONT] = [(1, 512), (1, 64), (0, 32)];
const ROW_BOUNDS: [(i32, i32); ROW] = [
    (1, 16_777_214),
    (1, 255),
    (0, 3),
    (0, 2),
    (-30_000, -1),
    (1, 30_000),
    (1, 30_000),
    (1, 30_000),
    (0, 3),
    (1, 255),
    (1, 255),
    (1, 255),
    (0, 1),
    (0, i32::MAX),
];

/// A configuration that mostly breaks its table, from one that keeps it.
pub fn configuration(random: &mut Random, right: &[i32]) -> Vec<i32> {
    let mut numbers = right.to_vec();
    let rows = (right.len() - FRONT) / ROW;
    match random.below(12) {
        0 => {
            let length = random.pick(&[0, 1, 2, 3, 4, 16, 17, 18, 31, 200]);
            return (0..length).map(|_| any_number(random)).collect();
        }
        1 => numbers[FRONT..].fill_with(|| any_number(random)),
        2 => {
            let by = random.pick(&[1, ROW, right.len(), right.len() - 2]);
            numbers.truncate(right.len() - by.min(right.len()));
        }
        3 => {
            let by = random.pick(&[1, ROW - 1, ROW, 2 * ROW]);
            numbers.extend((0..by).map(|_| any_number(random)));
        }
        // A table that is filled in half.
        4 => numbers[FRONT + ROW * random.below(rows)..].fill(0),
        5 if rows > 1 => {
            // Two neighbours change places, or their codes are equal.
            let at = FRONT + ROW * (1 + random.below(rows - 1));
            match random.one_in(2) {
                true => numbers.swap(at, at - ROW),
                false => numbers[at] = numbers[at - ROW],
            }
        }
        6 => one_event(random, &mut numbers),
        // Rows as document 01 alone has them.
        7 => numbers = without_needed(right),
        _ => one_number(random, &mut numbers),
    }
    numbers
}

fn without_needed(right: &[i32]) -> Vec<i32> {
    let (front, rows) = right.split_at(FRONT);
    let rows = rows.chunks_exact(ROW).flat_map(|row| &row[..ROW - 1]);
    front.iter().chain(rows).copied().collect()
}

/// One event more or less, with the length to match: past 512, down to none.
fn one_event(random: &mut Random, numbers: &mut Vec<i32>) {
    let last = numbers.len() - ROW;
    if random.one_in(2) {
        numbers.truncate(last);
        numbers[0] -= 1;
    } else {
        numbers.extend_from_within(last..);
        numbers[last + ROW] += 1;
        numbers[0] += 1;
    }
}

/// Sets one number to a value near its bounds, or to a wild one.
fn one_number(random: &mut Random, numbers: &mut [i32]) {
    let (at, (low, high)) = match random.below(4) {
        0 => {
            let at = random.below(FRONT);
            (at, FRONT_BOUNDS[at])
        }
        _ => {
            let at = random.below(numbers.len() - FRONT);
            (FRONT + at, ROW_BOUNDS[at % ROW])
        }
    };
    let was = numbers[at];
    numbers[at] = random.pick(&[
        low - 1,
        low,
        high,
        high.wrapping_add(1),
        0,
        -1,
        1,
        was - 1,
        was.wrapping_add(1),
        was.wrapping_add(256),
        was.wrapping_add(65_536),
        -was,
        i32::MIN,
        i32::MAX,
    ]);
}

fn any_number(random: &mut Random) -> i32 {
    match random.below(4) {
        0 => random.pick(&[i32::MIN, i32::MIN + 1, -1, i32::MAX]),
        1 => random.next() as i32,
        _ => random.between(0, 20),
    }
}

/// Damages one thing about a state. It may by chance stay well formed.
pub fn state(random: &mut Random, config: &Configuration, state: &mut State) {
    match random.below(12) {
        0 => length(random, &mut state.records),
        1 => length(random, &mut state.debounce),
        2 => length(random, &mut state.memory),
        3..6 => one_byte(random, &mut state.records),
        6 => one_debounce(random, config, state),
        7 => one_byte(random, &mut state.memory),
        8 => state.memory[0] = random.pick(&[1, 64, 65, 128, 255, config.places as u8 + 1]),
        9 => one_entry(random, config, state),
        10 => {
            // A byte after the last entry, if there is one.
            let end = 1 + usize::from(state.memory[0]) * config.entry();
            one_byte(random, &mut state.memory[end..]);
        }
        _ => {
            let cycle = random.below(4);
            state.board.running[cycle] = !state.board.running[cycle];
        }
    }
}

fn length<T: Clone + Default>(random: &mut Random, block: &mut Vec<T>) {
    let length = block.len();
    let any = random.below(length);
    let changed = random.pick(&[0, 1, any, length - 1, length + 1, length + 4, 2 * length]);
    block.resize(changed, T::default());
}

/// Changes a byte by one bit, by one, or to anything.
pub fn one_byte(random: &mut Random, bytes: &mut [u8]) {
    if bytes.is_empty() {
        return;
    }
    let at = random.below(bytes.len());
    let was = bytes[at];
    bytes[at] = match random.below(4) {
        0 | 1 => was ^ 1 << random.below(8),
        2 => was.wrapping_add(random.pick(&[1, 255])),
        _ => random.byte(),
    };
}

fn one_debounce(random: &mut Random, config: &Configuration, state: &mut State) {
    let event = random.below(config.events);
    let row = config.row(event);
    state.debounce[event] = random.pick(&[
        row.bottom() - 1,
        row.bottom(),
        row.top(),
        row.top() + 1,
        1,
        -1,
        65_536,
        i32::MIN,
        i32::MAX,
    ]);
}

/// An entry's event number or occurrence count, the first three bytes of its place.
fn one_entry(random: &mut Random, config: &Configuration, state: &mut State) {
    let places = usize::from(state.memory[0]).max(1);
    let at = 1 + random.below(places) * config.entry();
    let other = 1 + random.below(places) * config.entry();
    let past = config.events as u16;
    match random.below(5) {
        0 => state.memory.copy_within(other..other + 2, at),
        1 => state.memory[at + 2] = 0,
        2 => state.memory[at..at + 2].copy_from_slice(&past.to_be_bytes()),
        3 => state.memory[at] = random.byte(),
        _ => {
            let event = random.below(config.events) as u16;
            state.memory[at..at + 2].copy_from_slice(&event.to_be_bytes());
        }
    }
}

/// The same bytes under the other edition's number.
pub fn other_edition(image: &[u8]) -> Vec<u8> {
    let mut other = image.to_vec();
    other[1] ^= EDITION_1 ^ EDITION_2;
    other
}

/// Changes a byte of an image (of its head as often as not) or its edition, cuts or extends it.
pub fn image(random: &mut Random, mut image: Vec<u8>) -> Vec<u8> {
    let length = image.len();
    match random.below(8) {
        0 | 1 => one_byte(random, &mut image[..20]),
        2 => one_byte(random, &mut image),
        5 => image = other_edition(&image),
        6 => image[1] = random.pick(&[0, 1, 2, 3, 0x80, 0xFF]),
        3 => {
            // The overflow flag.
            image[length - 1] = random.byte();
        }
        4 => {
            let any = random.below(length);
            image.truncate(random.pick(&[length - 1, length - 2, any, 20, 19]));
        }
        _ => {
            let by = random.pick(&[1, 2, 30]);
            let byte = random.pick(&[0, 0, 1, 0xFF]);
            image.resize(length + by, byte);
        }
    }
    image
}
