//! Hostile calls: any numbers, any bytes, any lengths, lent to every call.

use crate::call::{Call, ANSWERS};
use crate::compare::Comparison;
use crate::damage;
use crate::door::{self, Program};
use crate::making;
use crate::random::Random;
use crate::reference::{self, Board, Configuration, State, ALL_CODES, EDITION_2};
use crate::tally::Tally;

/// The test fails when some answer of the documents' table was not given in so many calls.
const ENOUGH: u64 = 100_000;

/// Calls made under one configuration.
const CALLS_EACH: usize = 30;

/// The lengths of the counts that are lent beside the right one.
const OTHER_LENGTHS: [usize; 5] = [0, 1, 4, 6, 10];

/// How often each call gave each answer.
pub type Counts = [[u64; 13]; ANSWERS.len()];

/// How often each call was lent counts of each other length, where nothing else was wrong.
type Lent = [[u64; OTHER_LENGTHS.len()]; ANSWERS.len()];

pub fn run(program: &Program, rounds: u64, seed: u64) -> (Tally, Counts) {
    let mut random = Random::new(!seed);
    let mut both = Comparison::new("hostile", program, !seed);
    let mut counts = Counts::default();
    let mut lent = Lent::default();
    while both.tally.ran < rounds {
        let numbers = making::configuration(&mut random);
        let config = Configuration::judge(&numbers).expect("made to be right");
        let board = making::board(&mut random);
        let mut state = making::state(&mut random, &config, board);
        let left = (rounds - both.tally.ran).min(CALLS_EACH as u64);
        for _ in 0..left {
            let made = attack(&mut random, &mut both, &numbers, &mut state);
            counts[made.call][made.number] += 1;
            if let Some(at) = made.length {
                lent[made.call][at] += 1;
            }
        }
    }
    if rounds >= ENOUGH {
        missed(&mut both.tally, &counts, &lent);
    }
    (both.finish(), counts)
}

/// What no call was, of all that should have been.
fn missed(tally: &mut Tally, counts: &Counts, lent: &Lent) {
    for (call, (name, numbers)) in ANSWERS.iter().enumerate() {
        for number in numbers.iter() {
            if counts[call][usize::from(*number)] == 0 {
                tally.miss(format!("{name} answers {number}"));
            }
        }
        for (at, length) in OTHER_LENGTHS.iter().enumerate() {
            if lent[call][at] == 0 {
                tally.miss(format!("{name} with {length} counts"));
            }
        }
    }
}

/// What is damaged of all that a call is lent.
struct Damaged {
    config: bool,
    state: bool,
    /// Which of the other lengths the counts have.
    length: Option<usize>,
}

fn damaged(random: &mut Random) -> Damaged {
    let (config, state) = match random.below(100) {
        0..9 => (true, false),
        9..13 => (true, true),
        13..40 => (false, true),
        _ => (false, false),
    };
    Damaged {
        config,
        state,
        length: random.one_in(8).then(|| random.below(OTHER_LENGTHS.len())),
    }
}

/// A call that was made: its row in ANSWERS, its answer, and which other length its counts had, where
/// nothing else was damaged.
struct Made {
    call: usize,
    number: usize,
    length: Option<usize>,
}

/// One call. Damage is done to copies, so that the state stays well formed.
fn attack(random: &mut Random, both: &mut Comparison, numbers: &[i32], state: &mut State) -> Made {
    let config = Configuration::judge(numbers).expect("made to be right");
    let call = call(random, &config, state);
    let fill = random.byte();
    if random.one_in(3) {
        state.counts = making::counts_lent(random);
    }
    let of = damaged(random);
    // Fresh and restore would end a state that is worth attacking again.
    let replaces = matches!(call, Call::Fresh | Call::Restore { .. });
    let outcome = if of.config || of.state || of.length.is_some() || replaces {
        let mut lent = state.clone();
        if of.state {
            damage::state(random, &config, &mut lent);
        }
        if let Some(at) = of.length {
            lent.counts.resize(OTHER_LENGTHS[at], u32::MAX);
        }
        let lent_numbers = match of.config {
            true => damage::configuration(random, numbers),
            false => numbers.to_vec(),
        };
        let board = board_bytes(random, &lent.board);
        both.call(&lent_numbers, &mut lent, board, &call, fill)
    } else {
        let board = board_bytes(random, &state.board);
        both.call(numbers, state, board, &call, fill)
    };
    Made {
        call: call.index(),
        number: usize::from(outcome.number),
        length: of.length.filter(|_| !of.config && !of.state),
    }
}

/// The board as any bytes that mean it: 0 no, anything else yes.
fn board_bytes(random: &mut Random, board: &Board) -> door::Board {
    let mut flag = |yes: bool| match yes {
        true => random.pick(&[1, 1, 2, 0x80, 0xFE, 0xFF]) | random.byte() & 0x7E,
        false => 0,
    };
    door::Board {
        running: board.running.map(&mut flag),
        overflow: flag(board.overflow),
    }
}

fn call(random: &mut Random, config: &Configuration, state: &State) -> Call {
    match random.below(ANSWERS.len()) {
        0 => Call::Fresh,
        1 => report(random, config),
        2 => Call::Tick {
            ms: ms(random),
            frame: frame(random, config),
            present: present(random, config, config.events),
        },
        3 => Call::Start {
            cycle: cycle(random),
        },
        4 => Call::Stop {
            cycle: cycle(random),
        },
        5 => Call::Clear {
            code: trouble_code(random, config),
        },
        8 => Call::Save {
            room: image_room(random, config, state),
        },
        9 => Call::Restore {
            image: image(random, config),
        },
        10 => Call::Request {
            request: request(random, config),
            room: reply_room(random, config),
        },
        12 => Call::ReadTable,
        14 => Call::ListGrey {
            numbers: list(random, config, state),
        },
        which => reading(random, config, which),
    }
}

fn report(random: &mut Random, config: &Configuration) -> Call {
    let event = event(random, config);
    Call::Report {
        event,
        code: report_code(random),
        frame: frame(random, config),
        present: present(random, config, event),
    }
}

/// A set of conditions: for this event, or for any where there is no such event.
fn present(random: &mut Random, config: &Configuration, event: usize) -> u32 {
    let any = random.below(config.events);
    let event = if event < config.events { event } else { any };
    making::present(random, config.row(event).needed)
}

/// The calls that read one event, by their rows in ANSWERS.
fn reading(random: &mut Random, config: &Configuration, which: usize) -> Call {
    let event = event(random, config);
    match which {
        6 => Call::ReadStatus { event },
        7 => {
            let which = random.pick(&[0, 0, 1, 1, 2, 0xFF, 0x100, u32::MAX]);
            Call::ReadFrame { event, which }
        }
        11 => Call::ReadCounter { event },
        13 => Call::ReadPaint { event },
        _ => {
            let present = present(random, config, event);
            Call::ReadMissing { event, present }
        }
    }
}

/// An event number, also such as are right only if cut to 8, 16 or 32 bits.
fn event(random: &mut Random, config: &Configuration) -> usize {
    let n = config.events;
    let known = random.below(n);
    let two_32 = (1u64 << 32) as usize;
    match random.percent(85) {
        true => known,
        false => random.pick(&[
            n,
            n + 1,
            256 + known,
            512,
            65_535,
            65_536,
            65_536 + known,
            two_32 - 1,
            two_32 + known,
            isize::MAX as usize,
            usize::MAX - known,
            usize::MAX,
        ]),
    }
}

/// A 32-bit number: one of the right ones, or near them, or right if cut.
fn wide(random: &mut Random, right: u32, last: u32) -> u32 {
    match random.percent(85) {
        true => right,
        false => random.pick(&[
            last,
            last + 1,
            last + 2,
            255,
            256 + right % 256,
            65_535,
            65_536 + right % 65_536,
            (1 << 31) + right,
            u32::MAX,
            u32::MAX - right,
        ]),
    }
}

fn report_code(random: &mut Random) -> u32 {
    let right = random.below(4) as u32;
    wide(random, right, 3)
}

fn cycle(random: &mut Random) -> u32 {
    let right = random.below(4) as u32;
    wide(random, right, 3)
}

fn ms(random: &mut Random) -> u32 {
    let any = random.below(60_001) as u32;
    let right = random.pick(&[0, 1, 2, 10, 1_000, 59_999, 60_000, any]);
    wide(random, right, 60_000)
}

fn trouble_code(random: &mut Random, config: &Configuration) -> u32 {
    let known = config.row(random.below(config.events)).trouble_code as u32;
    match random.below(10) {
        0..5 => known,
        5 => ALL_CODES,
        6 => random.pick(&[known - 1, known + 1, ALL_CODES - 1, 0]),
        7 => random.pick(&[known + (1 << 24), known | 0xFF00_0000, known + (1 << 31)]),
        8 => random.pick(&[0x01FF_FFFF, 0x0100_0000, u32::MAX]),
        _ => random.next() as u32,
    }
}

/// Bytes of a length that is F, near it, or F if cut to 8 or 16 bits.
fn frame(random: &mut Random, config: &Configuration) -> Vec<u8> {
    let f = config.frame;
    let length = match random.below(200) {
        0..170 => f,
        170..176 => f + 1,
        176..182 => f.saturating_sub(1),
        182..187 => 0,
        187..192 => random.below(70),
        192..199 => 256 + f,
        _ => 65_536 + f,
    };
    random.bytes(length)
}

fn image_room(random: &mut Random, config: &Configuration, state: &State) -> usize {
    let exact = making::image(config, EDITION_2, state).len();
    let any = random.below(exact);
    random.pick(&[
        exact,
        exact,
        exact + 1,
        exact + 40,
        exact - 1,
        any,
        20,
        1,
        0,
    ])
}

fn reply_room(random: &mut Random, config: &Configuration) -> usize {
    let n = config.events;
    let some = 3 + 4 * random.below(n + 1);
    let all = 3 + 4 * n;
    let small = random.below(9);
    // What shows one event takes 6 bytes, or 7 + 2F with its frames, or 11.
    let one = random.pick(&[6, 7 + 2 * config.frame, 7 + config.frame, 11]);
    let just = one - random.below(2);
    random.pick(&[
        all,
        all,
        all + 5,
        all - 1,
        some,
        some + 1,
        some - 1,
        small,
        just,
        just,
    ])
}

/// How many numbers a list holds: as many as there are grey events, or near, or any.
fn list(random: &mut Random, config: &Configuration, state: &State) -> usize {
    let exact = reference::grey_events(config, state).len();
    let any = random.below(config.events + 1);
    let short = exact.saturating_sub(1);
    random.pick(&[exact, exact, short, exact + 1, config.events, any, 0])
}

/// The image of some state of stopped cycles, of either edition, whole or damaged, or no image at all.
fn image(random: &mut Random, config: &Configuration) -> Vec<u8> {
    let board = Board {
        running: [false; 4],
        overflow: random.one_in(2),
    };
    let mut state = making::state(random, config, board);
    let edition = making::edition(random);
    match random.below(10) {
        0..3 => making::image(config, edition, &state),
        3..5 => {
            // A right head over bodies that need not be well formed.
            damage::state(random, config, &mut state);
            making::image(config, edition, &state)
        }
        5..8 => damage::image(random, making::image(config, edition, &state)),
        8 => {
            let numbers = making::configuration(random);
            let other = Configuration::judge(&numbers).expect("made to be right");
            let state = making::state(random, &other, board);
            making::image(&other, edition, &state)
        }
        _ => {
            let length = random.pick(&[0, 1, 19, 20, 26, 30, 100]);
            random.bytes(length)
        }
    }
}

fn request(random: &mut Random, config: &Configuration) -> Vec<u8> {
    let mask = random.byte();
    let top = random.pick(&[0, 0, 0x80]);
    let [_, high, middle, low] = trouble_code(random, config).to_be_bytes();
    let number = random.pick(&[0x01, 0x01, 0x01, 0xFF, 0xFF, 0x00, 0x02, 0xFE, mask]);
    let mut request = match random.below(14) {
        0 | 1 => vec![0x19, top | 0x01, mask],
        2 | 3 => vec![0x19, top | 0x02, mask],
        4 => vec![0x19, top | 0x0A],
        5 | 6 => vec![0x14, high, middle, low],
        7 | 8 => vec![0x19, top | 0x14],
        9 | 10 => vec![0x19, top | 0x04, high, middle, low, number],
        11 | 12 => vec![0x19, top | 0x06, high, middle, low, number],
        _ => {
            let length = random.below(8);
            random.bytes(length)
        }
    };
    if let (Some(first), true) = (request.first_mut(), random.one_in(2)) {
        *first = random.pick(&[0x19, 0x14]);
    }
    match random.below(12) {
        0 => request.push(mask),
        1 => drop(request.pop()),
        2 => request.clear(),
        3 => request.truncate(1),
        4 => damage::one_byte(random, &mut request),
        _ => {}
    }
    request
}

/// The table of counts, a line for each call.
pub fn print(counts: &Counts) {
    for ((name, numbers), row) in ANSWERS.iter().zip(counts) {
        let met = numbers.iter().map(|number| {
            let times = row[usize::from(*number)];
            format!(" {number}:{times}")
        });
        println!("  {name:12}{}", met.collect::<String>());
    }
}
