//! One call with its arguments, what it answers, and how the reference takes it.

use crate::reference::{self, Paint, State, Verdict, Which, DONE};
use std::fmt;

#[derive(Clone, PartialEq, Eq, Debug)]
pub enum Call {
    Fresh,
    Report {
        event: usize,
        code: u32,
        frame: Vec<u8>,
        present: u32,
    },
    Tick {
        ms: u32,
        frame: Vec<u8>,
        present: u32,
    },
    Start {
        cycle: u32,
    },
    Stop {
        cycle: u32,
    },
    Clear {
        code: u32,
    },
    ReadStatus {
        event: usize,
    },
    /// Which frame as C has it: 0 the first, anything else the latest.
    ReadFrame {
        event: usize,
        which: u32,
    },
    /// The room by its length.
    Save {
        room: usize,
    },
    Restore {
        image: Vec<u8>,
    },
    Request {
        request: Vec<u8>,
        room: usize,
    },
    ReadCounter {
        event: usize,
    },
    /// Its counts stand in the room.
    ReadTable,
    ReadPaint {
        event: usize,
    },
    /// The list by how many numbers it holds; they stand in the room.
    ListGrey {
        numbers: usize,
    },
    ReadMissing {
        event: usize,
        present: u32,
    },
}

/// What a call answers beside its number and the board.
#[derive(Clone, Copy, PartialEq, Eq, Debug)]
pub enum Values {
    Nothing,
    /// 0 none, 1 passed, 2 failed.
    Verdict(u8),
    Status(u8),
    Counter(i64),
    /// 0 grey, 1 red, 2 live.
    Paint(u8),
    Missing {
        count: usize,
        lowest: usize,
    },
    Frame {
        start: usize,
        length: usize,
    },
    Length(usize),
}

#[derive(Clone, Copy, PartialEq, Eq, Debug)]
pub struct Outcome {
    pub number: u8,
    pub values: Values,
}

/// The sixteen calls, and the numbers each can answer with.
pub const ANSWERS: [(&str, &[u8]); 16] = [
    ("fresh", &[0, 2, 3]),
    ("report", &[0, 2, 3, 4, 1, 6, 9, 5, 11, 12]),
    ("tick", &[0, 2, 3, 1, 9, 12]),
    ("start", &[0, 2, 3, 4, 5]),
    ("stop", &[0, 2, 3, 4, 5, 12]),
    ("clear", &[0, 2, 3, 4, 12]),
    ("read status", &[0, 2, 3, 4]),
    ("read frame", &[0, 2, 3, 4, 10]),
    ("save", &[0, 2, 3, 5, 7]),
    ("restore", &[0, 2, 3, 8]),
    ("request", &[0, 2, 3, 7, 1, 12]),
    ("read counter", &[0, 2, 3, 4]),
    ("read table", &[0, 2, 3]),
    ("read paint", &[0, 2, 3, 4]),
    ("list grey", &[0, 2, 3, 7]),
    ("read missing", &[0, 2, 3, 4]),
];

impl Call {
    /// The call's row in ANSWERS.
    pub fn index(&self) -> usize {
        match self {
            Call::Fresh => 0,
            Call::Report { .. } => 1,
            Call::Tick { .. } => 2,
            Call::Start { .. } => 3,
            Call::Stop { .. } => 4,
            Call::Clear { .. } => 5,
            Call::ReadStatus { .. } => 6,
            Call::ReadFrame { .. } => 7,
            Call::Save { .. } => 8,
            Call::Restore { .. } => 9,
            Call::Request { .. } => 10,
            Call::ReadCounter { .. } => 11,
            Call::ReadTable => 12,
            Call::ReadPaint { .. } => 13,
            Call::ListGrey { .. } => 14,
            Call::ReadMissing { .. } => 15,
        }
    }

    /// The bytes of the room that is lent; 0 for a call that takes none.
    pub fn room(&self) -> usize {
        match self {
            Call::Save { room } | Call::Request { room, .. } => *room,
            Call::ReadTable => 2 * reference::TABLE,
            Call::ListGrey { numbers } => 2 * numbers,
            _ => 0,
        }
    }

    /// The bytes that are lent to be read: a frame, an image or a request.
    pub fn input(&self) -> &[u8] {
        match self {
            Call::Report { frame, .. } | Call::Tick { frame, .. } => frame,
            Call::Restore { image } => image,
            Call::Request { request, .. } => request,
            _ => &[],
        }
    }

    /// The call's own numbers: event, cycle, milliseconds or trouble code; and a report's code, or
    /// which frame is read.
    pub fn numbers(&self) -> (usize, u32) {
        match self {
            Call::Report { event, code, .. } => (*event, *code),
            Call::ReadFrame { event, which } => (*event, *which),
            Call::ReadStatus { event }
            | Call::ReadCounter { event }
            | Call::ReadPaint { event }
            | Call::ReadMissing { event, .. } => (*event, 0),
            Call::Tick { ms, .. } => (*ms as usize, 0),
            Call::Start { cycle } | Call::Stop { cycle } => (*cycle as usize, 0),
            Call::Clear { code } => (*code as usize, 0),
            _ => (0, 0),
        }
    }

    /// The set of conditions that are present; none for a call that takes none.
    pub fn present(&self) -> u32 {
        match self {
            Call::Report { present, .. }
            | Call::Tick { present, .. }
            | Call::ReadMissing { present, .. } => *present,
            _ => 0,
        }
    }

    /// The calls that only read cannot change the board, and hand none back.
    pub fn hands_back_board(&self) -> bool {
        !matches!(
            self,
            Call::ReadStatus { .. }
                | Call::ReadFrame { .. }
                | Call::ReadCounter { .. }
                | Call::ReadTable
                | Call::ReadPaint { .. }
                | Call::ListGrey { .. }
                | Call::ReadMissing { .. }
                | Call::Save { .. }
        )
    }

    pub fn by_reference(&self, config: &[i32], state: &mut State, room: &mut [u8]) -> Outcome {
        match self {
            Call::Fresh => nothing(reference::fresh(config, state)),
            Call::Report { event, code, .. } => {
                let (frame, present) = (self.input(), self.present());
                let answered = reference::report(config, state, *event, *code, frame, present);
                verdict(answered)
            }
            Call::Tick { ms, frame, present } => {
                nothing(reference::tick(config, state, *ms, frame, *present))
            }
            Call::Start { cycle } => nothing(reference::start(config, state, *cycle)),
            Call::Stop { cycle } => nothing(reference::stop(config, state, *cycle)),
            Call::Clear { code } => nothing(reference::clear(config, state, *code)),
            Call::ReadStatus { event } => status(reference::read_status(config, state, *event)),
            Call::ReadFrame { event, which } => {
                let which = choice(*which);
                frame(reference::read_frame(config, state, *event, which))
            }
            Call::Save { .. } => length(reference::save(config, state, room)),
            Call::Restore { image } => nothing(reference::restore(config, state, image)),
            Call::Request { request, .. } => {
                length(reference::request(config, state, request, room))
            }
            Call::ReadCounter { event } => counter(reference::read_counter(config, state, *event)),
            Call::ReadTable => table(reference::read_table(config, state), room),
            Call::ReadPaint { event } => paint(reference::read_paint(config, state, *event)),
            Call::ListGrey { .. } => list(room, |list| {
                length(reference::list_grey(config, state, list))
            }),
            Call::ReadMissing { event, present } => {
                missing(reference::read_missing(config, state, *event, *present))
            }
        }
    }
}

/// The choice that a flag of C makes.
pub fn choice(which: u32) -> Which {
    match which {
        0 => Which::First,
        _ => Which::Latest,
    }
}

// "Any status, count or length it answers is 0, a frame part empty, a verdict none."

fn outcome<T>(answered: Result<T, u8>, refused: Values, done: impl Fn(T) -> Values) -> Outcome {
    match answered {
        Ok(value) => Outcome {
            number: DONE,
            values: done(value),
        },
        Err(number) => Outcome {
            number,
            values: refused,
        },
    }
}

fn nothing(answered: Result<(), u8>) -> Outcome {
    outcome(answered, Values::Nothing, |()| Values::Nothing)
}

fn verdict(answered: Result<Verdict, u8>) -> Outcome {
    outcome(answered, Values::Verdict(0), |verdict| {
        Values::Verdict(match verdict {
            Verdict::None => 0,
            Verdict::Passed => 1,
            Verdict::Failed => 2,
        })
    })
}

fn status(answered: Result<u8, u8>) -> Outcome {
    outcome(answered, Values::Status(0), Values::Status)
}

fn counter(answered: Result<i8, u8>) -> Outcome {
    outcome(answered, Values::Counter(0), |counter| {
        Values::Counter(i64::from(counter))
    })
}

/// "any status, count or length it answers is 0"
fn table(answered: Result<[u16; reference::TABLE], u8>, room: &mut [u8]) -> Outcome {
    put_numbers(room, &answered.unwrap_or([0; reference::TABLE]));
    outcome(answered, Values::Nothing, |_| Values::Nothing)
}

/// "A refusal … paints grey".
fn paint(answered: Result<Paint, u8>) -> Outcome {
    outcome(answered, Values::Paint(0), |paint| {
        Values::Paint(match paint {
            Paint::Grey => 0,
            Paint::Red => 1,
            Paint::Live => 2,
        })
    })
}

/// A room as the 16-bit numbers of a list, low byte first, as x86-64 has them.
fn list(room: &mut [u8], call: impl Fn(&mut [u16]) -> Outcome) -> Outcome {
    let (pairs, _) = room.as_chunks::<2>();
    let mut numbers: Vec<u16> = pairs.iter().map(|pair| u16::from_le_bytes(*pair)).collect();
    let outcome = call(&mut numbers);
    put_numbers(room, &numbers);
    outcome
}

pub fn put_numbers(room: &mut [u8], numbers: &[u16]) {
    for (pair, number) in room.chunks_exact_mut(2).zip(numbers) {
        pair.copy_from_slice(&number.to_le_bytes());
    }
}

/// "a refusal (4 for an unknown event) answers 0 and 0"
fn missing(answered: Result<(usize, usize), u8>) -> Outcome {
    let none = Values::Missing {
        count: 0,
        lowest: 0,
    };
    outcome(answered, none, |(count, lowest)| Values::Missing {
        count,
        lowest,
    })
}

fn frame(answered: Result<(usize, usize), u8>) -> Outcome {
    let empty = Values::Frame {
        start: 0,
        length: 0,
    };
    outcome(answered, empty, |(start, length)| Values::Frame {
        start,
        length,
    })
}

fn length(answered: Result<usize, u8>) -> Outcome {
    outcome(answered, Values::Length(0), Values::Length)
}

impl fmt::Display for Call {
    fn fmt(&self, f: &mut fmt::Formatter) -> fmt::Result {
        let name = ANSWERS[self.index()].0;
        match self {
            Call::Fresh | Call::ReadTable => write!(f, "{name}"),
            Call::Report {
                event, code, frame, ..
            } => {
                write!(f, "{name} event {event} code {code} frame {}", hex(frame))
            }
            Call::Tick { ms, frame, .. } => write!(f, "{name} {ms} ms frame {}", hex(frame)),
            Call::Start { cycle } | Call::Stop { cycle } => write!(f, "{name} cycle {cycle}"),
            Call::Clear { code } => write!(f, "{name} code {code}"),
            Call::ReadFrame { event, which } => write!(f, "{name} event {event} which {which}"),
            Call::ReadStatus { event }
            | Call::ReadCounter { event }
            | Call::ReadPaint { event }
            | Call::ReadMissing { event, .. } => {
                write!(f, "{name} event {event}")
            }
            Call::ListGrey { numbers } => write!(f, "{name} of {numbers} numbers"),
            Call::Save { room } => write!(f, "{name} room {room}"),
            Call::Restore { image } => write!(f, "{name} image {}", hex(image)),
            Call::Request { request, room } => {
                write!(f, "{name} {} room {room}", hex(request))
            }
        }?;
        match self {
            Call::Report { present, .. }
            | Call::Tick { present, .. }
            | Call::ReadMissing { present, .. } => write!(f, " conditions {present:#x}"),
            _ => Ok(()),
        }
    }
}

impl fmt::Display for Outcome {
    fn fmt(&self, f: &mut fmt::Formatter) -> fmt::Result {
        write!(f, "{}", self.number)?;
        match self.values {
            Values::Nothing => Ok(()),
            Values::Verdict(verdict) => write!(f, " verdict {verdict}"),
            Values::Status(status) => write!(f, " status {status:02X}h"),
            Values::Counter(counter) => write!(f, " counter {counter}"),
            Values::Paint(paint) => write!(f, " paint {paint}"),
            Values::Missing { count, lowest } => write!(f, " {count} missing, lowest {lowest}"),
            Values::Frame { start, length } => write!(f, " frame at {start}, {length} long"),
            Values::Length(length) => write!(f, " length {length}"),
        }
    }
}

/// Bytes for reading: `-` for none, and no more than the first 80.
pub fn hex(bytes: &[u8]) -> String {
    if bytes.is_empty() {
        return "-".to_string();
    }
    let mut text: String = bytes.iter().take(80).map(|b| format!("{b:02x}")).collect();
    if bytes.len() > 80 {
        text.push_str(&format!("... ({} bytes)", bytes.len()));
    }
    text
}
