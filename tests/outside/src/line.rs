//! The pipes to one run of the C program. Calls are sent ahead of their answers:
//! a thread reads these and compares each with what was expected.

use crate::call::{Call, Outcome, Values};
use crate::door::{Answer, Asked, Board, Lengths, Program, Way};
use crate::reference::{State, DONE};
use crate::tally::{first_difference, Tally};
use std::io::{self, BufReader, BufWriter, Write};
use std::process::{Child, ChildStdin, ChildStdout};
use std::sync::mpsc::{channel, Receiver, Sender};
use std::thread::{self, JoinHandle};

/// What one call must answer and leave.
pub struct Expected {
    /// The call in words.
    pub place: String,
    pub way: Way,
    pub call: Call,
    pub config: Vec<i32>,
    pub outcome: Outcome,
    pub board: Board,
    pub after: State,
    pub room: Vec<u8>,
    /// The bytes of the frame in the event's entry, for a call that reads it.
    pub frame: Vec<u8>,
}

impl Expected {
    fn lengths(&self) -> Lengths {
        Lengths {
            config: self.config.len(),
            records: self.after.records.len(),
            debounce: self.after.debounce.len(),
            memory: self.after.memory.len(),
            counts: self.after.counts.len(),
            input: self.call.input().len(),
            room: self.room.len(),
        }
    }

    fn difference(&self, answer: &Answer) -> Option<String> {
        let got = outcome(&self.call, answer);
        let first = trespass(answer)
            .or_else(|| self.unlike(&got))
            .or_else(|| self.of_board(answer.board))
            .or_else(|| self.of_blocks(answer))
            .or_else(|| self.of_frame(&got, &answer.memory))?;
        Some(format!("{}, {}: {first}", self.place, self.way_in_words()))
    }

    fn way_in_words(&self) -> &'static str {
        match self.way {
            Way::Plain => "by the plain call",
            Way::Context => "on a context",
            Way::Begin => "by grelpicado_begin",
        }
    }

    fn unlike(&self, got: &Outcome) -> Option<String> {
        (*got != self.outcome).then(|| format!("answered {got}, not {}", self.outcome))
    }

    /// "Hands back the board it was given"; a done call 0 and 1 only.
    fn of_board(&self, found: Board) -> Option<String> {
        let wanted = self.board;
        (found != wanted).then(|| format!("board is {found:?}, not {wanted:?}"))
    }

    /// "A refusal changes nothing lent", and no call what it only reads.
    fn of_blocks(&self, answer: &Answer) -> Option<String> {
        let after = &self.after;
        let first = first_difference("configuration", &answer.config, &self.config)
            .or_else(|| first_difference("input", &answer.input, self.call.input()))
            .or_else(|| first_difference("records", &answer.records, &after.records))
            .or_else(|| first_difference("debounce", &answer.debounce, &after.debounce))
            .or_else(|| first_difference("memory", &answer.memory, &after.memory))
            .or_else(|| first_difference("counts", &answer.counts, &after.counts))
            .or_else(|| first_difference("room", &answer.room, &self.room))?;
        Some(match self.outcome.number {
            DONE => first,
            _ => format!("changed by a refusal, {first}"),
        })
    }

    /// "The stored frame is read as a part of the caller's own memory block."
    fn of_frame(&self, got: &Outcome, memory: &[u8]) -> Option<String> {
        let Values::Frame { start, length } = got.values else {
            return None;
        };
        match memory.get(start..start.saturating_add(length)) {
            Some(found) => first_difference("frame", found, &self.frame),
            None => Some("the frame is outside the memory block".to_string()),
        }
    }
}

fn outcome(call: &Call, answer: &Answer) -> Outcome {
    let (start, length) = (answer.start, answer.length);
    let values = match call {
        Call::Report { .. } => Values::Verdict(answer.value),
        Call::ReadStatus { .. } => Values::Status(answer.value),
        Call::ReadCounter { .. } => Values::Counter(answer.start as i64),
        Call::ReadPaint { .. } => Values::Paint(answer.value),
        Call::ReadFrame { .. } => Values::Frame { start, length },
        Call::ReadMissing { .. } => Values::Missing {
            count: start,
            lowest: length,
        },
        Call::Save { .. } | Call::Request { .. } | Call::ListGrey { .. } => Values::Length(length),
        _ => Values::Nothing,
    };
    Outcome {
        number: answer.number,
        values,
    }
}

/// What the bits of an answer's `broken` stand for.
const BLOCKS: [&str; 7] = [
    "configuration",
    "records",
    "debounce numbers",
    "memory",
    "counts",
    "frame, image or request",
    "room",
];

fn trespass(answer: &Answer) -> Option<String> {
    if answer.broken == 0 {
        return None;
    }
    Some(match BLOCKS.get(answer.broken.trailing_zeros() as usize) {
        Some(block) => format!("a byte beside the {block} was written"),
        None => "the context holds other blocks than before".to_string(),
    })
}

/// What the reading thread found.
#[derive(Default)]
struct Found {
    differences: Vec<String>,
    /// The call that was not answered, or what came without being asked for.
    broke_off: Option<String>,
}

pub struct Line {
    child: Child,
    to: BufWriter<ChildStdin>,
    expected: Sender<Expected>,
    reader: JoinHandle<Found>,
    bytes: Vec<u8>,
    turns: u64,
}

impl Line {
    pub fn open(program: &Program) -> Line {
        let mut child = program.listen();
        let to = child.stdin.take().expect("piped");
        let from = child.stdout.take().expect("piped");
        let (expected, wanted) = channel();
        Line {
            child,
            to: BufWriter::with_capacity(1 << 16, to),
            expected,
            reader: thread::spawn(move || compare(from, wanted)),
            bytes: Vec::new(),
            turns: 0,
        }
    }

    /// Which call of this run the next one is.
    pub fn turn(&mut self) -> u64 {
        self.turns += 1;
        self.turns
    }

    /// A call's bytes, taken before the blocks change.
    pub fn prepare(&mut self, asked: &Asked) {
        self.bytes.clear();
        asked.write(&mut self.bytes);
    }

    /// Sends the call that was prepared. To a program that has ended nothing can be sent; the
    /// reading thread tells it.
    pub fn send(&mut self, expected: Expected) {
        let _ = self.expected.send(expected);
        let _ = self.to.write_all(&self.bytes);
    }

    /// Ends the run, and tells what differed.
    pub fn close(self, tally: &mut Tally) {
        let Line {
            mut child,
            mut to,
            expected,
            reader,
            ..
        } = self;
        let _ = to.flush();
        drop(to.into_parts());
        drop(expected);
        let found = reader.join().expect("the reading thread ends");
        let status = child.wait().expect("the program was started");
        for difference in found.differences {
            tally.differ(difference);
        }
        match found.broke_off {
            Some(place) => tally.differ(format!("the C program ended ({status}) in {place}")),
            None if !status.success() => tally.differ(format!("the C program ended: {status}")),
            None => {}
        }
    }
}

fn compare(from: ChildStdout, wanted: Receiver<Expected>) -> Found {
    let mut from = BufReader::with_capacity(1 << 16, from);
    let mut found = Found::default();
    for (turn, expected) in (1..).zip(wanted) {
        match Answer::read(&mut from, &expected.lengths()) {
            Ok(answer) if answer.turn == turn => {
                found.differences.extend(expected.difference(&answer));
            }
            Ok(_) => {
                let text = format!("{} is answered by another call's answer", expected.place);
                found.differences.push(text);
                break;
            }
            Err(_) => {
                found.broke_off = Some(format!("{}, {}", expected.place, expected.way_in_words()));
                break;
            }
        }
    }
    // What nobody asked for is read too, or the program would wait for a reader.
    if !matches!(io::copy(&mut from, &mut io::sink()), Ok(0)) && found.differences.is_empty() {
        let text = "the C program answered more than it was asked";
        found.differences.push(text.to_string());
    }
    found
}
