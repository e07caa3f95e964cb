//! Runs the stored calls: every call with the blocks lent to it and what must come back.

use crate::call::{Call, Outcome, Values};
use crate::compare::{as_bytes, stored_frame};
use crate::door::{Asked, Program, Way};
use crate::line::{Expected, Line};
use crate::reference::{self, Board, Configuration, State, ALL_PRESENT, COUNTS, DONE};
use crate::tally::{first_difference, Tally};

/// The files, which the program `call_cases` runs too.
const FILES: [(&str, &str); 6] = [
    (
        "calls.txt",
        include_str!("../../../crates/call_cases/data/calls.txt"),
    ),
    (
        "counts.txt",
        include_str!("../../../crates/call_cases/data/counts.txt"),
    ),
    (
        "document.txt",
        include_str!("../../../crates/call_cases/data/document.txt"),
    ),
    (
        "states.txt",
        include_str!("../../../crates/call_cases/data/states.txt"),
    ),
    (
        "stories.txt",
        include_str!("../../../crates/call_cases/data/stories.txt"),
    ),
    (
        "untested.txt",
        include_str!("../../../crates/call_cases/data/untested.txt"),
    ),
];

/// "Rooms are given by their length and filled with A5h beforehand."
const FILL: u8 = 0xA5;

/// One call of a file.
struct Case {
    line: usize,
    /// Whether it is the fresh state that a story begins with, and not a call of it.
    begins: bool,
    config: Vec<i32>,
    before: State,
    call: Call,
    outcome: Outcome,
    room: Vec<u8>,
    after: State,
}

impl Case {
    /// What the reference makes of it, where that is not what the file says.
    fn by_reference(&self) -> Option<String> {
        let mut state = self.before.clone();
        let mut room = vec![FILL; self.call.room()];
        let got = self.call.by_reference(&self.config, &mut state, &mut room);
        let first = self.first(&got, &room, &state)?;
        Some(format!("{}, by the reference: {first}", self.place()))
    }

    fn place(&self) -> String {
        format!("line {} ({})", self.line, self.call)
    }

    fn first(&self, got: &Outcome, room: &[u8], after: &State) -> Option<String> {
        if *got != self.outcome {
            return Some(format!("answered {got}, not {}", self.outcome));
        }
        if after.board != self.after.board {
            let boards = (after.board, self.after.board);
            return Some(format!("board is {:?}, not {:?}", boards.0, boards.1));
        }
        first_difference("room", room, &self.room)
            .or_else(|| first_difference("records", &after.records, &self.after.records))
            .or_else(|| first_difference("debounce", &after.debounce, &self.after.debounce))
            .or_else(|| first_difference("memory", &after.memory, &self.after.memory))
            .or_else(|| first_difference("counts", &after.counts, &self.after.counts))
    }

    /// Sends it through the door. A board's bytes are 0 and 1 here, before and after.
    fn send(&self, line: &mut Line, way: Way) {
        let turn = line.turn();
        line.prepare(&Asked {
            way,
            timed: 0,
            turn,
            config: &self.config,
            state: &self.before,
            board: as_bytes(&self.before.board),
            call: &self.call,
            room: &vec![FILL; self.call.room()],
        });
        line.send(Expected {
            place: self.place(),
            way,
            call: self.call.clone(),
            config: self.config.clone(),
            outcome: self.outcome,
            board: as_bytes(&self.after.board),
            after: self.after.clone(),
            room: self.room.clone(),
            frame: stored_frame(&self.config, &self.before, &self.call),
        });
    }
}

/// Every file through the reference alone.
pub fn run_reference() -> Vec<Tally> {
    FILES.map(|file| run(file, |_| ())).into()
}

/// Every file through the door by both ways, and through the reference too.
pub fn run_both(program: &Program) -> Vec<Tally> {
    FILES.map(|file| through_door(program, file)).into()
}

fn through_door(program: &Program, file: (&'static str, &str)) -> Tally {
    let mut line = Line::open(program);
    let mut tally = run(file, |case| {
        let ways = match case.begins {
            true => &[Way::Begin][..],
            false => &[Way::Plain, Way::Context],
        };
        for way in ways {
            case.send(&mut line, *way);
        }
    });
    line.close(&mut tally);
    tally.remark = ", each by the plain call and on a context".to_string();
    tally
}

/// Compares every case of the file with the reference, and hands it to `door`.
fn run((name, text): (&'static str, &str), mut door: impl FnMut(&Case)) -> Tally {
    let mut tally = Tally::new(name);
    let mut reader = Reader::default();
    let mut lines = text.lines().enumerate().peekable();
    while let Some((number, line)) = lines.next() {
        let (mark, rest) = line.split_once(' ').unwrap_or((line, ""));
        let case = match mark {
            ">" => {
                let (_, answer) = lines.next().expect("an answer stands behind each call");
                let changed = lines.next_if(|(_, line)| line.starts_with("= "));
                let after = changed.map(|(_, line)| state_of(&line[2..]));
                tally.ran += 1;
                Some(reader.case(number + 1, rest, answer, after))
            }
            // Only behind `config` does `=` stand alone: it tells the fresh state.
            "=" => Some(reader.first(number + 1, state_of(rest))),
            _ => {
                let understood = reader.take(mark, rest);
                if !understood {
                    tally.differ(format!("line {}: unknown mark {mark}", number + 1));
                }
                None
            }
        };
        if let Some(case) = case {
            if let Some(difference) = case.by_reference() {
                tally.differ(difference);
            }
            door(&case);
        }
    }
    tally
}

/// Where a story of the file stands.
#[derive(Default)]
struct Reader {
    config: Vec<i32>,
    /// "The configuration lent to the next call only."
    lent_config: Option<Vec<i32>>,
    state: State,
}

impl Reader {
    /// Takes a line that makes no call, and says whether it knows its mark.
    fn take(&mut self, mark: &str, rest: &str) -> bool {
        match mark {
            "config" => self.begin(numbers(rest)),
            "%" => self.state = state_of(rest),
            "~" => self.lent_config = Some(numbers(rest)),
            _ => return mark.is_empty() || mark.starts_with('#'),
        }
        true
    }

    /// "A new story begins: fresh state under this configuration."
    fn begin(&mut self, config: Vec<i32>) {
        self.state = junk(&config);
        reference::fresh(&config, &mut self.state).expect("lengths fit");
        self.config = config;
    }

    /// The fresh state of a new story, made of blocks that hold anything.
    fn first(&mut self, line: usize, after: State) -> Case {
        self.state = after.clone();
        Case {
            line,
            begins: true,
            before: junk(&self.config),
            config: self.config.clone(),
            call: Call::Fresh,
            outcome: Outcome {
                number: DONE,
                values: Values::Nothing,
            },
            room: Vec::new(),
            after,
        }
    }

    fn case(&mut self, line: usize, call: &str, answer: &str, after: Option<State>) -> Case {
        let before = self.state.clone();
        if let Some(after) = after {
            self.state = after;
        }
        let call = call_of(call);
        let (outcome, room) = answer_of(&call, answer);
        Case {
            line,
            begins: false,
            config: self.lent_config.take().unwrap_or(self.config.clone()),
            before,
            call,
            outcome,
            room,
            after: self.state.clone(),
        }
    }
}

/// Blocks of the right lengths that hold no state.
fn junk(config: &[i32]) -> State {
    let sizes = Configuration::judge(config).expect("a story's configuration is right");
    State {
        records: vec![FILL; 4 * sizes.events],
        debounce: vec![-1; sizes.events],
        memory: vec![FILL; sizes.memory()],
        counts: vec![u32::MAX; COUNTS],
        board: Board::default(),
    }
}

fn number<T: std::str::FromStr>(word: &str) -> T {
    let parsed = word.parse().ok();
    parsed.unwrap_or_else(|| panic!("{word} is no number here"))
}

/// Numbers, `-` for none.
fn numbers(text: &str) -> Vec<i32> {
    let words = text.split_whitespace().filter(|word| *word != "-");
    words.map(number).collect()
}

/// Hex bytes, `-` for none.
fn bytes(word: &str) -> Vec<u8> {
    let digits = word.as_bytes().chunks_exact(2);
    digits
        .map(|pair| {
            let pair = std::str::from_utf8(pair).expect("the files are plain text");
            u8::from_str_radix(pair, 16).expect("two hex digits")
        })
        .collect()
}

/// 16-bit numbers as a room has them, `-` for none.
fn pairs(word: &str) -> Vec<u8> {
    let numbers = word.split(',').filter(|word| *word != "-");
    numbers
        .flat_map(|word| number::<u16>(word).to_le_bytes())
        .collect()
}

/// `RECORDS DEBOUNCE MEMORY CYCLES OVERFLOW COUNTS`.
fn state_of(text: &str) -> State {
    let words: Vec<&str> = text.split_whitespace().collect();
    let [records, debounce, memory, cycles, overflow, counts] = words[..] else {
        panic!("{text} is no state");
    };
    let mut board = Board {
        running: [false; 4],
        overflow: overflow == "1",
    };
    for (running, digit) in board.running.iter_mut().zip(cycles.bytes()) {
        *running = digit == b'1';
    }
    State {
        records: bytes(records),
        debounce: listed(debounce),
        memory: bytes(memory),
        counts: listed(counts),
        board,
    }
}

/// Numbers with commas between, `-` for none.
fn listed<T: std::str::FromStr>(word: &str) -> Vec<T> {
    let numbers = word.split(',').filter(|word| *word != "-");
    numbers.map(number).collect()
}

/// `CALL ARGUMENTS`.
fn call_of(text: &str) -> Call {
    let words: Vec<&str> = text.split_whitespace().collect();
    let call = changing(&words).or_else(|| reading(&words));
    call.unwrap_or_else(|| panic!("{text} is no call"))
}

/// The calls that change the state.
fn changing(words: &[&str]) -> Option<Call> {
    Some(match *words {
        ["fresh"] => Call::Fresh,
        ["report", event, code, frame, ref rest @ ..] => Call::Report {
            event: number(event),
            code: number(code),
            frame: bytes(frame),
            present: conditions(rest),
        },
        ["tick", ms, frame, ref rest @ ..] => Call::Tick {
            ms: number(ms),
            frame: bytes(frame),
            present: conditions(rest),
        },
        ["start", cycle] => Call::Start {
            cycle: number(cycle),
        },
        ["stop", cycle] => Call::Stop {
            cycle: number(cycle),
        },
        ["clear", code] => Call::Clear { code: number(code) },
        ["restore", image] => Call::Restore {
            image: bytes(image),
        },
        ["diagnose", request, room] => Call::Request {
            request: bytes(request),
            room: room_of(room),
        },
        _ => return None,
    })
}

/// Those that leave it.
fn reading(words: &[&str]) -> Option<Call> {
    Some(match *words {
        ["read_status", event] => read(event, |event| Call::ReadStatus { event }),
        ["read_frame", event, ref rest @ ..] => Call::ReadFrame {
            event: number(event),
            which: which_of(rest),
        },
        ["read_counter", event] => read(event, |event| Call::ReadCounter { event }),
        ["table"] => Call::ReadTable,
        ["paint", event] => read(event, |event| Call::ReadPaint { event }),
        ["missing", event, present] => Call::ReadMissing {
            event: number(event),
            present: number(present),
        },
        ["grey_list", length] => Call::ListGrey {
            numbers: number(length.trim_start_matches("room16=")),
        },
        ["save", room] => Call::Save {
            room: room_of(room),
        },
        _ => return None,
    })
}

fn room_of(word: &str) -> usize {
    number(word.trim_start_matches("room="))
}

/// `conditions=N`: the conditions that are lent; without the word all are present.
fn conditions(rest: &[&str]) -> u32 {
    match rest {
        [] => ALL_PRESENT,
        [word] => {
            let set = word.strip_prefix("conditions=");
            number(set.unwrap_or_else(|| panic!("{word} tells no conditions")))
        }
        _ => panic!("{rest:?} is more than the conditions"),
    }
}

/// `which=0` or `which=1`: first or latest; without the word first.
fn which_of(rest: &[&str]) -> u32 {
    match rest {
        [] | ["which=0"] => 0,
        ["which=1"] => 1,
        _ => panic!("{rest:?} is no choice of a frame"),
    }
}

fn read(event: &str, call: impl Fn(usize) -> Call) -> Call {
    call(number(event))
}

/// A frame as `from:to`.
fn part_of(part: &str) -> Values {
    let (from, to) = part.split_once(':').expect("a part is from:to");
    let (start, end) = (number::<usize>(from), number::<usize>(to));
    Values::Frame {
        start,
        length: end - start,
    }
}

/// `ANSWER VALUES ROOM`, the mark included.
fn answer_of(call: &Call, text: &str) -> (Outcome, Vec<u8>) {
    let words: Vec<&str> = text.split_whitespace().collect();
    let mut room = Vec::new();
    let values = match (call, &words[2..]) {
        (Call::Report { .. }, ["none"]) => Values::Verdict(0),
        (Call::Report { .. }, ["0"]) => Values::Verdict(1),
        (Call::Report { .. }, ["1"]) => Values::Verdict(2),
        (Call::ReadStatus { .. }, [status]) => Values::Status(number(status)),
        (Call::ReadCounter { .. }, [counter]) => Values::Counter(number(counter)),
        (Call::ReadFrame { .. }, [part]) => part_of(part),
        (Call::ReadTable, [counts]) => {
            room = pairs(counts);
            Values::Nothing
        }
        (Call::ReadPaint { .. }, ["grey"]) => Values::Paint(0),
        (Call::ReadPaint { .. }, ["red"]) => Values::Paint(1),
        (Call::ReadPaint { .. }, ["live"]) => Values::Paint(2),
        (Call::ReadMissing { .. }, [count, lowest]) => Values::Missing {
            count: number(count),
            lowest: number(lowest),
        },
        (Call::ListGrey { .. }, [length, after]) => {
            room = pairs(after);
            Values::Length(number(length))
        }
        (Call::Save { .. } | Call::Request { .. }, [length, after]) => {
            room = bytes(after);
            Values::Length(number(length))
        }
        (_, []) => Values::Nothing,
        _ => panic!("{text} is no answer to {call}"),
    };
    let number = number(words[1]);
    (Outcome { number, values }, room)
}
