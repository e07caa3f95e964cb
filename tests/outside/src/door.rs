//! The C program that makes the calls: how it is started, and what goes over its pipes.

use crate::call::Call;
use crate::reference::State;
use std::io::{self, Read};
use std::process::{Child, Command, Stdio};

/// Where the C program lies, and what runs it on a machine that is not x86-64.
pub struct Program {
    pub path: String,
    pub runner: Option<String>,
}

impl Program {
    pub fn command(&self, word: &str) -> Command {
        let mut command = match &self.runner {
            Some(runner) => {
                let mut command = Command::new(runner);
                command.arg(&self.path);
                command
            }
            None => Command::new(&self.path),
        };
        command.arg(word);
        command
    }

    /// The program as it waits for calls.
    pub fn listen(&self) -> Child {
        let mut command = self.command("calls");
        command.stdin(Stdio::piped()).stdout(Stdio::piped());
        let started = command.spawn();
        started.unwrap_or_else(|error| panic!("{command:?} does not start: {error}"))
    }

    /// What the program prints when asked for this.
    pub fn ask(&self, word: &str) -> Result<String, String> {
        let output = self.command(word).output();
        match output {
            Ok(output) if output.status.success() => {
                String::from_utf8(output.stdout).map_err(|error| error.to_string())
            }
            Ok(output) => {
                let said = String::from_utf8_lossy(&output.stdout);
                let ended = output.status;
                Err(format!(
                    "asked for {word}, it ended: {ended}; it said: {said}"
                ))
            }
            Err(error) => Err(format!("{} does not start: {error}", self.path)),
        }
    }
}

/// How the C program makes a call.
#[derive(Clone, Copy, PartialEq, Eq, Debug)]
pub enum Way {
    Plain,
    Context,
    /// Fresh alone, by the function that fills a context.
    Begin,
}

/// Each byte a flag: 0 no, anything else yes.
#[derive(Clone, Copy, PartialEq, Eq, Debug)]
pub struct Board {
    pub running: [u8; 4],
    pub overflow: u8,
}

impl Board {
    /// The board that grelpicado_begin gives.
    pub const STOPPED: Board = Board {
        running: [0; 4],
        overflow: 0,
    };

    fn bytes(&self) -> [u8; 5] {
        let [a, b, c, d] = self.running;
        [a, b, c, d, self.overflow]
    }
}

/// All that goes to the C program for one call.
pub struct Asked<'a> {
    pub way: Way,
    /// 0, or how often to make the call by the clock.
    pub timed: u8,
    /// Which call of this run it is; its answer says it again.
    pub turn: u64,
    pub config: &'a [i32],
    pub state: &'a State,
    pub board: Board,
    pub call: &'a Call,
    pub room: &'a [u8],
}

impl Asked<'_> {
    pub fn write(&self, to: &mut Vec<u8>) {
        let call = self.call.index() as u8;
        to.extend([call, self.way as u8, self.timed]);
        to.extend(self.board.bytes());
        let (event, code) = self.call.numbers();
        let input = self.call.input();
        let lengths = [
            4 * self.config.len(),
            self.state.records.len(),
            4 * self.state.debounce.len(),
            self.state.memory.len(),
            4 * self.state.counts.len(),
            input.len(),
            self.room.len(),
        ];
        let present = u64::from(self.call.present());
        for number in [self.turn, event as u64, u64::from(code), present] {
            to.extend(number.to_le_bytes());
        }
        for length in lengths {
            to.extend((length as u64).to_le_bytes());
        }
        to.extend(self.config.iter().flat_map(|number| number.to_le_bytes()));
        to.extend(&self.state.records);
        let debounce = self.state.debounce.iter();
        to.extend(debounce.flat_map(|number| number.to_le_bytes()));
        to.extend(&self.state.memory);
        let counts = self.state.counts.iter();
        to.extend(counts.flat_map(|count| count.to_le_bytes()));
        to.extend(input);
        to.extend(self.room);
    }
}

/// How many elements each block of an answer has: those that were lent.
pub struct Lengths {
    pub config: usize,
    pub records: usize,
    pub debounce: usize,
    pub memory: usize,
    pub counts: usize,
    pub input: usize,
    pub room: usize,
}

/// All that comes back.
pub struct Answer {
    pub number: u8,
    /// Verdict, status or paint.
    pub value: u8,
    /// A bit for each block beside which a byte was written, and one for the context.
    pub broken: u8,
    pub board: Board,
    pub turn: u64,
    /// Of a frame; or a counter, as a signed number; or how many conditions are missing.
    pub start: usize,
    /// Or the lowest missing condition.
    pub length: usize,
    pub nanoseconds: u64,
    pub config: Vec<i32>,
    pub records: Vec<u8>,
    pub debounce: Vec<i32>,
    pub memory: Vec<u8>,
    pub counts: Vec<u32>,
    pub input: Vec<u8>,
    pub room: Vec<u8>,
}

impl Answer {
    pub fn read(from: &mut impl Read, lengths: &Lengths) -> io::Result<Answer> {
        let mut head = [0; 40];
        from.read_exact(&mut head)?;
        let [number, value, broken, a, b, c, d, overflow, ..] = head;
        Ok(Answer {
            number,
            value,
            broken,
            board: Board {
                running: [a, b, c, d],
                overflow,
            },
            turn: word(&head, 8),
            start: word(&head, 16) as usize,
            length: word(&head, 24) as usize,
            nanoseconds: word(&head, 32),
            config: numbers(from, lengths.config, i32::from_le_bytes)?,
            records: bytes(from, lengths.records)?,
            debounce: numbers(from, lengths.debounce, i32::from_le_bytes)?,
            memory: bytes(from, lengths.memory)?,
            counts: numbers(from, lengths.counts, u32::from_le_bytes)?,
            input: bytes(from, lengths.input)?,
            room: bytes(from, lengths.room)?,
        })
    }
}

fn word(head: &[u8; 40], at: usize) -> u64 {
    let bytes = head[at..at + 8].try_into().expect("eight bytes");
    u64::from_le_bytes(bytes)
}

fn bytes(from: &mut impl Read, length: usize) -> io::Result<Vec<u8>> {
    let mut bytes = vec![0; length];
    from.read_exact(&mut bytes)?;
    Ok(bytes)
}

fn numbers<T>(
    from: &mut impl Read,
    length: usize,
    number: impl Fn([u8; 4]) -> T,
) -> io::Result<Vec<T>> {
    let bytes = bytes(from, 4 * length)?;
    let (words, _) = bytes.as_chunks::<4>();
    Ok(words.iter().map(|word| number(*word)).collect())
}
