//! Replies over CAN, document 02's W13: an implementation of its own, written from the request's
//! sentences, against the four calls behind the C door. The stored cases, calls at random, and every
//! length looped back. The door is the C program can.c.

use crate::door::Program;
use crate::random::Random;
use crate::tally::Tally;
use std::collections::BTreeMap;
use std::io::{BufRead, BufReader, Write};
use std::process::Stdio;

type Frame = [u8; 8];

const FILES: [(&str, &str); 2] = [
    (
        "sentences.txt",
        include_str!("../../../crates/transport_cases/data/sentences.txt"),
    ),
    (
        "transport.txt",
        include_str!("../../../crates/transport_cases/data/transport.txt"),
    ),
];

const LONGEST: usize = 4095;
const REFUSED: u8 = 13;
const IDLE: u8 = 0;
const WAITING: u8 = 1;
const RUNNING: u8 = 2;
const COLLECTING: u8 = 1;

/// As the header lays them out: a state, what is left of the block, the next frame's number.
#[derive(Clone, Copy, PartialEq, Eq, Debug)]
struct Sender {
    state: u8,
    left: u8,
    next: usize,
}

#[derive(Clone, Copy, PartialEq, Eq, Debug)]
struct Receiver {
    state: u8,
    left: u8,
    next: usize,
    size: usize,
}

const NO_SENDER: Sender = Sender {
    state: IDLE,
    left: 0,
    next: 0,
};

const NO_RECEIVER: Receiver = Receiver {
    state: IDLE,
    left: 0,
    next: 0,
    size: 0,
};

#[derive(Clone, Debug)]
enum Step {
    Start(Vec<u8>),
    Flow(Sender, Frame),
    Next(Sender, Vec<u8>),
    Take(Receiver, u8, u8, Frame, Vec<u8>),
}

/// What a call answers.
#[derive(Clone, PartialEq, Eq, Debug)]
enum Answer {
    Start(u8, Frame, Sender),
    Flow(u8, u8, u8, Sender),
    Next(u8, Frame, Sender),
    Take(u8, u8, Frame, usize, Receiver, Vec<u8>),
}

// ---- the reference

/// Where the bytes of a consecutive frame stand in a message of this length, if it has the frame.
fn part(size: usize, next: usize) -> Option<(usize, usize)> {
    if !(8..=LONGEST).contains(&size) || next == 0 {
        return None;
    }
    let at = (next - 1).checked_mul(7)?.checked_add(6)?;
    (at < size).then(|| (at, size.min(at + 7)))
}

fn filled(head: &[u8], body: &[u8]) -> Frame {
    let mut frame = [0; 8];
    for (to, from) in frame.iter_mut().zip(head.iter().chain(body)) {
        *to = *from;
    }
    frame
}

fn start(message: &[u8]) -> Answer {
    let size = message.len();
    match size {
        1..=7 => Answer::Start(0, filled(&[size as u8], message), NO_SENDER),
        8..=LONGEST => {
            let head = [0x10 | (size >> 8) as u8, (size & 0xFF) as u8];
            let waiting = Sender {
                state: WAITING,
                left: 0,
                next: 1,
            };
            Answer::Start(0, filled(&head, &message[..6]), waiting)
        }
        _ => Answer::Start(REFUSED, [0; 8], NO_SENDER),
    }
}

fn flow(sender: Sender, frame: Frame) -> Answer {
    if sender.state != WAITING || part(LONGEST, sender.next).is_none() {
        return Answer::Flow(REFUSED, 0, 0, sender);
    }
    let [first, block, separation, ..] = frame;
    let stands = |state, left| Sender {
        state,
        left,
        next: sender.next,
    };
    match first {
        0x30 => Answer::Flow(0, 1, separation, stands(RUNNING, block)),
        0x31 => Answer::Flow(0, 2, 0, stands(WAITING, 0)),
        _ => Answer::Flow(0, 3, 0, NO_SENDER),
    }
}

fn number_byte(next: usize) -> u8 {
    0x20 | (next % 16) as u8
}

fn next(sender: Sender, message: &[u8]) -> Answer {
    let part = part(message.len(), sender.next).filter(|_| sender.state == RUNNING);
    let Some((from, to)) = part else {
        return Answer::Next(0, [0; 8], sender);
    };
    let frame = filled(&[number_byte(sender.next)], &message[from..to]);
    let stands = |state, left| Sender {
        state,
        left,
        next: sender.next + 1,
    };
    let after = match sender.left {
        _ if to == message.len() => NO_SENDER,
        0 => stands(RUNNING, 0),
        1 => stands(WAITING, 0),
        left => stands(RUNNING, left - 1),
    };
    Answer::Next(1, frame, after)
}

fn control(block: u8, separation: u8) -> Frame {
    [0x30, block, separation, 0, 0, 0, 0, 0]
}

fn take(receiver: Receiver, block: u8, separation: u8, frame: Frame, room: &[u8]) -> Answer {
    let taken = if receiver.state == COLLECTING {
        collect(receiver, block, separation, frame, room)
    } else {
        begin(block, separation, frame, room)
    };
    let refused = || Answer::Take(REFUSED, 0, [0; 8], 0, NO_RECEIVER, room.to_vec());
    taken.unwrap_or_else(refused)
}

/// None where the frame is refused.
fn begin(block: u8, separation: u8, frame: Frame, room: &[u8]) -> Option<Answer> {
    let mut after = room.to_vec();
    match frame[0] {
        size @ 1..=7 => {
            let size = usize::from(size);
            after.get_mut(..size)?.copy_from_slice(&frame[1..=size]);
            Some(Answer::Take(0, 3, [0; 8], size, NO_RECEIVER, after))
        }
        high @ 0x10..=0x1F => {
            let size = usize::from(high & 0x0F) << 8 | usize::from(frame[1]);
            if size < 8 || size > room.len() {
                return None;
            }
            after[..6].copy_from_slice(&frame[2..]);
            let receiver = Receiver {
                state: COLLECTING,
                left: block,
                next: 1,
                size,
            };
            let asks = control(block, separation);
            Some(Answer::Take(0, 2, asks, 0, receiver, after))
        }
        _ => None,
    }
}

fn collect(from: Receiver, block: u8, separation: u8, frame: Frame, room: &[u8]) -> Option<Answer> {
    let (at, end) = part(from.size, from.next)?;
    if from.size > room.len() || frame[0] != number_byte(from.next) {
        return None;
    }
    let mut after = room.to_vec();
    after[at..end].copy_from_slice(&frame[1..1 + end - at]);
    let collects = |left| Receiver {
        left,
        next: from.next + 1,
        ..from
    };
    Some(match from.left {
        _ if end == from.size => Answer::Take(0, 3, [0; 8], end, NO_RECEIVER, after),
        0 => Answer::Take(0, 1, [0; 8], 0, collects(0), after),
        1 => Answer::Take(0, 2, control(block, separation), 0, collects(block), after),
        left => Answer::Take(0, 1, [0; 8], 0, collects(left - 1), after),
    })
}

impl Step {
    fn answer(&self) -> Answer {
        match self {
            Step::Start(message) => start(message),
            Step::Flow(sender, frame) => flow(*sender, *frame),
            Step::Next(sender, message) => next(*sender, message),
            Step::Take(receiver, block, separation, frame, room) => {
                take(*receiver, *block, *separation, *frame, room)
            }
        }
    }
}

// ---- lines for the C program, and of it

fn hex(bytes: &[u8]) -> String {
    if bytes.is_empty() {
        return ".".to_string();
    }
    bytes.iter().map(|byte| format!("{byte:02x}")).collect()
}

fn bytes(text: &str) -> Vec<u8> {
    let digits = text.as_bytes().chunks_exact(2);
    digits
        .map(|pair| u8::from_str_radix(std::str::from_utf8(pair).unwrap_or("?"), 16).expect("hex"))
        .collect()
}

fn frame(text: &str) -> Frame {
    bytes(text).try_into().expect("a frame has 8 bytes")
}

impl Sender {
    fn line(&self) -> String {
        format!("{} {} {}", self.state, self.left, self.next)
    }
}

impl Receiver {
    fn line(&self) -> String {
        format!("{} {} {} {}", self.state, self.left, self.next, self.size)
    }
}

impl Step {
    fn line(&self) -> String {
        match self {
            Step::Start(message) => format!("start {}", hex(message)),
            Step::Flow(sender, frame) => format!("flow {} {}", sender.line(), hex(frame)),
            Step::Next(sender, message) => format!("next {} {}", sender.line(), hex(message)),
            Step::Take(receiver, block, separation, frame, room) => {
                let (receiver, frame, room) = (receiver.line(), hex(frame), hex(room));
                format!("take {receiver} {block} {separation} {frame} {room}")
            }
        }
    }
}

impl Answer {
    fn line(&self) -> String {
        match self {
            Answer::Start(number, frame, sender) => {
                format!("{number} {} {}", hex(frame), sender.line())
            }
            Answer::Flow(number, says, separation, sender) => {
                format!("{number} {says} {separation} {}", sender.line())
            }
            Answer::Next(due, frame, sender) => format!("{due} {} {}", hex(frame), sender.line()),
            Answer::Take(number, says, frame, length, receiver, room) => {
                let (frame, receiver, room) = (hex(frame), receiver.line(), hex(room));
                format!("{number} {says} {frame} {length} {receiver} {room}")
            }
        }
    }

    /// As a stored case says it.
    fn stored(&self) -> String {
        let whole = |room: &[u8]| hex(room).replace('.', "-");
        match self {
            Answer::Start(0, frame, _) | Answer::Next(1, frame, _) => format!("0 {}", hex(frame)),
            Answer::Flow(0, 1, separation, _) => format!("0 go {separation}"),
            Answer::Flow(0, 2, ..) => "0 wait".to_string(),
            Answer::Flow(0, ..) => "0 aborted".to_string(),
            Answer::Next(..) => "0 nothing".to_string(),
            Answer::Start(..) | Answer::Flow(..) => "13".to_string(),
            Answer::Take(0, 1, _, _, _, room) => format!("0 going {}", whole(room)),
            Answer::Take(0, 2, frame, _, _, room) => {
                format!("0 control {} {}", hex(frame), whole(room))
            }
            Answer::Take(0, _, _, length, _, room) => {
                format!("0 complete {length} {}", whole(room))
            }
            Answer::Take(.., room) => format!("13 {}", whole(room)),
        }
    }

    /// What must have happened at least once in calls at random.
    fn kind(&self) -> &'static str {
        match self {
            Answer::Start(0, ..) => "start: sent",
            Answer::Start(..) => "start: 13",
            Answer::Flow(0, 1, ..) => "flow: go",
            Answer::Flow(0, 2, ..) => "flow: wait",
            Answer::Flow(0, ..) => "flow: aborted",
            Answer::Flow(..) => "flow: 13",
            Answer::Next(1, ..) => "next: sent",
            Answer::Next(..) => "next: nothing",
            Answer::Take(0, 1, ..) => "take: going",
            Answer::Take(0, 2, ..) => "take: control",
            Answer::Take(0, ..) => "take: complete",
            Answer::Take(..) => "take: 13",
        }
    }
}

const KINDS: [&str; 12] = [
    "start: sent",
    "start: 13",
    "flow: go",
    "flow: wait",
    "flow: aborted",
    "flow: 13",
    "next: sent",
    "next: nothing",
    "take: going",
    "take: control",
    "take: complete",
    "take: 13",
];

/// Makes these calls through the C program, and compares each answer with the reference's.
fn through_the_door(program: &Program, steps: &[Step], tally: &mut Tally) {
    let mut command = program.command("steps");
    command.stdin(Stdio::piped()).stdout(Stdio::piped());
    let mut child = match command.spawn() {
        Ok(child) => child,
        Err(error) => return tally.differ(format!("{} does not start: {error}", program.path)),
    };
    let mut input = child.stdin.take().expect("its input is a pipe");
    let output = BufReader::new(child.stdout.take().expect("its output is a pipe"));
    let lines: Vec<String> = steps.iter().map(Step::line).collect();
    std::thread::scope(|scope| {
        scope.spawn(move || {
            for line in &lines {
                if writeln!(input, "{line}").is_err() {
                    return;
                }
            }
        });
        let mut said = output.lines();
        for step in steps {
            let wanted = step.answer().line();
            let found = said.next().and_then(Result::ok).unwrap_or_default();
            tally.ran += 1;
            if found != wanted {
                tally.differ(format!("{}: {found}, not {wanted}", step.line()));
            }
        }
    });
    if !child.wait().is_ok_and(|status| status.success()) {
        tally.differ("the C program ended badly".to_string());
    }
}

// ---- the stored cases

struct Story {
    sender: Sender,
    message: Vec<u8>,
    receiver: Receiver,
    room: Vec<u8>,
    block: u8,
    separation: u8,
}

impl Story {
    fn new() -> Story {
        Story {
            sender: NO_SENDER,
            message: Vec::new(),
            receiver: NO_RECEIVER,
            room: Vec::new(),
            block: 0,
            separation: 0,
        }
    }

    fn new_receiver(&mut self, words: &[&str]) {
        let number = |k: usize| {
            words[k]
                .split_once('=')
                .and_then(|pair| pair.1.parse().ok())
        };
        let number = |k: usize| -> usize { number(k).expect("a number") };
        self.receiver = NO_RECEIVER;
        self.room = vec![0xA5; number(1)];
        (self.block, self.separation) = (number(2) as u8, number(3) as u8);
    }

    fn step(&self, words: &[&str]) -> Step {
        let given = words.get(2).map_or("", |word| word.trim_matches('-'));
        match words[1] {
            "start" => Step::Start(bytes(given)),
            "flow" => Step::Flow(self.sender, frame(given)),
            "next" => Step::Next(self.sender, self.message.clone()),
            _ => {
                let room = self.room.clone();
                Step::Take(
                    self.receiver,
                    self.block,
                    self.separation,
                    frame(given),
                    room,
                )
            }
        }
    }

    fn after(&mut self, step: &Step, answer: &Answer) {
        match answer {
            Answer::Start(0, _, sender) => {
                self.sender = *sender;
                if let Step::Start(message) = step {
                    self.message.clone_from(message);
                }
            }
            Answer::Start(..) => {}
            Answer::Flow(.., sender) | Answer::Next(.., sender) => self.sender = *sender,
            Answer::Take(.., receiver, room) => {
                self.receiver = *receiver;
                self.room.clone_from(room);
            }
        }
    }
}

/// The reference must answer as a file says; the steps are for the C program.
fn stored(name: &str, text: &str, tally: &mut Tally) -> Vec<Step> {
    let mut story = Story::new();
    let mut steps = Vec::new();
    let mut lines = text.lines().enumerate();
    while let Some((at, line)) = lines.next() {
        let words: Vec<&str> = line.split(' ').collect();
        match words[0] {
            "receiver" => story.new_receiver(&words),
            "sender" => (story.sender, story.message) = (NO_SENDER, Vec::new()),
            ">" => {
                let step = story.step(&words);
                let answer = step.answer();
                let wanted = lines.next().and_then(|(_, line)| line.strip_prefix("< "));
                let found = answer.stored();
                if wanted != Some(&found) {
                    tally.differ(format!("{name}:{}: the reference says {found}", at + 2));
                }
                story.after(&step, &answer);
                steps.push(step);
            }
            _ => {}
        }
    }
    steps
}

pub fn run_stored(program: &Program) -> Tally {
    let mut tally = Tally::new("CAN: stored cases");
    for (name, text) in FILES {
        let steps = stored(name, text, &mut tally);
        through_the_door(program, &steps, &mut tally);
    }
    tally
}

// ---- calls at random, on any sender and receiver whatever

fn any_number(random: &mut Random) -> usize {
    match random.below(6) {
        0 => random.below(3),
        1 => random.below(20),
        2 => 580 + random.below(10),
        3 => random.below(5000),
        4 => usize::MAX - random.below(3),
        _ => random.next() as usize >> random.below(64),
    }
}

fn any_length(random: &mut Random) -> usize {
    match random.below(8) {
        0 => 4090 + random.below(10),
        1 => random.below(9),
        _ => random.below(160),
    }
}

fn any_frame(random: &mut Random, likely: u8) -> Frame {
    let mut frame = [0; 8];
    frame.copy_from_slice(&random.bytes(8));
    if random.percent(90) {
        frame[0] = likely;
    }
    frame
}

/// Sometimes a sender, receiver, room or message that nobody made.
fn disturb(random: &mut Random, story: &mut Story, left: u8) {
    if random.one_in(20) {
        let (state, next) = (random.below(4) as u8, any_number(random));
        story.sender = Sender { state, left, next };
    }
    if random.one_in(20) {
        let (state, next) = (random.below(3) as u8, any_number(random));
        let size = any_number(random);
        story.receiver = Receiver {
            state,
            left,
            next,
            size,
        };
    }
    if random.one_in(40) {
        let length = any_length(random);
        story.room = random.bytes(length);
    }
    if random.one_in(40) {
        let length = any_length(random);
        story.message = random.bytes(length);
    }
}

fn any_step(random: &mut Random, story: &mut Story) -> Step {
    let left = random.pick(&[0, 0, 1, 2, 3, 255]);
    disturb(random, story, left);
    match random.below(10) {
        0 => {
            let length = any_length(random);
            Step::Start(random.bytes(length))
        }
        1..=2 => {
            let first = random.pick(&[0x30, 0x30, 0x30, 0x31, 0x32, 0x3F]);
            let mut frame = any_frame(random, first);
            frame[1] = left;
            Step::Flow(story.sender, frame)
        }
        3..=5 => Step::Next(story.sender, story.message.clone()),
        _ => {
            let likely = likely_byte(random, story);
            let mut frame = any_frame(random, likely);
            if likely & 0xF0 == 0x10 && random.percent(90) {
                frame[1] = random.below(story.room.len().min(255) + 2) as u8;
            }
            let room = story.room.clone();
            Step::Take(story.receiver, left, random.byte(), frame, room)
        }
    }
}

/// The first byte of a frame that a receiver may take, or of one beside it.
fn likely_byte(random: &mut Random, story: &Story) -> u8 {
    if story.receiver.state == COLLECTING && random.percent(90) {
        return number_byte(story.receiver.next).wrapping_add(u8::from(random.one_in(20)));
    }
    match random.below(10) {
        0..=1 => random.below(10) as u8,
        2..=8 => 0x10,
        _ => 0x10 + random.below(17) as u8,
    }
}

pub fn run_random(program: &Program, rounds: u64, seed: u64) -> Tally {
    let mut tally = Tally::new("CAN: random calls");
    let mut random = Random::new(seed);
    let mut story = Story::new();
    let mut met: BTreeMap<&str, u64> = BTreeMap::new();
    let mut steps = Vec::new();
    for _ in 0..rounds {
        let step = any_step(&mut random, &mut story);
        let answer = step.answer();
        *met.entry(answer.kind()).or_default() += 1;
        story.after(&step, &answer);
        steps.push(step);
    }
    for kind in KINDS {
        if !met.contains_key(kind) {
            tally.miss(kind.to_string());
        }
    }
    through_the_door(program, &steps, &mut tally);
    tally
}

// ---- every length

pub fn run_loop(program: &Program) -> bool {
    match program.ask("loop") {
        Ok(said) => {
            print!(
                "CAN: every length 1 to 4,095 looped back with block sizes 0, 1, 2, 8, 255: {said}"
            );
            true
        }
        Err(error) => {
            println!("CAN: a length did not come through: {error}");
            false
        }
    }
}
