//! How long a call takes, in the C program behind the door and in the reference, from one
//! run; and how many instructions it is behind the door, which repeats where a time does not.

use crate::call::{Call, Outcome};
use crate::compare::as_bytes;
use crate::door::{Answer, Asked, Lengths, Program, Way};
use crate::reference::{Board, Configuration, State, ALL_PRESENT, COUNTS, DONE, FAILED};
use std::hint::black_box;
use std::io::{self, BufReader, Write};
use std::process::{Child, Command, Stdio};
use std::time::Instant;

const PLACES: usize = 64;
const FRAME: usize = 32;

/// Calls timed together, each on its own copy of the state.
const BATCH: usize = 32;
/// Batches on each side; the median is told.
const BATCHES: usize = 501;

const WORDS: &str = "\
One call, all judgements included; M = 64, F = 32, memory filled with 64 entries.
Each call of a batch of 32 works on its own copy of the state, made before the clock starts.
Median of 501 batches a side, the two sides in turn.
  report   failed, a fresh failure of the event with the oldest entry: it moves to the end
  tick     10 ms: every third event counts time, one in eight of these fails and is stored
  stop     of the one cycle of all events: h rises for half of them, one in eight ages
  19 02    mask 08h, one event in two matches
  save     records, 64 entries and overflow
Instructions are those of one call behind the door, counted by callgrind; - where there is none.";

pub fn run(program: &Program) {
    println!("{WORDS}");
    if program.runner.is_some() {
        println!("The door runs under an emulator: its times say nothing of the archive.");
    }
    println!("call        n   door ns   reference ns   door/reference   instructions");
    let mut door = Door::open(program.listen());
    for events in [64, 512] {
        let numbers = configuration(events);
        let config = Configuration::judge(&numbers).expect("made to be right");
        let running = state(&config, true);
        let stopped = state(&config, false);
        let room = vec![0; 20 + stopped.records.len() + stopped.memory.len() + 1];
        let frame = vec![0x5A; FRAME];
        let cases = [
            ("report", &running, report(frame.clone())),
            ("tick", &running, tick(frame)),
            ("stop", &running, Call::Stop { cycle: 0 }),
            ("19 02", &running, request(room.len())),
            ("save", &stopped, Call::Save { room: room.len() }),
        ];
        for (name, prepared, call) in cases {
            let asked = asked(&numbers, prepared, &call, &room);
            let [ns, reference] = measure(&mut door, &asked);
            let ratio = ns / reference;
            let count = instructions(program, &asked).unwrap_or("-".to_string());
            println!("{name:8}{events:5}{ns:10.0}{reference:15.0}{ratio:17.2}{count:>15}");
        }
    }
    door.close();
}

fn asked<'a>(config: &'a [i32], state: &'a State, call: &'a Call, room: &'a [u8]) -> Asked<'a> {
    Asked {
        way: Way::Plain,
        timed: BATCH as u8,
        turn: 0,
        config,
        state,
        board: as_bytes(&state.board),
        call,
        room,
    }
}

fn report(frame: Vec<u8>) -> Call {
    Call::Report {
        event: 0,
        code: FAILED,
        frame,
        present: ALL_PRESENT,
    }
}

fn tick(frame: Vec<u8>) -> Call {
    Call::Tick {
        ms: 10,
        frame,
        present: ALL_PRESENT,
    }
}

fn request(room: usize) -> Call {
    let request = vec![0x19, 0x02, 0x08];
    Call::Request { request, room }
}

/// Kinds in turn, all events in cycle 0; each needs condition 0.
fn configuration(events: usize) -> Vec<i32> {
    let mut numbers = vec![events as i32, PLACES as i32, FRAME as i32];
    for event in 0..events as i32 {
        let priority = 1 + event % 8;
        numbers.extend([1000 + 3 * event, priority, 0]);
        numbers.extend(match event % 3 {
            0 => [1, -100, 100, 10, 5, 3],
            1 => [2, -500, 500, 0, 0, 0],
            _ => [0, 0, 0, 0, 0, 0],
        });
        numbers.extend([2, 3, 4, 1, 1]);
    }
    numbers
}

/// Events that passed in this cycle; one in two is confirmed and warns.
fn state(config: &Configuration, running: bool) -> State {
    let mut state = State {
        records: Vec::new(),
        debounce: vec![0; config.events],
        memory: vec![0; config.memory()],
        counts: vec![0; COUNTS],
        board: Board {
            running: [running, false, false, false],
            overflow: false,
        },
    };
    for event in 0..config.events {
        let ages = event % 8 == 1;
        let confirmed = event % 2 == 1;
        state.records.extend(match confirmed {
            true => [0xA8, 0, 1, if ages { 3 } else { 0 }],
            false => [0x20, 0, 0, 0],
        });
        let timed = running && event % 3 == 1;
        state.debounce[event] = match timed {
            true if event % 24 == 1 => 495,
            true => 100,
            false => 0,
        };
    }
    state.memory[0] = PLACES as u8;
    let entries = state.memory[1..].chunks_exact_mut(config.entry());
    for (event, entry) in entries.enumerate() {
        entry[1..3].copy_from_slice(&[event as u8, 1]);
        entry[3..].fill(0xC3);
    }
    state
}

/// The C program, asked and answering in turn.
struct Door {
    child: Child,
    from: BufReader<std::process::ChildStdout>,
}

impl Door {
    fn open(mut child: Child) -> Door {
        let from = child.stdout.take().expect("piped");
        Door {
            child,
            from: BufReader::new(from),
        }
    }

    fn ask(&mut self, asked: &Asked) -> io::Result<Answer> {
        let mut bytes = Vec::new();
        asked.write(&mut bytes);
        self.child
            .stdin
            .as_mut()
            .expect("piped")
            .write_all(&bytes)?;
        let lengths = Lengths {
            config: asked.config.len(),
            records: asked.state.records.len(),
            debounce: asked.state.debounce.len(),
            memory: asked.state.memory.len(),
            counts: asked.state.counts.len(),
            input: asked.call.input().len(),
            room: asked.room.len(),
        };
        let answer = Answer::read(&mut self.from, &lengths)?;
        assert_eq!(answer.number, DONE, "{} is accepted", asked.call);
        Ok(answer)
    }

    /// What the program wrote to its standard error, if that was piped.
    fn close(mut self) -> String {
        drop(self.child.stdin.take());
        let output = self.child.wait_with_output().expect("it was started");
        String::from_utf8_lossy(&output.stderr).into_owned()
    }
}

/// The median time of one call in nanoseconds, door first.
fn measure(door: &mut Door, asked: &Asked) -> [f64; 2] {
    let mut copies = vec![State::default(); BATCH];
    let mut room = asked.room.to_vec();
    let mut times = [Vec::new(), Vec::new()];
    for _ in 0..BATCHES {
        let answer = door.ask(asked).expect("the C program answers");
        times[0].push(answer.nanoseconds as f64);
        copies
            .iter_mut()
            .for_each(|copy| copy.clone_from(asked.state));
        let clock = Instant::now();
        for copy in &mut copies {
            let number = by_reference(black_box(asked), black_box(copy), &mut room);
            assert_eq!(black_box(number), DONE, "{} is accepted", asked.call);
        }
        times[1].push(clock.elapsed().as_nanos() as f64);
    }
    times.map(|mut times| {
        times.sort_by(f64::total_cmp);
        times[BATCHES / 2] / BATCH as f64
    })
}

fn by_reference(asked: &Asked, state: &mut State, room: &mut [u8]) -> u8 {
    let Outcome { number, values } = asked.call.by_reference(asked.config, state, room);
    black_box(values);
    number
}

/// The instructions of one call, by callgrind: of two calls less those of one, since the first
/// also brings the program's functions together.
fn instructions(program: &Program, asked: &Asked) -> Option<String> {
    if program.runner.is_some() {
        return None;
    }
    let two = counted(program, asked, 2)?;
    let one = counted(program, asked, 1)?;
    Some((two - one).to_string())
}

/// The instructions of the C program's function that makes a call, over so many calls.
fn counted(program: &Program, asked: &Asked, times: u8) -> Option<u64> {
    let mut command = Command::new("valgrind");
    command
        .args(["--tool=callgrind", "--callgrind-out-file=/dev/null"])
        .args(["--toggle-collect=make_call", &program.path, "calls"])
        .stdin(Stdio::piped())
        .stdout(Stdio::piped())
        .stderr(Stdio::piped());
    let mut door = Door::open(command.spawn().ok()?);
    door.ask(&Asked {
        timed: times,
        ..*asked
    })
    .ok()?;
    let words = door.close();
    let line = words.lines().find(|line| line.contains("Collected :"))?;
    line.split_whitespace().last()?.parse().ok()
}
