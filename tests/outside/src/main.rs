//! Outside tests: the archive behind the C door against an independent
//! implementation of document 01. The door is a C program that includes
//! grelpicado.h; `tests/outside/run` builds both and runs them.
//!
//!     outside --door PROGRAM --can PROGRAM [--plain PROGRAM] [--runner COMMAND] [--rounds N] [--seed S] [--counts]
//!         the header, the stored calls, stories, hostile calls; replies over CAN; and the calls by plain C
//!     outside bench --door PROGRAM [--runner COMMAND --emulated]
//!         time and instructions of a call on both sides
//!     outside reference
//!         the stored calls through the reference alone

mod bench;
mod call;
mod can;
mod compare;
mod damage;
mod door;
mod happenings;
mod header;
mod hostile;
mod line;
mod making;
mod random;
mod reference;
mod stories;
mod tally;
mod vectors;

use door::Program;
use std::process::ExitCode;
use tally::Tally;

struct Settings {
    program: Program,
    /// The C program of replies over CAN.
    can: Program,
    /// The same C program as the door with plain C in the archive's place.
    plain: Option<String>,
    rounds: u64,
    seed: u64,
    /// Whether to print how often each call gave each answer.
    counts: bool,
    /// Whether to time calls under an emulator, which says nothing about the archive.
    emulated: bool,
}

fn main() -> ExitCode {
    let arguments: Vec<String> = std::env::args().skip(1).collect();
    let words: Vec<&str> = arguments.iter().map(String::as_str).collect();
    let well = match words[..] {
        ["reference"] => print(&vectors::run_reference(), "ran"),
        ["bench", ref words @ ..] => settings(words).is_some_and(|settings| timed(&settings)),
        _ => settings(&words).is_some_and(|settings| all(&settings)),
    };
    ExitCode::from(u8::from(!well))
}

/// None, and a line that says why, where the words are not understood.
fn settings(words: &[&str]) -> Option<Settings> {
    let read = read_settings(words);
    if read.is_none() {
        eprintln!("outside [reference | bench] --door PROGRAM [--can PROGRAM] [--plain PROGRAM] [--runner COMMAND] [--rounds N] [--seed S] [--counts]");
    }
    read
}

fn read_settings(words: &[&str]) -> Option<Settings> {
    let mut settings = Settings {
        program: Program {
            path: String::new(),
            runner: None,
        },
        can: Program {
            path: String::new(),
            runner: None,
        },
        plain: None,
        rounds: 100_000,
        seed: 1,
        counts: false,
        emulated: false,
    };
    let mut words = words.iter();
    while let Some(word) = words.next() {
        match *word {
            "--door" => settings.program.path = words.next()?.to_string(),
            "--can" => settings.can.path = words.next()?.to_string(),
            "--plain" => settings.plain = Some(words.next()?.to_string()),
            "--runner" => settings.program.runner = Some(words.next()?.to_string()),
            "--rounds" => settings.rounds = words.next()?.parse().ok()?,
            "--seed" => settings.seed = words.next()?.parse().ok()?,
            "--counts" => settings.counts = true,
            "--emulated" => settings.emulated = true,
            _ => return None,
        }
    }
    settings.can.runner.clone_from(&settings.program.runner);
    (!settings.program.path.is_empty()).then_some(settings)
}

/// Prints a line for each, and says whether all is well.
fn print(tallies: &[Tally], word: &str) -> bool {
    let well: Vec<bool> = tallies.iter().map(|tally| tally.print(word)).collect();
    well.iter().all(|well| *well)
}

fn all(settings: &Settings) -> bool {
    let (program, rounds, seed) = (&settings.program, settings.rounds, settings.seed);
    let header = header::run(program, &settings.can).print("lines compared");
    let vectors = print(&vectors::run_both(program), "ran");
    let stories = stories::run(program, rounds, seed).print("calls");
    let (hostile, counts) = hostile::run(program, rounds, seed);
    let hostile = hostile.print("calls");
    if settings.counts {
        hostile::print(&counts);
    }
    let can = replies_over_can(settings);
    let plain = plain_c(settings);
    header && vectors && stories && hostile && can && plain
}

/// A sender and a receiver, which stand on nothing of the manager.
fn replies_over_can(settings: &Settings) -> bool {
    let stored = can::run_stored(&settings.can).print("ran");
    let random = can::run_random(&settings.can, settings.rounds, settings.seed).print("calls");
    let looped = can::run_loop(&settings.can);
    stored && random && looped
}

/// Of the calls that are made at random, plain C is given one in so many.
const PLAIN_SHARE: u64 = 10;

/// The plain C beside which the archive's instructions are counted: it must judge and do the same.
fn plain_c(settings: &Settings) -> bool {
    let Some(path) = &settings.plain else {
        return true;
    };
    let program = Program {
        path: path.clone(),
        runner: settings.program.runner.clone(),
    };
    let (rounds, seed) = (settings.rounds / PLAIN_SHARE, settings.seed);
    let mut tallies = vectors::run_both(&program);
    tallies.push(stories::run(&program, rounds, seed));
    tallies.push(hostile::run(&program, rounds, seed).0);
    for tally in &mut tallies {
        tally.name = format!("plain C: {}", tally.name);
    }
    print(&tallies, "ran")
}

fn timed(settings: &Settings) -> bool {
    if settings.program.runner.is_some() && !settings.emulated {
        println!("the benchmark is for an x86-64 machine: under an emulator its times say nothing");
        return false;
    }
    bench::run(&settings.program);
    true
}
