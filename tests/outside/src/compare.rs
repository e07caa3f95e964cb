//! Makes one call on both sides, which are compared in every byte that was lent.

use crate::call::{choice, Call, Outcome, ANSWERS};
use crate::door::{self, Asked, Program, Way};
use crate::line::{Expected, Line};
use crate::random::Random;
use crate::reference::{self, State, DONE};
use crate::tally::Tally;

/// The board as a done call hands it back: 0 and 1 only.
pub fn as_bytes(board: &reference::Board) -> door::Board {
    door::Board {
        running: board.running.map(u8::from),
        overflow: u8::from(board.overflow),
    }
}

/// "0 no, anything else yes".
fn as_flags(board: &door::Board) -> reference::Board {
    reference::Board {
        running: board.running.map(|byte| byte != 0),
        overflow: board.overflow != 0,
    }
}

/// The bytes of the frame in an event's entry, for a call that reads it.
pub fn stored_frame(config: &[i32], state: &State, call: &Call) -> Vec<u8> {
    match call {
        Call::ReadFrame { event, which } => {
            reference::stored_frame(config, state, *event, choice(*which)).to_vec()
        }
        _ => Vec::new(),
    }
}

/// Both sides, call by call.
pub struct Comparison {
    line: Line,
    room: Vec<u8>,
    /// Chooses between plain call and context.
    ways: Random,
    /// How often each call was made by a plain call, and on a context.
    made: [[u64; 2]; ANSWERS.len()],
    pub tally: Tally,
}

impl Comparison {
    pub fn new(name: &'static str, program: &Program, seed: u64) -> Comparison {
        Comparison {
            line: Line::open(program),
            room: Vec::new(),
            ways: Random::new(seed ^ 0x5EED),
            made: Default::default(),
            tally: Tally::new(name),
        }
    }

    /// The room after the last call, as the reference left it.
    pub fn room(&self) -> &[u8] {
        &self.room
    }

    fn way(&mut self, call: &Call) -> Way {
        match call {
            Call::Fresh => self.ways.pick(&[Way::Plain, Way::Context, Way::Begin]),
            _ => self.ways.pick(&[Way::Plain, Way::Context]),
        }
    }

    /// Sends the call through the door with the blocks as they are, and makes it by
    /// the reference on the state itself, with the board as these bytes and the room
    /// filled with `fill`.
    pub fn call(
        &mut self,
        config: &[i32],
        state: &mut State,
        board: door::Board,
        call: &Call,
        fill: u8,
    ) -> Outcome {
        let way = self.way(call);
        self.made[call.index()][usize::from(way != Way::Plain)] += 1;
        self.tally.ran += 1;
        let given = match way {
            Way::Begin => door::Board::STOPPED,
            _ => board,
        };
        state.board = as_flags(&given);
        self.room.clear();
        self.room.resize(call.room(), fill);
        let turn = self.line.turn();
        self.line.prepare(&Asked {
            way,
            timed: 0,
            turn,
            config,
            state,
            board: given,
            call,
            room: &self.room,
        });
        let outcome = call.by_reference(config, state, &mut self.room);
        // Where no board is handed back, the caller's stays.
        let left = match outcome.number == DONE && call.hands_back_board() {
            true => as_bytes(&state.board),
            false => given,
        };
        let expected = self.expected(config, state, left, call, way, outcome);
        self.line.send(expected);
        outcome
    }

    /// What the door must answer and leave, where the reference left this state.
    fn expected(
        &self,
        config: &[i32],
        state: &State,
        board: door::Board,
        call: &Call,
        way: Way,
        outcome: Outcome,
    ) -> Expected {
        let front = &config[..config.len().min(3)];
        Expected {
            place: format!("call {} (n, M, F {front:?}): {call}", self.tally.ran),
            way,
            call: call.clone(),
            config: config.to_vec(),
            outcome,
            board,
            after: state.clone(),
            room: self.room.clone(),
            frame: stored_frame(config, state, call),
        }
    }

    /// Waits for the last answer.
    pub fn finish(mut self) -> Tally {
        self.line.close(&mut self.tally);
        let sum = |way: usize| self.made.iter().map(|row| row[way]).sum::<u64>();
        self.tally.remark = format!(" ({} plain, {} on a context)", sum(0), sum(1));
        for ((name, _), [plain, context]) in ANSWERS.iter().zip(self.made) {
            if self.tally.ran >= ENOUGH && plain.min(context) == 0 {
                self.tally.miss(format!("{name} both ways"));
            }
        }
        self.tally
    }
}

/// In so many calls each must have been made both ways.
const ENOUGH: u64 = 100_000;
