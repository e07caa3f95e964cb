//! Documents 01 and 02 in plain code that shares nothing with the archive.
//!
//! Each call judges first, in the document's order, and only then changes the
//! lent blocks, in place. `Err` is a refusal and holds the number answered.

use std::ops::Range;

pub const DONE: u8 = 0;
pub const BAD_ARGUMENT: u8 = 1;
pub const BAD_CONFIGURATION: u8 = 2;
pub const BAD_STATE: u8 = 3;
pub const NO_SUCH: u8 = 4;
pub const WRONG_CYCLE_STATE: u8 = 5;
pub const NO_PRE_RESULT: u8 = 6;
pub const ROOM_TOO_SMALL: u8 = 7;
pub const BAD_IMAGE: u8 = 8;
pub const WRONG_FRAME: u8 = 9;
pub const NO_ENTRY: u8 = 10;
pub const MISSING_CONDITION: u8 = 11;
pub const COUNTS_FULL: u8 = 12;

/// The bits of the status byte.
pub const TEST_FAILED: u8 = 0x01;
pub const FAILED_THIS_CYCLE: u8 = 0x02;
pub const PENDING: u8 = 0x04;
pub const CONFIRMED: u8 = 0x08;
pub const NOT_COMPLETED_SINCE_CLEAR: u8 = 0x10;
pub const FAILED_SINCE_CLEAR: u8 = 0x20;
pub const NOT_COMPLETED_THIS_CYCLE: u8 = 0x40;
pub const WARNING: u8 = 0x80;
pub const FRESH_STATUS: u8 = 0x50;

/// The codes of a report.
pub const PASSED: u32 = 0;
pub const FAILED: u32 = 1;
pub const PRE_PASSED: u32 = 2;
pub const PRE_FAILED: u32 = 3;

/// "Clear, by one trouble code or FFFFFFh for all".
pub const ALL_CODES: u32 = 0xFF_FFFF;

/// Document 02: "31 enable conditions, numbers 0 to 30, a set of bits".
pub const CONDITIONS: u32 = 31;
pub const ALL_PRESENT: u32 = 2_147_483_647;
/// "the lowest missing number, or 32 when none is"
pub const NONE_MISSING: u32 = 32;

/// Document 02: "five counts, each 32 bits and lent as a slice of five: entries admitted, pushed out,
/// aged, cleared, and failures not stored".
pub const COUNTS: usize = 5;
pub const ADMITTED: usize = 0;
pub const PUSHED_OUT: usize = 1;
pub const AGED: usize = 2;
pub const CLEARED: usize = 3;
pub const NOT_STORED: usize = 4;

/// Numbers of a row of the configuration.
pub const ROW: usize = 14;

pub const KIND_INTERNAL: i32 = 0;
pub const KIND_COUNTER: i32 = 1;
pub const KIND_TIME: i32 = 2;
pub const JUMP_UP: i32 = 1;
pub const JUMP_DOWN: i32 = 2;

/// The image's two bytes in front and three rows of 6.
const IMAGE_HEAD: usize = 20;

/// The editions of an image: entries of one frame, and of two.
pub const EDITION_1: u8 = 1;
pub const EDITION_2: u8 = 2;

#[derive(Clone, Copy, PartialEq, Eq, Debug)]
pub enum Verdict {
    None,
    Passed,
    Failed,
}

/// Document 02: "Reading a frame takes a choice of which".
#[derive(Clone, Copy, PartialEq, Eq, Debug)]
pub enum Which {
    First,
    Latest,
}

/// "Which of the four cycles run, and an overflow flag."
#[derive(Clone, Copy, PartialEq, Eq, Debug, Default)]
pub struct Board {
    pub running: [bool; 4],
    pub overflow: bool,
}

/// The blocks that a caller lends, and the board.
#[derive(PartialEq, Eq, Debug, Default)]
pub struct State {
    pub records: Vec<u8>,
    pub debounce: Vec<i32>,
    pub memory: Vec<u8>,
    /// A call that does not take the counts does not look at them.
    pub counts: Vec<u32>,
    pub board: Board,
}

impl Clone for State {
    fn clone(&self) -> State {
        let mut copy = State::default();
        copy.clone_from(self);
        copy
    }

    // Keeps the room that the blocks already have.
    fn clone_from(&mut self, from: &State) {
        self.records.clone_from(&from.records);
        self.debounce.clone_from(&from.debounce);
        self.memory.clone_from(&from.memory);
        self.counts.clone_from(&from.counts);
        self.board = from.board;
    }
}

/// One event's 14 numbers.
pub struct Row {
    pub trouble_code: i32,
    pub priority: i32,
    pub cycle: i32,
    pub kind: i32,
    pub p: i32,
    pub q: i32,
    pub up: i32,
    pub down: i32,
    pub jumps: i32,
    pub confirm: i32,
    pub heal: i32,
    pub age: i32,
    pub indicator: i32,
    pub needed: i32,
}

impl Row {
    #[inline]
    fn read(numbers: &[i32; ROW]) -> Row {
        Row {
            trouble_code: numbers[0],
            priority: numbers[1],
            cycle: numbers[2],
            kind: numbers[3],
            p: numbers[4],
            q: numbers[5],
            up: numbers[6],
            down: numbers[7],
            jumps: numbers[8],
            confirm: numbers[9],
            heal: numbers[10],
            age: numbers[11],
            indicator: numbers[12],
            needed: numbers[13],
        }
    }

    /// The table's column "allowed", but for the rising of trouble codes.
    fn allowed(&self) -> bool {
        let bounds = match self.kind {
            KIND_INTERNAL => self.p == 0 && self.q == 0,
            KIND_COUNTER | KIND_TIME => {
                (-30_000..=-1).contains(&self.p) && (1..=30_000).contains(&self.q)
            }
            _ => false,
        };
        let steps = if self.kind == KIND_COUNTER {
            (1..=30_000).contains(&self.up)
                && (1..=30_000).contains(&self.down)
                && (0..=3).contains(&self.jumps)
        } else {
            self.up == 0 && self.down == 0 && self.jumps == 0
        };
        bounds
            && steps
            && (1..=16_777_214).contains(&self.trouble_code)
            && (1..=255).contains(&self.priority)
            && (0..=3).contains(&self.cycle)
            && (1..=255).contains(&self.confirm)
            && (1..=255).contains(&self.heal)
            && (1..=255).contains(&self.age)
            && (0..=1).contains(&self.indicator)
            && (0..=2_147_483_647).contains(&self.needed)
    }

    /// The least D: P, or P−1 for kind 2. Kind 0 has P = 0.
    pub fn bottom(&self) -> i32 {
        if self.kind == KIND_TIME {
            self.p - 1
        } else {
            self.p
        }
    }

    /// The greatest D: Q, or Q+1 for kind 2. Kind 0 has Q = 0.
    pub fn top(&self) -> i32 {
        if self.kind == KIND_TIME {
            self.q + 1
        } else {
            self.q
        }
    }

    /// "Verdict, kinds 1 and 2: failed if the report leaves D at its top,
    /// passed if at its bottom, else none."
    fn verdict_at(&self, d: i32) -> Verdict {
        if d == self.top() {
            Verdict::Failed
        } else if d == self.bottom() {
            Verdict::Passed
        } else {
            Verdict::None
        }
    }

    fn runs(&self, board: &Board) -> bool {
        board.running[self.cycle as usize]
    }

    /// Whether its "needed conditions" are "all present". No event needs bit 31.
    pub fn enabled(&self, present: u32) -> bool {
        let needed = self.needed as u32;
        needed & present == needed
    }

    /// The numbers of the conditions that it needs and that are not present, rising.
    fn missing(&self, present: u32) -> impl Iterator<Item = u32> {
        let needed = self.needed as u32;
        let has = |set: u32, number: u32| set & (1 << number) != 0;
        (0..CONDITIONS).filter(move |number| has(needed, *number) && !has(present, *number))
    }
}

/// A configuration that keeps its table.
#[derive(Clone, Copy)]
pub struct Configuration<'a> {
    /// n.
    pub events: usize,
    /// M.
    pub places: usize,
    /// F.
    pub frame: usize,
    rows: &'a [[i32; ROW]],
}

impl<'a> Configuration<'a> {
    /// Answer 2: "configuration breaks the table above".
    pub fn judge(numbers: &'a [i32]) -> Result<Configuration<'a>, u8> {
        let [n, m, f, rest @ ..] = numbers else {
            return Err(BAD_CONFIGURATION);
        };
        let front = (1..=512).contains(n) && (1..=64).contains(m) && (0..=32).contains(f);
        if !front || rest.len() != ROW * *n as usize {
            return Err(BAD_CONFIGURATION);
        }
        let (rows, _) = rest.as_chunks::<ROW>();
        let mut code_before = 0;
        for numbers in rows {
            let row = Row::read(numbers);
            if !row.allowed() || row.trouble_code <= code_before {
                return Err(BAD_CONFIGURATION);
            }
            code_before = row.trouble_code;
        }
        Ok(Configuration {
            events: *n as usize,
            places: *m as usize,
            frame: *f as usize,
            rows,
        })
    }

    #[inline]
    pub fn row(&self, event: usize) -> Row {
        Row::read(&self.rows[event])
    }

    pub fn rows(&self) -> impl Iterator<Item = Row> + 'a {
        self.rows.iter().map(Row::read)
    }

    /// Bytes of an entry: event number 2, occurrence count 1, first frame F, latest frame F.
    pub fn entry(&self) -> usize {
        3 + 2 * self.frame
    }

    /// Bytes of an entry in an image of edition 1 or 2; none for an edition that there is not.
    pub fn entry_of(&self, edition: u8) -> Option<usize> {
        match edition {
            EDITION_1 => Some(3 + self.frame),
            EDITION_2 => Some(self.entry()),
            _ => None,
        }
    }

    pub fn memory(&self) -> usize {
        1 + self.places * self.entry()
    }

    pub fn first_and_last_code(&self) -> (u32, u32) {
        let code = |event: usize| self.row(event).trouble_code as u32;
        (code(0), code(self.events - 1))
    }

    /// The event that has this trouble code.
    fn event_of(&self, code: u32) -> Option<usize> {
        self.rows().position(|row| row.trouble_code as u32 == code)
    }

    fn lengths_fit(&self, state: &State) -> bool {
        state.records.len() == 4 * self.events
            && state.debounce.len() == self.events
            && state.memory.len() == self.memory()
    }
}

/// "Every call begins 2, 3."
fn judge<'a>(config: &'a [i32], state: &State) -> Result<Configuration<'a>, u8> {
    let config = judge_lengths(config, state)?;
    if records_well_formed(&config, state) && memory_well_formed(&config, state) {
        Ok(config)
    } else {
        Err(BAD_STATE)
    }
}

/// "For restore and for making a fresh state, 3 judges lengths only."
fn judge_lengths<'a>(config: &'a [i32], state: &State) -> Result<Configuration<'a>, u8> {
    let config = Configuration::judge(config)?;
    if config.lengths_fit(state) {
        Ok(config)
    } else {
        Err(BAD_STATE)
    }
}

/// The same for a call that is lent the counts: "A slice of another length is 3."
fn judge_with_counts<'a>(config: &'a [i32], state: &State) -> Result<Configuration<'a>, u8> {
    let config = judge(config, state)?;
    counts_fit(state)?;
    Ok(config)
}

fn counts_fit(state: &State) -> Result<(), u8> {
    match state.counts.len() {
        COUNTS => Ok(()),
        _ => Err(BAD_STATE),
    }
}

/// Counts that no call can carry past their limit.
type Wide = [u64; COUNTS];

/// "whose whole rise would carry any count past 4,294,967,295 is refused …, checked last": the work is
/// done on a copy of everything, and kept only where every count still has 32 bits.
fn whole<T>(state: &mut State, work: impl FnOnce(&mut State, &mut Wide) -> T) -> Result<T, u8> {
    let mut copy = state.clone();
    let mut wide = [0; COUNTS];
    for (wide, count) in wide.iter_mut().zip(&state.counts) {
        *wide = u64::from(*count);
    }
    let done = work(&mut copy, &mut wide);
    for (count, wide) in copy.counts.iter_mut().zip(wide) {
        *count = u32::try_from(wide).map_err(|_| COUNTS_FULL)?;
    }
    *state = copy;
    Ok(done)
}

fn records_well_formed(config: &Configuration, state: &State) -> bool {
    let (records, _) = state.records.as_chunks::<4>();
    let rows = config.rows().zip(records).zip(&state.debounce);
    for ((row, record), d) in rows {
        // "D is 0 if the event's cycle is stopped or its kind is 0"
        let d_fits = if row.runs(&state.board) {
            (row.bottom()..=row.top()).contains(d)
        } else {
            *d == 0
        };
        if !d_fits || !record_well_formed(&row, record) {
            return false;
        }
    }
    true
}

/// The clauses of *well formed* on status, K, h and g.
fn record_well_formed(row: &Row, record: &[u8; 4]) -> bool {
    let [status, k, h, g] = *record;
    let set = |bit: u8| status & bit != 0;
    (!set(NOT_COMPLETED_SINCE_CLEAR) || status == FRESH_STATUS)
        && (!set(TEST_FAILED | PENDING | CONFIRMED) || set(FAILED_SINCE_CLEAR))
        && (!set(FAILED_THIS_CYCLE) || (set(PENDING) && !set(NOT_COMPLETED_THIS_CYCLE)))
        && (!set(WARNING) || (set(CONFIRMED) && row.indicator == 1))
        && (k >= 1) == set(PENDING)
        && i32::from(h) < row.heal
        && (h == 0 || set(WARNING))
        && i32::from(g) < row.age
        && (g == 0 || set(CONFIRMED))
}

fn memory_well_formed(config: &Configuration, state: &State) -> bool {
    let entries = usize::from(state.memory[0]);
    if entries > config.places {
        return false;
    }
    let (used, after) = state.memory[1..].split_at(entries * config.entry());
    entries_well_formed(config, config.entry(), used, &state.records)
        && after.iter().all(|byte| *byte == 0)
}

/// "Event numbers below n and no two equal, occurrence ≥ 1, each entry's event has bit 5 set."
fn entries_well_formed(config: &Configuration, width: usize, used: &[u8], records: &[u8]) -> bool {
    let mut seen = [false; 512];
    for entry in used.chunks_exact(width) {
        let event = event_in(entry);
        if event >= config.events || seen[event] || entry[2] == 0 {
            return false;
        }
        if records[4 * event] & FAILED_SINCE_CLEAR == 0 {
            return false;
        }
        seen[event] = true;
    }
    true
}

/// An entry's event number, "2 bytes, high first".
fn event_in(entry: &[u8]) -> usize {
    usize::from(entry[0]) << 8 | usize::from(entry[1])
}

/// The status of an event with its K, h and g.
fn record(state: &mut State, event: usize) -> &mut [u8; 4] {
    &mut state.records.as_chunks_mut::<4>().0[event]
}

/// The fresh state: "status 50h, K = h = g = 0, D = 0, memory empty (all
/// bytes 0), cycles stopped, overflow clear".
pub fn fresh(config: &[i32], state: &mut State) -> Result<(), u8> {
    judge_lengths(config, state)?;
    counts_fit(state)?;
    for record in state.records.as_chunks_mut::<4>().0 {
        *record = [FRESH_STATUS, 0, 0, 0];
    }
    state.debounce.fill(0);
    state.memory.fill(0);
    state.board = Board::default();
    // "A fresh state zeroes all five."
    state.counts.fill(0);
    Ok(())
}

pub fn report(
    config: &[i32],
    state: &mut State,
    event: usize,
    code: u32,
    frame: &[u8],
    present: u32,
) -> Result<Verdict, u8> {
    let config = judge_with_counts(config, state)?;
    if event >= config.events {
        return Err(NO_SUCH);
    }
    let row = config.row(event);
    if code > PRE_FAILED {
        return Err(BAD_ARGUMENT);
    }
    if row.kind == KIND_INTERNAL && code >= PRE_PASSED {
        return Err(NO_PRE_RESULT);
    }
    if frame.len() != config.frame {
        return Err(WRONG_FRAME);
    }
    if !row.runs(&state.board) {
        return Err(WRONG_CYCLE_STATE);
    }
    // "refused with new number 11, checked last"
    if !row.enabled(present) {
        return Err(MISSING_CONDITION);
    }
    let (d, verdict) = debounced(&row, state.debounce[event], code);
    whole(state, |state, counts| {
        state.debounce[event] = d;
        qualify(&config, state, counts, event, verdict, frame);
        verdict
    })
}

/// The new D and the verdict of a report.
fn debounced(row: &Row, d: i32, code: u32) -> (i32, Verdict) {
    if row.kind == KIND_INTERNAL {
        // "passed and failed are the verdict; D stays 0"
        let failed = code == FAILED;
        return (
            0,
            if failed {
                Verdict::Failed
            } else {
                Verdict::Passed
            },
        );
    }
    let moved = match (code, row.kind) {
        (FAILED, _) => row.top(),
        (PASSED, _) => row.bottom(),
        (PRE_FAILED, KIND_COUNTER) => {
            let jump = row.jumps & JUMP_UP != 0 && d < 0;
            let start = if jump { 0 } else { d };
            (start + row.up).min(row.q)
        }
        (PRE_PASSED, KIND_COUNTER) => {
            let jump = row.jumps & JUMP_DOWN != 0 && d > 0;
            let start = if jump { 0 } else { d };
            (start - row.down).max(row.p)
        }
        // "Pre-failed: D = 1 if D ≤ 0, else unchanged."
        (PRE_FAILED, _) => d.max(1),
        // "Pre-passed: D = −1 if D ≥ 0, else unchanged."
        _ => d.min(-1),
    };
    (moved, row.verdict_at(moved))
}

/// What a qualified result does to the event's record, and to memory.
fn qualify(
    config: &Configuration,
    state: &mut State,
    counts: &mut Wide,
    event: usize,
    verdict: Verdict,
    frame: &[u8],
) {
    match verdict {
        Verdict::None => {}
        Verdict::Passed => {
            let [status, ..] = record(state, event);
            *status &= !(TEST_FAILED | NOT_COMPLETED_SINCE_CLEAR | NOT_COMPLETED_THIS_CYCLE);
        }
        Verdict::Failed => fail(config, state, counts, event, frame),
    }
}

fn fail(config: &Configuration, state: &mut State, counts: &mut Wide, event: usize, frame: &[u8]) {
    let row = config.row(event);
    let [status, k, h, g] = record(state, event);
    let fresh_failure = *status & TEST_FAILED == 0;
    // "if bit 1 was clear, K rises by one, at most 255"
    if *status & FAILED_THIS_CYCLE == 0 {
        *k = k.saturating_add(1);
    }
    *status |= TEST_FAILED | FAILED_THIS_CYCLE | PENDING | FAILED_SINCE_CLEAR;
    *status &= !(NOT_COMPLETED_SINCE_CLEAR | NOT_COMPLETED_THIS_CYCLE);
    *h = 0;
    *g = 0;
    if i32::from(*k) >= row.confirm {
        *status |= CONFIRMED;
        if row.indicator == 1 {
            *status |= WARNING;
        }
    }
    if fresh_failure {
        store(config, state, counts, event, frame);
    }
}

/// "Fresh failure of e with the lent frame", cases 1 to 4. An entry is "stored anew" where e had none.
fn store(config: &Configuration, state: &mut State, counts: &mut Wide, event: usize, frame: &[u8]) {
    let mut count = 1;
    let mut first = frame.to_vec();
    if let Some(place) = place_of(config, &state.memory, event) {
        let known = &state.memory[at(config, place)..];
        count = known[2].saturating_add(1);
        // "A repeat replaces only the latest."
        first = known[3..3 + config.frame].to_vec();
        take_out(config, &mut state.memory, place);
    } else if usize::from(state.memory[0]) == config.places {
        let Some(place) = victim(config, state, event) else {
            state.board.overflow = true;
            counts[NOT_STORED] += 1;
            return;
        };
        take_out(config, &mut state.memory, place);
        counts[PUSHED_OUT] += 1;
        counts[ADMITTED] += 1;
    } else {
        counts[ADMITTED] += 1;
    }
    let from = at(config, usize::from(state.memory[0]));
    let entry = &mut state.memory[from..from + config.entry()];
    entry[..3].copy_from_slice(&[(event >> 8) as u8, event as u8, count]);
    entry[3..3 + config.frame].copy_from_slice(&first);
    entry[3 + config.frame..].copy_from_slice(frame);
    state.memory[0] += 1;
}

/// Where the entry at a place begins in the memory block.
fn at(config: &Configuration, place: usize) -> usize {
    1 + place * config.entry()
}

/// The entries in use, the oldest first.
fn entries<'a>(config: &Configuration, memory: &'a [u8]) -> std::slice::ChunksExact<'a, u8> {
    memory[1..at(config, usize::from(memory[0]))].chunks_exact(config.entry())
}

fn place_of(config: &Configuration, memory: &[u8], event: usize) -> Option<usize> {
    entries(config, memory).position(|entry| event_in(entry) == event)
}

/// The place of the entry that gives way to event e, if there is one.
fn victim(config: &Configuration, state: &State, event: usize) -> Option<usize> {
    let own = config.row(event).priority;
    let mut greatest = own;
    let mut chosen = None;
    for (place, entry) in entries(config, &state.memory).enumerate() {
        // "the greatest, and the oldest among equals"
        let priority = config.row(event_in(entry)).priority;
        if priority > greatest {
            greatest = priority;
            chosen = Some(place);
        }
    }
    // "If none: the oldest entry of equal priority number whose event has bit 0 clear."
    chosen.or_else(|| {
        entries(config, &state.memory).position(|entry| {
            let other = event_in(entry);
            config.row(other).priority == own && state.records[4 * other] & TEST_FAILED == 0
        })
    })
}

/// "Removal closes the gap and keeps the order."
fn take_out(config: &Configuration, memory: &mut [u8], place: usize) {
    let last = usize::from(memory[0]) - 1;
    let end = at(config, last + 1);
    memory.copy_within(at(config, place + 1)..end, at(config, place));
    memory[at(config, last)..end].fill(0);
    memory[0] -= 1;
}

/// "Its entry leaves", if it has one, and is counted.
fn leave(config: &Configuration, state: &mut State, event: usize, count: &mut u64) {
    if let Some(place) = place_of(config, &state.memory, event) {
        take_out(config, &mut state.memory, place);
        *count += 1;
    }
}

pub fn tick(
    config: &[i32],
    state: &mut State,
    ms: u32,
    frame: &[u8],
    present: u32,
) -> Result<(), u8> {
    let config = judge_with_counts(config, state)?;
    if ms > 60_000 {
        return Err(BAD_ARGUMENT);
    }
    if frame.len() != config.frame {
        return Err(WRONG_FRAME);
    }
    whole(state, |state, counts| {
        pass_time(&config, state, counts, ms, frame, present);
    })
}

/// "Events in rising number, only kind 2 with its cycle running".
fn pass_time(
    config: &Configuration,
    state: &mut State,
    counts: &mut Wide,
    ms: u32,
    frame: &[u8],
    present: u32,
) {
    for (event, row) in config.rows().enumerate() {
        if row.kind != KIND_TIME || !row.runs(&state.board) {
            continue;
        }
        // "A tick doesn't move such an event's D."
        if !row.enabled(present) {
            continue;
        }
        let d = state.debounce[event];
        let moved = if 0 < d && d < row.top() {
            (d + ms as i32).min(row.top())
        } else if row.bottom() < d && d < 0 {
            (d - ms as i32).max(row.bottom())
        } else {
            continue;
        };
        state.debounce[event] = moved;
        qualify(config, state, counts, event, row.verdict_at(moved), frame);
    }
}

pub fn start(config: &[i32], state: &mut State, cycle: u32) -> Result<(), u8> {
    let config = judge(config, state)?;
    if cycle > 3 {
        return Err(NO_SUCH);
    }
    if state.board.running[cycle as usize] {
        return Err(WRONG_CYCLE_STATE);
    }
    state.board.running[cycle as usize] = true;
    for (event, row) in config.rows().enumerate() {
        if row.cycle as u32 == cycle {
            let [status, ..] = record(state, event);
            *status &= !FAILED_THIS_CYCLE;
            *status |= NOT_COMPLETED_THIS_CYCLE;
        }
    }
    Ok(())
}

pub fn stop(config: &[i32], state: &mut State, cycle: u32) -> Result<(), u8> {
    let config = judge_with_counts(config, state)?;
    if cycle > 3 {
        return Err(NO_SUCH);
    }
    if !state.board.running[cycle as usize] {
        return Err(WRONG_CYCLE_STATE);
    }
    whole(state, |state, counts| {
        state.board.running[cycle as usize] = false;
        for (event, row) in config.rows().enumerate() {
            if row.cycle as u32 == cycle {
                heal(&row, record(state, event));
                if age(&row, record(state, event)) {
                    leave(&config, state, event, &mut counts[AGED]);
                }
                state.debounce[event] = 0;
            }
        }
    })
}

/// Stop, (a): "if 1 and 6 are clear: bit 2 clear, K = 0, and if bit 7 is set
/// h rises by one; at H, bit 7 clear and h = 0".
fn heal(row: &Row, record: &mut [u8; 4]) {
    let [status, k, h, _] = record;
    if *status & (FAILED_THIS_CYCLE | NOT_COMPLETED_THIS_CYCLE) != 0 {
        return;
    }
    *status &= !PENDING;
    *k = 0;
    if *status & WARNING != 0 {
        *h += 1;
        if i32::from(*h) == row.heal {
            *status &= !WARNING;
            *h = 0;
        }
    }
}

/// Stop, (b): "if 1 is clear", and by W2 6 too, "and 3 is set: g rises by one;
/// at A the event ages". Says whether it aged.
fn age(row: &Row, record: &mut [u8; 4]) -> bool {
    let [status, _, h, g] = record;
    let clean = *status & (FAILED_THIS_CYCLE | NOT_COMPLETED_THIS_CYCLE) == 0;
    if !clean || *status & CONFIRMED == 0 {
        return false;
    }
    *g += 1;
    if i32::from(*g) < row.age {
        return false;
    }
    *status &= !(CONFIRMED | WARNING);
    *h = 0;
    *g = 0;
    true
}

pub fn clear(config: &[i32], state: &mut State, code: u32) -> Result<(), u8> {
    let config = judge_with_counts(config, state)?;
    let covered = covered(&config, code).ok_or(NO_SUCH)?;
    clear_events(&config, state, covered)
}

/// The events that a trouble code covers, and whether it is the one for all.
struct Covered {
    events: Range<usize>,
    all: bool,
}

/// None for a code that is unknown.
fn covered(config: &Configuration, code: u32) -> Option<Covered> {
    let all = code == ALL_CODES;
    let events = match all {
        true => 0..config.events,
        false => config.event_of(code).map(|event| event..event + 1)?,
    };
    Some(Covered { events, all })
}

/// "Each covered event gets status 50h, K = h = g = D = 0, its entry leaves".
fn clear_events(config: &Configuration, state: &mut State, covered: Covered) -> Result<(), u8> {
    whole(state, |state, counts| {
        for event in covered.events {
            *record(state, event) = [FRESH_STATUS, 0, 0, 0];
            state.debounce[event] = 0;
            leave(config, state, event, &mut counts[CLEARED]);
        }
        // "clearing all also clears overflow"
        state.board.overflow &= !covered.all;
    })
}

pub fn read_status(config: &[i32], state: &State, event: usize) -> Result<u8, u8> {
    let config = judge(config, state)?;
    if event >= config.events {
        return Err(NO_SUCH);
    }
    Ok(state.records[4 * event])
}

/// Document 02: the fault detection counter.
pub fn read_counter(config: &[i32], state: &State, event: usize) -> Result<i8, u8> {
    let config = judge(config, state)?;
    if event >= config.events {
        return Err(NO_SUCH);
    }
    let status = state.records[4 * event];
    Ok(counter_of(
        &config.row(event),
        state.debounce[event],
        status,
    ))
}

/// How near a fault is, -128 to 127, in a well-formed state.
fn counter_of(row: &Row, d: i32, status: u8) -> i8 {
    if row.kind == 0 {
        return match (status & 0x01 != 0, status & 0x10 != 0) {
            (true, _) => 127,
            (false, false) => -128,
            (false, true) => 0,
        };
    }
    // "Time kind: the same with |D| - 1 in place of |D|, and 0 when D is 0."
    let distance = match (row.kind, d) {
        (_, 0) => 0,
        (2, _) => d.abs() - 1,
        _ => d.abs(),
    };
    let counter = match d {
        0.. => 127 * distance / row.q,
        _ => -(128 * distance / -row.p),
    };
    counter.try_into().expect("D lies in its range")
}

/// Document 02: "how many of the conditions it needs are still missing, and the lowest missing
/// number".
pub fn read_missing(
    config: &[i32],
    state: &State,
    event: usize,
    present: u32,
) -> Result<(usize, usize), u8> {
    let config = judge(config, state)?;
    if event >= config.events {
        return Err(NO_SUCH);
    }
    let row = config.row(event);
    let lowest = row.missing(present).next().unwrap_or(NONE_MISSING);
    Ok((row.missing(present).count(), lowest as usize))
}

/// Document 02: "four by eight", cycle by cycle, bit 0 first.
pub const TABLE: usize = 4 * 8;

/// Document 02: for each cycle and each bit, the events of that cycle with the bit set.
pub fn read_table(config: &[i32], state: &State) -> Result<[u16; TABLE], u8> {
    let config = judge(config, state)?;
    Ok(std::array::from_fn(|at| {
        let (cycle, bit) = (at / 8, at % 8);
        let statuses = state.records.iter().step_by(4);
        let counted = config
            .rows()
            .zip(statuses)
            .filter(|(row, status)| row.cycle as usize == cycle && **status & (1 << bit) != 0);
        counted.count() as u16
    }))
}

/// Document 02: how a panel paints an event.
#[derive(Clone, Copy, PartialEq, Eq, Debug)]
pub enum Paint {
    Grey,
    Red,
    Live,
}

fn paint_of(row: &Row, status: u8, board: &Board) -> Paint {
    let runs = board.running[row.cycle as usize];
    match (
        runs,
        status & NOT_COMPLETED_THIS_CYCLE,
        status & TEST_FAILED,
    ) {
        (true, 0, 0) => Paint::Live,
        (true, 0, _) => Paint::Red,
        _ => Paint::Grey,
    }
}

pub fn read_paint(config: &[i32], state: &State, event: usize) -> Result<Paint, u8> {
    let config = judge(config, state)?;
    if event >= config.events {
        return Err(NO_SUCH);
    }
    let status = state.records[4 * event];
    Ok(paint_of(&config.row(event), status, &state.board))
}

/// The events that are painted grey, rising.
pub fn grey_events(config: &Configuration, state: &State) -> Vec<u16> {
    let rows = config.rows().zip(state.records.iter().step_by(4));
    let grey = rows
        .zip(0..)
        .filter(|((row, status), _)| paint_of(row, **status, &state.board) == Paint::Grey);
    grey.map(|(_, event)| event).collect()
}

/// Document 02: lists them, and answers how many.
pub fn list_grey(config: &[i32], state: &State, list: &mut [u16]) -> Result<usize, u8> {
    let config = judge(config, state)?;
    let grey = grey_events(&config, state);
    let front = list.get_mut(..grey.len()).ok_or(ROOM_TOO_SMALL)?;
    front.copy_from_slice(&grey);
    Ok(grey.len())
}

/// The start of the frame asked for in the memory block, and its length.
pub fn read_frame(
    config: &[i32],
    state: &State,
    event: usize,
    which: Which,
) -> Result<(usize, usize), u8> {
    let config = judge(config, state)?;
    if event >= config.events {
        return Err(NO_SUCH);
    }
    let place = place_of(&config, &state.memory, event).ok_or(NO_ENTRY)?;
    let first = at(&config, place) + 3;
    let start = match which {
        Which::First => first,
        Which::Latest => first + config.frame,
    };
    Ok((start, config.frame))
}

/// The bytes of the frame asked for, by the event's entry and not by a place; empty where the call is
/// refused.
pub fn stored_frame<'a>(config: &[i32], state: &'a State, event: usize, which: Which) -> &'a [u8] {
    let Ok(config) = judge(config, state) else {
        return &[];
    };
    let own = entries(&config, &state.memory).find(|entry| event_in(entry) == event);
    own.map_or(&[], |entry| {
        let (first, latest) = entry[3..].split_at(config.frame);
        match which {
            Which::First => first,
            Which::Latest => latest,
        }
    })
}

/// The bytes before the bodies of an image of this edition, whose second body is so long.
pub fn image_head(config: &Configuration, edition: u8, memory: usize) -> [u8; IMAGE_HEAD] {
    let mut head = [0; IMAGE_HEAD];
    head[..2].copy_from_slice(&[3, edition]);
    let lengths = [4 * config.events, memory, 1];
    let mut offset = IMAGE_HEAD;
    for (body, length) in lengths.into_iter().enumerate() {
        let row = &mut head[2 + 6 * body..8 + 6 * body];
        row[0] = body as u8 + 1;
        row[2..4].copy_from_slice(&(offset as u16).to_be_bytes());
        row[4..].copy_from_slice(&(length as u16).to_be_bytes());
        offset += length;
    }
    head
}

/// Writes the image into the room and answers its length.
pub fn save(config: &[i32], state: &State, room: &mut [u8]) -> Result<usize, u8> {
    let config = judge(config, state)?;
    if state.board.running.contains(&true) {
        return Err(WRONG_CYCLE_STATE);
    }
    let used = at(&config, usize::from(state.memory[0]));
    let memory_from = IMAGE_HEAD + state.records.len();
    let overflow_at = memory_from + used;
    if room.len() < overflow_at + 1 {
        return Err(ROOM_TOO_SMALL);
    }
    // "Saving always writes edition 2"
    room[..IMAGE_HEAD].copy_from_slice(&image_head(&config, EDITION_2, used));
    room[IMAGE_HEAD..memory_from].copy_from_slice(&state.records);
    room[memory_from..overflow_at].copy_from_slice(&state.memory[..used]);
    room[overflow_at] = u8::from(state.board.overflow);
    Ok(overflow_at + 1)
}

pub fn restore(config: &[i32], state: &mut State, image: &[u8]) -> Result<(), u8> {
    let config = judge_lengths(config, state)?;
    counts_fit(state)?;
    let bodies = bodies(&config, image).ok_or(BAD_IMAGE)?;
    state.records.copy_from_slice(bodies.records);
    state.debounce.fill(0);
    state.memory.fill(0);
    state.memory[0] = bodies.memory[0];
    let saved = bodies.memory[1..].chunks_exact(bodies.width);
    let places = state.memory[1..].chunks_exact_mut(config.entry());
    for (entry, saved) in places.zip(saved) {
        // "its one frame becoming both": in edition 1 the first and the last F bytes are the same.
        let first = &saved[3..3 + config.frame];
        let latest = &saved[saved.len() - config.frame..];
        entry[..3].copy_from_slice(&saved[..3]);
        entry[3..3 + config.frame].copy_from_slice(first);
        entry[3 + config.frame..].copy_from_slice(latest);
    }
    state.board = Board {
        running: [false; 4],
        overflow: bodies.overflow,
    };
    // "A restore sets admitted to the entries present and the rest to 0"
    state.counts.fill(0);
    state.counts[ADMITTED] = u32::from(bodies.memory[0]);
    Ok(())
}

/// The bodies of an acceptable image.
struct Bodies<'a> {
    records: &'a [u8],
    /// The entry count and the entries.
    memory: &'a [u8],
    /// Bytes of an entry.
    width: usize,
    overflow: bool,
}

/// The bodies of an image, of either edition, of a well-formed state with all
/// cycles stopped; none for anything else.
fn bodies<'a>(config: &Configuration, image: &'a [u8]) -> Option<Bodies<'a>> {
    let (head, rest) = image.split_at_checked(IMAGE_HEAD)?;
    let edition = head[1];
    let width = config.entry_of(edition)?;
    let (records, rest) = rest.split_at_checked(4 * config.events)?;
    let count = usize::from(*rest.first()?);
    let length = 1 + count * width;
    if count > config.places || head != image_head(config, edition, length) {
        return None;
    }
    let (memory, rest) = rest.split_at_checked(length)?;
    let overflow = match rest {
        [0] => false,
        [1] => true,
        _ => return None,
    };
    let mut rows = config.rows().zip(records.as_chunks::<4>().0);
    let fits = rows.all(|(row, record)| record_well_formed(&row, record))
        && entries_well_formed(config, width, &memory[1..], records);
    fits.then_some(Bodies {
        records,
        memory,
        width,
        overflow,
    })
}

// Three things are called 14.
const SERVICE_14: u8 = 0x14;
const SUB_FUNCTION_14: u8 = 0x14;
const CODE_14: u8 = 0x14;

/// A diagnostic request. Writes the reply into the room and answers its length.
pub fn request(
    config: &[i32],
    state: &mut State,
    request: &[u8],
    room: &mut [u8],
) -> Result<usize, u8> {
    let config = judge_with_counts(config, state)?;
    if room.len() < 3 {
        return Err(ROOM_TOO_SMALL);
    }
    let Some(service) = request.first() else {
        return Err(BAD_ARGUMENT);
    };
    let reply = match service {
        0x19 => read_information(&config, state, request, room),
        &SERVICE_14 => match to_clear(&config, request) {
            Ok(covered) => {
                clear_events(&config, state, covered)?;
                room[0] = 0x54;
                Ok(1)
            }
            Err(code) => Err(code),
        },
        _ => Err(0x11),
    };
    Ok(reply.unwrap_or_else(|code| {
        room[..3].copy_from_slice(&[0x7F, *service, code]);
        3
    }))
}

/// Service 19. `Err` is the code of a negative reply.
fn read_information(
    config: &Configuration,
    state: &State,
    request: &[u8],
    room: &mut [u8],
) -> Result<usize, u8> {
    let &[_, second, ref rest @ ..] = request else {
        return Err(0x13);
    };
    let sub_function = second & 0x7F;
    let suppressed = second & 0x80 != 0;
    let mask = match (sub_function, rest) {
        (0x01 | 0x02, [mask]) => Some(*mask),
        (0x0A | SUB_FUNCTION_14, []) => None,
        (0x04 | 0x06, &[high, middle, low, number]) => {
            let code = u32::from_be_bytes([0, high, middle, low]);
            let reply = about_one(config, state, sub_function, code, number)?;
            return send(&reply, suppressed, room);
        }
        (0x01 | 0x02 | 0x0A | SUB_FUNCTION_14 | 0x04 | 0x06, _) => return Err(0x13),
        _ => return Err(0x12),
    };
    // "With the top bit set a positive reply has length 0 and the room stays untouched."
    if suppressed {
        return Ok(0);
    }
    if sub_function == SUB_FUNCTION_14 {
        return near(config, state, room);
    }
    by_status(config, state, sub_function, mask, room)
}

/// 01, 02 and 0A: the number of the events that match, or these events.
fn by_status(
    config: &Configuration,
    state: &State,
    sub_function: u8,
    mask: Option<u8>,
    room: &mut [u8],
) -> Result<usize, u8> {
    let statuses = state.records.iter().step_by(4);
    let matching = statuses.filter(|status| matches(**status, mask)).count();
    let counted = sub_function == 0x01;
    let length = if counted { 6 } else { 3 + 4 * matching };
    // "Otherwise one longer than the room: code 14."
    let reply = room.get_mut(..length).ok_or(CODE_14)?;
    reply[..3].copy_from_slice(&[0x59, sub_function, 0xFF]);
    if counted {
        reply[3..].copy_from_slice(&[0x01, (matching >> 8) as u8, matching as u8]);
    } else {
        list(config, state, mask, &mut reply[3..]);
    }
    Ok(length)
}

/// "An event matches if status and mask share a set bit." Without a mask all do.
fn matches(status: u8, mask: Option<u8>) -> bool {
    mask.is_none_or(|mask| status & mask != 0)
}

/// "Per matching event trouble code (3 bytes high first) and status, rising."
fn list(config: &Configuration, state: &State, mask: Option<u8>, reply: &mut [u8]) {
    let statuses = state.records.iter().step_by(4);
    let matching = config
        .rows()
        .zip(statuses)
        .filter(|(_, status)| matches(**status, mask));
    for ((row, status), part) in matching.zip(reply.chunks_exact_mut(4)) {
        let [_, high, middle, low] = row.trouble_code.to_be_bytes();
        part.copy_from_slice(&[high, middle, low, *status]);
    }
}

/// Document 02: trouble code and counter of each event whose counter is 1 to 126, rising.
fn near(config: &Configuration, state: &State, room: &mut [u8]) -> Result<usize, u8> {
    let mut reply = vec![0x59, SUB_FUNCTION_14];
    for (event, row) in config.rows().enumerate() {
        let counter = counter_of(&row, state.debounce[event], state.records[4 * event]);
        if (1..=126).contains(&counter) {
            let [_, high, middle, low] = row.trouble_code.to_be_bytes();
            reply.extend([high, middle, low, counter as u8]);
        }
    }
    send(&reply, false, room)
}

/// Document 02: what 04 and 06 tell of the event of a code, its frames or its details.
fn about_one(
    config: &Configuration,
    state: &State,
    sub_function: u8,
    code: u32,
    number: u8,
) -> Result<Vec<u8>, u8> {
    // "The only record numbers are 01 and FF.", "FFFFFFh is an unknown code here."
    let event = config.event_of(code).ok_or(0x31)?;
    if !matches!(number, 0x01 | 0xFF) {
        return Err(0x31);
    }
    let [_, high, middle, low] = code.to_be_bytes();
    let &[status, k, h, g] = &state.records[4 * event..][..4] else {
        unreachable!("a record has four bytes");
    };
    let mut reply = vec![0x59, sub_function, high, middle, low, status];
    // "Without an entry the reply ends after the status."
    if let Some(entry) = entries(config, &state.memory).find(|entry| event_in(entry) == event) {
        reply.push(0x01);
        match sub_function {
            // The first frame, then the latest.
            0x04 => reply.extend(&entry[3..]),
            _ => reply.extend([entry[2], k, h, g]),
        }
    }
    Ok(reply)
}

/// Writes a positive reply, unless it is suppressed or longer than the room.
fn send(reply: &[u8], suppressed: bool, room: &mut [u8]) -> Result<usize, u8> {
    if suppressed {
        return Ok(0);
    }
    let part = room.get_mut(..reply.len()).ok_or(CODE_14)?;
    part.copy_from_slice(reply);
    Ok(reply.len())
}

/// Service 14: the events that it clears. `Err` is the code of a negative reply.
fn to_clear(config: &Configuration, request: &[u8]) -> Result<Covered, u8> {
    let &[_, high, middle, low] = request else {
        return Err(0x13);
    };
    covered(config, u32::from_be_bytes([0, high, middle, low])).ok_or(0x31)
}
