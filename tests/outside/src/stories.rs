//! Random stories: a fresh state, then mostly sensible calls, so that events
//! confirm, heal, age, displace one another and come back from images.

use crate::call::{Call, Outcome};
use crate::compare::{as_bytes, Comparison};
use crate::damage;
use crate::door::Program;
use crate::happenings::Happenings;
use crate::making;
use crate::random::Random;
use crate::reference::{
    grey_events, Board, Configuration, State, ADMITTED, AGED, ALL_CODES, ALL_PRESENT, BAD_IMAGE,
    CLEARED, COUNTS, COUNTS_FULL, DONE, EDITION_1, EDITION_2, FAILED, KIND_INTERNAL, KIND_TIME,
    MISSING_CONDITION, NO_SUCH, PASSED, PRE_FAILED, PRE_PASSED, PUSHED_OUT,
};
use crate::tally::Tally;

/// Stories fail when something they are about did not happen in so many calls.
const ENOUGH: u64 = 100_000;

/// So many events take part in a call that moves many entries.
const MANY: usize = 12;

pub fn run(program: &Program, rounds: u64, seed: u64) -> Tally {
    let mut random = Random::new(seed);
    let mut both = Comparison::new("stories", program, seed);
    let mut happenings = Happenings::default();
    while both.tally.ran < rounds {
        let numbers = match random.one_in(8) {
            true => making::timed(&mut random),
            false => making::configuration(&mut random),
        };
        let config = Configuration::judge(&numbers).expect("made to be right");
        let mut story = Story {
            mood: Mood::new(&mut random, &config),
            state: making::junk(&mut random, &config),
            random: &mut random,
            both: &mut both,
            happenings: &mut happenings,
            before: State::default(),
            numbers: &numbers,
            config,
            rounds,
        };
        story.tell();
    }
    if rounds >= ENOUGH {
        for what in happenings.missing() {
            both.tally.miss(what.to_string());
        }
    }
    both.finish()
}

/// Entries admitted, less those present, pushed out, aged and cleared.
fn between(state: &State) -> i64 {
    let count = |place: usize| i64::from(state.counts[place]);
    let present = i64::from(state.memory[0]);
    count(ADMITTED) - present - count(PUSHED_OUT) - count(AGED) - count(CLEARED)
}

/// What a story is like.
struct Mood {
    calls: usize,
    /// Percent of steps that start or stop a cycle.
    turning: usize,
    /// Percent of reports that are failed or pre-failed.
    failing: usize,
    /// Percent of reports that are pre-results.
    pre: usize,
    /// Percent of reports and ticks that are not lent all conditions.
    switching: usize,
    /// Percent of steps before which the caller sets the counts near their limits.
    counting: usize,
    /// Percent of steps that move many entries at once.
    many: usize,
    /// Most reports go to this many events from `first` on.
    first: usize,
    events: usize,
}

impl Mood {
    fn new(random: &mut Random, config: &Configuration) -> Mood {
        let events = (config.places + 3).min(config.events);
        Mood {
            calls: random.pick(&[40, 150, 400]),
            turning: random.pick(&[5, 15, 30, 60]),
            failing: random.pick(&[20, 50, 50, 90]),
            pre: random.pick(&[20, 60]),
            switching: random.pick(&[0, 10, 40]),
            counting: random.pick(&[0, 0, 5, 20]),
            many: random.pick(&[0, 0, 1, 4]),
            first: random.below(config.events - events + 1),
            events,
        }
    }
}

struct Story<'a> {
    random: &'a mut Random,
    both: &'a mut Comparison,
    happenings: &'a mut Happenings,
    numbers: &'a [i32],
    config: Configuration<'a>,
    mood: Mood,
    state: State,
    before: State,
    rounds: u64,
}

impl Story<'_> {
    /// None, here and below: all rounds have been made.
    fn tell(&mut self) -> Option<()> {
        self.call(Call::Fresh)?;
        // Some stories go on from a state that would take hundreds of cycles to come to.
        if self.random.one_in(3) {
            self.take_over()?;
        }
        for _ in 0..self.mood.calls {
            self.step()?;
        }
        Some(())
    }

    fn call(&mut self, call: Call) -> Option<Outcome> {
        if self.both.tally.ran >= self.rounds {
            return None;
        }
        self.before.clone_from(&self.state);
        let board = as_bytes(&self.state.board);
        let fill = self.random.byte();
        let outcome = self
            .both
            .call(self.numbers, &mut self.state, board, &call, fill);
        if outcome.number == DONE {
            let room = self.both.room();
            self.happenings
                .observe(&self.config, &call, room, &self.before, &self.state);
            self.add_up(&call);
        }
        match (outcome.number, &call) {
            (NO_SUCH, Call::Clear { code }) => self.happenings.unknown(&self.config, *code),
            (MISSING_CONDITION, Call::Report { present, .. }) => self.happenings.switched(*present),
            (BAD_IMAGE, Call::Restore { image }) => self.happenings.spoilt(&self.config, image),
            (COUNTS_FULL, _) => self.full(&call),
            _ => {}
        }
        Some(outcome)
    }

    /// "Admitted equals entries present plus pushed out plus aged plus cleared": after fresh and restore,
    /// and from there on; where the caller set the counts, by as much as that left between the two.
    fn add_up(&mut self, call: &Call) {
        let expected = match call {
            Call::Fresh | Call::Restore { .. } => 0,
            _ => between(&self.before),
        };
        if between(&self.state) != expected {
            let text = format!("the counts do not add up after {call}");
            self.both.tally.differ(text);
        }
    }

    /// A call that was refused for its counts: for those which refuse it alone too. The caller may then
    /// zero them.
    fn full(&mut self, call: &Call) {
        for place in 0..COUNTS {
            let mut alone = self.before.clone();
            let count = self.before.counts[place];
            alone.counts.fill(0);
            alone.counts[place] = count;
            let mut room = vec![0; call.room()];
            let outcome = call.by_reference(self.numbers, &mut alone, &mut room);
            if outcome.number == COUNTS_FULL {
                self.happenings.full(call, place, u32::MAX - count);
            }
        }
        if self.random.one_in(2) {
            self.state.counts.fill(0);
        }
    }

    /// Restores an image, of either edition, of a random well-formed state; sometimes first its bytes
    /// under the other's number, or damaged.
    fn take_over(&mut self) -> Option<()> {
        let board = Board {
            running: [false; 4],
            overflow: self.random.one_in(2),
        };
        let other = making::state(self.random, &self.config, board);
        let edition = making::edition(self.random);
        let image = making::image(&self.config, edition, &other);
        if self.random.one_in(2) {
            let spoilt = match self.random.one_in(3) {
                true => damage::other_edition(&image),
                false => damage::image(self.random, image.clone()),
            };
            self.call(Call::Restore { image: spoilt })?;
        }
        self.call(Call::Restore { image })?;
        let mut told = match edition {
            EDITION_1 => making::told_by_edition_1(&self.config, &other),
            _ => other,
        };
        told.counts = making::counts_restored(&told);
        if self.state != told {
            let text = "the state restored is not the state of the image";
            self.both.tally.differ(text.to_string());
        }
        if edition == EDITION_1 {
            self.save_as_edition_2()?;
        }
        Some(())
    }

    /// "Saving always writes edition 2", and that one restored is the same state.
    fn save_as_edition_2(&mut self) -> Option<()> {
        let image = making::image(&self.config, EDITION_2, &self.state);
        let room = image.len();
        self.call(Call::Save { room })?;
        if self.both.room() != image {
            let text = "an edition 1 image restored and saved is not the edition 2 image";
            self.both.tally.differ(text.to_string());
        }
        self.bring_back(image)
    }

    fn step(&mut self) -> Option<()> {
        if self.random.percent(self.mood.counting) {
            self.state.counts = making::counts_near(self.random);
        }
        if self.random.percent(self.mood.many) {
            return self.many();
        }
        if self.random.percent(self.mood.turning) {
            return self.turn();
        }
        let event = self.random.below(self.config.events + 1);
        match self.random.below(100) {
            0..60 => return self.report(),
            60..72 => return self.tick(),
            72..82 => return self.request(),
            82..86 => return self.save(),
            86..87 => return self.missing(),
            87..88 => self.call(Call::ReadStatus { event }),
            88..90 => return self.frame_of(),
            90..92 => self.call(Call::ReadCounter { event }),
            92..93 => self.call(Call::ReadTable),
            93..95 => self.call(Call::ReadPaint { event }),
            95..96 => return self.list(),
            96..99 => {
                let code = self.trouble_code();
                self.call(Call::Clear { code })
            }
            _ if self.random.one_in(4) => self.call(Call::Fresh),
            _ => return self.take_over(),
        }?;
        Some(())
    }

    /// An event of those that this story is about.
    fn event(&mut self) -> usize {
        self.mood.first + self.random.below(self.mood.events)
    }

    /// Starts a stopped cycle or stops a running one; rarely the wrong way round.
    fn turn(&mut self) -> Option<()> {
        let event = self.event();
        let mut cycle = self.config.row(event).cycle as u32;
        if self.random.one_in(20) {
            cycle = self.random.below(6) as u32;
        }
        let runs = cycle < 4 && self.state.board.running[cycle as usize];
        let stop = runs != self.random.one_in(30);
        self.call(match stop {
            true => Call::Stop { cycle },
            false => Call::Start { cycle },
        })?;
        Some(())
    }

    fn frame(&mut self) -> Vec<u8> {
        let mut length = self.config.frame;
        if self.random.one_in(60) {
            length = self.random.below(34);
        }
        self.random.bytes(length)
    }

    fn report(&mut self) -> Option<()> {
        let event = match self.random.one_in(40) {
            true => self.random.below(self.config.events),
            false => self.event(),
        };
        let row = self.config.row(event);
        if !self.state.board.running[row.cycle as usize] && !self.random.one_in(5) {
            let cycle = row.cycle as u32;
            self.call(Call::Start { cycle })?;
        }
        let failing = self.random.percent(self.mood.failing);
        let pre = self.random.percent(self.mood.pre)
            && (row.kind != KIND_INTERNAL || self.random.one_in(20));
        let code = match (failing, pre) {
            (false, false) => PASSED,
            (true, false) => FAILED,
            (false, true) => PRE_PASSED,
            (true, true) => PRE_FAILED,
        };
        let call = Call::Report {
            event,
            code,
            frame: self.frame(),
            present: self.present(event),
        };
        self.call(call)?;
        Some(())
    }

    /// The conditions that are lent: all, or a set that this event may find wanting.
    fn present(&mut self, event: usize) -> u32 {
        match self.random.percent(self.mood.switching) {
            true => making::present(self.random, self.config.row(event).needed),
            false => ALL_PRESENT,
        }
    }

    /// Reads a frame, mostly of an event that this story is about; any byte but 0 is the latest.
    fn frame_of(&mut self) -> Option<()> {
        let event = match self.random.one_in(4) {
            true => self.random.below(self.config.events + 1),
            false => self.event(),
        };
        let which = self.random.pick(&[0, 0, 1, 1, 2, 0x100]);
        self.call(Call::ReadFrame { event, which })?;
        Some(())
    }

    fn missing(&mut self) -> Option<()> {
        let event = self.event();
        let present = making::present(self.random, self.config.row(event).needed);
        self.call(Call::ReadMissing { event, present })?;
        Some(())
    }

    /// A tick of any length, or one that just brings an event to its top or bottom, or just not.
    fn tick(&mut self) -> Option<()> {
        let event = self.event();
        let row = self.config.row(event);
        let d = self.state.debounce[event];
        let rest = if d > 0 {
            row.top() - d
        } else {
            d - row.bottom()
        };
        let near = row.kind == KIND_TIME && d != 0 && self.random.one_in(2);
        let ms = match near {
            true => (rest - self.random.between(0, 1)).max(0) as u32,
            false => self
                .random
                .pick(&[0, 1, 2, 5, 499, 500, 30_000, 60_000, 60_001]),
        };
        let frame = self.frame();
        let present = self.present(event);
        self.call(Call::Tick { ms, frame, present })?;
        Some(())
    }

    /// One of the calls that move many entries at once, often with counts near their limits.
    fn many(&mut self) -> Option<()> {
        match self.random.below(3) {
            0 => self.storm(),
            1 => self.clean_run(),
            _ => self.sweep(),
        }
    }

    fn maybe_near(&mut self) {
        if self.random.one_in(2) {
            self.state.counts = making::counts_near(self.random);
        }
    }

    fn start_if_stopped(&mut self, event: usize) -> Option<()> {
        let cycle = self.config.row(event).cycle as u32;
        if !self.state.board.running[cycle as usize] {
            self.call(Call::Start { cycle })?;
        }
        Some(())
    }

    fn send(&mut self, event: usize, code: u32) -> Option<()> {
        let frame = self.random.bytes(self.config.frame);
        let present = ALL_PRESENT;
        self.call(Call::Report {
            event,
            code,
            frame,
            present,
        })?;
        Some(())
    }

    /// Several events of kind time begin to fail, and one tick brings them all to their tops.
    fn storm(&mut self) -> Option<()> {
        if self.random.one_in(2) {
            let code = ALL_CODES;
            self.call(Call::Clear { code })?;
        }
        let first = self.mood.first;
        for event in first..first + self.mood.events.min(MANY) {
            if self.config.row(event).kind == KIND_TIME {
                self.start_if_stopped(event)?;
                self.send(event, PASSED)?;
                self.send(event, PRE_FAILED)?;
            }
        }
        self.maybe_near();
        let frame = self.random.bytes(self.config.frame);
        self.call(Call::Tick {
            ms: 60_000,
            frame,
            present: ALL_PRESENT,
        })?;
        Some(())
    }

    /// A run in which the events that have entries pass: those that are near it age at its stop.
    fn clean_run(&mut self) -> Option<()> {
        let event = self.event();
        self.start_if_stopped(event)?;
        let cycle = self.config.row(event).cycle;
        let with_entries = making::events_of(&self.config, &self.state);
        let of_cycle = |event: &usize| self.config.row(*event).cycle == cycle;
        let events: Vec<usize> = with_entries.into_iter().filter(of_cycle).collect();
        for event in events.into_iter().take(MANY) {
            self.send(event, PASSED)?;
        }
        self.maybe_near();
        let cycle = cycle as u32;
        self.call(Call::Stop { cycle })?;
        Some(())
    }

    /// All is cleared, by the call or by a request.
    fn sweep(&mut self) -> Option<()> {
        self.maybe_near();
        let call = match self.random.one_in(2) {
            true => Call::Clear { code: ALL_CODES },
            false => Call::Request {
                request: vec![0x14, 0xFF, 0xFF, 0xFF],
                room: 3,
            },
        };
        self.call(call)?;
        Some(())
    }

    /// A known trouble code mostly, sometimes all, sometimes one beside a known
    /// one, the first or the last, which is mostly none's.
    fn trouble_code(&mut self) -> u32 {
        let event = self.event();
        let known = self.config.row(event).trouble_code as u32;
        let (first, last) = self.config.first_and_last_code();
        match self.random.below(20) {
            0 | 1 => ALL_CODES,
            2 => known + 1,
            3 => known - 1,
            4 => first - 1,
            5 => last + 1,
            6 => first,
            7 => last,
            _ => known,
        }
    }

    fn request(&mut self) -> Option<()> {
        let mask = match self.random.one_in(2) {
            true => self.random.byte(),
            false => 1 << self.random.below(8),
        };
        let suppress = self.random.pick(&[0, 0, 0, 0, 0x80]);
        let [_, high, middle, low] = self.trouble_code().to_be_bytes();
        let number = self.random.pick(&[0x01, 0x01, 0xFF, 0xFF, 0x00, mask]);
        let mut request = match self.random.below(14) {
            0 | 1 => vec![0x19, suppress | 0x01, mask],
            2..5 => vec![0x19, suppress | 0x02, mask],
            5 | 6 => vec![0x19, suppress | 0x0A],
            7 | 8 => vec![0x19, suppress | 0x14],
            9 | 10 => vec![0x19, suppress | 0x04, high, middle, low, number],
            11 | 12 => vec![0x19, suppress | 0x06, high, middle, low, number],
            _ => vec![0x14, high, middle, low],
        };
        match self.random.below(30) {
            0 => request.push(mask),
            1 => drop(request.pop()),
            2 => request[1] = mask,
            3 => request[0] = mask,
            4 => request.truncate(self.random.below(2)),
            _ => {}
        }
        let room = self.reply_room();
        self.call(Call::Request { request, room })?;
        Some(())
    }

    fn reply_room(&mut self) -> usize {
        let whole = 3 + 4 * self.config.events;
        let some = 3 + 4 * self.random.below(self.config.events + 1);
        let frames = 7 + 2 * self.config.frame;
        let lists = [whole, whole, whole + 9, some, some + 1];
        let shows = [frames, frames, frames - 1, 11, 10, 6, 5, 3, 2];
        match self.random.below(lists.len() + shows.len()) < lists.len() {
            true => self.random.pick(&lists),
            false => self.random.pick(&shows),
        }
    }

    /// A list that just holds the grey events, or is longer, or one too short.
    fn list(&mut self) -> Option<()> {
        let exact = grey_events(&self.config, &self.state).len();
        let short = exact.saturating_sub(1);
        let numbers = self.random.pick(&[exact, exact, exact + 3, short]);
        self.call(Call::ListGrey { numbers })?;
        Some(())
    }

    /// Stops what runs, mostly, and saves; then brings the image back elsewhere.
    fn save(&mut self) -> Option<()> {
        if !self.random.one_in(4) {
            for cycle in 0..4 {
                if self.state.board.running[cycle as usize] {
                    self.call(Call::Stop { cycle })?;
                }
            }
        }
        let exact = making::image(&self.config, EDITION_2, &self.state).len();
        let room = self.random.pick(&[exact, exact, exact + 7, exact - 1]);
        let saved = self.call(Call::Save { room })?;
        if saved.number == DONE {
            let image = self.both.room()[..exact].to_vec();
            self.bring_back(image)?;
        }
        Some(())
    }

    /// The restored state is the saved state, and saved again gives the same
    /// bytes; and the story goes on from there.
    fn bring_back(&mut self, image: Vec<u8>) -> Option<()> {
        let junk = making::junk(self.random, &self.config);
        let mut saved = std::mem::replace(&mut self.state, junk);
        saved.counts = making::counts_restored(&saved);
        let room = image.len();
        self.call(Call::Restore {
            image: image.clone(),
        })?;
        if self.state != saved {
            let text = "the restored state is not the saved state";
            self.both.tally.differ(text.to_string());
        }
        self.call(Call::Save { room })?;
        if self.both.room() != image {
            let text = "the image restored and saved again has other bytes";
            self.both.tally.differ(text.to_string());
        }
        Some(())
    }
}
