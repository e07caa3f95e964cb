//! What the stories are about, and whether it happened: a story in which no
//! event ever ages says nothing of ageing.

use crate::call::Call;
use crate::making::NO_CONDITION;
use crate::reference::{
    grey_events, Configuration, State, ADMITTED, ALL_CODES, CONFIRMED, COUNTS, EDITION_1,
    EDITION_2, FAILED_THIS_CYCLE, KIND_TIME, NOT_COMPLETED_THIS_CYCLE, PENDING, TEST_FAILED,
    WARNING,
};

const NEEDED: [&str; 104] = [
    "an event confirms",
    "an event asks for the indicator",
    "an event fails by a tick",
    "K held at 255",
    "pending ends",
    "an event heals",
    "an event ages",
    "an event ages and its entry leaves",
    "an event ages that still asks for the indicator",
    "an untested run ends where a clean one would age the event",
    "a known entry moves to the end",
    "a renewed entry's first frame is not its latest",
    "a first frame stays while the latest changes once more",
    "an occurrence count held at 255",
    "an entry of greater priority number is displaced",
    "an entry of equal priority number is displaced",
    "overflow",
    "a clear of one takes an entry out",
    "a clear of all clears overflow",
    "the first of many codes is cleared",
    "the last of many codes is cleared",
    "a code below the first of many is unknown",
    "a code between two of many is unknown",
    "a code above the last of many is unknown",
    "negative reply 11",
    "negative reply 12",
    "negative reply 13",
    "negative reply 14",
    "negative reply 31",
    "a suppressed reply",
    "a reply with events",
    "a reply with counters",
    "a reply with a frame",
    "a reply with two frames that differ",
    "a reply with details",
    "a reply of an event without an entry",
    "an event with an entry does not fit the room",
    "an event is shown, suppressed",
    "an unknown code or record is not suppressed",
    "an event is painted live",
    "an event is painted red",
    "an event is painted grey by bit 6 alone",
    "an event is painted grey by its cycle alone",
    "some events are listed as grey, and some are not",
    "no event is listed as grey",
    "a table with bits in two cycles",
    "a first frame is read that is not the latest",
    "a latest frame is read that is not the first",
    "a latest frame is read by a flag above 1",
    "a restore of edition 1 with frames",
    "a restore of edition 2 with frames that differ",
    "a restore of edition 1 without frames",
    "a restore of edition 2 without frames",
    "edition 1 with entries of two frames is refused",
    "edition 2 with entries of one frame is refused",
    "edition 1 is refused, damaged",
    "edition 2 is refused, damaged",
    "edition 1 is refused, cut",
    "edition 2 is refused, cut",
    "edition 1 is refused, with bytes behind it",
    "edition 2 is refused, with bytes behind it",
    "an image of no edition is refused",
    "a restore with entries",
    "a restore with overflow",
    "a report is refused for its conditions",
    "a report is refused for its conditions, with bit 31 lent",
    "a report counts with what it needs and no more",
    "a tick leaves the D of an event that waits for its conditions",
    "a tick leaves one D, and moves another",
    "a D that waited goes on",
    "a D waits with bit 31 lent",
    "none of the needed conditions is missing",
    "one of the needed conditions is missing",
    "several of the needed conditions are missing",
    "admitted rises to its limit",
    "pushed out rises to its limit",
    "aged rises to its limit",
    "cleared rises to its limit",
    "not stored rises to its limit",
    "a report is refused for admitted",
    "a report is refused for pushed out",
    "a report is refused for not stored",
    "a tick is refused for admitted",
    "a tick is refused for pushed out",
    "a tick is refused for not stored",
    "a tick is refused whole, with room for one",
    "a stop is refused for aged",
    "a stop is refused whole, with room for one",
    "a clear of one is refused for cleared",
    "a clear of all is refused for cleared",
    "a clear of all is refused whole, with room for one",
    "a request is refused for cleared",
    "a request is refused whole, with room for one",
    "an entry is renewed with admitted at its limit",
    "a failure is not stored with admitted at its limit",
    "an entry is added with the other counts at their limits",
    "a tick adds an entry, displaces one and loses one",
    "a stop ages several entries",
    "a clear of all takes several entries out",
    "a request takes an entry out",
    "a negative reply with every count at its limit",
    "a list with every count at its limit",
    "a fresh state zeroes counts",
    "a restore sets counts that were others",
];

/// The names of the counts, in their order.
const COUNTED: [&str; COUNTS] = ["admitted", "pushed out", "aged", "cleared", "not stored"];

/// Of an image of this edition: the frames of an entry, and what a refusal shows where the image is as
/// long as it should be, as long as one of the other edition, shorter, or longer.
fn refused_as(edition: &u8) -> Option<(usize, [&'static str; 4])> {
    match *edition {
        EDITION_1 => Some((
            1,
            [
                "edition 1 is refused, damaged",
                "edition 1 with entries of two frames is refused",
                "edition 1 is refused, cut",
                "edition 1 is refused, with bytes behind it",
            ],
        )),
        EDITION_2 => Some((
            2,
            [
                "edition 2 is refused, damaged",
                "edition 2 with entries of one frame is refused",
                "edition 2 is refused, cut",
                "edition 2 is refused, with bytes behind it",
            ],
        )),
        _ => None,
    }
}

/// So many trouble codes are many: four halvings or more leave one of them.
const MANY: usize = 16;

pub struct Happenings {
    counts: [u64; NEEDED.len()],
    /// The D at which each event last waited in this story, 0 where it did not.
    waited: Vec<i32>,
}

impl Default for Happenings {
    fn default() -> Self {
        Happenings {
            counts: [0; NEEDED.len()],
            waited: Vec::new(),
        }
    }
}

impl Happenings {
    pub fn missing(&self) -> Vec<&'static str> {
        let never = NEEDED.iter().zip(self.counts).filter(|(_, met)| *met == 0);
        never.map(|(what, _)| *what).collect()
    }

    fn met(&mut self, what: &str, did: bool) {
        let at = NEEDED.iter().position(|needed| *needed == what);
        self.counts[at.expect("a needed happening")] += u64::from(did);
    }

    /// Looks at an accepted call, the room after it, and the state on both sides of it.
    pub fn observe(
        &mut self,
        config: &Configuration,
        call: &Call,
        room: &[u8],
        before: &State,
        after: &State,
    ) {
        match call {
            Call::Fresh => self.waited = vec![0; config.events],
            Call::Report { event, present, .. } => {
                self.failures(before, after, false);
                self.storing(config, *event, before, after);
                self.reports(config, *event, *present);
            }
            Call::Tick { ms, present, .. } => {
                self.failures(before, after, true);
                if *ms > 0 {
                    self.waiting(config, *present, before, after);
                }
            }
            Call::Stop { .. } => self.stops(config, before, after),
            Call::Clear { code } => self.clears(config, *code, before, after),
            Call::Request { request, room: 3.. } => {
                self.replies(request, room, before == after);
                self.two_frames(config, request, room);
            }
            Call::ReadFrame { event, which } => self.reads(config, *event, *which, after),
            Call::ReadPaint { event } => self.paints(config, *event, after),
            Call::ReadMissing { event, present } => self.missed(config, *event, *present),
            Call::ListGrey { .. } => self.lists(config, after),
            Call::ReadTable => self.tables(room),
            Call::Restore { image } => self.restores(config, image, after),
            _ => {}
        }
        if !matches!(call, Call::Tick { .. }) {
            self.forget(before, after);
        }
        self.counted(call, room, before, after);
    }

    /// What a call did to the counts.
    fn counted(&mut self, call: &Call, room: &[u8], before: &State, after: &State) {
        if matches!(call, Call::Fresh | Call::Restore { .. }) {
            let others = before.counts != after.counts;
            let fresh = matches!(call, Call::Fresh);
            self.met("a fresh state zeroes counts", others && fresh);
            self.met("a restore sets counts that were others", others && !fresh);
            return;
        }
        let rise = rise(before, after);
        for (place, name) in COUNTED.iter().enumerate() {
            let full = rise[place] > 0 && after.counts[place] == u32::MAX;
            self.met(&format!("{name} rises to its limit"), full);
        }
        let [admitted, pushed_out, aged, cleared, not_stored] = rise;
        let all = before.counts == [u32::MAX; COUNTS];
        match call {
            Call::Tick { .. } => {
                let three = admitted > pushed_out && pushed_out > 0 && not_stored > 0;
                self.met("a tick adds an entry, displaces one and loses one", three);
            }
            Call::Stop { .. } => self.met("a stop ages several entries", aged > 1),
            Call::Clear { .. } => self.met("a clear of all takes several entries out", cleared > 1),
            Call::Request { .. } => {
                let negative = room.first() == Some(&0x7F);
                self.met("a request takes an entry out", cleared > 0);
                self.met(
                    "a negative reply with every count at its limit",
                    all && negative,
                );
                let listed = room.starts_with(&[0x59, 0x02]);
                self.met("a list with every count at its limit", all && listed);
            }
            _ => {}
        }
    }

    /// Looks at a call that was refused for a count which had room for so many more.
    pub fn full(&mut self, call: &Call, place: usize, left: u32) {
        let name = match call {
            Call::Report { .. } => "a report",
            Call::Tick { .. } => "a tick",
            Call::Stop { .. } => "a stop",
            Call::Clear { code: ALL_CODES } => "a clear of all",
            Call::Clear { .. } => "a clear of one",
            _ => "a request",
        };
        self.met(&format!("{name} is refused for {}", COUNTED[place]), true);
        if left > 0 {
            let what = format!("{name} is refused whole, with room for one");
            self.met(&what, left == 1);
        }
    }

    /// A report that was a fresh failure, where counts have no room.
    fn at_limit(&mut self, before: &State, after: &State) {
        let [admitted, pushed_out, .., not_stored] = rise(before, after);
        let full = |place: usize| before.counts[place] == u32::MAX;
        let none = admitted + pushed_out + not_stored == 0;
        self.met(
            "an entry is renewed with admitted at its limit",
            none && full(ADMITTED),
        );
        let lost = not_stored > 0 && full(ADMITTED);
        self.met("a failure is not stored with admitted at its limit", lost);
        let others = (1..COUNTS).all(full);
        let added = admitted > 0 && pushed_out == 0;
        self.met(
            "an entry is added with the other counts at their limits",
            added && others,
        );
    }

    fn reports(&mut self, config: &Configuration, event: usize, present: u32) {
        let just = present != 0 && present == config.row(event).needed as u32;
        self.met("a report counts with what it needs and no more", just);
    }

    fn lists(&mut self, config: &Configuration, state: &State) {
        let grey = grey_events(config, state).len();
        let some = 0 < grey && grey < config.events;
        self.met("some events are listed as grey, and some are not", some);
        self.met("no event is listed as grey", grey == 0);
    }

    fn tables(&mut self, room: &[u8]) {
        let cycles = room.chunks_exact(16);
        let counted = cycles.filter(|counts| counts.iter().any(|byte| *byte != 0));
        self.met("a table with bits in two cycles", counted.count() > 1);
    }

    fn clears(&mut self, config: &Configuration, code: u32, before: &State, after: &State) {
        let (first, last) = config.first_and_last_code();
        let many = config.events >= MANY;
        self.met("the first of many codes is cleared", many && code == first);
        self.met("the last of many codes is cleared", many && code == last);
        let left = before.memory[0] == after.memory[0] + 1;
        self.met("a clear of one takes an entry out", left);
        let cleared = before.board.overflow && !after.board.overflow;
        self.met("a clear of all clears overflow", cleared);
    }

    /// Looks at a clear that was refused, since no event has this trouble code.
    pub fn unknown(&mut self, config: &Configuration, code: u32) {
        let (first, last) = config.first_and_last_code();
        let many = config.events >= MANY;
        let (below, above) = (many && code < first, many && code > last);
        let between = many && !below && !above;
        self.met("a code below the first of many is unknown", below);
        self.met("a code between two of many is unknown", between);
        self.met("a code above the last of many is unknown", above);
    }

    /// Looks at a report that was refused for its conditions.
    pub fn switched(&mut self, present: u32) {
        let top = present & NO_CONDITION != 0;
        self.met("a report is refused for its conditions", true);
        self.met(
            "a report is refused for its conditions, with bit 31 lent",
            top,
        );
    }

    /// What a tick of more than 0 ms did to the events whose D was under way.
    fn waiting(&mut self, config: &Configuration, present: u32, before: &State, after: &State) {
        let (mut left, mut moved) = (false, false);
        for (event, row) in config.rows().enumerate() {
            let (was, is) = (before.debounce[event], after.debounce[event]);
            let under_way = row.bottom() < was && was < row.top() && was != 0;
            if row.kind != KIND_TIME || !under_way {
                continue;
            }
            let waits = !row.enabled(present) && is == was;
            let went_on = is != was && self.waited[event] == was;
            left |= waits;
            moved |= is != was;
            self.waited[event] = if waits { was } else { 0 };
            self.met("a D that waited goes on", went_on);
        }
        self.met(
            "a tick leaves the D of an event that waits for its conditions",
            left,
        );
        self.met("a tick leaves one D, and moves another", left && moved);
        let top = present & NO_CONDITION != 0;
        self.met("a D waits with bit 31 lent", left && top);
    }

    /// A D that another call changed does not wait any more.
    fn forget(&mut self, before: &State, after: &State) {
        let numbers = before.debounce.iter().zip(&after.debounce);
        for (waited, (was, is)) in self.waited.iter_mut().zip(numbers) {
            if was != is {
                *waited = 0;
            }
        }
    }

    fn missed(&mut self, config: &Configuration, event: usize, present: u32) {
        let needed = config.row(event).needed as u32;
        let missing = (needed & !present).count_ones();
        let some = needed != 0;
        self.met(
            "none of the needed conditions is missing",
            some && missing == 0,
        );
        self.met("one of the needed conditions is missing", missing == 1);
        self.met("several of the needed conditions are missing", missing > 1);
    }

    fn paints(&mut self, config: &Configuration, event: usize, state: &State) {
        let status = state.records[4 * event];
        let runs = state.board.running[config.row(event).cycle as usize];
        let tested = status & NOT_COMPLETED_THIS_CYCLE == 0;
        let failed = status & TEST_FAILED != 0;
        self.met("an event is painted live", runs && tested && !failed);
        self.met("an event is painted red", runs && tested && failed);
        self.met("an event is painted grey by bit 6 alone", runs && !tested);
        self.met(
            "an event is painted grey by its cycle alone",
            !runs && tested,
        );
    }

    fn failures(&mut self, before: &State, after: &State, by_tick: bool) {
        for (_, (was, is)) in pairs(before, after) {
            let gained = is[0] & !was[0];
            self.met("an event confirms", gained & CONFIRMED != 0);
            self.met("an event asks for the indicator", gained & WARNING != 0);
            let failed = gained & FAILED_THIS_CYCLE != 0;
            self.met("an event fails by a tick", failed && by_tick);
            self.met("K held at 255", failed && was[1] == 255);
        }
    }

    /// What a report did to memory.
    fn storing(&mut self, config: &Configuration, event: usize, before: &State, after: &State) {
        let fresh_failure = before.records[4 * event] & TEST_FAILED == 0
            && after.records[4 * event] & TEST_FAILED != 0;
        if !fresh_failure {
            return;
        }
        let overflow = after.board.overflow && !before.board.overflow;
        self.met("overflow", overflow);
        self.at_limit(before, after);
        self.renewal(config, event, before, after);
        let (old, new) = (entries(config, before), entries(config, after));
        if let Some((_, count)) = old.iter().find(|(known, _)| *known == event) {
            let was_last = old.last().is_some_and(|(last, _)| *last == event);
            self.met("a known entry moves to the end", !was_last);
            self.met("an occurrence count held at 255", *count == 255);
        }
        let kept = |gone: usize| new.iter().any(|(event, _)| *event == gone);
        if let Some((gone, _)) = old.iter().find(|(event, _)| !kept(*event)) {
            let (victim, own) = (config.row(*gone).priority, config.row(event).priority);
            let (greater, equal) = (victim > own, victim == own);
            self.met("an entry of greater priority number is displaced", greater);
            self.met("an entry of equal priority number is displaced", equal);
        }
    }

    /// A fresh failure of an event that had an entry.
    fn renewal(&mut self, config: &Configuration, event: usize, before: &State, after: &State) {
        let Some((was_first, was_latest)) = frames_of(config, before, event) else {
            return;
        };
        let Some((first, latest)) = frames_of(config, after, event) else {
            return;
        };
        let differ = first != latest;
        self.met("a renewed entry's first frame is not its latest", differ);
        let again = was_first != was_latest && first == was_first && latest != was_latest;
        self.met(
            "a first frame stays while the latest changes once more",
            again && differ,
        );
    }

    fn reads(&mut self, config: &Configuration, event: usize, which: u32, state: &State) {
        let frames = frames_of(config, state, event);
        let differ = frames.is_some_and(|(first, latest)| first != latest);
        let first = which == 0;
        self.met(
            "a first frame is read that is not the latest",
            differ && first,
        );
        self.met(
            "a latest frame is read that is not the first",
            differ && !first,
        );
        let above = differ && which > 1;
        self.met("a latest frame is read by a flag above 1", above);
    }

    /// An image that was accepted.
    fn restores(&mut self, config: &Configuration, image: &[u8], after: &State) {
        self.met("a restore with entries", after.memory[0] > 0);
        self.met("a restore with overflow", after.board.overflow);
        let some = after.memory[0] > 0;
        let with_frames = some && config.frame > 0;
        let (one, two) = (image[1] == EDITION_1, image[1] == EDITION_2);
        self.met("a restore of edition 1 with frames", one && with_frames);
        let differ = (0..config.events)
            .filter_map(|event| frames_of(config, after, event))
            .any(|(first, latest)| first != latest);
        self.met(
            "a restore of edition 2 with frames that differ",
            two && differ,
        );
        let without = some && config.frame == 0;
        self.met("a restore of edition 1 without frames", one && without);
        self.met("a restore of edition 2 without frames", two && without);
    }

    /// Looks at an image that was refused: what its length, by its edition and its number of entries,
    /// says of it.
    pub fn spoilt(&mut self, config: &Configuration, image: &[u8]) {
        let Some((frames, [damaged, of_other, cut, longer])) = image.get(1).and_then(refused_as)
        else {
            self.met("an image of no edition is refused", image.len() > 1);
            return;
        };
        let body = 20 + 4 * config.events;
        let count = image.get(body).map_or(0, |count| usize::from(*count));
        let length = |frames: usize| body + 1 + count * (3 + frames * config.frame) + 1;
        let (own, other) = (length(frames), length(3 - frames));
        let what = match image.len() {
            found if found == own => damaged,
            found if found == other => of_other,
            found if found < own => cut,
            _ => longer,
        };
        self.met(what, true);
    }

    fn stops(&mut self, config: &Configuration, before: &State, after: &State) {
        let remaining = entries(config, after);
        for (event, (was, is)) in pairs(before, after) {
            let lost = was[0] & !is[0];
            let aged = lost & CONFIRMED != 0;
            self.met("pending ends", lost & PENDING != 0);
            self.met("an event heals", lost & WARNING != 0 && !aged);
            self.met("an event ages", aged);
            let warned = aged && lost & WARNING != 0;
            self.met("an event ages that still asks for the indicator", warned);
            let fewer = before.memory[0] > after.memory[0];
            let left = aged && fewer && !remaining.iter().any(|(kept, _)| *kept == event);
            self.met("an event ages and its entry leaves", left);
            let row = config.row(event);
            let running = |state: &State| state.board.running[row.cycle as usize];
            let ended = running(before) && !running(after);
            let last = was[0] & CONFIRMED != 0 && i32::from(was[3]) + 1 == row.age;
            let untested = ended && last && was[0] & NOT_COMPLETED_THIS_CYCLE != 0;
            self.met(
                "an untested run ends where a clean one would age the event",
                untested,
            );
        }
    }

    fn replies(&mut self, request: &[u8], room: &[u8], stays: bool) {
        let negative = room[0] == 0x7F && room[1] == request[0] && stays;
        let codes = [
            ("negative reply 11", 0x11),
            ("negative reply 12", 0x12),
            ("negative reply 13", 0x13),
            ("negative reply 14", 0x14),
            ("negative reply 31", 0x31),
        ];
        for (what, code) in codes {
            self.met(what, negative && room[2] == code);
        }
        let suppressed = matches!(request, [0x19, 0x81 | 0x82, _] | [0x19, 0x8A | 0x94]);
        self.met("a suppressed reply", suppressed);
        let listed = matches!(request, [0x19, 0x02, _]) && room.len() > 6 && room[0] == 0x59;
        self.met("a reply with events", listed);
        let near = matches!(request, [0x19, 0x14]) && room.len() > 5 && room[..2] == [0x59, 0x14];
        self.met("a reply with counters", near && room[5] != 0xA5);
        if let [0x19, second, _, _, _, _] = request {
            self.shows_one(*second, room);
        }
    }

    /// 04 with both frames in the room.
    fn two_frames(&mut self, config: &Configuration, request: &[u8], room: &[u8]) {
        let shown = matches!(request, [0x19, 0x04, ..]) && room.starts_with(&[0x59, 0x04]);
        let frames = room.get(7..7 + 2 * config.frame);
        let differ = frames.is_some_and(|frames| {
            let (first, latest) = frames.split_at(config.frame);
            first != latest
        });
        let told = shown && room.get(6) == Some(&0x01) && differ;
        self.met("a reply with two frames that differ", told);
    }

    /// A request of the length that 04 and 06 ask for.
    fn shows_one(&mut self, second: u8, room: &[u8]) {
        if !matches!(second & 0x7F, 0x04 | 0x06) {
            return;
        }
        let shown = room.len() >= 6 && room[..2] == [0x59, second];
        let with_entry = shown && room.get(6) == Some(&0x01);
        self.met("a reply with a frame", with_entry && second == 0x04);
        self.met("a reply with details", with_entry && second == 0x06);
        self.met("a reply of an event without an entry", shown && !with_entry);
        // Six bytes are enough without an entry.
        let too_long = room.len() >= 6 && room[..3] == [0x7F, 0x19, 0x14];
        self.met("an event with an entry does not fit the room", too_long);
        let suppress = second & 0x80 != 0;
        let negative = room[..2] == [0x7F, 0x19];
        self.met("an event is shown, suppressed", suppress && !negative);
        let unknown = room[..3] == [0x7F, 0x19, 0x31];
        self.met(
            "an unknown code or record is not suppressed",
            suppress && unknown,
        );
    }
}

/// What a call added to the counts.
fn rise(before: &State, after: &State) -> [u32; COUNTS] {
    std::array::from_fn(|place| after.counts[place] - before.counts[place])
}

type Pair<'a> = (&'a [u8], &'a [u8]);

/// Each event's record before and after.
fn pairs<'a>(before: &'a State, after: &'a State) -> impl Iterator<Item = (usize, Pair<'a>)> {
    let was = before.records.chunks_exact(4);
    was.zip(after.records.chunks_exact(4)).enumerate()
}

/// The first and the latest frame in the entry of an event.
fn frames_of<'a>(
    config: &Configuration,
    state: &'a State,
    event: usize,
) -> Option<(&'a [u8], &'a [u8])> {
    let place = entries(config, state)
        .iter()
        .position(|(known, _)| *known == event)?;
    let from = 1 + place * config.entry() + 3;
    Some(state.memory[from..from + 2 * config.frame].split_at(config.frame))
}

/// The event number and occurrence count of each entry.
fn entries(config: &Configuration, state: &State) -> Vec<(usize, u8)> {
    let all = state.memory[1..].chunks_exact(config.entry());
    all.take(usize::from(state.memory[0]))
        .map(|entry| {
            (
                usize::from(entry[0]) * 256 + usize::from(entry[1]),
                entry[2],
            )
        })
        .collect()
}
