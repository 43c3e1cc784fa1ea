//! The most frames that write errors make a drive take: runs of replies that
//! reach it, and sessions that go beyond it.

mod common;

use std::collections::HashMap;

use adr_model::check::counts::{Counts, Met};
use adr_model::geometry::{BLOCK_LENGTH, FRAME_LENGTH};
use adr_model::reply::GOOD;
use adr_model::state::{ElementsState, Going, StageName};
use adr_model::{Answer, Command, Fault, Geometry, Outcome, Reading, Recording, Reply};
use common::*;

/// Where the second header group begins, and where user frames go on.
const GAP: u32 = 2_990;
const BEHIND_GAP: u32 = 3_000;
/// The groups of header copies: two opening and two closing.
const GROUPS: usize = 4;
const NO_GROUP: [bool; GROUPS] = [false; GROUPS];
const HEADER_COPIES: u64 = 20;
/// Write errors that are few, and many.
const ERRORS: [u32; 5] = [0, 1, 2, 3, 40];
const TAILS: [u32; 3] = [0, 1, 255];

/// Every pair of these.
fn pairs(
    ones: impl IntoIterator<Item = u32>,
    others: impl IntoIterator<Item = u32> + Clone,
) -> impl Iterator<Item = (u32, u32)> {
    ones.into_iter().flat_map(move |one| {
        let others = others.clone().into_iter();
        others.map(move |other| (one, other))
    })
}

/// A recording of filemarks that meets write errors where they cost most.
#[derive(Clone, Copy, Debug)]
struct Plan {
    depth: u32,
    window_blocks: u32,
    tail: u32,
    last: u32,
    /// Where it is added; none for a recording of its own.
    old_end: Option<u32>,
    elements: u32,
    /// So many of them are on tape before the first write error.
    before: u32,
    /// The write errors that elements or EOD meet.
    errors: u32,
    /// So many frames are outstanding when the oldest fails.
    lost: u32,
    /// The groups of header copies whose first copy fails.
    groups: [bool; GROUPS],
    fault: Fault,
}

impl Plan {
    /// Without elements and write errors.
    fn of(depth: u32, window_blocks: u32) -> Plan {
        Plan {
            depth,
            window_blocks,
            tail: 0,
            last: 11_999,
            old_end: None,
            elements: 0,
            before: 0,
            errors: 0,
            lost: depth.min(window_blocks),
            groups: NO_GROUP,
            fault: Fault::None,
        }
    }

    fn most(&self) -> u64 {
        let again = self.errors * self.depth.min(self.window_blocks);
        u64::from(self.elements + 1 + again)
    }

    fn header_errors(&self) -> u64 {
        self.groups.iter().map(|fails| u64::from(*fails)).sum()
    }

    fn most_headers(&self) -> u64 {
        HEADER_COPIES + self.header_errors() * u64::from(self.depth.min(5) - 1)
    }

    fn geometry(&self) -> Geometry {
        let frames = u16::try_from(self.last + 1).unwrap_or(0);
        Geometry::beginning(frames, 1)
    }

    /// The same on a tape just long enough: an address for each element, EOD
    /// and each frame that fails, those that are passed over before the gap,
    /// the gap, and the tail.
    fn on_just_enough_tape(self) -> Plan {
        let first = self.old_end.unwrap_or(10);
        let sent = self.elements + 1 + self.errors;
        let gap = BEHIND_GAP - GAP;
        Plan {
            last: first + sent + self.lost + gap + self.tail,
            ..self
        }
    }

    fn host(&self) -> Host {
        let (depth, blocks, tail) = (self.depth, self.window_blocks, self.tail);
        let mut host = match self.old_end {
            None => Host::open_with_tail(&self.geometry(), depth, blocks, tail),
            Some(old_end) => {
                let reading = Reading::of_state(&ended_at(old_end, self.last));
                Host::of(
                    Recording::open_at_end(&reading, depth, blocks, tail),
                    blocks,
                )
            }
        };
        host.session.plant(self.fault);
        host
    }

    /// The skip from a failed address: none, or over the gap where too few
    /// addresses are left before it.
    fn skip(&self, failed: u32) -> u32 {
        if failed < GAP && failed + 1 + self.lost > GAP {
            GAP - failed
        } else {
            0
        }
    }

    /// Plays it until done; a count above what is allowed ends it.
    fn play(self) -> Result<Counts, String> {
        let mut run = Run {
            host: self.host(),
            counts: Counts::of(self.depth, self.window_blocks),
            outstanding: Vec::new(),
            accepted: 0,
            on_tape: 0,
            errors: self.errors,
            groups: self.groups.to_vec(),
            plan: self,
        };
        while run.exchange()? != Answer::Done {}
        Ok(run.counts)
    }

    /// Plays it, and as many frames are taken as may be.
    #[track_caller]
    fn reaches_the_most(self) {
        self.takes(self.most());
    }

    /// Plays it, and so many frames of elements and EOD are taken.
    #[track_caller]
    fn takes(self, taken: u64) {
        let counts = self
            .play()
            .unwrap_or_else(|wrong| panic!("{self:?}: {wrong}"));
        let (elements, headers) = (counts.elements(), counts.headers());
        assert_eq!(elements.errors, u64::from(self.errors), "{self:?}");
        assert_eq!(elements.taken, taken, "{self:?}");
        assert_eq!(headers.errors, self.header_errors(), "{self:?}");
        assert_eq!(headers.taken, self.most_headers(), "{self:?}");
        assert_eq!(counts.most_elements(), self.most(), "{self:?}");
        assert_eq!(counts.most_headers(), self.most_headers(), "{self:?}");
    }
}

/// A plan that is being played.
struct Run {
    plan: Plan,
    host: Host,
    counts: Counts,
    /// Where the frames outstanding go.
    outstanding: Vec<u32>,
    accepted: u32,
    /// Elements on tape.
    on_tape: u32,
    /// Write errors to come.
    errors: u32,
    /// The groups of header copies to come.
    groups: Vec<bool>,
}

impl Run {
    /// Accepts what is wanted, fetches, and answers the command.
    fn exchange(&mut self) -> Result<Answer, String> {
        self.accept();
        let answer = self.host.fetch();
        if let Answer::Command(command) = answer {
            let stage = self.host.session.stage();
            let reply = self.reply(stage, command);
            self.counts.answer(stage, command, reply.sense)?;
            self.host.bring(reply);
        } else {
            assert_eq!(answer, Answer::Done, "{:?}", self.plan);
        }
        Ok(answer)
    }

    /// Accepts as many elements as are to be outstanding, and closes behind the
    /// last.
    fn accept(&mut self) {
        let closed = self.host.session.state().is_none_or(|state| state.closed);
        let wanted = if self.on_tape < self.plan.before {
            self.plan.before
        } else {
            self.plan.elements
        };
        while self.accepted < wanted && self.accepted - self.on_tape < self.plan.lost {
            self.counts.accept(self.host.session.accept_filemark());
            self.accepted += 1;
        }
        if self.accepted == self.plan.elements && !closed {
            self.host.close();
        }
    }

    fn reply(&mut self, stage: StageName, command: Command) -> Reply {
        match command {
            Command::Write(address) => {
                self.outstanding.push(address.0);
                good()
            }
            Command::ReadPosition if self.fails(stage) => {
                let failed = self.outstanding[0];
                self.outstanding.clear();
                error(failed, self.plan.skip(failed))
            }
            _ => {
                if stage == StageName::Elements {
                    self.on_tape += u32::try_from(self.outstanding.len()).unwrap_or(0);
                }
                self.outstanding.clear();
                good()
            }
        }
    }

    /// Whether the oldest frame fails now.
    fn fails(&mut self, stage: StageName) -> bool {
        if stage != StageName::Elements {
            let first = matches!(self.outstanding[0], 5 | GAP);
            return first && self.groups.remove(0);
        }
        let enough = self.outstanding.len() == self.plan.lost as usize;
        let fails = self.errors > 0 && enough && self.on_tape >= self.plan.before;
        self.errors -= u32::from(fails);
        fails
    }
}

#[test]
fn the_most_is_reached() {
    for (depth, window_blocks) in pairs(1..6, 1..6) {
        let plan = Plan::of(depth, window_blocks);
        for (errors, tail) in pairs(ERRORS, TAILS) {
            for elements in plan.lost..plan.lost + 4 {
                let plan = Plan {
                    tail,
                    elements,
                    errors,
                    ..plan
                };
                plan.reaches_the_most();
            }
        }
    }
}

#[test]
fn the_most_is_reached_with_the_largest_sizes() {
    for (depth, window_blocks) in [(255, 64), (1, 64), (64, 1), (64, 64), (63, 64), (64, 63)] {
        let plan = Plan::of(depth, window_blocks);
        for errors in ERRORS {
            for elements in [plan.lost, plan.lost + 1, 200] {
                let plan = Plan {
                    tail: 255,
                    elements,
                    errors,
                    ..plan
                };
                plan.reaches_the_most();
            }
        }
    }
}

/// Write errors before the gap, up to it and behind it: a recording of its own
/// has so many elements on tape that the next goes near the gap.
#[test]
fn the_most_is_reached_about_the_gap() {
    for (depth, window_blocks) in [(1, 1), (1, 3), (3, 2), (4, 4)] {
        let plan = Plan::of(depth, window_blocks);
        for (first, errors) in pairs(GAP - 7..=GAP, ERRORS) {
            let before = first - 10;
            // As many as may be passed over before the gap are there besides.
            let elements = before + 2 * plan.lost;
            let plan = Plan {
                elements,
                before,
                errors,
                tail: 3,
                ..plan
            };
            plan.reaches_the_most();
        }
    }
}

/// The same of what is added, up to where all that are to be outstanding have
/// room before the gap, and behind it.
#[test]
fn the_most_is_reached_where_something_is_added() {
    for (depth, window_blocks) in [(1, 1), (2, 5), (8, 8), (255, 64)] {
        let plan = Plan::of(depth, window_blocks);
        let nearest = GAP - plan.lost;
        for old_end in [10, nearest - 2, nearest - 1, nearest, BEHIND_GAP, 3_001] {
            for errors in ERRORS {
                for elements in [plan.lost, plan.lost + 3] {
                    let old_end = Some(old_end);
                    let plan = Plan {
                        old_end,
                        elements,
                        errors,
                        tail: 1,
                        ..plan
                    };
                    plan.reaches_the_most();
                }
            }
        }
    }
}

#[test]
fn the_most_is_reached_on_just_enough_tape() {
    for (depth, window_blocks) in [(1, 1), (2, 5), (8, 8), (255, 64)] {
        let plan = Plan::of(depth, window_blocks);
        let nearest = GAP - plan.lost;
        for (old_end, errors) in pairs([nearest - 9, nearest, BEHIND_GAP, 3_500], ERRORS) {
            for (elements, tail) in pairs([plan.lost, plan.lost + 7], TAILS) {
                let plan = Plan {
                    old_end: Some(old_end),
                    elements,
                    errors,
                    tail,
                    ..plan
                };
                let plan = plan.on_just_enough_tape();
                if plan.geometry().last().is_some() {
                    plan.reaches_the_most();
                }
            }
        }
        let plan = Plan {
            elements: 3_100,
            errors: 3,
            tail: 255,
            ..plan
        };
        plan.on_just_enough_tape().reaches_the_most();
    }
}

/// The first copy of any of the four groups fails, and elements do besides.
#[test]
fn the_most_headers_are_reached() {
    for depth in [1, 2, 3, 4, 5, 6, 255] {
        for failing in 0..1_u32 << GROUPS {
            let groups = std::array::from_fn(|group| failing >> group & 1 == 1);
            for (errors, old_end) in [(0, None), (2, None), (2, Some(20))] {
                let plan = Plan::of(depth, 3);
                let plan = Plan {
                    old_end,
                    elements: 4,
                    errors,
                    groups,
                    ..plan
                };
                plan.reaches_the_most();
            }
        }
    }
}

/// With fewer elements than could be outstanding, all of them fail each time;
/// with none, EOD does.
#[test]
fn few_elements() {
    for (depth, window_blocks) in [(1, 1), (4, 4), (255, 64)] {
        for (elements, errors) in pairs(0..4, ERRORS) {
            let plan = Plan::of(depth, window_blocks);
            let lost = elements.clamp(1, plan.lost);
            let plan = Plan {
                elements,
                errors,
                lost,
                ..plan
            };
            plan.takes(u64::from(elements + 1 + errors * lost));
        }
    }
}

/// What can still happen in a search.
#[derive(Clone, Copy, Debug)]
struct Left {
    elements: u32,
    errors: u32,
}

/// Every run of a session: elements accepted at any time, any number of frames
/// confirmed, any outstanding frame failing, told at a WRITE or a READ POSITION,
/// with a few skips. Busy replies change nothing, and an early end leaves less tape:
/// neither is tried.
struct Search {
    window: Vec<u8>,
    frame: Vec<u8>,
    /// The most frames taken from where a session stands.
    known: HashMap<String, u64>,
}

impl Search {
    /// The most frames of elements and EOD of what is added here.
    fn most(old_end: u32, depth: u32, window_blocks: u32, left: Left) -> u64 {
        let plan = Plan {
            old_end: Some(old_end),
            ..Plan::of(depth, window_blocks)
        };
        let mut host = plan.host();
        host.write_headers();
        let mut search = Search {
            window: vec![0; window_blocks as usize * BLOCK_LENGTH],
            frame: vec![0; FRAME_LENGTH],
            known: HashMap::new(),
        };
        search.from(&host.session, left)
    }

    fn from(&mut self, session: &Recording, left: Left) -> u64 {
        let place = format!("{session:?} {left:?}");
        if let Some(most) = self.known.get(&place) {
            return *most;
        }
        let most = self.looked(session, left);
        self.known.insert(place, most);
        most
    }

    fn looked(&mut self, session: &Recording, left: Left) -> u64 {
        let Some(state) = session
            .state()
            .filter(|state| state.stage == StageName::Elements)
        else {
            return 0;
        };
        let mut most = self.accepted(session, left);
        if let (Some(command), Some(elements)) = (state.exchange.awaited, &state.elements) {
            for reply in replies(command, elements, left.errors > 0) {
                most = most.max(self.replied(session, command, &reply, left));
            }
        } else {
            let mut fetched = session.clone();
            if let Answer::Command(_) = fetched.fetch(&self.window, &mut self.frame) {
                most = most.max(self.from(&fetched, left));
            }
        }
        most
    }

    /// After one more element, or the close behind the last.
    fn accepted(&mut self, session: &Recording, left: Left) -> u64 {
        let mut session = session.clone();
        let (outcome, elements) = match left.elements {
            0 => (session.close(), 0),
            elements => (session.accept_filemark(), elements - 1),
        };
        match outcome {
            Outcome::Accepted => self.from(&session, Left { elements, ..left }),
            Outcome::Refused(_) => 0,
        }
    }

    fn replied(&mut self, session: &Recording, command: Command, reply: &Reply, left: Left) -> u64 {
        let mut session = session.clone();
        let good = reply.sense == GOOD;
        let taken = u64::from(good && matches!(command, Command::Write(_)));
        let errors = left.errors - u32::from(!good);
        match session.reply(reply) {
            Outcome::Accepted => taken + self.from(&session, Left { errors, ..left }),
            Outcome::Refused(_) => 0,
        }
    }
}

/// The replies that change something.
fn replies(command: Command, elements: &ElementsState, fails: bool) -> Vec<Reply> {
    let outstanding = elements.outstanding;
    let mut replies = match command {
        Command::ReadPosition => (0..outstanding).map(Reply::position).collect(),
        _ => vec![good()],
    };
    if let (Going::Next(next), true) = (elements.going, fails) {
        for back in 1..=outstanding {
            let skips = [0, 2, 5, 16, 255];
            replies.extend(skips.map(|skip| Reply::write_error(next.minus(back), skip)));
        }
    }
    replies
}

/// Eight frames have no room between 2,985 and 2,990, and fewer than eight are
/// left behind: then no run reaches the most.
#[test]
fn not_reached_where_the_gap_is_too_near() {
    let left = Left {
        elements: 8,
        errors: 1,
    };
    assert_eq!(Search::most(2_985, 8, 8, left), 8 + 1 + 5);
    assert_eq!(Search::most(2_982, 8, 8, left), 8 + 1 + 8);
    // With five more elements eight are outstanding behind the gap.
    let plan = Plan::of(8, 8);
    let old_end = Some(2_985);
    let plan = Plan {
        old_end,
        elements: 13,
        before: 5,
        errors: 1,
        ..plan
    };
    plan.reaches_the_most();
}

/// No run of a small session goes beyond the most, and one reaches it.
#[test]
fn no_run_goes_beyond() {
    for (depth, window_blocks) in [(1, 1), (1, 2), (2, 1), (2, 2), (2, 3), (3, 2)] {
        for (elements, errors) in [(2, 0), (2, 1), (3, 1), (3, 2), (4, 2)] {
            let plan = Plan {
                elements,
                errors,
                ..Plan::of(depth, window_blocks)
            };
            let most = Search::most(20, depth, window_blocks, Left { elements, errors });
            assert_eq!(most, plan.most(), "{plan:?}");
        }
    }
}

/// A drive that takes one frame more than it told of and fails the oldest: the
/// count shows the session that sends it.
#[test]
fn one_element_more_than_the_depth_is_found() {
    for depth in 1..5 {
        for (window_blocks, errors) in pairs(depth + 1..7, 1..4) {
            let lost = depth + 1;
            let plan = Plan::of(depth, window_blocks);
            let plan = Plan {
                elements: lost + 2,
                errors,
                lost,
                ..plan
            };
            let faulty = Plan {
                fault: Fault::ElementAboveDepth,
                ..plan
            };
            let wrong = faulty.play().expect_err("more frames than may be");
            assert!(wrong.contains("of elements and EOD"), "{wrong}");
            // A sound session never has so many outstanding that one fails.
            let sound = plan
                .play()
                .unwrap_or_else(|wrong| panic!("{plan:?}: {wrong}"));
            let met = Met {
                taken: (lost + 3).into(),
                errors: 0,
            };
            assert_eq!(sound.elements(), met);
        }
    }
}

/// The same of header copies.
#[test]
fn one_header_more_than_the_depth_is_found() {
    for depth in 1..5 {
        for group in 0..GROUPS {
            let mut groups = NO_GROUP;
            groups[group] = true;
            let plan = Plan {
                groups,
                ..Plan::of(depth, 1)
            };
            plan.reaches_the_most();
            let faulty = Plan {
                fault: Fault::HeaderAboveDepth,
                ..plan
            };
            let wrong = faulty.play().expect_err("more frames than may be");
            assert!(wrong.contains("of headers"), "{wrong}");
        }
    }
}
