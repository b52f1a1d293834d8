//! What holds of every history: a send or session has one verdict, in time, and
//! the copies in the verdict are whole frames found in the bytes put out.

mod common;

use common::*;
use reference::choice::{Choice, Mode, Role};
use reference::link::Link;
use reference::random::{script, KINDS};
use reference::report::{Report, SendingPart, SessionPart};
use reference::script::{understand, Call, LinkCall};

/// The last tick on which a verdict may come, counted from acceptance, for a
/// frame of so many bytes, whose time on the wire counts four times. In the new
/// mode the NAK that is worse than the loss comes a tick before it, three times.
fn bound(mode: Mode, session: bool, size: usize) -> u32 {
    let bound = match (mode, session) {
        (Mode::Spaced, false) => 15_701,
        (Mode::Spaced, true) => 20_700,
        (Mode::Sooner, false) => 15_698,
        (Mode::Sooner, true) => 20_697,
    };
    bound + 4 * wire(size)
}

/// An accepted send or session without its verdict.
struct Open {
    frame: Vec<u8>,
    session: bool,
    bound: u32,
    ticks: u32,
    put_out: Vec<u8>,
    /// Whole frames found in them.
    copies: usize,
}

/// Watches a history by what the calls report and put out alone.
struct Watch {
    mode: Mode,
    open: Option<Open>,
    verdicts: u32,
    failures: u32,
    latest: u32,
}

/// Cuts bytes put out into single bytes and whole frames; the frames.
fn frames(mut bytes: &[u8]) -> Vec<&[u8]> {
    let mut frames = Vec::new();
    while let Some(&first) = bytes.first() {
        let size = if first == 0x01 {
            usize::from(bytes[1]) + 2
        } else {
            1
        };
        let (front, rest) = bytes.split_at(size);
        if first == 0x01 {
            frames.push(front);
        }
        bytes = rest;
    }
    frames
}

impl Watch {
    fn new(mode: Mode) -> Watch {
        Watch {
            mode,
            open: None,
            verdicts: 0,
            failures: 0,
            latest: 0,
        }
    }

    fn accepted(&mut self, frame: Vec<u8>, session: bool) {
        assert!(self.open.is_none(), "accepted while one is open");
        self.open = Some(Open {
            bound: bound(self.mode, session, frame.len()),
            frame,
            session,
            ticks: 0,
            put_out: Vec::new(),
            copies: 0,
        });
    }

    /// The copies of a verdict and whether it is a failure.
    fn verdict(session: bool, report: &Report) -> Option<(u8, bool)> {
        if session {
            return match report.session {
                SessionPart::Response(copies) | SessionPart::NoResponse(copies) => {
                    Some((copies, false))
                }
                SessionPart::NotSent(copies) => Some((copies, true)),
                _ => None,
            };
        }
        match report.sending {
            SendingPart::Acknowledged(copies) => Some((copies, false)),
            SendingPart::Failed(copies) => Some((copies, true)),
            _ => None,
        }
    }

    /// An accepted call: its report and the bytes it put out.
    fn call(&mut self, report: &Report, line: &[u8], tick: bool) {
        let Some(open) = &mut self.open else {
            assert_eq!(Watch::verdict(false, report), None, "a verdict of nothing");
            assert_eq!(Watch::verdict(true, report), None, "a verdict of nothing");
            return;
        };
        open.ticks += u32::from(tick);
        if !line.is_empty() {
            open.put_out.extend_from_slice(line);
            let found = frames(&open.put_out);
            assert!(found.iter().all(|frame| *frame == open.frame));
            assert!(found.len() <= 4);
            open.copies = found.len();
        }
        match Watch::verdict(open.session, report) {
            Some((copies, failure)) => {
                assert_eq!(open.copies, usize::from(copies));
                assert!(!failure || copies == 4);
                assert!(open.ticks <= open.bound);
                self.verdicts += 1;
                self.failures += u32::from(failure);
                self.latest = self.latest.max(open.ticks);
                self.open = None;
            }
            None => assert!(open.ticks < open.bound, "no verdict in time"),
        }
    }
}

/// Plays a script on a link under the watch.
struct Watched {
    link: Link,
    watch: Watch,
    rooms: (usize, usize),
    /// Lent to every call.
    line: [u8; 600],
    up: [u8; 600],
}

impl Watched {
    /// Whichever end a call names, it is made on this one: any calls make a
    /// history.
    fn play(&mut self, call: Call<'_>) {
        match call {
            Call::Room { line, up } => self.rooms = (line, up),
            Call::Link(_, call) => self.call(call),
            Call::Ticks(_, number) => (0..number).for_each(|_| self.call(LinkCall::Tick)),
            Call::Open(choice) => self.open(choice.mode),
            _ => {}
        }
    }

    /// A fresh link of the same end: what was open has no verdict any more.
    fn open(&mut self, mode: Mode) {
        let role = self.link.choice().role;
        self.link = Link::open_as(Choice { role, mode });
        self.watch.mode = mode;
        self.watch.open = None;
    }

    /// One call on the link; the watch hears of it if it is accepted.
    fn call(&mut self, call: LinkCall<'_>) {
        let line = &mut self.line[..self.rooms.0];
        let up = &mut self.up[..self.rooms.1];
        let Ok((_, report)) = called(&mut self.link, call, line, up) else {
            return;
        };
        match call {
            LinkCall::Send {
                kind,
                command,
                parameters,
            } => self
                .watch
                .accepted(framed(kind, command, parameters), false),
            LinkCall::Session {
                command,
                parameters,
            } => self.watch.accepted(framed(0, command, parameters), true),
            // What was open has no verdict any more.
            LinkCall::Restart => self.watch.open = None,
            _ => {}
        }
        self.watch
            .call(&report, &line[..report.line], call == LinkCall::Tick);
    }
}

fn watched(choice: Choice, text: &str) -> Watch {
    let mut watched = Watched {
        link: Link::open_as(choice),
        watch: Watch::new(choice.mode),
        rooms: (258, 254),
        line: [0; 600],
        up: [0; 600],
    };
    let mut store = Vec::new();
    for line in text.split('\n') {
        if let Some(call) = understand(line.as_bytes(), &mut store) {
            watched.play(call);
        }
    }
    watched.watch
}

/// Verdicts and failures of random histories of a link.
fn histories_of(choice: Choice) -> (u32, u32) {
    let (mut verdicts, mut failures) = (0, 0);
    for kind in KINDS {
        for seed in 1..=4 {
            let watch = watched(choice, &script(seed, kind, 2_500));
            verdicts += watch.verdicts;
            failures += watch.failures;
        }
    }
    (verdicts, failures)
}

/// In the mode of the opening, but where a script opens in another.
fn keep_the_promises(role: Role) {
    for mode in [Mode::Sooner, Mode::Spaced] {
        let (verdicts, failures) = histories_of(choice(role, mode));
        assert!(verdicts > 4_000, "{mode:?} {verdicts}");
        assert!(failures > 400, "{mode:?} {failures}");
    }
}

#[test]
fn random_histories_keep_the_promises() {
    keep_the_promises(Role::Host);
}

#[test]
fn random_histories_of_a_stand_in_keep_the_promises() {
    keep_the_promises(Role::Module);
}

/// The slowest history of a frame of so many bytes in the old mode: accepted
/// just after a 01, lost four times, and each back-off ends just after another
/// 01.
fn slowest(open: &str, size: usize) -> String {
    let mut text = format!("byte 01\n{open}{}\nticks 1501\n", " 06".repeat(size - 5));
    for back_off in [100, 1_100, 2_100] {
        // The loss, then all but one tick of the back-off, then a 01 whose
        // abort puts the due copy out.
        let ticks = 1_600 + wire(size) + back_off - 1;
        text += &format!("ticks {ticks}\nbyte 01\nticks 1501\n");
    }
    text
}

/// The slowest history in the new mode: copies 1 to 3 are refused a tick before
/// they would be lost, since a loss is repeated sooner.
fn slowest_sooner(open: &str, size: usize) -> String {
    let mut text = format!("byte 01\n{open}{}\nticks 1501\n", " 06".repeat(size - 5));
    for before_last in [99, 1_099, 2_099] {
        let last = 1_599 + wire(size);
        text += &format!("ticks {last}\nbyte 15\nticks {before_last}\nbyte 01\nticks 1501\n");
    }
    text
}

/// The slowest history of a mode to its end: copy 4 is lost.
fn slowest_send(mode: Mode, size: usize) -> String {
    let text = match mode {
        Mode::Spaced => slowest("send 00 07", size),
        Mode::Sooner => slowest_sooner("send 00 07", size),
    };
    text + &format!("ticks {}\n", 1_600 + wire(size))
}

/// The same to its end: copy 4 is acknowledged on the last tick that counts,
/// and no response comes.
fn slowest_session(mode: Mode, size: usize) -> String {
    let text = match mode {
        Mode::Spaced => slowest("session 07", size),
        Mode::Sooner => slowest_sooner("session 07", size),
    };
    let last = 1_599 + wire(size);
    text + &format!("ticks {last}\nbyte 06\nticks 5000\n")
}

/// Verdicts, failures and the tick of the verdict at both ends, with ticks
/// enough for another verdict, if there were one.
fn both_take(mode: Mode, text: &str, expected: (u32, u32, u32)) {
    for role in [Role::Host, Role::Module] {
        let watch = watched(choice(role, mode), &format!("{text}ticks 9000\n"));
        assert_eq!((watch.verdicts, watch.failures, watch.latest), expected);
    }
}

/// The last line of a play.
fn ends_with(text: &str, line: &str) {
    assert_eq!(played(text).last().unwrap(), line);
}

#[test]
fn a_send_can_take_15701_and_4w_ticks() {
    for size in 5..=257 {
        let text = slowest_send(Mode::Spaced, size);
        both_take(Mode::Spaced, &text, (1, 1, 15_701 + 4 * wire(size)));
    }
    // 1 tick on the wire for 5 bytes, 23 for 257.
    for (size, line) in [
        (
            5,
            "tick at=15705 rx=nothing tx=failed:4 session=nothing reset=delivery line=- up=-",
        ),
        (
            257,
            "tick at=15793 rx=nothing tx=failed:4 session=nothing reset=delivery line=- up=-",
        ),
    ] {
        let text = slowest_send(Mode::Spaced, size);
        ends_with(&format!("openspaced\n{text}"), line);
    }
}

#[test]
fn a_session_can_take_20700_and_4w_ticks() {
    for size in 5..=257 {
        let text = slowest_session(Mode::Spaced, size);
        both_take(Mode::Spaced, &text, (1, 0, 20_700 + 4 * wire(size)));
    }
    for (size, line) in [
        (
            5,
            "tick at=20704 rx=nothing tx=nothing session=noresponse:4 reset=none line=- up=-",
        ),
        (
            257,
            "tick at=20792 rx=nothing tx=nothing session=noresponse:4 reset=none line=- up=-",
        ),
    ] {
        let text = slowest_session(Mode::Spaced, size);
        ends_with(&format!("openspaced\n{text}"), line);
    }
}

#[test]
fn a_send_can_take_15698_and_4w_ticks_in_the_new_mode() {
    for size in 5..=257 {
        let text = slowest_send(Mode::Sooner, size);
        both_take(Mode::Sooner, &text, (1, 1, 15_698 + 4 * wire(size)));
    }
    for (size, line) in [
        (
            5,
            "tick at=15702 rx=nothing tx=failed:4 session=nothing reset=delivery line=- up=-",
        ),
        (
            257,
            "tick at=15790 rx=nothing tx=failed:4 session=nothing reset=delivery line=- up=-",
        ),
    ] {
        ends_with(&slowest_send(Mode::Sooner, size), line);
    }
}

#[test]
fn a_session_can_take_20697_and_4w_ticks_in_the_new_mode() {
    for size in 5..=257 {
        let text = slowest_session(Mode::Sooner, size);
        both_take(Mode::Sooner, &text, (1, 0, 20_697 + 4 * wire(size)));
    }
    for (size, line) in [
        (
            5,
            "tick at=20701 rx=nothing tx=nothing session=noresponse:4 reset=none line=- up=-",
        ),
        (
            257,
            "tick at=20789 rx=nothing tx=nothing session=noresponse:4 reset=none line=- up=-",
        ),
    ] {
        ends_with(&slowest_session(Mode::Sooner, size), line);
    }
}

/// The old mode's slowest history is sooner over in the new one: the copies
/// that are lost are repeated at once.
#[test]
fn the_slowest_losses_are_sooner_over_in_the_new_mode() {
    for size in [5, 257] {
        let watch = watched(
            choice(Role::Host, Mode::Sooner),
            &format!("{}ticks 9000\n", slowest_send(Mode::Spaced, size)),
        );
        assert_eq!((watch.verdicts, watch.failures), (1, 1));
        assert!(watch.latest < 15_698 + 4 * wire(size));
    }
}

/// The watch itself must be able to find fault.
mod the_watch_finds {
    use super::*;
    use reference::report::{ReceptionPart, ResetPart};

    fn report(sending: SendingPart, session: SessionPart) -> Report {
        Report {
            reception: ReceptionPart::Nothing,
            sending,
            session,
            reset: ResetPart::None,
            line: 0,
            up: 0,
        }
    }

    fn sent() -> Watch {
        sent_in(Mode::Spaced)
    }

    fn sent_in(mode: Mode) -> Watch {
        let mut watch = Watch::new(mode);
        watch.accepted(REQ_07.to_vec(), false);
        let copy = report(SendingPart::Copy(1), SessionPart::Nothing);
        watch.call(&copy, &REQ_07, false);
        watch
    }

    #[test]
    #[should_panic]
    fn a_second_verdict() {
        let mut watch = sent();
        let acked = report(SendingPart::Acknowledged(1), SessionPart::Nothing);
        watch.call(&acked, &[], false);
        watch.call(&acked, &[], false);
    }

    #[test]
    #[should_panic]
    fn copies_made_up() {
        let acked = report(SendingPart::Acknowledged(2), SessionPart::Nothing);
        sent().call(&acked, &[], false);
    }

    #[test]
    #[should_panic]
    fn another_frame() {
        let copy = report(SendingPart::Copy(2), SessionPart::Nothing);
        sent().call(&copy, &RES_07, false);
    }

    #[test]
    #[should_panic]
    fn a_failure_after_one_copy() {
        let failed = report(SendingPart::Failed(1), SessionPart::Nothing);
        sent().call(&failed, &[], false);
    }

    #[test]
    #[should_panic]
    fn a_fifth_copy() {
        let copy = report(SendingPart::Copy(2), SessionPart::Nothing);
        let mut watch = sent();
        (0..4).for_each(|_| watch.call(&copy, &REQ_07, false));
    }

    /// A frame of 5 bytes without a verdict on so many ticks.
    fn without_a_verdict(mode: Mode, ticks: u32) {
        let nothing = report(SendingPart::Nothing, SessionPart::Nothing);
        let mut watch = sent_in(mode);
        (0..ticks).for_each(|_| watch.call(&nothing, &[], true));
    }

    #[test]
    #[should_panic(expected = "no verdict in time")]
    fn no_verdict_in_time() {
        without_a_verdict(Mode::Spaced, 15_705);
    }

    #[test]
    fn no_fault_before_that_time() {
        without_a_verdict(Mode::Spaced, 15_704);
    }

    #[test]
    #[should_panic(expected = "no verdict in time")]
    fn no_verdict_in_time_in_the_new_mode() {
        without_a_verdict(Mode::Sooner, 15_702);
    }

    #[test]
    fn no_fault_before_that_time_in_the_new_mode() {
        without_a_verdict(Mode::Sooner, 15_701);
    }
}
