//! The random scripts of the kind `modes` (request P4): which edges of the two
//! modes and of the openings they reach.

mod common;

use common::{played, wire};
use reference::choice::{Mode, Role};
use reference::random::{kind, script};
use reference::scribe::Scribe;
use reference::script::{passed_over, understand, Call, LinkCall};
use reference::sending::State;
use std::collections::HashSet;

/// Both modes of both ends; `true` is the stand-in.
const ENDS: [(Mode, bool); 4] = [
    (Mode::Sooner, false),
    (Mode::Sooner, true),
    (Mode::Spaced, false),
    (Mode::Spaced, true),
];

/// The scripts that are looked at.
fn scripts() -> Vec<String> {
    let kind = kind("modes").unwrap();
    (1..=10).map(|seed| script(seed, kind, 2_500)).collect()
}

/// A copy: on which tick it went out, its number and size, and whether that
/// tick lost the copy before it.
#[derive(Clone, Copy)]
struct Sent {
    at: i64,
    number: u32,
    size: usize,
    at_loss: bool,
}

/// What is known of an end from the script and from what was printed.
#[derive(Clone, Copy)]
struct Known {
    mode: Mode,
    /// Restarted since it was opened.
    restarted: bool,
    /// The copy put out last, unless the end was opened or restarted since.
    copy: Option<Sent>,
    /// A copy is due since the tick that lost the one before it.
    due_at_loss: bool,
    /// The send or session without its verdict: its tick, its size, and whether
    /// it is a session.
    open: Option<(i64, usize, bool)>,
}

impl Known {
    fn opened(mode: Mode) -> Known {
        Known {
            mode,
            restarted: false,
            copy: None,
            due_at_loss: false,
            open: None,
        }
    }

    fn learn(&mut self, told: &Told, call: Option<LinkCall<'_>>) {
        let size = match call {
            Some(LinkCall::Restart) => {
                *self = Known::opened(self.mode);
                self.restarted = true;
                return;
            }
            Some(LinkCall::Send { parameters, .. }) => Some((parameters.len() + 5, false)),
            Some(LinkCall::Session { parameters, .. }) => Some((parameters.len() + 5, true)),
            _ => None,
        };
        if let Some((size, session)) = size {
            self.open = Some((told.at(), size, session));
        }
        if told.verdict() {
            self.open = None;
        }
        if let Some(number) = told.part("tx=").strip_prefix("copy:") {
            let number = number.parse().unwrap();
            self.copy = Some(Sent {
                at: told.at(),
                number,
                size: self.open.unwrap().1,
                at_loss: told.late() == Some(0) && number > 1,
            });
            self.due_at_loss = false;
        } else if told.part("tx=") == "due" {
            self.due_at_loss = told.late() == Some(0);
        }
    }
}

/// A printed report, with what was known of its end before it.
struct Told {
    line: String,
    module: bool,
    before: Known,
}

impl Told {
    /// A part of the line; empty where it has none.
    fn part(&self, name: &str) -> &str {
        let mut words = self.line.split(' ');
        words.find_map(|word| word.strip_prefix(name)).unwrap_or("")
    }

    /// The word of the sending part without its number.
    fn word(&self) -> &str {
        let part = self.part("tx=");
        part.split_once(':').map_or(part, |(word, _)| word)
    }

    fn at(&self) -> i64 {
        self.part("at=").parse().unwrap()
    }

    fn tick(&self) -> bool {
        self.line.contains("tick at=")
    }

    /// How late the line is: 0 on the tick that makes the copy's wait 1,600 and
    /// its time on the wire, -1 on the tick before.
    fn late(&self) -> Option<i64> {
        let size = self.before.copy?.size;
        Some(self.elapsed()? - 1_600 - i64::from(wire(size)))
    }

    /// Ticks since the copy went out.
    fn elapsed(&self) -> Option<i64> {
        Some(self.at() - self.before.copy?.at)
    }

    /// Whether it tells the verdict of what is open.
    fn verdict(&self) -> bool {
        match self.before.open {
            Some((_, _, true)) => !matches!(self.part("session="), "nothing" | "waiting"),
            Some((_, _, false)) => matches!(self.word(), "acked" | "failed"),
            None => false,
        }
    }
}

/// Each line of a script with the lines it printed. A mark is played behind
/// each, which no line of this kind prints.
fn each_line(text: &str) -> Vec<(&str, Vec<String>)> {
    const MARK: &str = "timeoutsres refused=10";
    let lines: Vec<&str> = text.split('\n').collect();
    let marked: String = lines
        .iter()
        .map(|line| format!("{line}\ntimeoutsres\n"))
        .collect();
    let all = played(&marked);
    let mut printed = all.split(|line| line == MARK).map(<[String]>::to_vec);
    lines
        .into_iter()
        .map(|line| (line, printed.next().unwrap()))
        .collect()
}

/// Shows every report that the scripts print.
fn each_told(mut look: impl FnMut(&Told)) {
    for text in scripts() {
        let mut known = [Known::opened(Mode::Sooner); 2];
        let mut store = Vec::new();
        for (line, printed) in each_line(&text) {
            let mut call = None;
            match understand(line.as_bytes(), &mut store) {
                Some(Call::Open(choice)) => {
                    known[choice.role as usize] = Known::opened(choice.mode);
                }
                Some(Call::Link(_, one)) => call = Some(one),
                _ => {}
            }
            for line in printed.into_iter().filter(|line| line.contains(" rx=")) {
                let module = line.starts_with("module ");
                let end = &mut known[usize::from(module)];
                let before = *end;
                let told = Told {
                    line,
                    module,
                    before,
                };
                look(&told);
                end.learn(&told, call);
            }
        }
    }
}

/// The words of the sending part, in a mode, on the ticks that lose copies 1
/// to 4 while the line is free.
fn losses(mode: Mode) -> [&'static str; 4] {
    match mode {
        Mode::Sooner => ["copy:2", "copy:3", "backoff:500", "failed:4"],
        Mode::Spaced => ["backoff:100", "backoff:1100", "backoff:2100", "failed:4"],
    }
}

#[test]
fn each_copy_is_lost_in_both_modes_of_both_ends() {
    let mut all = HashSet::new();
    each_told(|told| {
        if told.tick() && told.late() == Some(0) {
            let (rx, tx) = (told.part("rx="), told.part("tx="));
            let Known {
                mode, restarted, ..
            } = told.before;
            all.insert(format!("{mode:?} {} {rx} {tx}", told.module));
            if restarted {
                all.insert(format!("{mode:?} {} {tx} restarted", told.module));
            }
        }
    });
    for (mode, module) in ENDS {
        for word in losses(mode) {
            // Also on the tick of an abort, and behind a restart.
            for met in [
                format!("nothing {word}"),
                format!("abort {word}"),
                format!("{word} restarted"),
            ] {
                let met = format!("{mode:?} {module} {met}");
                assert!(all.contains(&met), "{met}");
            }
        }
    }
    for module in [false, true] {
        assert!(all.contains(&format!("Sooner {module} nothing due")));
    }
    assert!(!all
        .iter()
        .any(|met| met.contains("Spaced") && met.contains("due")));
}

#[test]
fn each_copy_is_refused_on_the_last_tick_of_its_wait() {
    let mut all = HashSet::new();
    each_told(|told| {
        if !told.tick() && told.late() == Some(-1) {
            let (mode, tx) = (told.before.mode, told.part("tx="));
            all.insert(format!("{mode:?} {} {tx}", told.module));
        }
    });
    for (mode, module) in ENDS {
        for word in ["backoff:100", "backoff:1100", "backoff:2100", "failed:4"] {
            let met = format!("{mode:?} {module} {word}");
            assert!(all.contains(&met), "{met}");
        }
    }
}

/// In the new mode an answer on the tick of the loss, or on the next, is to the
/// copy that went out on it; in the old mode it is stray.
#[test]
fn answers_come_on_the_tick_of_a_loss_and_on_the_next() {
    let mut all = HashSet::new();
    each_told(|told| {
        let Some(copy) = told.before.copy else { return };
        if told.tick() {
            return;
        }
        let (mode, word) = (told.before.mode, told.word());
        if copy.at_loss {
            let elapsed = told.elapsed().unwrap();
            all.insert(format!("{mode:?} {} {word} {elapsed}", told.module));
        } else if word == "stray" && copy.number < 4 {
            let late = told.late().unwrap();
            all.insert(format!("{mode:?} {} {word} {late}", told.module));
        }
    });
    for module in [false, true] {
        for ticks in [0, 1] {
            for word in ["acked", "backoff"] {
                let met = format!("Sooner {module} {word} {ticks}");
                assert!(all.contains(&met), "{met}");
            }
            let met = format!("Spaced {module} stray {ticks}");
            assert!(all.contains(&met), "{met}");
        }
    }
}

/// The copy that a loss inside a frame made due goes out with every end of it.
#[test]
fn copies_due_at_a_loss_go_out_with_every_end_of_a_frame() {
    let mut all = HashSet::new();
    each_told(|told| {
        if told.before.due_at_loss && told.word() == "copy" {
            let (rx, tx) = (told.part("rx="), told.part("tx="));
            all.insert(format!("{} {rx}", told.module));
            all.insert(format!("{rx} {tx}"));
        }
    });
    let ends = [
        "frame",
        "strayresponse",
        "reserved",
        "badsum",
        "badlen",
        "abort",
    ];
    for end in ends {
        for met in [
            format!("false {end}"),
            format!("true {end}"),
            format!("{end} copy:2"),
            format!("{end} copy:3"),
        ] {
            assert!(all.contains(&met), "{met}");
        }
    }
}

/// The slowest histories, to the tick.
#[test]
fn the_bounds_of_both_modes_are_reached_and_not_passed() {
    let mut reached = HashSet::new();
    each_told(|told| {
        let (Some((at, size, session)), true) = (told.before.open, told.verdict()) else {
            return;
        };
        let bound = match (told.before.mode, session) {
            (Mode::Sooner, false) => 15_698,
            (Mode::Sooner, true) => 20_697,
            (Mode::Spaced, false) => 15_701,
            (Mode::Spaced, true) => 20_700,
        };
        let left = bound + 4 * i64::from(wire(size)) - (told.at() - at);
        assert!(left >= 0, "{}", told.line);
        if left == 0 {
            reached.insert(format!("{:?} {session}", told.before.mode));
        }
    });
    for (mode, session) in ENDS {
        let met = format!("{mode:?} {session}");
        assert!(reached.contains(&met), "{met}");
    }
}

#[test]
fn sessions_end_in_every_way_in_both_modes() {
    let mut all = HashSet::new();
    each_told(|told| {
        let (mode, session) = (told.before.mode, told.part("session="));
        all.insert(format!("{mode:?} {} {session}", told.module));
    });
    for (mode, module) in ENDS {
        for end in [
            "notsent:4",
            "noresponse:1",
            "noresponse:4",
            "response:1",
            "response:2",
            "abandoned",
        ] {
            let met = format!("{mode:?} {module} {end}");
            assert!(all.contains(&met), "{met}");
        }
    }
}

/// What an end is in when it is opened anew.
fn states(scribe: &Scribe, role: Role) -> Vec<String> {
    let (end, link) = (scribe.ends().of(role), scribe.ends().of(role).link());
    let other = match role {
        Role::Host => Role::Module,
        Role::Module => Role::Host,
    };
    let sender = match link.sender_state() {
        State::Quiet => "quiet",
        State::Due => "due",
        State::Waiting(_) => "waiting",
        State::BackingOff(_) => "backing off",
    };
    let mut all = vec![sender.to_string(), format!("{:?}", link.choice().mode)];
    let such = [
        ("inside a frame", link.frame_clock().is_some()),
        ("a session open", link.session_state().open()),
        ("bad sums", link.bad_sums() > 0),
        ("bytes put out", !end.out().bytes().is_empty()),
        ("put out more than is kept", end.out().lost()),
        (
            "bytes to come",
            !scribe.ends().of(other).out().bytes().is_empty(),
        ),
        (
            "lost on the way to it",
            scribe.ends().of(other).out().lost(),
        ),
        ("no room", !scribe.has_room()),
    ];
    all.extend(
        such.iter()
            .filter(|(_, met)| *met)
            .map(|(word, _)| word.to_string()),
    );
    all
}

/// The states in which both ends must be opened.
const STATES: [&str; 14] = [
    "quiet",
    "due",
    "waiting",
    "backing off",
    "Sooner",
    "Spaced",
    "inside a frame",
    "a session open",
    "bad sums",
    "bytes put out",
    "put out more than is kept",
    "bytes to come",
    "lost on the way to it",
    "no room",
];

#[test]
fn ends_are_opened_in_every_state_by_every_verb() {
    let mut all = HashSet::new();
    for text in scripts() {
        let mut scribe = Scribe::new(0);
        let mut store = Vec::new();
        for line in text.split('\n') {
            if let Some(Call::Open(choice)) = understand(line.as_bytes(), &mut store) {
                all.insert(line.to_string());
                for state in states(&scribe, choice.role) {
                    all.insert(format!("{:?} {:?} {state}", choice.role, choice.mode));
                }
            }
            scribe.say(line);
        }
    }
    for verb in ["open", "opensooner", "openspaced"] {
        assert!(all.contains(verb) && all.contains(&format!("module {verb}")));
    }
    for role in ["Host", "Module"] {
        for mode in ["Sooner", "Spaced"] {
            for state in STATES {
                let met = format!("{role} {mode} {state}");
                assert!(all.contains(&met), "{met}");
            }
        }
    }
}

/// An opening that drops what was not kept prints no `pass lost`; where the
/// other end lost something it is printed.
#[test]
fn a_pass_tells_what_was_lost_and_not_dropped() {
    let (mut silent, mut told) = (0, 0);
    for text in scripts() {
        let mut scribe = Scribe::new(0);
        let mut store = Vec::new();
        let mut dropped = false;
        for (line, printed) in each_line(&text) {
            match understand(line.as_bytes(), &mut store) {
                Some(Call::Open(choice)) => {
                    dropped |= scribe.ends().of(choice.role).out().lost();
                }
                Some(Call::Pass) => {
                    let said = printed.first().is_some_and(|line| line == "pass lost");
                    silent += u32::from(dropped && !said);
                    told += u32::from(said);
                    dropped = false;
                }
                _ => {}
            }
            scribe.say(line);
        }
    }
    assert!(silent >= 10 && told >= 10, "{silent} {told}");
}

/// They are, and no other line is.
#[test]
fn openings_out_of_form_are_errors() {
    let mut errors = HashSet::new();
    for text in scripts() {
        for (line, printed) in each_line(&text) {
            let call = understand(line.as_bytes(), &mut Vec::new()).is_some();
            let error = !call && !passed_over(line.as_bytes());
            assert_eq!(error, printed == ["error"], "{line}");
            if error {
                let meant = ["module", "sooner", "spaced"].contains(&line);
                assert!(meant || line.to_lowercase().contains("open"), "{line}");
                errors.insert(line.to_string());
            }
        }
    }
    for line in [
        "open 5",
        "opensooner x",
        "module open 1",
        "Open",
        "opened",
        "openspaced ",
        "module module open",
    ] {
        assert!(errors.contains(line), "{line}");
    }
    assert!(errors.len() >= 40, "{}", errors.len());
}

/// Never a back-off of 0.
#[test]
fn no_back_off_of_0_is_said() {
    for text in scripts() {
        let lines = played(&text);
        assert!(!lines.iter().any(|line| line.contains("tx=backoff:0 ")));
    }
}
