//! The random scripts and streams: the same on every machine, of every kind,
//! and at the edges they seek.

mod common;

use common::{called, played, wire};
use reference::choice::{Choice, Mode, Role};
use reference::dice::Dice;
use reference::link::Link;
use reference::random::{go_on, kind, script, KINDS};
use reference::scribe::Scribe;
use reference::script::{understand, Call, LinkCall};
use reference::stream::{stream, STREAMS};
use std::collections::HashSet;

#[test]
fn the_dice_are_splitmix64() {
    // The row that the published method gives for seed 0.
    let mut dice = Dice::new(0);
    let row = [dice.bits(), dice.bits(), dice.bits()];
    assert_eq!(
        row,
        [
            0xE220_A839_7B1D_CDAF,
            0x6E78_9E6A_A1B9_65F4,
            0x06C4_5D18_8009_454F
        ]
    );
}

#[test]
fn dice_stay_in_their_bounds_and_reach_both() {
    let mut dice = Dice::new(1);
    let all: HashSet<u32> = (0..1_000).map(|_| dice.between(3, 7)).collect();
    assert_eq!(all, HashSet::from([3, 4, 5, 6, 7]));
}

#[test]
fn a_seed_gives_the_same_script_and_another_seed_another() {
    for kind in KINDS {
        let first = script(7, kind, 300);
        assert_eq!(first, script(7, kind, 300));
        assert_ne!(first, script(8, kind, 300));
        let lines = first.lines().count();
        assert!((300..400).contains(&lines), "{} {lines}", kind.name);
    }
    for (name, _) in STREAMS {
        assert_eq!(stream(7, name, 999), stream(7, name, 999));
        assert_ne!(stream(7, name, 999), stream(8, name, 999));
    }
}

#[test]
fn no_call_spills_and_few_lines_are_errors() {
    for kind in KINDS {
        let lines = played(&script(3, kind, 1_500));
        assert!(!lines.iter().any(|line| line.contains("SPILL")));
        let errors = lines.iter().filter(|line| *line == "error").count();
        let may = matches!(
            kind.name,
            "malformed" | "mixed" | "module" | "writers" | "modes"
        );
        assert!(may || errors == 0, "{} {errors}", kind.name);
    }
}

/// The model that aims must be where the ends played by the same lines are.
#[test]
fn the_model_keeps_step() {
    for kind in KINDS {
        let mut scribe = Scribe::new(11);
        let mut model = Model::new();
        let mut done = 0;
        while scribe.lines() < 600 {
            let (_, scene) = scribe.dice.one(kind.scenes);
            scene(&mut scribe);
            for line in scribe.text()[done..].split('\n') {
                model.follow(line);
            }
            done = scribe.text().len();
            for role in [Role::Host, Role::Module] {
                let end = scribe.ends().of(role);
                let place = role as usize;
                assert_eq!(end.link(), &model.links[place], "{}", kind.name);
                assert_eq!(end.ticks(), model.ticks[place], "{}", kind.name);
                assert_eq!(end.out().bytes(), model.put_out[place], "{}", kind.name);
            }
        }
    }
}

/// Both links, their ticks since they were opened, and what they put out since
/// the last pass, the host first.
struct Model {
    links: [Link; 2],
    ticks: [u64; 2],
    put_out: [Vec<u8>; 2],
    rooms: (usize, usize),
}

impl Model {
    fn new() -> Model {
        Model {
            links: [Choice::HOST, Choice::MODULE].map(Link::open_as),
            ticks: [0, 0],
            put_out: [vec![], vec![]],
            rooms: (258, 254),
        }
    }

    /// Plays one line.
    fn follow(&mut self, line: &str) {
        let mut store = Vec::new();
        match understand(line.as_bytes(), &mut store) {
            Some(Call::Room { line, up }) => self.rooms = (line, up),
            Some(Call::Link(role, call)) => drop(self.call(role as usize, call)),
            Some(Call::Ticks(role, number)) => {
                for _ in 0..number {
                    self.call(role as usize, LinkCall::Tick);
                }
            }
            Some(Call::Open(choice)) => {
                let place = choice.role as usize;
                self.links[place] = Link::open_as(choice);
                self.ticks[place] = 0;
                self.put_out[place].clear();
            }
            Some(Call::Pass) => {
                let [from_host, from_module] = std::mem::take(&mut self.put_out);
                self.give(1, from_host);
                self.give(0, from_module);
            }
            _ => {}
        }
    }

    /// The bytes taken by an accepted call.
    fn call(&mut self, place: usize, call: LinkCall<'_>) -> Option<usize> {
        let (mut line, mut up) = ([0; 600], [0; 600]);
        let (line, up) = (&mut line[..self.rooms.0], &mut up[..self.rooms.1]);
        let (taken, report) = called(&mut self.links[place], call, line, up).ok()?;
        self.ticks[place] += u64::from(call == LinkCall::Tick);
        let put_out = &mut self.put_out[place];
        if put_out.len() + report.line <= 1_024 {
            put_out.extend(&line[..report.line]);
        }
        Some(taken)
    }

    fn give(&mut self, place: usize, mut bytes: Vec<u8>) {
        while !bytes.is_empty() {
            match self.call(place, LinkCall::Bytes(&bytes)) {
                Some(taken) => drop(bytes.drain(..taken)),
                None => return,
            }
        }
    }
}

/// The lines of several scripts of a kind.
fn lines_of(name: &str) -> Vec<String> {
    lines_in(Mode::Sooner, name)
}

/// The same in a mode.
fn lines_in(mode: Mode, name: &str) -> Vec<String> {
    lines_from(mode, name, 4)
}

/// The lines of so many scripts of a kind in a mode, by which the scenes go.
/// The new mode is that of a play where nothing is said.
fn lines_from(mode: Mode, name: &str, seeds: u64) -> Vec<String> {
    let kind = kind(name).unwrap();
    let lines = |seed| match mode {
        Mode::Sooner => played(&script(seed, kind, 2_500)),
        Mode::Spaced => {
            let mut scribe = Scribe::new(seed);
            scribe.say("openspaced");
            scribe.say("module openspaced");
            go_on(&mut scribe, kind, 2_500);
            played(scribe.text())
        }
    };
    (1..=seeds).flat_map(lines).collect()
}

/// Each of these must stand in a line of that kind.
fn reaches(name: &str, edges: &[&str]) {
    reaches_in(Mode::Sooner, name, edges);
}

/// The same in a mode.
fn reaches_in(mode: Mode, name: &str, edges: &[&str]) {
    let lines = lines_in(mode, name);
    for edge in edges {
        let found = lines.iter().filter(|line| line.contains(edge)).count();
        assert!(found >= 3, "{name} {mode:?}: {edge} {found}");
    }
}

#[test]
fn frames_end_in_every_way() {
    let ends = [
        "rx=frame",
        "rx=badsum",
        "rx=badlen",
        "rx=reserved",
        "rx=abort",
    ];
    reaches("split", &ends);
    reaches(
        "slow",
        &["rx=abort tx=copy:1", "rx=frame tx=nothing", "rx=badsum"],
    );
    reaches(
        "sums",
        &["reset=sums", "rx=reserved", "rx=badlen", "rx=abort"],
    );
}

#[test]
fn due_copies_go_out_on_every_end_of_a_frame() {
    let edges = [
        "rx=nothing tx=due",
        "rx=frame tx=copy:1",
        "rx=badsum tx=copy:1",
        "rx=badlen tx=copy:",
        "rx=reserved tx=copy:",
        "rx=strayresponse tx=copy:",
        "rx=abort tx=copy:4",
    ];
    reaches("inside", &edges);
}

#[test]
fn aborts_coincide_with_every_other_end() {
    let edges = [
        "rx=abort tx=backoff:100",
        "rx=abort tx=backoff:1100",
        "rx=abort tx=backoff:2100",
        "rx=abort tx=failed:4 session=nothing",
        "rx=abort tx=failed:4 session=notsent:4",
        "rx=abort tx=copy:2",
        "rx=abort tx=copy:4",
        "rx=abort tx=nothing session=noresponse",
    ];
    reaches_in(Mode::Spaced, "coincidences", &edges);
    // In the new mode the next copy goes out on the tick of the loss.
    let edges = [
        "rx=abort tx=copy:2",
        "rx=abort tx=copy:3",
        "rx=abort tx=backoff:500",
        "rx=abort tx=failed:4 session=nothing",
        "rx=abort tx=failed:4 session=notsent:4",
        "rx=abort tx=copy:4",
        "rx=abort tx=nothing session=noresponse",
    ];
    reaches_in(Mode::Sooner, "coincidences", &edges);
}

#[test]
fn sends_and_sessions_end_in_every_way() {
    for mode in [Mode::Sooner, Mode::Spaced] {
        reaches_in(
            mode,
            "answers",
            &["tx=stray", "tx=acked:4", "tx=failed:4", "tx=backoff:2100"],
        );
        reaches_in(mode, "silence", &["tx=failed:4", "session=noresponse:"]);
    }
    reaches(
        "restarts",
        &[
            "tx=abandoned session=nothing",
            "tx=nothing session=abandoned",
        ],
    );
    let ends = [
        "session=response:1",
        "session=noresponse:1",
        "rx=strayresponse",
    ];
    reaches("sessions", &ends);
    reaches("sessions", &["rx=frame tx=nothing session=nothing"]);
}

#[test]
fn every_link_call_is_refused_for_room() {
    let lines = lines_of("rooms");
    for call in ["send", "session", "byte", "bytes", "tick", "restart"] {
        let refused =
            |line: &String| line.split(' ').next() == Some(call) && line.ends_with(" refused=1");
        assert!(lines.iter().any(refused), "{call}");
    }
}

#[test]
fn sends_are_refused_for_every_cause() {
    reaches("busy", &[" refused=2", " refused=3", " refused=4"]);
    reaches("lengths", &["build refused=4", "refused=4"]);
    reaches("malformed", &["error"]);
}

#[test]
fn frames_are_refused_for_every_cause() {
    let mut edges = vec!["build ok".to_string(), "read ok".to_string()];
    edges.extend([1, 3, 4].map(|number| format!("build refused={number}")));
    edges.extend([3, 5, 6, 7, 8, 9].map(|number| format!("read refused={number}")));
    let edges: Vec<&str> = edges.iter().map(String::as_str).collect();
    reaches("frames", &edges);
}

#[test]
fn bodies_are_taken_and_refused_for_every_cause() {
    reaches(
        "bodies",
        &["capabilities ok", "capabilities refused=10", "count=255 "],
    );
    reaches("bodies", &["nodes ok", "nodes refused=10"]);
    reaches("bodies", &["timeouts ok", "timeouts refused=11"]);
    reaches("bodies", &["timeoutsres ok", "timeoutsres refused=10"]);
    // These end in a number that begins another.
    for line in ["nodes refused=1", "timeouts refused=1"] {
        assert!(
            lines_of("bodies").iter().any(|other| other == line),
            "{line}"
        );
    }
}

/// A copy that an end put out last: on which tick, its number, its size, the
/// byte before it in the same call, and whether it went out on the tick that
/// lost the copy before it.
#[derive(Clone, Copy, Default)]
struct Sent {
    at: i64,
    number: u32,
    size: usize,
    behind: Option<u8>,
    at_loss: bool,
}

impl Sent {
    /// How late a tick is: 0 on the one that makes the copy's wait 1,600 and
    /// its time on the wire, -1 on the tick before.
    fn late(&self, at: i64) -> i64 {
        at - self.at - 1_600 - i64::from(wire(self.size))
    }
}

/// A part of a line.
fn part<'a>(line: &'a str, name: &str) -> Option<&'a str> {
    line.split(' ').find_map(|word| word.strip_prefix(name))
}

/// The copy that a line tells of.
fn sent(line: &str, at: i64) -> Option<Sent> {
    let number = part(line, "tx=copy:")?.parse().unwrap();
    let out = part(line, "line=").unwrap();
    let first = u8::from_str_radix(&out[..2], 16).unwrap();
    let behind = (first != 0x01).then_some(first);
    Some(Sent {
        at,
        number,
        size: out.len() / 2 - usize::from(behind.is_some()),
        behind,
        at_loss: false,
    })
}

/// Shows each line that tells of a report, with the last copy of its end and
/// how late it is.
fn each_wait(lines: &[String], mut look: impl FnMut(&str, bool, Sent, i64)) {
    let mut copies = [Sent::default(); 2];
    for line in lines {
        let (Some(at), Some(_)) = (part(line, "at="), part(line, "tx=")) else {
            continue;
        };
        let at = at.parse().unwrap();
        let module = line.starts_with("module ");
        let copy = &mut copies[usize::from(module)];
        if copy.number > 0 {
            look(line, module, *copy, copy.late(at));
        }
        if let Some(sent) = sent(line, at) {
            let at_loss = copy.number > 0 && copy.late(at) == 0 && sent.number > 1;
            *copy = Sent { at_loss, ..sent };
        }
    }
}

/// How late answers to copies came.
#[test]
fn answers_come_on_the_last_tick_of_a_wait_and_on_the_next() {
    let mut acked = HashSet::new();
    let mut refused = HashSet::new();
    each_wait(&lines_in(Mode::Spaced, "answers"), |line, _, _, late| {
        if line.contains("tx=acked:") {
            acked.insert(late);
        } else if line.contains("tx=backoff:") {
            refused.insert(late);
        }
    });
    assert!(acked.contains(&-2) && acked.contains(&-1));
    assert!(refused.contains(&-1) && refused.contains(&0));
    assert!(acked.iter().chain(&refused).all(|&late| late <= 0));
    assert!(!acked.contains(&0));
}

/// In the new mode an answer on the tick of a loss is to the copy that went out
/// on it.
#[test]
fn answers_come_on_the_last_tick_of_a_wait_and_on_the_next_in_the_new_mode() {
    let (mut acked, mut refused) = (HashSet::new(), HashSet::new());
    let (mut lost, mut after) = (HashSet::new(), HashSet::new());
    each_wait(&lines_of("answers"), |line, _, copy, late| {
        let word = part(line, "tx=").unwrap();
        let tick = line.starts_with("tick ");
        if tick && late == 0 {
            lost.insert(word.to_string());
        } else if word.starts_with("acked:") {
            acked.insert(late);
        } else if word.starts_with("backoff:") {
            refused.insert(late);
        }
        let elapsed = late + 1_600 + i64::from(wire(copy.size));
        if !tick && copy.at_loss && elapsed < 2 {
            let (word, _) = word.split_once(':').unwrap_or((word, ""));
            after.insert((word.to_string(), elapsed));
        }
    });
    assert!(acked.contains(&-2) && acked.contains(&-1));
    assert!(refused.contains(&-2) && refused.contains(&-1));
    assert!(acked.iter().chain(&refused).all(|&late| late < 0));
    for word in ["copy:2", "copy:3", "backoff:500", "failed:4"] {
        assert!(lost.contains(word), "{word}");
    }
    for word in ["acked", "backoff"] {
        for elapsed in [0, 1] {
            let met = (word.to_string(), elapsed);
            assert!(after.contains(&met), "{met:?}");
        }
    }
}

#[test]
fn responses_come_at_4999_and_no_later() {
    let mut acked_at = 0;
    let mut responses = HashSet::new();
    for line in lines_of("sessions") {
        let Some(at) = line.split("at=").nth(1) else {
            continue;
        };
        let at: u64 = at.split(' ').next().unwrap().parse().unwrap();
        if line.contains("session=waiting") {
            acked_at = at;
        } else if line.contains("session=response:") {
            responses.insert(at - acked_at);
        } else if line.contains("session=noresponse:") {
            assert_eq!(at - acked_at, 5_000);
        }
    }
    assert!(responses.contains(&4_999) && responses.contains(&4_998));
    assert!(!responses.contains(&5_000));
}

#[test]
fn a_stand_in_meets_every_end_in_every_state() {
    let edges = [
        "module bytes at=",
        "rx=cancelled tx=nothing session=nothing reset=none line=18 up=-",
        "rx=frame tx=copy:2",
        "rx=strayresponse tx=copy:2",
        "rx=reserved tx=nothing",
        "rx=badsum tx=nothing session=nothing reset=sums",
        "rx=abort",
        "tx=failed:4 session=notsent:4",
        "session=response:1",
        "session=response:2",
        "session=noresponse:1",
        "pass lost",
        "error",
    ];
    reaches("module", &edges);
    let lines = lines_of("module");
    for call in ["send", "session", "byte", "bytes", "tick", "restart"] {
        let begin = format!("module {call} at=");
        assert!(lines.iter().any(|line| line.starts_with(&begin)), "{call}");
        let refused = |line: &&String| line.starts_with(&begin) && line.ends_with(" refused=1");
        assert!(lines.iter().any(|line| refused(&line)), "{call} refused");
    }
    assert!(!lines
        .iter()
        .any(|line| !line.starts_with("module") && line.contains("rx=cancelled")));
}

/// How late a frame came that a stand-in cancelled, and one that was handed up
/// because the copy had been lost: inside that frame, where a back-off began or
/// the next copy was due at once.
#[test]
fn checksums_come_on_the_last_tick_of_a_wait_and_on_the_next() {
    for (name, mode) in [
        ("module", Mode::Spaced),
        ("wire", Mode::Spaced),
        ("module", Mode::Sooner),
        ("wire", Mode::Sooner),
    ] {
        let word = match mode {
            Mode::Spaced => "tx=backoff:",
            Mode::Sooner => "tx=due",
        };
        let mut lost = false;
        let (mut cancelled, mut taken) = (HashSet::new(), HashSet::new());
        each_wait(&lines_in(mode, name), |line, module, _, late| {
            if !module {
                return;
            }
            if line.contains("rx=cancelled") {
                cancelled.insert(late);
            } else if line.contains("line=06") && !line.contains("up=-") && lost {
                taken.insert(late);
            }
            if line.contains("tx=copy:") {
                lost = false;
            } else if line.contains(word) {
                lost = late == 0;
            }
        });
        assert!(cancelled.contains(&-2) && cancelled.contains(&-1));
        assert!(cancelled.iter().all(|&late| late < 0));
        assert!(taken.contains(&0) && taken.contains(&1), "{name} {mode:?}");
    }
}

/// And on the tick of the copy itself.
#[test]
fn checksums_come_straight_after_a_copy() {
    let mut found = 0;
    each_wait(&lines_of("module"), |line, _, copy, late| {
        let at_once = late == -1_600 - i64::from(wire(copy.size));
        found += u32::from(at_once && line.contains("rx=cancelled"));
    });
    assert!(found >= 3, "{found}");
}

/// The sizes that the kind `wire` seeks: the least and the most, and on both
/// sides of steps of the time on the wire.
const SIZES: [usize; 14] = [5, 11, 12, 23, 24, 34, 35, 103, 104, 241, 242, 253, 254, 257];

/// What an end said of a copy, and how late.
#[derive(Clone, Copy)]
struct Met {
    word: &'static str,
    late: i64,
    module: bool,
    copy: Sent,
}

/// What is met in the lines of the kind `wire`, in a mode.
fn met_on_the_wire(mode: Mode) -> Vec<Met> {
    let words = [
        "tx=acked:",
        "tx=backoff:",
        "tx=failed:",
        "tx=stray",
        "tx=copy:",
        "tx=due",
    ];
    let mut all = Vec::new();
    each_wait(&lines_from(mode, "wire", 12), |line, module, copy, late| {
        for word in words.into_iter().filter(|word| line.contains(word)) {
            all.push(Met {
                word,
                late,
                module,
                copy,
            });
        }
    });
    all
}

/// Such a word must be said so late, of such a copy.
fn meets(all: &[Met], word: &str, late: i64, such: impl Fn(&Met) -> bool, of: &str) {
    let found = all
        .iter()
        .any(|met| met.word == word && met.late == late && such(met));
    assert!(found, "{word} {late} {of}");
}

/// What the tick of a copy's loss says, for a line that is free.
fn lost_word(mode: Mode, number: u32) -> &'static str {
    match (mode, number) {
        (_, 4) => "tx=failed:",
        (Mode::Sooner, 1..=2) => "tx=copy:",
        _ => "tx=backoff:",
    }
}

#[test]
fn each_size_is_answered_on_the_last_tick_of_its_wait_and_on_the_next() {
    let all = met_on_the_wire(Mode::Spaced);
    for size in SIZES {
        let of = format!("of {size} bytes");
        for module in [false, true] {
            let such = |met: &Met| met.copy.size == size && met.module == module;
            meets(&all, "tx=acked:", -1, such, &of);
            meets(&all, "tx=backoff:", 0, such, &of);
        }
        // One tick earlier too; and a byte on the tick of the loss and on the next.
        let such = |met: &Met| met.copy.size == size;
        meets(&all, "tx=acked:", -2, such, &of);
        meets(&all, "tx=stray", 0, such, &of);
        meets(&all, "tx=stray", 1, such, &of);
    }
    let acked = |met: &&Met| met.word == "tx=acked:";
    assert!(all.iter().filter(acked).all(|met| met.late < 0));
}

/// In the new mode the copy that goes out on the tick of the loss is answered
/// on it and on the next.
#[test]
fn each_size_is_lost_and_its_next_copy_answered_at_once_in_the_new_mode() {
    let all = met_on_the_wire(Mode::Sooner);
    for size in SIZES {
        let of = format!("of {size} bytes");
        for module in [false, true] {
            let such = |met: &Met| met.copy.size == size && met.module == module;
            meets(&all, "tx=acked:", -1, such, &of);
            meets(&all, "tx=copy:", 0, such, &of);
        }
        let such = |met: &Met| met.copy.size == size;
        meets(&all, "tx=acked:", -2, such, &of);
        let such = |met: &Met| met.copy.size == size && met.copy.at_loss;
        let first = -1_600 - i64::from(wire(size));
        meets(&all, "tx=acked:", first, such, &of);
        meets(&all, "tx=acked:", first + 1, such, &of);
    }
    let acked = |met: &&Met| met.word == "tx=acked:";
    assert!(all.iter().filter(acked).all(|met| met.late < 0));
}

#[test]
fn each_copy_is_answered_on_the_last_tick_of_its_wait_and_lost_on_the_next() {
    for mode in [Mode::Spaced, Mode::Sooner] {
        let all = met_on_the_wire(mode);
        for number in 1..=4 {
            let of = format!("of copy {number}, {mode:?}");
            let lost = lost_word(mode, number);
            for module in [false, true] {
                let such = |met: &Met| met.copy.number == number && met.module == module;
                meets(&all, "tx=acked:", -1, such, &of);
                meets(&all, lost, 0, such, &of);
                // Where no copy goes out, a byte on the tick of the loss is stray.
                if lost != "tx=copy:" {
                    meets(&all, "tx=stray", 0, such, &of);
                }
            }
        }
    }
}

/// Where a byte more would take a tick more, too.
#[test]
fn copies_wait_behind_a_06_and_behind_a_15() {
    for mode in [Mode::Spaced, Mode::Sooner] {
        let all = met_on_the_wire(mode);
        let lost = lost_word(mode, 1);
        for answer in [0x06, 0x15] {
            let of = format!("behind {answer:02X}, {mode:?}");
            for module in [false, true] {
                let such = |met: &Met| met.copy.behind == Some(answer) && met.module == module;
                meets(&all, "tx=acked:", -1, such, &of);
                meets(&all, lost, 0, such, &of);
                meets(&all, "tx=stray", 0, such, &of);
            }
        }
        for size in [11, 23, 34, 103, 241, 253] {
            let of = format!("behind 06, of {size} bytes, {mode:?}");
            let such = |met: &Met| met.copy.behind == Some(0x06) && met.copy.size == size;
            meets(&all, "tx=acked:", -1, such, &of);
            meets(&all, lost, 0, such, &of);
        }
        let of = format!("behind 06, of copy 4, {mode:?}");
        let such = |met: &Met| met.copy.behind == Some(0x06) && met.copy.number == 4;
        meets(&all, "tx=acked:", -1, such, &of);
        meets(&all, "tx=failed:", 0, such, &of);
    }
}

/// The ACK comes back by a pass on the last tick that counts, and too late.
#[test]
fn frames_go_over_and_their_acks_come_back_at_the_edge() {
    let mut told = HashSet::new();
    each_wait(&lines_in(Mode::Spaced, "wire"), |line, module, _, late| {
        if line.contains("bytes at=") && line.contains("line=- ") {
            told.insert((module, part(line, "tx=").unwrap().to_string(), late));
        }
    });
    for module in [false, true] {
        assert!(told.contains(&(module, "acked:1".to_string(), -1)));
        assert!(told.contains(&(module, "stray".to_string(), 0)));
    }
}

/// In the new mode the ACK that comes too late is to the copy that went out on
/// the tick of the loss.
#[test]
fn frames_go_over_and_their_acks_come_back_at_the_edge_in_the_new_mode() {
    let mut told = HashSet::new();
    each_wait(&lines_of("wire"), |line, module, copy, late| {
        if line.contains("bytes at=") && line.contains("line=- ") {
            let elapsed = late + 1_600 + i64::from(wire(copy.size));
            let word = part(line, "tx=").unwrap().to_string();
            told.insert((module, word.clone(), Err(late)));
            if copy.at_loss {
                told.insert((module, word, Ok(elapsed)));
            }
        }
    });
    for module in [false, true] {
        assert!(told.contains(&(module, "acked:1".to_string(), Err(-1))));
        assert!(told.contains(&(module, "acked:2".to_string(), Ok(0))));
    }
}

/// A session whose ACK came on the last tick that counts, to its end.
#[test]
fn responses_are_awaited_behind_late_acks() {
    for mode in [Mode::Spaced, Mode::Sooner] {
        let mut behind = [false; 2];
        let mut ends = HashSet::new();
        each_wait(&lines_in(mode, "wire"), |line, module, _, late| {
            let behind = &mut behind[usize::from(module)];
            let session = part(line, "session=").unwrap();
            if session == "waiting" {
                *behind = late == -1;
            } else if session != "nothing" && *behind {
                let (end, _) = session.split_once(':').unwrap_or((session, ""));
                ends.insert((module, end.to_string()));
            }
        });
        for module in [false, true] {
            for end in ["response", "noresponse"] {
                assert!(ends.contains(&(module, end.to_string())), "{module} {end}");
            }
        }
    }
}

#[test]
fn the_wire_meets_silent_lines_aborts_and_cancelled_frames() {
    let edges = [
        "tx=failed:4 session=nothing",
        "tx=failed:4 session=notsent:4",
        "session=response:4",
        "session=noresponse:4",
        "module bytes at=",
        "rx=cancelled",
    ];
    for mode in [Mode::Spaced, Mode::Sooner] {
        reaches_in(mode, "wire", &edges);
    }
    reaches_in(Mode::Spaced, "wire", &["rx=abort tx=backoff:100"]);
    reaches_in(Mode::Sooner, "wire", &["rx=abort tx=copy:2"]);
}

#[test]
fn bodies_are_written_and_refused_for_every_cause() {
    let edges = [
        "writecapabilities ok",
        "writecapabilities refused=10",
        "writenodes ok",
        "writenodes refused=10",
        "writetimeouts ok",
        "writetimeouts refused=11",
        "capabilities refused=10",
        "nodes refused=10",
        "error",
    ];
    reaches("writers", &edges);
    let lines = lines_of("writers");
    for name in ["writecapabilities", "writenodes", "writetimeouts"] {
        let refused = format!("{name} refused=1");
        assert!(lines.contains(&refused), "{refused}");
    }
}

/// Behind each writer that took its values stands its reader with the body
/// that it wrote.
#[test]
fn what_is_written_is_read_back() {
    let mut back = 0;
    for seed in 1..=4 {
        let text = script(seed, kind("writers").unwrap(), 2_000);
        let lines: Vec<&str> = text.lines().collect();
        for pair in lines.windows(2) {
            back += u32::from(read_back(pair[0], pair[1]));
        }
    }
    assert!(back > 500, "{back}");
}

/// Whether the first line writes a body and the second gives it to its reader.
fn read_back(writer: &str, reader: &str) -> bool {
    let answers = played(writer);
    let (Some(answer), Some((name, bytes))) = (answers.first(), reader.split_once(' ')) else {
        return false;
    };
    let Some((_, body)) = answer.split_once(" ok ") else {
        return false;
    };
    let reads = ["capabilities", "nodes", "timeoutsres"].contains(&name);
    if !writer.starts_with("write") || !reads {
        return false;
    }
    assert_eq!(bytes.replace(' ', "").to_uppercase(), body);
    assert!(played(reader)[0].starts_with(&format!("{name} ok ")));
    true
}
