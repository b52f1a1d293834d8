//! On random histories: a run equals its bytes one by one, a refusal changes
//! nothing, and what a call put out and handed up agrees with its report.

mod common;

use common::{called, Bench, CHOICES};
use reference::choice::Choice;
use reference::dice::Dice;
use reference::link::Link;
use reference::random::{kind, script};
use reference::refusal::Refusal;
use reference::script::{understand, Call, LinkCall};

/// Every call of a script, with the link before it, once on a host and once on
/// a stand-in, each opened in both modes, whichever end the script names. All
/// calls have room enough.
fn each_call(text: &str, mut look: impl FnMut(&Link, LinkCall<'_>)) {
    for choice in CHOICES {
        let mut link = Link::open_as(choice);
        let mut store = Vec::new();
        for line in text.split('\n') {
            match understand(line.as_bytes(), &mut store) {
                Some(Call::Link(_, call)) => {
                    look(&link, call);
                    follow(&mut link, call);
                }
                Some(Call::Ticks(_, number)) => {
                    look(&link, LinkCall::Tick);
                    (0..number).for_each(|_| follow(&mut link, LinkCall::Tick));
                }
                Some(Call::Open(Choice { mode, .. })) => {
                    link = Link::open_as(Choice { mode, ..choice });
                }
                _ => {}
            }
        }
    }
}

fn follow(link: &mut Link, call: LinkCall<'_>) {
    let _ = called(link, call, &mut [0; 258], &mut [0; 254]);
}

/// A kind with calls of every sort, the one that seeks the stand-in's edges, the
/// one with frames of every time on the wire, and the one with both modes.
const SOUGHT: [&str; 4] = ["mixed", "module", "wire", "modes"];

/// A script of the kind that is this seed's turn.
fn sought(seed: u64, lines: usize) -> String {
    let name = SOUGHT[seed as usize % SOUGHT.len()];
    script(seed, kind(name).unwrap(), lines)
}

#[test]
fn a_run_equals_its_bytes_one_by_one() {
    let mut runs = 0;
    for seed in 1..=12 {
        let text = sought(seed, 3_000);
        each_call(&text, |link, call| {
            let LinkCall::Bytes(run) = call else { return };
            let (mut whole, mut single) = (Bench::new(), Bench::new());
            whole.link = link.clone();
            single.link = link.clone();
            let (taken, said) = whole.run(run);
            assert!(taken == run.len() || said.report.says_more_than_skipped());
            for (place, &byte) in run[..taken].iter().enumerate() {
                let one = single.byte(byte);
                if place + 1 == taken {
                    assert_eq!(one, said);
                } else {
                    assert!(!one.report.says_more_than_skipped());
                    assert!(one.line.is_empty() && one.up.is_empty());
                }
            }
            assert_eq!(whole.link, single.link);
            runs += 1;
        });
    }
    assert!(runs > 2_000, "{runs}");
}

#[test]
fn a_refusal_changes_nothing_in_any_state() {
    let mut dice = Dice::new(9);
    for seed in 1..=8 {
        let text = sought(seed, 1_500);
        each_call(&text, |link, _| {
            let mut after = link.clone();
            let (line_room, up_room) = dice.one(&[(257, 254), (258, 253), (0, 0), (600, 0)]);
            let (mut line, mut up) = (vec![0xE7; line_room], vec![0xE7; up_room]);
            let answers = [
                after.byte(6, &mut line, &mut up),
                after
                    .bytes(&[6], &mut line, &mut up)
                    .map(|(_, report)| report),
                after.tick(&mut line, &mut up),
                after.send(0, 7, &[], &mut line, &mut up),
                after.session(7, &[], &mut line, &mut up),
                after.restart(&mut line, &mut up),
            ];
            assert!(answers.iter().all(|answer| *answer == Err(Refusal::Room)));
            assert_eq!(&after, link);
            assert!(line.iter().chain(&up).all(|&byte| byte == 0xE7));
            // The bench checks that these change nothing.
            let mut bench = Bench::new();
            bench.link = link.clone();
            assert!(bench.send(2, 7, &[0; 253]).is_err());
            assert!(bench.session(7, &[0; 253]).is_err());
        });
    }
}

#[test]
fn bytes_put_out_have_their_cause_in_the_report() {
    use reference::report::{ReceptionPart, SendingPart};
    for seed in 1..=8 {
        let text = sought(seed, 3_000);
        each_call(&text, |link, call| {
            let mut bench = Bench::new();
            bench.link = link.clone();
            let said = match call {
                LinkCall::Byte(byte) => bench.byte(byte),
                LinkCall::Bytes(run) => bench.run(run).1,
                LinkCall::Tick => bench.tick(),
                _ => return,
            };
            let answer = match said.report.reception {
                ReceptionPart::Frame | ReceptionPart::StrayResponse | ReceptionPart::Reserved => {
                    Some(0x06)
                }
                ReceptionPart::BadSum => Some(0x15),
                ReceptionPart::Cancelled => Some(0x18),
                _ => None,
            };
            let copy = matches!(said.report.sending, SendingPart::Copy(_));
            let front = usize::from(answer.is_some());
            assert_eq!(said.line.first().copied(), answer.or(copy.then_some(0x01)));
            assert_eq!(said.line.len() > front, copy);
            let up = matches!(
                said.report.reception,
                ReceptionPart::Frame | ReceptionPart::StrayResponse
            );
            assert_eq!(said.up.len() >= 2, up);
        });
    }
}
