//! Request P4: a link opened without a choice repeats sooner after a loss by
//! time; NAK and CAN keep the full back-offs; the old mode keeps them for every
//! cause.

mod common;

use common::*;
use reference::choice::{Choice, Mode, Role};
use reference::link::Link;
use reference::report::SendingPart;
use reference::sending::{back_off_ticks, Cause, State};

/// What is said on a tick or to a byte while hunting.
fn said(words: &str, line: &[u8]) -> Said {
    says(rx("nothing"), tx(words), line, &[])
}

/// A link that has put out copy 1 of a frame of so many bytes, and the frame.
fn waiting(choice: Choice, size: usize) -> (Bench, Vec<u8>) {
    let mut bench = Bench::of(choice);
    let parameters = vec![0x15; size - 5];
    let frame = framed(0, 7, &parameters);
    let sent = bench.send(0, 7, &parameters).unwrap();
    assert_eq!(sent, said("copy:1", &frame));
    (bench, frame)
}

/// The same with copy `copies` just put out, those before it refused at once.
fn waiting_for(choice: Choice, size: usize, copies: usize) -> (Bench, Vec<u8>) {
    let (mut bench, frame) = waiting(choice, size);
    for back_off in [100, 1_100, 2_100].into_iter().take(copies - 1) {
        bench.byte(0x15);
        assert_eq!(bench.ticks(back_off).len(), 1);
    }
    assert_eq!(bench.link.sender_state(), State::Waiting(0));
    (bench, frame)
}

/// Both ends in the new mode.
const SOONER: [Choice; 2] = [CHOICES[0], CHOICES[2]];
/// Both ends in the old mode.
const SPACED: [Choice; 2] = [CHOICES[1], CHOICES[3]];

/// Every back-off, by mode, cause and copy.
#[test]
fn the_back_offs() {
    let all = [
        (Mode::Sooner, Cause::Time, [0, 0, 500]),
        (Mode::Sooner, Cause::Told, [100, 1_100, 2_100]),
        (Mode::Spaced, Cause::Time, [100, 1_100, 2_100]),
        (Mode::Spaced, Cause::Told, [100, 1_100, 2_100]),
    ];
    for (mode, cause, back_offs) in all {
        for (copy, ticks) in [1, 2, 3].into_iter().zip(back_offs) {
            assert_eq!(back_off_ticks(mode, cause, copy), Some(ticks));
        }
        assert_eq!(back_off_ticks(mode, cause, 4), None);
    }
}

/// What a silent line says: words of the sending part, by tick.
type Silent = &'static [(u32, &'static str)];

/// Mode and size of a frame, and what is said of it. 5 bytes take 1 tick on the
/// wire, 257 take 23.
const SILENT: [(Mode, usize, Silent); 4] = [
    (
        Mode::Sooner,
        5,
        &[
            (1_601, "copy:2"),
            (3_202, "copy:3"),
            (4_803, "backoff:500"),
            (5_303, "copy:4"),
            (6_904, "failed:4"),
        ],
    ),
    (
        Mode::Sooner,
        257,
        &[
            (1_623, "copy:2"),
            (3_246, "copy:3"),
            (4_869, "backoff:500"),
            (5_369, "copy:4"),
            (6_992, "failed:4"),
        ],
    ),
    (
        Mode::Spaced,
        5,
        &[
            (1_601, "backoff:100"),
            (1_701, "copy:2"),
            (3_302, "backoff:1100"),
            (4_402, "copy:3"),
            (6_003, "backoff:2100"),
            (8_103, "copy:4"),
            (9_704, "failed:4"),
        ],
    ),
    (
        Mode::Spaced,
        257,
        &[
            (1_623, "backoff:100"),
            (1_723, "copy:2"),
            (3_346, "backoff:1100"),
            (4_446, "copy:3"),
            (6_069, "backoff:2100"),
            (8_169, "copy:4"),
            (9_792, "failed:4"),
        ],
    ),
];

/// Sends a frame of so many bytes on a silent line, and compares.
fn is_silent(bench: &mut Bench, size: usize, silent: Silent, session: bool) {
    let parameters = vec![0x15; size - 5];
    let frame = framed(0, 7, &parameters);
    let begin = bench.ticks;
    let first = if session {
        bench.session(7, &parameters)
    } else {
        bench.send(0, 7, &parameters)
    };
    assert_eq!(first, Ok(said("copy:1", &frame)));
    let expected: Vec<(u32, Said)> = silent
        .iter()
        .map(|&(at, word)| {
            let said = match word {
                "failed:4" if session => said("failed:4 notsent:4 delivery", &[]),
                "failed:4" => said("failed:4 delivery", &[]),
                _ if word.starts_with("copy") => said(word, &frame),
                _ => said(word, &[]),
            };
            (begin + at, said)
        })
        .collect();
    assert_eq!(bench.ticks(12_000), expected);
}

#[test]
fn silent_lines_to_the_tick() {
    for (mode, size, silent) in SILENT {
        for role in [Role::Host, Role::Module] {
            for session in [false, true] {
                let mut bench = Bench::of(choice(role, mode));
                is_silent(&mut bench, size, silent, session);
                // The next one on the same link is no different.
                is_silent(&mut bench, size, silent, !session);
            }
        }
    }
}

#[test]
fn nak_and_can_keep_the_full_back_offs_in_both_modes() {
    for choice in CHOICES {
        for (size, single) in [(5, 0x15), (5, 0x18), (257, 0x15), (257, 0x18)] {
            let (mut bench, frame) = waiting(choice, size);
            for (copies, (back_off, at)) in [(100, 100), (1_100, 1_200), (2_100, 3_300)]
                .into_iter()
                .enumerate()
            {
                let words = format!("backoff:{back_off}");
                assert_eq!(bench.byte(single), said(&words, &[]));
                bench.quiet_ticks(back_off - 1);
                let words = format!("copy:{}", copies + 2);
                assert_eq!(bench.tick(), said(&words, &frame));
                assert_eq!(bench.ticks, at);
            }
            assert_eq!(bench.byte(single), said("failed:4 delivery", &[]));
            assert_eq!(bench.ticks, 3_300);
        }
    }
}

/// However late: on the last tick before the loss too.
#[test]
fn a_nak_one_tick_before_the_loss_keeps_the_full_back_off() {
    for choice in CHOICES {
        for single in [0x15, 0x18] {
            let (mut bench, frame) = waiting(choice, 5);
            for (copies, back_off) in [100, 1_100, 2_100].into_iter().enumerate() {
                bench.quiet_ticks(1_600);
                let words = format!("backoff:{back_off}");
                assert_eq!(bench.byte(single), said(&words, &[]));
                bench.quiet_ticks(back_off - 1);
                let words = format!("copy:{}", copies + 2);
                assert_eq!(bench.tick(), said(&words, &frame));
            }
            bench.quiet_ticks(1_600);
            assert_eq!(bench.byte(single), said("failed:4 delivery", &[]));
        }
    }
}

/// The back-off goes by the cause of each copy, not by those before it: every
/// row of three causes, and every cause of the failure.
#[test]
fn causes_in_every_order() {
    for (choice, row) in CHOICES
        .into_iter()
        .flat_map(|choice| (0..16).map(move |row| (choice, row)))
    {
        let lost = |copy: u32| row & (1 << (copy - 1)) != 0;
        let (mut bench, frame) = waiting(choice, 5);
        let mut at = 0;
        for (copy, told, by_time) in [(1, 100, 0), (2, 1_100, 0), (3, 2_100, 500)] {
            let back_off = match (lost(copy), choice.mode) {
                (true, Mode::Sooner) => by_time,
                _ => told,
            };
            if lost(copy) {
                bench.quiet_ticks(1_600);
                at += 1_601 + back_off;
            } else {
                assert_eq!(bench.byte(0x18), said(&format!("backoff:{told}"), &[]));
                at += back_off;
            }
            let (tick, last) = bench.ticks(at - bench.ticks).pop().unwrap();
            assert_eq!(tick, at);
            assert_eq!(last, said(&format!("copy:{}", copy + 1), &frame));
        }
        // After copy 4 it has failed, with 4 copies, in both modes.
        if lost(4) {
            bench.quiet_ticks(1_600);
            assert_eq!(bench.tick(), said("failed:4 delivery", &[]));
        } else {
            assert_eq!(bench.byte(0x15), said("failed:4 delivery", &[]));
        }
        bench.quiet_ticks(5_000);
    }
}

/// The copy goes out whole on the tick of the loss, and its wait is 0 after it.
#[test]
fn the_next_copy_goes_out_on_the_tick_of_the_loss() {
    for choice in SOONER {
        for (size, copies) in [(5, 1), (5, 2), (257, 1), (257, 2)] {
            let (mut bench, frame) = waiting_for(choice, size, copies);
            bench.quiet_ticks(1_599 + wire(size));
            let words = format!("copy:{}", copies + 1);
            assert_eq!(bench.tick(), said(&words, &frame));
            assert_eq!(bench.link.sender_state(), State::Waiting(0));
            // An ACK on that tick is to the new copy.
            let acked = format!("acked:{}", copies + 1);
            assert_eq!(bench.other().byte(6), said(&acked, &[]));
            // NAK and CAN too: they find the new copy waiting.
            let back_off = ["backoff:1100", "backoff:2100"][copies - 1];
            assert_eq!(bench.other().byte(0x15), said(back_off, &[]));
            assert_eq!(bench.other().byte(0x18), said(back_off, &[]));
            // It is lost its whole wait later, and not before.
            bench.quiet_ticks(1_599 + wire(size));
            assert_eq!(bench.other().byte(6), said(&acked, &[]));
            assert_eq!(bench.ticks(1).len(), 1);
        }
    }
}

/// How a frame ends on bytes: the bytes behind its 01, the word for it, the
/// byte that answers it, and what is handed up.
type End = (&'static [u8], &'static str, &'static [u8], &'static [u8]);

const ENDS: [End; 7] = [
    (&[0x03, 0x00, 0x07, 0xFB], "frame", &[6], &[0, 7]),
    (&[0x03, 0x01, 0x07, 0xFA], "strayresponse", &[6], &[1, 7]),
    (&[0x03, 0x02, 0x07, 0xF9], "reserved", &[6], &[]),
    (&[0x03, 0x00, 0x07, 0xFA], "badsum", &[0x15], &[]),
    (&[0x00], "badlen", &[], &[]),
    (&[0x01], "badlen", &[], &[]),
    (&[0x02], "badlen", &[], &[]),
];

/// Inside a frame the copy is due on the tick of the loss, and goes out with
/// the end of the frame, behind its answer.
#[test]
fn a_loss_inside_a_frame_is_due_and_goes_out_with_its_end() {
    for choice in SOONER {
        for (size, copies) in [(5, 1), (5, 2), (257, 1), (257, 2)] {
            for (bytes, word, answer, up) in ENDS {
                let (mut bench, frame) = waiting_for(choice, size, copies);
                bench.quiet_ticks(1_599 + wire(size));
                bench.byte(1);
                assert_eq!(bench.tick(), said("due", &[]));
                assert_eq!(bench.link.sender_state(), State::Due);
                // Due is said once, and nothing goes out inside the frame.
                bench.quiet_ticks(700);
                let line = [answer, &frame].concat();
                let words = format!("copy:{}", copies + 1);
                let end = bench.bytes(bytes);
                assert_eq!(end, says(rx(word), tx(&words), &line, up));
                assert_eq!(bench.link.sender_state(), State::Waiting(0));
                bench.quiet_ticks(1_599 + wire(size));
                let acked = format!("acked:{}", copies + 1);
                assert_eq!(bench.byte(6), said(&acked, &[]));
            }
        }
    }
}

#[test]
fn a_copy_due_by_a_loss_goes_out_when_the_frame_is_aborted() {
    for choice in SOONER {
        for copies in [1, 2] {
            for before in [1, 2, 800, 1_500] {
                let (mut bench, frame) = waiting_for(choice, 257, copies);
                bench.quiet_ticks(1_623 - before);
                bench.byte(1);
                bench.quiet_ticks(before - 1);
                assert_eq!(bench.tick(), said("due", &[]));
                bench.quiet_ticks(1_500 - before);
                let words = format!("copy:{}", copies + 1);
                let abort = says(rx("abort"), tx(&words), &frame, &[]);
                assert_eq!(bench.tick(), abort);
                assert_eq!(bench.link.sender_state(), State::Waiting(0));
            }
        }
    }
}

/// While the copy is due no byte of the frame has a special meaning, and the
/// link is busy.
#[test]
fn a_copy_due_by_a_loss_is_no_copy_that_waits() {
    let (mut bench, frame) = waiting(CHOICES[0], 5);
    bench.quiet_ticks(1_600);
    bench.bytes(&[0x01, 0x06]);
    assert_eq!(bench.tick(), said("due", &[]));
    for byte in [0x06, 0x15, 0x18, 0x06, 0x01] {
        assert!(bench.byte(byte).nothing());
    }
    assert!(bench.send(0, 7, &[]).is_err());
    // FF xor 06 06 15 18 06 01: the type is 06, which is reserved.
    let line = [&[6][..], &frame].concat();
    let end = bench.byte(0xFF ^ 0x06 ^ 0x06 ^ 0x15 ^ 0x18 ^ 0x06 ^ 0x01);
    assert_eq!(end, says(rx("reserved"), tx("copy:2"), &line, &[]));
}

/// After copy 3 a back-off is left, inside a frame too; it may end inside one.
#[test]
fn copy_3_lost_inside_a_frame_backs_off_500() {
    for choice in SOONER {
        let (mut bench, frame) = waiting_for(choice, 5, 3);
        bench.quiet_ticks(1_600);
        bench.byte(1);
        assert_eq!(bench.tick(), said("backoff:500", &[]));
        let mut other = bench.other();
        // The frame ends before the back-off does.
        assert_eq!(
            bench.byte(2),
            says(rx("badlen"), tx(""), &[], &[]),
            "nothing is due yet"
        );
        bench.quiet_ticks(499);
        assert_eq!(bench.tick(), said("copy:4", &frame));
        // Or behind it.
        other.quiet_ticks(499);
        assert_eq!(other.tick(), said("due", &[]));
        let end = says(rx("badlen"), tx("copy:4"), &frame, &[]);
        assert_eq!(other.byte(2), end);
    }
}

/// What the tick says that loses a copy and aborts a frame.
#[test]
fn an_abort_on_the_tick_of_every_loss() {
    let all = [
        (
            SOONER,
            ["copy:2", "copy:3", "backoff:500", "failed:4 delivery"],
        ),
        (
            SPACED,
            [
                "backoff:100",
                "backoff:1100",
                "backoff:2100",
                "failed:4 delivery",
            ],
        ),
    ];
    for (choices, words) in all {
        for (choice, size) in choices
            .into_iter()
            .flat_map(|choice| [5, 257].map(|size| (choice, size)))
        {
            for (copies, words) in (1..=4).zip(words) {
                let (mut bench, frame) = waiting_for(choice, size, copies);
                bench.quiet_ticks(99 + wire(size));
                bench.byte(1);
                bench.quiet_ticks(1_500);
                let copy = words.starts_with("copy");
                let line = if copy { &frame[..] } else { &[] };
                let abort = says(rx("abort"), tx(words), line, &[]);
                assert_eq!(bench.tick(), abort);
                if copy {
                    assert_eq!(bench.link.sender_state(), State::Waiting(0));
                }
            }
        }
    }
}

/// An abort a tick before the loss or behind it.
#[test]
fn an_abort_beside_the_tick_of_a_loss() {
    for choice in SOONER {
        let (mut bench, frame) = waiting(choice, 5);
        bench.quiet_ticks(99);
        bench.byte(1);
        bench.quiet_ticks(1_500);
        assert_eq!(bench.tick(), says(rx("abort"), tx(""), &[], &[]));
        assert_eq!(bench.tick(), said("copy:2", &frame));
        let (mut bench, frame) = waiting(choice, 5);
        bench.quiet_ticks(101);
        bench.byte(1);
        bench.quiet_ticks(1_499);
        assert_eq!(bench.tick(), said("due", &[]));
        let abort = says(rx("abort"), tx("copy:2"), &frame, &[]);
        assert_eq!(bench.tick(), abort);
    }
}

/// On every tick of a silent line, and where each falls inside a frame.
#[test]
fn a_back_off_of_0_is_never_said_nor_a_state() {
    for choice in CHOICES {
        for (size, inside) in [(5, false), (5, true), (257, false), (257, true)] {
            let (mut bench, _) = waiting(choice, size);
            for _ in 0..10_000 {
                if inside && bench.link.frame_clock().is_none() {
                    bench.byte(1);
                }
                let said = bench.tick();
                assert_ne!(said.report.sending, SendingPart::BackingOff(0));
                assert_ne!(bench.link.sender_state(), State::BackingOff(0));
            }
        }
    }
}

/// A restart gives a fresh link of the same choice, from every state.
#[test]
fn a_restart_keeps_the_mode_and_the_role() {
    let steps: [&[u8]; 6] = [&[], &[0x15], &[1], &[1, 9, 9], &BAD_07, &[6]];
    for choice in CHOICES {
        for bytes in steps {
            for ticks in [0, 1_700, 5_000] {
                let mut bench = Bench::of(choice);
                bench.session(7, &[1, 2]).unwrap();
                bench.ticks(ticks);
                bench.bytes(bytes);
                assert_eq!(bench.restart().line, [0x15]);
                assert_eq!(bench.link, Link::open_as(choice));
                assert_eq!(bench.link.choice(), choice);
            }
        }
        for other in CHOICES.into_iter().filter(|other| *other != choice) {
            assert_ne!(Link::open_as(choice), Link::open_as(other));
        }
    }
}

/// And its silent lines are those of the mode, restart after restart.
#[test]
fn silent_lines_behind_restarts() {
    for (mode, size, silent) in SILENT {
        for role in [Role::Host, Role::Module] {
            let mut bench = Bench::of(choice(role, mode));
            for _ in 0..3 {
                bench.restart();
                is_silent(&mut bench, size, silent, false);
                bench.send(0, 2, &[]).unwrap();
                bench.ticks(2_000);
                bench.restart();
            }
        }
    }
}

#[test]
fn opening_without_a_choice_is_the_new_mode() {
    assert_eq!(
        Link::open(),
        Link::open_as(choice(Role::Host, Mode::Sooner))
    );
    assert_ne!(
        Link::open(),
        Link::open_as(choice(Role::Host, Mode::Spaced))
    );
    assert_eq!(Choice::HOST, choice(Role::Host, Mode::Sooner));
    assert_eq!(Choice::MODULE, choice(Role::Module, Mode::Sooner));
}

/// The modes differ nowhere but in what follows a loss by time.
#[test]
fn without_a_loss_the_modes_are_alike() {
    for role in [Role::Host, Role::Module] {
        let mut benches = [Mode::Sooner, Mode::Spaced].map(|mode| Bench::of(choice(role, mode)));
        let mut dice = reference::dice::Dice::new(4);
        for _ in 0..20_000 {
            let step = dice.below(12);
            let byte = dice.one(&[0x01, 0x02, 0x03, 0x06, 0x15, 0x18, 0x55]);
            let number = dice.between(1, 700);
            let [one, other] = benches.each_mut().map(|bench| match step {
                0 => bench.send(0, 7, &[byte]).map(|said| vec![(0, said)]),
                1 => bench.session(7, &[]).map(|said| vec![(0, said)]),
                2 => Ok(vec![(0, bench.bytes(&RES_07))]),
                3..=5 => Ok(bench.ticks(number)),
                6 => Ok(vec![(0, bench.restart())]),
                _ => Ok(vec![(0, bench.byte(byte))]),
            });
            assert_eq!(one, other);
            // A wait that nears its end is ended.
            for bench in &mut benches {
                if matches!(bench.link.sender_state(), State::Waiting(ticks) if ticks > 850) {
                    bench.restart();
                }
            }
        }
    }
}

/// The bounds, by a search. A copy goes out while the line is free and its wait
/// is 0 then, so what came before has no part in what follows: the longest
/// history is the longest way from each copy to the next.
mod bounds {
    use super::*;

    /// A tick, without the checks of the bench: there are many.
    fn tick(link: &mut Link) -> SendingPart {
        let report = link.tick(&mut [0; 258], &mut [0; 254]);
        report.unwrap().sending
    }

    /// Ticks to the next copy, with no byte any more.
    fn to_next_copy(mut link: Link) -> u32 {
        (1..9_000)
            .find(|_| matches!(tick(&mut link), SendingPart::Copy(_)))
            .unwrap()
    }

    /// The longest that a copy can be due at first: a send inside a frame.
    fn longest_due(choice: Choice) -> u32 {
        let ways = (0..=1_500).map(|clock| {
            let mut bench = Bench::of(choice);
            bench.byte(1);
            (0..clock).for_each(|_| assert_eq!(tick(&mut bench.link), SendingPart::Nothing));
            bench.send(0, 7, &[]).unwrap();
            to_next_copy(bench.link)
        });
        ways.max().unwrap()
    }

    /// Ticks on which a frame may begin, counted from the copy: all those beside
    /// an end of something, and many more.
    fn begins(wait: u32, told: u32) -> Vec<u32> {
        let ends = [wait, told + 100, told + 1_100, told + 2_100, wait + 500];
        let mut all: Vec<u32> = ends
            .into_iter()
            .chain([wait + 100, wait + 1_100, wait + 2_100])
            .flat_map(|end| [end.saturating_sub(1_501), end])
            .flat_map(|tick| tick.saturating_sub(3)..=tick + 1)
            .chain((0..5_300).step_by(13))
            .collect();
        all.sort_unstable();
        all.dedup();
        all
    }

    /// The longest way from a copy to the next: a NAK on one of many ticks, or
    /// none, and a frame that begins on any and ends by its abort. A frame that
    /// ends sooner lets the copy go sooner, and one that begins sooner is over.
    fn longest_to_next(choice: Choice, size: usize, copies: usize) -> u32 {
        let (begin, _) = waiting_for(choice, size, copies);
        let wait = 1_600 + wire(size);
        let mut longest = 0;
        for told in [0, 1, 800, wait - 2, wait - 1, wait] {
            let mut bench = begin.other();
            let mut ticks = 0;
            let mut next = begins(wait, told).into_iter().peekable();
            loop {
                if ticks == told && told < wait {
                    bench.byte(0x15);
                }
                if next.peek() == Some(&ticks) {
                    next.next();
                    let mut inside = bench.other();
                    inside.byte(1);
                    longest = longest.max(ticks + to_next_copy(inside.link));
                }
                ticks += 1;
                if let SendingPart::Copy(_) = tick(&mut bench.link) {
                    break;
                }
            }
            longest = longest.max(ticks);
        }
        longest
    }

    /// The sum of the longest ways for a send and for a session of so many
    /// bytes: the last copy is lost, or acknowledged on the last tick that
    /// counts and never answered.
    fn longest(choice: Choice, size: usize) -> [u32; 2] {
        let to_copy_4: u32 = (1..=3)
            .map(|copies| longest_to_next(choice, size, copies))
            .sum();
        let (mut bench, _) = waiting_for(choice, size, 4);
        let lost = (1..9_000)
            .find(|_| tick(&mut bench.link) == SendingPart::Failed(4))
            .unwrap();
        let sent = longest_due(choice) + to_copy_4;
        [sent + lost, sent + lost - 1 + 5_000]
    }

    #[test]
    fn no_history_of_the_new_mode_is_longer_than_15698_or_20697_and_4w() {
        for choice in SOONER {
            assert_eq!(longest(choice, 5), [15_702, 20_701]);
            assert_eq!(longest(choice, 257), [15_790, 20_789]);
        }
    }

    #[test]
    fn no_history_of_the_old_mode_is_longer_than_15701_or_20700_and_4w() {
        for choice in SPACED {
            assert_eq!(longest(choice, 5), [15_705, 20_704]);
            assert_eq!(longest(choice, 257), [15_793, 20_792]);
        }
    }

    /// Which way is the longest in the new mode: told a tick before the loss,
    /// and the back-off ends in a frame that began on the tick before.
    #[test]
    fn the_longest_way_to_the_next_copy_in_the_new_mode() {
        for choice in SOONER {
            for (copies, back_off) in (1..=3).zip([100, 1_100, 2_100]) {
                let told = 1_600 + back_off - 1 + 1_501;
                assert_eq!(longest_to_next(choice, 5, copies), told);
            }
        }
    }
}
