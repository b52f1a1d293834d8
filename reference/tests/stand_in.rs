//! Request P5: the stand-in, which cancels what comes while it waits for an
//! ACK, and is the host in everything else. In both modes of request P4.

mod common;

use common::*;
use reference::choice::{Choice, Mode, Role};
use reference::link::Link;
use reference::random::{kind, script};
use reference::refusal::Refusal;
use reference::report::ReceptionPart;
use reference::script::{understand, Call, LinkCall};
use reference::sending::State;

/// REQ 02 without parameters, which the stand-in sends in these tests.
const REQ_02: [u8; 5] = [0x01, 0x03, 0x00, 0x02, 0xFE];

/// An end that waits for the ACK of REQ 02.
fn waits(choice: Choice) -> Bench {
    let mut bench = Bench::of(choice);
    let sent = bench.send(0, 2, &[]).unwrap();
    assert_eq!(sent, says(rx("nothing"), tx("copy:1"), &REQ_02, &[]));
    bench
}

fn waiting() -> Bench {
    waiting_in(Mode::Sooner)
}

fn waiting_in(mode: Mode) -> Bench {
    waits(choice(Role::Module, mode))
}

/// The stand-in's answer to a right frame while it waits.
fn cancelled() -> Said {
    says(rx("cancelled"), tx(""), &[0x18], &[])
}

fn acked(copies: u8) -> Said {
    says(rx("nothing"), tx(&format!("acked:{copies}")), &[], &[])
}

#[test]
fn a_request_while_it_waits_is_cancelled() {
    for command in 0..=255 {
        assert_eq!(waiting().bytes(&framed(0, command, &[])), cancelled());
    }
    for size in [1, 2, 100, 251, 252] {
        assert_eq!(waiting().bytes(&framed(0, 7, &vec![6; size])), cancelled());
    }
}

#[test]
fn a_response_while_it_waits_is_cancelled_whatever_its_command() {
    for command in 0..=255 {
        assert_eq!(waiting().bytes(&framed(1, command, &[9])), cancelled());
        // A session's own response too, as long as its request is not
        // acknowledged: it ends nothing.
        let mut bench = Bench::module();
        bench.session(2, &[]).unwrap();
        assert_eq!(bench.bytes(&framed(1, command, &[9])), cancelled());
        assert_eq!(
            bench.byte(6),
            says(rx("nothing"), tx("acked:1 waiting"), &[], &[])
        );
        let response = framed(1, 2, &[9]);
        assert_eq!(
            bench.bytes(&response),
            says(rx("frame"), tx("response:1"), &[6], &[1, 2, 9])
        );
    }
}

#[test]
fn the_run_of_bad_sums_is_0_after_it() {
    let bad = says(rx("badsum"), tx(""), &[0x15], &[]);
    let third = says(rx("badsum"), tx("sums"), &[0x15], &[]);
    for before in 0..=2 {
        for frame in [REQ_07, RES_07] {
            let mut bench = waiting();
            for _ in 0..before {
                assert_eq!(bench.bytes(&BAD_07), bad);
            }
            assert_eq!(bench.bytes(&frame), cancelled());
            assert_eq!(bench.link.bad_sums(), 0);
            assert_eq!(bench.bytes(&BAD_07), bad);
            assert_eq!(bench.bytes(&BAD_07), bad);
            assert_eq!(bench.bytes(&BAD_07), third);
        }
    }
}

/// Ticks before the frames, and how many frames come.
const CANCELLED_AT: [(u32, u32); 5] = [(0, 1), (1, 3), (800, 1), (1_599, 2), (1_600, 1)];

/// A stand-in on the 1,600th tick of its wait, having cancelled meanwhile.
fn cancelled_at(mode: Mode, ticks: u32, frames: u32) -> Bench {
    let mut bench = waiting_in(mode);
    bench.quiet_ticks(ticks);
    let before = bench.link.sender_state();
    for _ in 0..frames {
        assert_eq!(bench.bytes(&REQ_07), cancelled());
    }
    assert_eq!(bench.link.sender_state(), before);
    bench.quiet_ticks(1_600 - ticks);
    bench
}

/// The ACK still counts at 1,600 ticks, and the 1,601st loses the copy.
#[test]
fn the_send_goes_on_with_the_same_copy_and_the_same_wait() {
    let again = says(rx("nothing"), tx("copy:2"), &REQ_02, &[]);
    for (ticks, frames) in CANCELLED_AT {
        let mut bench = cancelled_at(Mode::Spaced, ticks, frames);
        assert_eq!(bench.other().byte(6), acked(1));
        let lost = says(rx("nothing"), tx("backoff:100"), &[], &[]);
        assert_eq!(bench.tick(), lost);
        bench.quiet_ticks(99);
        assert_eq!(bench.tick(), again);
        // In the new mode it is repeated on that tick.
        let mut bench = cancelled_at(Mode::Sooner, ticks, frames);
        assert_eq!(bench.other().byte(6), acked(1));
        assert_eq!(bench.tick(), again);
        assert_eq!(bench.byte(6), acked(2));
    }
}

#[test]
fn every_copy_cancels_and_is_counted_as_before() {
    for copies in 1..=4u8 {
        let mut bench = waiting();
        for back_off in [100, 1_100, 2_100].into_iter().take(copies as usize - 1) {
            assert_eq!(bench.bytes(&RES_07), cancelled());
            bench.byte(0x18);
            bench.ticks(back_off);
        }
        assert_eq!(bench.bytes(&RES_07), cancelled());
        assert_eq!(bench.byte(6), acked(copies));
    }
}

#[test]
fn a_cancelled_frame_is_no_answer_to_the_copy() {
    // 06 15 18 in its body and as its Checksum have no meaning.
    let mut bench = waiting();
    let frame = framed(0, 0x06, &[0x15, 0x18, 0x06, 0x01]);
    assert_eq!(bench.bytes(&frame), cancelled());
    // Length 04, type 00, command 0A and F7: the Checksum is 06.
    let ends_in_06 = [0x01, 0x04, 0x00, 0x0A, 0xF7, 0x06];
    assert_eq!(bench.bytes(&ends_in_06), cancelled());
    assert_eq!(bench.byte(6), acked(1));
}

#[test]
fn reserved_types_are_as_before() {
    for kind in 2..=255 {
        let said = waiting().bytes(&framed(kind, 7, &[9]));
        assert_eq!(said, says(rx("reserved"), tx(""), &[6], &[]));
    }
    let mut bench = waiting();
    bench.bytes(&BAD_07);
    bench.bytes(&BAD_07);
    bench.bytes(&RESERVED_07);
    assert_eq!(bench.link.bad_sums(), 0);
    assert_eq!(bench.byte(6), acked(1));
}

#[test]
fn wrong_checksums_are_as_before() {
    let bad = says(rx("badsum"), tx(""), &[0x15], &[]);
    for sum in (0..=255).filter(|&sum| sum != 0xFB) {
        assert_eq!(waiting().bytes(&[1, 3, 0, 7, sum]), bad);
    }
    let mut bench = waiting();
    assert_eq!(bench.bytes(&BAD_07), bad);
    assert_eq!(bench.bytes(&BAD_07), bad);
    let third = says(rx("badsum"), tx("sums"), &[0x15], &[]);
    assert_eq!(bench.bytes(&BAD_07), third);
    assert_eq!(bench.byte(6), acked(1));
}

#[test]
fn bad_lengths_and_aborts_are_as_before() {
    for length in 0..3 {
        let mut bench = waiting();
        bench.byte(1);
        assert_eq!(bench.byte(length), says(rx("badlen"), tx(""), &[], &[]));
        assert_eq!(bench.bytes(&REQ_07), cancelled());
    }
    let mut bench = waiting();
    bench.bytes(&REQ_07[..4]);
    bench.quiet_ticks(1_500);
    assert_eq!(bench.tick(), says(rx("abort"), tx(""), &[], &[]));
    // The Checksum comes too late to be one.
    assert_eq!(bench.byte(0xFB), says(rx("skipped"), tx(""), &[], &[]));
    bench.quiet_ticks(99);
    assert_eq!(bench.byte(6), acked(1));
}

/// The five states that are no wait for an ACK when the Checksum comes.
mod not_waiting {
    use super::*;

    #[test]
    fn quiet() {
        let mut bench = Bench::module();
        let up = says(rx("frame"), tx(""), &[6], &[0, 7]);
        assert_eq!(bench.bytes(&REQ_07), up);
        let stray = says(rx("strayresponse"), tx(""), &[6], &[1, 7]);
        assert_eq!(bench.bytes(&RES_07), stray);
        // And again after a verdict, acknowledged or failed.
        bench.send(0, 2, &[]).unwrap();
        assert_eq!(bench.byte(6), acked(1));
        assert_eq!(bench.bytes(&REQ_07), up);
        for (mode, failed) in [(Mode::Spaced, 9_704), (Mode::Sooner, 6_904)] {
            let mut bench = waiting_in(mode);
            bench.ticks(failed - 1);
            assert_eq!(bench.other().bytes(&RES_07), cancelled());
            let last = says(rx("nothing"), tx("failed:4 delivery"), &[], &[]);
            assert_eq!(bench.tick(), last);
            assert_eq!(bench.bytes(&RES_07), stray);
        }
    }

    #[test]
    fn due() {
        let mut bench = Bench::module();
        bench.byte(1);
        let sent = bench.send(0, 2, &[]).unwrap();
        assert_eq!(sent, says(rx("nothing"), tx("due"), &[], &[]));
        let line = [&[6][..], &REQ_02].concat();
        assert_eq!(
            bench.bytes(&REQ_07[1..]),
            says(rx("frame"), tx("copy:1"), &line, &[0, 7])
        );
        // The copy waits now.
        assert_eq!(bench.bytes(&REQ_07), cancelled());
    }

    #[test]
    fn backing_off() {
        for single in [0x15, 0x18] {
            let mut bench = waiting();
            bench.byte(single);
            bench.quiet_ticks(99);
            let up = says(rx("frame"), tx(""), &[6], &[0, 7]);
            assert_eq!(bench.bytes(&REQ_07), up);
            let stray = says(rx("strayresponse"), tx(""), &[6], &[1, 2]);
            assert_eq!(bench.bytes(&RES_02), stray);
            let again = says(rx("nothing"), tx("copy:2"), &REQ_02, &[]);
            assert_eq!(bench.tick(), again);
            assert_eq!(bench.bytes(&REQ_07), cancelled());
        }
    }

    #[test]
    fn a_session_that_awaits_its_response() {
        let mut bench = Bench::module();
        bench.session(2, &[]).unwrap();
        bench.byte(6);
        let up = says(rx("frame"), tx(""), &[6], &[0, 7]);
        assert_eq!(bench.bytes(&REQ_07), up);
        let stray = says(rx("strayresponse"), tx(""), &[6], &[1, 7]);
        assert_eq!(bench.bytes(&RES_07), stray);
        bench.quiet_ticks(4_999);
        let ends = says(rx("frame"), tx("response:1"), &[6], &[1, 2]);
        assert_eq!(bench.bytes(&RES_02), ends);
    }

    #[test]
    fn lost_inside_that_very_frame() {
        // Lost one tick before the Checksum: it backs off, and is handed up.
        let mut bench = waiting_in(Mode::Spaced);
        bench.quiet_ticks(1_600);
        bench.bytes(&REQ_07[..4]);
        let lost = says(rx("nothing"), tx("backoff:100"), &[], &[]);
        assert_eq!(bench.tick(), lost);
        let up = says(rx("frame"), tx(""), &[6], &[0, 7]);
        assert_eq!(bench.byte(0xFB), up);
        // The back-off ends inside the frame too: a due copy follows.
        let mut bench = waiting_in(Mode::Spaced);
        bench.quiet_ticks(201);
        bench.bytes(&REQ_07[..4]);
        let said = bench.ticks(1_500);
        let due = says(rx("nothing"), tx("due"), &[], &[]);
        assert_eq!(said, [(1_601, lost), (1_701, due)]);
        let line = [&[6][..], &REQ_02].concat();
        assert_eq!(
            bench.byte(0xFB),
            says(rx("frame"), tx("copy:2"), &line, &[0, 7])
        );
        assert_eq!(bench.bytes(&RES_07), cancelled());
    }

    /// In the new mode there is no back-off: the copy is due at once.
    #[test]
    fn lost_inside_that_very_frame_and_due_at_once() {
        for begun in [101, 201, 1_600] {
            let mut bench = waiting();
            bench.quiet_ticks(begun);
            bench.bytes(&REQ_07[..4]);
            bench.quiet_ticks(1_600 - begun);
            let due = says(rx("nothing"), tx("due"), &[], &[]);
            assert_eq!(bench.tick(), due);
            let line = [&[6][..], &REQ_02].concat();
            assert_eq!(
                bench.byte(0xFB),
                says(rx("frame"), tx("copy:2"), &line, &[0, 7])
            );
            // The copy waits now.
            assert_eq!(bench.bytes(&RES_07), cancelled());
        }
    }

    #[test]
    fn failed_inside_that_very_frame() {
        // The tick of copy 4.
        for (mode, fourth) in [(Mode::Spaced, 8_103), (Mode::Sooner, 5_303)] {
            let mut bench = waiting_in(mode);
            bench.ticks(fourth);
            bench.quiet_ticks(1_600);
            bench.bytes(&RES_07[..4]);
            let failed = says(rx("nothing"), tx("failed:4 delivery"), &[], &[]);
            assert_eq!(bench.tick(), failed);
            let stray = says(rx("strayresponse"), tx(""), &[6], &[1, 7]);
            assert_eq!(bench.byte(0xFA), stray);
        }
    }
}

#[test]
fn the_state_is_judged_when_the_checksum_comes() {
    let due = [&[6][..], &REQ_02].concat();
    let taken = [
        (Mode::Spaced, says(rx("frame"), tx(""), &[6], &[0, 7])),
        (Mode::Sooner, says(rx("frame"), tx("copy:2"), &due, &[0, 7])),
    ];
    for (mode, up) in taken {
        for begun in [101, 1_000, 1_599, 1_600] {
            // On the last tick of the wait.
            let mut bench = waiting_in(mode);
            bench.quiet_ticks(begun);
            bench.bytes(&REQ_07[..4]);
            bench.quiet_ticks(1_600 - begun);
            assert_eq!(bench.byte(0xFB), cancelled());
            assert_eq!(bench.link.sender_state(), State::Waiting(1_600));
            // On the next it waits no more.
            let mut bench = waiting_in(mode);
            bench.quiet_ticks(begun);
            bench.bytes(&REQ_07[..4]);
            assert_eq!(bench.ticks(1_601 - begun).len(), 1);
            assert_eq!(bench.byte(0xFB), up);
        }
    }
}

#[test]
fn a_run_stops_behind_a_cancelled_frame() {
    let run = [&[0x55][..], &REQ_07, &RES_07, &[6]].concat();
    let mut bench = waiting();
    assert_eq!(bench.run(&run), (6, cancelled()));
    assert_eq!(bench.run(&run[6..]), (5, cancelled()));
    assert_eq!(bench.run(&run[11..]), (1, acked(1)));
    // Given whole it is one run.
    assert_eq!(waiting().run(&REQ_07), (5, cancelled()));
}

#[test]
fn a_restart_gives_a_fresh_stand_in() {
    let states: [fn(Mode) -> Bench; 4] = [
        |mode| Bench::of(choice(Role::Module, mode)),
        waiting_in,
        |mode| {
            let mut bench = waiting_in(mode);
            bench.byte(0x15);
            bench.bytes(&BAD_07);
            bench
        },
        |mode| {
            let mut bench = Bench::of(choice(Role::Module, mode));
            bench.session(2, &[]).unwrap();
            bench.bytes(&[6, 1, 9]);
            bench
        },
    ];
    let modes = [Mode::Sooner, Mode::Spaced];
    for (mode, state) in modes
        .into_iter()
        .flat_map(|mode| states.map(|state| (mode, state)))
    {
        let mut bench = state(mode);
        assert_eq!(bench.restart().line, [0x15]);
        assert_eq!(bench.link, Link::open_as(choice(Role::Module, mode)));
        assert_ne!(bench.link, Link::open_as(choice(Role::Host, mode)));
        let up = says(rx("frame"), tx(""), &[6], &[0, 7]);
        assert_eq!(bench.bytes(&REQ_07), up);
        bench.send(0, 2, &[]).unwrap();
        assert_eq!(bench.bytes(&REQ_07), cancelled());
        bench.restart();
        bench.restart();
        bench.send(0, 2, &[]).unwrap();
        assert_eq!(bench.bytes(&RES_07), cancelled());
    }
}

#[test]
fn what_a_restart_of_it_abandons() {
    let said = waiting().restart();
    assert_eq!(said, says(rx("nothing"), tx("abandoned"), &[0x15], &[]));
    let mut bench = Bench::module();
    bench.session(2, &[]).unwrap();
    bench.bytes(&REQ_07);
    let said = bench.restart();
    assert_eq!(
        said,
        says(rx("nothing"), tx("session-abandoned"), &[0x15], &[])
    );
}

#[test]
fn refusals_of_a_stand_in() {
    let mut bench = Bench::module();
    assert_eq!(bench.send(2, 7, &[0; 253]), Err(Refusal::Kind));
    assert_eq!(bench.send(1, 7, &[0; 253]), Err(Refusal::Long));
    assert_eq!(bench.session(7, &[0; 253]), Err(Refusal::Long));
    bench.send(1, 7, &[0; 252]).unwrap();
    assert_eq!(bench.send(2, 7, &[0; 253]), Err(Refusal::Busy));
    assert_eq!(bench.session(7, &[0; 253]), Err(Refusal::Busy));
    for (line, up) in [(257, 254), (258, 253), (0, 0)] {
        let (mut line, mut up) = (vec![0xE7; line], vec![0xE7; up]);
        let before = bench.link.clone();
        let link = &mut bench.link;
        let answers = [
            link.byte(6, &mut line, &mut up),
            link.bytes(&REQ_07, &mut line, &mut up)
                .map(|(_, said)| said),
            link.tick(&mut line, &mut up),
            link.send(2, 7, &[0; 253], &mut line, &mut up),
            link.session(7, &[0; 253], &mut line, &mut up),
            link.restart(&mut line, &mut up),
        ];
        assert!(answers.iter().all(|answer| *answer == Err(Refusal::Room)));
        assert_eq!(bench.link, before);
        assert!(line.iter().chain(&up).all(|&byte| byte == 0xE7));
    }
}

#[test]
fn opening_without_a_choice_is_the_host() {
    let host = |mode| Link::open_as(choice(Role::Host, mode));
    let module = |mode| Link::open_as(choice(Role::Module, mode));
    assert_eq!(Link::open(), host(Mode::Sooner));
    assert_ne!(Link::open(), module(Mode::Sooner));
    assert_ne!(Link::open(), module(Mode::Spaced));
}

#[test]
fn the_host_takes_every_frame_while_it_waits() {
    let host = || waits(choice(Role::Host, Mode::Sooner));
    for command in 0..=255 {
        let up = says(rx("frame"), tx(""), &[6], &[0, command]);
        assert_eq!(host().bytes(&framed(0, command, &[])), up);
        let stray = says(rx("strayresponse"), tx(""), &[6], &[1, command]);
        assert_eq!(host().bytes(&framed(1, command, &[])), stray);
    }
    let mut bench = host();
    bench.bytes(&BAD_07);
    bench.bytes(&REQ_07);
    assert_eq!(bench.link.bad_sums(), 0);
    bench.restart();
    bench.send(0, 2, &[]).unwrap();
    let up = says(rx("frame"), tx(""), &[6], &[0, 7]);
    assert_eq!(bench.bytes(&REQ_07), up);
}

/// Seeds and kinds of the scripts that both roles are given.
const PLAYED: [(u64, &str); 6] = [
    (1, "module"),
    (2, "module"),
    (3, "mixed"),
    (4, "coincidences"),
    (5, "wire"),
    (6, "modes"),
];

/// Both roles, given the same calls, differ nowhere but where the stand-in
/// cancels, and are alike again behind it; in both modes.
#[test]
fn the_roles_differ_in_this_rule_alone() {
    for mode in [Mode::Sooner, Mode::Spaced] {
        let (mut alike, mut cancels) = (0, 0);
        for (seed, name) in PLAYED {
            let text = script(seed, kind(name).unwrap(), 2_000);
            let (same, other) = compared(mode, &text);
            alike += same;
            cancels += other;
        }
        assert!(alike > 100_000 && cancels > 200, "{alike} {cancels}");
    }
}

/// Both roles, opened in this mode, and in others where the script opens one.
fn both_roles(mode: Mode) -> [Bench; 2] {
    [Role::Host, Role::Module].map(|role| Bench::of(choice(role, mode)))
}

/// Calls in which the two were alike, and those in which the stand-in
/// cancelled.
fn compared(mode: Mode, text: &str) -> (u32, u32) {
    let mut benches = both_roles(mode);
    let (mut alike, mut cancels) = (0, 0);
    let mut store = Vec::new();
    for line in text.split('\n') {
        let (call, number) = match understand(line.as_bytes(), &mut store) {
            Some(Call::Link(_, call)) => (call, 1),
            Some(Call::Ticks(_, number)) => (LinkCall::Tick, number),
            Some(Call::Open(Choice { mode, .. })) => {
                benches = both_roles(mode);
                continue;
            }
            _ => continue,
        };
        for _ in 0..number {
            if alike_in(&mut benches, call) {
                alike += 1;
            } else {
                cancels += 1;
            }
        }
    }
    (alike, cancels)
}

/// Whether a call said the same on both; if not, the stand-in cancelled.
fn alike_in(benches: &mut [Bench; 2], call: LinkCall<'_>) -> bool {
    let [host, module] = benches;
    let waited = matches!(module.link.sender_state(), State::Waiting(_));
    let (one, other) = (said(host, call), said(module, call));
    if one == other {
        return true;
    }
    let ((taken, one), (also, other)) = (one.unwrap(), other.unwrap());
    assert_eq!(taken, also);
    assert!(waited);
    assert_eq!(other, cancelled());
    assert_eq!(one.line, [6]);
    let frame = matches!(
        one.report.reception,
        ReceptionPart::Frame | ReceptionPart::StrayResponse
    );
    assert!(frame && one.up.len() >= 2);
    assert_eq!(host.link.sender_state(), module.link.sender_state());
    assert_eq!(host.link.session_state(), module.link.session_state());
    assert_eq!(host.link.bad_sums(), module.link.bad_sums());
    false
}

/// What a call on the bench said, and the bytes it took.
fn said(bench: &mut Bench, call: LinkCall<'_>) -> Result<(usize, Said), Refusal> {
    match call {
        LinkCall::Send {
            kind,
            command,
            parameters,
        } => Ok((0, bench.send(kind, command, parameters)?)),
        LinkCall::Session {
            command,
            parameters,
        } => Ok((0, bench.session(command, parameters)?)),
        LinkCall::Byte(byte) => Ok((1, bench.byte(byte))),
        LinkCall::Bytes(run) => Ok(bench.run(run)),
        LinkCall::Tick => Ok((0, bench.tick())),
        LinkCall::Restart => Ok((0, bench.restart())),
    }
}
