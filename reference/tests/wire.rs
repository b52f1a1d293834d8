//! Request P2: a copy waits 1,600 ticks behind the time that its frame takes on
//! the wire, and nothing else moves. In both modes of request P4.

mod common;

use common::*;
use reference::choice::{Choice, Mode, Role};
use reference::link::Link;
use reference::report::SendingPart;
use reference::sending::wire_ticks;

/// The last size of each time on the wire, by hand: 288/25 is 11.52, so 1 tick
/// is enough for 11 bytes, 2 for 23 (23.04), 3 for 34 (34.56), up to 22 for 253
/// (253.44).
const LAST: [usize; 22] = [
    11, 23, 34, 46, 57, 69, 80, 92, 103, 115, 126, 138, 149, 161, 172, 184, 195, 207, 218, 230,
    241, 253,
];

/// What is said when a copy is lost or goes out.
fn said(words: &str, line: &[u8]) -> Said {
    says(rx("nothing"), tx(words), line, &[])
}

/// A link that waits for the ACK of a frame of so many bytes, and the frame.
fn waiting(choice: Choice, size: usize) -> (Bench, Vec<u8>) {
    let mut bench = Bench::of(choice);
    let parameters = vec![0x06; size - 5];
    let frame = framed(0, 7, &parameters);
    assert_eq!(frame.len(), size);
    let sent = bench.send(0, 7, &parameters).unwrap();
    assert_eq!(sent, said("copy:1", &frame));
    (bench, frame)
}

/// The back-off after the loss by time of a copy; none after copy 4.
fn back_off(mode: Mode, copies: usize) -> Option<u32> {
    let back_offs = match mode {
        Mode::Spaced => [100, 1_100, 2_100],
        Mode::Sooner => [0, 0, 500],
    };
    back_offs.get(copies - 1).copied()
}

/// From a copy just put out: an ACK counts after 1,599 + w ticks, and the next
/// tick loses the copy. Where that begins a back-off or ends the send, an ACK
/// behind it is stray; else it is to the next copy, which is out.
fn waits(bench: &mut Bench, frame: &[u8], copies: usize) {
    let size = frame.len();
    bench.quiet_ticks(1_599 + wire(size));
    let acked = said(&format!("acked:{copies}"), &[]);
    assert_eq!(bench.other().byte(6), acked);
    let next = format!("copy:{}", copies + 1);
    let (lost, then) = match back_off(bench.link.choice().mode, copies) {
        Some(0) => (said(&next, frame), format!("acked:{}", copies + 1)),
        Some(ticks) => (said(&format!("backoff:{ticks}"), &[]), "stray".to_string()),
        None => (said("failed:4 delivery", &[]), "stray".to_string()),
    };
    assert_eq!(bench.tick(), lost, "{size} bytes, copy {copies}");
    assert_eq!(bench.other().byte(6), said(&then, &[]));
}

/// The same, and on to the next copy, put out.
fn waits_and_backs_off(bench: &mut Bench, frame: &[u8], copies: usize) {
    waits(bench, frame, copies);
    let ticks = back_off(bench.link.choice().mode, copies).unwrap();
    if ticks > 0 {
        bench.quiet_ticks(ticks - 1);
        let copy = format!("copy:{}", copies + 1);
        assert_eq!(bench.tick(), said(&copy, frame));
    }
}

#[test]
fn the_printed_times() {
    for (size, ticks) in [
        (0, 0),
        (1, 1),
        (5, 1),
        (11, 1),
        (12, 2),
        (242, 22),
        (257, 23),
    ] {
        assert_eq!(wire_ticks(size), ticks, "{size}");
    }
    assert!((1..=11).all(|size| wire_ticks(size) == 1));
    assert!((242..=253).all(|size| wire_ticks(size) == 22));
    assert!((254..=257).all(|size| wire_ticks(size) == 23));
}

#[test]
fn every_time_by_hand() {
    assert_eq!(wire_ticks(0), 0);
    let mut size = 1;
    for (before, last) in LAST.into_iter().chain([257]).enumerate() {
        while size <= last {
            assert_eq!(usize::from(wire_ticks(size)), before + 1, "{size}");
            size += 1;
        }
    }
    assert_eq!(size, 258);
}

#[test]
fn the_time_is_25_288ths_of_the_size_and_less_than_a_tick_more() {
    for size in 0..=257 {
        let ticks = usize::from(wire_ticks(size));
        assert!(25 * size <= 288 * ticks, "{size}");
        assert!(288 * ticks < 25 * size + 288, "{size}");
        assert_eq!(ticks, wire(size) as usize);
    }
}

#[test]
fn the_constant_stays_1600() {
    assert_eq!(Link::ACK_TICKS, 1_600);
    for choice in CHOICES {
        let (bench, _) = waiting(choice, 5);
        assert_eq!(bench.link.ack_ticks(), 1_601);
        let (bench, _) = waiting(choice, 257);
        assert_eq!(bench.link.ack_ticks(), 1_623);
    }
}

#[test]
fn a_copy_of_every_size_is_lost_behind_its_time_on_the_wire() {
    for choice in CHOICES {
        let second = match choice.mode {
            Mode::Spaced => 1_700,
            Mode::Sooner => 1_600,
        };
        for size in 5..=257 {
            let (mut bench, frame) = waiting(choice, size);
            waits_and_backs_off(&mut bench, &frame, 1);
            assert_eq!(bench.ticks, second + wire(size));
        }
    }
}

#[test]
fn each_of_the_four_copies_waits_the_same() {
    for choice in CHOICES {
        for size in [5, 11, 12, 23, 24, 103, 104, 241, 242, 253, 254, 257] {
            let (mut bench, frame) = waiting(choice, size);
            for copies in 1..=3 {
                waits_and_backs_off(&mut bench, &frame, copies);
            }
            waits(&mut bench, &frame, 4);
        }
    }
}

/// Frames received, the word for their end and the byte that answers them.
#[rustfmt::skip]
const ANSWERED: [(&[u8], &str, u8); 4] = [
    (&REQ_07, "frame", 0x06),
    (&RES_07, "strayresponse", 0x06),
    (&RESERVED_07, "reserved", 0x06),
    (&BAD_07, "badsum", 0x15),
];

/// The rest of a received frame, behind whose answer the copy goes out.
fn behind(bench: &mut Bench, answered: (&[u8], &str, u8), copies: usize, frame: &[u8]) {
    let (bytes, word, answer) = answered;
    let end = bench.bytes(&bytes[1..]);
    assert_eq!(end.report.reception, rx(word));
    assert_eq!(end.report.sending, SendingPart::Copy(copies as u8));
    assert_eq!(end.line, [&[answer], frame].concat());
}

/// Of 11, 23 .. 253 bytes a byte more would take a tick more.
#[test]
fn a_copy_behind_a_06_or_15_waits_by_its_own_bytes_alone() {
    for choice in CHOICES {
        for answered in ANSWERED {
            for size in [5, 257].into_iter().chain(LAST) {
                let mut bench = Bench::of(choice);
                bench.byte(1);
                let parameters = vec![0x15; size - 5];
                let frame = framed(1, 2, &parameters);
                let due = bench.send(1, 2, &parameters).unwrap();
                assert_eq!(due, said("due", &[]));
                behind(&mut bench, answered, 1, &frame);
                waits(&mut bench, &frame, 1);
            }
        }
    }
}

#[test]
fn so_does_a_later_copy_behind_one() {
    for choice in CHOICES {
        for (size, answered) in [11, 23, 241, 253].into_iter().zip(ANSWERED) {
            let (mut bench, frame) = waiting(choice, size);
            for copies in 1..=3 {
                // The last tick of the back-off, or of the wait where there is
                // no back-off, falls inside the frame.
                match back_off(choice.mode, copies).unwrap() {
                    0 => bench.quiet_ticks(1_599 + wire(size)),
                    ticks => {
                        waits(&mut bench, &frame, copies);
                        bench.quiet_ticks(ticks - 1);
                    }
                }
                bench.byte(1);
                assert_eq!(bench.tick(), said("due", &[]));
                behind(&mut bench, answered, copies + 1, &frame);
            }
            waits(&mut bench, &frame, 4);
        }
    }
}

#[test]
fn a_copy_put_out_by_an_abort_or_a_bad_length_waits_the_same() {
    for choice in CHOICES {
        for size in [5, 11, 12, 253, 254, 257] {
            let parameters = vec![0x18; size - 5];
            let frame = framed(0, 2, &parameters);
            let mut bench = Bench::of(choice);
            bench.byte(1);
            bench.send(0, 2, &parameters).unwrap();
            bench.quiet_ticks(1_500);
            let abort = says(rx("abort"), tx("copy:1"), &frame, &[]);
            assert_eq!(bench.tick(), abort);
            waits(&mut bench, &frame, 1);
            let mut bench = Bench::of(choice);
            bench.byte(1);
            bench.send(0, 2, &parameters).unwrap();
            let bad = says(rx("badlen"), tx("copy:1"), &frame, &[]);
            assert_eq!(bench.byte(2), bad);
            waits(&mut bench, &frame, 1);
        }
    }
}

/// Size of a frame, and the ticks of copies 2, 3 and 4 and of the failure.
type Silence = (usize, [u32; 4]);

/// With w for 5, 12, 104 and 257 bytes of 1, 2, 10 and 23, in the old mode.
const SILENCE: [Silence; 4] = [
    (5, [1_701, 4_402, 8_103, 9_704]),
    (12, [1_702, 4_404, 8_106, 9_708]),
    (104, [1_710, 4_420, 8_130, 9_740]),
    (257, [1_723, 4_446, 8_169, 9_792]),
];

/// The same in the new mode.
const SILENCE_SOONER: [Silence; 4] = [
    (5, [1_601, 3_202, 5_303, 6_904]),
    (12, [1_602, 3_204, 5_306, 6_908]),
    (104, [1_610, 3_220, 5_330, 6_940]),
    (257, [1_623, 3_246, 5_369, 6_992]),
];

/// A silent line of both ends, for a send and for a session.
fn silent(mode: Mode, (size, at): Silence) {
    for (role, session) in [
        (Role::Host, false),
        (Role::Host, true),
        (Role::Module, false),
        (Role::Module, true),
    ] {
        let mut bench = Bench::of(choice(role, mode));
        let parameters = vec![9; size - 5];
        let frame = framed(0, 7, &parameters);
        let first = if session {
            bench.session(7, &parameters)
        } else {
            bench.send(0, 7, &parameters)
        };
        assert_eq!(first, Ok(said("copy:1", &frame)));
        let failed = ["failed:4 delivery", "failed:4 notsent:4 delivery"];
        let told: Vec<(u32, Said)> = bench
            .ticks(20_000)
            .into_iter()
            .filter(|(_, said)| !matches!(said.report.sending, SendingPart::BackingOff(_)))
            .collect();
        let expected = [
            (at[0], said("copy:2", &frame)),
            (at[1], said("copy:3", &frame)),
            (at[2], said("copy:4", &frame)),
            (at[3], said(failed[usize::from(session)], &[])),
        ];
        assert_eq!(told, expected);
    }
}

#[test]
fn silent_lines() {
    for silence in SILENCE {
        silent(Mode::Spaced, silence);
    }
    for silence in SILENCE_SOONER {
        silent(Mode::Sooner, silence);
    }
}

#[test]
fn back_offs_do_not_go_by_the_size() {
    for choice in CHOICES {
        for single in [0x15, 0x18] {
            let (mut bench, frame) = waiting(choice, 257);
            for (before, at) in [100, 1_200, 3_300].into_iter().enumerate() {
                bench.byte(single);
                bench.quiet_ticks(at - bench.ticks - 1);
                let copy = format!("copy:{}", before + 2);
                assert_eq!(bench.tick(), said(&copy, &frame));
                assert_eq!(bench.ticks, at);
            }
            assert_eq!(bench.byte(single), said("failed:4 delivery", &[]));
        }
    }
}

/// Nor does what is left of one when the 1,600 ticks waited are subtracted.
#[test]
fn the_back_off_left_after_a_loss_does_not_go_by_the_size() {
    for role in [Role::Host, Role::Module] {
        for size in [5, 12, 104, 257] {
            let (mut bench, frame) = waiting(choice(role, Mode::Sooner), size);
            waits_and_backs_off(&mut bench, &frame, 1);
            waits_and_backs_off(&mut bench, &frame, 2);
            waits(&mut bench, &frame, 3);
            let lost = bench.ticks;
            assert_eq!(lost, 3 * (1_600 + wire(size)));
            bench.quiet_ticks(499);
            assert_eq!(bench.tick(), said("copy:4", &frame));
            assert_eq!(bench.ticks, lost + 500);
        }
    }
}

#[test]
fn a_session_waits_5000_from_its_ack_however_late() {
    for choice in CHOICES {
        for (size, last) in [(5, 1_600), (12, 1_601), (257, 1_622)] {
            let mut bench = Bench::of(choice);
            bench.session(7, &vec![1; size - 5]).unwrap();
            bench.quiet_ticks(last);
            assert_eq!(bench.byte(6), said("acked:1 waiting", &[]));
            bench.quiet_ticks(4_999);
            let mut other = bench.other();
            let response = says(rx("frame"), tx("response:1"), &[6], &[1, 7]);
            assert_eq!(other.bytes(&RES_07), response);
            assert_eq!(bench.tick(), said("noresponse:1", &[]));
            assert_eq!(bench.ticks, last + 5_000);
        }
    }
}

#[test]
fn the_frame_clock_does_not_go_by_the_size() {
    let frame = framed(0, 7, &[0x55; 252]);
    let mut bench = Bench::new();
    bench.bytes(&frame[..256]);
    bench.quiet_ticks(1_500);
    let mut other = bench.other();
    let body = &frame[2..256];
    assert_eq!(
        other.byte(frame[256]),
        says(rx("frame"), tx(""), &[6], body)
    );
    assert_eq!(bench.tick(), says(rx("abort"), tx(""), &[], &[]));
}

/// Not by the one before it, nor by a longer one that was refused.
#[test]
fn the_wait_goes_by_the_open_frame() {
    for choice in CHOICES {
        for (before, size) in [(257, 5), (5, 257), (12, 11), (11, 12)] {
            let parameters = vec![0; size - 5];
            let (mut bench, _) = waiting(choice, before);
            assert_eq!(bench.byte(6), said("acked:1", &[]));
            bench.send(0, 7, &parameters).unwrap();
            assert!(bench.send(0, 7, &[0; 100]).is_err());
            waits(&mut bench, &framed(0, 7, &parameters), 1);
            let (mut bench, _) = waiting(choice, before);
            bench.restart();
            assert!(bench.send(2, 7, &[0; 100]).is_err());
            assert!(bench.session(7, &[0; 253]).is_err());
            bench.send(1, 7, &parameters).unwrap();
            waits(&mut bench, &framed(1, 7, &parameters), 1);
        }
    }
}

#[test]
fn a_stand_in_cancels_to_the_last_tick_of_the_wait() {
    let cancelled = says(rx("cancelled"), tx(""), &[0x18], &[]);
    for size in 5..=257 {
        let (mut bench, _) = waiting(choice(Role::Module, Mode::Spaced), size);
        bench.quiet_ticks(1_599 + wire(size));
        assert_eq!(bench.bytes(&REQ_07), cancelled);
        assert_eq!(bench.tick(), said("backoff:100", &[]));
        let up = says(rx("frame"), tx(""), &[6], &[0, 7]);
        assert_eq!(bench.bytes(&REQ_07), up);
    }
}

/// In the new mode the next copy waits on that very tick, and cancels again;
/// inside a frame it is due, and the frame is taken.
#[test]
fn a_stand_in_in_the_new_mode_cancels_on_the_tick_of_a_loss_unless_inside_a_frame() {
    let cancelled = says(rx("cancelled"), tx(""), &[0x18], &[]);
    for size in 5..=257 {
        let (mut bench, frame) = waiting(choice(Role::Module, Mode::Sooner), size);
        bench.quiet_ticks(1_599 + wire(size));
        assert_eq!(bench.bytes(&REQ_07), cancelled);
        let mut inside = bench.other();
        assert_eq!(bench.tick(), said("copy:2", &frame));
        assert_eq!(bench.bytes(&REQ_07), cancelled);
        inside.bytes(&REQ_07[..4]);
        assert_eq!(inside.tick(), said("due", &[]));
        let line = [&[6][..], &frame].concat();
        let up = says(rx("frame"), tx("copy:2"), &line, &[0, 7]);
        assert_eq!(inside.byte(0xFB), up);
    }
}
