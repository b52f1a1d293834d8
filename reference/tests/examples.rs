//! Every example of document 01, section 10, and both sides of its edges.

mod common;

use common::*;
use reference::bodies::{nodes, set_timeouts, Milliseconds, TenMillisecondTicks};
use reference::choice::{Mode, Role};
use reference::frame::{build, read};
use reference::refusal::Refusal;

fn built(kind: u8, command: u8, parameters: &[u8]) -> Result<Vec<u8>, Refusal> {
    let mut frame = [0xE7; 300];
    let size = build(kind, command, parameters, &mut frame)?;
    assert!(frame[size..].iter().all(|&byte| byte == 0xE7));
    Ok(frame[..size].to_vec())
}

#[test]
fn request_07_without_parameters() {
    assert_eq!(built(0, 7, &[]), Ok(vec![0x01, 0x03, 0x00, 0x07, 0xFB]));
}

#[test]
fn request_06_with_two_times() {
    let frame = [0x01, 0x05, 0x00, 0x06, 0x96, 0x0F, 0x65];
    assert_eq!(built(0, 6, &[0x96, 0x0F]), Ok(frame.to_vec()));
    let mut lent = [0; 7];
    let size = set_timeouts(Milliseconds(1_500), Milliseconds(150), &mut lent);
    assert_eq!((size, lent), (Ok(7), frame));
}

#[test]
fn four_frames_refused() {
    assert_eq!(read(&[0x01, 0x03, 0x00, 0x07, 0xFA]), Err(Refusal::Sum));
    assert_eq!(read(&[0x01, 0x02, 0x00, 0xFD]), Err(Refusal::Length));
    assert_eq!(read(&[0x01, 0x03, 0x00, 0x07]), Err(Refusal::Short));
    assert_eq!(read(&[0x01, 0x03, 0x02, 0x07, 0xF9]), Err(Refusal::Kind));
}

#[test]
fn most_parameters() {
    let frame = built(0, 7, &[0x55; 252]).unwrap();
    assert_eq!(frame, framed(0, 7, &[0x55; 252]));
    assert_eq!(frame.len(), 257);
    assert_eq!(frame[1], 255);
    assert_eq!(built(0, 7, &[0x55; 253]), Err(Refusal::Long));
}

#[test]
fn last_byte_after_1500_ticks_counts() {
    let mut bench = Bench::new();
    bench.bytes(&REQ_07[..4]);
    bench.quiet_ticks(1_500);
    assert_eq!(bench.byte(0xFB), says(rx("frame"), tx(""), &[6], &[0, 7]));
}

#[test]
fn tick_1501_aborts() {
    let mut bench = Bench::new();
    bench.bytes(&REQ_07[..4]);
    bench.quiet_ticks(1_500);
    assert_eq!(bench.tick(), says(rx("abort"), tx(""), &[], &[]));
    assert_eq!(bench.byte(0xFB), says(rx("skipped"), tx(""), &[], &[]));
}

#[test]
fn ack_after_1600_ticks() {
    for mode in [Mode::Sooner, Mode::Spaced] {
        let mut bench = Bench::of(choice(Role::Host, mode));
        bench.send(0, 7, &[]).unwrap();
        bench.quiet_ticks(1_600);
        assert_eq!(bench.byte(6), says(rx("nothing"), tx("acked:1"), &[], &[]));
    }
}

#[test]
fn ack_after_1601_ticks_is_stray() {
    let mut bench = Bench::spaced();
    bench.send(0, 7, &[]).unwrap();
    bench.quiet_ticks(1_600);
    assert_eq!(
        bench.tick(),
        says(rx("nothing"), tx("backoff:100"), &[], &[])
    );
    assert_eq!(bench.byte(6), says(rx("nothing"), tx("stray"), &[], &[]));
    bench.quiet_ticks(99);
    assert_eq!(
        bench.tick(),
        says(rx("nothing"), tx("copy:2"), &REQ_07, &[])
    );
    assert_eq!(bench.ticks, 1_701);
}

/// In the new mode copy 2 is out by then, and the ACK is to it.
#[test]
fn ack_after_1601_ticks_is_to_copy_2_in_the_new_mode() {
    let mut bench = Bench::new();
    bench.send(0, 7, &[]).unwrap();
    bench.quiet_ticks(1_600);
    assert_eq!(
        bench.tick(),
        says(rx("nothing"), tx("copy:2"), &REQ_07, &[])
    );
    assert_eq!(bench.ticks, 1_601);
    assert_eq!(bench.byte(6), says(rx("nothing"), tx("acked:2"), &[], &[]));
}

/// Document 01's case, which names the old mode.
#[test]
fn silence() {
    let mut bench = Bench::spaced();
    let first = bench.send(0, 7, &[]).unwrap();
    assert_eq!(first, says(rx("nothing"), tx("copy:1"), &REQ_07, &[]));
    let nothing = rx("nothing");
    assert_eq!(
        bench.ticks(20_000),
        vec![
            (1_601, says(nothing, tx("backoff:100"), &[], &[])),
            (1_701, says(nothing, tx("copy:2"), &REQ_07, &[])),
            (3_302, says(nothing, tx("backoff:1100"), &[], &[])),
            (4_402, says(nothing, tx("copy:3"), &REQ_07, &[])),
            (6_003, says(nothing, tx("backoff:2100"), &[], &[])),
            (8_103, says(nothing, tx("copy:4"), &REQ_07, &[])),
            (9_704, says(nothing, tx("failed:4 delivery"), &[], &[])),
        ]
    );
}

#[test]
fn silence_in_the_new_mode() {
    let mut bench = Bench::new();
    let first = bench.send(0, 7, &[]).unwrap();
    assert_eq!(first, says(rx("nothing"), tx("copy:1"), &REQ_07, &[]));
    let nothing = rx("nothing");
    assert_eq!(
        bench.ticks(20_000),
        vec![
            (1_601, says(nothing, tx("copy:2"), &REQ_07, &[])),
            (3_202, says(nothing, tx("copy:3"), &REQ_07, &[])),
            (4_803, says(nothing, tx("backoff:500"), &[], &[])),
            (5_303, says(nothing, tx("copy:4"), &REQ_07, &[])),
            (6_904, says(nothing, tx("failed:4 delivery"), &[], &[])),
        ]
    );
}

/// In both modes.
#[test]
fn nak_straight_after_every_copy() {
    for (single, mode) in [
        (0x15, Mode::Sooner),
        (0x15, Mode::Spaced),
        (0x18, Mode::Sooner),
        (0x18, Mode::Spaced),
    ] {
        let mut bench = Bench::of(choice(Role::Host, mode));
        bench.send(0, 7, &[]).unwrap();
        for (number, (back_off, at)) in [(100, 100), (1_100, 1_200), (2_100, 3_300)]
            .into_iter()
            .enumerate()
        {
            let words = format!("backoff:{back_off}");
            assert_eq!(
                bench.byte(single),
                says(rx("nothing"), tx(&words), &[], &[])
            );
            bench.quiet_ticks(back_off - 1);
            let words = format!("copy:{}", number + 2);
            assert_eq!(bench.tick(), says(rx("nothing"), tx(&words), &REQ_07, &[]));
            assert_eq!(bench.ticks, at);
        }
        assert_eq!(
            bench.byte(single),
            says(rx("nothing"), tx("failed:4 delivery"), &[], &[])
        );
        assert_eq!(bench.ticks, 3_300);
    }
}

#[test]
fn send_inside_a_frame_that_never_ends() {
    let mut bench = Bench::new();
    assert!(bench.byte(1).nothing());
    let due = bench.send(0, 7, &[]).unwrap();
    assert_eq!(due, says(rx("nothing"), tx("due"), &[], &[]));
    bench.quiet_ticks(1_500);
    assert_eq!(bench.tick(), says(rx("abort"), tx("copy:1"), &REQ_07, &[]));
    assert_eq!(bench.ticks, 1_501);
}

#[test]
fn three_bad_sums() {
    let mut bench = Bench::new();
    let bad = says(rx("badsum"), tx(""), &[0x15], &[]);
    assert_eq!(bench.bytes(&BAD_07), bad);
    assert_eq!(bench.bytes(&BAD_07), bad);
    let third = says(rx("badsum"), tx("sums"), &[0x15], &[]);
    assert_eq!(bench.bytes(&BAD_07), third);
    // The run is 0 again: the next reset comes on the sixth.
    assert_eq!(bench.bytes(&BAD_07), bad);
    assert_eq!(bench.bytes(&BAD_07), bad);
    assert_eq!(bench.bytes(&BAD_07), third);
}

#[test]
fn two_bad_sums_a_good_one_and_a_bad_one() {
    let mut bench = Bench::new();
    let bad = says(rx("badsum"), tx(""), &[0x15], &[]);
    assert_eq!(bench.bytes(&BAD_07), bad);
    assert_eq!(bench.bytes(&BAD_07), bad);
    assert_eq!(
        bench.bytes(&REQ_07),
        says(rx("frame"), tx(""), &[6], &[0, 7])
    );
    assert_eq!(bench.bytes(&BAD_07), bad);
    assert_eq!(bench.bytes(&BAD_07), bad);
}

#[test]
fn first_mask_byte_05() {
    let mut body = vec![1, 2, 5, 0, 29, 0x05];
    body.extend([0; 28]);
    body.extend([5, 0]);
    let mut list = [0xE7; 232];
    let answer = nodes(&body, &mut list).unwrap();
    assert_eq!(answer.count, 2);
    assert_eq!(list[..3], [1, 3, 0xE7]);
}

#[test]
fn times_in_and_out_of_range() {
    let ticks = |time| TenMillisecondTicks::from_milliseconds(Milliseconds(time));
    assert_eq!(ticks(2_550), Ok(TenMillisecondTicks(255)));
    assert_eq!(ticks(2_560), Err(Refusal::Range));
    assert_eq!(ticks(1_505), Err(Refusal::Range));
}
