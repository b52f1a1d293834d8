//! The errors that document 01, section 11, wants shut out.

mod common;

use common::*;
use reference::frame::read;

#[test]
fn length_counts_itself() {
    // One parameter: Length 4, six bytes in all.
    let frame = [0x01, 0x04, 0x00, 0x07, 0xAA, 0x56];
    assert_eq!(framed(0, 7, &[0xAA]), frame);
    assert_eq!(read(&frame).unwrap().parameters, [0xAA]);
    let mut bench = Bench::new();
    let (taken, said) = bench.run(&[0x01, 0x04, 0x00, 0x07, 0xAA, 0x56, 0x06]);
    assert_eq!(taken, 6);
    assert_eq!(said, says(rx("frame"), tx(""), &[6], &[0, 7, 0xAA]));
    let sent = Bench::new().send(0, 7, &[0xAA]).unwrap();
    assert_eq!(sent.line, frame);
}

#[test]
fn a_06_inside_a_body_is_not_the_awaited_ack() {
    for single in [0x06, 0x15, 0x18, 0x01] {
        let mut bench = Bench::new();
        bench.send(0, 7, &[]).unwrap();
        // The special byte stands for Command and for both parameters.
        let frame = framed(0, single, &[single, single]);
        for &byte in &frame[..frame.len() - 1] {
            assert!(bench.byte(byte).nothing());
        }
        let body = [0, single, single, single];
        let said = bench.byte(frame[frame.len() - 1]);
        assert_eq!(said, says(rx("frame"), tx(""), &[6], &body));
        assert_eq!(bench.byte(6), says(rx("nothing"), tx("acked:1"), &[], &[]));
    }
}

#[test]
fn a_length_and_a_checksum_of_06_are_no_ack_either() {
    let mut bench = Bench::new();
    bench.send(0, 7, &[]).unwrap();
    // Length 06; the last parameter makes the checksum 06.
    let last = 0xFF ^ 0x06 ^ 0x07 ^ 0x06;
    let frame = framed(0, 7, &[0, 0, last]);
    assert_eq!((frame[1], frame[7]), (0x06, 0x06));
    let said = bench.bytes(&frame);
    assert_eq!(said, says(rx("frame"), tx(""), &[6], &[0, 7, 0, 0, last]));
    assert_eq!(bench.byte(6), says(rx("nothing"), tx("acked:1"), &[], &[]));
}

#[test]
fn bytes_do_not_start_the_frame_clock_again() {
    // A byte on every hundredth tick: still aborted on tick 1,501.
    let mut bench = Bench::new();
    bench.bytes(&[1, 255, 0, 7]);
    for _ in 0..15 {
        bench.quiet_ticks(100);
        assert!(bench.byte(1).nothing());
    }
    assert_eq!(bench.tick(), says(rx("abort"), tx(""), &[], &[]));
    assert_eq!(bench.ticks, 1_501);
}

#[test]
fn an_aborted_frame_is_not_answered() {
    for bytes in [&[1][..], &[1, 3], &[1, 3, 0], &REQ_07[..4], &BAD_07[..4]] {
        let mut bench = Bench::new();
        bench.bytes(bytes);
        let all = bench.ticks(4_000);
        assert_eq!(all, vec![(1_501, says(rx("abort"), tx(""), &[], &[]))]);
    }
}

#[test]
fn a_copy_due_inside_a_frame_is_not_dropped() {
    // Copy 1 by a send inside a frame, copy 2 by a back-off's end inside one.
    let mut bench = Bench::new();
    bench.bytes(&REQ_07[..2]);
    bench.send(0, 2, &[]).unwrap();
    bench.quiet_ticks(500);
    let copy = framed(0, 2, &[]);
    let answered = [&[0x06][..], &copy].concat();
    let said = bench.bytes(&REQ_07[2..]);
    assert_eq!(said, says(rx("frame"), tx("copy:1"), &answered, &[0, 7]));
    bench.byte(0x15);
    bench.quiet_ticks(50);
    bench.bytes(&REQ_07[..2]);
    bench.quiet_ticks(49);
    assert_eq!(bench.tick(), says(rx("nothing"), tx("due"), &[], &[]));
    bench.quiet_ticks(700);
    let said = bench.bytes(&REQ_07[2..]);
    assert_eq!(said, says(rx("frame"), tx("copy:2"), &answered, &[0, 7]));
}
