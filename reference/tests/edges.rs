//! Reception, sending, session and report (document 01, sections 4 to 7), both
//! sides of each edge.

mod common;

use common::*;
use reference::choice::{Mode, Role};
use reference::link::Link;
use reference::refusal::Refusal;

fn nothing() -> Said {
    says(rx("nothing"), tx(""), &[], &[])
}

/// A link that waits for the ACK of REQ 07.
fn waiting() -> Bench {
    let mut bench = Bench::new();
    bench.send(0, 7, &[]).unwrap();
    bench
}

/// The same in the old mode.
fn waiting_spaced() -> Bench {
    let mut bench = Bench::spaced();
    bench.send(0, 7, &[]).unwrap();
    bench
}

/// A link whose session of command 07 awaits its response.
fn awaiting() -> Bench {
    let mut bench = Bench::new();
    bench.session(7, &[]).unwrap();
    bench.byte(6);
    bench
}

#[test]
fn while_hunting_each_byte_has_its_meaning() {
    for byte in 0..=255 {
        let expected = match byte {
            0x01 => nothing(),
            0x06 | 0x15 | 0x18 => says(rx("nothing"), tx("stray"), &[], &[]),
            _ => says(rx("skipped"), tx(""), &[], &[]),
        };
        assert_eq!(Bench::new().byte(byte), expected, "{byte:02X}");
    }
}

#[test]
fn lengths_0_to_2_are_bad_and_3_is_not() {
    for length in 0..3 {
        let mut bench = Bench::new();
        bench.byte(1);
        assert_eq!(bench.byte(length), says(rx("badlen"), tx(""), &[], &[]));
        // Hunting again: the next frame is heard whole.
        assert_eq!(
            bench.bytes(&REQ_07),
            says(rx("frame"), tx(""), &[6], &[0, 7])
        );
    }
    let mut bench = Bench::new();
    bench.byte(1);
    assert_eq!(bench.byte(3), nothing());
    assert_eq!(bench.byte(0), nothing());
    assert_eq!(bench.byte(7), nothing());
    assert_eq!(bench.byte(0xFB), says(rx("frame"), tx(""), &[6], &[0, 7]));
}

#[test]
fn the_longest_frame_is_handed_up_whole() {
    let parameters: Vec<u8> = (0..252).collect();
    let frame = framed(0, 0x13, &parameters);
    let mut body = vec![0, 0x13];
    body.extend(&parameters);
    let mut bench = Bench::new();
    let (taken, said) = bench.run(&frame);
    assert_eq!(taken, 257);
    assert_eq!(said, says(rx("frame"), tx(""), &[6], &body));
}

#[test]
fn types_00_and_01_are_handed_up_and_all_others_are_reserved() {
    for kind in 0..=255 {
        let expected = match kind {
            0 => says(rx("frame"), tx(""), &[6], &[0, 7, 9]),
            1 => says(rx("strayresponse"), tx(""), &[6], &[1, 7, 9]),
            _ => says(rx("reserved"), tx(""), &[6], &[]),
        };
        assert_eq!(Bench::new().bytes(&framed(kind, 7, &[9])), expected);
    }
}

#[test]
fn every_wrong_checksum_is_answered_with_15() {
    for sum in (0..=255).filter(|&sum| sum != 0xFB) {
        let mut bench = Bench::new();
        let said = bench.bytes(&[1, 3, 0, 7, sum]);
        assert_eq!(said, says(rx("badsum"), tx(""), &[0x15], &[]));
    }
}

#[test]
fn a_bad_sum_of_a_reserved_type_is_a_bad_sum() {
    let said = Bench::new().bytes(&[1, 3, 2, 7, 0xF8]);
    assert_eq!(said, says(rx("badsum"), tx(""), &[0x15], &[]));
}

#[test]
fn only_a_right_checksum_or_a_restart_ends_the_run_of_bad_sums() {
    let between: [(&[u8], bool); 7] = [
        (&REQ_07, true),
        (&RES_07, true),
        (&RESERVED_07, true),
        (&[1, 2], false),
        (&[0x06], false),
        (&[0x55], false),
        (&[], false),
    ];
    for (bytes, ends) in between {
        let mut bench = Bench::new();
        bench.bytes(&BAD_07);
        bench.bytes(&BAD_07);
        bench.bytes(bytes);
        let words = if ends { "" } else { "sums" };
        let expected = says(rx("badsum"), tx(words), &[0x15], &[]);
        assert_eq!(bench.bytes(&BAD_07), expected, "{bytes:02X?}");
    }
}

#[test]
fn an_abort_a_send_and_its_failure_leave_the_run_of_bad_sums() {
    for (mode, failed) in [(Mode::Spaced, 9_704), (Mode::Sooner, 6_904)] {
        let mut bench = Bench::of(choice(Role::Host, mode));
        bench.bytes(&BAD_07);
        bench.bytes(&BAD_07);
        bench.byte(1);
        assert_eq!(bench.ticks(1_501).len(), 1);
        bench.send(0, 7, &[]).unwrap();
        let (_, last) = bench.ticks(failed).pop().unwrap();
        let expected = says(rx("nothing"), tx("failed:4 delivery"), &[], &[]);
        assert_eq!(last, expected);
        let third = says(rx("badsum"), tx("sums"), &[0x15], &[]);
        assert_eq!(bench.bytes(&BAD_07), third);
    }
}

#[test]
fn a_restart_ends_the_run_of_bad_sums() {
    let mut bench = Bench::new();
    bench.bytes(&BAD_07);
    bench.bytes(&BAD_07);
    bench.restart();
    let bad = says(rx("badsum"), tx(""), &[0x15], &[]);
    assert_eq!(bench.bytes(&BAD_07), bad);
    assert_eq!(bench.bytes(&BAD_07), bad);
    assert_eq!(
        bench.bytes(&BAD_07),
        says(rx("badsum"), tx("sums"), &[0x15], &[])
    );
}

#[test]
fn the_clock_starts_with_the_01_and_not_before() {
    let mut bench = Bench::new();
    bench.quiet_ticks(3_000);
    bench.byte(1);
    bench.quiet_ticks(1_500);
    assert_eq!(bench.tick(), says(rx("abort"), tx(""), &[], &[]));
    // The next frame has its own clock.
    bench.byte(1);
    bench.quiet_ticks(1_500);
    assert_eq!(bench.tick(), says(rx("abort"), tx(""), &[], &[]));
}

/// Bytes behind a 01, the end they make, its answer and the body handed up.
type End<'a> = (&'a [u8], &'a str, &'a [u8], &'a [u8]);

#[test]
fn every_end_of_a_frame_puts_out_a_due_copy() {
    let ends: [End; 6] = [
        (&[2], "badlen", &[], &[]),
        (&REQ_07[1..], "frame", &[6], &[0, 7]),
        (&RES_07[1..], "strayresponse", &[6], &[1, 7]),
        (&RESERVED_07[1..], "reserved", &[6], &[]),
        (&BAD_07[1..], "badsum", &[0x15], &[]),
        (&[0], "badlen", &[], &[]),
    ];
    for (bytes, word, answer, up) in ends {
        let mut bench = Bench::new();
        bench.byte(1);
        bench.send(0, 2, &[]).unwrap();
        let mut line = answer.to_vec();
        line.extend(framed(0, 2, &[]));
        let said = bench.bytes(bytes);
        assert_eq!(said, says(rx(word), tx("copy:1"), &line, up));
        // Its wait began at 0 with that call.
        bench.quiet_ticks(1_600);
        assert_eq!(bench.byte(6), says(rx("nothing"), tx("acked:1"), &[], &[]));
    }
}

#[test]
fn the_longest_copy_goes_out_behind_the_answer() {
    let parameters = [0x18; 252];
    let mut bench = Bench::new();
    bench.byte(1);
    bench.send(1, 7, &parameters).unwrap();
    let mut line = vec![6];
    line.extend(framed(1, 7, &parameters));
    assert_eq!(line.len(), 258);
    let said = bench.bytes(&REQ_07[1..]);
    assert_eq!(said, says(rx("frame"), tx("copy:1"), &line, &[0, 7]));
}

#[test]
fn a_due_copy_put_out_by_an_abort_has_its_wait_at_0() {
    let lost = [
        (
            Mode::Spaced,
            says(rx("nothing"), tx("backoff:100"), &[], &[]),
        ),
        (
            Mode::Sooner,
            says(rx("nothing"), tx("copy:2"), &REQ_07, &[]),
        ),
    ];
    for (mode, lost) in lost {
        let mut bench = Bench::of(choice(Role::Host, mode));
        bench.byte(1);
        bench.send(0, 7, &[]).unwrap();
        bench.quiet_ticks(1_500);
        assert_eq!(bench.tick(), says(rx("abort"), tx("copy:1"), &REQ_07, &[]));
        bench.quiet_ticks(1_600);
        assert_eq!(bench.tick(), lost);
    }
}

/// A due copy means that a frame is being received, where no byte has a special
/// meaning; so quiet and backing off are the states to look at.
#[test]
fn singles_are_stray_when_quiet_or_backing_off() {
    for single in [0x06, 0x15, 0x18] {
        let stray = says(rx("nothing"), tx("stray"), &[], &[]);
        let mut bench = Bench::new();
        let before = bench.link.clone();
        assert_eq!(bench.byte(single), stray);
        assert_eq!(bench.link, before);
        let mut bench = waiting();
        bench.byte(0x15);
        bench.quiet_ticks(99);
        let before = bench.link.clone();
        assert_eq!(bench.byte(single), stray);
        assert_eq!(bench.link, before);
        assert_eq!(
            bench.tick(),
            says(rx("nothing"), tx("copy:2"), &REQ_07, &[])
        );
    }
}

#[test]
fn a_session_that_awaits_its_response_leaves_the_sender_quiet() {
    for single in [0x06, 0x15, 0x18] {
        let mut bench = awaiting();
        let before = bench.link.clone();
        let stray = says(rx("nothing"), tx("stray"), &[], &[]);
        assert_eq!(bench.byte(single), stray);
        assert_eq!(bench.link, before);
        assert_eq!(bench.send(0, 7, &[]), Err(Refusal::Busy));
    }
}

#[test]
fn a_back_off_that_ends_inside_a_frame_is_due() {
    let mut bench = waiting();
    bench.byte(0x18);
    bench.quiet_ticks(99);
    bench.byte(1);
    assert_eq!(bench.tick(), says(rx("nothing"), tx("due"), &[], &[]));
    bench.quiet_ticks(1_499);
    assert_eq!(bench.tick(), says(rx("abort"), tx("copy:2"), &REQ_07, &[]));
}

#[test]
fn an_abort_on_the_tick_that_ends_a_back_off() {
    // The frame begins 1,501 ticks before the end of the back-off of 2,100.
    let mut bench = waiting();
    for back_off in [100, 1_100] {
        bench.byte(0x15);
        bench.ticks(back_off);
    }
    bench.byte(0x15);
    bench.quiet_ticks(599);
    bench.byte(1);
    bench.quiet_ticks(1_500);
    assert_eq!(bench.tick(), says(rx("abort"), tx("copy:4"), &REQ_07, &[]));
}

#[test]
fn an_abort_on_the_tick_of_a_loss() {
    // The frame begins 1,501 ticks before the loss at 1,601.
    let mut bench = waiting_spaced();
    bench.quiet_ticks(100);
    bench.byte(1);
    bench.quiet_ticks(1_500);
    assert_eq!(bench.tick(), says(rx("abort"), tx("backoff:100"), &[], &[]));
    bench.quiet_ticks(99);
    assert_eq!(
        bench.tick(),
        says(rx("nothing"), tx("copy:2"), &REQ_07, &[])
    );
}

/// Reception has its part of the tick first, so the line is free for copy 2.
#[test]
fn an_abort_on_the_tick_of_a_loss_lets_the_next_copy_go_out_in_the_new_mode() {
    let mut bench = waiting();
    bench.quiet_ticks(100);
    bench.byte(1);
    bench.quiet_ticks(1_500);
    assert_eq!(bench.tick(), says(rx("abort"), tx("copy:2"), &REQ_07, &[]));
    // Its wait is at 0 after that tick.
    bench.quiet_ticks(1_600);
    let mut other = bench.other();
    assert_eq!(other.byte(6), says(rx("nothing"), tx("acked:2"), &[], &[]));
    assert_eq!(
        bench.tick(),
        says(rx("nothing"), tx("copy:3"), &REQ_07, &[])
    );
}

#[test]
fn an_abort_on_the_tick_of_a_failure() {
    // The ticks of copy 4 and of the failure.
    for (mode, fourth, failed) in [(Mode::Spaced, 8_103, 9_704), (Mode::Sooner, 5_303, 6_904)] {
        let mut bench = Bench::of(choice(Role::Host, mode));
        bench.session(7, &[]).unwrap();
        bench.ticks(fourth);
        bench.quiet_ticks(100);
        bench.byte(1);
        bench.quiet_ticks(1_500);
        let expected = says(rx("abort"), tx("failed:4 notsent:4 delivery"), &[], &[]);
        assert_eq!(bench.tick(), expected);
        assert_eq!(bench.ticks, failed);
    }
}

#[test]
fn an_abort_on_the_tick_that_ends_a_session() {
    let mut bench = awaiting();
    bench.quiet_ticks(3_499);
    bench.byte(1);
    bench.quiet_ticks(1_500);
    assert_eq!(
        bench.tick(),
        says(rx("abort"), tx("noresponse:1"), &[], &[])
    );
}

#[test]
fn a_loss_inside_a_frame_and_an_answer_behind_it() {
    let mut bench = waiting_spaced();
    bench.quiet_ticks(1_600);
    bench.byte(1);
    assert_eq!(
        bench.tick(),
        says(rx("nothing"), tx("backoff:100"), &[], &[])
    );
    let said = bench.bytes(&REQ_07[1..]);
    assert_eq!(said, says(rx("frame"), tx(""), &[6], &[0, 7]));
    bench.quiet_ticks(99);
    assert_eq!(
        bench.tick(),
        says(rx("nothing"), tx("copy:2"), &REQ_07, &[])
    );
}

#[test]
fn a_copy_lost_inside_a_frame_is_due_again_in_the_new_mode() {
    let mut bench = waiting();
    bench.quiet_ticks(1_600);
    bench.byte(1);
    assert_eq!(bench.tick(), says(rx("nothing"), tx("due"), &[], &[]));
    let line = [&[6][..], &REQ_07].concat();
    let said = bench.bytes(&REQ_07[1..]);
    assert_eq!(said, says(rx("frame"), tx("copy:2"), &line, &[0, 7]));
    bench.quiet_ticks(1_600);
    assert_eq!(bench.byte(6), says(rx("nothing"), tx("acked:2"), &[], &[]));
}

#[test]
fn a_frame_received_while_a_copy_waits_changes_nothing_for_it() {
    let mut bench = waiting();
    bench.quiet_ticks(800);
    assert_eq!(
        bench.bytes(&REQ_07),
        says(rx("frame"), tx(""), &[6], &[0, 7])
    );
    bench.quiet_ticks(800);
    assert_eq!(bench.byte(6), says(rx("nothing"), tx("acked:1"), &[], &[]));
}

#[test]
fn copies_are_counted_in_every_acknowledgement() {
    for copies in 1..=4u32 {
        let mut bench = waiting();
        for back_off in [100, 1_100, 2_100].into_iter().take(copies as usize - 1) {
            bench.byte(0x15);
            bench.ticks(back_off);
        }
        let words = format!("acked:{copies}");
        assert_eq!(bench.byte(6), says(rx("nothing"), tx(&words), &[], &[]));
        // The next send counts from 0 again.
        let next = bench.send(0, 7, &[]).unwrap();
        assert_eq!(next, says(rx("nothing"), tx("copy:1"), &REQ_07, &[]));
    }
}

/// Copies at the times that arithmetic gives for any answers: after copy k,
/// refused after d ticks or lost after 1,601, copy k + 1 comes a back-off later:
/// the one of its cause, in the mode of the link.
#[test]
fn copies_come_when_arithmetic_says() {
    let mut dice = reference::dice::Dice::new(5);
    let back_offs = [
        (Mode::Spaced, [(100, 100), (1_100, 1_100), (2_100, 2_100)]),
        (Mode::Sooner, [(100, 0), (1_100, 0), (2_100, 500)]),
    ];
    for (mode, back_offs) in back_offs {
        for _ in 0..60 {
            let mut bench = Bench::of(choice(Role::Host, mode));
            bench.send(0, 7, &[]).unwrap();
            let mut at = 0;
            for (number, (told, lost)) in back_offs.into_iter().enumerate() {
                let edge = dice.one(&[0, 1, 1_599, 1_600, 1_601]);
                let any = dice.between(0, 1_601);
                let refused = dice.one(&[edge, any]);
                let single = dice.one(&[0x15, 0x18]);
                let back_off = if refused < 1_601 {
                    bench.quiet_ticks(refused);
                    bench.byte(single);
                    told
                } else {
                    bench.quiet_ticks(1_600);
                    if lost > 0 {
                        assert_eq!(bench.ticks(1).len(), 1);
                    }
                    lost
                };
                at += refused + back_off;
                bench.quiet_ticks(at - bench.ticks - 1);
                let words = format!("copy:{}", number + 2);
                assert_eq!(bench.tick(), says(rx("nothing"), tx(&words), &REQ_07, &[]));
                assert_eq!(bench.ticks, at);
            }
        }
    }
}

#[test]
fn a_session_from_its_request_to_its_response() {
    let mut bench = Bench::new();
    let said = bench.session(7, &[]).unwrap();
    assert_eq!(said, says(rx("nothing"), tx("copy:1"), &REQ_07, &[]));
    assert_eq!(
        bench.byte(6),
        says(rx("nothing"), tx("acked:1 waiting"), &[], &[])
    );
    let response = framed(1, 7, &[5, 6]);
    let said = bench.bytes(&response);
    assert_eq!(
        said,
        says(rx("frame"), tx("response:1"), &[6], &[1, 7, 5, 6])
    );
    // It is closed: the same again is stray, and a send is accepted.
    let said = bench.bytes(&response);
    assert_eq!(said, says(rx("strayresponse"), tx(""), &[6], &[1, 7, 5, 6]));
    assert!(bench.send(0, 7, &[]).is_ok());
}

#[test]
fn a_session_inside_a_frame_is_due_in_the_sending_part_alone() {
    let mut bench = Bench::new();
    bench.byte(1);
    let said = bench.session(7, &[]).unwrap();
    assert_eq!(said, says(rx("nothing"), tx("due"), &[], &[]));
}

#[test]
fn a_response_after_4999_ticks_ends_the_session() {
    let mut bench = awaiting();
    bench.quiet_ticks(4_999);
    let said = bench.bytes(&RES_07);
    assert_eq!(said, says(rx("frame"), tx("response:1"), &[6], &[1, 7]));
}

#[test]
fn the_tick_that_makes_5000_ends_the_session_even_inside_a_frame() {
    let mut bench = awaiting();
    bench.quiet_ticks(4_999);
    bench.bytes(&RES_07[..4]);
    assert_eq!(
        bench.tick(),
        says(rx("nothing"), tx("noresponse:1"), &[], &[])
    );
    let said = bench.byte(0xFA);
    assert_eq!(said, says(rx("strayresponse"), tx(""), &[6], &[1, 7]));
}

#[test]
fn other_frames_leave_the_session_waiting() {
    let mut bench = awaiting();
    assert_eq!(
        bench.bytes(&REQ_07),
        says(rx("frame"), tx(""), &[6], &[0, 7])
    );
    let stray = says(rx("strayresponse"), tx(""), &[6], &[1, 2]);
    assert_eq!(bench.bytes(&RES_02), stray);
    assert_eq!(
        bench.bytes(&RESERVED_07),
        says(rx("reserved"), tx(""), &[6], &[])
    );
    let said = bench.bytes(&[1, 3, 1, 7, 0]);
    assert_eq!(said, says(rx("badsum"), tx(""), &[0x15], &[]));
    assert_eq!(bench.bytes(&[1, 1]), says(rx("badlen"), tx(""), &[], &[]));
    let said = bench.bytes(&RES_07);
    assert_eq!(said, says(rx("frame"), tx("response:1"), &[6], &[1, 7]));
}

#[test]
fn a_response_before_the_ack_is_stray() {
    // Waiting for the ACK, backing off, due.
    let mut bench = Bench::new();
    bench.session(7, &[]).unwrap();
    let stray = says(rx("strayresponse"), tx(""), &[6], &[1, 7]);
    assert_eq!(bench.bytes(&RES_07), stray);
    bench.byte(0x15);
    assert_eq!(bench.bytes(&RES_07), stray);
    bench.quiet_ticks(99);
    bench.byte(1);
    assert_eq!(bench.tick(), says(rx("nothing"), tx("due"), &[], &[]));
    let mut line = vec![6];
    line.extend(REQ_07);
    let said = bench.bytes(&RES_07[1..]);
    assert_eq!(
        said,
        says(rx("strayresponse"), tx("copy:2"), &line, &[1, 7])
    );
    assert_eq!(
        bench.byte(6),
        says(rx("nothing"), tx("acked:2 waiting"), &[], &[])
    );
    let said = bench.bytes(&RES_07);
    assert_eq!(said, says(rx("frame"), tx("response:2"), &[6], &[1, 7]));
}

#[test]
fn a_response_while_a_plain_send_is_open_is_stray() {
    let mut bench = waiting();
    let stray = says(rx("strayresponse"), tx(""), &[6], &[1, 7]);
    assert_eq!(bench.bytes(&RES_07), stray);
    assert_eq!(bench.byte(6), says(rx("nothing"), tx("acked:1"), &[], &[]));
    assert_eq!(bench.bytes(&RES_07), stray);
}

#[test]
fn a_session_that_is_not_sent() {
    for (mode, failed) in [(Mode::Spaced, 9_704), (Mode::Sooner, 6_904)] {
        let mut bench = Bench::of(choice(Role::Host, mode));
        bench.session(7, &[]).unwrap();
        let said = bench.ticks(failed).pop().unwrap();
        let expected = says(rx("nothing"), tx("failed:4 notsent:4 delivery"), &[], &[]);
        assert_eq!(said, (failed, expected));
        assert!(bench.session(7, &[]).is_ok());
    }
}

#[test]
fn a_session_refused_four_times_is_not_sent() {
    let mut bench = Bench::new();
    bench.session(7, &[]).unwrap();
    for back_off in [100, 1_100, 2_100] {
        bench.byte(0x15);
        bench.ticks(back_off);
    }
    let expected = says(rx("nothing"), tx("failed:4 notsent:4 delivery"), &[], &[]);
    assert_eq!(bench.byte(0x18), expected);
}

#[test]
fn opening_and_restart() {
    // A restart of a fresh link puts out 15 and says nothing more.
    let mut bench = Bench::new();
    assert_eq!(bench.restart(), says(rx("nothing"), tx(""), &[0x15], &[]));
    // An open send in each of its states.
    let abandoned = says(rx("nothing"), tx("abandoned"), &[0x15], &[]);
    for steps in 0..3 {
        let mut bench = Bench::new();
        if steps == 0 {
            bench.byte(1);
        }
        bench.send(1, 7, &[1, 2]).unwrap();
        if steps == 2 {
            bench.byte(0x15);
        }
        assert_eq!(bench.restart(), abandoned);
        assert_eq!(bench.link, Link::open());
        bench.quiet_ticks(20_000);
    }
    // An open session in its states, in the session part alone.
    let abandoned = says(rx("nothing"), tx("session-abandoned"), &[0x15], &[]);
    for steps in 0..4 {
        let mut bench = Bench::new();
        if steps == 0 {
            bench.byte(1);
        }
        bench.session(7, &[]).unwrap();
        if steps == 2 {
            bench.byte(0x15);
        }
        if steps == 3 {
            bench.byte(6);
        }
        assert_eq!(bench.restart(), abandoned);
        assert_eq!(bench.link, Link::open());
        bench.quiet_ticks(20_000);
    }
}

#[test]
fn a_restart_inside_a_frame_forgets_it_and_says_nothing_of_it() {
    let mut bench = Bench::new();
    bench.bytes(&REQ_07[..4]);
    assert_eq!(bench.restart(), says(rx("nothing"), tx(""), &[0x15], &[]));
    assert_eq!(bench.byte(0xFB), says(rx("skipped"), tx(""), &[], &[]));
    bench.quiet_ticks(2_000);
}

#[test]
fn a_run_stops_behind_the_first_byte_that_says_more() {
    let mut bench = Bench::new();
    let mut run = vec![0x55, 0x00];
    run.extend(REQ_07);
    run.extend([0x55, 0x06]);
    let (taken, said) = bench.run(&run);
    assert_eq!(taken, 7);
    assert_eq!(said, says(rx("frame"), tx(""), &[6], &[0, 7]));
    let (taken, said) = bench.run(&run[taken..]);
    assert_eq!(
        (taken, said),
        (2, says(rx("nothing"), tx("stray"), &[], &[]))
    );
    let (taken, said) = bench.run(&[0x55, 0x56]);
    assert_eq!((taken, said), (2, says(rx("skipped"), tx(""), &[], &[])));
    let (taken, said) = bench.run(&[0x55, 0x01]);
    assert_eq!((taken, said), (2, nothing()));
    let (taken, said) = bench.run(&[]);
    assert_eq!((taken, said), (0, nothing()));
    let (taken, said) = bench.run(&[2, 0x55]);
    assert_eq!((taken, said), (1, says(rx("badlen"), tx(""), &[], &[])));
}

#[test]
fn each_part_by_itself_stops_a_run() {
    for word in ["nothing", "skipped"] {
        assert!(!says(rx(word), tx(""), &[], &[])
            .report
            .says_more_than_skipped());
    }
    for word in [
        "badlen",
        "frame",
        "reserved",
        "badsum",
        "abort",
        "strayresponse",
    ] {
        assert!(says(rx(word), tx(""), &[], &[])
            .report
            .says_more_than_skipped());
    }
    for words in [
        "stray",
        "copy:1",
        "waiting",
        "response:1",
        "sums",
        "delivery",
    ] {
        let said = says(rx("nothing"), tx(words), &[], &[]);
        assert!(said.report.says_more_than_skipped(), "{words}");
    }
}

#[test]
fn a_due_is_said_once() {
    let mut bench = Bench::new();
    bench.byte(1);
    let said = bench.send(0, 7, &[]).unwrap();
    assert_eq!(said, says(rx("nothing"), tx("due"), &[], &[]));
    bench.quiet_ticks(10);
    assert_eq!(bench.byte(3), nothing());
    assert_eq!(bench.byte(0), nothing());
    bench.quiet_ticks(10);
}
