//! Section 3: which refusal is given when several would fit, and that a refusal
//! changes nothing.

mod common;

use common::*;
use reference::bodies::{nodes, set_timeouts, Milliseconds};
use reference::frame::{build, read};
use reference::link::Link;
use reference::refusal::Refusal;
use reference::report::Report;

#[test]
fn numbers() {
    let numbers = [
        (Refusal::Room, 1),
        (Refusal::Busy, 2),
        (Refusal::Kind, 3),
        (Refusal::Long, 4),
        (Refusal::Short, 5),
        (Refusal::Start, 6),
        (Refusal::Length, 7),
        (Refusal::Tail, 8),
        (Refusal::Sum, 9),
        (Refusal::Form, 10),
        (Refusal::Range, 11),
    ];
    for (refusal, number) in numbers {
        assert_eq!(refusal.number(), number);
    }
}

#[test]
fn build_refuses_kind_then_long_then_room() {
    let mut none = [0; 0];
    assert_eq!(build(2, 7, &[0; 253], &mut none), Err(Refusal::Kind));
    assert_eq!(build(255, 7, &[], &mut none), Err(Refusal::Kind));
    assert_eq!(build(1, 7, &[0; 253], &mut none), Err(Refusal::Long));
    assert_eq!(build(1, 7, &[], &mut none), Err(Refusal::Room));
}

#[test]
fn build_needs_n_plus_5_and_leaves_the_rest() {
    for n in [0, 1, 2, 100, 251, 252] {
        let parameters = vec![0x5A; n];
        let mut lent = vec![0xE7; n + 4];
        assert_eq!(build(0, 7, &parameters, &mut lent), Err(Refusal::Room));
        assert!(lent.iter().all(|&byte| byte == 0xE7));
        for more in [0, 1, 9] {
            let mut lent = vec![0xE7; n + 5 + more];
            assert_eq!(build(0, 7, &parameters, &mut lent), Ok(n + 5));
            assert_eq!(lent[..n + 5], framed(0, 7, &parameters));
            assert!(lent[n + 5..].iter().all(|&byte| byte == 0xE7));
        }
    }
}

#[test]
fn read_refuses_in_its_order() {
    assert_eq!(read(&[]), Err(Refusal::Short));
    for start in (0..=255).filter(|&start| start != 1) {
        assert_eq!(read(&[start]), Err(Refusal::Start));
        assert_eq!(read(&[start, 0]), Err(Refusal::Start));
        assert_eq!(read(&[start, 3, 0, 7, 0xFB]), Err(Refusal::Start));
    }
    assert_eq!(read(&[1]), Err(Refusal::Short));
    for length in 0..3 {
        assert_eq!(read(&[1, length]), Err(Refusal::Length));
        assert_eq!(read(&[1, length, 2, 7, 0, 0, 0]), Err(Refusal::Length));
    }
    assert_eq!(read(&[1, 3]), Err(Refusal::Short));
    assert_eq!(read(&[1, 3, 2, 7]), Err(Refusal::Short));
    assert_eq!(read(&[1, 4, 0, 7, 0xFB]), Err(Refusal::Short));
    assert_eq!(read(&[1, 3, 2, 7, 0, 0]), Err(Refusal::Tail));
    assert_eq!(read(&[1, 3, 0, 7, 0xFB, 0]), Err(Refusal::Tail));
    assert_eq!(read(&[1, 3, 2, 7, 0]), Err(Refusal::Sum));
    for kind in 2..=255 {
        assert_eq!(read(&framed(kind, 7, &[])), Err(Refusal::Kind));
    }
}

#[test]
fn every_cut_and_every_addition_of_a_frame() {
    for n in [0, 1, 252] {
        let frame = framed(1, 7, &vec![9; n]);
        for size in 0..frame.len() {
            assert_eq!(read(&frame[..size]), Err(Refusal::Short), "{n} {size}");
        }
        assert!(read(&frame).is_ok());
        let mut longer = frame.clone();
        longer.push(0);
        assert_eq!(read(&longer), Err(Refusal::Tail));
    }
}

type LinkCall<'a> = &'a dyn Fn(&mut Link, &mut [u8], &mut [u8]) -> Result<Report, Refusal>;

/// Every call with these rooms, each on a link of its own in this state.
fn all_calls(link: &Link, line_room: usize, up_room: usize) -> Vec<Result<Report, Refusal>> {
    let long = [0; 253];
    let calls: [LinkCall; 8] = [
        &|link, line, up| link.byte(0x55, line, up),
        &|link, line, up| link.bytes(&[0x55], line, up).map(|(_, report)| report),
        &|link, line, up| link.bytes(&[], line, up).map(|(_, report)| report),
        &|link, line, up| link.tick(line, up),
        &|link, line, up| link.send(2, 7, &long, line, up),
        &|link, line, up| link.send(0, 7, &[], line, up),
        &|link, line, up| link.session(7, &long, line, up),
        &|link, line, up| link.restart(line, up),
    ];
    calls
        .iter()
        .map(|call| {
            let mut link_after = link.clone();
            let (mut line, mut up) = (vec![0xE7; line_room], vec![0xE7; up_room]);
            let answer = call(&mut link_after, &mut line, &mut up);
            if answer.is_err() {
                assert_eq!(&link_after, link);
                assert!(line.iter().chain(&up).all(|&byte| byte == 0xE7));
            }
            answer
        })
        .collect()
}

#[test]
fn room_comes_first_in_every_link_call() {
    let mut busy = Bench::new();
    busy.send(0, 7, &[]).unwrap();
    for link in [Link::open(), busy.link.clone()] {
        for (line, up) in [
            (257, 254),
            (258, 253),
            (0, 254),
            (258, 0),
            (0, 0),
            (257, 600),
        ] {
            for answer in all_calls(&link, line, up) {
                assert_eq!(answer, Err(Refusal::Room));
            }
        }
        for (line, up) in [(258, 254), (600, 600)] {
            for answer in all_calls(&link, line, up) {
                assert_ne!(answer, Err(Refusal::Room));
            }
        }
    }
}

#[test]
fn send_refuses_busy_then_kind_then_long() {
    let long = [0; 253];
    let mut bench = Bench::new();
    assert_eq!(bench.send(2, 7, &long), Err(Refusal::Kind));
    assert_eq!(bench.send(255, 7, &[]), Err(Refusal::Kind));
    assert_eq!(bench.send(1, 7, &long), Err(Refusal::Long));
    assert_eq!(bench.session(7, &long), Err(Refusal::Long));
    assert!(bench.send(1, 7, &long[..252]).is_ok());
    assert_eq!(bench.send(2, 7, &long), Err(Refusal::Busy));
    assert_eq!(bench.session(7, &long), Err(Refusal::Busy));
    assert_eq!(bench.session(7, &[]), Err(Refusal::Busy));
}

#[test]
fn busy_lasts_as_long_as_the_send_or_session() {
    // Due, waiting, backing off, due again, waiting, and then free.
    let mut bench = Bench::new();
    bench.byte(1);
    bench.send(0, 7, &[]).unwrap();
    assert_eq!(bench.send(0, 7, &[]), Err(Refusal::Busy));
    bench.byte(2);
    assert_eq!(bench.send(0, 7, &[]), Err(Refusal::Busy));
    bench.byte(0x15);
    assert_eq!(bench.send(0, 7, &[]), Err(Refusal::Busy));
    bench.byte(1);
    bench.ticks(100);
    assert_eq!(bench.send(0, 7, &[]), Err(Refusal::Busy));
    bench.byte(2);
    bench.byte(6);
    // A session, until its response.
    assert!(bench.session(7, &[]).is_ok());
    assert_eq!(bench.session(7, &[]), Err(Refusal::Busy));
    bench.byte(6);
    assert_eq!(bench.session(7, &[]), Err(Refusal::Busy));
    bench.quiet_ticks(4_999);
    assert_eq!(bench.session(7, &[]), Err(Refusal::Busy));
    bench.tick();
    assert!(bench.session(7, &[]).is_ok());
}

#[test]
fn room_before_form_and_range_before_room() {
    let mut short = [0xE7; 231];
    assert_eq!(nodes(&[], &mut short), Err(Refusal::Room));
    assert_eq!(
        nodes(&[1, 2, 5, 0, 0, 1, 2], &mut short),
        Err(Refusal::Room)
    );
    let mut list = [0xE7; 232];
    assert_eq!(nodes(&[], &mut list), Err(Refusal::Form));
    assert!(list.iter().chain(&short).all(|&byte| byte == 0xE7));
    let mut frame = [0xE7; 6];
    let times = |first, second| (Milliseconds(first), Milliseconds(second));
    for (first, second) in [times(5, 0), times(0, 5), times(2_560, 0), times(0, 2_560)] {
        let answer = set_timeouts(first, second, &mut frame);
        assert_eq!(answer, Err(Refusal::Range));
    }
    let (first, second) = times(10, 2_550);
    assert_eq!(set_timeouts(first, second, &mut frame), Err(Refusal::Room));
    assert_eq!(frame, [0xE7; 6]);
}
