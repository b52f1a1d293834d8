//! Section 8: the command bodies.

mod common;

use reference::bodies::*;
use reference::dice::Dice;
use reference::refusal::Refusal;

/// A Capabilities response with this mask.
fn capabilities_body(mask: &[u8]) -> Vec<u8> {
    [&[1, 7, 1, 2, 3, 4, 5, 6, 7, 8][..], mask].concat()
}

/// A Node list response with this count byte and mask.
fn nodes_body(count: u8, mask: &[u8]) -> Vec<u8> {
    [&[1, 2, 0x05, 0x08, count][..], mask, &[0x05, 0x01]].concat()
}

fn listed(body: &[u8]) -> Result<Vec<u8>, Refusal> {
    let mut list = [0xE7; 240];
    let answer = nodes(body, &mut list);
    let count = answer.map_or(0, |nodes| nodes.count);
    assert!(list[count..].iter().all(|&byte| byte == 0xE7));
    answer.map(|_| list[..count].to_vec())
}

#[test]
fn every_function_has_its_bit() {
    for f in 1..=255u8 {
        let mut mask = [0; 32];
        mask[usize::from(f - 1) / 8] = 1 << ((f - 1) % 8);
        let body = capabilities_body(&mask);
        let answer = capabilities(&body).unwrap();
        assert_eq!(answer.count, 1);
        assert_eq!(answer.fixed, [1, 2, 3, 4, 5, 6, 7, 8]);
        for other in 0..=255 {
            assert_eq!(answer.supports(other), other == f);
        }
    }
}

#[test]
fn functions_that_the_mask_does_not_cover() {
    for size in 0..=32 {
        let mut mask = vec![0xFF; size];
        if size == 32 {
            mask[31] = 0x7F;
        }
        let body = capabilities_body(&mask);
        let answer = capabilities(&body).unwrap();
        let covered = (size * 8).min(255);
        assert_eq!(answer.count, covered);
        for f in 0..=255u8 {
            assert_eq!(answer.supports(f), f >= 1 && usize::from(f) <= covered);
        }
    }
}

#[test]
fn the_count_is_the_number_of_supported_functions() {
    let mut dice = Dice::new(8);
    for _ in 0..200 {
        let size = dice.between(0, 32) as usize;
        let mut mask = dice.bytes(size);
        if size == 32 {
            mask[31] &= 0x7F;
        }
        let body = capabilities_body(&mask);
        let answer = capabilities(&body).unwrap();
        let supported = (0..=255).filter(|&f| answer.supports(f)).count();
        assert_eq!(answer.count, supported);
    }
}

#[test]
fn capabilities_of_every_size() {
    let long = capabilities_body(&[0; 60]);
    for size in 0..=long.len() {
        let right = (10..=42).contains(&size);
        assert_eq!(capabilities(&long[..size]).is_ok(), right, "{size}");
    }
}

#[test]
fn the_bit_for_256() {
    let mut mask = [0; 32];
    for bit in 0..8 {
        mask[31] = 1 << bit;
        let body = capabilities_body(&mask);
        assert_eq!(capabilities(&body).is_ok(), bit != 7);
    }
    mask[31] = 0xFF;
    assert_eq!(capabilities(&capabilities_body(&mask)), Err(Refusal::Form));
    // The same bit of another byte is a function.
    let mut mask = [0; 32];
    mask[30] = 0x80;
    assert!(capabilities(&capabilities_body(&mask))
        .unwrap()
        .supports(248));
}

#[test]
fn other_types_and_commands_are_form() {
    for byte in 0..=255 {
        let mut body = capabilities_body(&[]);
        body[0] = byte;
        assert_eq!(capabilities(&body).is_ok(), byte == 1);
        let mut body = capabilities_body(&[]);
        body[1] = byte;
        assert_eq!(capabilities(&body).is_ok(), byte == 7);
        let mut body = nodes_body(0, &[]);
        body[0] = byte;
        assert_eq!(listed(&body).is_ok(), byte == 1);
        let mut body = nodes_body(0, &[]);
        body[1] = byte;
        assert_eq!(listed(&body).is_ok(), byte == 2);
        assert_eq!(timeouts_response(&[byte, 6, 1, 2]).is_ok(), byte == 1);
        assert_eq!(timeouts_response(&[1, byte, 1, 2]).is_ok(), byte == 6);
    }
}

#[test]
fn every_node_has_its_bit_and_all_are_listed_in_rising_order() {
    for node in 1..=232u8 {
        let mut mask = [0; 29];
        mask[usize::from(node - 1) / 8] = 1 << ((node - 1) % 8);
        assert_eq!(listed(&nodes_body(29, &mask)), Ok(vec![node]));
    }
    let all: Vec<u8> = (1..=232).collect();
    assert_eq!(listed(&nodes_body(29, &[0xFF; 29])), Ok(all));
    assert_eq!(listed(&nodes_body(29, &[0; 29])), Ok(vec![]));
    assert_eq!(listed(&nodes_body(0, &[])), Ok(vec![]));
}

#[test]
fn the_other_fields_of_a_node_list() {
    let mut list = [0; 232];
    let expected = Nodes {
        version: 0x05,
        capabilities: 0x08,
        count: 0,
        chip_type: 0x05,
        chip_version: 0x01,
    };
    assert_eq!(nodes(&nodes_body(0, &[]), &mut list), Ok(expected));
    let full = Nodes {
        count: 232,
        ..expected
    };
    assert_eq!(nodes(&nodes_body(29, &[0xFF; 29]), &mut list), Ok(full));
}

#[test]
fn node_lists_of_every_size_and_count_byte() {
    for count in 0..=255u8 {
        for size in [0, 1, 28, 29, 30, usize::from(count)] {
            let right = (count == 29 && size == 29) || (count == 0 && size == 0);
            let answer = listed(&nodes_body(count, &vec![1; size]));
            assert_eq!(answer.is_ok(), right, "{count} {size}");
        }
    }
    for right in [nodes_body(29, &[1; 29]), nodes_body(0, &[])] {
        for size in 0..right.len() {
            assert_eq!(listed(&right[..size]), Err(Refusal::Form), "{size}");
        }
        let longer = [&right[..], &[0]].concat();
        assert_eq!(listed(&longer), Err(Refusal::Form));
    }
}

#[test]
fn every_time_up_to_3000_milliseconds() {
    for time in 0..=3_000 {
        let right = time % 10 == 0 && time <= 2_550;
        for (first, second) in [(time, 100), (100, time)] {
            let mut frame = [0xE7; 8];
            let answer = set_timeouts(Milliseconds(first), Milliseconds(second), &mut frame);
            if right {
                let parameters = [(first / 10) as u8, (second / 10) as u8];
                assert_eq!(answer, Ok(7));
                assert_eq!(frame[..7], common::framed(0, 6, &parameters));
                assert_eq!(frame[7], 0xE7);
            } else {
                assert_eq!(answer, Err(Refusal::Range), "{time}");
                assert_eq!(frame, [0xE7; 8]);
            }
        }
    }
    for time in [65_536, 25_600, 2_560 + 65_536, u32::MAX, u32::MAX - 5] {
        let answer = set_timeouts(Milliseconds(time), Milliseconds(0), &mut [0; 7]);
        assert_eq!(answer, Err(Refusal::Range));
    }
}

#[test]
fn the_response_answers_in_milliseconds() {
    for ticks in 0..=255u8 {
        let expected = Milliseconds(u32::from(ticks) * 10);
        let answer = timeouts_response(&[1, 6, ticks, 15]);
        assert_eq!(answer, Ok((expected, Milliseconds(150))));
        let answer = timeouts_response(&[1, 6, 150, ticks]);
        assert_eq!(answer, Ok((Milliseconds(1_500), expected)));
    }
    for body in [&[][..], &[1], &[1, 6], &[1, 6, 0], &[1, 6, 0, 0, 0]] {
        assert_eq!(timeouts_response(body), Err(Refusal::Form));
    }
}
