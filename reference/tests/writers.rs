//! Request P5: the responses that a stand-in writes. What was written reads
//! back as the same values, and what the reader refuses is refused alike.

mod common;

use common::plays;
use reference::bodies::{self, Milliseconds};
use reference::dice::Dice;
use reference::refusal::Refusal;
use reference::writers::{self, NodeList};

/// What stands in the lent bytes before a call.
const BEFORE: u8 = 0xE7;
/// Eight fixed bytes, all different.
const FIXED: [u8; 8] = [0x05, 0x01, 0x00, 0x86, 0x20, 0x01, 0xFF, 0x5A];

/// Calls a writer with lent bytes and answers the body. Bytes beyond it stay,
/// and a refusal leaves all.
fn written(
    room: usize,
    write: impl FnOnce(&mut [u8]) -> Result<usize, Refusal>,
) -> Result<Vec<u8>, Refusal> {
    let mut lent = vec![BEFORE; room];
    let answer = write(&mut lent);
    let size = answer.unwrap_or(0);
    assert!(lent[size..].iter().all(|&byte| byte == BEFORE));
    answer.map(|size| lent[..size].to_vec())
}

fn capabilities(room: usize, fixed: &[u8; 8], mask: &[u8]) -> Result<Vec<u8>, Refusal> {
    written(room, |lent| writers::capabilities(fixed, mask, lent))
}

fn nodes(room: usize, values: [u8; 4], mask: &[u8]) -> Result<Vec<u8>, Refusal> {
    let [version, capabilities, chip_type, chip_version] = values;
    let list = NodeList {
        version,
        capabilities,
        chip_type,
        chip_version,
        mask,
    };
    written(room, |lent| writers::nodes(list, lent))
}

fn timeouts(room: usize, ack: u32, byte: u32) -> Result<Vec<u8>, Refusal> {
    written(room, |lent| {
        writers::timeouts(Milliseconds(ack), Milliseconds(byte), lent)
    })
}

#[test]
fn bodies_by_hand() {
    assert_eq!(
        capabilities(254, &FIXED, &[0x81, 0x01]),
        Ok(vec![1, 7, 5, 1, 0, 0x86, 0x20, 1, 0xFF, 0x5A, 0x81, 0x01])
    );
    assert_eq!(
        capabilities(254, &FIXED, &[]),
        Ok(vec![1, 7, 5, 1, 0, 0x86, 0x20, 1, 0xFF, 0x5A])
    );
    assert_eq!(nodes(254, [5, 8, 6, 1], &[]), Ok(vec![1, 2, 5, 8, 0, 6, 1]));
    let mut mask = [0; 29];
    (mask[0], mask[28]) = (0x05, 0x80);
    let mut body = vec![1, 2, 5, 8, 29, 5];
    body.extend([0; 27]);
    body.extend([0x80, 6, 1]);
    assert_eq!(nodes(254, [5, 8, 6, 1], &mask), Ok(body));
    assert_eq!(timeouts(254, 1_500, 150), Ok(vec![1, 6, 150, 15]));
}

#[test]
fn capabilities_of_every_size_read_back() {
    let mut dice = Dice::new(51);
    for size in (0..=32).cycle().take(330) {
        let fixed: [u8; 8] = dice.bytes(8).try_into().unwrap();
        let mut mask = dice.bytes(size);
        if size == 32 {
            mask[31] &= 0x7F;
        }
        let body = capabilities(254, &fixed, &mask).unwrap();
        assert_eq!(body.len(), 10 + size);
        let read = bodies::capabilities(&body).unwrap();
        assert_eq!(read.fixed, fixed);
        let ones: u32 = mask.iter().map(|byte| byte.count_ones()).sum();
        assert_eq!(read.count, ones as usize);
        for f in 0..=255u8 {
            let place = usize::from(f.wrapping_sub(1));
            let covered = f > 0 && place / 8 < size;
            let marked = covered && mask[place / 8] & (1 << (place % 8)) != 0;
            assert_eq!(read.supports(f), marked, "{f}");
        }
    }
}

#[test]
fn every_value_of_the_fixed_bytes_reads_back() {
    for place in 0..8 {
        for value in 0..=255 {
            let mut fixed = FIXED;
            fixed[place] = value;
            let body = capabilities(254, &fixed, &[]).unwrap();
            assert_eq!(bodies::capabilities(&body).unwrap().fixed, fixed);
        }
    }
}

#[test]
fn every_function_is_written_and_256_is_not() {
    for f in 1..=256usize {
        let mut mask = [0; 32];
        mask[(f - 1) / 8] = 1 << ((f - 1) % 8);
        let answer = capabilities(254, &FIXED, &mask);
        if f == 256 {
            assert_eq!(answer, Err(Refusal::Form));
        } else {
            let body = answer.unwrap();
            assert_eq!(bodies::capabilities(&body).unwrap().count, 1);
            assert!(bodies::capabilities(&body).unwrap().supports(f as u8));
        }
    }
    // In a shorter mask the same bit of the last byte is a function.
    let mut mask = [0; 31];
    mask[30] = 0x80;
    assert!(capabilities(254, &FIXED, &mask).is_ok());
}

#[test]
fn masks_of_every_size() {
    for size in (0..=600).chain([1_356, 1_400]) {
        let answer = capabilities(254, &FIXED, &vec![0; size]);
        let right = size <= 32;
        assert_eq!(answer.is_ok(), right, "{size}");
        assert!(right || answer == Err(Refusal::Form), "{size}");
        let answer = nodes(254, [5, 8, 6, 1], &vec![0; size]);
        let right = size == 0 || size == 29;
        assert_eq!(answer.is_ok(), right, "{size}");
        assert!(right || answer == Err(Refusal::Form), "{size}");
    }
}

#[test]
fn node_lists_read_back() {
    let mut dice = Dice::new(52);
    for round in 0..400 {
        let mask = match round % 4 {
            0 => vec![],
            1 => vec![0xFF; 29],
            _ => dice.bytes(29),
        };
        let values: [u8; 4] = dice.bytes(4).try_into().unwrap();
        let body = nodes(254, values, &mask).unwrap();
        assert_eq!(body.len(), 7 + mask.len());
        let mut list = [0; 232];
        let read = bodies::nodes(&body, &mut list).unwrap();
        let back = [
            read.version,
            read.capabilities,
            read.chip_type,
            read.chip_version,
        ];
        assert_eq!(back, values);
        let marked: Vec<u8> = (0..mask.len() * 8)
            .filter(|place| mask[place / 8] & (1 << (place % 8)) != 0)
            .map(|place| place as u8 + 1)
            .collect();
        assert_eq!(list[..read.count], marked);
    }
}

#[test]
fn every_expressible_pair_of_times_reads_back() {
    for ack in (0..=2_550).step_by(10) {
        for byte in (0..=2_550).step_by(10) {
            let body = timeouts(254, ack, byte).unwrap();
            assert_eq!(body, [1, 6, (ack / 10) as u8, (byte / 10) as u8]);
            assert_eq!(
                bodies::timeouts_response(&body),
                Ok((Milliseconds(ack), Milliseconds(byte)))
            );
        }
    }
}

#[test]
fn times_that_are_not_expressible_are_range() {
    let wrong = (0..=3_000).filter(|time| time % 10 != 0 || *time > 2_550);
    for time in wrong.chain([25_600, 65_536, 65_540, u32::MAX]) {
        assert_eq!(timeouts(254, time, 0), Err(Refusal::Range));
        assert_eq!(timeouts(254, 0, time), Err(Refusal::Range));
        // Before ROOM.
        assert_eq!(timeouts(0, time, 0), Err(Refusal::Range));
        assert_eq!(timeouts(253, 0, time), Err(Refusal::Range));
    }
}

#[test]
fn room_for_254_whatever_is_written() {
    for room in [0, 1, 4, 7, 10, 42, 252, 253] {
        assert_eq!(timeouts(room, 0, 2_550), Err(Refusal::Room));
        assert_eq!(capabilities(room, &FIXED, &[]), Err(Refusal::Room));
        assert_eq!(nodes(room, [5, 8, 6, 1], &[]), Err(Refusal::Room));
        // Before FORM.
        assert_eq!(capabilities(room, &FIXED, &[0; 33]), Err(Refusal::Room));
        assert_eq!(capabilities(room, &FIXED, &[0xFF; 32]), Err(Refusal::Room));
        assert_eq!(nodes(room, [5, 8, 6, 1], &[0; 28]), Err(Refusal::Room));
        assert_eq!(nodes(room, [5, 8, 6, 1], &[0; 900]), Err(Refusal::Room));
    }
    for room in [254, 255, 600] {
        assert!(timeouts(room, 0, 2_550).is_ok());
        assert!(capabilities(room, &FIXED, &[0xFF; 31]).is_ok());
        assert!(nodes(room, [5, 8, 6, 1], &[0xFF; 29]).is_ok());
    }
}

/// The reader, given the layout by hand, takes exactly what is written.
#[test]
fn refused_alike() {
    let mut dice = Dice::new(53);
    let (mut taken, mut refused) = (0, 0);
    for _ in 0..3_000 {
        let size = dice.one(&[0, 1, 28, 29, 30, 31, 32, 32, 33, 40, 246]);
        let mut mask = dice.bytes(size);
        if size > 0 && dice.once_in(2) {
            mask[size - 1] &= 0x7F;
        }
        let body = [&[1, 7], &FIXED[..], &mask].concat();
        let read = bodies::capabilities(&body).map(|_| ());
        assert_eq!(capabilities(254, &FIXED, &mask).map(|_| ()), read);
        let head = [1, 2, 5, 8, size as u8];
        let body = [&head[..], &mask, &[6, 1]].concat();
        let list = bodies::nodes(&body, &mut [0; 232]).map(|_| ());
        assert_eq!(nodes(254, [5, 8, 6, 1], &mask).map(|_| ()), list);
        for answer in [read, list] {
            match answer {
                Ok(()) => taken += 1,
                Err(refusal) => {
                    assert_eq!(refusal, Refusal::Form);
                    refused += 1;
                }
            }
        }
    }
    assert!(taken > 1_000 && refused > 1_000, "{taken} {refused}");
}

#[test]
fn the_verbs_of_the_script() {
    let fixed = "05 01 00 86 20 01 ff 5A";
    let body = "0107050100862001FF5A";
    let full = " 00".repeat(31);
    let zeros = "00".repeat(31);
    let mask = " 00".repeat(28);
    let long = " 00".repeat(300);
    let script = format!(
        "writecapabilities {fixed}\n\
         writecapabilities {fixed} 81 01\n\
         writecapabilities {fixed}{full} 7f\n\
         writecapabilities {fixed}{full} 80\n\
         writecapabilities {fixed}{full} 00 00\n\
         writecapabilities {fixed}{long}\n\
         writecapabilitiesroom 253 {fixed}{long}\n\
         writecapabilitiesroom 254 {fixed}\n\
         writenodes 05 08 06 01\n\
         writenodes 05 08 06 01 05{mask}\n\
         writenodes 05 08 06 01 05\n\
         writenodes 05 08 06 01 05 00{mask}\n\
         writenodes 05 08 06 01{long}\n\
         writenodesroom 0 05 08 06 01 05\n\
         writenodesroom 600 05 08 06 01\n\
         writetimeouts 1500 150\n\
         writetimeouts 0 2550\n\
         writetimeouts 5 0\n\
         writetimeouts 0 2560\n\
         writetimeoutsroom 253 0 0\n\
         writetimeoutsroom 0 0 5\n\
         writetimeoutsroom 254 2550 0\n"
    );
    plays(
        &script,
        &[
            &format!("writecapabilities ok {body}"),
            &format!("writecapabilities ok {body}8101"),
            &format!("writecapabilities ok {body}{zeros}7F"),
            "writecapabilities refused=10",
            "writecapabilities refused=10",
            "writecapabilities refused=10",
            "writecapabilities refused=1",
            &format!("writecapabilities ok {body}"),
            "writenodes ok 01020508000601",
            &format!("writenodes ok 010205081D05{}0601", "00".repeat(28)),
            "writenodes refused=10",
            "writenodes refused=10",
            "writenodes refused=10",
            "writenodes refused=1",
            "writenodes ok 01020508000601",
            "writetimeouts ok 0106960F",
            "writetimeouts ok 010600FF",
            "writetimeouts refused=11",
            "writetimeouts refused=11",
            "writetimeouts refused=1",
            "writetimeouts refused=11",
            "writetimeouts ok 0106FF00",
        ],
    );
}

#[test]
fn the_longest_masks_that_a_line_can_carry() {
    // 17 + 3 * 1,359 = 4,094 bytes; one more word is one too many.
    let most = format!("writecapabilities{}", " 00".repeat(1_359));
    assert_eq!(most.len(), 4_094);
    plays(&most, &["writecapabilities refused=10"]);
    plays(&format!("{most} 00"), &["error"]);
    // 10 + 3 * 1,362 = 4,096 bytes.
    let most = format!("writenodes{}", " 00".repeat(1_362));
    assert_eq!(most.len(), 4_096);
    plays(&most, &["writenodes refused=10"]);
    plays(&format!("{most} 00"), &["error"]);
    // Masks of 256 and 285 bytes, whose low bytes are 0 and 29.
    for size in [256, 285] {
        let line = format!("writenodes 05 08 06 01{}", " 00".repeat(size));
        plays(&line, &["writenodes refused=10"]);
    }
}
