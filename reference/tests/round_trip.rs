//! Sections 2 and 3: what build accepts reads back as the same parts, and what
//! read accepts builds back as the same bytes.

mod common;

use common::framed;
use reference::dice::Dice;
use reference::frame::{build, read, Frame};

#[test]
fn what_build_accepts_reads_back() {
    let mut dice = Dice::new(2);
    for size in (0..=252).chain(0..=252) {
        let parameters = dice.bytes(size);
        let (kind, command) = (dice.below(2) as u8, dice.byte());
        let mut lent = [0; 257];
        let size = build(kind, command, &parameters, &mut lent).unwrap();
        assert_eq!(lent[..size], framed(kind, command, &parameters));
        let parts = Frame {
            kind,
            command,
            parameters: &parameters,
        };
        assert_eq!(read(&lent[..size]), Ok(parts));
    }
}

#[test]
fn what_read_accepts_builds_back() {
    let mut dice = Dice::new(3);
    let (mut accepted, mut refused) = (0, 0);
    for _ in 0..20_000 {
        // Short bytes with a good chance to be a frame.
        let size = dice.between(0, 9) as usize;
        let mut bytes = dice.bytes(size);
        let length = [size.saturating_sub(2), size][dice.below(2) as usize];
        for (place, byte) in [1, length as u8, dice.below(3) as u8]
            .into_iter()
            .enumerate()
        {
            if place < size && !dice.once_in(8) {
                bytes[place] = byte;
            }
        }
        if size > 2 && !dice.once_in(4) {
            let sum = bytes[1..size - 1].iter().fold(0xFF, |sum, byte| sum ^ byte);
            bytes[size - 1] = sum;
        }
        match read(&bytes) {
            Ok(frame) => {
                accepted += 1;
                assert_eq!(bytes, framed(frame.kind, frame.command, frame.parameters));
                let mut lent = [0; 257];
                let built = build(frame.kind, frame.command, frame.parameters, &mut lent);
                assert_eq!(built, Ok(bytes.len()));
                assert_eq!(lent[..bytes.len()], bytes);
            }
            Err(_) => refused += 1,
        }
    }
    assert!(accepted > 500 && refused > 500, "{accepted} {refused}");
}

#[test]
fn a_sent_frame_is_heard_as_the_same_body() {
    let mut dice = Dice::new(4);
    for size in 0..=252 {
        let parameters = dice.bytes(size);
        let command = dice.byte();
        let sent = common::Bench::new().send(0, command, &parameters).unwrap();
        let (taken, heard) = common::Bench::new().run(&sent.line);
        assert_eq!(taken, sent.line.len());
        assert_eq!(heard.up, [&[0, command][..], &parameters].concat());
        assert_eq!(heard.line, [6]);
    }
}
