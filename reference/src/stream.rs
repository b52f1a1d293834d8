//! Random raw bytes as a line would bring them, for the counting program.

use crate::dice::Dice;
use crate::frame::{ACK, CAN, NAK, START};
use crate::scribe::whole;

/// Kinds of streams and what they hold.
pub const STREAMS: &[(&str, &str)] = &[
    (
        "mixA",
        "frames of 5 to 257 bytes with noise of 0 to 16 bytes between",
    ),
    (
        "mixB",
        "frames of 5 to 14 bytes with noise of 0 to 4 bytes between",
    ),
    ("noise", "uniform bytes"),
    (
        "all",
        "everything: both mixes, single bytes, uniform bytes, frames cut short",
    ),
];

/// `size` bytes of a kind, or `None` if there is no such kind.
pub fn stream(seed: u64, kind: &str, size: usize) -> Option<Vec<u8>> {
    let part: fn(&mut Dice, &mut Vec<u8>) = match kind {
        "mixA" => |dice, bytes| frame_and_noise(dice, 252, 16, bytes),
        "mixB" => |dice, bytes| frame_and_noise(dice, 9, 4, bytes),
        "noise" => |dice, bytes| bytes.push(dice.byte()),
        "all" => everything,
        _ => return None,
    };
    let mut dice = Dice::new(seed);
    let mut bytes = Vec::with_capacity(size + 512);
    while bytes.len() < size {
        part(&mut dice, &mut bytes);
    }
    bytes.truncate(size);
    Some(bytes)
}

/// A frame, seldom damaged, and noise behind it. Noise has no 01, so that
/// the next frame is met at its start.
fn frame_and_noise(dice: &mut Dice, most_parameters: u32, most_noise: u32, bytes: &mut Vec<u8>) {
    frame(dice, most_parameters, bytes);
    for _ in 0..dice.between(0, most_noise) {
        let byte = dice.byte();
        bytes.push(if byte == START { ACK } else { byte });
    }
}

fn frame(dice: &mut Dice, most_parameters: u32, bytes: &mut Vec<u8>) {
    let size = dice.between(0, most_parameters) as usize;
    let parameters = dice.bytes(size);
    let command = dice.byte();
    let kind = match dice.below(16) {
        0 => dice.between(2, 255) as u8,
        odd => (odd & 1) as u8,
    };
    let mut frame = whole(kind, command, &parameters);
    match dice.below(16) {
        0 => {
            let last = frame.len() - 1;
            frame[last] ^= 1 << dice.below(8);
        }
        1 => frame = vec![START, dice.below(3) as u8],
        _ => {}
    }
    bytes.extend_from_slice(&frame);
}

fn everything(dice: &mut Dice, bytes: &mut Vec<u8>) {
    match dice.below(10) {
        0..=2 => frame_and_noise(dice, 252, 16, bytes),
        3..=5 => frame_and_noise(dice, 9, 4, bytes),
        6 => bytes.push(dice.one(&[START, ACK, NAK, CAN])),
        7 => {
            let size = dice.between(0, 300) as usize;
            bytes.extend(dice.bytes(size));
        }
        8 => {
            // A frame cut short runs into what follows.
            frame(dice, 252, bytes);
            let cut = dice.between(0, 8) as usize;
            bytes.truncate(bytes.len().saturating_sub(cut));
        }
        _ => frame(dice, 0, bytes),
    }
}
