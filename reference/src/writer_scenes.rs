//! The scenes of the random scripts for the writers of bodies (request P5). What
//! a writer is asked for is also given to its reader, as the body that the
//! layout of document 01 makes of it.

use crate::frame::RES;
use crate::other_scenes::{mask, time};
use crate::scribe::Scribe;

/// Malformed lines; a few of them only look malformed.
#[rustfmt::skip]
const MALFORMED: &[&str] = &[
    "writecapabilities", "writecapabilities ", "writecapabilities 01 02 03 04 05 06 07",
    "writecapabilities 01 02 03 04 05 06 07 8", "writecapabilities 01 02 03 04 05 06 07 08 ",
    "writecapabilities 01 02 03 04 05 06 07 08 0", "writecapabilities 01 02 03 04  05 06 07 08",
    "writecapabilities 0102030405060708", "writecapabilitiesroom",
    "writecapabilitiesroom 01 02 03 04 05 06 07 08 ", "writecapabilitiesroom 254",
    "writecapabilitiesroom 601 01 02 03 04 05 06 07 08",
    "writecapabilitiesroom 254 01 02 03 04 05 06 07", "writenodes", "writenodes ",
    "writenodes 05 00 05", "writenodes 05 00 05 0", "writenodes 05 00 05 00 ",
    "writenodes 05 00 05 00 1", "writenodesroom", "writenodesroom 254",
    "writenodesroom 254 05 00 05", "writenodesroom 601 05 00 05 00", "writenodesroom 0x1 05 00 05 00",
    "writetimeouts", "writetimeouts 10", "writetimeouts 10 10 10", "writetimeouts 10 10 ",
    "writetimeouts 1000000000 10", "writetimeouts 0000000010 10", "writetimeouts -10 10",
    "writetimeoutsroom", "writetimeoutsroom 254 10", "writetimeoutsroom 601 10 10",
    "writetimeoutsroom 254 10 10 10", "writetimeout 10 10", "Writetimeouts 10 10", "write",
    "writetimeoutsres 01 06 00 00", "writecapabilities 01 02 03 04 05 06 07 08",
    "writecapabilitiesroom 01 02 03 04 05 06 07 08 09", "writenodes 05 00 05 00",
    "writenodesroom 000000254 05 00 05 00", "writetimeouts 000000010 0",
    "writetimeoutsroom 600 999999999 0",
];

/// The writer's verb, with the lent bytes said or not.
fn head(scribe: &mut Scribe, name: &str) -> String {
    if scribe.dice.once_in(3) {
        let room = scribe.dice.one(&[0, 10, 253, 253, 254, 254, 255, 600]);
        format!("{name}room {room}")
    } else {
        name.to_string()
    }
}

pub fn write_capabilities_call(scribe: &mut Scribe) {
    let fixed = scribe.dice.bytes(8);
    let any = scribe.dice.between(0, 40) as usize;
    let size = scribe
        .dice
        .one(&[0, 1, 31, 32, 32, 32, 33, 34, 200, 300, any, any]);
    let mut mask = mask(scribe, size);
    if size >= 32 && !scribe.dice.once_in(3) {
        // Clear the bit for 256 more often than chance would.
        mask[31] &= 0x7F;
    }
    let head = head(scribe, "writecapabilities");
    scribe.say_bytes(&head, &[&fixed[..], &mask].concat());
    scribe.say_bytes("capabilities", &[&[RES, 7], &fixed[..], &mask].concat());
}

pub fn write_nodes_call(scribe: &mut Scribe) {
    let values = scribe.dice.bytes(4);
    let any = scribe.dice.between(0, 40) as usize;
    // 256 and 285 have the low bytes of 0 and 29.
    let size = scribe.dice.one(&[
        0, 0, 29, 29, 29, 29, 29, 28, 30, 1, 2, 200, 255, 256, 285, 300, any,
    ]);
    let mask = mask(scribe, size);
    let head = head(scribe, "writenodes");
    scribe.say_bytes(&head, &[&values[..], &mask].concat());
    let before = [RES, 2, values[0], values[1], size as u8];
    scribe.say_bytes("nodes", &[&before[..], &mask, &values[2..]].concat());
}

pub fn write_timeouts_call(scribe: &mut Scribe) {
    let edge = scribe.dice.one(&[0, 5, 10, 2_540, 2_550, 2_560]);
    let (first, second) = (time(scribe), time(scribe));
    let ack = scribe.dice.one(&[edge, first]);
    let byte = scribe.dice.one(&[edge, second, second]);
    let head = head(scribe, "writetimeouts");
    scribe.say(&format!("{head} {ack} {byte}"));
    let body = [RES, 6, (ack / 10) as u8, (byte / 10) as u8];
    scribe.say_bytes("timeoutsres", &body);
}

/// One of the malformed lines, or a long one.
pub fn malformed_writer(scribe: &mut Scribe) {
    if scribe.dice.once_in(12) {
        long_writer_line(scribe);
        return;
    }
    let line = scribe.dice.one(MALFORMED);
    scribe.say(line);
}

/// Lines of at most 4,096 bytes, which are calls that are refused, and of
/// 4,097, which are not.
fn long_writer_line(scribe: &mut Scribe) {
    let byte = scribe.dice.byte();
    match scribe.dice.below(4) {
        0 => scribe.say_bytes("writecapabilities", &[byte; 1_359]),
        1 => scribe.say_bytes("writecapabilities", &[byte; 1_360]),
        2 => scribe.say_bytes("writenodes", &[byte; 1_362]),
        _ => scribe.say_bytes("writenodesroom 253", &[byte; 1_359]),
    }
}
