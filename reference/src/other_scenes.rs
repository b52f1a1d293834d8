//! The scenes of the random scripts that need no link: frames, bodies, and
//! lines out of form.

use crate::frame::{ACK, CAN, NAK, RES, START};
use crate::scribe::{whole, Scribe};

/// Malformed lines; a few of them only look malformed.
#[rustfmt::skip]
const MALFORMED: &[&str] = &[
    "tock", "TICK", "Tick", "tick 1", "tick ", " tick", "  ", " ", "tick\r", "\r", "tick\t",
    "ticks", "ticks ", "ticks x", "ticks -1", "ticks +1", "ticks 1000000000", "ticks 0 0",
    "ticks 0000000001", "ticks 000000001", "ticks 0", "ticks 1.0", "ticks 0x1", "byte",
    "byte 6", "byte 006", "byte 0x06", "byte 0g", "byte 06 06", "byte  06", "byte 06 ",
    "byte -6", "byte +6", "bytes 6", "bytes 55  55", "bytes 55 ", "bytes", "bytes ",
    "bytes 5555", "send", "send 00", "send 00 7", "send 00 07 ", "send 00  07", "send 00 07 1",
    "session", "session ", "session 7", "session 07 zz", "restart 1", "restart ", "restarts",
    "room", "room 258", "room 258 254 1", "room 601 254", "room 258 601", "room -1 254",
    "room 258  254", "room 0000000258 254", "room 000000258 254", "room 258 254", "build",
    "build 00", "build 00 07", "buildroom", "buildroom 5", "buildroom 601 00 07",
    "buildroom 5 00 07", "buildroom 00 07", "read", "read ", "read 1", "read 01 03 00 07 FB",
    "read 01 03 00 07 fb ", "capabilities", "capabilities ", "capabilities 0", "nodes",
    "nodes ", "nodesroom", "nodesroom 601", "nodesroom 232", "timeouts", "timeouts 10",
    "timeouts 10 10 10", "timeouts 1000000000 10", "timeouts 0000000010 10",
    "timeouts 000000010 10", "timeoutsroom", "timeoutsroom 7 10", "timeoutsroom 601 10 10",
    "timeoutsroom 7 10 10", "timeoutsres", "timeoutsres 1", "timeoutsres 01 06 0F 96", "# tick",
    "#", "", " # tick", "tick # one", "tick;tick", "opened", "play", "-", "\u{e9}",
];

/// Build, with rooms around the frame's size.
pub fn build_call(scribe: &mut Scribe) {
    let size = match scribe.dice.below(3) {
        0 => scribe.dice.one(&[0, 251, 252, 253, 254, 600]),
        _ => scribe.dice.between(0, 252),
    };
    let any = scribe.dice.byte();
    let mut words = vec![
        scribe.dice.one(&[0, 0, 1, 1, 2, 255, any]),
        scribe.dice.byte(),
    ];
    let parameters = scribe.parameters_of(size as usize);
    words.extend_from_slice(&parameters);
    let head = match scribe.dice.below(4) {
        0 => "build".to_string(),
        1 => format!("buildroom {}", scribe.dice.one(&[0, 4, 5, 256, 257, 600])),
        _ => {
            let room = (size + 5 + scribe.dice.below(5)).saturating_sub(2);
            format!("buildroom {}", room.min(600))
        }
    };
    scribe.say_bytes(&head, &words);
}

/// Read, with none, one or two damages.
pub fn read_call(scribe: &mut Scribe) {
    let size = match scribe.dice.below(4) {
        0 => scribe.dice.one(&[0, 1, 251, 252]),
        _ => scribe.dice.between(0, 20),
    };
    let parameters = scribe.parameters_of(size as usize);
    let any = scribe.dice.byte();
    let kind = scribe.dice.one(&[0, 0, 1, 1, 2, 255, any]);
    let command = scribe.dice.byte();
    let mut bytes = whole(kind, command, &parameters);
    for _ in 0..scribe.dice.below(3) {
        damage(scribe, &mut bytes);
    }
    scribe.say_bytes("read", &bytes);
}

/// One damage to the bytes given to read.
fn damage(scribe: &mut Scribe, bytes: &mut Vec<u8>) {
    let size = bytes.len() as u32;
    match scribe.dice.below(9) {
        0 => bytes.truncate(scribe.dice.below(size + 1) as usize),
        1 => bytes.truncate(scribe.dice.below(3) as usize),
        2 => {
            bytes.pop();
        }
        3 => bytes.push(scribe.dice.byte()),
        4 if size > 0 => bytes[0] = scribe.dice.one(&[0, 2, ACK, NAK, CAN, 0x81, 0xFF]),
        5 if size > 1 => bytes[1] = scribe.dice.below(4) as u8,
        6 if size > 1 => bytes[1] = bytes[1].wrapping_add(scribe.dice.one(&[1, 0xFF])),
        7 if size > 4 => bytes[2] = scribe.dice.one(&[0, 1, 2, 255]),
        _ if size > 1 => bytes[size as usize - 1] ^= 1 << scribe.dice.below(8),
        _ => {}
    }
}

/// Mask bytes: any, empty, full, or with one bit.
pub fn mask(scribe: &mut Scribe, size: usize) -> Vec<u8> {
    match scribe.dice.below(5) {
        0 => vec![0; size],
        1 => vec![0xFF; size],
        2 => {
            let mut mask = vec![0; size];
            if size > 0 {
                let place = scribe.dice.one(&[0, size - 1, size / 2]);
                mask[place] = 1 << scribe.dice.below(8);
            }
            mask
        }
        _ => scribe.dice.bytes(size),
    }
}

/// Type and Command of a body, mostly the right ones.
fn body_head(scribe: &mut Scribe, command: u8) -> Vec<u8> {
    let any = scribe.dice.byte();
    match scribe.dice.below(10) {
        0 => vec![scribe.dice.one(&[0, 2, any]), command],
        1 => vec![RES, scribe.dice.one(&[2, 6, 7, any])],
        _ => vec![RES, command],
    }
}

/// Sometimes a byte more or fewer, or the front only.
fn resize(scribe: &mut Scribe, body: &mut Vec<u8>) {
    match scribe.dice.below(12) {
        0 => body.push(scribe.dice.byte()),
        1 => {
            body.pop();
        }
        2 => body.truncate(scribe.dice.below(body.len() as u32 + 1) as usize),
        _ => {}
    }
}

pub fn capabilities_call(scribe: &mut Scribe) {
    let mut body = body_head(scribe, 7);
    body.extend(scribe.dice.bytes(8));
    let any = scribe.dice.between(0, 45) as usize;
    let size = scribe.dice.one(&[0, 1, 31, 32, 32, 32, 33, any, any]);
    let mut mask = mask(scribe, size);
    if size >= 32 && !scribe.dice.once_in(3) {
        // Clear the bit for 256 more often than chance would.
        mask[31] &= 0x7F;
    }
    body.extend(mask);
    resize(scribe, &mut body);
    scribe.say_bytes("capabilities", &body);
}

pub fn nodes_call(scribe: &mut Scribe) {
    let mut body = body_head(scribe, 2);
    body.extend(scribe.dice.bytes(2));
    let any = scribe.dice.byte();
    let count = scribe.dice.one(&[0, 29, 29, 29, 29, 28, 30, 1, any]);
    let size = if scribe.dice.once_in(8) {
        scribe.dice.one(&[0, 29])
    } else {
        usize::from(count)
    };
    body.push(count);
    body.extend(mask(scribe, size));
    body.extend(scribe.dice.bytes(2));
    resize(scribe, &mut body);
    let head = match scribe.dice.below(4) {
        0 => format!(
            "nodesroom {}",
            scribe.dice.one(&[0, 231, 231, 232, 233, 600])
        ),
        _ => "nodes".to_string(),
    };
    scribe.say_bytes(&head, &body);
}

/// A time at or around the edges of the range.
pub fn time(scribe: &mut Scribe) -> u32 {
    let ticks = scribe.dice.between(0, 255) * 10;
    let any = scribe.dice.between(0, 2_600);
    let far = scribe
        .dice
        .one(&[65_536, 25_600, 65_540, 999_999_999, 999_999_990]);
    let edge = scribe.dice.one(&[
        0, 1, 9, 10, 11, 1_505, 2_540, 2_549, 2_550, 2_551, 2_555, 2_560,
    ]);
    scribe
        .dice
        .one(&[ticks, ticks, ticks, any, far, edge, edge])
}

pub fn timeouts_call(scribe: &mut Scribe) {
    let (ack, byte) = (time(scribe), time(scribe));
    if scribe.dice.once_in(2) {
        scribe.say(&format!("timeouts {ack} {byte}"));
    } else {
        let room = scribe.dice.one(&[0, 6, 7, 8, 600]);
        scribe.say(&format!("timeoutsroom {room} {ack} {byte}"));
    }
}

pub fn timeouts_response_call(scribe: &mut Scribe) {
    let mut body = body_head(scribe, 6);
    body.extend(scribe.dice.bytes(2));
    if scribe.dice.once_in(2) {
        body[2] = scribe.dice.one(&[0, 1, 254, 255]);
    }
    resize(scribe, &mut body);
    scribe.say_bytes("timeoutsres", &body);
}

/// One of those lines, or a long one.
pub fn malformed(scribe: &mut Scribe) {
    if scribe.dice.once_in(12) {
        long_line(scribe);
        return;
    }
    let line = scribe.dice.one(MALFORMED);
    scribe.say(line);
}

/// Lines of 4,096 bytes, which are calls, and of 4,097, which are not.
fn long_line(scribe: &mut Scribe) {
    let any = scribe.dice.byte();
    let byte = scribe.dice.one(&[START, 0x55, any]);
    match scribe.dice.below(5) {
        0 => scribe.say_bytes("read", &[byte; 1_364]),
        1 => scribe.session(byte, &[byte; 1_362]),
        2 => scribe.say_bytes("bytes", &[byte; 1_364]),
        3 => scribe.say_bytes("timeoutsres", &[byte; 1_362]),
        _ => scribe.say(&format!("#{}", " tick".repeat(819))),
    }
}
