//! The scenes of the random scripts for the time on the wire (request P2):
//! frames whose sizes stand at its steps, sent by the host and by the stand-in,
//! with answers at the edge of their waits.

use crate::frame::{ACK, CAN, NAK, REQ, RES};
use crate::link::Link;
use crate::module_scenes::{checksum_at_edge, settle_line};
use crate::scenes::coincide;
use crate::scribe::{whole, Scribe};
use crate::sending::State;

/// Sizes of frames: the least and the most, and some of those before and
/// behind a step of the time on the wire.
const SIZES: [usize; 14] = [5, 11, 12, 23, 24, 34, 35, 103, 104, 241, 242, 253, 254, 257];

/// A single byte about when a copy is lost, after any of the four.
pub fn answer_at_loss(scribe: &mut Scribe) {
    at_either_end(scribe, |scribe| {
        free(scribe);
        open_sized(scribe);
        let number = scribe.dice.below(4);
        not_delivered(scribe, number);
        answer(scribe);
        respond(scribe);
    });
}

/// A copy that was due inside a frame and goes out behind the 06 or 15 to it:
/// copy 1, or a later one whose back-off ended inside the frame. Its wait goes
/// by its own bytes alone.
pub fn behind_an_answer(scribe: &mut Scribe) {
    at_either_end(scribe, |scribe| {
        free(scribe);
        let frame = received(scribe);
        if scribe.dice.once_in(2) {
            scribe.begin(&frame, 2);
            open_sized(scribe);
        } else {
            open_sized(scribe);
            let number = scribe.dice.below(3);
            not_delivered(scribe, number);
            scribe.byte(NAK);
            let left = scribe.sender_left().unwrap_or(1);
            scribe.ticks(left - 1);
            scribe.begin(&frame, 2);
            scribe.ticks(1);
        }
        scribe.finish();
        answer(scribe);
        respond(scribe);
    });
}

/// A silent line to the end of all four copies, in one line or with the ticks
/// around each loss apart, and a byte that comes about then.
pub fn silent_line(scribe: &mut Scribe) {
    at_either_end(scribe, |scribe| {
        free(scribe);
        open_sized(scribe);
        if scribe.dice.once_in(2) {
            let [.., failed] = scribe.silent_ticks();
            scribe.ticks_near(failed, 1);
        } else {
            not_heard(scribe);
        }
        scribe.single();
    });
}

/// Four losses, each with the tick before it and its own apart.
fn not_heard(scribe: &mut Scribe) {
    while let Some(left) = scribe.sender_left() {
        if let State::BackingOff(_) = scribe.link().sender_state() {
            scribe.ticks(left);
            continue;
        }
        scribe.ticks(left - 2);
        scribe.ticks(1);
        scribe.ticks(1);
    }
}

/// A frame goes over to the other end, and the ACK to it comes back about when
/// the copy is lost.
pub fn ack_goes_over(scribe: &mut Scribe) {
    free(scribe);
    scribe.on_stand_in(free);
    settle_line(scribe);
    let module = scribe.dice.once_in(2);
    at(scribe, module, open_sized);
    scribe.pass();
    at(scribe, module, to_loss);
    scribe.pass();
    at(scribe, module, respond);
}

/// A frame whose Checksum comes about when the stand-in's copy is lost: up to
/// then it is cancelled.
pub fn checksum_at_loss(scribe: &mut Scribe) {
    scribe.on_stand_in(|scribe| {
        free(scribe);
        open_sized(scribe);
    });
    checksum_at_edge(scribe);
}

/// An abort about on the tick that loses a copy, or ends what follows.
pub fn abort_at_loss(scribe: &mut Scribe) {
    at_either_end(scribe, |scribe| {
        free(scribe);
        open_sized(scribe);
        coincide(scribe);
    });
}

/// Writes a scene for the host or for the stand-in.
pub fn at(scribe: &mut Scribe, module: bool, scene: impl FnOnce(&mut Scribe)) {
    if module {
        scribe.on_stand_in(scene);
    } else {
        scene(scribe);
    }
}

pub fn at_either_end(scribe: &mut Scribe, scene: impl FnOnce(&mut Scribe)) {
    let module = scribe.dice.once_in(2);
    at(scribe, module, scene);
}

/// Brings the end to hunt with nothing open, from whatever state.
pub fn free(scribe: &mut Scribe) {
    if !scribe.hunting() {
        scribe.ticks(u32::from(Link::FRAME_TICKS) + 1);
    }
    if scribe.link().busy() && scribe.dice.once_in(4) {
        scribe.restart();
    }
    if let State::BackingOff(left) = scribe.link().sender_state() {
        scribe.ticks(u32::from(left));
    }
    if let State::Waiting(_) = scribe.link().sender_state() {
        scribe.byte(ACK);
    }
    if scribe.session_left().is_some() {
        let command = scribe.session_command();
        scribe.runs(&whole(RES, command, &[]));
    }
}

/// Opens a send or session whose frame has one of the sizes.
pub fn open_sized(scribe: &mut Scribe) {
    let command = scribe.command();
    let size = scribe.dice.one(&SIZES);
    let parameters = scribe.parameters_of(size - 5);
    match scribe.dice.below(4) {
        0..=1 => scribe.session(command, &parameters),
        2 => scribe.send(REQ, command, &parameters),
        _ => scribe.send(RES, command, &parameters),
    }
}

/// Copies that are refused at once or lost, so that a later one waits.
pub fn not_delivered(scribe: &mut Scribe, number: u32) {
    for _ in 0..number {
        if scribe.dice.once_in(3) {
            let wait = scribe.wait();
            scribe.ticks(wait);
        } else {
            let byte = scribe.dice.one(&[NAK, CAN]);
            scribe.byte(byte);
        }
        if let State::BackingOff(left) = scribe.link().sender_state() {
            scribe.ticks(u32::from(left));
        }
    }
}

/// Ticks to the last on which an ACK counts, to the next, which loses the copy,
/// or to one beside these.
pub fn to_loss(scribe: &mut Scribe) {
    if let State::Waiting(ticks) = scribe.link().sender_state() {
        let left = scribe.wait() - u32::from(ticks);
        let around = scribe.dice.one(&[0, 1, 1, 1, 2, 2, 3]);
        scribe.ticks((left + around).saturating_sub(2));
    }
}

/// A single byte, mostly an ACK, about when the copy is lost.
fn answer(scribe: &mut Scribe) {
    to_loss(scribe);
    let byte = scribe.dice.one(&[ACK, ACK, ACK, ACK, NAK, CAN]);
    scribe.byte(byte);
}

/// Now and then the response that a session awaits since a late ACK, at once
/// or about when it is too late.
pub fn respond(scribe: &mut Scribe) {
    let Some(left) = scribe.session_left() else {
        return;
    };
    let command = scribe.session_command();
    if scribe.dice.once_in(3) {
        scribe.ticks_near(left, 1);
    }
    if scribe.dice.once_in(2) {
        scribe.give(&whole(RES, command, &[]));
    }
}

/// A short frame of any type, right or damaged.
fn received(scribe: &mut Scribe) -> Vec<u8> {
    let command = scribe.command();
    let kind = scribe.dice.one(&[REQ, REQ, RES, 2]);
    let frame = whole(kind, command, &[]);
    if scribe.dice.once_in(3) {
        scribe.damaged(frame)
    } else {
        frame
    }
}
