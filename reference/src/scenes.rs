//! The scenes of the random scripts that play on the link. Each writes a few
//! lines from whatever state the model link is in, aimed at the edges of one
//! rule.

use crate::choice::Mode;
use crate::frame::{ACK, CAN, NAK, REQ, RES, START};
use crate::link::Link;
use crate::scribe::{whole, Scribe, SPECIAL};
use crate::sending::State;

/// Ticks from the 01 to the abort.
const ABORT: u32 = Link::FRAME_TICKS as u32 + 1;

/// A frame in pieces, with ticks between that often add up to about 1,500.
pub fn split_frame(scribe: &mut Scribe) {
    let frame = scribe.some_frame();
    if frame.len() > 1 {
        let first = scribe.dice.between(1, frame.len() as u32 - 1) as usize;
        scribe.begin(&frame, first);
    }
    for _ in 0..scribe.dice.below(4) {
        let most = scribe.dice.one(&[2, 30, 500]);
        let ticks = scribe.dice.between(0, most);
        scribe.ticks(ticks);
        scribe.go_on();
    }
    let ticks = scribe.dice.one(&[0, 1, 499, 500]);
    scribe.ticks(ticks);
    scribe.finish();
}

/// A frame begun and left.
pub fn begin_frame(scribe: &mut Scribe) {
    let frame = scribe.some_frame();
    let first = scribe.dice.between(1, frame.len() as u32 - 1) as usize;
    scribe.begin(&frame, first);
}

pub fn open_send(scribe: &mut Scribe) {
    scribe.open_some();
}

pub fn single(scribe: &mut Scribe) {
    scribe.single();
}

pub fn restart(scribe: &mut Scribe) {
    let wait = scribe.wait();
    let ticks = scribe.dice.one(&[0, 1, 99, 100, 1_500, wait]);
    if scribe.dice.once_in(2) {
        scribe.ticks(ticks);
    }
    scribe.restart();
    if scribe.dice.once_in(2) {
        scribe.finish();
    }
}

/// Bytes of no meaning, with a few that have one.
pub fn noise(scribe: &mut Scribe) {
    let size = scribe.dice.between(0, 12) as usize;
    let mut bytes = scribe.dice.bytes(size);
    if size > 0 && scribe.dice.once_in(2) {
        let place = scribe.dice.below(size as u32) as usize;
        bytes[place] = scribe.dice.one(&SPECIAL);
    }
    scribe.give(&bytes);
}

/// A frame whose command, parameters and sometimes checksum are 01 06 15 18,
/// often while a copy waits for its ACK (section 11).
pub fn special_bytes(scribe: &mut Scribe) {
    if scribe.dice.once_in(2) {
        scribe.open_some();
    }
    let command = scribe.dice.one(&SPECIAL);
    let size = scribe.dice.between(0, 9) as usize;
    let parameters: Vec<u8> = (0..size).map(|_| scribe.dice.one(&SPECIAL)).collect();
    let kind = scribe.dice.one(&[REQ, RES, START, ACK, NAK, CAN]);
    let mut frame = whole(kind, command, &parameters);
    if scribe.dice.once_in(4) {
        let last = frame.len() - 1;
        frame[last] = scribe.dice.one(&SPECIAL);
    }
    let first = scribe.dice.between(1, frame.len() as u32 - 1) as usize;
    scribe.begin(&frame, first);
    if scribe.dice.once_in(3) {
        let ticks = scribe.dice.between(0, 700);
        scribe.ticks(ticks);
    }
    scribe.finish();
    if scribe.dice.once_in(3) {
        scribe.single();
    }
}

/// A frame that ends about 1,500 ticks after its 01.
pub fn slow_frame(scribe: &mut Scribe) {
    let mut frame = scribe.some_frame();
    if scribe.dice.once_in(4) && frame.len() > 2 {
        frame = scribe.damaged(frame);
    }
    if scribe.hunting() {
        let first = scribe.dice.between(1, frame.len() as u32 - 1) as usize;
        scribe.begin(&frame, first);
    }
    while scribe.dice.once_in(2) {
        let left = scribe.frame_left().unwrap_or(1);
        let ticks = scribe.dice.below(left);
        scribe.ticks(ticks);
        scribe.go_on();
    }
    if let Some(left) = scribe.frame_left() {
        scribe.ticks_near(left - 1, 2);
    }
    scribe.finish();
}

/// A single byte about when a copy is lost or a back-off ends.
pub fn answer_at_edge(scribe: &mut Scribe) {
    scribe.open_some();
    if let Some(left) = scribe.sender_left() {
        scribe.ticks_near(left, 2);
    }
    scribe.single();
}

/// NAK or CAN, rarely ACK, straight after every copy.
pub fn answers_at_once(scribe: &mut Scribe) {
    scribe.open_some();
    for _ in 0..4 {
        let byte = scribe.dice.one(&[NAK, NAK, NAK, CAN, CAN, CAN, ACK]);
        scribe.byte(byte);
        if let State::BackingOff(left) = scribe.link().sender_state() {
            let around = scribe.dice.one(&[0, 0, 1]);
            scribe.ticks_near(u32::from(left), around);
        }
    }
}

/// A send or session inside a frame, and an end of that frame.
pub fn send_inside(scribe: &mut Scribe) {
    if scribe.hunting() {
        begin_frame(scribe);
    }
    scribe.open_some();
    end_of_frame(scribe);
}

/// Ends the frame being received in one of section 4's ways.
fn end_of_frame(scribe: &mut Scribe) {
    match scribe.dice.below(6) {
        0 => {
            if let Some(left) = scribe.frame_left() {
                scribe.ticks_near(left, 1);
            }
        }
        1 => {
            let ticks = scribe.dice.between(0, 300);
            scribe.ticks(ticks);
            scribe.finish();
        }
        2 => scribe.restart(),
        3 => {
            scribe.single();
            scribe.finish();
        }
        _ => scribe.finish(),
    }
}

/// A frame begun so that the next back-off ends inside it.
pub fn back_off_inside(scribe: &mut Scribe) {
    scribe.open_some();
    if let State::Waiting(_) = scribe.link().sender_state() {
        let byte = scribe.dice.one(&[NAK, CAN]);
        scribe.byte(byte);
    }
    let State::BackingOff(left) = scribe.link().sender_state() else {
        return;
    };
    let before = u32::from(left).min(scribe.dice.one(&[1, 2, 50, 1_400, 1_500, 1_501, 1_502]));
    scribe.ticks(u32::from(left) - before);
    let frame = scribe.some_frame();
    let first = scribe.dice.between(1, frame.len() as u32 - 1) as usize;
    scribe.begin(&frame, first);
    scribe.ticks_near(before, 1);
    if scribe.dice.once_in(3) {
        scribe.single();
    }
    end_of_frame(scribe);
}

/// Begins a frame so that its abort falls on the tick of another end, or next
/// to it.
pub fn coincide(scribe: &mut Scribe) {
    if scribe.dice.once_in(2) {
        session_awaiting(scribe);
    }
    scribe.open_some();
    if scribe.dice.once_in(2) {
        later_copy(scribe);
    }
    let mut ends: Vec<u32> = scribe.sender_left().into_iter().collect();
    if let State::Waiting(ticks) = scribe.link().sender_state() {
        let loss = scribe.wait() - u32::from(ticks);
        ends.extend(behind_a_loss(scribe).map(|ticks| loss + ticks));
    }
    ends.extend(scribe.session_left());
    ends.retain(|&end| end >= ABORT);
    if ends.is_empty() || !scribe.hunting() {
        scribe.ticks(ABORT);
        return;
    }
    let end = scribe.dice.one(&ends);
    let around = scribe.dice.one(&[0, 0, 1]);
    scribe.ticks_near(end - ABORT, around);
    scribe.byte(START);
    if scribe.dice.once_in(3) {
        let length = scribe.dice.between(3, 255) as u8;
        scribe.byte(length);
    }
    if scribe.dice.once_in(2) {
        scribe.ticks(ABORT - 1);
        scribe.ticks(1);
        scribe.ticks(1);
    } else {
        scribe.ticks_near(ABORT, 1);
    }
}

/// Ticks from a loss by time to ends that may follow it: of a back-off; or,
/// where the next copy goes out at once, of its wait and of what follows that.
fn behind_a_loss(scribe: &Scribe) -> [u32; 3] {
    match scribe.mode() {
        Mode::Spaced => [100, 1_100, 2_100],
        Mode::Sooner => [500, scribe.wait(), scribe.wait() + 500],
    }
}

/// Refuses up to three copies, so that a later one waits.
fn later_copy(scribe: &mut Scribe) {
    for _ in 0..scribe.dice.between(1, 3) {
        if let (State::Waiting(_), true) = (scribe.link().sender_state(), scribe.hunting()) {
            scribe.byte(NAK);
        }
        if let State::BackingOff(left) = scribe.link().sender_state() {
            scribe.ticks(u32::from(left));
        }
    }
}

/// Brings a session to await its response, from whatever state.
fn session_awaiting(scribe: &mut Scribe) {
    if scribe.session_left().is_some() {
        return;
    }
    if !scribe.hunting() {
        scribe.ticks(ABORT);
    }
    for _ in 0..8 {
        if let State::BackingOff(left) = scribe.link().sender_state() {
            scribe.ticks(u32::from(left));
        }
        match scribe.link().sender_state() {
            State::Waiting(_) => scribe.byte(ACK),
            _ if !scribe.link().busy() => {
                let command = scribe.command();
                let parameters = scribe.parameters();
                scribe.session(command, &parameters);
            }
            _ => {}
        }
        if scribe.session_left().is_some() {
            return;
        }
    }
}

/// A frame whose last byte comes about 5,000 ticks after a session's ACK.
pub fn session_at_edge(scribe: &mut Scribe) {
    session_awaiting(scribe);
    let Some(left) = scribe.session_left() else {
        return;
    };
    let command = match scribe.dice.below(4) {
        0 => scribe.command(),
        _ => scribe.session_command(),
    };
    let kind = scribe.dice.one(&[RES, RES, RES, REQ, 2]);
    let parameters = scribe.parameters();
    let mut frame = whole(kind, command, &parameters);
    if scribe.dice.once_in(8) {
        frame = scribe.damaged(frame);
    }
    if scribe.dice.once_in(6) {
        // Well before the edge.
        scribe.give(&frame);
        return;
    }
    let before = scribe.dice.one(&[0, 0, 1, 700, 1_499]).min(left);
    scribe.ticks(left - before);
    let first = scribe.dice.between(1, frame.len() as u32 - 1) as usize;
    scribe.begin(&frame, first);
    scribe.ticks_near(before, 2);
    scribe.finish();
}

/// A single byte or a response, whatever the state.
pub fn stray(scribe: &mut Scribe) {
    match scribe.dice.below(4) {
        0 => scribe.single(),
        1 => {
            let run = [scribe.dice.byte(), scribe.dice.one(&[ACK, NAK, CAN]), ACK];
            scribe.runs(&run);
        }
        2 => {
            let command = scribe.session_command();
            let parameters = scribe.parameters();
            let frame = whole(RES, command, &parameters);
            scribe.give(&frame);
        }
        _ => {
            let command = scribe.command();
            let parameters = scribe.parameters();
            let frame = whole(RES, command, &parameters);
            scribe.give(&frame);
        }
    }
    if scribe.dice.once_in(2) {
        let ticks = scribe.dice.one(&[1, 50, 99, 100, 101, 800]);
        scribe.ticks(ticks);
    }
}

/// Bad sums with other things between.
pub fn bad_sums(scribe: &mut Scribe) {
    for _ in 0..scribe.dice.between(2, 8) {
        let command = scribe.command();
        let size = scribe.dice.between(0, 5) as usize;
        let parameters = scribe.parameters_of(size);
        let kind = scribe.dice.one(&[REQ, RES, 2, 255]);
        let frame = whole(kind, command, &parameters);
        match scribe.dice.below(20) {
            0..=13 => {
                let bad = scribe.damaged(frame);
                scribe.give(&bad);
            }
            14..=15 => scribe.give(&frame),
            16 => scribe.give(&[START, 2]),
            17 => scribe.single(),
            18 => {
                scribe.begin(&frame, 3);
                scribe.ticks(ABORT);
            }
            _ => noise(scribe),
        }
    }
}

/// A frame of reserved type.
pub fn reserved_frame(scribe: &mut Scribe) {
    let kind = scribe.reserved_kind();
    let command = scribe.command();
    let parameters = scribe.parameters();
    let mut frame = whole(kind, command, &parameters);
    if scribe.dice.once_in(4) {
        frame = scribe.damaged(frame);
    }
    scribe.begin(&frame, 1);
    if scribe.dice.once_in(3) {
        scribe.open_some();
    }
    scribe.finish();
}

/// Short rooms, some calls, and mostly enough room again.
pub fn rooms(scribe: &mut Scribe) {
    let line = scribe.dice.one(&[0, 1, 257, 257, 258, 258, 259, 600]);
    let up = scribe.dice.one(&[0, 1, 253, 253, 254, 254, 255, 600]);
    scribe.room(line, up);
    for _ in 0..scribe.dice.between(1, 5) {
        match scribe.dice.below(7) {
            0 => scribe.ticks(1),
            1 => scribe.restart(),
            2 => scribe.single(),
            3 => {
                let run = scribe.some_frame();
                scribe.run(&run);
            }
            4 => {
                // All of send's refusals at once: ROOM is said.
                let kind = scribe.dice.one(&[0, 1, 2, 255]);
                let size = scribe.dice.one(&[0, 252, 253]);
                let parameters = scribe.parameters_of(size);
                scribe.send(kind, 7, &parameters);
            }
            5 => {
                let size = scribe.dice.one(&[0, 252, 253]);
                let parameters = scribe.parameters_of(size);
                scribe.session(7, &parameters);
            }
            _ => {
                scribe.run(&[]);
            }
        }
    }
    if !scribe.dice.once_in(10) || !scribe.has_room() {
        scribe.room(Link::LINE_ROOM, Link::UP_ROOM);
    }
}

/// Numbers of parameters at both ends.
pub fn lengths(scribe: &mut Scribe) {
    let size = scribe.dice.one(&[0, 1, 251, 252, 252, 253, 254, 300]);
    let parameters = scribe.parameters_of(size);
    let command = scribe.command();
    match scribe.dice.below(5) {
        0 => {
            let kind = scribe.dice.one(&[REQ, RES, 2]);
            scribe.send(kind, command, &parameters);
        }
        1 => scribe.session(command, &parameters),
        2 => {
            let mut words = vec![scribe.dice.one(&[REQ, RES, 2]), command];
            words.extend_from_slice(&parameters);
            scribe.say_bytes("build", &words);
        }
        _ => {
            let parameters = &parameters[..parameters.len().min(252)];
            let kind = scribe.dice.one(&[REQ, RES]);
            let frame = whole(kind, command, parameters);
            scribe.give(&frame);
        }
    }
    if scribe.dice.once_in(2) {
        settle(scribe);
    }
}

/// Refusals of sends and sessions in their order.
pub fn busy(scribe: &mut Scribe) {
    if scribe.dice.once_in(2) {
        scribe.open_some();
    }
    let size = scribe.dice.one(&[0, 3, 252, 253]);
    let parameters = scribe.parameters_of(size);
    let command = scribe.command();
    if scribe.dice.once_in(2) {
        let kind = scribe.dice.one(&[REQ, RES, 2, 255]);
        scribe.send(kind, command, &parameters);
    } else {
        scribe.session(command, &parameters);
    }
    if scribe.dice.once_in(2) {
        settle(scribe);
    }
}

/// Acknowledges what is open and answers a session, so that a next send is
/// not refused for BUSY.
fn settle(scribe: &mut Scribe) {
    if !scribe.hunting() {
        scribe.ticks(ABORT);
    }
    scribe.byte(ACK);
    if scribe.session_left().is_some() {
        let command = scribe.session_command();
        scribe.runs(&whole(RES, command, &[]));
    }
}

/// A line that stays silent for long: to copy 2, 3 or 4 of the open frame, or
/// to its failure.
pub fn silence(scribe: &mut Scribe) {
    scribe.open_some();
    let [second, third, fourth, failed] = scribe.silent_ticks();
    let ticks = scribe
        .dice
        .one(&[second, third, fourth, failed - 1, failed, failed + 1]);
    scribe.ticks(ticks);
    if scribe.dice.once_in(2) {
        session_awaiting(scribe);
        scribe.ticks_near(u32::from(Link::RESPONSE_TICKS), 1);
    }
}

/// Any call with any bytes.
pub fn anything(scribe: &mut Scribe) {
    let size = scribe.dice.one(&[0, 1, 2, 5, 40]);
    let bytes = scribe.dice.bytes(size);
    match scribe.dice.below(10) {
        0 => {
            let kind = scribe.dice.below(3) as u8;
            let command = scribe.dice.byte();
            scribe.send(kind, command, &bytes);
        }
        1 => {
            let command = scribe.dice.byte();
            scribe.session(command, &bytes);
        }
        2 => {
            let byte = scribe.dice.byte();
            scribe.byte(byte);
        }
        3 => scribe.single(),
        4 => {
            scribe.run(&bytes);
        }
        5 => {
            let frame = scribe.some_frame();
            scribe.runs(&frame);
        }
        6 => {
            let most = scribe.dice.one(&[1, 10, 2_000]);
            let ticks = scribe.dice.between(0, most);
            scribe.ticks(ticks);
        }
        7 if scribe.dice.once_in(6) => scribe.restart(),
        7 => scribe.byte(START),
        8 => scribe.say_bytes("read", &bytes),
        _ => scribe.say_bytes("capabilities", &bytes),
    }
}
