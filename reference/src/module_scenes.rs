//! The scenes of the random scripts for a stand-in (request P5): alone, at the
//! edges of its one rule, and with the host at the other end of `pass`.

use crate::choice::Role;
use crate::ends::Direction;
use crate::frame::{REQ, RES, START};
use crate::link::Link;
use crate::scenes::*;
use crate::scribe::{whole, Scribe};
use crate::sending::{wire_ticks, State};

/// Lines with `module` or `pass`; most are malformed, a few only look so.
#[rustfmt::skip]
const MALFORMED: &[&str] = &[
    "module", "module ", " module", "module  tick", "module tick ", "module tick 1", "Module tick",
    "MODULE tick", "module Tick", "module TICK", "modules tick", "moduletick", "module\ttick",
    "module tock", "module module", "module module tick", "module module module tick",
    "module room", "module room 258 254", "module pass", "module build 00 07",
    "module buildroom 257 00 07", "module read 01 03 00 07 FB", "module capabilities",
    "module nodes", "module timeouts 0 0", "module timeoutsres 01 06 00 00",
    "module writetimeouts 0 0", "module # tick", "#module tick", "module byte", "module byte 6",
    "module byte 06 06", "module byte 0g", "module bytes 6", "module bytes 55 ",
    "module bytes 55  55", "module ticks", "module ticks x", "module ticks -1",
    "module ticks 1000000000", "module ticks 0 0", "module send", "module send 00",
    "module send 00 07 1", "module session", "module session 7", "module restart 1",
    "module restart ", "tick module", "byte module", "host tick", "pass 1", "pass ", " pass",
    "pass pass", "PASS", "passes", "pass module", "pass 06", "module bytes", "module tick",
    "module ticks 0", "module ticks 000000001", "pass",
];

/// Scenes of the host's kinds, each of which a stand-in can play too.
const KNOWN: &[fn(&mut Scribe)] = &[
    split_frame,
    begin_frame,
    special_bytes,
    slow_frame,
    answer_at_edge,
    answers_at_once,
    send_inside,
    back_off_inside,
    coincide,
    session_at_edge,
    stray,
    bad_sums,
    reserved_frame,
    restart,
    rooms,
    busy,
    noise,
    lengths,
];

/// A scene of the host's kinds, on the stand-in.
pub fn known_scene(scribe: &mut Scribe) {
    let scene = scribe.dice.one(KNOWN);
    scribe.on_stand_in(scene);
}

/// The same scenes on the host, so that it too is in any state at a `pass`.
pub fn host_scene(scribe: &mut Scribe) {
    let scene = scribe.dice.one(KNOWN);
    scene(scribe);
}

/// Frames of every kind while the stand-in waits for an ACK.
pub fn frame_while_waiting(scribe: &mut Scribe) {
    scribe.on_stand_in(|scribe| {
        wait_for_ack(scribe);
        let ticks = scribe.dice.one(&[0, 1, 50, 800]);
        scribe.ticks(ticks);
        for _ in 0..scribe.dice.between(1, 3) {
            let frame = scribe.some_frame();
            scribe.give(&frame);
        }
        if scribe.dice.once_in(2) {
            scribe.single();
        }
    });
}

/// Several frames and single bytes in one run, which stops behind each.
pub fn frames_in_a_run(scribe: &mut Scribe) {
    scribe.on_stand_in(|scribe| {
        wait_for_ack(scribe);
        let mut run = Vec::new();
        for _ in 0..scribe.dice.between(2, 4) {
            run.extend(scribe.some_frame());
            if scribe.dice.once_in(4) {
                run.push(scribe.dice.one(&[0x06, 0x15, 0x18, 0x55]));
            }
        }
        scribe.runs(&run);
    });
}

/// A frame whose Checksum comes about when the copy is lost.
pub fn checksum_at_edge(scribe: &mut Scribe) {
    scribe.on_stand_in(|scribe| {
        wait_for_ack(scribe);
        let State::Waiting(waited) = scribe.link().sender_state() else {
            return;
        };
        let left = scribe.wait() - u32::from(waited);
        let before = scribe.dice.one(&[0, 1, 2, 700, 1_499]).min(left);
        scribe.ticks(left - before);
        let frame = right_frame(scribe);
        begin_some(scribe, &frame);
        scribe.ticks_near(before, 2);
        scribe.finish();
        if scribe.dice.once_in(2) {
            scribe.single();
        }
    });
}

/// A copy lost inside a frame, whose Checksum comes about when the back-off
/// ends: then a due copy follows.
pub fn lost_inside(scribe: &mut Scribe) {
    scribe.on_stand_in(|scribe| {
        wait_for_ack(scribe);
        let State::Waiting(waited) = scribe.link().sender_state() else {
            return;
        };
        let left = scribe.wait() - u32::from(waited);
        let before = scribe.dice.one(&[1, 2, 300]).min(left);
        scribe.ticks(left - before);
        let frame = right_frame(scribe);
        begin_some(scribe, &frame);
        scribe.ticks(before);
        if let State::BackingOff(left) = scribe.link().sender_state() {
            let short = scribe.dice.once_in(4);
            let ticks = if short { 0 } else { u32::from(left) };
            scribe.ticks_near(ticks, 1);
        }
        scribe.finish();
    });
}

/// Bad sums on both sides of a frame that is cancelled, so that the run's
/// return to 0 shows.
pub fn sums_around_cancelled(scribe: &mut Scribe) {
    scribe.on_stand_in(|scribe| {
        wait_for_ack(scribe);
        some_bad_sums(scribe, 2);
        let frame = right_frame(scribe);
        scribe.give(&frame);
        some_bad_sums(scribe, 3);
    });
}

fn some_bad_sums(scribe: &mut Scribe, most: u32) {
    for _ in 0..scribe.dice.between(1, most) {
        let command = scribe.command();
        let frame = whole(REQ, command, &[]);
        let bad = scribe.damaged(frame);
        scribe.give(&bad);
    }
}

/// A reserved type while the stand-in waits, and a right one behind it.
pub fn reserved_while_waiting(scribe: &mut Scribe) {
    scribe.on_stand_in(|scribe| {
        wait_for_ack(scribe);
        reserved_frame(scribe);
        let frame = right_frame(scribe);
        scribe.give(&frame);
    });
}

/// A restart of the stand-in, before and behind which it cancels.
pub fn restart_while_waiting(scribe: &mut Scribe) {
    scribe.on_stand_in(|scribe| {
        wait_for_ack(scribe);
        if scribe.dice.once_in(2) {
            let frame = right_frame(scribe);
            scribe.give(&frame);
        }
        scribe.restart();
        let frame = right_frame(scribe);
        scribe.give(&frame);
        wait_for_ack(scribe);
        scribe.give(&frame);
    });
}

/// Brings the end to wait for an ACK, from nearly whatever state.
fn wait_for_ack(scribe: &mut Scribe) {
    if !scribe.hunting() {
        scribe.ticks(u32::from(Link::FRAME_TICKS) + 1);
    }
    if scribe.session_left().is_some() {
        let command = scribe.session_command();
        scribe.runs(&whole(RES, command, &[]));
    }
    scribe.open_some();
    if let State::BackingOff(left) = scribe.link().sender_state() {
        scribe.ticks(u32::from(left));
    }
}

/// A frame of Type 00 or 01 with the right checksum, often a response to the
/// open session.
fn right_frame(scribe: &mut Scribe) -> Vec<u8> {
    let kind = scribe.dice.one(&[REQ, RES, RES]);
    let command = scribe.session_command();
    let parameters = scribe.parameters();
    whole(kind, command, &parameters)
}

/// Some of a frame, or all but its Checksum.
fn begin_some(scribe: &mut Scribe, frame: &[u8]) {
    let last = frame.len() as u32 - 1;
    let any = scribe.dice.between(1, last);
    let size = scribe.dice.one(&[1, last, any]);
    scribe.begin(frame, size as usize);
}

/// What was put out so far goes over; nothing may be.
pub fn pass_now(scribe: &mut Scribe) {
    scribe.pass();
}

/// Passes until nothing is left to give, but not for ever.
pub fn settle_line(scribe: &mut Scribe) {
    for _ in 0..4 {
        if scribe.ends().silent() {
            return;
        }
        scribe.pass();
    }
}

/// As many ticks of both ends.
fn both_ticks(scribe: &mut Scribe, number: u32) {
    scribe.ticks(number);
    scribe.on_stand_in(|scribe| scribe.ticks(number));
}

/// A session of one end that the other answers.
pub fn conversation(scribe: &mut Scribe) {
    settle_line(scribe);
    let (command, parameters) = (scribe.command(), scribe.parameters());
    let answer = scribe.parameters();
    let module_asks = scribe.dice.once_in(3);
    let wait = u32::from(Link::ACK_TICKS + wire_ticks(parameters.len() + 5));
    let ticks = scribe.dice.one(&[0, 1, 12, wait - 1, 4_999, 5_000]);
    if module_asks {
        scribe.on_stand_in(|scribe| scribe.session(command, &parameters));
    } else {
        scribe.session(command, &parameters);
    }
    scribe.pass();
    if scribe.dice.once_in(2) {
        // The ACK goes over before the answer is sent, else together with it.
        scribe.pass();
        both_ticks(scribe, ticks);
    }
    if module_asks {
        scribe.send(RES, command, &answer);
    } else {
        scribe.on_stand_in(|scribe| scribe.send(RES, command, &answer));
    }
    scribe.pass();
    scribe.pass();
}

/// Both ends send before either is given what the other sent.
pub fn both_at_once(scribe: &mut Scribe) {
    if scribe.dice.once_in(2) {
        settle_line(scribe);
    }
    scribe.open_some();
    scribe.on_stand_in(|scribe| scribe.open_some());
    for _ in 0..scribe.dice.between(2, 6) {
        scribe.pass();
        let wait = longer_wait(scribe);
        let ticks = scribe.dice.one(&[0, 0, 1, 99, 100, 101, 1_100, wait]);
        both_ticks(scribe, ticks);
    }
}

/// The wait of the end whose copies wait longer: both copies are lost by then.
fn longer_wait(scribe: &Scribe) -> u32 {
    let wait = |role| u32::from(scribe.ends().of(role).link().ack_ticks());
    wait(Role::Host).max(wait(Role::Module))
}

/// Fills a direction, or both, to the edge of what is kept and beyond.
pub fn overfull(scribe: &mut Scribe) {
    match scribe.dice.below(5) {
        0..=1 => fill(scribe),
        2..=3 => scribe.on_stand_in(fill),
        _ => {
            fill(scribe);
            scribe.on_stand_in(fill);
        }
    }
    scribe.pass();
    if scribe.dice.once_in(2) {
        scribe.pass();
    }
}

/// Copies until 1,024 bytes are put out, one fewer or more; each restart
/// behind them is a byte.
pub fn fill(scribe: &mut Scribe) {
    while scribe.has_room() && scribe.put_out() + 6 <= Direction::MOST {
        scribe.restart();
        let left = (Direction::MOST - scribe.put_out()) as u32;
        let goal = left + scribe.dice.between(0, 2) - 1;
        let size = goal.clamp(5, 257) - 5;
        let parameters = scribe.parameters_of(size as usize);
        scribe.send(REQ, START, &parameters);
        if goal > left {
            break;
        }
    }
    for _ in 0..scribe.dice.below(4) {
        scribe.restart();
    }
}

/// A pass whose runs are refused; what they would have brought is gone.
pub fn refused_pass(scribe: &mut Scribe) {
    if scribe.dice.once_in(2) {
        scribe.open_some();
        scribe.on_stand_in(|scribe| scribe.restart());
    } else {
        scribe.restart();
        scribe.on_stand_in(|scribe| scribe.open_some());
    }
    let line = scribe.dice.one(&[0, 257, 258]);
    let up = scribe.dice.one(&[0, 253]);
    scribe.room(line, up);
    for _ in 0..scribe.dice.between(1, 2) {
        scribe.pass();
    }
    if scribe.dice.once_in(2) {
        scribe.on_stand_in(|scribe| scribe.ticks(1));
    }
    scribe.room(Link::LINE_ROOM, Link::UP_ROOM);
    scribe.pass();
}

/// One of the malformed lines, or a long one.
pub fn malformed_module(scribe: &mut Scribe) {
    if scribe.dice.once_in(12) {
        long_module_line(scribe);
        return;
    }
    let line = scribe.dice.one(MALFORMED);
    scribe.say(line);
}

/// Lines of 4,094 and 4,095 bytes, which are calls, and of more than 4,096,
/// which are not.
fn long_module_line(scribe: &mut Scribe) {
    let byte = scribe.dice.one(&[START, 0x55]);
    match scribe.dice.below(4) {
        0 => scribe.say_bytes("module bytes", &[byte; 1_361]),
        1 => scribe.say_bytes("module bytes", &[byte; 1_362]),
        2 => scribe.say_bytes("module session", &[byte; 1_360]),
        _ => scribe.say_bytes("module session", &[byte; 1_361]),
    }
}
