//! The scenes of the random scripts for the two modes (request P4): what
//! follows a loss by time and a NAK or CAN about then, at both ends and in both
//! modes, and openings in every state.

use crate::choice::Mode;
use crate::frame::{ACK, CAN, NAK, START};
use crate::link::Link;
use crate::module_scenes::*;
use crate::scenes::*;
use crate::scribe::Scribe;
use crate::sending::State;
use crate::wire_scenes::*;

/// Ticks from the 01 to the abort.
const ABORT: u32 = Link::FRAME_TICKS as u32 + 1;

/// Lines that look like openings; most are malformed, a few only look so.
#[rustfmt::skip]
const MALFORMED: &[&str] = &[
    "open 5", "open ", " open", "open  ", "open 00", "open open", "open sooner", "open spaced",
    "open module", "Open", "OPEN", "opened", "opens", "open\r", "open\t", "open,", "open # host",
    "opensooner x", "opensooner 1", "opensooner ", " opensooner", "openSooner", "OPENSOONER",
    "open_sooner", "opensoone", "opensoonerspaced", "opensooner openspaced", "openspaced 0",
    "openspaced ", "openspaced 100", "Openspaced", "openspace", "openspaced\r", "openspacedroom 258",
    "openroom 258 254", "openhost", "openmodule", "sooner", "spaced", "host open", "module",
    "module open 1", "module open ", "module  open", "module Open", "module opened",
    "module opensooner x", "module opensooner ", "module openspaced 1", "module openspaced module",
    "module module open", "module open module", "modules open", "restart open", "ticks open",
    "#open", "# module openspaced", "open", "opensooner", "openspaced", "module open",
    "module opensooner", "module openspaced",
];

/// Scenes of the other kinds that play on the end written for.
const AT_AN_END: &[fn(&mut Scribe)] = &[
    split_frame,
    begin_frame,
    special_bytes,
    slow_frame,
    answer_at_edge,
    answers_at_once,
    send_inside,
    back_off_inside,
    coincide,
    session_at_edge,
    stray,
    bad_sums,
    reserved_frame,
    restart,
    rooms,
    lengths,
    busy,
    silence,
    noise,
    anything,
];

/// Scenes of the other kinds that say themselves which end they play on.
const ON_THE_LINE: &[fn(&mut Scribe)] = &[
    answer_at_loss,
    behind_an_answer,
    silent_line,
    ack_goes_over,
    checksum_at_loss,
    abort_at_loss,
    frame_while_waiting,
    frames_in_a_run,
    checksum_at_edge,
    lost_inside,
    sums_around_cancelled,
    reserved_while_waiting,
    restart_while_waiting,
    conversation,
    both_at_once,
    refused_pass,
];

/// Opens the end that is written for: in a mode, or without a choice.
fn open_some_mode(scribe: &mut Scribe) {
    match scribe.dice.below(5) {
        0 => scribe.open_plain(),
        1..=2 => scribe.open(Mode::Sooner),
        _ => scribe.open(Mode::Spaced),
    }
}

/// An end with nothing open, in a mode newly opened or in the one it has, sends
/// a frame of any time on the wire. Some copies of it are not delivered.
fn copy_waits(scribe: &mut Scribe, scene: impl FnOnce(&mut Scribe)) {
    at_either_end(scribe, |scribe| {
        if scribe.dice.once_in(2) {
            open_some_mode(scribe);
        }
        free(scribe);
        open_sized(scribe);
        let number = scribe.dice.below(4);
        not_delivered(scribe, number);
        scene(scribe);
    });
}

/// Both ends are opened, each in a mode of its own, and play scenes of the
/// other kinds.
pub fn in_a_mode(scribe: &mut Scribe) {
    open_some_mode(scribe);
    scribe.on_stand_in(open_some_mode);
    for _ in 0..scribe.dice.between(1, 3) {
        if scribe.dice.once_in(2) {
            let scene = scribe.dice.one(AT_AN_END);
            at_either_end(scribe, scene);
        } else {
            let scene = scribe.dice.one(ON_THE_LINE);
            scene(scribe);
        }
    }
}

/// A NAK or CAN about when the copy is lost, and the ticks to what follows.
pub fn told_at_the_loss(scribe: &mut Scribe) {
    copy_waits(scribe, |scribe| {
        to_loss(scribe);
        for _ in 0..scribe.dice.between(1, 2) {
            let byte = scribe.dice.one(&[NAK, NAK, CAN, CAN, ACK]);
            scribe.byte(byte);
        }
        if let Some(left) = scribe.sender_left() {
            scribe.ticks_near(left, 1);
        }
        scribe.single();
        respond(scribe);
    });
}

/// A frame begun before the loss, often just before it, so that the copy is
/// lost inside it; then an end of that frame, and an answer.
pub fn lost_in_a_frame(scribe: &mut Scribe) {
    copy_waits(scribe, |scribe| {
        let left = scribe.sender_left().unwrap_or(1);
        let before = scribe.dice.one(&[1, 1, 2, 3, 700, 1_499, 1_500]).min(left);
        scribe.ticks(left - before);
        let begun = some_begun(scribe);
        scribe.ticks(before);
        if scribe.dice.once_in(4) {
            scribe.ticks_near(1, 1);
        }
        end_somehow(scribe, begun);
        if scribe.dice.once_in(2) {
            to_loss(scribe);
        }
        scribe.single();
        respond(scribe);
    });
}

/// Begins a frame; the number of its bytes given.
fn some_begun(scribe: &mut Scribe) -> u32 {
    let frame = scribe.some_frame();
    let last = frame.len() as u32 - 1;
    let any = scribe.dice.between(1, last);
    let size = scribe.dice.one(&[1, 1, last, any]);
    scribe.begin(&frame, size as usize);
    size
}

/// Ends a frame of which so many bytes were given: by its rest, by a Length
/// that is too short, by its abort, or by a restart or an opening, which forget
/// it.
fn end_somehow(scribe: &mut Scribe, begun: u32) {
    match scribe.dice.below(12) {
        0..=5 => scribe.finish(),
        6..=7 if begun == 1 => {
            let length = scribe.dice.below(3) as u8;
            scribe.byte(length);
        }
        6..=9 => {
            if let Some(left) = scribe.frame_left() {
                scribe.ticks(left - 1);
                scribe.ticks(1);
            }
        }
        10 => scribe.restart(),
        _ => open_some_mode(scribe),
    }
}

/// An abort on the tick of the loss, or beside it.
pub fn abort_on_the_loss(scribe: &mut Scribe) {
    copy_waits(scribe, |scribe| {
        let left = scribe.sender_left().unwrap_or(1);
        // A tick late, on it, a tick early.
        let early = scribe.dice.one(&[0, 1, 1, 1, 2]);
        scribe.ticks((left + 1).saturating_sub(ABORT + early));
        scribe.byte(START);
        if scribe.dice.once_in(3) {
            let length = scribe.dice.between(3, 255) as u8;
            scribe.byte(length);
        }
        scribe.ticks(ABORT - 2);
        for _ in 0..4 {
            scribe.ticks(1);
        }
        to_loss(scribe);
        scribe.single();
    });
}

/// A silent line in a mode just chosen, with a restart somewhere, which keeps
/// the mode.
pub fn silent_in_a_mode(scribe: &mut Scribe) {
    at_either_end(scribe, |scribe| {
        open_some_mode(scribe);
        if scribe.dice.once_in(2) {
            open_sized(scribe);
            let some = silent_ticks(scribe);
            scribe.ticks_near(some, 1);
        }
        if scribe.dice.once_in(2) {
            scribe.restart();
        }
        open_sized(scribe);
        let [.., failed] = scribe.silent_ticks();
        scribe.ticks_near(failed, 1);
        scribe.single();
    });
}

/// Ticks to one of the losses of a silent line, or to what follows it.
fn silent_ticks(scribe: &mut Scribe) -> u32 {
    let [second, third, fourth, failed] = scribe.silent_ticks();
    let wait = scribe.wait();
    let losses = [wait, second + wait, third + wait, failed];
    let any = scribe.dice.one(&losses);
    scribe.dice.one(&[any, any, second, third, fourth])
}

/// Restarts of an end that lost copies, each with a loss behind it.
pub fn restart_keeps_the_mode(scribe: &mut Scribe) {
    copy_waits(scribe, |scribe| {
        for _ in 0..scribe.dice.between(1, 2) {
            to_loss(scribe);
            scribe.restart();
            open_sized(scribe);
            let some = silent_ticks(scribe);
            scribe.ticks_near(some, 1);
        }
        scribe.single();
    });
}

/// An opening in any state, with bytes of both ends that no pass has given:
/// those of the end that is opened are dropped, the other's come.
pub fn opened_in_any_state(scribe: &mut Scribe) {
    let module = scribe.dice.once_in(2);
    if scribe.dice.once_in(2) {
        at(scribe, !module, some_put_out);
    }
    let scene = scribe.dice.one(AT_AN_END);
    at(scribe, module, scene);
    if scribe.dice.once_in(3) {
        at(scribe, module, begin_frame);
    }
    at(scribe, module, open_some_mode);
    match scribe.dice.below(4) {
        0 => at(scribe, module, Scribe::finish),
        1 => at(scribe, module, Scribe::single),
        2 => at(scribe, module, |scribe| scribe.ticks_near(ABORT, 1)),
        _ => {}
    }
    scribe.pass();
    if scribe.dice.once_in(2) {
        at(scribe, module, open_sized);
        scribe.pass();
    }
}

/// A restart or a copy, which wait for the next pass.
fn some_put_out(scribe: &mut Scribe) {
    if scribe.dice.once_in(2) {
        scribe.restart();
    }
    scribe.open_some();
}

/// More put out than is kept; then either end, or both, are opened. What is
/// dropped is not told by the pass.
pub fn opened_when_overfull(scribe: &mut Scribe) {
    let module = scribe.dice.once_in(2);
    at(scribe, module, fill);
    if scribe.dice.once_in(3) {
        at(scribe, !module, fill);
    }
    if scribe.dice.once_in(3) {
        at(scribe, !module, open_some_mode);
    } else {
        at(scribe, module, open_some_mode);
    }
    scribe.pass();
    scribe.pass();
}

/// An opening with short rooms, at which it does not look.
pub fn opened_without_room(scribe: &mut Scribe) {
    at_either_end(scribe, |scribe| {
        let line = scribe.dice.one(&[0, 257, 258]);
        let up = scribe.dice.one(&[0, 253]);
        scribe.room(line, up);
        open_some_mode(scribe);
        scribe.ticks(1);
        scribe.room(Link::LINE_ROOM, Link::UP_ROOM);
        open_sized(scribe);
        let some = silent_ticks(scribe);
        scribe.ticks(some);
    });
}

/// The slowest histories of both modes, and some nearly as slow: due at first,
/// each copy told or lost as late as can be, and each back-off ended inside a
/// frame that is aborted.
pub fn slowest(scribe: &mut Scribe) {
    at_either_end(scribe, |scribe| {
        open_some_mode(scribe);
        scribe.byte(START);
        open_sized(scribe);
        scribe.ticks(ABORT);
        for _ in 0..3 {
            late_copy(scribe);
        }
        let wait = scribe.wait();
        if scribe.dice.once_in(2) {
            scribe.ticks(wait - 1);
            scribe.byte(ACK);
            scribe.ticks(u32::from(Link::RESPONSE_TICKS));
        } else {
            scribe.ticks(wait);
        }
    });
}

/// From a copy just put out to the next one, as late as it can come: the NAK on
/// the last tick of the wait, or the loss, or a loss inside a frame.
fn late_copy(scribe: &mut Scribe) {
    let wait = scribe.wait();
    scribe.ticks(wait - 1);
    let worst = match scribe.mode() {
        Mode::Sooner => 0,
        Mode::Spaced => 1,
    };
    match scribe.dice.one(&[worst, worst, 0, 1, 2]) {
        0 => scribe.byte(NAK),
        1 => scribe.ticks(1),
        _ => {}
    }
    match scribe.link().sender_state() {
        State::BackingOff(left) => scribe.ticks(u32::from(left) - 1),
        State::Waiting(0) => return,
        _ => {}
    }
    scribe.byte(START);
    scribe.ticks(ABORT);
}

/// One of the malformed lines.
pub fn malformed_opening(scribe: &mut Scribe) {
    let line = scribe.dice.one(MALFORMED);
    scribe.say(line);
}
