//! Section 5: sending one frame in up to four copies; with the time that a
//! copy takes on the wire, as request P2 has it, and the back-offs of the two
//! modes of request P4.

use crate::choice::Mode;
use crate::frame::{build, MOST_FRAME};
use crate::link::Link;
use crate::reception::Single;
use crate::refusal::Refusal;
use crate::report::SendingPart;

/// The four states of section 5.
#[derive(Clone, Copy, Debug, PartialEq, Eq)]
pub enum State {
    Quiet,
    /// A copy is to go out as soon as the frame being received ends.
    Due,
    /// Ticks since the copy was handed over.
    Waiting(u16),
    /// Ticks still to go, never 0.
    BackingOff(u16),
}

/// Ticks that a frame of so many bytes takes on the wire, begun ones counted
/// whole. 115,200 bits a second at 10 bits a byte make 11,520 bytes a second,
/// so a byte takes 1,000/11,520 = 25/288 of a tick.
pub fn wire_ticks(size: usize) -> u16 {
    (25 * size).div_ceil(288) as u16
}

/// Why a copy counts as not delivered.
#[derive(Clone, Copy, Debug, PartialEq, Eq)]
pub enum Cause {
    /// The other end said so, with NAK or CAN.
    Told,
    /// Its wait is over.
    Time,
}

/// The back-off after a copy; there is none after the fourth. After a loss by
/// time the new mode subtracts the 1,600 ticks waited, and not the time on the
/// wire before them; a back-off no longer than they are is 0 then.
pub fn back_off_ticks(mode: Mode, cause: Cause, copy: u8) -> Option<u16> {
    let whole = *Link::BACK_OFF_TICKS.get(usize::from(copy) - 1)?;
    match (mode, cause) {
        (Mode::Sooner, Cause::Time) => Some(whole.saturating_sub(Link::ACK_TICKS)),
        (Mode::Sooner, Cause::Told) | (Mode::Spaced, _) => Some(whole),
    }
}

/// The sending half of the link, with the frame being sent.
#[derive(Clone, Debug, PartialEq, Eq)]
pub struct Sender {
    state: State,
    copies: u8,
    size: usize,
    frame: [u8; MOST_FRAME],
}

impl Sender {
    pub fn fresh() -> Sender {
        Sender {
            state: State::Quiet,
            copies: 0,
            size: 0,
            frame: [0; MOST_FRAME],
        }
    }

    pub fn state(&self) -> State {
        self.state
    }

    /// Copies put out for the open send, or for the last one.
    pub fn copies(&self) -> u8 {
        self.copies
    }

    pub fn quiet(&self) -> bool {
        self.state == State::Quiet
    }

    /// Ticks after which a copy of the open send, or of the last one, is lost.
    /// They go by the frame alone, whatever is put out before the copy.
    pub fn ack_ticks(&self) -> u16 {
        Link::ACK_TICKS + wire_ticks(self.size)
    }

    /// Takes a frame to send, which is then due. KIND and LONG are `build`'s;
    /// its ROOM can't come, the place is large enough for every frame.
    pub fn accept(&mut self, kind: u8, command: u8, parameters: &[u8]) -> Result<(), Refusal> {
        self.size = build(kind, command, parameters, &mut self.frame)?;
        self.copies = 0;
        self.state = State::Due;
        Ok(())
    }

    /// Puts a due copy out at the front of `line`. Answers what happened and
    /// the number of bytes. The caller knows that the link is hunting.
    pub fn release(&mut self, line: &mut [u8]) -> (SendingPart, usize) {
        if self.state == State::Due {
            self.put_out(line)
        } else {
            (SendingPart::Nothing, 0)
        }
    }

    /// A single byte, heard while hunting.
    pub fn single(&mut self, single: Single, mode: Mode) -> SendingPart {
        match (self.state, single) {
            (State::Waiting(_), Single::Ack) => {
                self.state = State::Quiet;
                SendingPart::Acknowledged(self.copies)
            }
            (State::Waiting(_), Single::Nak | Single::Can) => {
                self.not_delivered(back_off_ticks(mode, Cause::Told, self.copies))
            }
            _ => SendingPart::Stray,
        }
    }

    /// One tick, after reception had its own: once, so that a copy put out
    /// now has its wait at 0 and a back-off begun now has all its ticks to go.
    pub fn tick(&mut self, mode: Mode, hunting: bool, line: &mut [u8]) -> (SendingPart, usize) {
        match self.state {
            State::Quiet => (SendingPart::Nothing, 0),
            State::Due if hunting => self.put_out(line),
            State::Due => (SendingPart::Nothing, 0),
            State::Waiting(ticks) if ticks + 1 == self.ack_ticks() => {
                self.lost(mode, hunting, line)
            }
            State::Waiting(ticks) => self.stay(State::Waiting(ticks + 1)),
            State::BackingOff(left) if left > 1 => self.stay(State::BackingOff(left - 1)),
            State::BackingOff(_) => self.next_copy(hunting, line),
        }
    }

    fn stay(&mut self, state: State) -> (SendingPart, usize) {
        self.state = state;
        (SendingPart::Nothing, 0)
    }

    /// The tick that ends a copy's wait. With a back-off of 0 it is the tick of
    /// the next copy too, and no back-off is said.
    fn lost(&mut self, mode: Mode, hunting: bool, line: &mut [u8]) -> (SendingPart, usize) {
        match back_off_ticks(mode, Cause::Time, self.copies) {
            Some(0) => self.next_copy(hunting, line),
            back_off => (self.not_delivered(back_off), 0),
        }
    }

    /// The tick of the next copy: it goes out if hunting, else it is due.
    fn next_copy(&mut self, hunting: bool, line: &mut [u8]) -> (SendingPart, usize) {
        if hunting {
            return self.put_out(line);
        }
        self.state = State::Due;
        (SendingPart::Due, 0)
    }

    fn put_out(&mut self, line: &mut [u8]) -> (SendingPart, usize) {
        line[..self.size].copy_from_slice(&self.frame[..self.size]);
        self.copies += 1;
        self.state = State::Waiting(0);
        (SendingPart::Copy(self.copies), self.size)
    }

    /// Backs off, or gives up where there is no back-off any more, after the
    /// fourth copy.
    fn not_delivered(&mut self, back_off: Option<u16>) -> SendingPart {
        match back_off {
            Some(ticks) => {
                self.state = State::BackingOff(ticks);
                SendingPart::BackingOff(ticks)
            }
            None => {
                self.state = State::Quiet;
                SendingPart::Failed(self.copies)
            }
        }
    }
}
