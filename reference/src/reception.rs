//! Section 4: reception. Bytes and ticks in, ends of frames out.

use crate::frame::{ACK, CAN, LEAST_LENGTH, MOST_BODY, NAK, RES, START};
use crate::link::Link;

/// One of the three single bytes, heard while hunting.
#[derive(Clone, Copy, Debug, PartialEq, Eq)]
pub enum Single {
    Ack,
    Nak,
    Can,
}

/// How a frame ended on a byte. (The abort of section 4 comes on a tick.)
#[derive(Clone, Copy, Debug, PartialEq, Eq)]
pub enum End {
    BadLength,
    /// Right checksum, Type 00 or 01: the body may be looked at.
    Frame,
    Reserved,
    /// With whether this was the third of a run.
    BadSum {
        third: bool,
    },
}

/// What one received byte meant.
#[derive(Clone, Copy, Debug, PartialEq, Eq)]
pub enum Heard {
    /// A frame began or went on.
    Inside,
    Skipped,
    Single(Single),
    Ended(End),
}

/// Which byte is awaited.
#[derive(Clone, Copy, Debug, PartialEq, Eq)]
enum Stage {
    Hunting,
    Length,
    Body,
    Checksum,
}

/// The receiving half of the link. It keeps the half-received frame itself
/// (section 3: nothing is kept in lent memory between calls).
#[derive(Clone, Debug, PartialEq, Eq)]
pub struct Reception {
    stage: Stage,
    /// Ticks since the 01; counts only inside a frame.
    clock: u16,
    /// Length - 1, the number of body bytes announced.
    expected: usize,
    /// Body bytes received so far.
    received: usize,
    /// FF xor the bytes from Length on.
    sum: u8,
    /// Bad sums since the last right one.
    bad_sums: u8,
    body: [u8; MOST_BODY],
}

impl Reception {
    /// Hunting, with no bad sum behind it.
    pub fn fresh() -> Reception {
        Reception {
            stage: Stage::Hunting,
            clock: 0,
            expected: 0,
            received: 0,
            sum: 0,
            bad_sums: 0,
            body: [0; MOST_BODY],
        }
    }

    pub fn hunting(&self) -> bool {
        self.stage == Stage::Hunting
    }

    /// The frame clock, if inside a frame.
    pub fn clock(&self) -> Option<u16> {
        if self.hunting() {
            None
        } else {
            Some(self.clock)
        }
    }

    /// The run of bad sums.
    pub fn bad_sums(&self) -> u8 {
        self.bad_sums
    }

    /// Bytes of the unfinished frame, its 01 included; 0 while hunting.
    pub fn open_bytes(&self) -> usize {
        match self.stage {
            Stage::Hunting => 0,
            Stage::Length => 1,
            Stage::Body | Stage::Checksum => 2 + self.received,
        }
    }

    /// The body received last: Type, Command, parameters. It is whole just
    /// after `End::Frame`.
    pub fn body(&self) -> &[u8] {
        &self.body[..self.received]
    }

    /// Takes one byte.
    pub fn byte(&mut self, byte: u8) -> Heard {
        match self.stage {
            Stage::Hunting => self.hunt(byte),
            Stage::Length => self.length(byte),
            Stage::Body => self.collect(byte),
            Stage::Checksum => Heard::Ended(self.end(byte)),
        }
    }

    /// One tick; answers whether it aborted a frame. The clock is never set
    /// back by a byte, so a slow line aborts (section 11).
    pub fn tick(&mut self) -> bool {
        if self.hunting() {
            return false;
        }
        self.clock += 1;
        let aborted = self.clock > Link::FRAME_TICKS;
        if aborted {
            self.stage = Stage::Hunting;
        }
        aborted
    }

    fn hunt(&mut self, byte: u8) -> Heard {
        match byte {
            START => {
                self.stage = Stage::Length;
                self.clock = 0;
                Heard::Inside
            }
            ACK => Heard::Single(Single::Ack),
            NAK => Heard::Single(Single::Nak),
            CAN => Heard::Single(Single::Can),
            _ => Heard::Skipped,
        }
    }

    /// Length counts itself, so Length - 1 body bytes follow.
    fn length(&mut self, length: u8) -> Heard {
        if length < LEAST_LENGTH {
            self.stage = Stage::Hunting;
            return Heard::Ended(End::BadLength);
        }
        self.stage = Stage::Body;
        self.expected = usize::from(length) - 1;
        self.received = 0;
        self.sum = 0xFF ^ length;
        Heard::Inside
    }

    fn collect(&mut self, byte: u8) -> Heard {
        self.body[self.received] = byte;
        self.received += 1;
        self.sum ^= byte;
        if self.received == self.expected {
            self.stage = Stage::Checksum;
        }
        Heard::Inside
    }

    fn end(&mut self, checksum: u8) -> End {
        self.stage = Stage::Hunting;
        if checksum != self.sum {
            return self.bad_sum();
        }
        // Any right checksum ends the run, a reserved type's too.
        self.bad_sums = 0;
        if self.body[0] > RES {
            End::Reserved
        } else {
            End::Frame
        }
    }

    fn bad_sum(&mut self) -> End {
        self.bad_sums += 1;
        let third = self.bad_sums == Link::BAD_SUMS;
        if third {
            self.bad_sums = 0;
        }
        End::BadSum { third }
    }
}
