//! Sections 2 and 3: the data frame, built from its parts and read whole.

use crate::refusal::Refusal;

/// First byte of a data frame.
pub const START: u8 = 0x01;
/// The three single bytes.
pub const ACK: u8 = 0x06;
pub const NAK: u8 = 0x15;
pub const CAN: u8 = 0x18;

/// Type of a request and of a response; all above are reserved.
pub const REQ: u8 = 0x00;
pub const RES: u8 = 0x01;

/// A frame has 0 to 252 parameters.
pub const MOST_PARAMETERS: usize = 252;
/// Type, Command and the parameters.
pub const MOST_BODY: usize = MOST_PARAMETERS + 2;
/// Start, Length, the body and Checksum.
pub const MOST_FRAME: usize = MOST_BODY + 3;
/// Length counts itself, Type and Command at least.
pub const LEAST_LENGTH: u8 = 3;

/// What a whole frame says.
#[derive(Clone, Copy, Debug, PartialEq, Eq)]
pub struct Frame<'a> {
    pub kind: u8,
    pub command: u8,
    pub parameters: &'a [u8],
}

/// FF xor every byte covered, which are those from Length to the last
/// parameter.
pub fn checksum(covered: &[u8]) -> u8 {
    covered.iter().fold(0xFF, |sum, byte| sum ^ byte)
}

/// Builds a frame at the front of `frame` and answers its size. Bytes beyond
/// it stay. Order of refusals: KIND, LONG, ROOM.
pub fn build(kind: u8, command: u8, parameters: &[u8], frame: &mut [u8]) -> Result<usize, Refusal> {
    if kind > RES {
        return Err(Refusal::Kind);
    }
    if parameters.len() > MOST_PARAMETERS {
        return Err(Refusal::Long);
    }
    let size = parameters.len() + 5;
    if frame.len() < size {
        return Err(Refusal::Room);
    }
    frame[0] = START;
    frame[1] = (parameters.len() + 3) as u8;
    frame[2] = kind;
    frame[3] = command;
    frame[4..size - 1].copy_from_slice(parameters);
    frame[size - 1] = checksum(&frame[1..size - 1]);
    Ok(size)
}

/// Reads a whole frame. Order of refusals: SHORT for no byte, START, SHORT for
/// one byte, LENGTH, SHORT, TAIL, SUM, KIND.
pub fn read(bytes: &[u8]) -> Result<Frame<'_>, Refusal> {
    let start = *bytes.first().ok_or(Refusal::Short)?;
    if start != START {
        return Err(Refusal::Start);
    }
    let length = *bytes.get(1).ok_or(Refusal::Short)?;
    if length < LEAST_LENGTH {
        return Err(Refusal::Length);
    }
    let size = usize::from(length) + 2;
    if bytes.len() < size {
        return Err(Refusal::Short);
    }
    if bytes.len() > size {
        return Err(Refusal::Tail);
    }
    if bytes[size - 1] != checksum(&bytes[1..size - 1]) {
        return Err(Refusal::Sum);
    }
    if bytes[2] > RES {
        return Err(Refusal::Kind);
    }
    Ok(Frame {
        kind: bytes[2],
        command: bytes[3],
        parameters: &bytes[4..size - 1],
    })
}
