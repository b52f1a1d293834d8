//! Section 8: the four command bodies. A body is Type, Command, parameters, as
//! handed up.

use crate::frame::{build, REQ, RES};
use crate::refusal::Refusal;

/// Commands.
pub const NODE_LIST: u8 = 0x02;
pub const SET_TIMEOUTS: u8 = 0x06;
pub const CAPABILITIES: u8 = 0x07;

/// Highest node number, and the room its list needs.
pub const MOST_NODES: usize = 232;
/// Mask bytes for 232 nodes.
const NODE_MASK: usize = 29;
/// Mask bytes for functions 1 to 255 and the bit for 256.
const MOST_FUNCTION_MASK: usize = 32;
/// Bytes before the function mask, behind Type and Command.
pub const FIXED: usize = 8;
/// Size of the Set Timeouts frame.
pub const SET_TIMEOUTS_FRAME: usize = 7;

/// A time in milliseconds.
#[derive(Clone, Copy, Debug, PartialEq, Eq)]
pub struct Milliseconds(pub u32);

/// A time in the 10 ms ticks of the Set Timeouts command.
#[derive(Clone, Copy, Debug, PartialEq, Eq)]
pub struct TenMillisecondTicks(pub u8);

impl TenMillisecondTicks {
    /// RANGE unless the time is a multiple of 10, 0 to 2,550 ms.
    pub fn from_milliseconds(time: Milliseconds) -> Result<TenMillisecondTicks, Refusal> {
        if time.0 > 2_550 || !time.0.is_multiple_of(10) {
            return Err(Refusal::Range);
        }
        Ok(TenMillisecondTicks((time.0 / 10) as u8))
    }

    pub fn to_milliseconds(self) -> Milliseconds {
        Milliseconds(u32::from(self.0) * 10)
    }
}

/// Whether number k (from 1) is marked: bit (k - 1) mod 8 of mask byte
/// (k - 1) div 8. What the mask does not cover, and 0, is not marked.
fn marked(mask: &[u8], k: usize) -> bool {
    k >= 1
        && mask
            .get((k - 1) / 8)
            .is_some_and(|byte| byte >> ((k - 1) % 8) & 1 == 1)
}

/// What the Capabilities response says.
#[derive(Clone, Copy, Debug, PartialEq, Eq)]
pub struct Capabilities<'a> {
    pub fixed: &'a [u8],
    pub count: usize,
    mask: &'a [u8],
}

impl Capabilities<'_> {
    /// Whether function f is supported.
    pub fn supports(&self, f: u8) -> bool {
        marked(self.mask, usize::from(f))
    }
}

/// Type and Command must be those of this response.
fn response(body: &[u8], command: u8) -> Result<&[u8], Refusal> {
    match body {
        [RES, given, parameters @ ..] if *given == command => Ok(parameters),
        _ => Err(Refusal::Form),
    }
}

/// Reads a Capabilities response: 8 fixed bytes, 0 to 32 mask bytes, and the
/// bit for 256 is 0.
pub fn capabilities(body: &[u8]) -> Result<Capabilities<'_>, Refusal> {
    let parameters = response(body, CAPABILITIES)?;
    if parameters.len() < FIXED || parameters.len() > FIXED + MOST_FUNCTION_MASK {
        return Err(Refusal::Form);
    }
    let (fixed, mask) = parameters.split_at(FIXED);
    if marked(mask, 256) {
        return Err(Refusal::Form);
    }
    let count = mask.iter().map(|byte| byte.count_ones() as usize).sum();
    Ok(Capabilities { fixed, count, mask })
}

/// What the Node list response says; the nodes stand in the lent list.
#[derive(Clone, Copy, Debug, PartialEq, Eq)]
pub struct Nodes {
    pub version: u8,
    pub capabilities: u8,
    /// How many nodes were listed.
    pub count: usize,
    pub chip_type: u8,
    pub chip_version: u8,
}

/// Reads a Node list response and lists the nodes in rising order at the front
/// of `list`. ROOM (232, whatever the mask says) comes before FORM.
pub fn nodes(body: &[u8], list: &mut [u8]) -> Result<Nodes, Refusal> {
    if list.len() < MOST_NODES {
        return Err(Refusal::Room);
    }
    let [version, capabilities, size, rest @ ..] = response(body, NODE_LIST)? else {
        return Err(Refusal::Form);
    };
    if usize::from(*size) != NODE_MASK && *size != 0 {
        return Err(Refusal::Form);
    }
    if rest.len() != usize::from(*size) + 2 {
        return Err(Refusal::Form);
    }
    let (mask, chip) = rest.split_at(usize::from(*size));
    let mut count = 0;
    for node in 1..=MOST_NODES {
        if marked(mask, node) {
            list[count] = node as u8;
            count += 1;
        }
    }
    Ok(Nodes {
        version: *version,
        capabilities: *capabilities,
        count,
        chip_type: chip[0],
        chip_version: chip[1],
    })
}

/// Writes the Set Timeouts request, a frame of 7 bytes, at the front of
/// `frame`. RANGE comes before ROOM.
pub fn set_timeouts(
    ack: Milliseconds,
    byte: Milliseconds,
    frame: &mut [u8],
) -> Result<usize, Refusal> {
    let ack = TenMillisecondTicks::from_milliseconds(ack)?;
    let byte = TenMillisecondTicks::from_milliseconds(byte)?;
    build(REQ, SET_TIMEOUTS, &[ack.0, byte.0], frame)
}

/// Reads the Set Timeouts response: the two old times.
pub fn timeouts_response(body: &[u8]) -> Result<(Milliseconds, Milliseconds), Refusal> {
    match response(body, SET_TIMEOUTS)? {
        [ack, byte] => Ok((
            TenMillisecondTicks(*ack).to_milliseconds(),
            TenMillisecondTicks(*byte).to_milliseconds(),
        )),
        _ => Err(Refusal::Form),
    }
}
