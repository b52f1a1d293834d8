//! Request P5: the responses that a stand-in writes, each as the body that is
//! handed up (Type 01, Command, parameters) at the front of lent bytes.
//!
//! A writer puts the body together aside, has the reader judge it, and only
//! then writes: what the reader would refuse is refused alike, and a refusal
//! leaves every lent byte.

use crate::bodies::{
    self, Milliseconds, TenMillisecondTicks, CAPABILITIES, FIXED, MOST_NODES, NODE_LIST,
    SET_TIMEOUTS,
};
use crate::frame::{MOST_BODY, RES};
use crate::refusal::Refusal;

/// What a Node list response is to say.
#[derive(Clone, Copy, Debug, PartialEq, Eq)]
pub struct NodeList<'a> {
    pub version: u8,
    pub capabilities: u8,
    pub chip_type: u8,
    pub chip_version: u8,
    pub mask: &'a [u8],
}

/// Writes a Capabilities response and answers its size. ROOM (254, however
/// short the body is) comes before FORM.
pub fn capabilities(fixed: &[u8; FIXED], mask: &[u8], lent: &mut [u8]) -> Result<usize, Refusal> {
    room(lent)?;
    let body = [&[RES, CAPABILITIES], &fixed[..], mask].concat();
    bodies::capabilities(&body)?;
    Ok(put(&body, lent))
}

/// Writes a Node list response and answers its size. ROOM comes before FORM.
pub fn nodes(list: NodeList<'_>, lent: &mut [u8]) -> Result<usize, Refusal> {
    room(lent)?;
    // The count byte says the mask bytes; more than it can say are FORM too.
    let count = u8::try_from(list.mask.len()).map_err(|_| Refusal::Form)?;
    let head = [RES, NODE_LIST, list.version, list.capabilities, count];
    let chip = [list.chip_type, list.chip_version];
    let body = [&head[..], list.mask, &chip].concat();
    bodies::nodes(&body, &mut [0; MOST_NODES])?;
    Ok(put(&body, lent))
}

/// Writes a Set Timeouts response and answers its size. RANGE comes before
/// ROOM, as in the request with the same two times.
pub fn timeouts(ack: Milliseconds, byte: Milliseconds, lent: &mut [u8]) -> Result<usize, Refusal> {
    let ack = TenMillisecondTicks::from_milliseconds(ack)?;
    let byte = TenMillisecondTicks::from_milliseconds(byte)?;
    room(lent)?;
    let body = [RES, SET_TIMEOUTS, ack.0, byte.0];
    bodies::timeouts_response(&body)?;
    Ok(put(&body, lent))
}

/// Room for the longest body, whatever is to be written.
fn room(lent: &[u8]) -> Result<(), Refusal> {
    if lent.len() < MOST_BODY {
        Err(Refusal::Room)
    } else {
        Ok(())
    }
}

/// Writes a body that its reader takes. None of those is longer than 254.
fn put(body: &[u8], lent: &mut [u8]) -> usize {
    lent[..body.len()].copy_from_slice(body);
    body.len()
}
