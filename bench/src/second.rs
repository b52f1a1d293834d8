//! The second program as it is, driven as `crates/exports` drives the proved code.

use crate::numbers::{mix, refused, report};
use crate::ways::Ready;
use reference::frame;
use reference::linecount;
use reference::link::Link;

#[inline(never)]
pub fn build(kind: u8, command: u8, parameters: &[u8], lent: &mut [u8]) -> u64 {
    match frame::build(kind, command, parameters, lent) {
        Ok(size) => size as u64,
        Err(refusal) => refused(refusal),
    }
}

#[inline(never)]
pub fn read(bytes: &[u8]) -> u64 {
    match frame::read(bytes) {
        Ok(frame) => {
            65536 * u64::from(frame.kind)
                + 256 * u64::from(frame.command)
                + frame.parameters.len() as u64
        }
        Err(refusal) => refused(refusal),
    }
}

/// Every byte in a call of its own.
fn fed(link: &mut Link, input: &[u8], line: &mut [u8], up: &mut [u8]) -> u64 {
    let mut sum = 0;
    for &byte in input {
        let number = match link.byte(byte, line, up) {
            Ok(said) => report(&said),
            Err(refusal) => refused(refusal),
        };
        sum = mix(sum, number);
    }
    sum
}

#[inline(never)]
fn prepared(ready: Ready, line: &mut [u8], up: &mut [u8]) -> Link {
    let mut link = Link::open();
    if ready.asks {
        let _ = link.session(7, ready.parameters, line, up);
    }
    let _ = fed(&mut link, ready.heard, line, up);
    link
}

#[inline(never)]
pub fn runs(ready: Ready, input: &[u8], most: usize, line: &mut [u8], up: &mut [u8]) -> u64 {
    let mut link = prepared(ready, line, up);
    let mut sum = 0;
    let mut at = 0;
    while at < input.len() {
        let end = at + most.min(input.len() - at);
        match link.bytes(&input[at..end], line, up) {
            Ok((taken, said)) => {
                sum = mix(mix(sum, report(&said)), taken as u64);
                at += taken;
            }
            Err(refusal) => return mix(mix(sum, refused(refusal)), 0),
        }
    }
    sum
}

#[inline(never)]
pub fn bytes(ready: Ready, input: &[u8], line: &mut [u8], up: &mut [u8]) -> u64 {
    fed(&mut prepared(ready, line, up), input, line, up)
}

#[inline(never)]
pub fn ticks(ready: Ready, n: u64, line: &mut [u8], up: &mut [u8]) -> u64 {
    let mut link = prepared(ready, line, up);
    let mut sum = 0;
    for _ in 0..n {
        let number = match link.tick(line, up) {
            Ok(said) => report(&said),
            Err(refusal) => refused(refusal),
        };
        sum = mix(sum, number);
    }
    sum
}

#[inline(never)]
pub fn count(input: &[u8]) -> [u64; 9] {
    let counts = linecount::count(input).expect("memory is read without fail");
    [
        counts.ack,
        counts.nak,
        counts.can,
        counts.frames,
        counts.badsum,
        counts.badlen,
        counts.reserved,
        counts.skipped,
        counts.open,
    ]
}
