//! The ways to give a link bytes and ticks, each by the name of its column.

use crate::{lean, proved, second};

/// How a link is made ready: a session with command 7 is asked for, or not, and then it hears bytes, each in a call of
/// its own.
#[derive(Clone, Copy)]
pub struct Ready<'a> {
    pub asks: bool,
    pub parameters: &'a [u8],
    pub heard: &'a [u8],
}

/// No job.
pub const QUIET: Ready = Ready {
    asks: false,
    parameters: &[],
    heard: &[],
};

/// A job open: its copy was answered by 15, so it backs off, as long as no tick comes.
pub const BACKS_OFF: Ready = Ready {
    asks: true,
    parameters: &[1, 2, 3],
    heard: &[0x15],
};

/// The link that was made ready, the input, the most bytes of a run, and the two lent buffers.
pub type Runs = fn(Ready, &[u8], usize, &mut [u8], &mut [u8]) -> u64;
/// The same, every byte in a call of its own.
pub type Bytes = fn(Ready, &[u8], &mut [u8], &mut [u8]) -> u64;
/// The same with so many ticks for the input.
pub type Ticks = fn(Ready, u64, &mut [u8], &mut [u8]) -> u64;

pub const RUNS: &[(&str, Runs)] = &[
    ("proved", proved::in_place::runs),
    #[cfg(feature = "before-in-place")]
    ("before", proved::in_place_before::runs),
    ("by value", proved::by_value::runs),
    #[cfg(feature = "before")]
    ("by value before", proved::by_value_before::runs),
    ("second", second::runs),
    ("lean", lean::runs),
];

pub const BYTES: &[(&str, Bytes)] = &[
    ("proved", proved::in_place::bytes),
    #[cfg(feature = "before-in-place")]
    ("before", proved::in_place_before::bytes),
    ("by value", proved::by_value::bytes),
    #[cfg(feature = "before")]
    ("by value before", proved::by_value_before::bytes),
    ("second", second::bytes),
];

pub const TICKS: &[(&str, Ticks)] = &[
    ("proved", proved::in_place::ticks),
    #[cfg(feature = "before-in-place")]
    ("before", proved::in_place_before::ticks),
    ("by value", proved::by_value::ticks),
    #[cfg(feature = "before")]
    ("by value before", proved::by_value_before::ticks),
    ("second", second::ticks),
];
