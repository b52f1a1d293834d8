//! Section 9: the counting program.

use crate::reception::{End, Heard, Reception, Single};
use std::io::{self, Read, Write};

/// The most bytes that are counted.
pub const MOST_BYTES: u64 = 16_777_216;

/// What was counted, in the order printed.
#[derive(Clone, Copy, Debug, Default, PartialEq, Eq)]
pub struct Counts {
    pub ack: u64,
    pub nak: u64,
    pub can: u64,
    pub frames: u64,
    pub badsum: u64,
    pub badlen: u64,
    pub reserved: u64,
    pub skipped: u64,
    pub open: u64,
    pub cut: bool,
}

impl Counts {
    fn add(&mut self, heard: Heard) {
        match heard {
            Heard::Inside => {}
            Heard::Skipped => self.skipped += 1,
            Heard::Single(Single::Ack) => self.ack += 1,
            Heard::Single(Single::Nak) => self.nak += 1,
            Heard::Single(Single::Can) => self.can += 1,
            Heard::Ended(End::Frame) => self.frames += 1,
            Heard::Ended(End::BadSum { .. }) => self.badsum += 1,
            Heard::Ended(End::BadLength) => self.badlen += 1,
            Heard::Ended(End::Reserved) => self.reserved += 1,
        }
    }

    /// The ten key=value lines.
    pub fn print(&self, out: &mut impl Write) -> io::Result<()> {
        writeln!(out, "ack={}", self.ack)?;
        writeln!(out, "nak={}", self.nak)?;
        writeln!(out, "can={}", self.can)?;
        writeln!(out, "frames={}", self.frames)?;
        writeln!(out, "badsum={}", self.badsum)?;
        writeln!(out, "badlen={}", self.badlen)?;
        writeln!(out, "reserved={}", self.reserved)?;
        writeln!(out, "skipped={}", self.skipped)?;
        writeln!(out, "open={}", self.open)?;
        writeln!(out, "cut={}", u8::from(self.cut))
    }
}

/// Counts what stands in `input`, with reception rules and no ticks. `cut`
/// says that input remained unread behind the most bytes.
pub fn count(mut input: impl Read) -> io::Result<Counts> {
    let mut counts = Counts::default();
    let mut reception = Reception::fresh();
    let mut part = vec![0; 65_536];
    let mut counted = input.by_ref().take(MOST_BYTES);
    loop {
        let size = read_some(&mut counted, &mut part)?;
        if size == 0 {
            break;
        }
        for &byte in &part[..size] {
            counts.add(reception.byte(byte));
        }
    }
    // Only a byte behind the most bytes shows that input remained.
    let all = counted.limit() == 0;
    counts.cut = all && read_some(&mut input, &mut part[..1])? > 0;
    counts.open = reception.open_bytes() as u64;
    Ok(counts)
}

fn read_some(input: &mut impl Read, part: &mut [u8]) -> io::Result<usize> {
    loop {
        match input.read(part) {
            Err(error) if error.kind() == io::ErrorKind::Interrupted => {}
            done => return done,
        }
    }
}
