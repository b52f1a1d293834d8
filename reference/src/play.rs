//! `play`: a script of calls in, a line for each call out (linkplay.md).

use crate::bodies::{self, Milliseconds};
use crate::choice::Role;
use crate::ends::{Answer, Ends};
use crate::frame;
use crate::link::Link;
use crate::refusal::Refusal;
use crate::report::{ReceptionPart, Report, ResetPart, SendingPart, SessionPart};
use crate::script::{next_line, passed_over, understand, Call, LinkCall, MOST_ROOM};
use crate::writers;
use std::io::{self, BufRead, Write};

/// What stands in every lent buffer before a call, so that a byte written
/// without being reported shows.
const LENT: [u8; MOST_ROOM] = lent_pattern();

const fn lent_pattern() -> [u8; MOST_ROOM] {
    let mut pattern = [0; MOST_ROOM];
    let mut place = 0;
    while place < MOST_ROOM {
        pattern[place] = (place % 251) as u8 ^ 0xA5;
        place += 1;
    }
    pattern
}

/// A buffer to lend.
pub struct Lent {
    bytes: [u8; MOST_ROOM],
    size: usize,
}

impl Lent {
    pub fn new(size: usize) -> Lent {
        Lent { bytes: LENT, size }
    }

    /// What the call is given.
    pub fn lend(&mut self) -> &mut [u8] {
        &mut self.bytes[..self.size]
    }

    /// The bytes that the call reports.
    fn front(&self, reported: usize) -> &[u8] {
        &self.bytes[..reported]
    }

    /// Whether a byte beyond those reported was written.
    pub fn spilled(&self, reported: usize) -> bool {
        self.bytes[reported..self.size] != LENT[reported..self.size]
    }

    /// Makes the buffer as it was before the call.
    pub fn restore(&mut self, reported: usize) {
        if self.spilled(reported) {
            self.bytes = LENT;
        } else {
            self.bytes[..reported].copy_from_slice(&LENT[..reported]);
        }
    }
}

/// Plays a script to its end.
pub fn play(mut script: impl BufRead, out: impl Write) -> io::Result<()> {
    let mut player = Player::new(out);
    let mut line = Vec::new();
    let mut store = Vec::new();
    while next_line(&mut script, &mut line)? {
        if passed_over(&line) {
            continue;
        }
        match understand(&line, &mut store) {
            Some(call) => player.call(call)?,
            None => player.out.write_all(b"error\n")?,
        }
    }
    player.out.flush()
}

/// The two ends being played and the buffers lent to both.
struct Player<W: Write> {
    out: W,
    ends: Ends,
    line: Lent,
    up: Lent,
}

impl<W: Write> Player<W> {
    fn new(out: W) -> Player<W> {
        Player {
            out,
            ends: Ends::open(),
            line: Lent::new(Link::LINE_ROOM),
            up: Lent::new(Link::UP_ROOM),
        }
    }

    fn call(&mut self, call: Call<'_>) -> io::Result<()> {
        match call {
            Call::Link(role, call) => {
                let answer = self.make(role, call);
                self.say(role, answer)
            }
            Call::Ticks(role, number) => self.ticks(role, number),
            Call::Open(choice) => {
                self.ends.open_anew(choice);
                Ok(())
            }
            Call::Pass => self.pass(),
            Call::Room { line, up } => {
                self.line.size = line;
                self.up.size = up;
                Ok(())
            }
            _ => other_call(call, &mut self.out),
        }
    }

    /// Makes one call on an end.
    fn make(&mut self, role: Role, call: LinkCall<'_>) -> Answer {
        let end = self.ends.of_mut(role);
        end.call(call, self.line.lend(), self.up.lend())
    }

    /// Only the ticks that say more than nothing, are refused or spill.
    fn ticks(&mut self, role: Role, number: u32) -> io::Result<()> {
        for _ in 0..number {
            let answer = self.make(role, LinkCall::Tick);
            if answer.report != Ok(Report::nothing()) || self.spilled(answer.report) {
                self.say(role, answer)?;
            }
        }
        Ok(())
    }

    /// Gives each end what the other had put out, the stand-in first.
    fn pass(&mut self) -> io::Result<()> {
        let passing = self.ends.take();
        if passing.lost {
            self.out.write_all(b"pass lost\n")?;
        }
        self.give(Role::Module, &passing.to_module)?;
        self.give(Role::Host, &passing.to_host)
    }

    /// Gives bytes to an end in as many runs as it takes. A refused run drops
    /// the rest.
    fn give(&mut self, role: Role, mut bytes: &[u8]) -> io::Result<()> {
        while !bytes.is_empty() {
            let answer = self.make(role, LinkCall::Bytes(bytes));
            self.say(role, answer)?;
            match answer.taken {
                Some(taken) => bytes = &bytes[taken..],
                None => return Ok(()),
            }
        }
        Ok(())
    }

    fn spilled(&self, answer: Result<Report, Refusal>) -> bool {
        let (line, up) = answer.map_or((0, 0), |report| (report.line, report.up));
        self.line.spilled(line) || self.up.spilled(up)
    }

    /// Writes the line of a call on an end and makes the buffers as before.
    fn say(&mut self, role: Role, answer: Answer) -> io::Result<()> {
        let spill = self.spilled(answer.report);
        if role == Role::Module {
            write!(self.out, "module ")?;
        }
        let ticks = self.ends.of(role).ticks();
        write!(self.out, "{} at={ticks}", answer.name)?;
        let (line, up) = match answer.report {
            Err(refusal) => {
                write!(self.out, " refused={}", refusal.number())?;
                (0, 0)
            }
            Ok(report) => {
                if let Some(taken) = answer.taken {
                    write!(self.out, " taken={taken}")?;
                }
                self.say_report(&report)?;
                (report.line, report.up)
            }
        };
        self.line.restore(line);
        self.up.restore(up);
        end_line(spill, &mut self.out)
    }

    fn say_report(&mut self, report: &Report) -> io::Result<()> {
        let out = &mut self.out;
        write!(out, " rx={} tx=", reception_word(report.reception))?;
        match report.sending {
            SendingPart::Nothing => write!(out, "nothing")?,
            SendingPart::Stray => write!(out, "stray")?,
            SendingPart::Due => write!(out, "due")?,
            SendingPart::Copy(number) => write!(out, "copy:{number}")?,
            SendingPart::BackingOff(ticks) => write!(out, "backoff:{ticks}")?,
            SendingPart::Acknowledged(copies) => write!(out, "acked:{copies}")?,
            SendingPart::Failed(copies) => write!(out, "failed:{copies}")?,
            SendingPart::Abandoned => write!(out, "abandoned")?,
        }
        write!(out, " session=")?;
        match report.session {
            SessionPart::Nothing => write!(out, "nothing")?,
            SessionPart::Waiting => write!(out, "waiting")?,
            SessionPart::Response(copies) => write!(out, "response:{copies}")?,
            SessionPart::NoResponse(copies) => write!(out, "noresponse:{copies}")?,
            SessionPart::NotSent(copies) => write!(out, "notsent:{copies}")?,
            SessionPart::Abandoned => write!(out, "abandoned")?,
        }
        write!(out, " reset={} line=", reset_word(report.reset))?;
        hex(self.line.front(report.line), out)?;
        write!(out, " up=")?;
        hex(self.up.front(report.up), out)
    }
}

fn reception_word(part: ReceptionPart) -> &'static str {
    match part {
        ReceptionPart::Nothing => "nothing",
        ReceptionPart::Skipped => "skipped",
        ReceptionPart::BadLength => "badlen",
        ReceptionPart::Frame => "frame",
        ReceptionPart::Reserved => "reserved",
        ReceptionPart::BadSum => "badsum",
        ReceptionPart::Abort => "abort",
        ReceptionPart::StrayResponse => "strayresponse",
        ReceptionPart::Cancelled => "cancelled",
    }
}

fn reset_word(part: ResetPart) -> &'static str {
    match part {
        ResetPart::None => "none",
        ResetPart::Sums => "sums",
        ResetPart::Delivery => "delivery",
    }
}

/// Upper case without separators, `-` when empty.
fn hex(bytes: &[u8], out: &mut impl Write) -> io::Result<()> {
    const DIGITS: &[u8; 16] = b"0123456789ABCDEF";
    if bytes.is_empty() {
        return out.write_all(b"-");
    }
    for &byte in bytes {
        let (high, low) = (usize::from(byte >> 4), usize::from(byte & 15));
        out.write_all(&[DIGITS[high], DIGITS[low]])?;
    }
    Ok(())
}

fn end_line(spill: bool, out: &mut impl Write) -> io::Result<()> {
    out.write_all(if spill { b" SPILL\n" } else { b"\n" })
}

/// Frames and bodies, which need no link.
fn other_call(call: Call<'_>, out: &mut impl Write) -> io::Result<()> {
    match call {
        Call::Build {
            room,
            kind,
            command,
            parameters,
        } => {
            let mut lent = Lent::new(room);
            let answer = frame::build(kind, command, parameters, lent.lend());
            say_written("build", &lent, answer, out)
        }
        Call::Timeouts { room, ack, byte } => {
            let mut lent = Lent::new(room);
            let answer = bodies::set_timeouts(Milliseconds(ack), Milliseconds(byte), lent.lend());
            say_written("timeouts", &lent, answer, out)
        }
        Call::Nodes { room, body } => say_nodes(room, body, out),
        Call::Read(bytes) => say_read(bytes, out),
        Call::Capabilities(body) => say_capabilities(body, out),
        Call::TimeoutsResponse(body) => say_timeouts_response(body, out),
        _ => writer_call(call, out),
    }
}

/// The writers of bodies.
fn writer_call(call: Call<'_>, out: &mut impl Write) -> io::Result<()> {
    match call {
        Call::WriteCapabilities { room, fixed, mask } => {
            let mut lent = Lent::new(room);
            let answer = writers::capabilities(&fixed, mask, lent.lend());
            say_written("writecapabilities", &lent, answer, out)
        }
        Call::WriteNodes { room, list } => {
            let mut lent = Lent::new(room);
            let answer = writers::nodes(list, lent.lend());
            say_written("writenodes", &lent, answer, out)
        }
        Call::WriteTimeouts { room, ack, byte } => {
            let mut lent = Lent::new(room);
            let answer = writers::timeouts(Milliseconds(ack), Milliseconds(byte), lent.lend());
            say_written("writetimeouts", &lent, answer, out)
        }
        _ => Ok(()),
    }
}

fn say_refused(name: &str, refusal: Refusal, out: &mut impl Write) -> io::Result<()> {
    write!(out, "{name} refused={}", refusal.number())
}

/// A call that writes a frame or a body into a lent buffer.
fn say_written(
    name: &str,
    lent: &Lent,
    answer: Result<usize, Refusal>,
    out: &mut impl Write,
) -> io::Result<()> {
    match answer {
        Err(refusal) => say_refused(name, refusal, out)?,
        Ok(size) => {
            write!(out, "{name} ok ")?;
            hex(lent.front(size), out)?;
        }
    }
    end_line(lent.spilled(answer.unwrap_or(0)), out)
}

fn say_nodes(room: usize, body: &[u8], out: &mut impl Write) -> io::Result<()> {
    let mut lent = Lent::new(room);
    let answer = bodies::nodes(body, lent.lend());
    match answer {
        Err(refusal) => say_refused("nodes", refusal, out)?,
        Ok(nodes) => {
            write!(
                out,
                "nodes ok version={:02X} capabilities={:02X} nodes=",
                nodes.version, nodes.capabilities
            )?;
            hex(lent.front(nodes.count), out)?;
            write!(
                out,
                " chip={:02X} chipversion={:02X}",
                nodes.chip_type, nodes.chip_version
            )?;
        }
    }
    end_line(lent.spilled(answer.map_or(0, |nodes| nodes.count)), out)
}

fn say_read(bytes: &[u8], out: &mut impl Write) -> io::Result<()> {
    match frame::read(bytes) {
        Err(refusal) => say_refused("read", refusal, out)?,
        Ok(frame) => {
            write!(
                out,
                "read ok type={:02X} command={:02X} parameters=",
                frame.kind, frame.command
            )?;
            hex(frame.parameters, out)?;
        }
    }
    end_line(false, out)
}

fn say_capabilities(body: &[u8], out: &mut impl Write) -> io::Result<()> {
    match bodies::capabilities(body) {
        Err(refusal) => say_refused("capabilities", refusal, out)?,
        Ok(capabilities) => {
            write!(out, "capabilities ok fixed=")?;
            hex(capabilities.fixed, out)?;
            write!(out, " count={} functions=", capabilities.count)?;
            let functions: Vec<u8> = (0..=255).filter(|&f| capabilities.supports(f)).collect();
            hex(&functions, out)?;
        }
    }
    end_line(false, out)
}

fn say_timeouts_response(body: &[u8], out: &mut impl Write) -> io::Result<()> {
    match bodies::timeouts_response(body) {
        Err(refusal) => say_refused("timeoutsres", refusal, out)?,
        Ok((ack, byte)) => write!(out, "timeoutsres ok {} {}", ack.0, byte.0)?,
    }
    end_line(false, out)
}
