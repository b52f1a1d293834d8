//! The calls of section 3 on a link, and how reception (4), the sender (5) and
//! the session (6) work together in them; with the one rule in which the
//! stand-in of request P5 differs from the host, and the modes of request P4.

use crate::choice::{Choice, Role};
use crate::frame::{ACK, CAN, MOST_BODY, MOST_FRAME, NAK, REQ};
use crate::reception::{End, Heard, Reception, Single};
use crate::refusal::Refusal;
use crate::report::{ReceptionPart, Report, ResetPart, SendingPart, SessionPart};
use crate::sending::{Sender, State};
use crate::session::Session;

/// An end of the link, the host's unless another was chosen, in one of the two
/// modes. A tick is a millisecond.
#[derive(Clone, Debug, PartialEq, Eq)]
pub struct Link {
    /// Set by the opening alone.
    choice: Choice,
    reception: Reception,
    sender: Sender,
    session: Session,
}

impl Link {
    /// A frame may last 1,500 ticks; the next aborts it (section 4).
    pub const FRAME_TICKS: u16 = 1_500;
    /// A copy not acknowledged as many ticks behind its time on the wire is
    /// lost (section 5, request P2).
    pub const ACK_TICKS: u16 = 1_600;
    /// Back-offs after copies 1, 2 and 3 (section 5). After a loss by time the
    /// new mode subtracts `ACK_TICKS` from them (request P4).
    pub const BACK_OFF_TICKS: [u16; 3] = [100, 1_100, 2_100];
    /// A session waits as many ticks from its ACK (section 6).
    pub const RESPONSE_TICKS: u16 = 5_000;
    /// As many bad sums in a row indicate a reset (section 4).
    pub const BAD_SUMS: u8 = 3;
    /// What every call needs for the line: a single byte and a whole frame.
    pub const LINE_ROOM: usize = MOST_FRAME + 1;
    /// What every call needs for the frame handed up.
    pub const UP_ROOM: usize = MOST_BODY;

    /// A fresh host, in the mode of a link without a choice. Nothing is put
    /// out.
    pub fn open() -> Link {
        Link::open_as(Choice::HOST)
    }

    /// A fresh link of this choice. Nothing is put out.
    pub fn open_as(choice: Choice) -> Link {
        Link {
            choice,
            reception: Reception::fresh(),
            sender: Sender::fresh(),
            session: Session::Closed,
        }
    }

    /// One received byte.
    pub fn byte(&mut self, byte: u8, line: &mut [u8], up: &mut [u8]) -> Result<Report, Refusal> {
        room(line, up)?;
        Ok(self.take(byte, line, up))
    }

    /// A run of bytes, taken up to and with the first whose report says more
    /// than "nothing" or "skipped". Answers how many were taken and the report
    /// of the last.
    pub fn bytes(
        &mut self,
        run: &[u8],
        line: &mut [u8],
        up: &mut [u8],
    ) -> Result<(usize, Report), Refusal> {
        room(line, up)?;
        let mut report = Report::nothing();
        for (before, &byte) in run.iter().enumerate() {
            report = self.take(byte, line, up);
            if report.says_more_than_skipped() {
                return Ok((before + 1, report));
            }
        }
        Ok((run.len(), report))
    }

    /// One tick: reception, then the sender once, then the session.
    pub fn tick(&mut self, line: &mut [u8], up: &mut [u8]) -> Result<Report, Refusal> {
        room(line, up)?;
        let mut report = Report::nothing();
        if self.reception.tick() {
            report.reception = ReceptionPart::Abort;
        }
        let hunting = self.reception.hunting();
        let (sending, size) = self.sender.tick(self.choice.mode, hunting, line);
        report.line = size;
        self.say_sending(sending, &mut report);
        // The session's own count; a failure just said has closed it already,
        // and no ACK comes on a tick.
        let session = self.session.tick();
        if session != SessionPart::Nothing {
            report.session = session;
        }
        Ok(report)
    }

    /// Sends a frame. Order of refusals: ROOM, BUSY, KIND, LONG.
    pub fn send(
        &mut self,
        kind: u8,
        command: u8,
        parameters: &[u8],
        line: &mut [u8],
        up: &mut [u8],
    ) -> Result<Report, Refusal> {
        room(line, up)?;
        self.free()?;
        self.sender.accept(kind, command, parameters)?;
        Ok(self.accepted(line))
    }

    /// Sends a request and awaits its response. Order of refusals: ROOM, BUSY,
    /// LONG.
    pub fn session(
        &mut self,
        command: u8,
        parameters: &[u8],
        line: &mut [u8],
        up: &mut [u8],
    ) -> Result<Report, Refusal> {
        room(line, up)?;
        self.free()?;
        self.sender.accept(REQ, command, parameters)?;
        self.session = Session::Sending { command };
        Ok(self.accepted(line))
    }

    /// Puts out 15 and makes the link fresh, with the choice of its opening;
    /// what was open is abandoned.
    pub fn restart(&mut self, line: &mut [u8], up: &mut [u8]) -> Result<Report, Refusal> {
        room(line, up)?;
        let mut report = Report::nothing();
        if self.session.open() {
            report.session = SessionPart::Abandoned;
        } else if !self.sender.quiet() {
            report.sending = SendingPart::Abandoned;
        }
        *self = Link::open_as(self.choice);
        line[0] = NAK;
        report.line = 1;
        Ok(report)
    }

    /// What the opening chose.
    pub fn choice(&self) -> Choice {
        self.choice
    }

    /// The clock of the frame being received, if one is.
    pub fn frame_clock(&self) -> Option<u16> {
        self.reception.clock()
    }

    /// The run of bad sums.
    pub fn bad_sums(&self) -> u8 {
        self.reception.bad_sums()
    }

    /// The sender's state.
    pub fn sender_state(&self) -> State {
        self.sender.state()
    }

    /// Ticks after which a copy of the open send, or of the last one, is lost.
    pub fn ack_ticks(&self) -> u16 {
        self.sender.ack_ticks()
    }

    /// The session's state.
    pub fn session_state(&self) -> Session {
        self.session
    }

    /// Whether a send or session is open.
    pub fn busy(&self) -> bool {
        !self.sender.quiet() || self.session.open()
    }

    fn free(&self) -> Result<(), Refusal> {
        if self.busy() {
            Err(Refusal::Busy)
        } else {
            Ok(())
        }
    }

    /// An accepted send while hunting puts copy 1 out at once; inside a frame
    /// it is due.
    fn accepted(&mut self, line: &mut [u8]) -> Report {
        let mut report = Report::nothing();
        if self.reception.hunting() {
            (report.sending, report.line) = self.sender.release(line);
        } else {
            report.sending = SendingPart::Due;
        }
        report
    }

    /// One byte, the buffers being large enough.
    fn take(&mut self, byte: u8, line: &mut [u8], up: &mut [u8]) -> Report {
        let mut report = Report::nothing();
        match self.reception.byte(byte) {
            Heard::Inside => {}
            Heard::Skipped => report.reception = ReceptionPart::Skipped,
            Heard::Single(single) => self.single(single, &mut report),
            Heard::Ended(end) => self.ended(end, line, up, &mut report),
        }
        report
    }

    fn single(&mut self, single: Single, report: &mut Report) {
        let sending = self.sender.single(single, self.choice.mode);
        self.say_sending(sending, report);
    }

    /// A frame ended: answer it, hand it up, then put out a due copy behind
    /// the answer.
    fn ended(&mut self, end: End, line: &mut [u8], up: &mut [u8], report: &mut Report) {
        match end {
            End::BadLength => report.reception = ReceptionPart::BadLength,
            End::Frame if self.cancels() => {
                answer(CAN, line, report);
                report.reception = ReceptionPart::Cancelled;
            }
            End::Frame => {
                answer(ACK, line, report);
                self.hand_up(up, report);
            }
            End::Reserved => {
                answer(ACK, line, report);
                report.reception = ReceptionPart::Reserved;
            }
            End::BadSum { third } => {
                answer(NAK, line, report);
                report.reception = ReceptionPart::BadSum;
                if third {
                    report.reset = ResetPart::Sums;
                }
            }
        }
        let (sending, size) = self.sender.release(&mut line[report.line..]);
        report.sending = sending;
        report.line += size;
    }

    /// Whether a right frame that ends now is cancelled: a module that expects
    /// an ACK discards it (002, 5.3). The session is not asked, and the send
    /// goes on as it was.
    fn cancels(&self) -> bool {
        self.choice.role == Role::Module && matches!(self.sender.state(), State::Waiting(_))
    }

    fn hand_up(&mut self, up: &mut [u8], report: &mut Report) {
        let body = self.reception.body();
        up[..body.len()].copy_from_slice(body);
        report.up = body.len();
        match self.session.body(body) {
            Some(session) => {
                report.reception = ReceptionPart::Frame;
                report.session = session;
            }
            None => report.reception = ReceptionPart::StrayResponse,
        }
    }

    /// Puts the sending part into the report, with what follows from it for
    /// the session and the reset.
    fn say_sending(&mut self, sending: SendingPart, report: &mut Report) {
        report.sending = sending;
        match sending {
            SendingPart::Acknowledged(copies) => report.session = self.session.acknowledged(copies),
            SendingPart::Failed(copies) => {
                report.session = self.session.failed(copies);
                report.reset = ResetPart::Delivery;
            }
            _ => {}
        }
    }
}

/// ROOM, which every call on a link checks first.
fn room(line: &[u8], up: &[u8]) -> Result<(), Refusal> {
    if line.len() < Link::LINE_ROOM || up.len() < Link::UP_ROOM {
        Err(Refusal::Room)
    } else {
        Ok(())
    }
}

/// Puts out a 06, 15 or 18.
fn answer(single: u8, line: &mut [u8], report: &mut Report) {
    line[0] = single;
    report.line = 1;
}
