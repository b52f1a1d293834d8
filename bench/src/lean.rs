//! A run of bytes and the building of a frame as a performance engineer would write them. In a run the state is changed
//! in place, noise and the body of a frame are each walked in one tight loop, and a report is built only where there is
//! one; the sender and the session are the second program's, since only single bytes and ends reach them. A frame is
//! built in one pass.

use crate::numbers::{mix, refused, report};
use crate::ways::Ready;
use reference::choice::Mode;
use reference::frame::{ACK, CAN, LEAST_LENGTH, MOST_BODY, MOST_PARAMETERS, NAK, REQ, RES, START};
use reference::link;
use reference::reception::Single;
use reference::refusal::Refusal;
use reference::report::{ReceptionPart, Report, ResetPart, SendingPart};
use reference::sending::Sender;
use reference::session::Session;

#[derive(Clone, Copy)]
enum Stage {
    Hunting,
    Length,
    Body,
}

pub struct Link {
    stage: Stage,
    sum: u8,
    bad_sums: u8,
    size: usize,
    at: usize,
    body: [u8; MOST_BODY],
    sender: Sender,
    session: Session,
}

impl Link {
    pub fn open() -> Link {
        Link {
            stage: Stage::Hunting,
            sum: 0,
            bad_sums: 0,
            size: 0,
            at: 0,
            body: [0; MOST_BODY],
            sender: Sender::fresh(),
            session: Session::Closed,
        }
    }

    /// Every heard byte is a run of its own.
    #[inline(never)]
    pub fn prepared(ready: Ready, line: &mut [u8], up: &mut [u8]) -> Link {
        let mut link = Link::open();
        if ready.asks && link.sender.accept(REQ, 7, ready.parameters).is_ok() {
            link.session = Session::Sending { command: 7 };
            link.sender.release(line);
        }
        for byte in ready.heard.chunks(1) {
            let _ = link.bytes(byte, line, up);
        }
        link
    }

    /// Inlined into the loop that is measured, as the proved code's run is.
    #[inline(always)]
    pub fn bytes(
        &mut self,
        run: &[u8],
        line: &mut [u8],
        up: &mut [u8],
    ) -> Result<(usize, Report), Refusal> {
        if line.len() < link::Link::LINE_ROOM || up.len() < link::Link::UP_ROOM {
            return Err(Refusal::Room);
        }
        let mut skipped = false;
        let mut at = 0;
        while at < run.len() {
            match self.stage {
                Stage::Hunting => {
                    let byte = run[at];
                    at += 1;
                    match byte {
                        START => self.stage = Stage::Length,
                        ACK => return Ok((at, self.single(Single::Ack))),
                        NAK => return Ok((at, self.single(Single::Nak))),
                        CAN => return Ok((at, self.single(Single::Can))),
                        _ => {}
                    }
                    skipped = byte != START;
                }
                Stage::Length => {
                    let length = run[at];
                    at += 1;
                    skipped = false;
                    if length < LEAST_LENGTH {
                        self.stage = Stage::Hunting;
                        return Ok((at, self.ended(ReceptionPart::BadLength, line)));
                    }
                    self.stage = Stage::Body;
                    self.size = usize::from(length) - 1;
                    self.at = 0;
                    self.sum = 0xFF ^ length;
                }
                Stage::Body => {
                    skipped = false;
                    let n = (self.size - self.at).min(run.len() - at);
                    let mut sum = self.sum;
                    let kept = &mut self.body[self.at..self.at + n];
                    for (place, &byte) in kept.iter_mut().zip(&run[at..at + n]) {
                        *place = byte;
                        sum ^= byte;
                    }
                    self.sum = sum;
                    self.at += n;
                    at += n;
                    if at < run.len() {
                        let right = run[at] == sum;
                        self.stage = Stage::Hunting;
                        return Ok((at + 1, self.whole(right, line, up)));
                    }
                }
            }
        }
        let mut quiet = Report::nothing();
        if skipped {
            quiet.reception = ReceptionPart::Skipped;
        }
        Ok((run.len(), quiet))
    }

    /// The mode is that of a link opened without a choice, as all here are.
    fn single(&mut self, single: Single) -> Report {
        let mut said = Report::nothing();
        said.sending = self.sender.single(single, Mode::Sooner);
        match said.sending {
            SendingPart::Acknowledged(copies) => said.session = self.session.acknowledged(copies),
            SendingPart::Failed(copies) => {
                said.session = self.session.failed(copies);
                said.reset = ResetPart::Delivery;
            }
            _ => {}
        }
        said
    }

    /// A frame ended with nothing put out.
    fn ended(&mut self, reception: ReceptionPart, line: &mut [u8]) -> Report {
        let mut said = Report::nothing();
        said.reception = reception;
        (said.sending, said.line) = self.sender.release(line);
        said
    }

    /// A frame ended at its checksum.
    fn whole(&mut self, right: bool, line: &mut [u8], up: &mut [u8]) -> Report {
        let mut said = Report::nothing();
        if right {
            line[0] = ACK;
            self.bad_sums = 0;
            if self.body[0] > RES {
                said.reception = ReceptionPart::Reserved;
            } else {
                let body = &self.body[..self.size];
                up[..body.len()].copy_from_slice(body);
                said.up = body.len();
                said.reception = ReceptionPart::StrayResponse;
                if let Some(session) = self.session.body(body) {
                    said.reception = ReceptionPart::Frame;
                    said.session = session;
                }
            }
        } else {
            line[0] = NAK;
            said.reception = ReceptionPart::BadSum;
            self.bad_sums += 1;
            if self.bad_sums == link::Link::BAD_SUMS {
                self.bad_sums = 0;
                said.reset = ResetPart::Sums;
            }
        }
        let (sending, copied) = self.sender.release(&mut line[1..]);
        said.sending = sending;
        said.line = 1 + copied;
        said
    }
}

#[inline(never)]
pub fn runs(ready: Ready, input: &[u8], most: usize, line: &mut [u8], up: &mut [u8]) -> u64 {
    let mut link = Link::prepared(ready, line, up);
    let mut sum = 0;
    let mut at = 0;
    while at < input.len() {
        let end = at + most.min(input.len() - at);
        match link.bytes(&input[at..end], line, up) {
            Ok((taken, said)) => {
                sum = mix(mix(sum, report(&said)), taken as u64);
                at += taken;
            }
            Err(refusal) => return mix(mix(sum, refused(refusal)), 0),
        }
    }
    sum
}

#[inline(never)]
pub fn build(kind: u8, command: u8, parameters: &[u8], lent: &mut [u8]) -> u64 {
    if kind > RES {
        return refused(Refusal::Kind);
    }
    if parameters.len() > MOST_PARAMETERS {
        return refused(Refusal::Long);
    }
    let size = parameters.len() + 5;
    let Some(frame) = lent.get_mut(..size) else {
        return refused(Refusal::Room);
    };
    let length = (size - 2) as u8;
    frame[..4].copy_from_slice(&[START, length, kind, command]);
    let mut sum = 0xFF ^ length ^ kind ^ command;
    for (place, &byte) in frame[4..].iter_mut().zip(parameters) {
        *place = byte;
        sum ^= byte;
    }
    frame[size - 1] = sum;
    size as u64
}
