//! Section 6: the one request/response session.

use crate::frame::RES;
use crate::link::Link;
use crate::report::SessionPart;

/// Where the session is.
#[derive(Clone, Copy, Debug, PartialEq, Eq)]
pub enum Session {
    Closed,
    /// Its request is with the sender, not yet acknowledged.
    Sending {
        command: u8,
    },
    /// Acknowledged after `copies`; `ticks` have passed since.
    Awaiting {
        command: u8,
        copies: u8,
        ticks: u16,
    },
}

impl Session {
    pub fn open(&self) -> bool {
        *self != Session::Closed
    }

    /// The sender was acknowledged.
    pub fn acknowledged(&mut self, copies: u8) -> SessionPart {
        match *self {
            Session::Sending { command } => {
                *self = Session::Awaiting {
                    command,
                    copies,
                    ticks: 0,
                };
                SessionPart::Waiting
            }
            _ => SessionPart::Nothing,
        }
    }

    /// The sender gave up.
    pub fn failed(&mut self, copies: u8) -> SessionPart {
        match *self {
            Session::Sending { .. } => {
                *self = Session::Closed;
                SessionPart::NotSent(copies)
            }
            _ => SessionPart::Nothing,
        }
    }

    /// A body of Type 00 or 01 is handed up. A request changes nothing here;
    /// `None` says that it is a response nobody awaits.
    pub fn body(&mut self, body: &[u8]) -> Option<SessionPart> {
        if body[0] != RES {
            return Some(SessionPart::Nothing);
        }
        match *self {
            Session::Awaiting {
                command, copies, ..
            } if command == body[1] => {
                *self = Session::Closed;
                Some(SessionPart::Response(copies))
            }
            _ => None,
        }
    }

    /// One tick, after reception and the sender had theirs.
    pub fn tick(&mut self) -> SessionPart {
        let Session::Awaiting { copies, ticks, .. } = self else {
            return SessionPart::Nothing;
        };
        *ticks += 1;
        if *ticks < Link::RESPONSE_TICKS {
            return SessionPart::Nothing;
        }
        let copies = *copies;
        *self = Session::Closed;
        SessionPart::NoResponse(copies)
    }
}
