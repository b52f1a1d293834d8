//! Section 7: what a call on the link did, in four parts and two numbers.

/// The reception part: nothing, skipped, or how a frame ended.
#[derive(Clone, Copy, Debug, PartialEq, Eq)]
pub enum ReceptionPart {
    Nothing,
    Skipped,
    BadLength,
    Frame,
    Reserved,
    BadSum,
    Abort,
    /// In place of `Frame`: a response that no session awaits.
    StrayResponse,
    /// In place of both: the stand-in waits for an ACK and takes no frame.
    Cancelled,
}

/// The sending part. A copy carries its number, a back-off its ticks, an end
/// the copies put out.
#[derive(Clone, Copy, Debug, PartialEq, Eq)]
pub enum SendingPart {
    Nothing,
    Stray,
    Due,
    Copy(u8),
    BackingOff(u16),
    Acknowledged(u8),
    Failed(u8),
    Abandoned,
}

/// The session part. Each verdict carries the copies put out.
#[derive(Clone, Copy, Debug, PartialEq, Eq)]
pub enum SessionPart {
    Nothing,
    Waiting,
    Response(u8),
    NoResponse(u8),
    NotSent(u8),
    Abandoned,
}

/// Whether a reset is indicated, and why.
#[derive(Clone, Copy, Debug, PartialEq, Eq)]
pub enum ResetPart {
    None,
    Sums,
    Delivery,
}

/// The record of four parts; `line` and `up` are the numbers of bytes put out
/// on the line and handed up.
#[derive(Clone, Copy, Debug, PartialEq, Eq)]
pub struct Report {
    pub reception: ReceptionPart,
    pub sending: SendingPart,
    pub session: SessionPart,
    pub reset: ResetPart,
    pub line: usize,
    pub up: usize,
}

impl Report {
    /// The report of a call in which nothing happened.
    pub fn nothing() -> Report {
        Report {
            reception: ReceptionPart::Nothing,
            sending: SendingPart::Nothing,
            session: SessionPart::Nothing,
            reset: ResetPart::None,
            line: 0,
            up: 0,
        }
    }

    /// Whether the report says more than "nothing" or "skipped"; a run of
    /// bytes stops behind such a byte.
    pub fn says_more_than_skipped(&self) -> bool {
        !matches!(
            self.reception,
            ReceptionPart::Nothing | ReceptionPart::Skipped
        ) || self.sending != SendingPart::Nothing
            || self.session != SessionPart::Nothing
            || self.reset != ResetPart::None
    }
}
