//! The two ends of a play (linkplay.md, P5): the host and the stand-in, each
//! with its link, its count of ticks, and what it has put out; and how an end
//! is opened anew (P4).

use crate::choice::{Choice, Role};
use crate::link::Link;
use crate::refusal::Refusal;
use crate::report::Report;
use crate::script::LinkCall;

/// What an end has put out and the other was not given yet.
#[derive(Clone, Debug, PartialEq, Eq)]
pub struct Direction {
    bytes: Vec<u8>,
    lost: bool,
}

impl Direction {
    /// So many bytes are kept.
    pub const MOST: usize = 1_024;

    fn empty() -> Direction {
        Direction {
            bytes: Vec::new(),
            lost: false,
        }
    }

    pub fn bytes(&self) -> &[u8] {
        &self.bytes
    }

    /// Whether something was not kept.
    pub fn lost(&self) -> bool {
        self.lost
    }

    /// Keeps what a call put out, if it fits whole.
    fn keep(&mut self, put_out: &[u8]) {
        if self.bytes.len() + put_out.len() <= Direction::MOST {
            self.bytes.extend_from_slice(put_out);
        } else {
            self.lost = true;
        }
    }
}

/// What a call on a link answered.
#[derive(Clone, Copy, Debug, PartialEq, Eq)]
pub struct Answer {
    /// The name it is printed under.
    pub name: &'static str,
    /// How many bytes an accepted run took.
    pub taken: Option<usize>,
    pub report: Result<Report, Refusal>,
}

impl Answer {
    fn new(name: &'static str, report: Result<Report, Refusal>) -> Answer {
        Answer {
            name,
            taken: None,
            report,
        }
    }

    fn run(answer: Result<(usize, Report), Refusal>) -> Answer {
        Answer {
            name: "bytes",
            taken: answer.ok().map(|(taken, _)| taken),
            report: answer.map(|(_, report)| report),
        }
    }
}

/// One end of the line.
#[derive(Clone, Debug, PartialEq, Eq)]
pub struct LineEnd {
    link: Link,
    ticks: u64,
    out: Direction,
}

impl LineEnd {
    fn open(choice: Choice) -> LineEnd {
        LineEnd {
            link: Link::open_as(choice),
            ticks: 0,
            out: Direction::empty(),
        }
    }

    pub fn link(&self) -> &Link {
        &self.link
    }

    /// Ticks accepted since opening.
    pub fn ticks(&self) -> u64 {
        self.ticks
    }

    pub fn out(&self) -> &Direction {
        &self.out
    }

    /// Makes one call and keeps what it puts out for the other end.
    pub fn call(&mut self, call: LinkCall<'_>, line: &mut [u8], up: &mut [u8]) -> Answer {
        let answer = self.on_link(call, line, up);
        if let Ok(report) = answer.report {
            self.ticks += u64::from(call == LinkCall::Tick);
            self.out.keep(&line[..report.line]);
        }
        answer
    }

    fn on_link(&mut self, call: LinkCall<'_>, line: &mut [u8], up: &mut [u8]) -> Answer {
        let link = &mut self.link;
        match call {
            LinkCall::Send {
                kind,
                command,
                parameters,
            } => Answer::new("send", link.send(kind, command, parameters, line, up)),
            LinkCall::Session {
                command,
                parameters,
            } => Answer::new("session", link.session(command, parameters, line, up)),
            LinkCall::Byte(byte) => Answer::new("byte", link.byte(byte, line, up)),
            LinkCall::Bytes(run) => Answer::run(link.bytes(run, line, up)),
            LinkCall::Tick => Answer::new("tick", link.tick(line, up)),
            LinkCall::Restart => Answer::new("restart", link.restart(line, up)),
        }
    }
}

/// What a `pass` gives: taken from both ends before either is given anything,
/// so that what is put out meanwhile waits for the next one.
pub struct Passing {
    /// Whether something put out since the last one was not kept.
    pub lost: bool,
    pub to_module: Vec<u8>,
    pub to_host: Vec<u8>,
}

/// Both ends.
#[derive(Clone, Debug, PartialEq, Eq)]
pub struct Ends {
    host: LineEnd,
    module: LineEnd,
}

impl Ends {
    pub fn open() -> Ends {
        Ends {
            host: LineEnd::open(Choice::HOST),
            module: LineEnd::open(Choice::MODULE),
        }
    }

    /// Opens an end anew. What it had put out is dropped, and with it that some
    /// of it was not kept; what the other had put out to it stays.
    pub fn open_anew(&mut self, choice: Choice) {
        *self.of_mut(choice.role) = LineEnd::open(choice);
    }

    pub fn of(&self, role: Role) -> &LineEnd {
        match role {
            Role::Host => &self.host,
            Role::Module => &self.module,
        }
    }

    pub fn of_mut(&mut self, role: Role) -> &mut LineEnd {
        match role {
            Role::Host => &mut self.host,
            Role::Module => &mut self.module,
        }
    }

    /// Whether neither has put out anything since the last time.
    pub fn silent(&self) -> bool {
        self.host.out.bytes.is_empty() && self.module.out.bytes.is_empty()
    }

    /// Takes what both have put out since the last time.
    pub fn take(&mut self) -> Passing {
        let from_host = std::mem::replace(&mut self.host.out, Direction::empty());
        let from_module = std::mem::replace(&mut self.module.out, Direction::empty());
        Passing {
            lost: from_host.lost || from_module.lost,
            to_module: from_host.bytes,
            to_host: from_module.bytes,
        }
    }
}
