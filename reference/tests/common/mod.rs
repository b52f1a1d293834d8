//! What the tests share: a link with lent buffers that checks every call for
//! bytes written beyond those reported, and a frame maker of its own.
#![allow(dead_code)]

use reference::choice::{Choice, Mode, Role};
use reference::link::Link;
use reference::refusal::Refusal;
use reference::report::{ReceptionPart, Report, ResetPart, SendingPart, SessionPart};
use reference::script::LinkCall;

/// What stands in lent bytes before a call.
const BEFORE: u8 = 0xE7;

/// REQ 07 without parameters, with its sum right and wrong, and its kin.
pub const REQ_07: [u8; 5] = [0x01, 0x03, 0x00, 0x07, 0xFB];
pub const BAD_07: [u8; 5] = [0x01, 0x03, 0x00, 0x07, 0xFA];
pub const RES_07: [u8; 5] = [0x01, 0x03, 0x01, 0x07, 0xFA];
pub const RES_02: [u8; 5] = [0x01, 0x03, 0x01, 0x02, 0xFF];
pub const RESERVED_07: [u8; 5] = [0x01, 0x03, 0x02, 0x07, 0xF9];

/// Every choice that an opening has: both ends, each in both modes.
pub const CHOICES: [Choice; 4] = [
    choice(Role::Host, Mode::Sooner),
    choice(Role::Host, Mode::Spaced),
    choice(Role::Module, Mode::Sooner),
    choice(Role::Module, Mode::Spaced),
];

pub const fn choice(role: Role, mode: Mode) -> Choice {
    Choice { role, mode }
}

/// The report of a call and the bytes it put out and handed up.
#[derive(Clone, Debug, PartialEq, Eq)]
pub struct Said {
    pub report: Report,
    pub line: Vec<u8>,
    pub up: Vec<u8>,
}

impl Said {
    pub fn nothing(&self) -> bool {
        *self == says(rx("nothing"), tx(""), &[], &[])
    }
}

/// A link on the bench; a host in the new mode where nothing is said.
pub struct Bench {
    pub link: Link,
    /// Ticks accepted since opening.
    pub ticks: u32,
}

impl Bench {
    pub fn new() -> Bench {
        Bench {
            link: Link::open(),
            ticks: 0,
        }
    }

    /// A host on the bench, in the old mode.
    pub fn spaced() -> Bench {
        Bench::of(choice(Role::Host, Mode::Spaced))
    }

    /// A stand-in on the bench, in the new mode.
    pub fn module() -> Bench {
        Bench::of(choice(Role::Module, Mode::Sooner))
    }

    pub fn of(choice: Choice) -> Bench {
        Bench {
            link: Link::open_as(choice),
            ticks: 0,
        }
    }

    /// Another bench with the same link, to try something on.
    pub fn other(&self) -> Bench {
        Bench {
            link: self.link.clone(),
            ticks: self.ticks,
        }
    }

    fn call<T>(
        &mut self,
        call: impl FnOnce(&mut Link, &mut [u8], &mut [u8]) -> Result<(T, Report), Refusal>,
    ) -> Result<(T, Said), Refusal> {
        let (mut line, mut up) = ([BEFORE; 258], [BEFORE; 254]);
        let before = self.link.clone();
        match call(&mut self.link, &mut line, &mut up) {
            Ok((value, report)) => {
                assert!(line[report.line..].iter().all(|&byte| byte == BEFORE));
                assert!(up[report.up..].iter().all(|&byte| byte == BEFORE));
                let said = Said {
                    report,
                    line: line[..report.line].to_vec(),
                    up: up[..report.up].to_vec(),
                };
                Ok((value, said))
            }
            Err(refusal) => {
                assert_eq!((line, up), ([BEFORE; 258], [BEFORE; 254]));
                assert_eq!(self.link, before, "a refusal changed the link");
                Err(refusal)
            }
        }
    }

    fn plain(
        &mut self,
        call: impl FnOnce(&mut Link, &mut [u8], &mut [u8]) -> Result<Report, Refusal>,
    ) -> Result<Said, Refusal> {
        self.call(|link, line, up| call(link, line, up).map(|report| ((), report)))
            .map(|((), said)| said)
    }

    pub fn byte(&mut self, byte: u8) -> Said {
        self.plain(|link, line, up| link.byte(byte, line, up))
            .unwrap()
    }

    pub fn run(&mut self, run: &[u8]) -> (usize, Said) {
        self.call(|link, line, up| link.bytes(run, line, up))
            .unwrap()
    }

    /// All bytes, one by one; what the last one said.
    pub fn bytes(&mut self, bytes: &[u8]) -> Said {
        let mut said = self.run(&[]).1;
        for &byte in bytes {
            said = self.byte(byte);
        }
        said
    }

    pub fn tick(&mut self) -> Said {
        self.ticks += 1;
        self.plain(|link, line, up| link.tick(line, up)).unwrap()
    }

    /// Ticks, with what those said that said anything, and when.
    pub fn ticks(&mut self, number: u32) -> Vec<(u32, Said)> {
        let mut all = Vec::new();
        for _ in 0..number {
            let said = self.tick();
            if !said.nothing() {
                all.push((self.ticks, said));
            }
        }
        all
    }

    /// Ticks that must say nothing.
    pub fn quiet_ticks(&mut self, number: u32) {
        assert_eq!(self.ticks(number), vec![]);
    }

    pub fn send(&mut self, kind: u8, command: u8, parameters: &[u8]) -> Result<Said, Refusal> {
        self.plain(|link, line, up| link.send(kind, command, parameters, line, up))
    }

    pub fn session(&mut self, command: u8, parameters: &[u8]) -> Result<Said, Refusal> {
        self.plain(|link, line, up| link.session(command, parameters, line, up))
    }

    pub fn restart(&mut self) -> Said {
        self.plain(|link, line, up| link.restart(line, up)).unwrap()
    }
}

/// A report said in the words of linkplay.md.
pub fn says(reception: ReceptionPart, rest: Rest, line: &[u8], up: &[u8]) -> Said {
    Said {
        report: Report {
            reception,
            sending: rest.sending,
            session: rest.session,
            reset: rest.reset,
            line: line.len(),
            up: up.len(),
        },
        line: line.to_vec(),
        up: up.to_vec(),
    }
}

/// The reception part by its word.
pub fn rx(word: &str) -> ReceptionPart {
    match word {
        "nothing" => ReceptionPart::Nothing,
        "skipped" => ReceptionPart::Skipped,
        "badlen" => ReceptionPart::BadLength,
        "frame" => ReceptionPart::Frame,
        "reserved" => ReceptionPart::Reserved,
        "badsum" => ReceptionPart::BadSum,
        "abort" => ReceptionPart::Abort,
        "strayresponse" => ReceptionPart::StrayResponse,
        "cancelled" => ReceptionPart::Cancelled,
        _ => panic!("no reception part {word}"),
    }
}

/// The other three parts.
#[derive(Clone, Copy)]
pub struct Rest {
    sending: SendingPart,
    session: SessionPart,
    reset: ResetPart,
}

/// The other three parts by their words, those that say nothing left out.
pub fn tx(words: &str) -> Rest {
    let mut rest = Rest {
        sending: SendingPart::Nothing,
        session: SessionPart::Nothing,
        reset: ResetPart::None,
    };
    for word in words.split_whitespace() {
        let (name, number) = word.split_once(':').unwrap_or((word, "0"));
        let number: u16 = number.parse().unwrap();
        let copies = number as u8;
        match name {
            "stray" => rest.sending = SendingPart::Stray,
            "due" => rest.sending = SendingPart::Due,
            "copy" => rest.sending = SendingPart::Copy(copies),
            "backoff" => rest.sending = SendingPart::BackingOff(number),
            "acked" => rest.sending = SendingPart::Acknowledged(copies),
            "failed" => rest.sending = SendingPart::Failed(copies),
            "abandoned" => rest.sending = SendingPart::Abandoned,
            "waiting" => rest.session = SessionPart::Waiting,
            "response" => rest.session = SessionPart::Response(copies),
            "noresponse" => rest.session = SessionPart::NoResponse(copies),
            "notsent" => rest.session = SessionPart::NotSent(copies),
            "session-abandoned" => rest.session = SessionPart::Abandoned,
            "sums" => rest.reset = ResetPart::Sums,
            "delivery" => rest.reset = ResetPart::Delivery,
            _ => panic!("no part {word}"),
        }
    }
    rest
}

/// A whole frame by section 2, made without the program under test.
pub fn framed(kind: u8, command: u8, parameters: &[u8]) -> Vec<u8> {
    let length = 3 + parameters.len() as u8;
    let mut sum = 0xFF ^ length ^ kind ^ command;
    for parameter in parameters {
        sum ^= parameter;
    }
    let mut frame = vec![0x01, length, kind, command];
    frame.extend_from_slice(parameters);
    frame.push(sum);
    frame
}

/// Ticks that a frame of so many bytes takes on the wire (request P2), made
/// without the program under test: the fewest that reach 25/288 for a byte.
pub fn wire(size: usize) -> u32 {
    let size = size as u32;
    (0..).find(|ticks| 288 * ticks >= 25 * size).unwrap()
}

/// Makes a call on a link; how many bytes were taken, and the report.
pub fn called(
    link: &mut Link,
    call: LinkCall<'_>,
    line: &mut [u8],
    up: &mut [u8],
) -> Result<(usize, Report), Refusal> {
    let report = match call {
        LinkCall::Bytes(run) => return link.bytes(run, line, up),
        LinkCall::Byte(byte) => link.byte(byte, line, up),
        LinkCall::Tick => link.tick(line, up),
        LinkCall::Send {
            kind,
            command,
            parameters,
        } => link.send(kind, command, parameters, line, up),
        LinkCall::Session {
            command,
            parameters,
        } => link.session(command, parameters, line, up),
        LinkCall::Restart => link.restart(line, up),
    };
    Ok((0, report?))
}

/// Plays a script and answers the lines.
pub fn played(script: &str) -> Vec<String> {
    let mut out = Vec::new();
    reference::play::play(script.as_bytes(), &mut out).unwrap();
    let out = String::from_utf8(out).unwrap();
    assert!(out.is_empty() || out.ends_with('\n'));
    out.lines().map(str::to_string).collect()
}

/// Plays a script that must give these lines.
pub fn plays(script: &str, lines: &[&str]) {
    assert_eq!(played(script), lines);
}
