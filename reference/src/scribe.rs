//! Writes script lines and keeps two ends of its own in step with them, so that
//! the scenes can aim exactly at the edges of document 01.

use crate::choice::{Mode, Role};
use crate::dice::Dice;
use crate::ends::Ends;
use crate::frame::{self, ACK, CAN, NAK, REQ, RES, START};
use crate::link::Link;
use crate::script::{understand, Call, LinkCall, MOST_ROOM};
use crate::sending::{back_off_ticks, Cause, State};
use crate::session::Session;
use std::fmt::Write;

/// Bytes with a meaning while hunting, which must have none inside a frame.
pub const SPECIAL: [u8; 4] = [START, ACK, NAK, CAN];
/// Few commands, so that responses often meet the session's.
pub const COMMANDS: [u8; 6] = [0x02, 0x06, 0x07, 0x13, 0x15, 0x01];

/// A script being written.
pub struct Scribe {
    pub dice: Dice,
    text: String,
    lines: usize,
    ends: Ends,
    /// The end that the calls are written for.
    role: Role,
    line_room: usize,
    up_room: usize,
    /// Lent to the model, which looks at nothing in them.
    line: [u8; MOST_ROOM],
    up: [u8; MOST_ROOM],
    /// What is still to come of the frame begun last, at each end.
    rests: [Vec<u8>; 2],
    /// Bytes that the last run took.
    taken: usize,
}

impl Scribe {
    pub fn new(seed: u64) -> Scribe {
        Scribe {
            dice: Dice::new(seed),
            text: String::new(),
            lines: 0,
            ends: Ends::open(),
            role: Role::Host,
            line_room: Link::LINE_ROOM,
            up_room: Link::UP_ROOM,
            line: [0; MOST_ROOM],
            up: [0; MOST_ROOM],
            rests: [Vec::new(), Vec::new()],
            taken: 0,
        }
    }

    pub fn lines(&self) -> usize {
        self.lines
    }

    pub fn text(&self) -> &str {
        &self.text
    }

    pub fn into_text(self) -> String {
        self.text
    }

    /// Writes a scene for the stand-in.
    pub fn on_stand_in(&mut self, scene: impl FnOnce(&mut Scribe)) {
        let role = std::mem::replace(&mut self.role, Role::Module);
        scene(self);
        self.role = role;
    }

    /// The model link of the end that is written for.
    pub fn link(&self) -> &Link {
        self.ends.of(self.role).link()
    }

    /// The model's ends.
    pub fn ends(&self) -> &Ends {
        &self.ends
    }

    /// Bytes that the end written for has put out since the last pass.
    pub fn put_out(&self) -> usize {
        self.ends.of(self.role).out().bytes().len()
    }

    /// Writes a line and does the same to the model as it does to the link
    /// played.
    pub fn say(&mut self, line: &str) {
        self.text.push_str(line);
        self.text.push('\n');
        self.lines += 1;
        self.follow(line);
    }

    /// Writes a line of a head and bytes.
    pub fn say_bytes(&mut self, head: &str, bytes: &[u8]) {
        let upper = self.dice.once_in(2);
        let mut line = head.to_string();
        for byte in bytes {
            // Writing to a string can't fail.
            let _ = if upper {
                write!(line, " {byte:02X}")
            } else {
                write!(line, " {byte:02x}")
            };
        }
        self.say(&line);
    }

    /// A call on the end that is written for.
    fn at_end(&self, call: &str) -> String {
        match self.role {
            Role::Host => call.to_string(),
            Role::Module => format!("module {call}"),
        }
    }

    /// Plays the line on the model. What it answers is not looked at: a
    /// refused call changes nothing.
    fn follow(&mut self, line: &str) {
        let mut store = Vec::new();
        let Some(call) = understand(line.as_bytes(), &mut store) else {
            return;
        };
        self.taken = 0;
        match call {
            Call::Room { line, up } => (self.line_room, self.up_room) = (line, up),
            Call::Link(role, call) => self.taken = self.make(role, call).unwrap_or(0),
            Call::Ticks(role, number) => {
                for _ in 0..number {
                    self.make(role, LinkCall::Tick);
                }
            }
            Call::Open(choice) => self.ends.open_anew(choice),
            Call::Pass => self.follow_pass(),
            _ => {}
        }
    }

    /// Makes a call on the model; answers how many bytes an accepted run took.
    fn make(&mut self, role: Role, call: LinkCall<'_>) -> Option<usize> {
        let (line, up) = (&mut self.line, &mut self.up);
        let (line, up) = (&mut line[..self.line_room], &mut up[..self.up_room]);
        self.ends.of_mut(role).call(call, line, up).taken
    }

    fn follow_pass(&mut self) {
        let passing = self.ends.take();
        let given = [
            (Role::Module, &passing.to_module),
            (Role::Host, &passing.to_host),
        ];
        for (role, bytes) in given {
            let mut rest = &bytes[..];
            while !rest.is_empty() {
                match self.make(role, LinkCall::Bytes(rest)) {
                    Some(taken) => rest = &rest[taken..],
                    None => break,
                }
            }
        }
    }

    pub fn byte(&mut self, byte: u8) {
        self.say_bytes(&self.at_end("byte"), &[byte]);
    }

    /// One run in one line; answers how many bytes were taken.
    pub fn run(&mut self, run: &[u8]) -> usize {
        self.say_bytes(&self.at_end("bytes"), run);
        self.taken
    }

    /// A run in as many lines as it takes.
    pub fn runs(&mut self, mut run: &[u8]) {
        while !run.is_empty() {
            let taken = self.run(run);
            if taken == 0 {
                return;
            }
            run = &run[taken..];
        }
    }

    /// Some ticks. With short room each is refused with a line of its own, so
    /// there are few.
    pub fn ticks(&mut self, number: u32) {
        let number = if self.has_room() {
            number
        } else {
            number.min(3)
        };
        if number == 1 && self.dice.once_in(2) {
            self.say(&self.at_end("tick"));
        } else {
            self.say(&self.at_end(&format!("ticks {number}")));
        }
    }

    pub fn send(&mut self, kind: u8, command: u8, parameters: &[u8]) {
        let head = format!("send {kind:02X} {command:02x}");
        self.say_bytes(&self.at_end(&head), parameters);
    }

    pub fn session(&mut self, command: u8, parameters: &[u8]) {
        let head = format!("session {command:02X}");
        self.say_bytes(&self.at_end(&head), parameters);
    }

    pub fn restart(&mut self) {
        self.say(&self.at_end("restart"));
    }

    /// Opens the end anew, in this mode.
    pub fn open(&mut self, mode: Mode) {
        self.say(&self.at_end(match mode {
            Mode::Sooner => "opensooner",
            Mode::Spaced => "openspaced",
        }));
    }

    /// Opens the end anew without a choice.
    pub fn open_plain(&mut self) {
        self.say(&self.at_end("open"));
    }

    /// Gives each end what the other has put out.
    pub fn pass(&mut self) {
        self.say("pass");
    }

    pub fn room(&mut self, line: usize, up: usize) {
        self.say(&format!("room {line} {up}"));
    }

    pub fn has_room(&self) -> bool {
        self.line_room >= Link::LINE_ROOM && self.up_room >= Link::UP_ROOM
    }

    pub fn hunting(&self) -> bool {
        self.link().frame_clock().is_none()
    }

    /// Ticks to the abort of the frame being received.
    pub fn frame_left(&self) -> Option<u32> {
        let clock = self.link().frame_clock()?;
        Some(u32::from(Link::FRAME_TICKS + 1 - clock))
    }

    /// Ticks to the loss of the copy or the end of the back-off.
    pub fn sender_left(&self) -> Option<u32> {
        match self.link().sender_state() {
            State::Waiting(ticks) => Some(u32::from(self.link().ack_ticks() - ticks)),
            State::BackingOff(left) => Some(u32::from(left)),
            State::Quiet | State::Due => None,
        }
    }

    /// Ticks that a copy of the open send, or of the last one, waits for its
    /// ACK.
    pub fn wait(&self) -> u32 {
        u32::from(self.link().ack_ticks())
    }

    /// The mode of the end that is written for.
    pub fn mode(&self) -> Mode {
        self.link().choice().mode
    }

    /// Ticks from copy 1 to copies 2, 3 and 4 of the open send, or of the last
    /// one, and to its failure, where the line stays silent.
    pub fn silent_ticks(&self) -> [u32; 4] {
        let mut ticks = 0;
        [1, 2, 3, 4].map(|copy| {
            let back_off = back_off_ticks(self.mode(), Cause::Time, copy);
            ticks += self.wait() + back_off.map_or(0, u32::from);
            ticks
        })
    }

    /// Ticks to the end of a session that awaits its response.
    pub fn session_left(&self) -> Option<u32> {
        match self.link().session_state() {
            Session::Awaiting { ticks, .. } => Some(u32::from(Link::RESPONSE_TICKS - ticks)),
            _ => None,
        }
    }

    /// Ticks to within `around` of a number of ticks from now.
    pub fn ticks_near(&mut self, number: u32, around: u32) {
        let ticks = (number + self.dice.between(0, 2 * around)).saturating_sub(around);
        self.ticks(ticks);
    }

    pub fn command(&mut self) -> u8 {
        if self.dice.once_in(8) {
            self.dice.byte()
        } else {
            self.dice.one(&COMMANDS)
        }
    }

    /// The command of the open session, if there is one, else any.
    pub fn session_command(&mut self) -> u8 {
        match self.link().session_state() {
            Session::Sending { command } | Session::Awaiting { command, .. } => command,
            Session::Closed => self.command(),
        }
    }

    /// Few parameters mostly, sometimes as many as can be.
    pub fn parameters(&mut self) -> Vec<u8> {
        let size = match self.dice.below(16) {
            0 => self.dice.one(&[251, 252]),
            1 => self.dice.between(7, 250),
            2..=5 => 0,
            _ => self.dice.between(1, 6),
        };
        self.parameters_of(size as usize)
    }

    /// Parameters of any bytes or of special ones alone.
    pub fn parameters_of(&mut self, size: usize) -> Vec<u8> {
        if self.dice.once_in(3) {
            (0..size).map(|_| self.dice.one(&SPECIAL)).collect()
        } else {
            self.dice.bytes(size)
        }
    }

    /// A reserved type, often next to the others.
    pub fn reserved_kind(&mut self) -> u8 {
        let any = self.dice.between(2, 255) as u8;
        self.dice.one(&[2, 3, 255, any, any])
    }

    /// A frame in one of its shapes: request, response, reserved type, bad
    /// sum, bad length.
    pub fn some_frame(&mut self) -> Vec<u8> {
        let command = self.command();
        let awaited = self.session_command();
        let parameters = self.parameters();
        match self.dice.below(10) {
            0..=2 => whole(REQ, command, &parameters),
            3 => whole(RES, command, &parameters),
            4..=5 => whole(RES, awaited, &parameters),
            6 => {
                let kind = self.reserved_kind();
                whole(kind, command, &parameters)
            }
            7..=8 => {
                let kind = self.dice.one(&[REQ, RES]);
                let frame = whole(kind, command, &parameters);
                self.damaged(frame)
            }
            _ => vec![START, self.dice.below(3) as u8],
        }
    }

    /// A frame with one bit of its body or checksum turned over.
    pub fn damaged(&mut self, mut frame: Vec<u8>) -> Vec<u8> {
        let place = self.dice.between(2, frame.len() as u32 - 1) as usize;
        frame[place] ^= 1 << self.dice.below(8);
        frame
    }

    /// What is still to come of the frame begun last at this end.
    fn rest(&mut self) -> &mut Vec<u8> {
        &mut self.rests[self.role as usize]
    }

    /// Gives the first `size` bytes of a frame and keeps the rest for `finish`.
    pub fn begin(&mut self, frame: &[u8], size: usize) {
        self.give(&frame[..size]);
        *self.rest() = frame[size..].to_vec();
    }

    /// Gives the rest of the frame begun last.
    pub fn finish(&mut self) {
        let rest = std::mem::take(self.rest());
        self.give(&rest);
    }

    /// Gives some of the rest, but never the last byte.
    pub fn go_on(&mut self) {
        let left = self.rest().len();
        if left > 1 {
            let size = self.dice.between(1, left as u32 - 1) as usize;
            let part: Vec<u8> = self.rest().drain(..size).collect();
            self.give(&part);
        }
    }

    /// Bytes one by one if they are few, or in runs.
    pub fn give(&mut self, bytes: &[u8]) {
        if bytes.len() < 8 && self.dice.once_in(3) {
            for &byte in bytes {
                self.byte(byte);
            }
        } else {
            self.runs(bytes);
        }
    }

    /// Opens a send or session if none is open.
    pub fn open_some(&mut self) {
        if self.link().busy() {
            return;
        }
        let command = self.command();
        let parameters = self.parameters();
        match self.dice.below(4) {
            0..=1 => self.session(command, &parameters),
            2 => self.send(REQ, command, &parameters),
            _ => self.send(RES, command, &parameters),
        }
    }

    pub fn single(&mut self) {
        let byte = self.dice.one(&[ACK, NAK, CAN]);
        self.byte(byte);
    }
}

/// A frame with the right checksum, of any type.
pub fn whole(kind: u8, command: u8, parameters: &[u8]) -> Vec<u8> {
    let mut frame = vec![START, parameters.len() as u8 + 3, kind, command];
    frame.extend_from_slice(parameters);
    frame.push(frame::checksum(&frame[1..]));
    frame
}
