//! The script of linkplay.md: lines in, calls out.

use crate::bodies::FIXED;
use crate::choice::{Choice, Mode, Role};
use crate::frame::MOST_BODY;
use crate::writers::NodeList;
use std::io::{self, BufRead};

/// A line has at most as many bytes, its newline not counted.
pub const MOST_LINE: usize = 4_096;
/// A lent buffer has at most as many bytes.
pub const MOST_ROOM: usize = 600;

/// One call on a link. Bytes stand in the reader's store.
#[derive(Clone, Copy, Debug, PartialEq, Eq)]
pub enum LinkCall<'a> {
    Send {
        kind: u8,
        command: u8,
        parameters: &'a [u8],
    },
    Session {
        command: u8,
        parameters: &'a [u8],
    },
    Byte(u8),
    Bytes(&'a [u8]),
    Tick,
    Restart,
}

/// What one line of a script asks for. Bytes stand in the reader's store.
#[derive(Clone, Copy, Debug, PartialEq, Eq)]
pub enum Call<'a> {
    /// One call on an end.
    Link(Role, LinkCall<'a>),
    /// So many ticks of an end.
    Ticks(Role, u32),
    /// A fresh link of an end.
    Open(Choice),
    Pass,
    Room {
        line: usize,
        up: usize,
    },
    Build {
        room: usize,
        kind: u8,
        command: u8,
        parameters: &'a [u8],
    },
    Read(&'a [u8]),
    Capabilities(&'a [u8]),
    Nodes {
        room: usize,
        body: &'a [u8],
    },
    Timeouts {
        room: usize,
        ack: u32,
        byte: u32,
    },
    TimeoutsResponse(&'a [u8]),
    WriteCapabilities {
        room: usize,
        fixed: [u8; FIXED],
        mask: &'a [u8],
    },
    WriteNodes {
        room: usize,
        list: NodeList<'a>,
    },
    WriteTimeouts {
        room: usize,
        ack: u32,
        byte: u32,
    },
}

/// Whether a line is passed over: empty, or begun with `#`.
pub fn passed_over(line: &[u8]) -> bool {
    line.len() <= MOST_LINE && (line.is_empty() || line[0] == b'#')
}

/// Reads the next line, without its newline, into `line`; a last line without
/// newline counts. Of a line that is too long one byte too many is kept, so
/// that it is seen to be too long, and the rest is dropped. Answers whether
/// there was a line.
pub fn next_line(script: &mut impl BufRead, line: &mut Vec<u8>) -> io::Result<bool> {
    line.clear();
    let mut any = false;
    loop {
        let part = script.fill_buf()?;
        if part.is_empty() {
            return Ok(any);
        }
        any = true;
        let newline = part.iter().position(|&byte| byte == b'\n');
        let size = newline.unwrap_or(part.len());
        let kept = size.min(MOST_LINE + 1 - line.len());
        line.extend_from_slice(&part[..kept]);
        script.consume(size + usize::from(newline.is_some()));
        if newline.is_some() {
            return Ok(true);
        }
    }
}

/// The words behind the name, and the store for the bytes they spell.
struct Words<'w, 's, I: Iterator<Item = &'w [u8]>> {
    words: I,
    store: &'s mut Vec<u8>,
}

/// Two hexadecimal digits.
fn hexadecimal(word: &[u8]) -> Option<u8> {
    let [high, low] = word else { return None };
    Some(digit(*high)? << 4 | digit(*low)?)
}

fn digit(character: u8) -> Option<u8> {
    (character as char).to_digit(16).map(|digit| digit as u8)
}

/// 1 to 9 decimal digits.
fn decimal(word: &[u8]) -> Option<u32> {
    if word.is_empty() || word.len() > 9 || !word.iter().all(u8::is_ascii_digit) {
        return None;
    }
    Some(
        word.iter()
            .fold(0, |number, digit| number * 10 + u32::from(digit - b'0')),
    )
}

impl<'w, 's, I: Iterator<Item = &'w [u8]>> Words<'w, 's, I> {
    fn byte(&mut self) -> Option<u8> {
        hexadecimal(self.words.next()?)
    }

    fn number(&mut self) -> Option<u32> {
        decimal(self.words.next()?)
    }

    /// As many bytes as the array has.
    fn some_bytes<const N: usize>(&mut self) -> Option<[u8; N]> {
        let mut bytes = [0; N];
        for byte in &mut bytes {
            *byte = self.byte()?;
        }
        Some(bytes)
    }

    /// The size of a lent buffer.
    fn size(&mut self) -> Option<usize> {
        let size = self.number()? as usize;
        (size <= MOST_ROOM).then_some(size)
    }

    /// What is lent: the size that a `...room` line says, else the plain one.
    fn room(&mut self, name: &[u8], plain: usize) -> Option<usize> {
        if name.ends_with(b"room") {
            self.size()
        } else {
            Some(plain)
        }
    }

    /// All words left, each a byte.
    fn bytes(self) -> Option<&'s [u8]> {
        self.store.clear();
        for word in self.words {
            self.store.push(hexadecimal(word)?);
        }
        Some(self.store)
    }

    /// The call, if no word is left over.
    fn end(mut self, call: Call<'s>) -> Option<Call<'s>> {
        match self.words.next() {
            None => Some(call),
            Some(_) => None,
        }
    }
}

/// Understands one line; `None` is the script's `error`. Two spaces, or one at
/// either end, give an empty word, which nothing takes.
pub fn understand<'s>(line: &[u8], store: &'s mut Vec<u8>) -> Option<Call<'s>> {
    if line.len() > MOST_LINE {
        return None;
    }
    let mut words = line.split(|&byte| byte == b' ');
    let name = words.next()?;
    let mut words = Words { words, store };
    match name {
        // Only a call on a link, or its opening, stands behind `module`.
        b"module" => match words.words.next()? {
            name if on_link(name) => link_call(Role::Module, name, words),
            _ => None,
        },
        name if on_link(name) => link_call(Role::Host, name, words),
        _ => other_call(name, words),
    }
}

/// Whether the word names a call on a link or opens one.
fn on_link(name: &[u8]) -> bool {
    const NAMES: [&[u8]; 10] = [
        b"send",
        b"session",
        b"byte",
        b"bytes",
        b"tick",
        b"ticks",
        b"restart",
        b"open",
        b"opensooner",
        b"openspaced",
    ];
    NAMES.contains(&name)
}

/// The calls on the link of an end, and its opening.
fn link_call<'w, 's, I: Iterator<Item = &'w [u8]>>(
    role: Role,
    name: &[u8],
    mut words: Words<'w, 's, I>,
) -> Option<Call<'s>> {
    match name {
        b"send" => Some(Call::Link(
            role,
            LinkCall::Send {
                kind: words.byte()?,
                command: words.byte()?,
                parameters: words.bytes()?,
            },
        )),
        b"session" => Some(Call::Link(
            role,
            LinkCall::Session {
                command: words.byte()?,
                parameters: words.bytes()?,
            },
        )),
        b"byte" => {
            let byte = words.byte()?;
            words.end(Call::Link(role, LinkCall::Byte(byte)))
        }
        b"bytes" => Some(Call::Link(role, LinkCall::Bytes(words.bytes()?))),
        b"tick" => words.end(Call::Link(role, LinkCall::Tick)),
        b"ticks" => {
            let ticks = words.number()?;
            words.end(Call::Ticks(role, ticks))
        }
        b"restart" => words.end(Call::Link(role, LinkCall::Restart)),
        _ => words.end(Call::Open(opened(role, name)?)),
    }
}

/// What a verb that opens an end chooses.
fn opened(role: Role, name: &[u8]) -> Option<Choice> {
    match name {
        b"open" => Some(Choice::without_mode(role)),
        b"opensooner" => Some(Choice {
            role,
            mode: Mode::Sooner,
        }),
        b"openspaced" => Some(Choice {
            role,
            mode: Mode::Spaced,
        }),
        _ => None,
    }
}

/// What is no call on a link: rooms, `pass`, frames and bodies.
fn other_call<'w, 's, I: Iterator<Item = &'w [u8]>>(
    name: &[u8],
    mut words: Words<'w, 's, I>,
) -> Option<Call<'s>> {
    match name {
        b"room" => {
            let (line, up) = (words.size()?, words.size()?);
            words.end(Call::Room { line, up })
        }
        b"pass" => words.end(Call::Pass),
        b"build" | b"buildroom" => Some(Call::Build {
            room: words.room(name, 257)?,
            kind: words.byte()?,
            command: words.byte()?,
            parameters: words.bytes()?,
        }),
        b"read" => Some(Call::Read(words.bytes()?)),
        b"capabilities" => Some(Call::Capabilities(words.bytes()?)),
        b"nodes" | b"nodesroom" => Some(Call::Nodes {
            room: words.room(name, 232)?,
            body: words.bytes()?,
        }),
        b"timeouts" | b"timeoutsroom" => {
            let room = words.room(name, 7)?;
            let (ack, byte) = (words.number()?, words.number()?);
            words.end(Call::Timeouts { room, ack, byte })
        }
        b"timeoutsres" => Some(Call::TimeoutsResponse(words.bytes()?)),
        _ => writer_call(name, words),
    }
}

/// The writers of bodies, which lend 254 bytes unless the line says how many.
fn writer_call<'w, 's, I: Iterator<Item = &'w [u8]>>(
    name: &[u8],
    mut words: Words<'w, 's, I>,
) -> Option<Call<'s>> {
    match name {
        b"writecapabilities" | b"writecapabilitiesroom" => Some(Call::WriteCapabilities {
            room: words.room(name, MOST_BODY)?,
            fixed: words.some_bytes()?,
            mask: words.bytes()?,
        }),
        b"writenodes" | b"writenodesroom" => Some(Call::WriteNodes {
            room: words.room(name, MOST_BODY)?,
            list: NodeList {
                version: words.byte()?,
                capabilities: words.byte()?,
                chip_type: words.byte()?,
                chip_version: words.byte()?,
                mask: words.bytes()?,
            },
        }),
        b"writetimeouts" | b"writetimeoutsroom" => {
            let room = words.room(name, MOST_BODY)?;
            let (ack, byte) = (words.number()?, words.number()?);
            words.end(Call::WriteTimeouts { room, ack, byte })
        }
        _ => None,
    }
}
