//! Section 9: the counting program, against a second way of counting.

use reference::linecount::{count, Counts, MOST_BYTES};
use reference::stream::{stream, STREAMS};
use std::io::Read;

fn printed(bytes: &[u8]) -> String {
    let mut out = Vec::new();
    count(bytes).unwrap().print(&mut out).unwrap();
    String::from_utf8(out).unwrap()
}

#[test]
fn the_example() {
    let bytes = [0x06, 0x01, 0x03, 0x00, 0x07, 0xFB, 0x55, 0x01, 0x02];
    assert_eq!(
        printed(&bytes),
        "ack=1\nnak=0\ncan=0\nframes=1\nbadsum=0\nbadlen=1\nreserved=0\nskipped=1\nopen=0\ncut=0\n"
    );
}

#[test]
fn no_bytes() {
    assert_eq!(count(&[][..]).unwrap(), Counts::default());
}

#[test]
fn each_count() {
    let singles = Counts {
        ack: 1,
        nak: 2,
        can: 3,
        skipped: 2,
        ..Counts::default()
    };
    let bytes = [0x15, 0x18, 0x06, 0x18, 0x00, 0x15, 0xFF, 0x18];
    assert_eq!(count(&bytes[..]).unwrap(), singles);
    let ended = Counts {
        frames: 2,
        badsum: 1,
        badlen: 3,
        reserved: 1,
        ..Counts::default()
    };
    let bytes = [
        &[1, 3, 0, 7, 0xFB, 1, 3, 1, 7, 0xFA][..],
        &[1, 3, 0, 7, 0xFA],
        &[1, 0, 1, 1, 1, 2],
        &[1, 3, 2, 7, 0xF9],
    ]
    .concat();
    assert_eq!(count(&bytes[..]).unwrap(), ended);
}

#[test]
fn open_is_the_number_of_bytes_of_the_unfinished_frame() {
    let frame = [0x01, 0x05, 0x00, 0x06, 0x96, 0x0F, 0x65];
    for size in 0..7 {
        assert_eq!(count(&frame[..size]).unwrap().open, size as u64);
    }
    let whole = count(&frame[..]).unwrap();
    assert_eq!((whole.open, whole.frames), (0, 1));
    let mut long = vec![0; 256];
    long[0] = 1;
    long[1] = 255;
    assert_eq!(count(&long[..]).unwrap().open, 256);
}

#[test]
fn cut_only_if_input_remained() {
    for (size, cut) in [
        (MOST_BYTES - 1, false),
        (MOST_BYTES, false),
        (MOST_BYTES + 1, true),
    ] {
        let counts = count(std::io::repeat(0x55).take(size)).unwrap();
        assert_eq!(counts.cut, cut, "{size}");
        assert_eq!(counts.skipped, size.min(16_777_216));
    }
}

#[test]
fn the_byte_behind_the_most_is_not_counted() {
    // The last byte counted leaves a frame open that the next would end.
    let input = std::io::repeat(0x55).take(MOST_BYTES - 1);
    let counts = count(input.chain(&[0x01, 0x00][..])).unwrap();
    assert_eq!((counts.open, counts.badlen, counts.cut), (1, 0, true));
}

/// Hands out its bytes a few at a time, as a pipe does.
struct Trickle<'a>(&'a [u8]);

impl Read for Trickle<'_> {
    fn read(&mut self, into: &mut [u8]) -> std::io::Result<usize> {
        let size = self.0.len().min(3).min(into.len());
        into[..size].copy_from_slice(&self.0[..size]);
        self.0 = &self.0[size..];
        Ok(size)
    }
}

/// Counts by looking at all bytes at once, frame by frame.
fn counted_otherwise(bytes: &[u8]) -> Counts {
    let mut counts = Counts::default();
    let mut at = 0;
    while at < bytes.len() {
        let rest = &bytes[at..];
        let mut used = 1;
        match rest[0] {
            0x06 => counts.ack += 1,
            0x15 => counts.nak += 1,
            0x18 => counts.can += 1,
            0x01 => match rest.get(1) {
                Some(0..=2) => {
                    counts.badlen += 1;
                    used = 2;
                }
                Some(&length) if rest.len() >= usize::from(length) + 2 => {
                    used = usize::from(length) + 2;
                    let sum = rest[1..used].iter().fold(0, |sum, byte| sum ^ byte);
                    match (sum, rest[2]) {
                        (0xFF, 0 | 1) => counts.frames += 1,
                        (0xFF, _) => counts.reserved += 1,
                        _ => counts.badsum += 1,
                    }
                }
                _ => {
                    counts.open = rest.len() as u64;
                    used = rest.len();
                }
            },
            _ => counts.skipped += 1,
        }
        at += used;
    }
    counts
}

#[test]
fn random_streams_are_counted_alike() {
    for (kind, _) in STREAMS {
        for seed in 1..=20 {
            let bytes = stream(seed, kind, 20_000 + seed as usize).unwrap();
            assert_eq!(bytes.len(), 20_000 + seed as usize);
            let expected = counted_otherwise(&bytes);
            assert_eq!(count(&bytes[..]).unwrap(), expected, "{kind} {seed}");
            assert_eq!(count(Trickle(&bytes)).unwrap(), expected, "{kind} {seed}");
        }
    }
}

#[test]
fn the_streams_hold_what_they_should() {
    for kind in ["mixA", "mixB", "all"] {
        let counts = counted_otherwise(&stream(1, kind, 200_000).unwrap());
        let Counts {
            ack,
            nak,
            can,
            frames,
            badsum,
            badlen,
            reserved,
            skipped,
            ..
        } = counts;
        for number in [ack, nak, can, frames, badsum, badlen, reserved, skipped] {
            assert!(number > 20, "{kind} {counts:?}");
        }
    }
    assert!(stream(1, "other", 10).is_none());
}
