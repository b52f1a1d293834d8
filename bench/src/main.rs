//! Times the proved code, the second program and its rivals on the same input, in turns, and compares what they answer.

mod c;
mod clock;
mod lean;
mod numbers;
mod proved;
mod second;
mod table;
mod ways;

use reference::dice::Dice;
use reference::frame;
use reference::stream::stream;
use std::hint::black_box;
use table::{Row, Target, Timed};
use ways::{Ready, BACKS_OFF, QUIET};

const INPUT: usize = 16 * 1024 * 1024;
const ROUNDS: usize = 9;
const SEED: u64 = 20;

/// The lent buffers of a link's calls, cleared before each timed run.
struct Lent {
    line: [u8; 258],
    up: [u8; 254],
}

impl Lent {
    fn clear() -> Lent {
        Lent {
            line: [0; 258],
            up: [0; 254],
        }
    }
}

/// What a contestant answered: a number, and every lent byte.
#[derive(PartialEq, Eq, Debug)]
struct Answer(u64, Vec<u8>);

type Contestant<'a> = (&'a str, Box<dyn FnMut() -> Answer + 'a>);

/// Whether it is the code of an earlier revision. That may answer otherwise: a request may have changed the answer since.
fn is_earlier(name: &str) -> bool {
    name.ends_with("before")
}

/// Times each contestant once a round, in an order that turns with the rounds. All must answer as the first does.
fn race(what: &str, units: f64, contestants: &mut [Contestant]) -> Result<Vec<Timed>, String> {
    let many = contestants.len();
    let mut times: Vec<Vec<f64>> = vec![Vec::new(); many];
    let mut otherwise = vec![false; many];
    let mut first: Option<Answer> = None;
    // The first round warms up and is not counted.
    for round in 0..=ROUNDS {
        for place in 0..many {
            let which = (round + place) % many;
            let (name, run) = &mut contestants[which];
            let start = clock::now();
            let answer = black_box(run());
            let time = (clock::now() - start) / units;
            if round > 0 {
                times[which].push(time);
            }
            match &first {
                None => first = Some(answer),
                Some(right) if *right == answer => {}
                Some(_) if is_earlier(name) => otherwise[which] = true,
                Some(_) => return Err(format!("{what}: {name} answers otherwise than the others")),
            }
        }
    }
    Ok(contestants
        .iter()
        .zip(times)
        .zip(otherwise)
        .map(|(((name, _), times), otherwise)| Timed::of(name, times, otherwise))
        .collect())
}

fn with_lent(run: impl FnOnce(&mut [u8], &mut [u8]) -> u64) -> Answer {
    let mut lent = Lent::clear();
    let number = run(&mut lent.line, &mut lent.up);
    let mut left = lent.line.to_vec();
    left.extend_from_slice(&lent.up);
    Answer(number, left)
}

fn race_runs(what: &str, ready: Ready, input: &[u8], most: usize) -> Result<Vec<Timed>, String> {
    let mut contestants: Vec<Contestant> = Vec::new();
    for &(name, runs) in ways::RUNS {
        let run = move || with_lent(|line, up| runs(ready, input, most, line, up));
        contestants.push((name, Box::new(run)));
    }
    race(what, input.len() as f64, &mut contestants)
}

fn race_bytes(what: &str, ready: Ready, input: &[u8]) -> Result<Vec<Timed>, String> {
    let mut contestants: Vec<Contestant> = Vec::new();
    for &(name, bytes) in ways::BYTES {
        let run = move || with_lent(|line, up| bytes(ready, input, line, up));
        contestants.push((name, Box::new(run)));
    }
    race(what, input.len() as f64, &mut contestants)
}

/// Per tick; with no ticks, per link made ready for them.
fn race_ticks(what: &str, ready: Ready, n: u64, times: u64) -> Result<Vec<Timed>, String> {
    let mut contestants: Vec<Contestant> = Vec::new();
    for &(name, ticks) in ways::TICKS {
        let run = move || {
            with_lent(|line, up| {
                (0..times).fold(0, |sum, _| numbers::mix(sum, ticks(ready, n, line, up)))
            })
        };
        contestants.push((name, Box::new(run)));
    }
    race(what, (n.max(1) * times) as f64, &mut contestants)
}

const CALLS: u64 = 100_000;

/// Each contestant has a loop of its own, so that none of them is called by a longer way than the others.
fn race_build(what: &str, parameters: &[u8]) -> Result<Vec<Timed>, String> {
    fn calls(parameters: &[u8], build: impl Fn(u8, u8, &[u8], &mut [u8]) -> u64) -> Answer {
        let mut lent = vec![0; 257];
        let mut sum = 0;
        for call in 0..CALLS {
            let number = build(
                0,
                call as u8,
                black_box(parameters),
                black_box(&mut lent[..]),
            );
            sum = numbers::mix(sum, number);
        }
        Answer(sum, lent)
    }
    race(
        what,
        CALLS as f64,
        &mut [
            ("proved", Box::new(|| calls(parameters, proved::now::build))),
            #[cfg(feature = "before")]
            (
                "before",
                Box::new(|| calls(parameters, proved::before::build)),
            ),
            ("second", Box::new(|| calls(parameters, second::build))),
            ("lean", Box::new(|| calls(parameters, lean::build))),
        ],
    )
}

fn race_read(what: &str, whole: &[u8]) -> Result<Vec<Timed>, String> {
    fn calls(whole: &[u8], read: impl Fn(&[u8]) -> u64) -> Answer {
        let mut sum = 0;
        for _ in 0..CALLS {
            sum = numbers::mix(sum, read(black_box(whole)));
        }
        Answer(sum, Vec::new())
    }
    race(
        what,
        CALLS as f64,
        &mut [
            ("proved", Box::new(|| calls(whole, proved::now::read))),
            #[cfg(feature = "before")]
            ("before", Box::new(|| calls(whole, proved::before::read))),
            ("second", Box::new(|| calls(whole, second::read))),
        ],
    )
}

fn race_count(what: &str, input: &[u8]) -> Result<Vec<Timed>, String> {
    fn told(counts: [u64; 9]) -> Answer {
        Answer(0, counts.iter().flat_map(|n| n.to_le_bytes()).collect())
    }
    race(
        what,
        input.len() as f64,
        &mut [
            ("proved", Box::new(|| told(proved::now::count(input)))),
            #[cfg(feature = "before")]
            ("before", Box::new(|| told(proved::before::count(input)))),
            ("second", Box::new(|| told(second::count(input)))),
            ("C", Box::new(|| told(c::count(input)))),
        ],
    )
}

/// A frame of so many bytes.
fn frame_of(dice: &mut Dice, size: usize) -> Vec<u8> {
    let parameters = dice.bytes(size - 5);
    let mut whole = vec![0; size];
    let command = dice.byte();
    frame::build(0, command, &parameters, &mut whole).expect("a frame of 5 to 257 bytes builds");
    whole
}

/// Frames of so many bytes, one behind the other.
fn frames_of(size: usize, total: usize) -> Vec<u8> {
    let mut dice = Dice::new(SEED);
    let mut bytes = Vec::with_capacity(total + size);
    while bytes.len() < total {
        bytes.extend(frame_of(&mut dice, size));
    }
    bytes.truncate(total);
    bytes
}

/// The two mixes, by their names.
type Mixes<'a> = [(&'a str, &'a [u8]); 2];

const JOBS: [(&str, Ready); 2] = [("no job", QUIET), ("a job open", BACKS_OFF)];
const WHOLE: usize = usize::MAX;
const PART: usize = 1024 * 1024;

/// Whole inputs: runs, and counting.
fn inputs(mixes: Mixes) -> Result<Vec<Row>, String> {
    let mut rows = Vec::new();
    let targets = [Target::Ratio("second", 0.6), Target::Ratio("lean", 1.1)];
    for (job, ready) in JOBS {
        for (name, input) in mixes {
            let what = format!("run of bytes, {name}, {job}");
            let times = race_runs(&what, ready, input, WHOLE)?;
            rows.push(Row::new(&what, "ns a byte", times, &targets));
        }
    }
    let targets = [Target::Ratio("second", 1.0), Target::Ratio("C", 1.25)];
    for (name, input) in mixes {
        let what = format!("linecount, {name}");
        let times = race_count(&what, input)?;
        rows.push(Row::new(&what, "ns a byte", times, &targets));
    }
    Ok(rows)
}

/// Single frames, built and read.
fn frames() -> Result<Vec<Row>, String> {
    let mut rows = Vec::new();
    let build = [Target::Ratio("second", 1.0), Target::Ratio("lean", 1.0)];
    let read = [Target::Ratio("second", 1.1)];
    let mut dice = Dice::new(SEED);
    for size in [5, 64, 257] {
        let frame = frame_of(&mut dice, size);
        let what = format!("build, {size} bytes");
        let times = race_build(&what, &frame[4..size - 1])?;
        rows.push(Row::new(&what, "ns a call", times, &build));
        let what = format!("read, {size} bytes");
        let times = race_read(&what, &frame)?;
        rows.push(Row::new(&what, "ns a call", times, &read));
    }
    Ok(rows)
}

/// Single calls of a link: a byte, a tick.
fn calls(mixes: Mixes) -> Result<Vec<Row>, String> {
    let mut rows = Vec::new();
    let targets = [Target::Ratio("second", 1.5)];
    for (job, ready) in JOBS {
        for (name, input) in mixes {
            let what = format!("one byte call, {name}, {job}");
            let times = race_bytes(&what, ready, &input[..PART])?;
            rows.push(Row::new(&what, "ns a call", times, &targets));
        }
    }
    let targets = [Target::Most(10.0)];
    let ticked = [
        ("one tick, quiet", QUIET),
        ("one tick, a session from its back-off on", BACKS_OFF),
    ];
    for (what, ready) in ticked {
        let times = race_ticks(what, ready, 1_000_000, 1)?;
        rows.push(Row::new(what, "ns a call", times, &targets));
    }
    Ok(rows)
}

fn by_length(mix_a: &[u8]) -> Result<Vec<Row>, String> {
    let mut rows = Vec::new();
    for most in [16, 64, 256, 1024, 16_384, INPUT] {
        let what = format!("runs of at most {most} bytes, mix A");
        let times = race_runs(&what, QUIET, &mix_a[..4 * PART], most)?;
        rows.push(Row::new(&what, "ns a byte", times, &[]));
    }
    for size in [5, 16, 64, 128, 257] {
        let input = frames_of(size, 4 * PART);
        let what = format!("one run, frames of {size} bytes");
        let times = race_runs(&what, QUIET, &input, WHOLE)?;
        rows.push(Row::new(&what, "ns a byte", times, &[]));
    }
    Ok(rows)
}

fn by_state() -> Result<Vec<Row>, String> {
    let mut rows = Vec::new();
    let long = Dice::new(SEED).bytes(252);
    let mut open = vec![0x01, 0xFF];
    open.extend_from_slice(&long);
    let ticks = 1400;
    #[rustfmt::skip]
    let states: &[(&str, bool, &[u8], &[u8])] = &[
        ("quiet, hunting", false, &[], &[]),
        ("quiet, in a frame of 5 bytes", false, &[], &[0x01, 0x03]),
        ("quiet, in a frame of 257 bytes, 254 come", false, &[], &open),
        ("waiting for ACK of 5 bytes, hunting", true, &[], &[]),
        ("waiting for ACK of 257 bytes, hunting", true, &long, &[]),
        ("waiting for ACK of 257 bytes, in a frame of 257", true, &long, &open),
        ("awaiting the response", true, &long, &[0x06]),
        ("waiting for the back-off of 100, and copies", true, &long, &[0x15]),
    ];
    for &(state, asks, parameters, heard) in states {
        let what = format!("tick, {state}");
        let ready = Ready {
            asks,
            parameters,
            heard,
        };
        let whole = race_ticks(&what, ready, ticks, 500)?;
        let none = race_ticks(&what, ready, 0, 500)?;
        let times = whole
            .into_iter()
            .zip(none)
            .map(|(whole, none)| whole.less(none.median / ticks as f64))
            .collect();
        rows.push(Row::new(&what, "ns a call", times, &[]));
    }
    Ok(rows)
}

/// What the tables are of, as a list.
fn explain() {
    println!("- Columns: `proved` is the proved code, its link's calls in place (crate `exports_in_place`); `by value` the same calls with the link by value (crate `exports_by_value`); `second` the second program; `lean` the lean Rust, which builds in one pass; `C` the C loop.");
    println!(
        "- Input: {} MiB of each mix, from one seed. Mix A has frames of 5 to 257 bytes with noise of 0 to 16 bytes between, mix B frames of 5 to 14 with noise of 0 to 4; in both, 1 frame in 16 has a bad sum, 1 in 16 is an 01 and a bad Length alone, and 1 in 16 has a reserved type. Byte calls get the first MiB, the tables of sizes the first 4.",
        INPUT / 1024 / 1024
    );
    println!("- Each link is made ready by calls before the measured ones, and no compiler knows its state. \"No job\" is a fresh link. \"A job open\" is a session with the parameters 01 02 03 whose first copy was answered by 15: it backs off, and since no tick comes it does so for the whole input, so the job is open from the first byte to the last. The ticks from the back-off on go through its wait, the other copies and their waits, until the session fails, and then on; they are 1,000,000, as the quiet ones.");
    println!("- Each figure is the median of {ROUNDS} rounds, behind one that is not counted; within a round all run in turn, in an order that turns with the rounds. Times are of the thread, so what other programs take is left out. The lent buffers are cleared at the start of each timed run, and all answers and lent bytes are compared. A time with * is of an earlier revision that answers otherwise there, since a request changed the answer.");
}

fn measure() -> Result<(), String> {
    let mix_a = stream(SEED, "mixA", INPUT).ok_or("there is no mixA")?;
    let mix_b = stream(SEED, "mixB", INPUT).ok_or("there is no mixB")?;
    explain();
    let mixes: Mixes = [("mix A", &mix_a), ("mix B", &mix_b)];
    let mut rows = inputs(mixes)?;
    rows.extend(frames()?);
    rows.extend(calls(mixes)?);
    table::print("Against the targets", &rows);
    table::print(
        "Cost a byte, by the length of the run and of the frame",
        &by_length(&mix_a)?,
    );
    table::print(
        "Cost a tick, by what the link is doing (making it ready is measured alone and taken off)",
        &by_state()?,
    );
    Ok(())
}

fn main() {
    if let Err(message) = measure() {
        eprintln!("bench: {message}");
        std::process::exit(1);
    }
}
