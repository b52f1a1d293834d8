//! The commands of the second program.

use reference::{linecount, play, random, stream};
use std::io::{self, BufReader, BufWriter, Write};
use std::process::ExitCode;

const USAGE: &str = "\
reference play < SCRIPT             play a script (linkplay.md)
reference linecount < BYTES         count what stands in raw bytes (document 01, section 9)
reference random SEED KIND LINES    write a random script
reference kinds                     list the kinds of random scripts
reference stream SEED KIND BYTES    write raw random bytes
reference streams                   list the kinds of raw bytes
";

fn main() -> ExitCode {
    let words: Vec<String> = std::env::args().skip(1).collect();
    let words: Vec<&str> = words.iter().map(String::as_str).collect();
    match run(&words) {
        Ok(true) => ExitCode::SUCCESS,
        Ok(false) => {
            eprint!("{USAGE}");
            ExitCode::from(2)
        }
        // A reader that went away wants no more lines.
        Err(error) if error.kind() == io::ErrorKind::BrokenPipe => ExitCode::SUCCESS,
        Err(error) => {
            eprintln!("reference: {error}");
            ExitCode::FAILURE
        }
    }
}

/// Does what the words ask; false if they ask for nothing known.
fn run(words: &[&str]) -> io::Result<bool> {
    let mut out = BufWriter::with_capacity(65_536, io::stdout().lock());
    match words {
        ["play"] => play::play(BufReader::with_capacity(65_536, io::stdin()), &mut out)?,
        ["linecount"] => linecount::count(io::stdin().lock())?.print(&mut out)?,
        ["random", seed, kind, lines] => match (seed.parse(), random::kind(kind), lines.parse()) {
            (Ok(seed), Some(kind), Ok(lines)) => {
                out.write_all(random::script(seed, kind, lines).as_bytes())?;
            }
            _ => return Ok(false),
        },
        ["kinds"] => {
            for kind in random::KINDS {
                writeln!(out, "{}", kind.name)?;
            }
        }
        ["stream", seed, kind, size] => {
            let (Ok(seed), Ok(size)) = (seed.parse(), size.parse()) else {
                return Ok(false);
            };
            let Some(bytes) = stream::stream(seed, kind, size) else {
                return Ok(false);
            };
            out.write_all(&bytes)?;
        }
        ["streams"] => {
            for (name, _) in stream::STREAMS {
                writeln!(out, "{name}")?;
            }
        }
        _ => return Ok(false),
    }
    out.flush()?;
    Ok(true)
}
