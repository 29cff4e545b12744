//! Writes a script from a seed: `scripts SEED CALLS [KIND]`.

use second::generate::{write_script, Kind};
use std::io::{self, BufWriter, Write};
use std::process::ExitCode;

const USAGE: &str = "scripts SEED CALLS [KIND]
KIND is honest, garbage, refusals, bounds, modes, resting, bodies, spoil, lines or long; without one all but long,
in turn";

fn main() -> ExitCode {
    let words: Vec<String> = std::env::args().skip(1).collect();
    let (seed, calls, kind) = match read_words(&words) {
        Some(words) => words,
        None => {
            eprintln!("{USAGE}");
            return ExitCode::from(2);
        }
    };
    match write(seed, calls, kind) {
        Ok(()) => ExitCode::SUCCESS,
        Err(error) => {
            eprintln!("scripts: {error}");
            ExitCode::FAILURE
        }
    }
}

fn read_words(words: &[String]) -> Option<(u64, u64, Option<Kind>)> {
    let kind = match words {
        [_, _] => None,
        [_, _, kind] => Some(Kind::named(kind)?),
        _ => return None,
    };
    Some((words[0].parse().ok()?, words[1].parse().ok()?, kind))
}

fn write(seed: u64, calls: u64, kind: Option<Kind>) -> io::Result<()> {
    let mut output = BufWriter::new(io::stdout().lock());
    write_script(seed, calls, kind, &mut output)?;
    output.flush()
}
