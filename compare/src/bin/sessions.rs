//! sessions writes the session of a seed, the one that `compare` runs for it.
//!
//!     sessions SEED > session.frames              a session of `account`
//!     sessions --inquiry SEED > session.frames    one of `inquiry`; its arguments go to the
//!                                                 standard error
//!     sessions --bytes SEED > session.frames      arbitrary bytes

use std::io::{self, Write};
use std::process::ExitCode;

use compare::generate::{garbled, script};

fn main() -> ExitCode {
    let arguments: Vec<String> = std::env::args().skip(1).collect();
    let arguments: Vec<&str> = arguments.iter().map(String::as_str).collect();
    let (mode, seed) = match arguments[..] {
        [seed] => ("", seed),
        [mode @ ("--inquiry" | "--bytes"), seed] => (mode, seed),
        _ => ("", ""),
    };
    let Ok(seed) = seed.parse() else {
        eprintln!("usage: sessions [--inquiry | --bytes] SEED > session.frames");
        eprintln!("--inquiry: a session of inquiry, its arguments on the standard error");
        eprintln!("--bytes: arbitrary bytes; with neither: a session of account");
        return ExitCode::FAILURE;
    };
    let script = match mode {
        "--bytes" => garbled(seed, false),
        mode => script(seed, mode == "--inquiry"),
    };
    if mode == "--inquiry" {
        let quarters: Vec<String> = script.quarters.iter().map(u16::to_string).collect();
        eprintln!("{}", quarters.join(" "));
    }
    match io::stdout().write_all(&script.frames) {
        Ok(()) => ExitCode::SUCCESS,
        Err(error) => {
            eprintln!("sessions: {error}");
            ExitCode::FAILURE
        }
    }
}
