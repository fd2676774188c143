//! The program `inquiry` of INQUIRY, a second time: a session of 2 to 16 groups on standard
//! input, its lines and then a table of what the book answers on standard output.
//!
//!     second_inquiry [QUARTER_HOUR ...] < session.frames
//!
//! Each argument is a quarter hour, 0 to 65535, for which positions and trades are asked.

use std::env;
use std::io;
use std::process::ExitCode;

use compare::MAX_GROUPS;
use compare::session::{run, table};

const HELP: &str = "\
usage: second_inquiry [QUARTER_HOUR ...] < session.frames

Prints the lines of the session, then positions and trades in each of the quarter hours,
the standings of all days past their cut-off, and the totals.
A quarter hour is a number from 0 to 65535 in decimal digits.
";

fn main() -> ExitCode {
    let arguments: Vec<_> = env::args_os().skip(1).collect();
    if arguments.first().is_some_and(|first| first == "--help") {
        print!("{HELP}");
        return ExitCode::SUCCESS;
    }
    let mut quarters = Vec::new();
    for argument in &arguments {
        let Some(quarter) = argument.to_str().and_then(quarter_hour) else {
            eprintln!(
                "second_inquiry: no quarter hour: {}; see second_inquiry --help",
                argument.display()
            );
            return ExitCode::FAILURE;
        };
        quarters.push(quarter);
    }
    let answered = run(io::stdin().lock(), io::stdout().lock(), MAX_GROUPS, &mut ())
        .and_then(|session| table(&session, &quarters, io::stdout().lock(), &mut ()));
    match answered {
        Ok(()) => ExitCode::SUCCESS,
        Err(error) => {
            eprintln!("second_inquiry: {error}");
            ExitCode::FAILURE
        }
    }
}

/// The number of a text of decimal digits and nothing else.
fn quarter_hour(text: &str) -> Option<u16> {
    text.bytes().all(|byte| byte.is_ascii_digit()).then(|| text.parse().ok()).flatten()
}
