//! The program `account` of FORMS, a second time: frames on standard input, lines on
//! standard output, for books of 2 to 8 groups.

use std::env;
use std::io;
use std::process::ExitCode;

use compare::session::Session;
use compare::{EveryWord, LengthOnly, SheetTest};

/// The most groups that this program serves.
const GROUPS: usize = 8;

const HELP: &str = "\
usage: second [--no-test] < session.frames

Prints the lines of the session, for a book of 2 to 8 groups, as the program account does.

--no-test leaves out the test that no word of the sheet is above 10,000,000 (refusal 5).
The lines are the same: the sheet is the session's own, and each of its words comes from a
message whose values were tested. Its length is tested all the same.
";

fn main() -> ExitCode {
    let arguments: Vec<_> = env::args_os().skip(1).collect();
    let arguments: Vec<_> = arguments.iter().map(|argument| argument.to_str()).collect();
    let served = match arguments[..] {
        [] => serve(EveryWord),
        [Some("--no-test")] => serve(LengthOnly),
        [Some("--help"), ..] => {
            print!("{HELP}");
            return ExitCode::SUCCESS;
        }
        _ => {
            eprintln!("second: it takes no argument but --no-test; see second --help");
            return ExitCode::FAILURE;
        }
    };
    match served {
        Ok(()) => ExitCode::SUCCESS,
        Err(error) => {
            eprintln!("second: {error}");
            ExitCode::FAILURE
        }
    }
}

fn serve(test: impl SheetTest) -> io::Result<()> {
    Session::with_test(GROUPS, test).answer_all(io::stdin().lock(), io::stdout().lock(), &mut ())
}
