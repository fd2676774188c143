//! bench times programs on lawful sessions, and counts their instructions if valgrind is there.
//!
//!     bench FOLDER ACCOUNT SECOND [INQUIRY SECOND_INQUIRY SESSION]
//!
//! `account`, `second` and `second --no-test` run on a year of 8 groups, 6 messages a group and
//! day, all series: 109 MB, the one of bench/year.txt. Then on the same with fewer days, versions
//! and groups. `inquiry` and `second_inquiry` are asked for all quarter hours at the end of
//! SESSION, a stored one of 16 groups.
//!
//! The programs run seven times in turn, from spawn to exit, with the session as a file on
//! standard input and the lines into a file. All sessions are in the page cache. The lines of
//! all programs must be the same.
//!
//! Sessions and lines are written into FOLDER. If a program fails or lines differ, they are worth
//! a look there, and the status is 2.

mod failure;
mod measure;
mod report;
mod session;

use std::env;
use std::fs;
use std::path::{Path, PathBuf};
use std::process::ExitCode;

use compare::QUARTERS;

use failure::Failure;
use measure::{Bench, Program, RUNS, Session, Valgrind};
use report::{head, print, rows, say};
use session::Size;

const YEAR: Size = Size { groups: 8, days: 366, versions: 6 };

/// The year, and smaller sessions: by days, by versions and by groups.
const SIZES: [Size; 7] = [
    YEAR,
    Size { days: 92, ..YEAR },
    Size { days: 183, ..YEAR },
    Size { versions: 1, ..YEAR },
    Size { versions: 3, ..YEAR },
    Size { groups: 2, ..YEAR },
    Size { groups: 4, ..YEAR },
];

/// The status after a failure that left something to look at.
const LOOK: u8 = 2;

struct Arguments<'a> {
    folder: &'a Path,
    account: &'a Path,
    second: &'a Path,
    asked: Option<Asked<'a>>,
}

/// The programs that are asked for quarter hours, and the session that they are asked about.
struct Asked<'a> {
    inquiry: &'a Path,
    second_inquiry: &'a Path,
    session: &'a Path,
}

impl Arguments<'_> {
    fn of(paths: &[PathBuf]) -> Option<Arguments<'_>> {
        let [folder, account, second, asked @ ..] = paths else { return None };
        let asked = match asked {
            [] => None,
            [inquiry, second_inquiry, session] => Some(Asked { inquiry, second_inquiry, session }),
            _ => return None,
        };
        Some(Arguments { folder, account, second, asked })
    }
}

fn main() -> ExitCode {
    let paths: Vec<PathBuf> = env::args_os().skip(1).map(PathBuf::from).collect();
    let Some(arguments) = Arguments::of(&paths) else {
        say("usage: bench FOLDER ACCOUNT SECOND [INQUIRY SECOND_INQUIRY SESSION]");
        return ExitCode::FAILURE;
    };
    match measure_all(&arguments) {
        Ok(()) => ExitCode::SUCCESS,
        Err(failure) => {
            say(&failure.to_string());
            if failure.leaves_files() { LOOK.into() } else { ExitCode::FAILURE }
        }
    }
}

fn measure_all(arguments: &Arguments) -> Result<(), Failure> {
    let bench = Bench { folder: arguments.folder.into(), valgrind: Valgrind::find() };
    print(&method(&bench))?;
    print("")?;
    print(&head())?;
    measure_sessions(&bench, arguments.account, arguments.second)?;
    arguments.asked.as_ref().map_or(Ok(()), |asked| measure_questions(&bench, asked))
}

/// How the figures came about.
fn method(bench: &Bench) -> String {
    let instructions = match bench.valgrind {
        Some(_) => "Instructions are those of one more run, counted by callgrind.",
        None => "There is no valgrind on the PATH, so no instructions are counted.",
    };
    format!(
        "{RUNS} runs of each program on each session, in turn. The last column tells in how many \
         of them the session's first program took less time by the clock than the program of the \
         row, the first run beside the first, and so on. {instructions}"
    )
}

/// The rows of the year, and of the smaller sessions.
fn measure_sessions(bench: &Bench, account: &Path, second: &Path) -> Result<(), Failure> {
    let programs = [
        Program { name: "account", path: account.into(), arguments: vec![] },
        Program { name: "second", path: second.into(), arguments: vec![] },
        Program {
            name: "second --no-test",
            path: second.into(),
            arguments: vec!["--no-test".into()],
        },
    ];
    for size in SIZES {
        let frames = bench.folder.join("session.frames");
        session::write(&frames, size).map_err(Failure::writing(&frames))?;
        let bytes = fs::metadata(&frames).map_err(Failure::reading(&frames))?.len();
        let session = Session { name: size.to_string(), frames };
        let measured = bench.measure(&programs, &session)?;
        print(&rows(&session.name, &measured, Some(bytes)))?;
    }
    Ok(())
}

/// The rows of the programs that answer what no frame asks.
fn measure_questions(bench: &Bench, asked: &Asked) -> Result<(), Failure> {
    let quarters: Vec<String> = (1..=QUARTERS).map(|quarter| quarter.to_string()).collect();
    let programs = [("inquiry", asked.inquiry), ("second_inquiry", asked.second_inquiry)]
        .map(|(name, path)| Program { name, path: path.into(), arguments: quarters.clone() });
    let name = format!("16 groups, asked at the end for all {QUARTERS} quarter hours");
    let session = Session { name, frames: asked.session.into() };
    let measured = bench.measure(&programs, &session)?;
    print(&rows(&session.name, &measured, None))
}
