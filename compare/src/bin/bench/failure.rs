//! Why the benchmark ends early, and what to do then.

use std::fmt;
use std::io;
use std::path::{Path, PathBuf};
use std::process::ExitStatus;

#[derive(Debug)]
pub enum Failure {
    /// The results can't be written.
    Results(io::Error),
    /// A file can't be read.
    Read { path: PathBuf, error: io::Error },
    /// A file can't be written.
    Write { path: PathBuf, error: io::Error },
    /// A program can't be started.
    Start { program: PathBuf, error: io::Error },
    /// A program did not end with status 0.
    Status { command: String, status: ExitStatus },
    /// A program printed nothing.
    NoLines { command: String },
    /// Two programs printed different lines for one session.
    Lines { session: String, lines: [PathBuf; 2], frames: PathBuf },
    /// Valgrind did not count the instructions of a command.
    Count { command: String, told: String },
}

impl Failure {
    pub fn reading(path: &Path) -> impl FnOnce(io::Error) -> Failure {
        move |error| Failure::Read { path: path.into(), error }
    }

    pub fn writing(path: &Path) -> impl FnOnce(io::Error) -> Failure {
        move |error| Failure::Write { path: path.into(), error }
    }

    /// Whether the session and the lines are worth a look.
    pub fn leaves_files(&self) -> bool {
        use Failure::{Count, Lines, NoLines, Status};
        matches!(self, Status { .. } | NoLines { .. } | Lines { .. } | Count { .. })
    }
}

impl fmt::Display for Failure {
    fn fmt(&self, f: &mut fmt::Formatter<'_>) -> fmt::Result {
        match self {
            Failure::Results(error) => write!(f, "the results can't be written: {error}"),
            Failure::Read { path, error } => {
                write!(f, "{}: {error}; see whether it is there and may be read", path.display())
            }
            Failure::Write { path, error } => write!(
                f,
                "{}: {error}; the folder of temporary files needs 110 MB, and TMPDIR names \
                 another one",
                path.display()
            ),
            Failure::Start { program, error } => {
                write!(f, "{}: {error}; give the path of a program", program.display())
            }
            Failure::Status { command, status } => {
                write!(f, "a program ended with {status}; see why with: {command}")
            }
            Failure::NoLines { command } => {
                write!(f, "a program printed nothing; see why with: {command}")
            }
            Failure::Lines { session, lines: [first, other], frames } => write!(
                f,
                "{session}: the lines of two programs differ; see where with: cmp {} {}; the \
                 frames are {}",
                first.display(),
                other.display(),
                frames.display()
            ),
            Failure::Count { command, told } => write!(
                f,
                "valgrind did not count ({told}); see why with: {command}; with no valgrind on \
                 the PATH the benchmark does without"
            ),
        }
    }
}
