//! Programs, and what their runs cost.

use std::array;
use std::ffi::c_int;
use std::fs::{self, File};
use std::io;
use std::os::unix::process::{CommandExt, ExitStatusExt};
use std::path::{Path, PathBuf};
use std::process::{Command, ExitStatus};
use std::time::{Duration, Instant};

use crate::failure::Failure;
use crate::report::say;

/// How often each program runs on a session.
pub const RUNS: usize = 7;

/// A program with its arguments.
pub struct Program {
    /// How it is called in the table.
    pub name: &'static str,
    pub path: PathBuf,
    pub arguments: Vec<String>,
}

/// A file of frames.
pub struct Session {
    pub name: String,
    pub frames: PathBuf,
}

/// One run of a program, from spawn to exit.
#[derive(Debug)]
pub struct Run {
    /// By the clock.
    pub wall: Duration,
    /// Of the processor, in the program and in the kernel for it.
    pub processor: Duration,
    pub peak_kb: i64,
}

/// What was measured of a program on one session.
pub struct Measured<'a> {
    pub program: &'a Program,
    pub runs: Vec<Run>,
    /// Missing if nothing counts them.
    pub instructions: Option<u64>,
    /// Where the lines of its last run are.
    lines: PathBuf,
}

/// Measures programs.
pub struct Bench {
    /// Where sessions and lines are written.
    pub folder: PathBuf,
    /// What counts instructions, if it is there.
    pub valgrind: Option<Valgrind>,
}

impl Bench {
    /// Runs the programs in turn on a session, counts their instructions, and compares their
    /// lines.
    pub fn measure<'a, const N: usize>(
        &self,
        programs: &'a [Program; N],
        session: &Session,
    ) -> Result<[Measured<'a>; N], Failure> {
        let mut measured = array::from_fn(|place| self.nothing_of(&programs[place]));
        say(&format!("{}: {RUNS} runs of each program, in turn", session.name));
        for _ in 0..RUNS {
            for measured in &mut measured {
                let run = measured.program.run(&session.frames, &measured.lines)?;
                measured.runs.push(run);
            }
            compare_lines(&measured, session)?;
        }
        if let Some(valgrind) = &self.valgrind {
            for Measured { program, instructions, lines, .. } in &mut measured {
                say(&format!("{}: instructions of {}", session.name, program.name));
                *instructions = Some(valgrind.count(program, &session.frames, lines)?);
            }
            compare_lines(&measured, session)?;
        }
        Ok(measured)
    }

    fn nothing_of<'a>(&self, program: &'a Program) -> Measured<'a> {
        let file = format!("{}.lines", program.name.replace(' ', ""));
        Measured { program, runs: vec![], instructions: None, lines: self.folder.join(file) }
    }
}

/// Looks that all programs printed the lines of the first.
fn compare_lines(measured: &[Measured], session: &Session) -> Result<(), Failure> {
    let [first, others @ ..] = measured else { return Ok(()) };
    let read = |path: &Path| fs::read(path).map_err(Failure::reading(path));
    let lines = read(&first.lines)?;
    if lines.is_empty() {
        return Err(Failure::NoLines { command: first.program.command_text(&session.frames) });
    }
    for other in others {
        if read(&other.lines)? != lines {
            return Err(Failure::Lines {
                session: session.name.clone(),
                lines: [first.lines.clone(), other.lines.clone()],
                frames: session.frames.clone(),
            });
        }
    }
    Ok(())
}

impl Measured<'_> {
    /// The time in the middle.
    pub fn median(&self, time: fn(&Run) -> Duration) -> Duration {
        let mut times: Vec<Duration> = self.runs.iter().map(time).collect();
        times.sort();
        times[times.len() / 2]
    }

    /// The shortest time.
    pub fn best(&self, time: fn(&Run) -> Duration) -> Duration {
        self.runs.iter().map(time).min().unwrap_or_default()
    }

    /// The highest peak of memory.
    pub fn peak_kb(&self) -> i64 {
        self.runs.iter().map(|run| run.peak_kb).max().unwrap_or_default()
    }

    /// In how many of the runs it took less time by the clock than another, the first run beside
    /// the first, and so on.
    pub fn faster_than(&self, other: &Measured) -> usize {
        self.runs.iter().zip(&other.runs).filter(|(own, other)| own.wall < other.wall).count()
    }
}

impl Program {
    /// One run with a file as standard input and another one as standard output.
    fn run(&self, frames: &Path, lines: &Path) -> Result<Run, Failure> {
        let mut command = Command::new(&self.path);
        command.args(&self.arguments).stdin(open(frames)?).stdout(create(lines)?);
        // With something to do before exec the child is forked and shares no memory with this
        // process; else its peak would be at least that of this process.
        //
        // SAFETY: nothing is done there.
        unsafe { command.pre_exec(|| Ok(())) };
        let started = Instant::now();
        let (status, usage) = command
            .spawn()
            .and_then(|child| wait(child.id()))
            .map_err(|error| Failure::Start { program: self.path.clone(), error })?;
        let wall = started.elapsed();
        if !status.success() {
            return Err(Failure::Status { command: self.command_text(frames), status });
        }
        let processor = usage.user.duration() + usage.system.duration();
        Ok(Run { wall, processor, peak_kb: usage.peak_kb })
    }

    /// What to type to run it on a session.
    fn command_text(&self, frames: &Path) -> String {
        let words = [&[self.path.display().to_string()], &self.arguments[..]].concat();
        format!("{} < {}", words.join(" "), frames.display())
    }
}

fn open(path: &Path) -> Result<File, Failure> {
    File::open(path).map_err(Failure::reading(path))
}

fn create(path: &Path) -> Result<File, Failure> {
    File::create(path).map_err(Failure::writing(path))
}

/// What wait4 tells of a child, as 64-bit Linux has it. The rest is not read.
#[derive(Default)]
#[repr(C)]
struct Usage {
    user: Time,
    system: Time,
    peak_kb: i64,
    rest: [i64; 13],
}

#[derive(Default)]
#[repr(C)]
struct Time {
    seconds: i64,
    micros: i64,
}

impl Time {
    fn duration(&self) -> Duration {
        Duration::from_secs(self.seconds as u64) + Duration::from_micros(self.micros as u64)
    }
}

unsafe extern "C" {
    fn wait4(pid: c_int, status: *mut c_int, options: c_int, usage: *mut Usage) -> c_int;
}

/// Waits until a child ends.
fn wait(pid: u32) -> io::Result<(ExitStatus, Usage)> {
    let (mut status, mut usage) = (0, Usage::default());
    // SAFETY: there is room for what the kernel writes.
    let waited = unsafe { wait4(pid as c_int, &mut status, 0, &mut usage) };
    if waited == -1 {
        return Err(io::Error::last_os_error());
    }
    Ok((ExitStatus::from_raw(status), usage))
}

/// The valgrind on the PATH.
pub struct Valgrind;

impl Valgrind {
    const ARGUMENTS: [&str; 2] = ["--tool=callgrind", "--callgrind-out-file=/dev/null"];

    /// Looks whether there is one.
    pub fn find() -> Option<Valgrind> {
        Command::new("valgrind").arg("--version").output().is_ok().then_some(Valgrind)
    }

    /// Counts the instructions of a program on a session, which are the same in every run.
    fn count(&self, program: &Program, frames: &Path, lines: &Path) -> Result<u64, Failure> {
        let output = Command::new("valgrind")
            .args(Self::ARGUMENTS)
            .arg(&program.path)
            .args(&program.arguments)
            .stdin(open(frames)?)
            .stdout(create(lines)?)
            .output()
            .map_err(|error| Failure::Start { program: "valgrind".into(), error })?;
        let told = String::from_utf8_lossy(&output.stderr);
        collected(&told).filter(|_| output.status.success()).ok_or_else(|| Failure::Count {
            command: format!(
                "valgrind {} {}",
                Self::ARGUMENTS.join(" "),
                program.command_text(frames)
            ),
            told: format!("{}, {}", output.status, told.lines().last().unwrap_or("no words")),
        })
    }
}

/// The number in the line `Collected : N` of callgrind.
fn collected(told: &str) -> Option<u64> {
    told.lines().find_map(|line| line.split_once("Collected : ")?.1.trim().parse().ok())
}

#[cfg(test)]
mod tests {
    use super::*;

    fn program(name: &'static str, path: &str) -> Program {
        Program { name, path: path.into(), arguments: vec![] }
    }

    fn measured(program: &Program, millis: [u64; RUNS]) -> Measured<'_> {
        let run = |millis| Run {
            wall: Duration::from_millis(millis),
            processor: Duration::from_millis(2 * millis),
            peak_kb: 1_000 - millis as i64,
        };
        let runs = millis.map(run).into();
        Measured { program, runs, instructions: None, lines: PathBuf::new() }
    }

    #[test]
    fn figures_of_runs() {
        let program = program("any", "any");
        let one = measured(&program, [5, 3, 9, 4, 4, 8, 7]);
        let other = measured(&program, [6, 3, 8, 5, 5, 5, 5]);
        assert_eq!(one.median(|run| run.wall), Duration::from_millis(5));
        assert_eq!(one.median(|run| run.processor), Duration::from_millis(10));
        assert_eq!(one.best(|run| run.wall), Duration::from_millis(3));
        assert_eq!(one.peak_kb(), 997);
        assert_eq!((one.faster_than(&other), other.faster_than(&one)), (3, 3));
    }

    #[test]
    fn words_of_callgrind() {
        let told = "==7== Events    : Ir\n==7== Collected : 560983314\n==7== \n";
        assert_eq!(collected(told), Some(560_983_314));
        assert_eq!(collected("==7== Events    : Ir\n"), None);
        assert_eq!(collected("==7== Collected : x\n"), None);
    }

    /// Measures two programs, without counting, on a file of two lines.
    fn outcome(test: &str, programs: [Program; 2]) -> Result<(), Failure> {
        let name = format!("bench-test-{test}-{}", std::process::id());
        let folder = std::env::temp_dir().join(name);
        fs::create_dir(&folder).unwrap();
        let session = Session { name: "a session".into(), frames: folder.join("frames") };
        fs::write(&session.frames, "1\n2\n").unwrap();
        let bench = Bench { folder: folder.clone(), valgrind: None };
        let outcome = bench.measure(&programs, &session).map(|measured| {
            assert!(measured.iter().all(|measured| measured.runs.len() == RUNS));
        });
        fs::remove_dir_all(folder).unwrap();
        outcome
    }

    #[test]
    fn programs_that_do_not_fit() {
        let cat = || program("cat", "cat");
        let beside_cat = |name, path| outcome(name, [cat(), program(name, path)]);
        assert!(beside_cat("same", "cat").is_ok());
        assert!(matches!(beside_cat("backwards", "tac"), Err(Failure::Lines { .. })));
        assert!(matches!(beside_cat("failing", "false"), Err(Failure::Status { .. })));
        assert!(matches!(beside_cat("missing", "/no/program"), Err(Failure::Start { .. })));
        let silent = [program("silent", "true"), cat()];
        assert!(matches!(outcome("silent", silent), Err(Failure::NoLines { .. })));
    }
}
