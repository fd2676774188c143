//! compare holds the programs `account` and `inquiry` to the second ones.
//!
//!     compare ACCOUNT [INQUIRY] [SESSIONS [SEED]]
//!         runs sessions of the seeds from SEED on (5000 from 1), compares every line, and
//!         prints how often each refusal, each cause to stop and each kind of answer occurred.
//!         With INQUIRY every fifth session is one for it. Fails at the first difference, or
//!         if something that must occur did not.
//!
//!     compare --bytes ACCOUNT [INQUIRY] [FRAMES [SEED]]
//!         the same with random and changed bytes, until so many frames (1000000) were
//!         answered.
//!
//! Every seventh session comes to the program through a pipe, in pieces of any size.
//!
//! A session that differs is left in a file, which is named; `sessions SEED` writes it again.

use std::fs::{self, File};
use std::io::{Read, Write};
use std::path::{Path, PathBuf};
use std::process::{Child, Command, ExitCode, Output, Stdio};
use std::sync::mpsc;
use std::thread;
use std::time::{Duration, Instant};

use compare::MAX_GROUPS;
use compare::coverage::Coverage;
use compare::generate::{Rng, Script, garbled, script};
use compare::session::{run, table};

/// A program that takes longer for one session hangs.
const PATIENCE: Duration = Duration::from_secs(20);

struct Arguments {
    bytes: bool,
    account: PathBuf,
    inquiry: Option<PathBuf>,
    count: u64,
    seed: u64,
}

fn main() -> ExitCode {
    let Some(arguments) = arguments() else {
        eprintln!("usage: compare [--bytes] ACCOUNT [INQUIRY] [COUNT [SEED]]");
        eprintln!("ACCOUNT and INQUIRY are paths of programs; COUNT is a number of sessions, with");
        eprintln!("--bytes of frames; SEED is the first seed");
        return ExitCode::FAILURE;
    };
    match compare(&arguments) {
        Ok(()) => ExitCode::SUCCESS,
        Err(error) => {
            println!("{error}");
            println!("the comparison FAILED");
            ExitCode::FAILURE
        }
    }
}

/// Numbers are the count and the seed, all else are paths.
fn arguments() -> Option<Arguments> {
    let mut given: Vec<String> = std::env::args().skip(1).collect();
    let bytes = given.first().is_some_and(|first| first == "--bytes");
    if bytes {
        given.remove(0);
    }
    let paths = given.iter().take_while(|argument| argument.parse::<u64>().is_err()).count();
    let numbers: Option<Vec<u64>> = given[paths..].iter().map(|text| text.parse().ok()).collect();
    let numbers = numbers?;
    if !(1..=2).contains(&paths) || numbers.len() > 2 || given[0].starts_with("--") {
        return None;
    }
    Some(Arguments {
        bytes,
        account: given[0].clone().into(),
        inquiry: given[..paths].get(1).map(PathBuf::from),
        count: numbers.first().copied().unwrap_or(if bytes { 1_000_000 } else { 5_000 }),
        seed: numbers.get(1).copied().unwrap_or(1),
    })
}

fn compare(arguments: &Arguments) -> Result<(), String> {
    let started = Instant::now();
    if let Some(inquiry) = &arguments.inquiry {
        test_arguments(inquiry)?;
    }
    let input = std::env::temp_dir().join(format!("compare-{}.frames", std::process::id()));
    let mut coverage = Coverage::default();
    let (mut sessions, mut bytes, mut piped) = (0_u64, 0_u64, 0_u64);
    let mut outcome = Ok(());
    for seed in arguments.seed.. {
        let done = if arguments.bytes { coverage.answered } else { sessions };
        if done >= arguments.count {
            break;
        }
        let inquiry = arguments.inquiry.as_deref().filter(|_| seed % 5 == 0);
        let write = if arguments.bytes { garbled } else { script };
        let script = write(seed, inquiry.is_some());
        let pieces = (seed % 7 == 0 && script.frames.len() < 200_000).then_some(seed);
        piped += u64::from(pieces.is_some());
        outcome = one(&script, &arguments.account, inquiry, &input, pieces, &mut coverage)
            .map_err(|error| format!("seed {seed}, {}: {error}", script.shape));
        if outcome.is_err() {
            break;
        }
        sessions += 1;
        bytes += script.frames.len() as u64;
    }
    if let Err(error) = outcome {
        return Err(format!("{error}\nthe frames are in {}", input.display()));
    }
    fs::remove_file(&input).map_err(|e| e.to_string())?;
    print!("{}", coverage.table(arguments.inquiry.is_some()));
    println!(
        "{sessions} sessions ({piped} in pieces), {} frames answered, {:.1} MB, {:.1} s: \
         no line differs",
        coverage.answered,
        bytes as f64 / 1e6,
        started.elapsed().as_secs_f64()
    );
    let missing = coverage.missing(arguments.inquiry.is_some());
    if !arguments.bytes && !missing.is_empty() {
        return Err(format!("too rare:\n  {}", missing.join("\n  ")));
    }
    Ok(())
}

/// What `inquiry` does with `--help` and with arguments that are no quarter hours.
fn test_arguments(inquiry: &Path) -> Result<(), String> {
    let wrong = ["", "-1", "+1", "65536", "99999999999999999999", "1x", " 1", "1.0", "x"];
    let lists = wrong.iter().flat_map(|&wrong| [vec![wrong], vec!["1", wrong]]);
    for arguments in lists.chain([vec!["1", "--help"], vec!["--help"], vec!["--help", "x"]]) {
        let output = Command::new(inquiry)
            .args(&arguments)
            .stdin(Stdio::null())
            .output()
            .map_err(|error| format!("{}: {error}", inquiry.display()))?;
        let right = if arguments[0] == "--help" {
            output.status.success() && !output.stdout.is_empty()
        } else {
            !output.status.success() && output.stdout.is_empty() && !output.stderr.is_empty()
        };
        if !right {
            return Err(format!("inquiry with the arguments {arguments:?}: {output:?}"));
        }
    }
    Ok(())
}

/// Runs one session through the program under test and the second one. Standard input is a
/// file, or a pipe that the session comes through in pieces, whose sizes go by a seed.
fn one(
    script: &Script,
    account: &Path,
    inquiry: Option<&Path>,
    input: &Path,
    pieces: Option<u64>,
    coverage: &mut Coverage,
) -> Result<(), String> {
    fs::write(input, &script.frames).map_err(|e| e.to_string())?;
    let program = inquiry.unwrap_or(account);
    let file = File::open(input).map_err(|e| e.to_string())?;
    let mut child = Command::new(program)
        .args(script.quarters.iter().map(u16::to_string))
        .stdin(if pieces.is_some() { Stdio::piped() } else { file.into() })
        .stdout(Stdio::piped())
        .stderr(Stdio::piped())
        .spawn()
        .map_err(|error| format!("{}: {error}", program.display()))?;

    if let (Some(seed), Some(mut pipe)) = (pieces, child.stdin.take()) {
        let frames = script.frames.clone();
        thread::spawn(move || {
            let mut rng = Rng::new(seed);
            let mut rest = &frames[..];
            while !rest.is_empty() {
                let most = rng.pick(&[1, 4, 9, 400, 5_000, 70_000]);
                let (piece, behind) = rest.split_at(rng.within(1, most).min(rest.len()));
                // The program may end, after STOP, before all is written.
                if pipe.write_all(piece).is_err() {
                    break;
                }
                rest = behind;
            }
        });
    }

    // Meanwhile the second program, within this one.
    coverage.next_session();
    let most = if inquiry.is_some() { MAX_GROUPS } else { 8 };
    let mut expected = Vec::new();
    run(&script.frames[..], &mut expected, most, coverage)
        .and_then(|session| match inquiry {
            Some(_) => {
                let mut lines = Vec::new();
                table(&session, &script.quarters, &mut lines, coverage)?;
                Ok(lines)
            }
            None => Ok(Vec::new()),
        })
        .map(|lines| expected.extend(lines))
        .map_err(|e| e.to_string())?;

    let Output { status, stdout, stderr } = output_of(child)?;
    let asked = &script.quarters;
    if stdout != expected {
        return Err(format!("arguments {asked:?}, {}", difference(&stdout, &expected)));
    }
    if status.code() != Some(0) || !stderr.is_empty() {
        let told = String::from_utf8_lossy(&stderr);
        return Err(format!("arguments {asked:?}, {status}, standard error {told:?}"));
    }
    Ok(())
}

/// What became of a program, if it ends in time.
fn output_of(mut child: Child) -> Result<Output, String> {
    let until = Instant::now() + PATIENCE;
    let (send, receive) = mpsc::channel();
    let stdout = child.stdout.take();
    let stderr = child.stderr.take();
    thread::spawn(move || {
        let (mut lines, mut errors) = (Vec::new(), Vec::new());
        let _ = stdout.map(|mut pipe| pipe.read_to_end(&mut lines));
        let _ = stderr.map(|mut pipe| pipe.read_to_end(&mut errors));
        send.send((lines, errors))
    });
    if let Ok((stdout, stderr)) = receive.recv_timeout(PATIENCE) {
        while Instant::now() < until {
            if let Some(status) = child.try_wait().map_err(|e| e.to_string())? {
                return Ok(Output { status, stdout, stderr });
            }
            thread::sleep(Duration::from_micros(50));
        }
    }
    let _ = child.kill();
    let _ = child.wait();
    Err(format!("it did not end within {} s", PATIENCE.as_secs()))
}

/// The first line that differs.
fn difference(lines: &[u8], expected: &[u8]) -> String {
    let (mut lines, mut expected) =
        (lines.split_inclusive(|&b| b == b'\n'), expected.split_inclusive(|&b| b == b'\n'));
    for number in 1_u64.. {
        let (line, wanted) = (lines.next(), expected.next());
        if line != wanted || line.is_none() {
            let text = |line: Option<&[u8]>| match line {
                Some(line) => format!("{:?}", String::from_utf8_lossy(line)),
                None => "the end".into(),
            };
            return format!(
                "line {number}: the program has {}, the second one {}",
                text(line),
                text(wanted)
            );
        }
    }
    String::new()
}
