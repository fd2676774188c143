//! What the benchmark tells: a table in Markdown, and what it is at.

use std::io::{self, Write};
use std::time::Duration;

use crate::failure::Failure;
use crate::measure::{Measured, RUNS};

/// Where there is nothing to tell.
const DASH: &str = "–";

/// Prints lines of the results.
pub fn print(lines: &str) -> Result<(), Failure> {
    // Not println, which would end the program when nobody reads any more.
    writeln!(io::stdout(), "{lines}").map_err(Failure::Results)
}

/// Says on the standard error what is going on.
pub fn say(text: &str) {
    // Nobody has to listen.
    let _ = writeln!(io::stderr(), "bench: {text}");
}

/// The head of the table, and the line below it.
pub fn head() -> String {
    let heads = [
        "session",
        "program",
        "median",
        "best",
        "processor, median",
        "peak memory",
        "instructions, millions",
        "first program faster in",
    ];
    format!("{}\n|{}", line(&heads.map(String::from)), "---|".repeat(heads.len()))
}

/// A row for each program of a session. With the bytes of the session each time has its throughput.
pub fn rows(session: &str, measured: &[Measured], bytes: Option<u64>) -> String {
    let session = match bytes {
        Some(bytes) => format!("{session}, {:.1} MB", megabytes(bytes)),
        None => session.into(),
    };
    let first = &measured[0];
    let row = |(place, measured): (usize, &Measured)| {
        let faster = match place {
            0 => DASH.into(),
            _ => format!("{} of {RUNS}", first.faster_than(measured)),
        };
        line(&[
            session.clone(),
            measured.program.name.into(),
            time(measured.median(|run| run.wall), bytes),
            time(measured.best(|run| run.wall), bytes),
            time(measured.median(|run| run.processor), None),
            format!("{} KB", grouped(&measured.peak_kb().to_string())),
            measured.instructions.map_or(DASH.into(), millions),
            faster,
        ])
    };
    measured.iter().enumerate().map(row).collect::<Vec<_>>().join("\n")
}

/// A line of the table.
fn line(cells: &[String]) -> String {
    format!("| {} |", cells.join(" | "))
}

/// Milliseconds, and MB/s for so many bytes.
fn time(taken: Duration, bytes: Option<u64>) -> String {
    let seconds = taken.as_secs_f64();
    let millis = grouped(&format!("{:.1}", seconds * 1e3));
    match bytes {
        None => format!("{millis} ms"),
        Some(bytes) => {
            let speed = grouped(&format!("{:.0}", megabytes(bytes) / seconds));
            format!("{millis} ms, {speed} MB/s")
        }
    }
}

fn megabytes(bytes: u64) -> f64 {
    bytes as f64 / 1e6
}

/// A number of instructions in millions.
fn millions(instructions: u64) -> String {
    grouped(&format!("{:.1}", instructions as f64 / 1e6))
}

/// A decimal number with commas between its thousands.
fn grouped(number: &str) -> String {
    let (whole, fraction) = number.split_at(number.find('.').unwrap_or(number.len()));
    let mut text = String::new();
    for (place, digit) in whole.chars().enumerate() {
        if place > 0 && (whole.len() - place).is_multiple_of(3) {
            text.push(',');
        }
        text.push(digit);
    }
    text + fraction
}

#[cfg(test)]
mod tests {
    use super::*;

    #[test]
    fn numbers_in_groups() {
        for (number, text) in [
            ("0", "0"),
            ("999", "999"),
            ("1000", "1,000"),
            ("98.8", "98.8"),
            ("123456.7", "123,456.7"),
            ("1234567", "1,234,567"),
        ] {
            assert_eq!(grouped(number), text);
        }
    }

    #[test]
    fn numbers_with_units() {
        let taken = Duration::from_micros(91_700);
        assert_eq!(time(taken, None), "91.7 ms");
        assert_eq!(time(taken, Some(109_300_000)), "91.7 ms, 1,192 MB/s");
        assert_eq!(millions(560_983_314), "561.0");
        assert_eq!(millions(3_011_709_336), "3,011.7");
    }

    #[test]
    fn lines_in_markdown() {
        assert_eq!(line(&["1", "2"].map(String::from)), "| 1 | 2 |");
        let head = head();
        let (above, below) = head.split_once('\n').unwrap();
        assert_eq!(above.matches('|').count(), below.matches('|').count());
    }
}
