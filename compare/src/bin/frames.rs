//! frames turns a readable description of a session into the binary frames of FORMS.
//!
//!     frames FILE > session.frames        frames < FILE > session.frames
//!
//! THE LANGUAGE
//!
//! One frame a line, in the order of the session. From # to the end of a line is a
//! comment. A line that begins with a blank continues the one before it. Fields of a
//! line have blanks between, and within a field there is none.
//!
//!     rule rolling W          R, a rule form: rolling, run, or any kind as a number
//!     rule run W
//!     rule 3 W
//!
//!     open FIELDS             O, an opening form; groups and rows in the order written:
//!         metered=PRODMAX,PUMPDEPTH,LIMIT1,LIMIT2,LIMIT3
//!         trading=LIMIT1,LIMIT2,LIMIT3
//!         group=FLAG,PRODMAX,PUMPDEPTH,LIMIT1,LIMIT2,LIMIT3      also an unlawful one
//!         row=FEE,RATE
//!
//!     message FIELDS          S, a message; group, version and day are 1 unless given:
//!         group=N version=N day=N
//!         outN=VALUES         trade out to group N
//!         inN=VALUES          trade in from group N
//!         cons=VALUES prod=VALUES pump=VALUES
//!         kindK.C=VALUES      any head: kind K, counter C
//!                             the series stand in the order written
//!
//!     advance                 A
//!
//!     close FIELDS            C, a closing form; what is not given is 0 all day:
//!         feedN=VALUES        feed-in of group N; the highest N gives the number of groups
//!         long=VALUES short=VALUES
//!
//!     raw LETTER HEX          any letter (one character, or two hex digits) with the body HEX
//!     bytes HEX               bytes as they are, without a frame around them
//!
//!     repeat N                the lines up to 'end' N times; @ in them stands for the number
//!     end                     of the turn, from 1; repeats do not nest
//!     repeat M-N              the same, with the turns M to N
//!
//! A forged header, for faulty forms: the fields g= and k= of open, n= and q= of message,
//! g= and q= of close put another number into the header and change nothing else. With
//! length=N, in rule too, the body is cut, or filled up with zero bytes, to N bytes. In all
//! cases the frame's own length is that of the body as written.
//!
//! VALUES is a list with commas between, applied from left to right to a day of zeros:
//!
//!     900                     900 in all 96 quarter hours
//!     41-56:250               250 in quarter hours 41 to 56
//!     7:1                     1 in quarter hour 7
//!     900,41-56:250,7:1       900, but 250 in 41 to 56 and 1 in 7
//!
//! Numbers are decimal, in VALUES from -2147483648 to 4294967295; a negative one is written
//! in two's complement. HEX is pairs of hex digits, with blanks between them or not.

use std::fs::File;
use std::io::{self, BufWriter, Write};
use std::process::ExitCode;

/// The comment at the top of this file, which `--help` prints.
fn help() -> String {
    let comment = include_str!("frames.rs").lines().map_while(|line| line.strip_prefix("//!"));
    comment.map(|line| format!("{}\n", line.strip_prefix(' ').unwrap_or(line))).collect()
}

fn main() -> ExitCode {
    let arguments: Vec<String> = std::env::args().skip(1).collect();
    let result = match arguments.as_slice() {
        [] => {
            io::read_to_string(io::stdin()).map_err(|e| e.to_string()).and_then(|text| print(&text))
        }
        [argument] if argument == "--help" => {
            io::stdout().write_all(help().as_bytes()).map_err(|e| e.to_string())
        }
        [file] => File::open(file)
            .and_then(io::read_to_string)
            .map_err(|e| format!("{file}: {e}"))
            .and_then(|text| print(&text)),
        _ => Err("at most one argument; see frames --help".into()),
    };
    match result {
        Ok(()) => ExitCode::SUCCESS,
        Err(error) => {
            eprintln!("frames: {error}");
            ExitCode::FAILURE
        }
    }
}

fn print(text: &str) -> Result<(), String> {
    let mut output = BufWriter::with_capacity(1 << 16, io::stdout().lock());
    translate(text, &mut output)?;
    output.flush().map_err(|e| e.to_string())
}

/// Writes the frames of a description.
fn translate(text: &str, output: &mut impl Write) -> Result<(), String> {
    let lines = logical_lines(text)?;
    let mut lines = lines.iter();
    while let Some((number, line)) = lines.next() {
        let here = |error: String| format!("line {number}: {error}");
        let Some(turns) = line.strip_prefix("repeat ") else {
            write_line(line, output).map_err(here)?;
            continue;
        };
        let (from, to) = turns.trim().split_once('-').unwrap_or(("1", turns.trim()));
        let (from, to): (u32, u32) = (parse(from).map_err(here)?, parse(to).map_err(here)?);
        if from > to {
            return Err(here(format!("no turns: {turns}")));
        }
        let (before, after) = lines.as_slice().split_at(
            lines
                .as_slice()
                .iter()
                .position(|(_, line)| line == "end")
                .ok_or_else(|| here("repeat without end".into()))?,
        );
        for turn in from..=to {
            for (number, line) in before {
                write_line(&line.replace('@', &turn.to_string()), output)
                    .map_err(|error| format!("line {number}, turn {turn}: {error}"))?;
            }
        }
        lines = after[1..].iter();
    }
    Ok(())
}

/// Lines without comments, with what continues them, and with their numbers.
fn logical_lines(text: &str) -> Result<Vec<(usize, String)>, String> {
    let mut lines: Vec<(usize, String)> = Vec::new();
    for (number, line) in (1..).zip(text.lines()) {
        let line = line.split('#').next().unwrap_or_default();
        let trimmed = line.trim();
        if trimmed.is_empty() {
            continue;
        }
        if line.starts_with(char::is_whitespace) {
            let (_, last) = lines.last_mut().ok_or(format!("line {number} continues nothing"))?;
            last.push(' ');
            last.push_str(trimmed);
        } else {
            lines.push((number, trimmed.to_string()));
        }
    }
    Ok(lines)
}

/// Writes the frame, or the bytes, of one line.
fn write_line(line: &str, output: &mut impl Write) -> Result<(), String> {
    let (word, rest) = line.split_once(char::is_whitespace).unwrap_or((line, ""));
    let mut fields: Vec<&str> = rest.split_whitespace().collect();
    let (letter, body) = match word {
        "rule" => (b'R', with_length(rule(&fields)?, &fields)?),
        "open" => (b'O', with_length(open(&fields)?, &fields)?),
        "message" => (b'S', with_length(message(&fields)?, &fields)?),
        "close" => (b'C', with_length(close(&fields)?, &fields)?),
        "advance" if fields.is_empty() => (b'A', Vec::new()),
        "raw" if !fields.is_empty() => {
            let letter = fields.remove(0);
            let letter = match letter.as_bytes() {
                &[letter] => letter,
                _ => *hex(&[letter])?.first().ok_or("no letter")?,
            };
            (letter, hex(&fields)?)
        }
        "bytes" => return output.write_all(&hex(&fields)?).map_err(|e| e.to_string()),
        _ => return Err(format!("not understood: {line}")),
    };
    let length = u32::try_from(body.len()).map_err(|e| e.to_string())?;
    output
        .write_all(&[letter])
        .and_then(|()| output.write_all(&length.to_be_bytes()))
        .and_then(|()| output.write_all(&body))
        .map_err(|e| e.to_string())
}

fn rule(fields: &[&str]) -> Result<Vec<u8>, String> {
    let [kind, days, ..] = fields else {
        return Err("rule needs a kind and a number of days".into());
    };
    if fields[2..].iter().any(|field| !field.starts_with("length=")) {
        return Err("rule has a kind and a number of days".into());
    }
    let kind = match *kind {
        "rolling" => 1,
        "run" => 2,
        number => parse(number)?,
    };
    let [high, low] = parse::<u16>(days)?.to_be_bytes();
    Ok(vec![kind, high, low])
}

fn open(fields: &[&str]) -> Result<Vec<u8>, String> {
    let (mut groups, mut rows) = (Vec::new(), Vec::new());
    let (mut count, mut row_count) = (0_u8, 0_u8);
    let (mut forged_count, mut forged_row_count) = (None, None);
    for field in fields {
        let (name, value) = name_and_value(field)?;
        let mut group = |flag: u8, powers: &[u32]| {
            groups.push(flag);
            groups.extend(powers.iter().flat_map(|power| power.to_be_bytes()));
            count += 1;
        };
        match name {
            "metered" => group(1, &numbers::<5>(value)?),
            "trading" => {
                let [limit1, limit2, limit3] = numbers(value)?;
                group(0, &[0, 0, limit1, limit2, limit3]);
            }
            "group" => {
                let [flag, powers @ ..] = numbers::<6>(value)?;
                group(u8::try_from(flag).map_err(|e| e.to_string())?, &powers);
            }
            "row" => {
                rows.extend(numbers::<2>(value)?.iter().flat_map(|number| number.to_be_bytes()));
                row_count += 1;
            }
            "g" => forged_count = Some(parse(value)?),
            "k" => forged_row_count = Some(parse(value)?),
            "length" => {}
            _ => return Err(format!("open has no field {name}")),
        }
    }
    let mut form = vec![forged_count.unwrap_or(count), forged_row_count.unwrap_or(row_count)];
    form.append(&mut groups);
    form.append(&mut rows);
    Ok(form)
}

fn message(fields: &[&str]) -> Result<Vec<u8>, String> {
    let (mut group, mut version, mut day) = (1_u16, 1_u16, 1_u16);
    let (mut heads, mut values) = (Vec::new(), Vec::new());
    let (mut forged_count, mut quarters) = (None, 96);
    for field in fields {
        let (name, value) = name_and_value(field)?;
        match name {
            "group" => group = parse(value)?,
            "version" => version = parse(value)?,
            "day" => day = parse(value)?,
            "n" => forged_count = Some(parse(value)?),
            "q" => quarters = parse(value)?,
            "length" => {}
            series => {
                heads.extend(head(series)?);
                values.extend(day_of(value)?.iter().flat_map(|value| value.to_be_bytes()));
            }
        }
    }
    let count = u8::try_from(heads.len() / 2).map_err(|_| "more than 255 series")?;
    let mut form = vec![forged_count.unwrap_or(count), quarters];
    form.extend([group, version, day].iter().flat_map(|number| number.to_be_bytes()));
    form.append(&mut heads);
    form.append(&mut values);
    Ok(form)
}

/// Kind and counter of a series by its name.
fn head(name: &str) -> Result<[u8; 2], String> {
    Ok(match name {
        "cons" => [3, 0],
        "prod" => [4, 0],
        "pump" => [5, 0],
        _ => {
            if let Some(counter) = name.strip_prefix("out") {
                [1, parse(counter)?]
            } else if let Some(counter) = name.strip_prefix("in") {
                [2, parse(counter)?]
            } else if let Some((kind, counter)) =
                name.strip_prefix("kind").and_then(|head| head.split_once('.'))
            {
                [parse(kind)?, parse(counter)?]
            } else {
                return Err(format!("message has no field {name}"));
            }
        }
    })
}

fn close(fields: &[&str]) -> Result<Vec<u8>, String> {
    let mut feeds: Vec<[u32; 96]> = Vec::new();
    let (mut long, mut short) = ([0; 96], [0; 96]);
    let (mut forged_groups, mut quarters) = (None, 96);
    for field in fields {
        let (name, value) = name_and_value(field)?;
        match name {
            "long" => long = day_of(value)?,
            "short" => short = day_of(value)?,
            "g" => forged_groups = Some(parse(value)?),
            "q" => quarters = parse(value)?,
            "length" => {}
            _ => {
                let group: u8 =
                    parse(name.strip_prefix("feed").ok_or(format!("close has no field {name}"))?)?;
                let group = usize::from(group).checked_sub(1).ok_or("groups count from 1")?;
                if feeds.len() <= group {
                    feeds.resize(group + 1, [0; 96]);
                }
                feeds[group] = day_of(value)?;
            }
        }
    }
    let mut form = vec![forged_groups.unwrap_or(feeds.len() as u8), quarters];
    let parts = feeds.iter().chain([&long, &short]);
    form.extend(parts.flatten().flat_map(|number| number.to_be_bytes()));
    Ok(form)
}

/// Cuts or fills a body to the field length=, if there is one.
fn with_length(mut body: Vec<u8>, fields: &[&str]) -> Result<Vec<u8>, String> {
    if let Some(length) = fields.iter().rev().find_map(|field| field.strip_prefix("length=")) {
        body.resize(parse(length)?, 0);
    }
    Ok(body)
}

/// The numbers of a day.
fn day_of(list: &str) -> Result<[u32; 96], String> {
    let mut day = [0; 96];
    for item in list.split(',') {
        let (quarters, number) = item.split_once(':').unwrap_or(("1-96", item));
        let (from, to) = quarters.split_once('-').unwrap_or((quarters, quarters));
        let (from, to): (usize, usize) = (parse(from)?, parse(to)?);
        if from < 1 || from > to || to > 96 {
            return Err(format!("no quarter hours: {quarters}"));
        }
        day[from - 1..to].fill(number_32(number)?);
    }
    Ok(day)
}

/// A number of 32 bits, signed or not.
fn number_32(text: &str) -> Result<u32, String> {
    let number: i64 = parse(text)?;
    u32::try_from(number)
        .or_else(|_| i32::try_from(number).map(|number| number as u32))
        .map_err(|_| format!("more than 32 bits: {text}"))
}

/// N numbers with commas between.
fn numbers<const N: usize>(list: &str) -> Result<[u32; N], String> {
    let numbers = list.split(',').map(number_32).collect::<Result<Vec<_>, _>>()?;
    numbers.try_into().map_err(|_| format!("not {N} numbers: {list}"))
}

fn name_and_value(field: &str) -> Result<(&str, &str), String> {
    field.split_once('=').ok_or(format!("no field: {field}"))
}

fn parse<T: std::str::FromStr<Err: std::fmt::Display>>(text: &str) -> Result<T, String> {
    text.parse().map_err(|error| format!("{text:?}: {error}"))
}

/// Bytes from pairs of hex digits.
fn hex(fields: &[&str]) -> Result<Vec<u8>, String> {
    let digits = fields.concat();
    if !digits.bytes().all(|digit| digit.is_ascii_hexdigit()) || digits.len() % 2 != 0 {
        return Err(format!("not pairs of hex digits: {digits}"));
    }
    let pair = |at| u8::from_str_radix(&digits[at..at + 2], 16).map_err(|e| e.to_string());
    (0..digits.len()).step_by(2).map(pair).collect()
}
