//! The stored sessions: text to bytes by `frames`, bytes to lines by `second`.
//!
//! Beside NAME.txt stand NAME.frames, its bytes, which a text that repeats may leave out, and
//! NAME.lines, the expected lines. The text itself also tells the expected lines, each in a comment `# -> `.
//! `WRITE=1 cargo test` writes the bytes and the lines that the text tells.

use std::fs::{self, File};
use std::io::{BufRead, BufReader, Write};
use std::path::{Path, PathBuf};
use std::process::{Command, Output, Stdio};

const SECOND: &str = env!("CARGO_BIN_EXE_second");
const INQUIRY: &str = env!("CARGO_BIN_EXE_second_inquiry");
const FRAMES: &str = env!("CARGO_BIN_EXE_frames");

fn sessions() -> Vec<PathBuf> {
    let folder = Path::new(env!("CARGO_MANIFEST_DIR")).join("sessions");
    let mut sessions: Vec<PathBuf> = [folder.join("stops"), folder]
        .iter()
        .flat_map(|folder| fs::read_dir(folder).unwrap())
        .map(|entry| entry.unwrap().path())
        .filter(|path| path.extension().is_some_and(|extension| extension == "txt"))
        .collect();
    sessions.sort();
    sessions
}

fn frames_of(text: &Path) -> Vec<u8> {
    let output = Command::new(FRAMES).arg(text).output().unwrap();
    assert!(output.status.success(), "{}", String::from_utf8_lossy(&output.stderr));
    output.stdout
}

/// What `second` does, and `second --no-test` in the same way.
fn second(input: &[u8]) -> Output {
    let output = program(SECOND, &[], input);
    assert_eq!(program(SECOND, &["--no-test"], input), output);
    output
}

fn program(path: &str, arguments: &[&str], input: &[u8]) -> Output {
    let mut child = Command::new(path)
        .args(arguments)
        .stdin(Stdio::piped())
        .stdout(Stdio::piped())
        .stderr(Stdio::piped())
        .spawn()
        .unwrap();
    let mut stdin = child.stdin.take().unwrap();
    let input = input.to_vec();
    // It may end, after STOP, before all is written.
    let writer = std::thread::spawn(move || drop(stdin.write_all(&input)));
    let output = child.wait_with_output().unwrap();
    writer.join().unwrap();
    output
}

/// The lines that the comments of a description tell.
fn told(text: &str) -> String {
    let (mut told, mut repeated, mut turns) = (String::new(), String::new(), None);
    for line in text.lines() {
        if let Some(numbers) = line.strip_prefix("repeat ") {
            let (from, to) = numbers.split_once('-').unwrap_or(("1", numbers));
            turns = Some(from.parse::<u32>().unwrap()..=to.parse().unwrap());
        } else if line == "end" {
            let turns = turns.take().unwrap();
            turns.for_each(|turn| told += &repeated.replace('@', &turn.to_string()));
            repeated.clear();
        } else if let Some((_, answer)) = line.split_once("# -> ") {
            let lines = if turns.is_some() { &mut repeated } else { &mut told };
            lines.push_str(answer);
            lines.push('\n');
        }
    }
    told
}

#[test]
fn stored_sessions() {
    let write = std::env::var_os("WRITE").is_some();
    let sessions = sessions();
    assert!(sessions.len() > 20);
    for text in sessions {
        let name = text.display();
        let description = fs::read_to_string(&text).unwrap();
        let frames = frames_of(&text);
        let expected = told(&description);
        let stored = text.with_extension("frames");
        let lines = text.with_extension("lines");
        let repeats = description.lines().any(|line| line.starts_with("repeat "));
        if write {
            if !repeats || stored.exists() {
                fs::write(&stored, &frames).unwrap();
            }
            fs::write(&lines, &expected).unwrap();
        }
        let left_out = repeats && !stored.exists();
        assert!(left_out || fs::read(&stored).unwrap() == frames, "{name}: bytes");
        assert_eq!(fs::read_to_string(&lines).unwrap(), expected, "{name}: lines");
        let output = second(&frames);
        assert_eq!(String::from_utf8(output.stdout).unwrap(), expected, "{name}");
        assert!(output.status.success() && output.stderr.is_empty(), "{name}");
    }
}

/// Stored bytes without a description.
#[test]
fn stored_bytes() {
    let folder = Path::new(env!("CARGO_MANIFEST_DIR")).join("sessions/random");
    let paths = fs::read_dir(folder).unwrap().map(|entry| entry.unwrap().path());
    let stored: Vec<PathBuf> =
        paths.filter(|path| path.extension().is_some_and(|name| name == "frames")).collect();
    assert!(stored.len() > 10);
    for frames in stored {
        let output = second(&fs::read(&frames).unwrap());
        let lines = fs::read(frames.with_extension("lines")).unwrap();
        assert!(output.stdout == lines, "{}", frames.display());
        assert!(output.status.success() && output.stderr.is_empty(), "{}", frames.display());
    }
}

/// The sessions that the crates of `inquiry` have: each its text, bytes, arguments and lines.
#[test]
fn stored_sessions_of_inquiry() {
    let here = Path::new(env!("CARGO_MANIFEST_DIR"));
    for (name, text) in [
        ("inquiry", "../crates/inquiry/session.txt"),
        ("inquiry_sixteen", "../crates/inquiry_sixteen/session.txt"),
        ("inquiry_year", "sessions/year.txt"),
    ] {
        let folder = here.join("../crates").join(name);
        let frames = frames_of(&here.join(text));
        let arguments = fs::read_to_string(folder.join("args")).unwrap();
        let arguments: Vec<&str> = arguments.split_whitespace().collect();
        let output = program(INQUIRY, &arguments, &frames);
        if std::env::var_os("WRITE").is_some() {
            fs::write(folder.join("stdin"), &frames).unwrap();
            fs::write(folder.join("stdout"), &output.stdout).unwrap();
        }
        assert!(fs::read(folder.join("stdin")).unwrap() == frames, "{name}: bytes");
        assert!(fs::read(folder.join("stdout")).unwrap() == output.stdout, "{name}: lines");
        assert!(output.status.success() && output.stderr.is_empty(), "{name}");
    }
}

/// Bytes by pairs of hex digits; `*96` repeats the four bytes before it.
fn hex(text: &str) -> Vec<u8> {
    let mut bytes = Vec::new();
    for word in text.split_whitespace() {
        if word == "*96" {
            let four: [u8; 4] = *bytes.last_chunk().unwrap();
            bytes.extend(four.repeat(95));
        } else {
            bytes.push(u8::from_str_radix(word, 16).unwrap());
        }
    }
    bytes
}

/// The bytes and the lines of the sample session, typed from FORMS.
#[test]
fn the_sample_session_of_forms() {
    let bytes = hex("
        52 00 00 00 03  01 00 1E
        4F 00 00 00 44
        02 03
        01  00 00 03 E8  00 00 01 F4  00 00 01 2C  00 00 00 C8  00 00 00 64
        00  00 00 00 00  00 00 00 00  00 00 00 64  00 00 00 32  00 00 00 00
        00 00 00 00  00 00 00 00
        00 00 00 00  00 00 00 00
        00 00 C3 50  00 00 1F 40
        53 00 00 06 10
        04 60 00 01 00 01 00 01  03 00 04 00 05 00 02 02
        00 00 03 84 *96  00 00 03 84 *96  00 00 00 00 *96  00 00 00 C8 *96
        53 00 00 01 8A
        01 60 00 02 00 01 00 01  01 01  00 00 00 96 *96
        41 00 00 00 00
        41 00 00 00 00
        43 00 00 06 02
        02 60
        FF FF FF 6A *96  00 00 00 00 *96  00 00 0F A0 *96  00 00 27 10 *96
    ");
    assert_eq!(bytes.len(), 3_590);
    let text = Path::new(env!("CARGO_MANIFEST_DIR")).join("sessions/sample.txt");
    assert!(frames_of(&text) == bytes);
    let lines = "OK\nOK\nOK 0 0\nOK 96 1\nOK\nOK\n1 1 0 0 0 0\n1 2 1 1 0 36000\n";
    assert_eq!(String::from_utf8(second(&bytes).stdout).unwrap(), lines);

    // Cut anywhere, the lines of the whole frames stand before STOP; on a boundary there is none.
    let mut boundaries = vec![0];
    while let Some(header) = bytes[boundaries[boundaries.len() - 1]..].first_chunk::<5>() {
        let length = u32::from_be_bytes([header[1], header[2], header[3], header[4]]);
        boundaries.push(boundaries[boundaries.len() - 1] + 5 + length as usize);
    }
    assert_eq!(boundaries.len(), 8);
    for cut in (0..bytes.len()).step_by(17).chain(boundaries.iter().copied()) {
        let whole = boundaries.iter().filter(|&&end| end > 0 && end <= cut).count();
        let mut expected: String =
            lines.split_inclusive('\n').take(if whole == 7 { 8 } else { whole }).collect();
        if !boundaries.contains(&cut) {
            expected.push_str("STOP\n");
        }
        let output = second(&bytes[..cut]);
        assert_eq!(String::from_utf8(output.stdout).unwrap(), expected, "cut at {cut}");
        assert!(output.status.success());
    }
}

/// The example of INQUIRY, typed from it.
#[test]
fn the_example_of_inquiry() {
    let text = Path::new(env!("CARGO_MANIFEST_DIR")).join("sessions/sample.txt");
    let frames = frames_of(&text);
    let without_close = &frames[..frames.len() - 5 - 1_538];
    let session = "OK\nOK\nOK 0 0\nOK 96 1\nOK\nOK\n";
    let table = "POSITION 1 1 0 0 150
POSITION 1 2 -150 -150 -150
TRADE 1 1 2 0
TRADE 1 2 1 150
POSITION 97 1 REFUSED I 12 0 0
POSITION 97 2 REFUSED I 12 0 0
TRADE 97 1 2 REFUSED I 12 0 0
TRADE 97 2 1 REFUSED I 12 0 0
STANDING 1 1 0 0
STANDING 1 2 1 1
TOTAL 1 0 0
TOTAL 2 0 0
";
    let output = program(INQUIRY, &["1", "97"], without_close);
    assert!(output.status.success() && output.stderr.is_empty());
    assert_eq!(String::from_utf8(output.stdout).unwrap(), format!("{session}{table}"));

    // After the close the day's series are gone, and the table follows STOP too.
    let stopped = [&frames[..], b"x"].concat();
    let output = program(INQUIRY, &["0096"], &stopped);
    let expected = format!(
        "{session}1 1 0 0 0 0\n1 2 1 1 0 36000\nSTOP\n\
         POSITION 96 1 0 0 0\nPOSITION 96 2 0 0 0\nTRADE 96 1 2 0\nTRADE 96 2 1 0\n\
         STANDING 1 1 0 0\nSTANDING 1 2 1 1\nTOTAL 1 0 0\nTOTAL 2 0 36000\n"
    );
    assert_eq!(String::from_utf8(output.stdout).unwrap(), expected);
}

#[test]
fn arguments_of_second() {
    let wrong = [&[""][..], &["x"], &["no-test"], &["--no-test="], &["--no-test", "x"]];
    for wrong in wrong.into_iter().chain([&["--no-test", "--no-test"][..], &["1", "--help"]]) {
        let output = program(SECOND, wrong, b"x");
        assert!(!output.status.success() && output.stdout.is_empty(), "{wrong:?}");
        assert!(String::from_utf8_lossy(&output.stderr).contains("second --help"), "{wrong:?}");
    }
    for help in [&["--help"][..], &["--help", "x"]] {
        let output = program(SECOND, help, b"x");
        let told = String::from_utf8(output.stdout).unwrap();
        assert!(output.status.success() && output.stderr.is_empty());
        assert!(told.starts_with("usage: second ") && told.contains("\n--no-test "));
    }
}

#[test]
fn arguments_of_inquiry() {
    // Without a book there is no table.
    for input in [&b""[..], b"x", &hex("52 00 00 00 03  01 00 1E")] {
        let output = program(INQUIRY, &["1"], input);
        let lines = String::from_utf8(output.stdout).unwrap();
        assert!(output.status.success() && !lines.contains("TOTAL"), "{lines}");
    }
    for wrong in ["", "-1", "+1", "65536", "1x", " 1", "1.0", "--help"] {
        let output = program(INQUIRY, &["1", wrong], b"x");
        assert!(!output.status.success() && output.stdout.is_empty(), "{wrong:?}");
        assert!(!output.stderr.is_empty(), "{wrong:?}");
    }
    let output = program(INQUIRY, &["--help", "x"], b"x");
    assert!(output.status.success() && output.stdout.starts_with(b"usage"));
}

/// 9 to 16 groups: `second` stops, `second_inquiry` serves them.
#[test]
fn many_groups_of_inquiry() {
    let rule = hex("52 00 00 00 03  01 00 1E");
    for groups in 2..=16_usize {
        let form = [&[groups as u8, 1][..], &vec![0; 21 * groups + 8]].concat();
        let frame = [&[b'O'][..], &(form.len() as u32).to_be_bytes(), &form].concat();
        let input = [&rule[..], &frame].concat();
        let lines = |path| String::from_utf8(program(path, &[], &input).stdout).unwrap();
        let totals: String = (1..=groups).map(|group| format!("TOTAL {group} 0 0\n")).collect();
        assert_eq!(lines(INQUIRY), format!("OK\nOK\n{totals}"));
        assert_eq!(lines(SECOND), if groups > 8 { "OK\nSTOP\n" } else { "OK\nOK\n" });
    }
}

/// Who writes one frame gets its line, before the next one and before the end of the input.
#[test]
fn answers_come_at_once() {
    let text = Path::new(env!("CARGO_MANIFEST_DIR")).join("sessions/sample.txt");
    let frames = frames_of(&text);
    let mut child =
        Command::new(SECOND).stdin(Stdio::piped()).stdout(Stdio::piped()).spawn().unwrap();
    let mut stdin = child.stdin.take().unwrap();
    let mut stdout = BufReader::new(child.stdout.take().unwrap());
    let (rule, open) = (&frames[..8], &frames[8..81]);
    for frame in [rule, open] {
        stdin.write_all(frame).unwrap();
        let mut line = String::new();
        stdout.read_line(&mut line).unwrap();
        assert_eq!(line, "OK\n");
    }
    drop(stdin);
    assert!(child.wait().unwrap().success());
}

/// A system that fails to write or to read gives an error status.
#[test]
#[cfg(target_os = "linux")]
fn failures_of_the_system() {
    let mut child = Command::new(SECOND)
        .stdin(Stdio::piped())
        .stdout(File::options().write(true).open("/dev/full").unwrap())
        .stderr(Stdio::null())
        .spawn()
        .unwrap();
    child.stdin.take().unwrap().write_all(&hex("52 00 00 00 03  01 00 1E")).unwrap();
    assert!(!child.wait().unwrap().success());
    // A folder can't be read as a file.
    let folder = File::open(env!("CARGO_MANIFEST_DIR")).unwrap();
    let output = Command::new(SECOND).stdin(folder).output().unwrap();
    assert!(!output.status.success());
}

#[test]
fn faulty_descriptions_are_told() {
    for (text, error) in [
        ("advance\nadvanced\n", "line 2"),
        ("message group=1 cons=0-5:1\n", "no quarter hours"),
        ("message group=1 cons=5-97:1\n", "no quarter hours"),
        ("message cons=4294967296\n", "32 bits"),
        ("open metered=1,2,3\n", "not 5 numbers"),
        ("repeat 3\nadvance\n", "without end"),
        ("repeat 3-2\nadvance\nend\n", "no turns"),
        ("bytes 1\n", "hex"),
        ("  advance\n", "continues nothing"),
        ("message what=1\n", "no field what"),
    ] {
        let mut child = Command::new(FRAMES)
            .stdin(Stdio::piped())
            .stdout(Stdio::null())
            .stderr(Stdio::piped())
            .spawn()
            .unwrap();
        child.stdin.take().unwrap().write_all(text.as_bytes()).unwrap();
        let output = child.wait_with_output().unwrap();
        let told = String::from_utf8(output.stderr).unwrap();
        assert!(!output.status.success() && told.contains(error), "{text}: {told}");
    }
}
