//! Lawful sessions of any size, written as frames.

use std::fmt;
use std::fs::File;
use std::io::{self, BufWriter, Write};
use std::path::Path;

/// The size of a session.
#[derive(Clone, Copy)]
pub struct Size {
    pub groups: usize,
    pub days: u16,
    /// Messages of each group on each day.
    pub versions: u16,
}

impl fmt::Display for Size {
    fn fmt(&self, f: &mut fmt::Formatter<'_>) -> fmt::Result {
        write!(f, "groups {}, days {}, versions {}", self.groups, self.days, self.versions)
    }
}

impl Size {
    /// The first groups are metered, 5 of 8.
    fn metered(self) -> usize {
        self.groups - self.groups * 3 / 8
    }
}

type Day = [i32; 96];

/// A day with one number in quarter hours 1 to 48 and another in the rest.
fn halves(first: i32, second: i32) -> Day {
    let mut day = [second; 96];
    day[..48].fill(first);
    day
}

/// Writes the frames of a session.
pub fn write(path: &Path, size: Size) -> io::Result<()> {
    let mut file = BufWriter::new(File::create(path)?);
    frame(&mut file, b'R', &[1, 0, 30])?;
    frame(&mut file, b'O', &opening(size))?;
    let close = closing(size);
    for day in 1..=size.days {
        let mut phase = 0;
        for version in 1..=size.versions {
            // As many versions in each phase, the first ones ahead.
            while phase < (version - 1) * 3 / size.versions {
                frame(&mut file, b'A', &[])?;
                phase += 1;
            }
            for group in 1..=size.groups {
                frame(&mut file, b'S', &message(size, group, version, day))?;
            }
        }
        (phase..2).try_for_each(|_| frame(&mut file, b'A', &[]))?;
        frame(&mut file, b'C', &close)?;
    }
    file.flush()
}

fn frame(file: &mut impl Write, letter: u8, body: &[u8]) -> io::Result<()> {
    file.write_all(&[letter])?;
    file.write_all(&(body.len() as u32).to_be_bytes())?;
    file.write_all(body)
}

fn opening(size: Size) -> Vec<u8> {
    let tariff = [0, 0, 0, 0, 50_000, 8_000, 50_000, 16_000];
    let mut form = vec![size.groups as u8, tariff.len() as u8 / 2];
    for group in 1..=size.groups {
        let metered = group <= size.metered();
        form.push(metered.into());
        let figures = if metered { [1_000, 500, 300, 200, 100] } else { [0, 0, 100, 50, 0] };
        form.extend(figures.iter().flat_map(|figure: &u32| figure.to_be_bytes()));
    }
    form.extend(tariff.iter().flat_map(|figure: &u32| figure.to_be_bytes()));
    form
}

fn message(size: Size, group: usize, version: u16, day: u16) -> Vec<u8> {
    let mut series: Vec<(u8, u8, Day)> = Vec::new();
    if group <= size.metered() {
        let number = group as i32;
        series.push((3, 0, [700 + 10 * number + i32::from(version); 96]));
        series.push((4, 0, [800 + number; 96]));
        series.push((5, 0, [number; 96]));
    }
    for other in (1..=size.groups).filter(|&other| other != group) {
        // The lower group sells in the first half of the day and buys in the second.
        let power = 21 + 3 * group.min(other) as i32 + group.max(other) as i32;
        let (out, into) = if group < other {
            (halves(power, 0), halves(0, power - 2))
        } else {
            (halves(0, power - 1), halves(power - 1, 0))
        };
        series.push((1, other as u8, out));
        series.push((2, other as u8, into));
    }
    let mut form = vec![series.len() as u8, 96];
    for number in [group as u16, version, day] {
        form.extend(number.to_be_bytes());
    }
    series.iter().for_each(|&(kind, counter, _)| form.extend([kind, counter]));
    series.iter().for_each(|(.., values)| put(&mut form, values));
    form
}

fn closing(size: Size) -> Vec<u8> {
    let mut form = vec![size.groups as u8, 96];
    for group in 1..=size.groups {
        let number = group as i32;
        let metered = group <= size.metered();
        put(&mut form, &halves(number, if metered { 5 * number - 800 } else { 0 }));
    }
    let (mut long, mut short) = ([4_000; 96], [10_000; 96]);
    long[9..20].fill(-300);
    short[69..75].fill(-50);
    put(&mut form, &long);
    put(&mut form, &short);
    form
}

fn put(form: &mut Vec<u8>, day: &Day) {
    form.extend(day.iter().flat_map(|number| number.to_be_bytes()));
}

#[cfg(test)]
mod tests {
    use super::*;

    /// The sizes that FORMS gives, and that all frames are accepted.
    #[test]
    fn sessions_are_lawful() {
        for (groups, versions) in [(2, 1), (4, 3), (8, 6)] {
            let path = std::env::temp_dir().join(format!("bench-test-{groups}"));
            write(&path, Size { groups, days: 3, versions }).unwrap();
            let frames = std::fs::read(&path).unwrap();
            std::fs::remove_file(&path).unwrap();
            let mut lines = Vec::new();
            compare::session::run(&frames[..], &mut lines, 8, &mut ()).unwrap();
            let lines = String::from_utf8(lines).unwrap();
            assert!(!lines.contains("REFUSED") && !lines.contains("STOP"));
            let expected = 2 + 3 * (groups * usize::from(versions) + 2 + groups);
            assert_eq!(lines.lines().count(), expected);
        }
    }
}
