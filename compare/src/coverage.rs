//! What sessions came to, counted from what the second program itself says of each frame.

use std::collections::BTreeMap;
use std::fmt;

use crate::session::{Asked, Cause, Reply, Watch};
use crate::{DAYS, MAX_FEE, MAX_GROUPS, MAX_POWER, MAX_PRICE, QUARTERS, Refusal, Row};

/// A count for each row of the table.
#[derive(Default)]
pub struct Coverage {
    counts: BTreeMap<String, u64>,
    /// Frames that were answered.
    pub answered: u64,
    // Of the session that runs:
    /// The rule, as `rolling 30`.
    rule: String,
    groups: usize,
    tariff_rows: u16,
    metered: [bool; MAX_GROUPS],
    /// 0 ahead, 1 near, 2 after.
    phase: usize,
    closed: u16,
    versions: [u16; MAX_GROUPS],
    stages: [u16; MAX_GROUPS],
}

/// Rows that a comparison must fill, each at least so often: 50 times for each refusal that a
/// session can reach and each cause to stop.
const ROWS: &[(&str, u64)] = &[
    ("R refused 1", 50),
    ("R refused 3", 50),
    ("R refused 17, kind", 50),
    ("R refused 17, window", 50),
    ("O refused 1", 50),
    ("O refused 2", 50),
    ("O refused 3", 50),
    ("O refused 16, flag", 50),
    ("O refused 16, power", 50),
    ("O refused 16, trading", 50),
    ("O refused 17, fee", 50),
    ("O refused 17, rate", 50),
    ("O refused 17, fee falls", 50),
    ("O refused 17, rate falls", 50),
    ("S refused 1", 50),
    ("S refused 2", 50),
    ("S refused 3", 50),
    ("S refused 4, year over", 50),
    ("S refused 6", 50),
    ("S refused 7", 50),
    ("S refused 8, version 0", 50),
    ("S refused 8, too low", 50),
    ("S refused 8, too high", 50),
    ("S refused 9, forecast with a counter", 50),
    ("S refused 9, trade with no other group", 50),
    ("S refused 9, unknown kind", 50),
    ("S refused 10", 50),
    ("S refused 11, forecast of a metered group", 50),
    ("S refused 11, series of today", 50),
    ("S refused 12, 10000001", 50),
    ("S refused 12, higher", 50),
    ("S refused 13", 50),
    ("S refused 14", 50),
    ("S refused 15, short", 50),
    ("S refused 15, long", 50),
    ("A refused 4, phase after", 50),
    ("A refused 4, year over", 50),
    ("C refused 1", 50),
    ("C refused 2", 50),
    ("C refused 3", 50),
    ("C refused 4, phase ahead", 50),
    ("C refused 4, phase near", 50),
    ("C refused 4, year over", 50),
    ("C refused 12, feed-in -2147483648", 50),
    ("C refused 12, feed-in -10000001", 50),
    ("C refused 12, feed-in 10000001", 50),
    ("C refused 12, long price -2147483648", 50),
    ("C refused 12, long price -1000001", 50),
    ("C refused 12, long price 1000001", 50),
    ("C refused 12, short price -2147483648", 50),
    ("C refused 12, short price -1000001", 50),
    ("C refused 12, short price 1000001", 50),
    ("STOP 1, cut in the header", 50),
    ("STOP 1, cut in the body", 50),
    ("STOP 2, body too long", 50),
    ("STOP 3, body on A", 50),
    ("STOP 4, unknown letter", 50),
    ("STOP 5, O before a rule", 50),
    ("STOP 6, A before a book", 50),
    ("STOP 6, C before a book", 50),
    ("STOP 6, S before a book", 50),
    ("STOP 7, R again", 50),
    ("STOP 8, O again", 50),
    ("end of input", 1),
    ("R accepted, rolling 1", 1),
    ("R accepted, rolling 63", 1),
    ("R accepted, rolling 64", 1),
    ("R accepted, rolling 65", 1),
    ("R accepted, rolling 127", 1),
    ("R accepted, rolling 128", 1),
    ("R accepted, rolling 129", 1),
    ("R accepted, rolling 366", 1),
    ("R accepted, run 1", 1),
    ("R accepted, run 63", 1),
    ("R accepted, run 64", 1),
    ("R accepted, run 65", 1),
    ("R accepted, run 127", 1),
    ("R accepted, run 128", 1),
    ("R accepted, run 129", 1),
    ("R accepted, run 366", 1),
    ("O accepted, a fee of 100000000", 1),
    ("O accepted, a power of 10000000", 1),
    ("O accepted, a rate of 1000000", 1),
    ("O accepted, 2 groups", 1),
    ("O accepted, 3 groups", 1),
    ("O accepted, 4 groups", 1),
    ("O accepted, 5 groups", 1),
    ("O accepted, 6 groups", 1),
    ("O accepted, 7 groups", 1),
    ("O accepted, 8 groups", 1),
    ("S accepted, count 0", 1),
    ("S accepted, count above 0", 1),
    ("S accepted, count 96", 1),
    ("S accepted, no series", 1),
    ("S accepted, 17 series", 1),
    ("S accepted, version above 1", 1),
    ("S accepted, version 65535", 1),
    ("S accepted, a value of 10000000", 1),
    ("S accepted in phase ahead", 1),
    ("S accepted in phase near", 1),
    ("S accepted in phase after, metered", 1),
    ("S accepted in phase after, trading, count 0", 1),
    ("S accepted in phase after, trading, count above 0", 1),
    ("A accepted, to near", 1),
    ("A accepted, cut-off", 1),
    ("C accepted", 1),
    ("C accepted, day 366", 1),
    ("C accepted, a feed-in of -10000000", 1),
    ("C accepted, a feed-in of 10000000", 1),
    ("C accepted, a price of -1000000", 1),
    ("C accepted, a price of 1000000", 1),
    ("row unmarked", 1),
    ("row marked, metered", 1),
    ("row marked, trading", 1),
    ("row marked, penalty 0", 1),
    ("row penalty above 0", 1),
    ("row penalty by the last tariff row", 1),
    ("row penalty by a row before the last", 1),
    ("row stage 0", 1),
    ("row stage 1", 1),
    ("row stage above 1", 1),
    ("row stage above 63", 1),
    ("row stage above 127", 1),
    ("row stage 366", 1),
    ("row stage falls, rolling 1", 1),
    ("row stage falls, rolling 63", 1),
    ("row stage falls, rolling 64", 1),
    ("row stage falls, rolling 65", 1),
    ("row stage falls, rolling 127", 1),
    ("row stage falls, rolling 128", 1),
    ("row stage falls, rolling 129", 1),
    ("row stage falls, run 1", 1),
    ("row stage falls, run 63", 1),
    ("row stage falls, run 64", 1),
    ("row stage falls, run 65", 1),
    ("row stage falls, run 127", 1),
    ("row stage falls, run 128", 1),
    ("row stage falls, run 129", 1),
    ("row balance positive", 1),
    ("row balance negative", 1),
    ("row balance zero", 1),
];

/// The same for comparisons of `account`, which serves 8 groups.
const ACCOUNT_ROWS: &[(&str, u64)] = &[("STOP 9, O for too many groups", 50)];

/// The same for comparisons of `inquiry`.
const INQUIRY_ROWS: &[(&str, u64)] = &[
    ("O accepted, 9 groups", 1),
    ("O accepted, 16 groups", 1),
    ("S accepted, 33 series", 1),
    ("POSITION", 1),
    ("POSITION other than 0", 1),
    ("POSITION refused 4", 50),
    ("POSITION refused 12", 50),
    ("TRADE 0", 1),
    ("TRADE above 0", 1),
    ("TRADE refused 4", 50),
    ("TRADE refused 12", 50),
    ("STANDING unmarked", 1),
    ("STANDING marked", 1),
    ("TOTAL", 1),
    ("TOTAL penalties above 0", 1),
    ("TOTAL balance positive", 1),
    ("TOTAL balance negative", 1),
];

impl Coverage {
    /// Forgets the session that ran, and not its counts.
    pub fn next_session(&mut self) {
        let counts = std::mem::take(&mut self.counts);
        *self = Coverage { counts, answered: self.answered, ..Coverage::default() };
    }

    fn count(&mut self, row: impl AsRef<str> + Into<String>) {
        match self.counts.get_mut(row.as_ref()) {
            Some(count) => *count += 1,
            None => drop(self.counts.insert(row.into(), 1)),
        }
    }

    /// The rows that a comparison must fill, with what they must reach.
    fn wanted(inquiry: bool) -> impl Iterator<Item = (&'static str, u64)> {
        let more = if inquiry { INQUIRY_ROWS } else { &[] };
        ROWS.iter().chain(ACCOUNT_ROWS).chain(more).copied()
    }

    fn reached(&self, row: &str) -> u64 {
        self.counts.get(row).copied().unwrap_or(0)
    }

    /// The rows that were not reached as often as they must.
    pub fn missing(&self, inquiry: bool) -> Vec<String> {
        Coverage::wanted(inquiry)
            .filter(|(row, least)| self.reached(row) < *least)
            .map(|(row, least)| format!("{row}: {} of {least}", self.reached(row)))
            .collect()
    }

    /// The table, with wanted rows that are empty.
    pub fn table(&self, inquiry: bool) -> String {
        let mut rows: BTreeMap<&str, u64> =
            self.counts.iter().map(|(row, &count)| (row.as_str(), count)).collect();
        for (row, _) in Coverage::wanted(inquiry) {
            rows.entry(row).or_insert(0);
        }
        let mut rows: Vec<(&str, u64)> = rows.into_iter().collect();
        rows.sort_by_key(|&(row, _)| sort_key(row));
        rows.iter().map(|(row, count)| format!("{count:>10}  {row}\n")).collect()
    }

    fn refused(&mut self, letter: char, body: &[u8], refusal: Refusal) {
        let (_, number, place, quarter) = refusal.fields();
        let more = match (letter, number) {
            (_, 4) if self.closed == DAYS => "year over".into(),
            (_, 4) => format!("phase {}", ["ahead", "near", "after"][self.phase]),
            ('R', 17) => if [1, 2].contains(&body[0]) { "window" } else { "kind" }.into(),
            ('O', 16) => faulty_group(&body[2 + 21 * (place - 1)..]).into(),
            ('O', 17) => faulty_tariff(body, place - usize::from(body[0]) - 1).into(),
            ('S', 8..=12 | 15) => self.faulty_message(body, number, place, quarter).into(),
            ('C', 12) => {
                let part = match place.checked_sub(self.groups) {
                    None | Some(0) => "feed-in",
                    Some(1) => "long price",
                    Some(_) => "short price",
                };
                match number_at(&body[2..], (place - 1) * QUARTERS + quarter - 1) as i32 {
                    number @ (-10_000_001 | -1_000_001 | 1_000_001 | 10_000_001 | i32::MIN) => {
                        format!("{part} {number}")
                    }
                    _ => format!("{part}, another"),
                }
            }
            _ => String::new(),
        };
        let comma = if more.is_empty() { "" } else { ", " };
        self.count(format!("{letter} refused {number}{comma}{more}"));
    }

    /// More about a refused message.
    fn faulty_message(
        &self,
        body: &[u8],
        number: u8,
        place: usize,
        quarter: usize,
    ) -> &'static str {
        let (heads, values) = body[8..].split_at(2 * usize::from(body[0]));
        let group = usize::from(body[3]) - 1;
        match number {
            8 => match u16::from_be_bytes([body[4], body[5]]) {
                0 => "version 0",
                version if version <= self.versions[group] => "too low",
                _ => "too high",
            },
            9 => match heads[2 * (place - 1)] {
                1 | 2 => "trade with no other group",
                3..=5 => "forecast with a counter",
                _ => "unknown kind",
            },
            10 => "",
            11 => {
                let has = |kind: u8| heads.chunks(2).any(|head| head == [kind, 0]);
                let lacks = self.metered[group] && !(has(3) && has(4) && has(5));
                if lacks { "forecast of a metered group" } else { "series of today" }
            }
            12 => match number_at(values, (place - 1) * QUARTERS + quarter - 1) {
                10_000_001 => "10000001",
                _ => "higher",
            },
            _ if check(heads, values, quarter - 1) < 0 => "short",
            _ => "long",
        }
    }

    fn accepted_message(&mut self, body: &[u8], count: usize) {
        let group = usize::from(body[3]) - 1;
        self.count(if count == 0 { "S accepted, count 0" } else { "S accepted, count above 0" });
        if count == QUARTERS {
            self.count("S accepted, count 96");
        }
        match body[0] {
            0 => self.count("S accepted, no series"),
            17 => self.count("S accepted, 17 series"),
            33 => self.count("S accepted, 33 series"),
            _ => {}
        }
        self.versions[group] = u16::from_be_bytes([body[4], body[5]]);
        match self.versions[group] {
            0 | 1 => {}
            u16::MAX => self.count("S accepted, version 65535"),
            _ => self.count("S accepted, version above 1"),
        }
        let values = body[8 + 2 * usize::from(body[0])..].as_chunks::<4>().0;
        if values.iter().any(|&value| u32::from_be_bytes(value) == MAX_POWER) {
            self.count("S accepted, a value of 10000000");
        }
        self.count(match (self.phase, self.metered[group]) {
            (0, _) => "S accepted in phase ahead",
            (1, _) => "S accepted in phase near",
            (_, true) => "S accepted in phase after, metered",
            _ if count == 0 => "S accepted in phase after, trading, count 0",
            _ => "S accepted in phase after, trading, count above 0",
        });
    }

    fn row(&mut self, row: &Row) {
        self.count(match (row.mark, self.metered[usize::from(row.group) - 1]) {
            (false, _) => "row unmarked",
            (true, true) => "row marked, metered",
            (true, false) => "row marked, trading",
        });
        if row.penalty > 0 {
            self.count("row penalty above 0");
            let last = row.stage + 1 >= self.tariff_rows;
            let name = "row penalty by the last tariff row";
            self.count(if last { name } else { "row penalty by a row before the last" });
        } else if row.mark {
            self.count("row marked, penalty 0");
        }
        match row.stage {
            0 => self.count("row stage 0"),
            1 => self.count("row stage 1"),
            DAYS => self.count("row stage 366"),
            _ => self.count("row stage above 1"),
        }
        for stage in [63, 127] {
            if row.stage > stage {
                self.count(format!("row stage above {stage}"));
            }
        }
        let stage = &mut self.stages[usize::from(row.group) - 1];
        if std::mem::replace(stage, row.stage) > row.stage {
            self.count(format!("row stage falls, {}", self.rule));
        }
        self.count(format!("row balance {}", sign(row.balance)));
    }
}

fn sign(number: i64) -> &'static str {
    match number.signum() {
        1 => "positive",
        -1 => "negative",
        _ => "zero",
    }
}

/// Letters in the order of a session, numbers by their size.
fn sort_key(row: &str) -> (usize, Vec<Result<u64, String>>) {
    let starts = ["R ", "O ", "S ", "A ", "C ", "row", "STOP", "end"];
    let first = starts.iter().position(|start| row.starts_with(start)).unwrap_or(starts.len());
    let words = row.split([' ', ',']).filter(|word| !word.is_empty());
    (first, words.map(|word| word.parse().map_err(|_| word.to_string())).collect())
}

/// The unsigned number of a place in an array.
fn number_at(bytes: &[u8], at: usize) -> u32 {
    u32::from_be_bytes(bytes.as_chunks::<4>().0[at])
}

/// What is wrong with a group row.
fn faulty_group(row: &[u8]) -> &'static str {
    match row[0] {
        0 | 1 if (0..5).any(|field| number_at(&row[1..], field) > MAX_POWER) => "power",
        0 | 1 => "trading",
        _ => "flag",
    }
}

/// What is wrong with a tariff row, counted from 0.
fn faulty_tariff(body: &[u8], row: usize) -> &'static str {
    let tariff = &body[2 + 21 * usize::from(body[0])..];
    let (fee, rate) = (number_at(tariff, 2 * row), number_at(tariff, 2 * row + 1));
    if fee > MAX_FEE {
        "fee"
    } else if rate > MAX_PRICE {
        "rate"
    } else if row > 0 && fee < number_at(tariff, 2 * (row - 1)) {
        "fee falls"
    } else {
        "rate falls"
    }
}

/// The stated check value of a message in a quarter hour.
fn check(heads: &[u8], values: &[u8], quarter: usize) -> i64 {
    let value = |place: usize| i64::from(number_at(values, place * QUARTERS + quarter));
    let kinds = heads.chunks(2).map(|head| head[0]).enumerate();
    kinds
        .map(|(place, kind)| match kind {
            1 | 3 => -value(place),
            2 => value(place),
            _ => 0,
        })
        .sum()
}

impl Watch for Coverage {
    fn answered(&mut self, letter: u8, body: &[u8], reply: &Reply<'_>) {
        self.answered += 1;
        match (reply, letter) {
            (Reply::Refused(refusal), _) => self.refused(char::from(letter), body, *refusal),
            (Reply::Noticed(notice), _) => self.accepted_message(body, notice.count),
            (Reply::Closed(rows), _) => {
                self.closed += 1;
                self.phase = 0;
                self.versions = [0; MAX_GROUPS];
                self.count("C accepted");
                let numbers = body[2..].as_chunks().0.iter().map(|&four| i32::from_be_bytes(four));
                let (mut feed_ins, mut prices) = ([false; 2], [false; 2]);
                for (at, number) in numbers.enumerate() {
                    let (bounds, bound) = if at < self.groups * QUARTERS {
                        (&mut feed_ins, MAX_POWER)
                    } else {
                        (&mut prices, MAX_PRICE)
                    };
                    bounds[usize::from(number > 0)] |= number.unsigned_abs() == bound;
                }
                for (sign, at) in [("-", 0), ("", 1)] {
                    if feed_ins[at] {
                        self.count(format!("C accepted, a feed-in of {sign}{MAX_POWER}"));
                    }
                    if prices[at] {
                        self.count(format!("C accepted, a price of {sign}{MAX_PRICE}"));
                    }
                }
                if self.closed == DAYS {
                    self.count("C accepted, day 366");
                }
                rows.iter().for_each(|row| self.row(row));
            }
            (Reply::Done, b'R') => {
                let window = u16::from_be_bytes([body[1], body[2]]);
                let kind = if body[0] == 2 { "run" } else { "rolling" };
                self.rule = match window {
                    1 | 63..=65 | 127..=129 | 366 => format!("{kind} {window}"),
                    _ => format!("{kind} another"),
                };
                self.count(format!("R accepted, {}", self.rule));
            }
            (Reply::Done, b'O') => {
                self.groups = usize::from(body[0]);
                self.tariff_rows = body[1].into();
                for group in 0..self.groups {
                    self.metered[group] = body[2 + 21 * group] == 1;
                }
                let rows = body[2..].chunks(21).take(self.groups);
                let mut powers = rows.flat_map(|row| (0..5).map(|at| number_at(&row[1..], at)));
                if powers.any(|power| power == MAX_POWER) {
                    self.count("O accepted, a power of 10000000");
                }
                let last = body.len() - 8;
                if number_at(&body[last..], 0) == MAX_FEE {
                    self.count("O accepted, a fee of 100000000");
                }
                if number_at(&body[last..], 1) == MAX_PRICE {
                    self.count("O accepted, a rate of 1000000");
                }
                self.count(format!("O accepted, {} groups", self.groups));
            }
            (Reply::Done, _) => {
                self.phase += 1;
                self.count(if self.phase == 1 {
                    "A accepted, to near"
                } else {
                    "A accepted, cut-off"
                });
            }
        }
    }

    fn stopped(&mut self, cause: Cause, letter: Option<u8>) {
        let told = match (cause, letter) {
            (Cause::Cut, None) => "cut in the header".into(),
            (Cause::Cut, Some(_)) => "cut in the body".into(),
            (Cause::TooLong, _) => "body too long".into(),
            (Cause::BodyOnAdvance, _) => "body on A".into(),
            (Cause::UnknownLetter, _) => "unknown letter".into(),
            (Cause::OpenBeforeRule, _) => "O before a rule".into(),
            (Cause::NoBook, letter) => {
                format!("{} before a book", char::from(letter.unwrap_or(b'?')))
            }
            (Cause::RuleAgain, _) => "R again".into(),
            (Cause::OpenAgain, _) => "O again".into(),
            (Cause::TooManyGroups, _) => "O for too many groups".to_string(),
        };
        self.count(format!("STOP {}, {told}", cause as u8));
    }

    fn ended(&mut self) {
        self.count("end of input");
    }

    fn asked(&mut self, answer: Asked) {
        let refused =
            |line: &str, refusal: Refusal| format!("{line} refused {}", refusal.fields().1);
        match answer {
            Asked::Position(Err(refusal)) => self.count(refused("POSITION", refusal)),
            Asked::Position(Ok(position)) => {
                self.count("POSITION");
                if (position.stated, position.confirmed) != (0, 0) {
                    self.count("POSITION other than 0");
                }
            }
            Asked::Trade(Err(refusal)) => self.count(refused("TRADE", refusal)),
            Asked::Trade(Ok(power)) => {
                self.count(if power > 0 { "TRADE above 0" } else { "TRADE 0" })
            }
            Asked::Standing(Err(refusal)) => self.count(refused("STANDING", refusal)),
            Asked::Standing(Ok(standing)) => {
                self.count(if standing.mark { "STANDING marked" } else { "STANDING unmarked" })
            }
            Asked::Total(Err(refusal)) => self.count(refused("TOTAL", refusal)),
            Asked::Total(Ok(total)) => {
                self.count("TOTAL");
                if total.penalties > 0 {
                    self.count("TOTAL penalties above 0");
                }
                self.count(format!("TOTAL balance {}", sign(total.balance)));
            }
        }
    }
}

impl fmt::Debug for Coverage {
    fn fmt(&self, f: &mut fmt::Formatter<'_>) -> fmt::Result {
        f.write_str(&self.table(true))
    }
}
