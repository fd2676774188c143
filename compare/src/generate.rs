//! Sessions from a seed: mostly lawful ones that go deep, with damage of every kind mixed in.
//!
//! The writer of a session runs it as it writes, so that it knows the day, the phase, the
//! versions and what was sent, whatever became of a damaged frame.

use crate::session::{MAX_BODY, Reply, Session};
use crate::{DAYS, MAX_FEE, MAX_GROUPS, MAX_POWER, MAX_PRICE, QUARTERS};

/// Random numbers by splitmix64, the same for the same seed.
pub struct Rng(u64);

impl Rng {
    pub fn new(seed: u64) -> Rng {
        Rng(seed.wrapping_mul(0xD134_2543_DE82_EF95))
    }

    pub fn bits(&mut self) -> u64 {
        self.0 = self.0.wrapping_add(0x9E37_79B9_7F4A_7C15);
        let mut z = self.0;
        z = (z ^ z >> 30).wrapping_mul(0xBF58_476D_1CE4_E5B9);
        z = (z ^ z >> 27).wrapping_mul(0x94D0_49BB_1331_11EB);
        z ^ z >> 31
    }

    /// A number below `bound`, which is at most 2^32.
    pub fn below(&mut self, bound: u64) -> u64 {
        ((self.bits() >> 32) * bound) >> 32
    }

    pub fn index(&mut self, length: usize) -> usize {
        self.below(length as u64) as usize
    }

    /// A number from `low` to `high`, both included.
    pub fn within(&mut self, low: usize, high: usize) -> usize {
        low + self.index(high - low + 1)
    }

    pub fn one_in(&mut self, times: u64) -> bool {
        self.below(times) == 0
    }

    pub fn pick<T: Copy>(&mut self, choices: &[T]) -> T {
        choices[self.index(choices.len())]
    }

    fn shuffle<T>(&mut self, list: &mut [T]) {
        (1..list.len()).for_each(|i| list.swap(i, self.index(i + 1)));
    }
}

/// A session to be run.
pub struct Script {
    /// What kind of session it is.
    pub shape: &'static str,
    /// The bytes of standard input.
    pub frames: Vec<u8>,
    /// For `inquiry`: its quarter hours.
    pub quarters: Vec<u16>,
}

/// Powers of a day.
type Day = [u32; QUARTERS];

/// A group as the opening form has it.
#[derive(Clone, Copy, Default)]
struct Group {
    metered: bool,
    prod_max: u32,
    pump_depth: u32,
    limits: [u32; 3],
}

#[derive(Clone, Copy)]
struct Series {
    kind: u8,
    counter: u8,
    values: Day,
}

/// A message before it is bytes; `count` and `length` may be forged.
struct Message {
    count: Option<u8>,
    quarters: u8,
    group: u16,
    version: u16,
    day: u16,
    series: Vec<Series>,
    length: Option<usize>,
}

impl Message {
    fn bytes(&self) -> Vec<u8> {
        let mut form = vec![self.count.unwrap_or(self.series.len() as u8), self.quarters];
        for number in [self.group, self.version, self.day] {
            form.extend(number.to_be_bytes());
        }
        self.series.iter().for_each(|series| form.extend([series.kind, series.counter]));
        for series in &self.series {
            form.extend(series.values.iter().flat_map(|value| value.to_be_bytes()));
        }
        form.resize(self.length.unwrap_or(form.len()).min(MAX_BODY), 0);
        form
    }
}

/// The stated check value of a list of series in a quarter hour.
fn check_of(series: &[Series], quarter: usize) -> i64 {
    let signed = |s: &Series| match s.kind {
        1 | 3 => -i64::from(s.values[quarter]),
        2 => i64::from(s.values[quarter]),
        _ => 0,
    };
    series.iter().map(signed).sum()
}

/// Changes one series so that the check value in a quarter hour is `target`, if one can do it.
fn steer(series: &mut [Series], quarter: usize, target: i64, metered: bool) -> bool {
    let delta = target - check_of(series, quarter);
    for at in 0..series.len() {
        let Series { kind, counter, values } = series[at];
        let change = match kind {
            1 => -delta,
            2 => delta,
            3 if metered => -delta,
            _ => continue,
        };
        let value = i64::from(values[quarter]) + change;
        let opposed = kind < 3
            && value > 0
            && series.iter().any(|other| {
                other.kind == 3 - kind && other.counter == counter && other.values[quarter] > 0
            });
        if (0..=i64::from(MAX_POWER)).contains(&value) && !opposed {
            series[at].values[quarter] = value as u32;
            return true;
        }
    }
    false
}

/// The numbers of the refusals that damage to a message aims at.
const MESSAGE_DAMAGE: [u8; 13] = [1, 2, 3, 6, 7, 8, 9, 10, 11, 12, 13, 14, 15];

struct Writer {
    rng: Rng,
    frames: Vec<u8>,
    session: Session,
    /// The session was stopped.
    stopped: bool,
    /// What powers of this session are like.
    scale: u32,
    /// One in so many possible trades is stated.
    sparse: u64,
    rule: bool,
    groups: Vec<Group>,
    /// What group a plans to sell to group b > a; below zero to buy.
    deals: Vec<Vec<[i32; QUARTERS]>>,
    day: u16,
    /// 0 ahead, 1 near, 2 after, 3 the year is over.
    phase: usize,
    versions: [u16; MAX_GROUPS],
    /// The series of the last accepted message of the day.
    last: Vec<Vec<Series>>,
}

impl Writer {
    fn new(rng: Rng, most: usize) -> Writer {
        Writer {
            rng,
            frames: Vec::new(),
            session: Session::new(most),
            stopped: false,
            scale: 0,
            sparse: 2,
            rule: false,
            groups: Vec::new(),
            deals: Vec::new(),
            day: 1,
            phase: 0,
            versions: [0; MAX_GROUPS],
            last: vec![Vec::new(); MAX_GROUPS],
        }
    }

    fn script(self, shape: &'static str) -> Script {
        Script { shape, frames: self.frames, quarters: Vec::new() }
    }

    /// Appends a frame and follows what becomes of it. Says whether it was accepted.
    fn frame(&mut self, letter: u8, body: &[u8]) -> bool {
        self.frames.push(letter);
        self.frames.extend((body.len() as u32).to_be_bytes());
        self.frames.extend(body);
        if self.stopped {
            return false;
        }
        match self.session.answer(letter, body) {
            Ok(Reply::Refused(_)) => return false,
            Ok(_) => {}
            Err(_) => {
                self.stopped = true;
                return false;
            }
        }
        match letter {
            b'R' => self.rule = true,
            b'O' => self.follow_opening(body),
            b'S' => self.follow_message(body),
            b'A' => self.phase += 1,
            _ => {
                self.day += 1;
                self.phase = if self.day > DAYS { 3 } else { 0 };
                self.versions = [0; MAX_GROUPS];
                self.last.iter_mut().for_each(Vec::clear);
            }
        }
        true
    }

    fn follow_opening(&mut self, body: &[u8]) {
        self.groups = (body[2..].chunks(21).take(usize::from(body[0])))
            .map(|row| {
                let at =
                    |i: usize| u32::from_be_bytes([row[i], row[i + 1], row[i + 2], row[i + 3]]);
                Group {
                    metered: row[0] == 1,
                    prod_max: at(1),
                    pump_depth: at(5),
                    limits: [at(9), at(13), at(17)],
                }
            })
            .collect();
        self.deal();
    }

    fn follow_message(&mut self, body: &[u8]) {
        let group = usize::from(body[3]) - 1;
        self.versions[group] = u16::from_be_bytes([body[4], body[5]]);
        let (heads, values) = body[8..].split_at(2 * usize::from(body[0]));
        let series = heads.chunks(2).zip(values.chunks(4 * QUARTERS)).map(|(head, bytes)| {
            let mut values = [0; QUARTERS];
            for (value, four) in values.iter_mut().zip(bytes.as_chunks().0) {
                *value = u32::from_be_bytes(*four);
            }
            Series { kind: head[0], counter: head[1], values }
        });
        self.last[group] = series.collect();
    }

    // Numbers

    /// A power, now and then at an edge.
    fn power(&mut self) -> u32 {
        match self.rng.below(24) {
            0 => 0,
            1 => 1,
            2 => self.scale,
            3 if self.rng.one_in(4) => MAX_POWER,
            _ => self.rng.below(u64::from(self.scale) + 1) as u32,
        }
    }

    /// A day of powers: all day one, some steps, each another, or a single one.
    fn powers(&mut self) -> Day {
        let mut day = [0; QUARTERS];
        match self.rng.below(8) {
            0 => day.fill_with(|| self.power()),
            1 => day[self.rng.index(QUARTERS)] = self.power(),
            2..5 => day.fill(self.power()),
            _ => {
                for _ in 0..self.rng.within(1, 4) {
                    let from = self.rng.index(QUARTERS);
                    let to = self.rng.within(from, QUARTERS);
                    day[from..to].fill(self.power());
                }
            }
        }
        day
    }

    /// A quarter hour from 0, often the first or the last.
    fn quarter(&mut self) -> usize {
        match self.rng.below(6) {
            0 => 0,
            1 => QUARTERS - 1,
            _ => self.rng.index(QUARTERS),
        }
    }

    /// New plans of all groups.
    fn deal(&mut self) {
        let count = self.groups.len();
        self.deals = (0..count)
            .map(|a| {
                (0..count)
                    .map(|b| {
                        let powers = if b > a { self.powers() } else { [0; QUARTERS] };
                        let flip = self.rng.index(QUARTERS + 1);
                        let mut deal = [0; QUARTERS];
                        for t in 0..QUARTERS {
                            deal[t] = if t < flip { powers[t] as i32 } else { -(powers[t] as i32) };
                        }
                        deal
                    })
                    .collect()
            })
            .collect();
    }

    // Forms

    fn rule_form(&mut self, kind: u8, window: u16) -> Vec<u8> {
        [&[kind][..], &window.to_be_bytes()].concat()
    }

    fn any_rule(&mut self) -> Vec<u8> {
        let window = match self.rng.below(4) {
            0 => self.rng.within(1, 366) as u16,
            1 => self.rng.pick(&[1, 2, 3, 7]),
            _ => self.rng.pick(&WINDOWS),
        };
        let kind = self.rng.pick(&[1, 2]);
        self.rule_form(kind, window)
    }

    fn damaged_rule(&mut self) -> Vec<u8> {
        let mut form = self.any_rule();
        match self.rng.below(4) {
            0 => form.truncate(self.rng.index(3)),
            1 => form.resize(self.rng.pick(&[4, 5, 64, MAX_BODY]), 0),
            2 => form[0] = self.rng.pick(&[0, 3, 4, 129, 255]),
            _ => {
                let window: u16 = self.rng.pick(&[0, 367, 368, 512, 622, 32_769, 65_535]);
                form[1..].copy_from_slice(&window.to_be_bytes());
            }
        }
        form
    }

    fn figure(&mut self) -> u32 {
        match self.rng.below(12) {
            0..3 => 0,
            3 => MAX_POWER,
            4 => 1,
            _ => self.rng.below(u64::from(self.scale / 2) + 1) as u32,
        }
    }

    fn opening_form(&mut self, groups: usize) -> Vec<u8> {
        let rows = self.rng.within(1, 10);
        let mut form = vec![groups as u8, rows as u8];
        for _ in 0..groups {
            let metered = !self.rng.one_in(2);
            form.push(metered.into());
            for field in 0..5 {
                let figure = if field < 2 && !metered { 0 } else { self.figure() };
                form.extend(figure.to_be_bytes());
            }
        }
        let mut row = [0, 0];
        // Some tariffs begin with rows that cost nothing.
        let free = self.rng.pick(&[0, 0, 2, 4]);
        for number in 0..rows {
            for (figure, most) in row.iter_mut().zip([MAX_FEE, MAX_PRICE]) {
                match self.rng.below(6) {
                    _ if number < free => {}
                    0 | 1 => {}
                    2 if number + 1 == rows => *figure = most,
                    _ => *figure += self.rng.below(u64::from(most - *figure) / 8 + 1) as u32,
                }
            }
            form.extend(row.iter().flat_map(|figure| figure.to_be_bytes()));
        }
        form
    }

    fn damaged_opening(&mut self, groups: usize) -> Vec<u8> {
        let mut form = self.opening_form(groups);
        for _ in 0..if self.rng.one_in(4) { 2 } else { 1 } {
            self.damage_opening(&mut form);
        }
        form
    }

    fn damage_opening(&mut self, form: &mut Vec<u8>) {
        let put = |form: &mut [u8], at: usize, number: u32| {
            if let Some(four) = form.get_mut(at..at + 4) {
                four.copy_from_slice(&number.to_be_bytes());
            }
        };
        let (groups, rows) = match form[..] {
            [groups, rows, ..] => (usize::from(groups), usize::from(rows)),
            _ => return,
        };
        let tariff = 2 + 21 * groups;
        match self.rng.below(10) {
            0 => form.truncate(self.rng.index(2)),
            1 => form[0] = self.rng.pick(&[0, 1, 17, 18, 255]),
            2 => form[1] = self.rng.pick(&[0, 11, 12, 255]),
            3 => {
                let length = form.len();
                let shorter = length.saturating_sub(8);
                let lengths = [length - 1, length + 1, shorter, length + 8, 2, MAX_BODY];
                form.resize(self.rng.pick(&lengths), 0);
            }
            4 | 5 => {
                let row = 2 + 21 * self.rng.index(groups.max(1));
                if row + 21 > form.len() {
                    return;
                }
                match self.rng.below(3) {
                    0 => form[row] = self.rng.pick(&[2, 3, 128, 255]),
                    1 => {
                        let power = self.rng.pick(&[MAX_POWER + 1, 1 << 31, u32::MAX]);
                        put(form, row + 1 + 4 * self.rng.index(5), power);
                    }
                    _ => {
                        form[row] = 0;
                        put(form, row + 1 + 4 * self.rng.index(2), self.rng.pick(&[1, MAX_POWER]));
                    }
                }
            }
            6 | 7 => {
                let row = tariff + 8 * self.rng.index(rows.max(1));
                if self.rng.one_in(2) {
                    put(form, row, self.rng.pick(&[MAX_FEE + 1, 1 << 31, u32::MAX]));
                } else {
                    put(form, row + 4, self.rng.pick(&[MAX_PRICE + 1, 1 << 31, u32::MAX]));
                }
            }
            // A row that falls by 1, or one before it that is higher.
            _ => {
                let row = tariff + 8 * self.rng.index(rows.max(1));
                let field = row + 4 * self.rng.index(2);
                let Some(four) = form.get(field..field + 4) else { return };
                let figure = u32::from_be_bytes([four[0], four[1], four[2], four[3]]);
                if field >= tariff + 8 && self.rng.one_in(2) {
                    put(form, field - 8, figure + 1);
                } else {
                    put(form, field, figure.saturating_sub(1));
                }
            }
        }
    }

    fn message(&mut self, group: usize) -> Message {
        let Group { metered, prod_max, pump_depth, limits } = self.groups[group];
        let careful = self.phase == 2 && !metered;
        let mut heads: Vec<(u8, u8)> =
            self.last[group].iter().map(|series| (series.kind, series.counter)).collect();
        for other in (1..=self.groups.len() as u8).filter(|&other| usize::from(other) != group + 1)
        {
            for kind in [1, 2] {
                if self.rng.one_in(self.sparse) {
                    heads.push((kind, other));
                }
            }
        }
        if metered {
            heads.extend([(3, 0), (4, 0), (5, 0)]);
        } else if self.rng.one_in(12) {
            heads.push((self.rng.pick(&[3, 4, 5]), 0));
        }
        heads.sort();
        heads.dedup();
        self.rng.shuffle(&mut heads);
        let mut series = Vec::with_capacity(heads.len());
        for (kind, counter) in heads {
            let values = if careful {
                let last = self.last[group].iter().find(|s| (s.kind, s.counter) == (kind, counter));
                last.map_or([0; QUARTERS], |series| series.values)
            } else if kind < 3 {
                self.traded(group, usize::from(counter) - 1, kind)
            } else if metered {
                self.powers()
            } else {
                [0; QUARTERS]
            };
            series.push(Series { kind, counter, values });
        }
        // Some quarter hours at and around the edges of the limits.
        for _ in 0..self.rng.below(4) {
            let quarter = self.quarter();
            let target = if careful {
                let last = check_of(&self.last[group], quarter).abs();
                let allowed = last.max(limits[2].into());
                self.rng.pick(&[allowed, -allowed, last, -last, last / 2, 0, (allowed - 1).max(0)])
            } else {
                let limit = i64::from(self.rng.pick(&limits)) + self.rng.pick(&[-1, 0, 1]);
                let (short, long) = (-i64::from(prod_max) - limit, i64::from(pump_depth) + limit);
                self.rng.pick(&[short, long])
            };
            steer(&mut series, quarter, target, metered);
        }
        Message {
            count: None,
            quarters: QUARTERS as u8,
            group: group as u16 + 1,
            version: self.versions[group].wrapping_add(1),
            day: self.day,
            series,
            length: None,
        }
    }

    /// What a group states of a planned trade: the plan, or a little less or more.
    fn traded(&mut self, group: usize, other: usize, kind: u8) -> Day {
        let deal = &self.deals[group.min(other)][group.max(other)];
        let sells = (kind == 1) == (group < other);
        let mut values = [0; QUARTERS];
        for (value, &power) in values.iter_mut().zip(deal) {
            *value = if sells { power } else { -power }.max(0) as u32;
        }
        if self.rng.one_in(3) {
            let from = self.rng.index(QUARTERS);
            let to = self.rng.within(from, QUARTERS);
            let blur = self.rng.below(4);
            for value in values[from..to].iter_mut().filter(|value| **value > 0) {
                *value = match blur {
                    0 => *value - 1,
                    1 => *value / 2,
                    2 => 0,
                    _ => (*value + 1).min(MAX_POWER),
                };
            }
        }
        values
    }

    fn damage_message(&mut self, message: &mut Message, number: u8) {
        let groups = self.groups.len() as u16;
        let count = message.series.len();
        let place = self.rng.index(count.max(1));
        let quarter = self.quarter();
        let sender = usize::from(message.group).clamp(1, self.groups.len()) - 1;
        let figures = self.groups[sender];
        match number {
            1 => message.length = Some(self.rng.index(8)),
            2 => message.quarters = self.rng.pick(&[0, 1, 95, 97, 192, 255]),
            3 => {
                let length = 8 + 386 * count;
                match self.rng.below(4) {
                    0 => message.count = Some((count as u8).wrapping_add(1)),
                    1 => message.count = Some((count as u8).wrapping_sub(1)),
                    2 => message.length = Some(self.rng.within(8, length + 400)),
                    _ => {
                        let lengths = [length - 1, length + 1, length + 386, 8, MAX_BODY];
                        message.length = Some(self.rng.pick(&lengths).max(8));
                    }
                }
            }
            6 => {
                let others = [0, groups + 1, 255, 256, message.group.wrapping_add(256), 65_535];
                message.group = self.rng.pick(&others);
            }
            7 => {
                let day = self.day;
                let others = [0, day.wrapping_sub(1), day + 1, day + 256, 366, 367, 65_535];
                message.day = self.rng.pick(&others);
            }
            8 => {
                let version = message.version;
                let others = [0, version.wrapping_sub(1), version.wrapping_add(1), 65_535];
                message.version = self.rng.pick(&others);
            }
            9 => {
                let own = message.group as u8;
                let counter = self.rng.pick(&[0, own, groups as u8 + 1, 17, 255]);
                let head = match self.rng.below(3) {
                    0 => (self.rng.pick(&[0, 6, 7, 128, 255]), self.rng.pick(&[0, 1, 2])),
                    1 => (self.rng.pick(&[1, 2]), counter),
                    _ => (self.rng.pick(&[3, 4, 5]), self.rng.pick(&[1, 2, own, 255])),
                };
                if count == 0 || self.rng.one_in(2) {
                    let values = self.powers();
                    let series = Series { kind: head.0, counter: head.1, values };
                    message.series.insert(self.rng.index(count + 1), series);
                } else {
                    (message.series[place].kind, message.series[place].counter) = head;
                }
            }
            10 if count > 0 => {
                for _ in 0..self.rng.within(1, 2) {
                    let at = self.rng.index(message.series.len() + 1);
                    let series = message.series[self.rng.index(message.series.len())];
                    message.series.insert(at, series);
                }
            }
            11 if count > 0 => {
                if self.rng.one_in(5) {
                    message.series.clear();
                } else {
                    message.series.remove(place);
                }
            }
            12 if count > 0 => {
                for _ in 0..self.rng.within(1, 2) {
                    let value = self.rng.pick(&[MAX_POWER + 1, 1 << 31, 0xFFFF_FF6A, u32::MAX]);
                    message.series[self.rng.index(count)].values[self.rng.index(QUARTERS)] = value;
                }
                message.series[place].values[quarter] = MAX_POWER + 1;
            }
            13 => {
                let kind = self.rng.pick(&[3, 4, 5]);
                let power = self.rng.pick(&[1, 256, MAX_POWER]);
                match message.series.iter_mut().find(|series| series.kind == kind) {
                    Some(series) => series.values[quarter] = power,
                    None => {
                        let mut values = [0; QUARTERS];
                        values[quarter] = power;
                        let series = Series { kind, counter: 0, values };
                        message.series.insert(self.rng.index(count + 1), series);
                    }
                }
            }
            14 => {
                let counter = 1
                    + (sender as u8 + 1 + self.rng.index(groups as usize - 1) as u8) % groups as u8;
                for kind in [1, 2] {
                    let found = (message.series.iter_mut())
                        .find(|series| (series.kind, series.counter) == (kind, counter));
                    match found {
                        Some(series) => series.values[quarter] = 1,
                        None => {
                            let mut values = [0; QUARTERS];
                            values[quarter] = 1;
                            let at = self.rng.index(message.series.len() + 1);
                            message.series.insert(at, Series { kind, counter, values });
                        }
                    }
                }
            }
            // Farther out than allowed, by 1 or by more, short or long.
            15 if !figures.metered => {
                let last = check_of(&self.last[sender], quarter).abs();
                let allowed = last.max(figures.limits[2].into());
                let target = allowed + self.rng.pick(&[1, 1, 2, 1_000]);
                if !message.series.iter().any(|series| series.kind < 3) {
                    let counter = if sender == 0 { 2 } else { 1 };
                    let kind = self.rng.pick(&[1, 2]);
                    message.series.push(Series { kind, counter, values: [0; QUARTERS] });
                }
                let side = self.rng.pick(&[1, -1]);
                let _ = steer(&mut message.series, quarter, side * target, false)
                    || steer(&mut message.series, quarter, -side * target, false);
            }
            _ => message.version = message.version.wrapping_add(self.rng.pick(&[1, 2, 256])),
        }
    }

    /// A signed number within a bound, now and then the bound itself.
    fn signed(&mut self, usual: u32, bound: u32) -> i32 {
        let size = match self.rng.below(16) {
            0 => 0,
            1 => bound as i32,
            _ => self.rng.below(u64::from(usual) + 1) as i32,
        };
        if self.rng.one_in(2) { -size } else { size }
    }

    fn closing_form(&mut self) -> Vec<u8> {
        let groups = self.groups.len();
        let mut parts = vec![[0_i32; QUARTERS]; groups + 2];
        if self.rng.one_in(6) {
            // Sums just around half a cent.
            let quarter = self.quarter();
            for part in &mut parts[..groups] {
                part[quarter] = self.rng.pick(&[-1, 1, 3, -3, 0]);
            }
            for part in &mut parts[groups..] {
                let size = self.rng.pick(&[1_999, 2_000, 2_001, 666, 667, 5_999, 6_000, 10_000]);
                part[quarter] = if self.rng.one_in(2) { -size } else { size };
            }
        } else {
            for (number, part) in parts.iter_mut().enumerate() {
                let (usual, bound) = if number < groups {
                    (self.scale, MAX_POWER)
                } else {
                    (self.rng.pick(&[10, 20_000, MAX_PRICE]), MAX_PRICE)
                };
                match self.rng.below(8) {
                    0 => part.fill_with(|| self.signed(usual, bound)),
                    1 => {}
                    _ => {
                        part.fill(self.signed(usual, bound));
                        let from = self.rng.index(QUARTERS);
                        part[from..].fill(self.signed(usual, bound));
                    }
                }
            }
        }
        let mut form = vec![groups as u8, QUARTERS as u8];
        form.extend(parts.iter().flatten().flat_map(|number| number.to_be_bytes()));
        form
    }

    fn damaged_closing(&mut self) -> Vec<u8> {
        let groups = self.groups.len();
        let mut form = self.closing_form();
        for _ in 0..if self.rng.one_in(4) { 2 } else { 1 } {
            let length = form.len();
            match self.rng.below(7) {
                0 => form.truncate(self.rng.index(2)),
                1 if length > 1 => match self.rng.below(2) {
                    0 => form[0] = self.rng.pick(&[0, groups as u8 - 1, groups as u8 + 1, 255]),
                    _ => form[1] = self.rng.pick(&[0, 95, 97, 255]),
                },
                2 if length > 8 => {
                    let lengths = [length - 1, length + 1, length - 384, length + 384, 2, MAX_BODY];
                    form.resize(self.rng.pick(&lengths), 0);
                }
                _ => {
                    let bad_feed = [10_000_001, -10_000_001, i32::MIN, i32::MAX];
                    let bad_price = [1_000_001, -1_000_001, i32::MIN, i32::MAX];
                    for _ in 0..self.rng.within(1, 2) {
                        let place = match self.rng.below(3) {
                            0 => self.rng.index(groups),
                            1 => groups,
                            _ => groups + 1,
                        };
                        let number =
                            self.rng.pick(if place < groups { &bad_feed } else { &bad_price });
                        let at = 2 + 4 * (place * QUARTERS + self.quarter());
                        if let Some(four) = form.get_mut(at..at + 4) {
                            four.copy_from_slice(&number.to_be_bytes());
                        }
                    }
                }
            }
        }
        form
    }

    // Parts of a session

    /// Rule and opening form, with damaged ones before them.
    fn begin(&mut self, groups: usize, damaged: usize) {
        for _ in 0..damaged {
            let form = self.damaged_rule();
            self.frame(b'R', &form);
        }
        if !self.rule {
            let form = self.any_rule();
            self.frame(b'R', &form);
        }
        for _ in 0..damaged {
            let form = self.damaged_opening(groups);
            // A damaged form may be lawful after all.
            if self.frame(b'O', &form) {
                return;
            }
        }
        let form = self.opening_form(groups);
        self.frame(b'O', &form);
    }

    /// A message of some group, damaged once in `damage` times.
    fn submit(&mut self, damage: u64) {
        let group = self.rng.index(self.groups.len());
        let mut message = self.message(group);
        if self.rng.one_in(damage) {
            for _ in 0..if self.rng.one_in(4) { self.rng.within(2, 3) } else { 1 } {
                let number = self.rng.pick(&MESSAGE_DAMAGE);
                // 15 is for the phase after the cut-off.
                let number = if self.phase == 2 && self.rng.one_in(3) { 15 } else { number };
                self.damage_message(&mut message, number);
            }
        }
        self.frame(b'S', &message.bytes());
    }

    /// A frame out of turn or a damaged closing form.
    fn stray(&mut self) {
        match self.rng.below(3) {
            0 if self.phase >= 2 => {
                self.frame(b'A', &[]);
            }
            1 if self.phase != 2 => {
                let form = self.closing_form();
                self.frame(b'C', &form);
            }
            _ => {
                let form = self.damaged_closing();
                self.frame(b'C', &form);
            }
        }
    }

    /// One day up to its close, with about `messages` messages in each phase.
    fn whole_day(&mut self, messages: usize, damage: u64) {
        let day = self.day;
        if self.rng.one_in(3) {
            self.deal();
        }
        while self.day == day && !self.stopped {
            for _ in 0..self.rng.within(messages / 2, messages + messages / 2) {
                self.submit(damage);
            }
            while self.rng.one_in(damage) {
                self.stray();
            }
            if self.phase < 2 {
                self.frame(b'A', &[]);
            } else {
                let form = self.closing_form();
                self.frame(b'C', &form);
            }
        }
    }

    /// A day of a long session: group 1, which is metered, is marked or not, by one message.
    fn plain_day(&mut self, marked: bool) {
        if marked {
            let Group { prod_max, limits, .. } = self.groups[0];
            let beyond = prod_max + limits[2] + 1 + self.rng.below(3) as u32;
            let mut cons = [0; QUARTERS];
            cons[self.rng.index(QUARTERS)] = beyond;
            if self.rng.one_in(4) {
                cons = [beyond; QUARTERS];
            }
            let series = (3..=5)
                .map(|kind| {
                    let values = if kind == 3 { cons } else { [0; QUARTERS] };
                    Series { kind, counter: 0, values }
                })
                .collect();
            let message = Message {
                count: None,
                quarters: QUARTERS as u8,
                group: 1,
                version: self.versions[0] + 1,
                day: self.day,
                series,
                length: None,
            };
            self.frame(b'S', &message.bytes());
        }
        self.frame(b'A', &[]);
        self.frame(b'A', &[]);
        let form = self.closing_form();
        self.frame(b'C', &form);
    }

    /// After the 366th close: every call, lawful and damaged.
    fn year_is_over(&mut self) {
        for _ in 0..self.rng.within(4, 12) {
            match self.rng.below(6) {
                0 => {
                    self.frame(b'A', &[]);
                }
                1 => {
                    let form = self.closing_form();
                    self.frame(b'C', &form);
                }
                2 => {
                    let form = self.damaged_closing();
                    self.frame(b'C', &form);
                }
                3 => self.submit(1),
                _ => self.submit(1 << 20),
            }
        }
    }

    /// Ends the session by some cause to stop, with or without more bytes behind it.
    fn stop(&mut self) {
        let open = !self.groups.is_empty();
        let letter = self.rng.pick(b"ROSAC");
        let mut causes = vec![1, 1, 2, 4];
        match (self.rule, open) {
            (false, _) => causes.extend([5, 5, 6, 6, 6]),
            (true, false) => causes.extend([7, 6, 6, 6, 6, 9, 9, 9]),
            (true, true) => causes.extend([3, 3, 7, 8, 8]),
        }
        let cause = self.rng.pick(&causes);
        let groups = self.rng.within(2, 8);
        match cause {
            1 => {
                // A whole frame that the session is ready for, and then less of it.
                let (letter, body) = match (self.rule, open) {
                    (false, _) => (b'R', self.any_rule()),
                    (true, false) => (b'O', self.opening_form(groups)),
                    (true, true) if self.rng.one_in(2) => (b'C', self.closing_form()),
                    (true, true) => {
                        let group = self.rng.index(self.groups.len());
                        (b'S', self.message(group).bytes())
                    }
                };
                let length = (body.len() as u32).to_be_bytes();
                let whole = [&[letter][..], &length, &body].concat();
                let kept = match self.rng.below(3) {
                    0 => self.rng.within(1, 4),
                    1 => self.rng.pick(&[5, whole.len() - 1]),
                    _ => self.rng.within(5, whole.len() - 1),
                };
                self.frames.extend(&whole[..kept]);
                self.stopped = true;
                return;
            }
            2 => {
                let length: u32 = self.rng.pick(&[12_747, 12_748, 65_536, 1 << 31, u32::MAX]);
                self.frames.push(letter);
                self.frames.extend(length.to_be_bytes());
                self.stopped = true;
                if length == 12_747 && self.rng.one_in(2) {
                    self.frames.extend([0; 12_747]);
                }
            }
            3 => {
                let length = self.rng.pick(&[1, 2, 400, MAX_BODY]);
                self.frame(b'A', &vec![0; length]);
            }
            4 => {
                let letters = [b'r', b'o', b's', b'a', b'c', b'B', b'Q', b'T', 0, b'\n', b' ', 255];
                let letter = self.rng.pick(&letters);
                let length = self.rng.pick(&[0, 0, 3, 8]);
                self.frame(letter, &vec![0; length]);
            }
            6 => {
                let length = self.rng.pick(&[0, 1, 8, 394]);
                let letter = self.rng.pick(b"SAAC");
                let length = if letter == b'A' && self.rng.one_in(2) { 0 } else { length };
                self.frame(letter, &vec![0; length]);
            }
            7 => {
                let form = if self.rng.one_in(2) { self.any_rule() } else { self.damaged_rule() };
                self.frame(b'R', &form);
            }
            9 => {
                let mut form = self.opening_form(groups);
                form[0] = self.rng.within(9, 16) as u8;
                if self.rng.one_in(3) {
                    let many = self.rng.within(9, 16);
                    form = self.opening_form(many);
                }
                if self.rng.one_in(3) {
                    form.truncate(self.rng.within(1, form.len()));
                }
                self.frame(b'O', &form);
            }
            // 5 and 8
            _ => {
                let form = match self.rng.below(3) {
                    0 => self.damaged_opening(groups),
                    _ => self.opening_form(groups),
                };
                self.frame(b'O', &form);
            }
        }
        // `inquiry` takes what `account` stops for; nothing behind a STOP has an effect.
        for _ in 0..self.rng.below(4) {
            let body = match letter {
                b'R' => self.any_rule(),
                b'O' => self.opening_form(groups),
                _ => vec![0; self.rng.index(12)],
            };
            self.frame(letter, &body);
        }
    }
}

/// The windows at which days of marks cross a word of 64 bits, and the ends.
pub const WINDOWS: [u16; 9] = [1, 63, 64, 65, 127, 128, 129, 365, 366];

/// The session of a seed, for `account` or for `inquiry`.
pub fn script(seed: u64, inquiry: bool) -> Script {
    let mut rng = Rng::new(seed);
    let most = if inquiry { MAX_GROUPS } else { 8 };
    let groups = match rng.below(4) {
        _ if inquiry => rng.pick(&[2, 2, 2, 9, 9, 9, 16, 16, 3, 8, 12, 15]),
        0 => rng.within(2, 8),
        1 => 8,
        _ => rng.within(2, 4),
    };
    let mut writer = Writer::new(rng, most);
    writer.scale = writer.rng.pick(&[3, 200, 1_000, 1_000, 100_000, MAX_POWER]);
    writer.sparse = writer.rng.pick(&[1, 2, 2, 4]);
    let shape = writer.rng.below(1_000);
    let mut script = match shape {
        0..340 => short(writer, groups),
        340..560 => middle(writer, groups),
        560..640 => long(writer),
        640..890 => stops(writer, groups),
        890..997 => opening(writer, groups),
        _ => versions(writer),
    };
    if inquiry {
        script.quarters = quarters(&mut Rng::new(seed ^ 0x5EED));
    }
    script
}

/// Quarter hours to ask for, in and out of range.
fn quarters(rng: &mut Rng) -> Vec<u16> {
    let count = rng.below(5);
    (0..count)
        .map(|_| {
            let any = rng.within(1, QUARTERS) as u16;
            let far = rng.below(1 << 16) as u16;
            rng.pick(&[1, 96, 48, any, any, any, 0, 97, 65_535, far])
        })
        .collect()
}

/// Few days, much damage.
fn short(mut writer: Writer, groups: usize) -> Script {
    let damaged = writer.rng.pick(&[0, 0, 1]);
    writer.begin(groups, damaged);
    let damage = writer.rng.pick(&[2, 2, 3, 5]);
    for _ in 0..writer.rng.within(1, 3) {
        writer.whole_day(2 + groups / 2, damage);
    }
    end_somehow(&mut writer, damage);
    writer.script("short")
}

/// A month, some damage.
fn middle(mut writer: Writer, groups: usize) -> Script {
    writer.begin(groups, 0);
    let damage = writer.rng.pick(&[4, 10, 30]);
    let days = writer.rng.within(4, if groups > 4 { 8 } else { 25 });
    let messages = writer.rng.pick(&[1, 2, 3]);
    for _ in 0..days {
        writer.whole_day(messages, damage);
    }
    end_somehow(&mut writer, damage);
    writer.script("middle")
}

/// Half a day more, and now and then a cause to stop.
fn end_somehow(writer: &mut Writer, damage: u64) {
    if writer.phase < 3 && !writer.stopped && !writer.rng.one_in(3) {
        // All groups, so that trades are confirmed.
        for group in 0..writer.groups.len() {
            let message = writer.message(group);
            writer.frame(b'S', &message.bytes());
        }
        for _ in 0..writer.rng.below(3) {
            writer.frame(b'A', &[]);
            (0..3).for_each(|_| writer.submit(damage));
        }
    }
    if !writer.stopped && writer.rng.one_in(4) {
        writer.stop();
    }
}

/// Many days of two groups, with marks laid around the window of the rule; mostly the year
/// and beyond.
fn long(mut writer: Writer) -> Script {
    let window = writer.rng.pick(&WINDOWS);
    let kind = writer.rng.pick(&[1, 2]);
    let form = writer.rule_form(kind, window);
    writer.frame(b'R', &form);
    // The first group is metered and has figures that one message can pass.
    writer.scale = writer.rng.pick(&[3, 200, 10_000]);
    let mut form = writer.opening_form(2);
    form[2] = 1;
    for field in 0..5 {
        let figure = writer.rng.below(500) as u32;
        form[3 + 4 * field..7 + 4 * field].copy_from_slice(&figure.to_be_bytes());
    }
    writer.frame(b'O', &form);
    let over = writer.rng.one_in(2);
    let days = if over {
        DAYS
    } else {
        (window + 3 + writer.rng.below(u64::from(window) + 80) as u16).min(DAYS)
    };
    // A wide gap needs sparse marks to be reached.
    let sparse = kind == 2 && window > 100 && writer.rng.one_in(2);
    let pattern = if sparse { 4 } else { writer.rng.below(5) };
    let mut next = 1 + writer.rng.below(5) as u16;
    for day in 1..=days {
        let marked = match pattern {
            0 => !writer.rng.one_in(12),
            1 => writer.rng.one_in(u64::from(window)),
            2 => writer.rng.one_in(3),
            3 => true,
            _ => day == next,
        };
        if marked {
            next = match writer.rng.below(8) {
                0 => day + 1,
                1 => day + 1 + writer.rng.below(10) as u16,
                2 => day + window,
                3 | 4 => day + window + 1,
                5 => day + window + 2,
                _ => day + (window - 1).max(1),
            };
        }
        // A day with all kinds of messages may be marked too, and so fill a gap.
        let rarely = if pattern == 4 { 150 } else { 40 };
        if pattern != 3 && writer.rng.one_in(rarely) {
            writer.whole_day(2, 8);
        } else {
            writer.plain_day(marked);
        }
    }
    if over {
        writer.year_is_over();
    }
    if writer.rng.one_in(3) {
        writer.stop();
    }
    writer.script("long")
}

/// To each state of a session, and a cause to stop there.
fn stops(mut writer: Writer, groups: usize) -> Script {
    match writer.rng.below(6) {
        0 => {}
        1 => {
            let form = writer.damaged_rule();
            writer.frame(b'R', &form);
        }
        2 => {
            let form = writer.any_rule();
            writer.frame(b'R', &form);
        }
        3 => {
            let form = writer.any_rule();
            writer.frame(b'R', &form);
            let form = writer.damaged_opening(groups);
            writer.frame(b'O', &form);
        }
        4 => writer.begin(groups, 0),
        _ => {
            writer.begin(groups, 1);
            writer.submit(4);
            writer.frame(b'A', &[]);
        }
    }
    if !writer.stopped {
        writer.stop();
    }
    writer.script("stops")
}

/// Many faulty rule and opening forms, then a day.
fn opening(mut writer: Writer, groups: usize) -> Script {
    let damaged = writer.rng.within(2, 12);
    writer.begin(groups, damaged);
    writer.whole_day(1, 6);
    writer.script("opening")
}

/// One group uses up all versions of a day.
fn versions(mut writer: Writer) -> Script {
    writer.begin(2, 0);
    let mut form = writer.opening_form(2);
    if writer.groups.iter().all(|group| group.metered) {
        // No group may send a message without series: begin again with one that may.
        writer = Writer::new(Rng::new(writer.rng.bits()), 8);
        writer.scale = 200;
        let rule = writer.any_rule();
        writer.frame(b'R', &rule);
        form[2] = 0;
        form[3..11].fill(0);
        writer.frame(b'O', &form);
    }
    let group = writer.groups.iter().position(|group| !group.metered).unwrap_or(0);
    let mut message = Message {
        count: None,
        quarters: QUARTERS as u8,
        group: group as u16 + 1,
        version: 0,
        day: 1,
        series: Vec::new(),
        length: None,
    };
    for version in 1..=u16::MAX {
        message.version = version;
        writer.frame(b'S', &message.bytes());
    }
    for version in [0, 1, 2, 255, 256, u16::MAX] {
        message.version = version;
        writer.frame(b'S', &message.bytes());
    }
    writer.whole_day(3, 4);
    writer.script("versions")
}

/// Arbitrary bytes of a seed: random ones, random bodies, and lawful sessions that were
/// changed at random.
pub fn garbled(seed: u64, inquiry: bool) -> Script {
    let mut rng = Rng::new(!seed);
    let most = if inquiry { MAX_GROUPS } else { 8 };
    let asked = if inquiry { quarters(&mut rng) } else { Vec::new() };
    let script = match rng.below(20) {
        0..3 => random_bytes(rng),
        3..8 => mangled(rng, inquiry),
        8..10 => swapped(rng, inquiry),
        10..15 => random_bodies(rng, most),
        _ => changed_bodies(rng, most),
    };
    Script { quarters: asked, ..script }
}

/// Random bytes, now and then behind a lawful beginning.
fn random_bytes(rng: Rng) -> Script {
    let mut writer = Writer::new(rng, 8);
    writer.scale = 1_000;
    match writer.rng.below(3) {
        0 => {}
        1 => writer.begin(2, 0),
        _ => drop(writer.frame(b'R', &[1, 0, 30])),
    }
    let length = writer.rng.index(3_000);
    for _ in 0..length {
        let byte = writer.rng.bits() as u8;
        writer.frames.push(byte);
    }
    writer.script("random bytes")
}

/// A written session with bytes anywhere changed, inserted or removed.
fn mangled(mut rng: Rng, inquiry: bool) -> Script {
    let mut frames = script(rng.bits(), inquiry).frames;
    frames.truncate(60_000);
    for _ in 0..rng.within(1, 4) {
        if frames.is_empty() {
            break;
        }
        let at = rng.index(frames.len());
        match rng.below(4) {
            0 => frames.insert(at, rng.bits() as u8),
            1 => drop(frames.remove(at)),
            2 => frames[at] = rng.bits() as u8,
            _ => frames[at] ^= 1 << rng.index(8),
        }
    }
    Script { shape: "changed anywhere", frames, quarters: Vec::new() }
}

/// A written session whose frames behind the first two were swapped, doubled or left out.
fn swapped(mut rng: Rng, inquiry: bool) -> Script {
    let whole = script(rng.bits(), inquiry).frames;
    let mut rest = &whole[..];
    let mut frames = Vec::new();
    while let [_, a, b, c, d, ..] = *rest {
        let length = 5 + u32::from_be_bytes([a, b, c, d]) as usize;
        if length > rest.len() {
            break;
        }
        frames.push(&rest[..length]);
        rest = &rest[length..];
    }
    let first = frames.iter().position(|frame| frame[0] == b'S').unwrap_or(0);
    for _ in 0..rng.within(1, 30) {
        if frames.len() < first + 2 {
            break;
        }
        let (a, b) = (rng.within(first, frames.len() - 1), rng.within(first, frames.len() - 1));
        match rng.below(3) {
            0 => frames.swap(a, b),
            1 => frames.insert(a, frames[b]),
            _ => drop(frames.remove(a)),
        }
    }
    Script { shape: "swapped", frames: frames.concat(), quarters: Vec::new() }
}

/// Random bodies behind lawful letters, with lengths that may be right.
fn random_bodies(rng: Rng, most: usize) -> Script {
    let mut writer = Writer::new(rng, most);
    writer.scale = 1_000;
    let random = |rng: &mut Rng, length: usize| -> Vec<u8> {
        (0..length).map(|_| rng.bits() as u8).collect()
    };
    for _ in 0..100 {
        let length = writer.rng.pick(&[0, 1, 2, 3, 3, 3, 4, 9]);
        let mut body = random(&mut writer.rng, length);
        if length > 1 && writer.rng.one_in(2) {
            (body[0], body[1]) = (body[0] & 3, body[1] & 1);
        }
        if writer.frame(b'R', &body) {
            break;
        }
    }
    if !writer.rule {
        let form = writer.any_rule();
        writer.frame(b'R', &form);
    }
    for _ in 0..200 {
        let groups = writer.rng.index(most + 1) as u8;
        let rows = writer.rng.index(12) as u8;
        let right = 2 + 21 * usize::from(groups) + 8 * usize::from(rows);
        let length = writer.rng.pick(&[0, 1, 2, 50, right, right, right]);
        let mut body = random(&mut writer.rng, length);
        for (byte, size) in body.iter_mut().zip([groups, rows]) {
            *byte = size;
        }
        // Bytes of small figures, so that some rows are lawful.
        if writer.rng.one_in(2) {
            body.iter_mut().skip(2).for_each(|byte| *byte &= 1);
        }
        writer.frame(b'O', &body);
    }
    if writer.groups.is_empty() {
        let groups = writer.rng.within(2, most);
        let form = writer.opening_form(groups);
        writer.frame(b'O', &form);
    }
    let groups = writer.groups.len();
    for _ in 0..2_000 {
        let count = writer.rng.pick(&[0, 0, 0, 0, 1, 1, 2]);
        let length = writer.rng.index(24);
        let body = match writer.rng.below(16) {
            0 => {
                writer.frame(b'A', &[]);
                continue;
            }
            1 => {
                let mut body = random(&mut writer.rng, length);
                body.first_mut().into_iter().for_each(|byte| *byte = groups as u8);
                writer.frame(b'C', &body);
                continue;
            }
            2 if writer.rng.one_in(4) => {
                let mut body = vec![groups as u8, QUARTERS as u8];
                let mask = writer.rng.pick(&[0, 7, 0xFF]);
                let numbers = QUARTERS * (groups + 2);
                for _ in 0..numbers {
                    let number = (writer.rng.bits() as u32 & 0x0F0F) as i32 - 0x0700;
                    let wild = (writer.rng.bits() as u32 & mask) == 0xFF;
                    body.extend(if wild { i32::MIN } else { number }.to_be_bytes());
                }
                writer.frame(b'C', &body);
                continue;
            }
            3 | 4 => random(&mut writer.rng, length),
            _ => {
                let mut body = random(&mut writer.rng, 8 + 386 * count);
                (body[0], body[1]) = (count as u8, QUARTERS as u8);
                body[2..8].iter_mut().for_each(|byte| *byte &= 3);
                if writer.rng.one_in(2) {
                    let group = writer.rng.index(groups);
                    body[2..4].copy_from_slice(&(group as u16 + 1).to_be_bytes());
                    body[4..6].copy_from_slice(&(writer.versions[group] + 1).to_be_bytes());
                    body[6..8].copy_from_slice(&writer.day.to_be_bytes());
                }
                let heads = 8 + 2 * count;
                body[8..heads].iter_mut().for_each(|byte| *byte &= 7);
                if writer.rng.one_in(2) {
                    let bytes = body[heads..].as_chunks_mut::<4>().0;
                    bytes.iter_mut().for_each(|four| *four = [0, four[1] & 0x7F, four[2], four[3]]);
                }
                body
            }
        };
        writer.frame(b'S', &body);
    }
    writer.script("random bodies")
}

/// A lawful session in which each frame comes behind several copies whose bodies were changed.
fn changed_bodies(rng: Rng, most: usize) -> Script {
    let mut writer = Writer::new(rng, most);
    writer.scale = writer.rng.pick(&[3, 1_000, MAX_POWER]);
    writer.sparse = 8;
    let groups = writer.rng.pick(&[2, 2, 2, 3, 4, most]);
    writer.begin(groups, 6);
    let mut written = 0;
    while written < 1_000 && !writer.stopped && writer.phase < 3 {
        let (letter, body) = match writer.rng.below(6) {
            0 if writer.phase < 2 => (b'A', Vec::new()),
            0 | 1 if writer.phase == 2 => (b'C', writer.closing_form()),
            _ => {
                let group = writer.rng.index(groups);
                (b'S', writer.message(group).bytes())
            }
        };
        if letter != b'A' {
            for _ in 0..writer.rng.within(2, 8) {
                let mut body = body.clone();
                for _ in 0..writer.rng.within(1, 3) {
                    let front = writer.rng.one_in(2);
                    let end = if front { body.len().min(16) } else { body.len() };
                    if end == 0 {
                        break;
                    }
                    let at = writer.rng.index(end);
                    match writer.rng.below(8) {
                        0 => body.insert(at, writer.rng.bits() as u8),
                        1 => drop(body.remove(at)),
                        2 => body[at] = writer.rng.bits() as u8,
                        _ => body[at] ^= 1 << writer.rng.index(8),
                    }
                }
                body.truncate(MAX_BODY);
                // Now and then behind the letter of another form.
                let other = if letter == b'S' { b'C' } else { b'S' };
                let letter = if writer.rng.one_in(30) { other } else { letter };
                writer.frame(letter, &body);
                written += 1;
            }
        }
        writer.frame(letter, &body);
        written += 1;
    }
    writer.script("changed bodies")
}
