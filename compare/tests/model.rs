//! Random sessions of a book against a model: the documents once more, as slowly and as
//! plainly as they read. No sheet, no flags, no phases by type; offsets as FORMS gives them,
//! numbers of 128 bits, every quantity from its formula each time it is needed.

mod common;

use std::collections::{BTreeMap, BTreeSet};

use common::*;
use compare::{Book, Layout, Row, Rule};

const Q: i128 = 96;

fn unsigned(bytes: &[u8], at: i128, size: i128) -> i128 {
    (at..at + size).fold(0, |number, i| number * 256 + i128::from(bytes[i as usize]))
}

fn signed(bytes: &[u8], at: i128) -> i128 {
    let number = unsigned(bytes, at, 4);
    if number >= 1 << 31 { number - (1 << 32) } else { number }
}

/// All that a book means, counted from 1.
struct Model {
    rolling: bool,
    w: i128,
    g: i128,
    /// Flag, PRODmax, pump depth, limits 1 to 3.
    groups: Vec<[i128; 6]>,
    tariff: Vec<(i128, i128)>,
    day: i128,
    /// 1 ahead, 2 near, 3 after, 4 the year is over.
    phase: usize,
    versions: BTreeMap<i128, i128>,
    /// (group, kind, counter, quarter hour) to value, for what was sent today.
    sent: BTreeMap<(i128, i128, i128, i128), i128>,
    heads: BTreeSet<(i128, i128, i128)>,
    /// (group, day), marked.
    marks: BTreeSet<(i128, i128)>,
    /// (group, day) to E, of days past their cut-off.
    excesses: BTreeMap<(i128, i128), i128>,
    /// (group, day) to balance amount, of closed days.
    balances: BTreeMap<(i128, i128), i128>,
}

impl Model {
    fn new(rule: &[u8], form: &[u8]) -> Model {
        let (g, k) = (i128::from(form[0]), i128::from(form[1]));
        let group = |i: i128| {
            let row = 2 + 21 * (i - 1);
            let mut figures = [unsigned(form, row, 1); 6];
            (1..6).for_each(|f| figures[f] = unsigned(form, row + 4 * f as i128 - 3, 4));
            figures
        };
        let tariff = |r: i128| {
            let row = 2 + 21 * g + 8 * (r - 1);
            (unsigned(form, row, 4), unsigned(form, row + 4, 4))
        };
        Model {
            rolling: rule[0] == 1,
            w: unsigned(rule, 1, 2),
            g,
            groups: (1..=g).map(group).collect(),
            tariff: (1..=k).map(tariff).collect(),
            day: 1,
            phase: 1,
            versions: BTreeMap::new(),
            sent: BTreeMap::new(),
            heads: BTreeSet::new(),
            marks: BTreeSet::new(),
            excesses: BTreeMap::new(),
            balances: BTreeMap::new(),
        }
    }

    fn figures(&self, a: i128) -> [i128; 6] {
        self.groups[a as usize - 1]
    }

    fn metered(&self, a: i128) -> bool {
        self.figures(a)[0] == 1
    }

    fn others(&self, a: i128) -> impl Iterator<Item = i128> {
        (1..=self.g).filter(move |&b| b != a)
    }

    fn value(&self, a: i128, kind: i128, counter: i128, t: i128) -> i128 {
        self.sent.get(&(a, kind, counter, t)).copied().unwrap_or(0)
    }

    fn confirmed(&self, a: i128, b: i128, t: i128) -> i128 {
        self.value(a, 1, b, t).min(self.value(b, 2, a, t))
    }

    fn net(&self, a: i128, t: i128) -> i128 {
        self.others(a).map(|b| self.confirmed(b, a, t) - self.confirmed(a, b, t)).sum()
    }

    fn stated_check(&self, a: i128, t: i128) -> i128 {
        let trades: i128 =
            self.others(a).map(|b| self.value(a, 2, b, t) - self.value(a, 1, b, t)).sum();
        trades - self.value(a, 3, 0, t)
    }

    fn open(&self, a: i128, check: i128) -> i128 {
        let [_, prod_max, pump_depth, ..] = self.figures(a);
        match check {
            check if check < -prod_max => check + prod_max,
            check if check > pump_depth => check - pump_depth,
            _ => 0,
        }
    }

    fn stated_open(&self, a: i128, t: i128) -> i128 {
        self.open(a, self.stated_check(a, t))
    }

    fn confirmed_open(&self, a: i128, t: i128) -> i128 {
        self.open(a, self.net(a, t) - self.value(a, 3, 0, t))
    }

    fn stage(&self, a: i128, day: i128) -> i128 {
        let marked = |d: i128| self.marks.contains(&(a, d));
        let counts = |d: i128| {
            if self.rolling {
                day - self.w < d
            } else {
                // No W consecutive unmarked days wholly between d + 1 and the day.
                !(d + 1..=day - self.w + 1).any(|from| (from..from + self.w).all(|x| !marked(x)))
            }
        };
        (1..=day).filter(|&d| marked(d) && counts(d)).count() as i128
    }

    fn penalty(&self, a: i128, day: i128) -> i128 {
        let e = self.excesses[&(a, day)];
        let row = self.stage(a, day).min(self.tariff.len() as i128 - 1);
        let (fee, rate) = self.tariff[row as usize];
        if e > 0 { fee + (rate * e).div_euclid(4_000) } else { 0 }
    }

    fn submit(&mut self, m: &[u8]) -> String {
        self.try_submit(m).unwrap_or_else(|refusal| refusal)
    }

    fn try_submit(&mut self, m: &[u8]) -> Result<String, String> {
        let fail = |test: bool, refusal: &str| if test { Err(refusal.to_string()) } else { Ok(()) };
        fail(m.len() < 8, "M 1 0 0")?;
        let n = unsigned(m, 0, 1);
        fail(unsigned(m, 1, 1) != Q, "M 2 0 0")?;
        fail(m.len() as i128 != 8 + 386 * n, "M 3 0 0")?;
        fail(self.phase == 4, "B 4 0 0")?;
        let (a, version, day) = (unsigned(m, 2, 2), unsigned(m, 4, 2), unsigned(m, 6, 2));
        fail(a < 1 || a > self.g, "M 6 0 0")?;
        fail(day != self.day, "M 7 0 0")?;
        fail(version != self.versions.get(&a).copied().unwrap_or(0) + 1, "M 8 0 0")?;
        let head = |i: i128| (unsigned(m, 8 + 2 * (i - 1), 1), unsigned(m, 9 + 2 * (i - 1), 1));
        let value = |i: i128, t: i128| unsigned(m, 8 + 2 * n + 4 * ((i - 1) * Q + (t - 1)), 4);
        for i in 1..=n {
            let (kind, counter) = head(i);
            let lawful = match kind {
                1 | 2 => counter >= 1 && counter <= self.g && counter != a,
                3..=5 => counter == 0,
                _ => false,
            };
            fail(!lawful, &format!("S 9 {i} 0"))?;
        }
        for i in 1..=n {
            fail((1..i).any(|earlier| head(earlier) == head(i)), &format!("S 10 {i} 0"))?;
        }
        let has = |kind: i128, counter: i128| (1..=n).any(|i| head(i) == (kind, counter));
        let left_out = self.heads.iter().any(|&(b, kind, counter)| b == a && !has(kind, counter));
        let forecasts = has(3, 0) && has(4, 0) && has(5, 0);
        fail(left_out || self.metered(a) && !forecasts, "M 11 0 0")?;
        let places = || (1..=n).flat_map(|i| (1..=Q).map(move |t| (i, t)));
        for (i, t) in places() {
            fail(value(i, t) > 10_000_000, &format!("I 12 {i} {t}"))?;
        }
        for (i, t) in places() {
            let forecast = head(i).0 >= 3 && value(i, t) > 0;
            fail(!self.metered(a) && forecast, &format!("I 13 {i} {t}"))?;
        }
        for (i, t) in places() {
            let opposed = |j: i128| head(j) == (2, head(i).1) && value(j, t) > 0;
            let out = head(i).0 == 1 && value(i, t) > 0;
            fail(out && (1..=n).any(opposed), &format!("I 14 {i} {t}"))?;
        }
        let sum = |kind: i128, t: i128| -> i128 {
            (1..=n).filter(|&i| head(i).0 == kind).map(|i| value(i, t)).sum()
        };
        let new_open = |t: i128| self.open(a, sum(2, t) - sum(1, t) - sum(3, t));
        let [.., limit3] = self.figures(a);
        for t in 1..=Q {
            let farther = new_open(t).abs() > self.stated_open(a, t).abs();
            let grows =
                self.phase == 3 && !self.metered(a) && new_open(t).abs() > limit3 && farther;
            fail(grows, &format!("I 15 0 {t}"))?;
        }

        let limit = self.figures(a)[2 + self.phase];
        let beyond: Vec<i128> = (1..=Q).filter(|&t| new_open(t).abs() > limit).collect();
        self.versions.insert(a, version);
        for i in 1..=n {
            let (kind, counter) = head(i);
            self.heads.insert((a, kind, counter));
            self.sent.extend((1..=Q).map(|t| ((a, kind, counter, t), value(i, t))));
        }
        Ok(format!("OK {} {}", beyond.len(), beyond.first().unwrap_or(&0)))
    }

    fn advance(&mut self) -> String {
        if self.phase >= 3 {
            return "B 4 0 0".into();
        }
        self.phase += 1;
        if self.phase == 3 {
            for a in 1..=self.g {
                let [.., limit3] = self.figures(a);
                let e = (1..=Q).map(|t| (self.confirmed_open(a, t).abs() - limit3).max(0)).sum();
                self.excesses.insert((a, self.day), e);
                if e > 0 {
                    self.marks.insert((a, self.day));
                }
            }
        }
        "OK".into()
    }

    fn close(&mut self, c: &[u8]) -> String {
        if c.len() < 2 {
            return "M 1 0 0".into();
        }
        if unsigned(c, 0, 1) != self.g || unsigned(c, 1, 1) != Q {
            return "M 2 0 0".into();
        }
        if c.len() as i128 != 2 + 384 * (self.g + 2) {
            return "M 3 0 0".into();
        }
        if self.phase != 3 {
            return "B 4 0 0".into();
        }
        let number = |i: i128, t: i128| signed(c, 2 + 4 * ((i - 1) * Q + (t - 1)));
        for i in 1..=self.g + 2 {
            let bound = if i <= self.g { 10_000_000 } else { 1_000_000 };
            for t in 1..=Q {
                if number(i, t) < -bound || number(i, t) > bound {
                    return format!("I 12 {i} {t}");
                }
            }
        }
        let mut lines = String::new();
        for a in 1..=self.g {
            let mut s = 0;
            for t in 1..=Q {
                let imbalance = self.net(a, t) + number(a, t);
                let price =
                    if imbalance < 0 { number(self.g + 2, t) } else { number(self.g + 1, t) };
                s -= imbalance * price;
            }
            // To the nearest cent, halves away from zero.
            let (cents, rest) = (s / 4_000, s % 4_000);
            let amount = cents
                + if rest >= 2_000 {
                    1
                } else if rest <= -2_000 {
                    -1
                } else {
                    0
                };
            self.balances.insert((a, self.day), amount);
            let mark = i32::from(self.marks.contains(&(a, self.day)));
            let (stage, penalty) = (self.stage(a, self.day), self.penalty(a, self.day));
            lines += &format!("{} {a} {mark} {stage} {penalty} {amount}\n", self.day);
        }
        self.versions.clear();
        self.sent.clear();
        self.heads.clear();
        if self.day == 366 {
            self.phase = 4;
        } else {
            (self.day, self.phase) = (self.day + 1, 1);
        }
        lines
    }

    fn total(&self, a: i128) -> (i128, i128) {
        let days = |numbers: &BTreeMap<(i128, i128), i128>| -> Vec<i128> {
            numbers.keys().filter(|key| key.0 == a).map(|key| key.1).collect()
        };
        let penalties = days(&self.excesses).iter().map(|&day| self.penalty(a, day)).sum();
        let balance = days(&self.balances).iter().map(|&day| self.balances[&(a, day)]).sum();
        (penalties, balance)
    }
}

/// The program's line, without REFUSED.
fn line<T>(answer: Result<T, compare::Refusal>, accepted: impl Fn(T) -> String) -> String {
    answer.map_or_else(|refusal| refusal.to_string(), accepted)
}

/// Powers of a day: some steps, now and then an edge.
fn powers(random: &mut Random, scale: u64) -> [u32; 96] {
    let mut day = [0; 96];
    for _ in 0..=random.below(4) {
        let from = random.below(96) as usize;
        let to = from + random.below(97 - from as u64) as usize;
        let power = random.below(scale + 1) as u32;
        day[from..to].fill(power);
    }
    if random.one_in(200) {
        day = [10_000_000; 96];
    }
    if random.one_in(300) {
        day[random.below(96) as usize] = random.pick(&[10_000_001, 1 << 31, u32::MAX]);
    }
    day
}

/// A message that is near to a lawful one.
fn random_message(random: &mut Random, model: &Model, scale: u64) -> Vec<u8> {
    let a = 1 + random.below(model.g as u64) as i128;
    let version = model.versions.get(&a).copied().unwrap_or(0) + 1;
    let mut heads: Vec<(u8, u8)> = (model.heads.iter())
        .filter(|head| head.0 == a)
        .map(|&(_, kind, counter)| (kind as u8, counter as u8))
        .collect();
    for other in model.others(a) {
        for kind in [1, 2] {
            if random.one_in(4) {
                heads.push((kind, other as u8));
            }
        }
    }
    if model.metered(a) || random.one_in(20) {
        heads.extend([(3, 0), (4, 0), (5, 0)]);
    }
    heads.sort();
    heads.dedup();
    (1..heads.len()).for_each(|i| heads.swap(i, random.below(i as u64 + 1) as usize));
    let opposed = random.one_in(20);
    let mut series: Vec<Series> = Vec::new();
    for (kind, counter) in heads {
        let mut values = powers(random, scale);
        let other = series.iter().find(|s| kind < 3 && s.0 < 3 && s.1 == counter);
        if let (Some((.., other)), false) = (other, opposed) {
            (0..96).filter(|&t| other[t] > 0).for_each(|t| values[t] = 0);
        }
        if kind >= 3 && !model.metered(a) && !random.one_in(30) {
            values = [0; 96];
        }
        series.push((kind, counter, values));
    }
    if random.one_in(40) && !series.is_empty() {
        let repeated = random.pick(&series);
        series.push(repeated);
    }
    if random.one_in(40) && !series.is_empty() {
        series.remove(random.below(series.len() as u64) as usize);
    }
    if random.one_in(60) {
        let head = (random.below(8) as u8, random.below(model.g as u64 + 2) as u8);
        series.push((head.0, head.1, powers(random, scale)));
    }
    let mut form = message(a as u16, version as u16, model.day as u16, &series);
    if random.one_in(25) {
        let at = random.below(form.len().min(14) as u64) as usize;
        form[at] = random.below(256) as u8;
    }
    if random.one_in(60) {
        form.truncate(random.below(form.len() as u64 + 1) as usize);
    }
    form
}

fn random_closing(random: &mut Random, groups: usize, scale: u64) -> Vec<u8> {
    let mut numbers = |bound: u64| -> [i32; 96] {
        let mut numbers = [0; 96];
        for number in &mut numbers {
            *number = random.below(2 * bound + 1) as i32 - bound as i32;
        }
        numbers
    };
    let feed_ins: Vec<[i32; 96]> = (0..groups).map(|_| numbers(scale)).collect();
    let (long, short) = (numbers(1_000_000), numbers(1_000_000));
    let mut form = closing(&feed_ins, long, short);
    if random.one_in(10) {
        let at = random.below(form.len() as u64) as usize;
        form[at] = random.pick(&[0x80, 0x7F, 0xFF]);
    }
    if random.one_in(30) {
        form.truncate(random.below(form.len() as u64) as usize);
    }
    form
}

fn random_session(random: &mut Random, days: i128) -> BTreeMap<String, usize> {
    let g = if random.one_in(6) { 16 } else { 2 + random.below(4) as usize };
    let scale = random.pick(&[3, 200, 10_000_000]);
    let groups: Vec<[u32; 6]> = (0..g)
        .map(|_| {
            let mut row = [0; 6];
            row.iter_mut().for_each(|power| *power = random.below(scale + 1) as u32);
            row[0] = random.below(2) as u32;
            if row[0] == 0 {
                (row[1], row[2]) = (0, 0);
            }
            row
        })
        .collect();
    let mut tariff = vec![(random.below(3) as u32, random.below(5_000) as u32)];
    for _ in 0..random.below(10) {
        let (fee, rate) = tariff[tariff.len() - 1];
        tariff.push((fee + random.below(9_000) as u32, rate + random.below(9_000) as u32));
    }
    let rule = [1 + random.below(2) as u8, 0, random.pick(&[1, 2, 3, 5, 30])];
    let form = opening(&groups, &tariff);
    let mut model = Model::new(&rule, &form);
    let layout = Layout::new(g);
    let mut book = Book::empty();
    let mut sheet = vec![0; layout.words()];
    let mut rows = vec![Row::default(); g];
    book.open(Rule::read(&rule).unwrap(), &form, &mut sheet).unwrap();

    let mut seen = BTreeMap::new();
    while model.day <= days && model.phase < 4 {
        let before = (book.clone(), sheet.clone(), rows.clone());
        let (expected, answer) = match random.below(10 + 4 * g as u64) {
            0..=3 => (model.advance(), line(book.advance(&sheet), |()| "OK".into())),
            4..=5 => {
                let form = random_closing(random, g, scale);
                let answer = book.close(&form, &mut sheet, &mut rows);
                let print = |row: &Row| {
                    let Row { day, group, mark, stage, penalty, balance } = *row;
                    format!("{day} {group} {} {stage} {penalty} {balance}\n", i32::from(mark))
                };
                (model.close(&form), line(answer, |()| rows.iter().map(print).collect()))
            }
            _ => {
                let form = random_message(random, &model, scale);
                let answer = book.submit(&form, &mut sheet);
                let print = |n: compare::Notice| format!("OK {} {}", n.count, n.first.unwrap_or(0));
                (model.submit(&form), line(answer, print))
            }
        };
        assert_eq!(answer, expected);
        let refused =
            expected.starts_with(|c: char| c.is_ascii_uppercase()) && !expected.starts_with("OK");
        if refused {
            assert!(
                before == (book.clone(), sheet.clone(), rows.clone()),
                "{answer} changed something"
            );
        }
        let number = expected.split(' ').take(2).collect::<Vec<_>>().join(" ");
        *seen.entry(if refused { number } else { "accepted".into() }).or_insert(0) += 1;

        // The queries, now and then all of them.
        for a in 1..=g {
            let total = book.total(a).unwrap();
            assert_eq!((total.penalties.into(), total.balance.into()), model.total(a as i128));
        }
        if model.phase < 4 && random.one_in(8) {
            let t = 1 + random.below(96) as usize;
            for a in 1..=g {
                let (i, j) = (a as i128, t as i128);
                let position = book.position(a, t, &sheet).unwrap();
                assert_eq!(i128::from(position.stated), model.stated_open(i, j));
                assert_eq!(i128::from(position.confirmed), model.confirmed_open(i, j));
                assert_eq!(i128::from(position.net), model.net(i, j));
                for b in model.others(i) {
                    let trade = book.trade(a, b as usize, t, &sheet).unwrap();
                    assert_eq!(i128::from(trade), model.confirmed(i, b, j));
                }
            }
            // The whole sheet: what was sent, and zero elsewhere.
            for a in 1..=g {
                for s in 1..=layout.slots() {
                    let (kind, counter) = match s {
                        s if s <= g => (1, s),
                        s if s <= 2 * g => (2, s - g),
                        s => (s - 2 * g + 2, 0),
                    };
                    let word = sheet[((a - 1) * (2 * g + 3) + (s - 1)) * 96 + (t - 1)];
                    let value = model.value(a as i128, kind as i128, counter as i128, t as i128);
                    assert_eq!(i128::from(word), value);
                }
            }
        }
        let (a, day) = (1 + random.below(g as u64), random.below(model.day as u64 + 2) as i128);
        let standing =
            line(book.standing(a as usize, day as u16), |s| format!("{} {}", s.mark, s.stage));
        let past = model.excesses.contains_key(&(a.into(), day));
        let mark = model.marks.contains(&(a.into(), day));
        let expected =
            if past { format!("{mark} {}", model.stage(a.into(), day)) } else { "M 7 0 0".into() };
        assert_eq!(standing, expected);
    }
    seen
}

#[test]
fn random_sessions_are_as_the_model() {
    let sessions: u64 = std::env::var("SESSIONS").map_or(30, |number| number.parse().unwrap());
    let mut random = Random(0x2545_F491_4F6C_DD1D);
    let mut seen: BTreeMap<String, usize> = BTreeMap::new();
    for _ in 0..sessions {
        let days = 1 + random.below(8) as i128;
        for (answer, times) in random_session(&mut random, days) {
            *seen.entry(answer).or_insert(0) += times;
        }
    }
    println!("{seen:?}");
    for refusal in [
        "M 1", "M 2", "M 3", "B 4", "M 6", "M 7", "M 8", "S 9", "S 10", "M 11", "I 12", "I 13",
        "I 14", "I 15",
    ] {
        assert!(seen.contains_key(refusal), "no session reached {refusal}");
    }
}
