//! The book and its calls.

use crate::forms::{Closing, Opening};
use crate::message::{self, Message, Values};
use crate::settle::{self, Figures, TariffRow, excess};
use crate::sheet::{EveryWord, Layout, SheetTest, Slot, Today};
use crate::stage::{Marks, Rule};
use crate::{DAYS, MAX_GROUPS, MAX_ROWS, QUARTERS, Refusal, first_quarter};

/// A place for a book: empty, or with a book in it.
#[derive(Clone, Debug)]
pub struct Book<T = EveryWord> {
    ledger: Option<Ledger>,
    /// Where submit decodes a message; no part of the book.
    values: Values,
    /// What every call that takes the sheet asks of its words; no part of the book.
    test: T,
}

impl<T> PartialEq for Book<T> {
    fn eq(&self, other: &Book<T>) -> bool {
        self.ledger == other.ledger
    }
}

impl<T> Eq for Book<T> {}

/// What submit answers.
#[derive(Clone, Copy, Debug, PartialEq, Eq)]
pub struct Notice {
    /// Quarter hours with a stated open position beyond the limit of the phase.
    pub count: usize,
    /// The first of them, from 1.
    pub first: Option<usize>,
}

/// What position answers.
#[derive(Clone, Copy, Debug, PartialEq, Eq)]
pub struct Position {
    /// The stated open position.
    pub stated: i32,
    /// The confirmed open position.
    pub confirmed: i32,
    /// The confirmed net purchases.
    pub net: i32,
}

/// What standing answers.
#[derive(Clone, Copy, Debug, Default, PartialEq, Eq)]
pub struct Standing {
    pub mark: bool,
    pub stage: u16,
}

/// What total answers, in cents.
#[derive(Clone, Copy, Debug, Default, PartialEq, Eq)]
pub struct Total {
    pub penalties: i64,
    pub balance: i64,
}

/// A result row of close.
#[derive(Clone, Copy, Debug, Default, PartialEq, Eq)]
pub struct Row {
    pub day: u16,
    pub group: u16,
    pub mark: bool,
    pub stage: u16,
    pub penalty: i64,
    pub balance: i64,
}

#[derive(Clone, Copy, Debug, PartialEq, Eq)]
enum Phase {
    Ahead,
    Near,
    After,
    /// After the 366th close.
    YearOver,
}

/// All that a book keeps.
#[derive(Clone, Debug, PartialEq, Eq)]
struct Ledger {
    rule: Rule,
    layout: Layout,
    figures: [Figures; MAX_GROUPS],
    tariff: [TariffRow; MAX_ROWS],
    rows: usize,
    /// The current day; 366 once the year is over.
    day: u16,
    phase: Phase,
    /// For each group its last accepted version of the day, 0 for none.
    versions: [u16; MAX_GROUPS],
    /// For each group the set of its slots that were sent today.
    sent: [u64; MAX_GROUPS],
    marks: [Marks; MAX_GROUPS],
    /// The penalties of the current day, from its cut-off on.
    penalties: [i64; MAX_GROUPS],
    totals: [Total; MAX_GROUPS],
}

impl Default for Book {
    fn default() -> Book {
        Book::empty()
    }
}

impl Book {
    /// An empty place, for sheets that anybody may have written.
    pub const fn empty() -> Book {
        Book::with_test(EveryWord)
    }
}

impl<T: SheetTest> Book<T> {
    /// An empty place, whose calls ask of the words of a sheet what `test` does.
    pub const fn with_test(test: T) -> Book<T> {
        Book { ledger: None, values: Values::NONE, test }
    }

    /// Opens a book under a rule, in an empty or a used place.
    pub fn open(&mut self, rule: Rule, form: &[u8], sheet: &mut [u32]) -> Result<(), Refusal> {
        let form = Opening::read(form)?;
        let layout = Layout::new(form.groups());
        layout.slots_of(sheet, self.test)?;
        let figures = form.figures()?;
        let (tariff, rows) = form.tariff()?;

        sheet.fill(0);
        self.ledger = Some(Ledger {
            rule,
            layout,
            figures,
            tariff,
            rows,
            day: 1,
            phase: Phase::Ahead,
            versions: [0; MAX_GROUPS],
            sent: [0; MAX_GROUPS],
            marks: [Marks::NONE; MAX_GROUPS],
            penalties: [0; MAX_GROUPS],
            totals: [Total::default(); MAX_GROUPS],
        });
        Ok(())
    }

    /// Takes a message of one group.
    pub fn submit(&mut self, form: &[u8], sheet: &mut [u32]) -> Result<Notice, Refusal> {
        let ledger = self.ledger.as_mut().ok_or(Refusal::State)?;
        let layout = ledger.layout;
        let message = Message::read(form)?;
        let limit = ledger.phase.limit().ok_or(Refusal::State)?;
        let words = layout.slots_of_mut(sheet, self.test)?;
        let group = ledger.group(message.group.into())?;
        if message.day != ledger.day {
            return Err(Refusal::Day);
        }
        if ledger.versions[group].checked_add(1) != Some(message.version) {
            return Err(Refusal::Version);
        }
        let figures = &ledger.figures[group];
        let slots = message.slots(layout, group)?;
        let needed = if figures.metered { layout.forecasts() } else { 0 };
        if (needed | ledger.sent[group]) & !slots.set != 0 {
            return Err(Refusal::Missing);
        }
        let (values, checks) = message.decode(layout, &slots, &mut self.values)?;
        if !figures.metered {
            message::test_forecasts(layout, &slots, values)?;
        }
        message::test_opposed(layout, &slots, values)?;
        let limit = figures.limits[limit];
        let open = |t: usize| figures.open_position(checks[t]);
        if !figures.metered && ledger.phase == Phase::After {
            let last = ledger.today(words).stated_checks(group);
            let grows = |t: usize| {
                let distance = open(t).abs();
                (distance > limit) & (distance > figures.open_position(last[t]).abs())
            };
            if let Some(quarter) = first_quarter(grows) {
                return Err(Refusal::Growing { quarter: quarter + 1 });
            }
        }

        let own = group * layout.slots();
        message::write(&slots, values, &mut words[own..own + layout.slots()]);
        ledger.sent[group] = slots.set;
        ledger.versions[group] = message.version;
        let beyond = |t: usize| excess(open(t), limit) > 0;
        Ok(Notice {
            count: (0..QUARTERS).map(|t| usize::from(beyond(t))).sum(),
            first: first_quarter(beyond).map(|quarter| quarter + 1),
        })
    }

    /// Moves the day to its next phase. The second time is the cut-off.
    pub fn advance(&mut self, sheet: &[u32]) -> Result<(), Refusal> {
        let ledger = self.ledger.as_mut().ok_or(Refusal::State)?;
        let next = match ledger.phase {
            Phase::Ahead => Phase::Near,
            Phase::Near => Phase::After,
            Phase::After | Phase::YearOver => return Err(Refusal::State),
        };
        let words = ledger.layout.slots_of(sheet, self.test)?;
        if next == Phase::After {
            ledger.cut_off(words);
        }
        ledger.phase = next;
        Ok(())
    }

    /// Settles the day and begins the next one.
    pub fn close(
        &mut self,
        form: &[u8],
        sheet: &mut [u32],
        rows: &mut [Row],
    ) -> Result<(), Refusal> {
        let ledger = self.ledger.as_mut().ok_or(Refusal::State)?;
        let form = Closing::read(form, ledger.layout.groups())?;
        if ledger.phase != Phase::After {
            return Err(Refusal::State);
        }
        let words = ledger.layout.slots_of(sheet, self.test)?;
        if rows.len() != ledger.layout.groups() {
            return Err(Refusal::Sheet);
        }
        form.test_values()?;

        let nets = ledger.today(words).nets();
        let (long, short) = (form.long_prices(), form.short_prices());
        for (group, row) in rows.iter_mut().enumerate() {
            let feed_in = form.feed_in(group);
            let sum = (0..QUARTERS)
                .map(|t| settle::balance_of_quarter(nets[group][t] + feed_in[t], long[t], short[t]))
                .sum();
            let balance = settle::balance_amount(sum);
            ledger.totals[group].balance += balance;
            let Standing { mark, stage } = ledger.standing(group, ledger.day);
            *row = Row {
                day: ledger.day,
                group: group as u16 + 1,
                mark,
                stage,
                penalty: ledger.penalties[group],
                balance,
            };
        }
        sheet.fill(0);
        ledger.begin_next_day();
        Ok(())
    }

    /// The positions of a group in a quarter hour of the current day.
    pub fn position(
        &self,
        group: usize,
        quarter: usize,
        sheet: &[u32],
    ) -> Result<Position, Refusal> {
        let ledger = self.ledger()?;
        let today = ledger.asked(sheet, self.test)?;
        let group = ledger.group(group)?;
        let quarter = quarter_of(quarter)?;
        let figures = &ledger.figures[group];
        let net = today.net(group, quarter);
        Ok(Position {
            stated: figures.open_position(today.stated_check(group, quarter)),
            confirmed: figures.open_position(net - today.consumption(group, quarter)),
            net,
        })
    }

    /// The confirmed trade between two groups in a quarter hour of the current day.
    pub fn trade(
        &self,
        from: usize,
        to: usize,
        quarter: usize,
        sheet: &[u32],
    ) -> Result<u32, Refusal> {
        let ledger = self.ledger()?;
        let today = ledger.asked(sheet, self.test)?;
        let (from, to) = (ledger.group(from)?, ledger.group(to)?);
        if from == to {
            return Err(Refusal::Group);
        }
        Ok(today.trade(from, to, quarter_of(quarter)?))
    }

    /// Mark and stage of a group on a day past its cut-off.
    pub fn standing(&self, group: usize, day: u16) -> Result<Standing, Refusal> {
        let ledger = self.ledger()?;
        let group = ledger.group(group)?;
        if !(1..=ledger.days_past_cut_off()).contains(&day) {
            return Err(Refusal::Day);
        }
        Ok(ledger.standing(group, day))
    }

    /// The penalties and the balance of a group so far.
    pub fn total(&self, group: usize) -> Result<Total, Refusal> {
        let ledger = self.ledger()?;
        Ok(ledger.totals[ledger.group(group)?])
    }

    /// How many days are past their cut-off: 1 to this one. 0 without a book.
    pub fn days_past_cut_off(&self) -> u16 {
        self.ledger.as_ref().map_or(0, Ledger::days_past_cut_off)
    }

    fn ledger(&self) -> Result<&Ledger, Refusal> {
        self.ledger.as_ref().ok_or(Refusal::State)
    }
}

impl Phase {
    /// Which of the three limits holds, if there is a current day.
    fn limit(self) -> Option<usize> {
        match self {
            Phase::Ahead => Some(0),
            Phase::Near => Some(1),
            Phase::After => Some(2),
            Phase::YearOver => None,
        }
    }
}

impl Ledger {
    /// A group from its number. Test 6.
    fn group(&self, number: usize) -> Result<usize, Refusal> {
        if (1..=self.layout.groups()).contains(&number) {
            Ok(number - 1)
        } else {
            Err(Refusal::Group)
        }
    }

    /// The series of the current day for a query. Tests 4 and 5.
    fn asked<'a>(&'a self, sheet: &'a [u32], test: impl SheetTest) -> Result<Today<'a>, Refusal> {
        if self.phase == Phase::YearOver {
            return Err(Refusal::State);
        }
        Ok(self.today(self.layout.slots_of(sheet, test)?))
    }

    fn days_past_cut_off(&self) -> u16 {
        match self.phase {
            Phase::Ahead | Phase::Near => self.day - 1,
            Phase::After | Phase::YearOver => self.day,
        }
    }

    fn today<'a>(&'a self, slots: &'a [Slot]) -> Today<'a> {
        Today { layout: self.layout, sent: &self.sent, slots }
    }

    /// Mark and stage of a group on a day whose mark is fixed.
    fn standing(&self, group: usize, day: u16) -> Standing {
        let marks = &self.marks[group];
        Standing { mark: marks.is_marked(day), stage: self.rule.stage(marks, day) }
    }

    /// Fixes mark, stage and penalty of the day for each group.
    fn cut_off(&mut self, words: &[Slot]) {
        let nets = self.today(words).nets();
        for (group, net) in nets.into_iter().enumerate().take(self.layout.groups()) {
            let figures = &self.figures[group];
            let checks = self.today(words).confirmed_checks(group, net);
            let sum: i64 = checks
                .iter()
                .map(|&check| i64::from(excess(figures.open_position(check), figures.limits[2])))
                .sum();
            if sum > 0 {
                self.marks[group].mark(self.day);
            }
            let stage = self.rule.stage(&self.marks[group], self.day);
            let row = settle::row_of_stage(&self.tariff[..self.rows], stage);
            self.penalties[group] = settle::penalty(row, sum);
            self.totals[group].penalties += self.penalties[group];
        }
    }

    /// Begins the next day, or ends the year.
    fn begin_next_day(&mut self) {
        self.sent = [0; MAX_GROUPS];
        self.versions = [0; MAX_GROUPS];
        self.penalties = [0; MAX_GROUPS];
        if self.day < DAYS {
            self.day += 1;
            self.phase = Phase::Ahead;
        } else {
            self.phase = Phase::YearOver;
        }
    }
}

/// A quarter hour of a query from its number. Test 12.
fn quarter_of(number: usize) -> Result<usize, Refusal> {
    if (1..=QUARTERS).contains(&number) { Ok(number - 1) } else { Err(Refusal::NoQuarter) }
}
