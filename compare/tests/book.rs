//! The calls of a book, against the examples and the edges of ACCOUNT and REFUSALS.

mod common;

use common::*;
use compare::{
    Book, Layout, LengthOnly, Notice, Position, Refusal, Row, Rule, SheetTest, Standing, Total,
};

const ROLLING_30: Rule = Rule::Rolling(30);

/// A book with its sheet.
struct Place {
    book: Book,
    sheet: Vec<u32>,
    groups: usize,
}

impl Place {
    fn open(rule: Rule, form: &[u8]) -> Place {
        let groups = usize::from(form[0]);
        // A sheet that holds something: open writes zero.
        let mut place =
            Place { book: Book::empty(), sheet: vec![5; Layout::new(groups).words()], groups };
        place.book.open(rule, form, &mut place.sheet).unwrap();
        assert!(place.sheet.iter().all(|&word| word == 0));
        place
    }

    fn sample() -> Place {
        Place::open(ROLLING_30, &sample_opening())
    }

    /// Submits, and when it is refused, looks that nothing changed.
    fn submit(&mut self, form: &[u8]) -> Result<Notice, Refusal> {
        let before = (self.book.clone(), self.sheet.clone());
        let answer = self.book.submit(form, &mut self.sheet);
        if answer.is_err() {
            assert!(before == (self.book.clone(), self.sheet.clone()));
        }
        answer
    }

    fn advance(&mut self) -> Result<(), Refusal> {
        let before = (self.book.clone(), self.sheet.clone());
        let answer = self.book.advance(&self.sheet);
        if answer.is_err() {
            assert!(before == (self.book.clone(), self.sheet.clone()));
        }
        answer
    }

    fn close(&mut self, form: &[u8]) -> Result<Vec<Row>, Refusal> {
        let mut rows = vec![Row { day: 999, ..Row::default() }; self.groups];
        let before = (self.book.clone(), self.sheet.clone(), rows.clone());
        match self.book.close(form, &mut self.sheet, &mut rows) {
            Ok(()) => {
                assert!(self.sheet.iter().all(|&word| word == 0));
                Ok(rows)
            }
            Err(refusal) => {
                assert!(before == (self.book.clone(), self.sheet.clone(), rows));
                Err(refusal)
            }
        }
    }

    fn position(&self, group: usize, quarter: usize) -> Result<(i32, i32, i32), Refusal> {
        let Position { stated, confirmed, net } =
            self.book.position(group, quarter, &self.sheet)?;
        Ok((stated, confirmed, net))
    }

    fn trade(&self, from: usize, to: usize, quarter: usize) -> Result<u32, Refusal> {
        self.book.trade(from, to, quarter, &self.sheet)
    }

    fn total(&self, group: usize) -> (i64, i64) {
        let Total { penalties, balance } = self.book.total(group).unwrap();
        (penalties, balance)
    }

    fn standing(&self, group: usize, day: u16) -> Result<(bool, u16), Refusal> {
        let Standing { mark, stage } = self.book.standing(group, day)?;
        Ok((mark, stage))
    }
}

fn notice(count: usize, first: usize) -> Result<Notice, Refusal> {
    Ok(Notice { count, first: (first > 0).then_some(first) })
}

fn row(day: u16, group: u16, mark: bool, stage: u16, penalty: i64, balance: i64) -> Row {
    Row { day, group, mark, stage, penalty, balance }
}

/// The sample session of FORMS, its day played twice, with the totals of ACCOUNT.
#[test]
fn the_sample_day_twice() {
    let mut place = Place::sample();
    assert_eq!(place.position(1, 1), Ok((0, 0, 0)));
    assert_eq!(place.total(2), (0, 0));
    assert_eq!(place.submit(&sample_first(1, 1)), notice(0, 0));
    assert_eq!(place.submit(&sample_second(1, 1, 150)), notice(96, 1));
    // Stated 200 - 900 = -700 is no open position; nor is 150 - 900 = -750.
    assert_eq!(place.position(1, 96), Ok((0, 0, 150)));
    assert_eq!(place.position(2, 1), Ok((-150, -150, -150)));
    assert_eq!(place.trade(2, 1, 50), Ok(150));
    assert_eq!(place.trade(1, 2, 50), Ok(0));
    place.advance().unwrap();
    assert_eq!(place.standing(2, 1), Err(Refusal::Day));
    assert_eq!(place.total(2), (0, 0));
    place.advance().unwrap();
    assert_eq!(place.standing(1, 1), Ok((false, 0)));
    assert_eq!(place.standing(2, 1), Ok((true, 1)));
    assert_eq!(place.total(2), (0, 0));
    let rows = place.close(&sample_closing()).unwrap();
    assert_eq!(rows, [row(1, 1, false, 0, 0, 0), row(1, 2, true, 1, 0, 36_000)]);
    assert_eq!(place.total(2), (0, 36_000));

    assert_eq!(place.position(2, 1), Ok((0, 0, 0)));
    assert_eq!(place.submit(&sample_first(1, 2)), notice(0, 0));
    assert_eq!(place.submit(&sample_second(1, 2, 150)), notice(96, 1));
    place.advance().unwrap();
    place.advance().unwrap();
    assert_eq!(place.total(2), (78_800, 36_000));
    let rows = place.close(&sample_closing()).unwrap();
    assert_eq!(rows, [row(2, 1, false, 0, 0, 0), row(2, 2, true, 2, 78_800, 36_000)]);
    assert_eq!(place.total(2), (78_800, 72_000));
    assert_eq!(place.total(1), (0, 0));
    assert_eq!(place.standing(2, 1), Ok((true, 1)));
    assert_eq!(place.standing(2, 2), Ok((true, 2)));
    assert_eq!(place.standing(2, 3), Err(Refusal::Day));
}

/// ACCOUNT, 'What is fixed at the cut-off'.
#[test]
fn a_message_after_the_cut_off() {
    let mut place = Place::sample();
    place.submit(&sample_first(1, 1)).unwrap();
    place.submit(&sample_second(1, 1, 150)).unwrap();
    place.advance().unwrap();
    place.advance().unwrap();
    assert_eq!(place.submit(&sample_second(2, 1, 0)), notice(0, 0));
    assert_eq!(place.trade(2, 1, 1), Ok(0));
    assert_eq!(place.standing(2, 1), Ok((true, 1)));
    let rows = place.close(&sample_closing()).unwrap();
    assert_eq!(rows, [row(1, 1, false, 0, 0, 36_000), row(1, 2, true, 1, 0, 0)]);
}

/// ACCOUNT, 'The cut-off': stated positions play no part.
#[test]
fn a_partner_that_sent_nothing() {
    let mut place = Place::sample();
    place.submit(&sample_second(1, 1, 150)).unwrap();
    assert_eq!(place.position(2, 1), Ok((-150, 0, 0)));
    place.advance().unwrap();
    place.advance().unwrap();
    assert_eq!(place.standing(2, 1), Ok((false, 0)));
}

/// ACCOUNT, 'The calls': out 80 in quarter hours 10 and 11.
#[test]
fn the_count_goes_by_the_phase() {
    let mut place = Place::sample();
    let mut out = [0; 96];
    out[9..11].fill(80);
    assert_eq!(place.submit(&message(2, 1, 1, &[(1, 1, out)])), notice(0, 0));
    place.advance().unwrap();
    assert_eq!(place.submit(&message(2, 2, 1, &[(1, 1, out)])), notice(2, 10));
}

/// ACCOUNT, 'Open position and excess', by the limits of a book.
#[test]
fn beyond_a_limit_is_strictly_above() {
    let form = opening(&[[1, 1_000, 500, 100, 100, 100], [0, 0, 0, 0, 0, 0]], &[(0, 0)]);
    for (into, consumption, open, count) in [
        (0, 1_101, -101, 96),
        (0, 1_100, -100, 0),
        (0, 1_000, 0, 0),
        (0, 0, 0, 0),
        (500, 0, 0, 0),
        (600, 0, 100, 0),
        (601, 0, 101, 96),
    ] {
        let mut place = Place::open(ROLLING_30, &form);
        let series =
            [(3, 0, [consumption; 96]), (4, 0, [7; 96]), (5, 0, [9; 96]), (2, 2, [into; 96])];
        assert_eq!(place.submit(&message(1, 1, 1, &series)), notice(count, count / 96));
        assert_eq!(place.position(1, 5).unwrap().0, open);
    }
}

/// An excess of exactly 0 all day is no mark; E of 1 is one, and costs 0 at a rate of 3,999.
#[test]
fn marks_at_the_limit() {
    for (out, mark) in [(100, false), (101, true)] {
        let form = opening(&[[0, 0, 0, 0, 0, 100], [0, 0, 0, 0, 0, 10_000]], &[(0, 3_999)]);
        let mut place = Place::open(Rule::Run(1), &form);
        let mut values = [100; 96];
        values[40] = out;
        place.submit(&message(1, 1, 1, &[(1, 2, values)])).unwrap();
        place.submit(&message(2, 1, 1, &[(2, 1, [5_000; 96])])).unwrap();
        place.advance().unwrap();
        place.advance().unwrap();
        assert_eq!(place.standing(1, 1), Ok((mark, u16::from(mark))));
        assert_eq!(place.total(1), (0, 0));
    }
}

/// An empty place answers 4 to all but rule and open.
#[test]
fn no_book_is_open() {
    let mut book = Book::empty();
    let mut sheet = [u32::MAX; 3];
    assert_eq!(book.submit(&[], &mut sheet), Err(Refusal::State));
    assert_eq!(book.advance(&sheet), Err(Refusal::State));
    assert_eq!(book.close(&[1], &mut sheet, &mut []), Err(Refusal::State));
    assert_eq!(book.position(9, 97, &sheet), Err(Refusal::State));
    assert_eq!(book.trade(1, 1, 97, &sheet), Err(Refusal::State));
    assert_eq!(book.standing(0, 0), Err(Refusal::State));
    assert_eq!(book.total(0), Err(Refusal::State));
    // A refused open leaves the place empty.
    assert_eq!(book.open(ROLLING_30, &sample_opening(), &mut sheet), Err(Refusal::Sheet));
    assert_eq!(book, Book::empty());
    assert_eq!(sheet, [u32::MAX; 3]);
}

/// The examples of order in REFUSALS that are of calls.
#[test]
fn order_of_tests() {
    let mut place = Place::sample();
    let mut rows = [Row::default(); 2];
    assert_eq!(place.close(&[2]), Err(Refusal::Header));
    let short = &mut vec![0; 1_343];
    assert_eq!(place.book.close(&sample_closing(), short, &mut rows), Err(Refusal::State));
    let mut unlawful = sample_opening();
    unlawful[23] = 2;
    assert_eq!(place.book.open(ROLLING_30, &unlawful, short), Err(Refusal::Sheet));
    unlawful[44] = 0xFF;
    let sheet = &mut vec![0; 1_344];
    assert_eq!(place.book.open(ROLLING_30, &unlawful, sheet), Err(Refusal::GroupRow { group: 2 }));
    let falling = opening(&[[0; 6], [0; 6]], &[(0, 0), (0, 5), (0, 4)]);
    let refusal = Refusal::TariffRow { place: 5 };
    assert_eq!(place.book.open(ROLLING_30, &falling, sheet), Err(refusal));
    assert_eq!(refusal.to_string(), "S 17 5 0");
    assert_eq!(place.submit(&message(0, 9, 2, &[])), Err(Refusal::Group));
    assert_eq!(place.position(9, 97), Err(Refusal::Group));
    for quarter in [0, 97] {
        assert_eq!(place.position(1, quarter), Err(Refusal::NoQuarter));
        assert_eq!(place.trade(1, 2, quarter), Err(Refusal::NoQuarter));
    }
    for (from, to) in [(0, 1), (1, 0), (3, 1), (1, 3), (1, 1), (2, 2), (0, 0)] {
        assert_eq!(place.trade(from, to, 97), Err(Refusal::Group));
    }
    assert_eq!(place.standing(3, 0), Err(Refusal::Group));
    for day in [0, 1, 2, 366, 367, u16::MAX] {
        assert_eq!(place.standing(1, day), Err(Refusal::Day));
    }
    assert_eq!(place.book.total(0), Err(Refusal::Group));
    assert_eq!(place.book.total(3), Err(Refusal::Group));
    // 12 runs over the whole message before 13.
    let mut values = [0; 96];
    values[95] = 10_000_001;
    let form = message(2, 1, 1, &[(3, 0, [1; 96]), (1, 1, values)]);
    assert_eq!(place.submit(&form), Err(Refusal::Value { place: 2, quarter: 96 }));
}

/// The sheet is refused, number 5, by every call that takes it: in phase 2 by close, before it
/// by advance.
fn refused<T: SheetTest>(book: &mut Book<T>, sheet: &mut Vec<u32>, rows: &mut [Row], phase: u16) {
    let before = sheet.clone();
    let unchanged = book.clone();
    assert_eq!(book.open(ROLLING_30, &sample_opening(), sheet), Err(Refusal::Sheet));
    assert_eq!(book.submit(&sample_second(9, 9, 1), sheet), Err(Refusal::Sheet));
    assert_eq!(book.position(9, 97, sheet), Err(Refusal::Sheet));
    assert_eq!(book.trade(9, 9, 97, sheet), Err(Refusal::Sheet));
    if phase == 2 {
        assert_eq!(book.close(&sample_closing(), sheet, rows), Err(Refusal::Sheet));
    } else {
        assert_eq!(book.advance(sheet), Err(Refusal::Sheet));
    }
    assert!(*book == unchanged && *sheet == before);
}

/// Number 5: length and every word, by every call that takes the sheet.
#[test]
fn the_sheet_is_tested() {
    let mut place = Place::sample();
    let book = &mut place.book;
    let mut rows = [Row::default(); 2];
    for phase in 0..3 {
        for length in [0, 1_343, 1_345] {
            refused(book, &mut vec![0; length], &mut rows, phase);
        }
        for at in [0, 95, 96, 672, 1_000, 1_343] {
            for word in [10_000_001, 1 << 31, u32::MAX] {
                let mut sheet = vec![10_000_000; 1_344];
                sheet[at] = word;
                refused(book, &mut sheet, &mut rows, phase);
            }
        }
        let highest = vec![10_000_000; 1_344];
        assert!(book.position(1, 1, &highest).is_ok());
        assert!(book.trade(1, 2, 1, &highest).is_ok());
        if phase < 2 {
            book.advance(&highest).unwrap();
        }
    }
    // Result rows: fewer, more. They are tested before the values of the form.
    let sheet = &mut vec![0; 1_344];
    let wrong = closing(&[[-10_000_001; 96], [0; 96]], [0; 96], [0; 96]);
    for count in [0, 1, 3] {
        let rows = &mut vec![Row::default(); count];
        assert_eq!(book.close(&wrong, sheet, rows), Err(Refusal::Sheet));
    }
    let refusal = Refusal::Value { place: 1, quarter: 1 };
    assert_eq!(book.close(&wrong, sheet, &mut rows), Err(refusal));
    assert_eq!(book.close(&sample_closing(), sheet, &mut rows), Ok(()));
}

/// Number 5 by a book that tests the length alone.
#[test]
fn only_the_length_of_the_sheet_is_tested() {
    let mut book = Book::with_test(LengthOnly);
    let mut sheet = vec![u32::MAX; 1_344];
    let mut rows = [Row::default(); 2];
    book.open(ROLLING_30, &sample_opening(), &mut sheet).unwrap();
    assert!(sheet.iter().all(|&word| word == 0));
    let mut above = vec![10_000_001; 1_344];
    for phase in 0..3 {
        for length in [0, 1_343, 1_345] {
            refused(&mut book, &mut vec![0; length], &mut rows, phase);
        }
        let form = sample_second(phase + 1, 1, 0);
        assert_eq!(book.submit(&form, &mut above), notice(0, 0));
        assert!(book.position(1, 1, &above).is_ok());
        assert!(book.trade(1, 2, 1, &above).is_ok());
        if phase < 2 {
            book.advance(&above).unwrap();
        }
    }
    let fewer = &mut rows[..1];
    assert_eq!(book.close(&sample_closing(), &mut above, fewer), Err(Refusal::Sheet));
    assert_eq!(book.close(&sample_closing(), &mut above, &mut rows), Ok(()));
}

/// A slot that was not sent counts as zero; a sent one is read from the sheet as given.
#[test]
fn another_sheet() {
    let mut place = Place::sample();
    place.submit(&sample_first(1, 1)).unwrap();
    place.submit(&sample_second(1, 1, 150)).unwrap();
    // A sheet full of 7: group 1 has sent in from 2, CONS, PROD, PUMP; group 2 out to 1.
    let other = vec![7; 1_344];
    let position = place.book.position(1, 1, &other).unwrap();
    assert_eq!(position, Position { stated: 0, confirmed: 0, net: 7 });
    let position = place.book.position(2, 1, &other).unwrap();
    assert_eq!(position, Position { stated: -7, confirmed: -7, net: -7 });
    assert_eq!(place.book.trade(1, 2, 1, &other), Ok(0));
    // Number 15 reads the last position from the sheet as supplied.
    place.advance().unwrap();
    place.advance().unwrap();
    let mut other = other;
    let form = sample_second(2, 1, 8);
    assert_eq!(place.book.submit(&form, &mut other), Err(Refusal::Growing { quarter: 1 }));
    let form = sample_second(2, 1, 7);
    assert_eq!(place.book.submit(&form, &mut other), notice(96, 1));
    assert!(other.iter().all(|&word| word == 7));
}

/// Number 8: nothing wraps.
#[test]
fn versions_end() {
    let mut place = Place::sample();
    for version in 1..=u16::MAX {
        let answer = place.book.submit(&message(2, version, 1, &[]), &mut place.sheet);
        assert_eq!(answer, notice(0, 0));
    }
    for version in [0, 1, 2, u16::MAX] {
        assert_eq!(place.submit(&message(2, version, 1, &[])), Err(Refusal::Version));
    }
    assert_eq!(place.submit(&sample_first(1, 1)), notice(0, 0));
}

/// Number 11: what was accepted today must be repeated, also forecasts of trading groups.
#[test]
fn series_are_repeated() {
    let mut place = Place::sample();
    let zero = [0; 96];
    assert_eq!(place.submit(&message(1, 1, 1, &[])), Err(Refusal::Missing));
    assert_eq!(place.submit(&message(2, 1, 1, &[])), notice(0, 0));
    assert_eq!(place.submit(&message(2, 2, 1, &[(4, 0, zero)])), notice(0, 0));
    assert_eq!(place.submit(&message(2, 3, 1, &[(1, 1, zero)])), Err(Refusal::Missing));
    let both = [(1, 1, zero), (4, 0, zero)];
    assert_eq!(place.submit(&message(2, 3, 1, &both)), notice(0, 0));
    assert_eq!(place.submit(&message(2, 4, 1, &both[..1])), Err(Refusal::Missing));
    place.advance().unwrap();
    place.advance().unwrap();
    place.close(&sample_closing()).unwrap();
    // A new day.
    assert_eq!(place.submit(&message(2, 1, 2, &both[..1])), notice(0, 0));
}

/// Number 15, with the distances of REFUSALS.
#[test]
fn growing_positions() {
    let form = opening(&[[0, 0, 0, 0, 0, 100], [0; 6]], &[(0, 0)]);
    let position = |version, power: i32| {
        let out = (-power).max(0) as u32;
        let into = power.max(0) as u32;
        message(1, version, 1, &[(1, 2, [out; 96]), (2, 2, [into; 96])])
    };
    for (last, next, accepted) in [
        (-150, -150, true),
        (-150, 150, true),
        (-150, 149, true),
        (-150, 0, true),
        (-150, -151, false),
        (-150, 151, false),
        (50, 100, true),
        (50, 101, false),
        (50, -100, true),
        (50, -101, false),
    ] {
        let mut place = Place::open(ROLLING_30, &form);
        place.submit(&position(1, last)).unwrap();
        place.advance().unwrap();
        place.advance().unwrap();
        let answer = place.submit(&position(2, next));
        if accepted {
            assert!(answer.is_ok(), "{last} then {next}");
        } else {
            assert_eq!(answer, Err(Refusal::Growing { quarter: 1 }), "{last} then {next}");
        }
    }
    // None accepted today: the distance is 0.
    for (next, accepted) in [(-100, true), (-101, false)] {
        let mut place = Place::open(ROLLING_30, &form);
        place.advance().unwrap();
        place.advance().unwrap();
        assert_eq!(place.submit(&position(1, next)).is_ok(), accepted);
    }
}

/// Open in a used place: nothing of the older book is left, and its g does not matter.
#[test]
fn a_place_is_used_again() {
    let mut place = Place::sample();
    place.submit(&sample_first(1, 1)).unwrap();
    place.submit(&sample_second(1, 1, 150)).unwrap();
    place.advance().unwrap();
    place.advance().unwrap();
    let used = place.book.clone();
    let three = opening(&[[0; 6], [0; 6], [0; 6]], &[(0, 0)]);
    let mut sheet = vec![1; Layout::new(3).words()];
    assert_eq!(place.book.open(Rule::Run(1), &three[..10], &mut sheet), Err(Refusal::Length));
    assert!(place.book == used);
    place.book.open(Rule::Run(1), &three, &mut sheet).unwrap();
    let mut fresh = Book::empty();
    fresh.open(Rule::Run(1), &three, &mut sheet).unwrap();
    assert!(place.book == fresh);
}

/// After the 366th close.
#[test]
fn the_year_ends() {
    let mut place = Place::sample();
    for day in 1..=366 {
        if day % 2 == 0 {
            place.submit(&sample_first(1, day)).unwrap();
            place.submit(&sample_second(1, day, 150)).unwrap();
        }
        place.advance().unwrap();
        place.advance().unwrap();
        let rows = place.close(&sample_closing()).unwrap();
        assert_eq!(rows[1].stage, (day / 2).min(15));
    }
    assert_eq!(place.submit(&[]), Err(Refusal::Header));
    assert_eq!(place.submit(&sample_first(1, 367)), Err(Refusal::State));
    assert_eq!(place.advance(), Err(Refusal::State));
    assert_eq!(place.close(&[2, 95]), Err(Refusal::Sizes));
    assert_eq!(place.close(&sample_closing()), Err(Refusal::State));
    assert_eq!(place.position(9, 97), Err(Refusal::State));
    assert_eq!(place.trade(9, 9, 97), Err(Refusal::State));
    assert_eq!(place.standing(2, 365), Ok((false, 15)));
    assert_eq!(place.standing(2, 366), Ok((true, 15)));
    assert_eq!(place.standing(2, 367), Err(Refusal::Day));
    // 183 marked days; from the second mark on, day 4, each costs 78,800.
    assert_eq!(place.total(2), (182 * 78_800, 183 * 36_000));
    // Days without messages: group 1 has -150 at 10,000.
    assert_eq!(place.total(1), (0, 183 * 36_000));
    place.book.open(ROLLING_30, &sample_opening(), &mut place.sheet).unwrap();
    assert_eq!(place.submit(&sample_first(1, 1)), notice(0, 0));
}

/// The largest numbers of ACCOUNT's ranges, with 16 groups.
#[test]
fn ranges() {
    let groups = [[1, 0, 0, 0, 0, 0]; 16];
    let mut place = Place::open(Rule::Rolling(366), &opening(&groups, &[(100_000_000, 1_000_000)]));
    let high = [10_000_000; 96];
    for day in 1..=2 {
        let mut series = vec![(3, 0, high), (4, 0, high), (5, 0, high)];
        series.extend((2..=16).map(|other| (1, other, high)));
        assert_eq!(place.submit(&message(1, 1, day, &series)), notice(96, 1));
        for group in 2..=16 {
            let series = [(3, 0, [0; 96]), (4, 0, high), (5, 0, high), (2, 1, high)];
            assert_eq!(place.submit(&message(group, 1, day, &series)), notice(96, 1));
        }
        assert_eq!(place.position(1, 1), Ok((-160_000_000, -160_000_000, -150_000_000)));
        place.advance().unwrap();
        place.advance().unwrap();
        let form = closing(&[[-10_000_000; 96]; 16], [-1_000_000; 96], [1_000_000; 96]);
        let rows = place.close(&form).unwrap();
        assert_eq!(rows[0], row(day, 1, true, day, 3_840_100_000_000, 3_840_000_000_000));
        assert_eq!(place.total(1).0, 3_840_100_000_000 * i64::from(day));
    }
}
