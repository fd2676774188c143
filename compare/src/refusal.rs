//! Why a call was refused, and how that reads.

use std::fmt;

/// What a refusal is about.
#[derive(Clone, Copy, Debug, PartialEq, Eq)]
pub enum Level {
    Book,
    Message,
    Series,
    Interval,
}

impl Level {
    pub const fn letter(self) -> char {
        match self {
            Level::Book => 'B',
            Level::Message => 'M',
            Level::Series => 'S',
            Level::Interval => 'I',
        }
    }
}

/// The reason of a refusal. Places and quarter hours count from 1.
#[derive(Clone, Copy, Debug, PartialEq, Eq)]
pub enum Refusal {
    /// 1: the form is shorter than its header.
    Header,
    /// 2: a size is out of its bounds, or not the book's or the day's.
    Sizes,
    /// 3: the length is not the one that the sizes give.
    Length,
    /// 4: no book is open, the phase is wrong, or the year is over.
    State,
    /// 5: the sheet or the number of result rows is wrong.
    Sheet,
    /// 6: there is no such group, or a trade is of a group with itself.
    Group,
    /// 7: the message is not of the current day, or the asked day is not past its cut-off.
    Day,
    /// 8: the version is not one above the last.
    Version,
    /// 9: the head is unlawful.
    Head { place: usize },
    /// 10: the head stands earlier in the message.
    Repeated { place: usize },
    /// 11: a series is missing.
    Missing,
    /// 12: a number of a message or of a closing form is out of range.
    Value { place: usize, quarter: usize },
    /// 12: the asked quarter hour is none of the day.
    NoQuarter,
    /// 13: a forecast above 0 of a group without metering points.
    Forecast { place: usize, quarter: usize },
    /// 14: out to and in from one group are both above 0.
    Opposed { place: usize, quarter: usize },
    /// 15: the position of a trading group grows after the cut-off.
    Growing { quarter: usize },
    /// 16: the row of a group is unlawful.
    GroupRow { group: usize },
    /// 17: a tariff row is unlawful; its place is the number of groups plus its own.
    TariffRow { place: usize },
    /// 17: the rule form is unlawful.
    RuleForm,
}

impl Refusal {
    /// Level, number, series and quarter hour.
    pub const fn fields(self) -> (Level, u8, usize, usize) {
        use Level::{Book, Interval, Message, Series};
        match self {
            Refusal::Header => (Message, 1, 0, 0),
            Refusal::Sizes => (Message, 2, 0, 0),
            Refusal::Length => (Message, 3, 0, 0),
            Refusal::State => (Book, 4, 0, 0),
            Refusal::Sheet => (Book, 5, 0, 0),
            Refusal::Group => (Message, 6, 0, 0),
            Refusal::Day => (Message, 7, 0, 0),
            Refusal::Version => (Message, 8, 0, 0),
            Refusal::Head { place } => (Series, 9, place, 0),
            Refusal::Repeated { place } => (Series, 10, place, 0),
            Refusal::Missing => (Message, 11, 0, 0),
            Refusal::Value { place, quarter } => (Interval, 12, place, quarter),
            Refusal::NoQuarter => (Interval, 12, 0, 0),
            Refusal::Forecast { place, quarter } => (Interval, 13, place, quarter),
            Refusal::Opposed { place, quarter } => (Interval, 14, place, quarter),
            Refusal::Growing { quarter } => (Interval, 15, 0, quarter),
            Refusal::GroupRow { group } => (Series, 16, group, 0),
            Refusal::TariffRow { place } => (Series, 17, place, 0),
            Refusal::RuleForm => (Series, 17, 0, 0),
        }
    }
}

/// The four fields with one blank between, as `M 3 0 0`.
impl fmt::Display for Refusal {
    fn fmt(&self, f: &mut fmt::Formatter<'_>) -> fmt::Result {
        let (level, number, series, quarter) = self.fields();
        write!(f, "{} {number} {series} {quarter}", level.letter())
    }
}

impl std::error::Error for Refusal {}

#[cfg(test)]
mod tests {
    use super::*;

    #[test]
    fn reads_as_in_refusals() {
        assert_eq!(Refusal::Length.to_string(), "M 3 0 0");
        assert_eq!(Refusal::Value { place: 2, quarter: 96 }.to_string(), "I 12 2 96");
        assert_eq!(Refusal::State.to_string(), "B 4 0 0");
        assert_eq!(Refusal::TariffRow { place: 5 }.to_string(), "S 17 5 0");
        assert_eq!(Refusal::Growing { quarter: 7 }.to_string(), "I 15 0 7");
    }
}
