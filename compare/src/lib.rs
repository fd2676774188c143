//! The account of electricity balance groups, a second time: written from the documents
//! (ACCOUNT, FORMS, REFUSALS, DECISIONS) by somebody who has not seen the first
//! implementation, so that the two can be compared.
//!
//! [`Rule::read`] makes a rule from its form. [`Book::empty`] is an empty place, and every
//! other call is a method of [`Book`]. The caller keeps the sheet, a slice of words. Every call
//! that takes it tests its words, unless the book was made with [`LengthOnly`].
//!
//! Arguments, answers and refusals count groups, days, places and quarter hours from 1, as
//! the documents do. Within the library groups, slots and quarter hours count from 0.

mod book;
pub mod coverage;
mod forms;
pub mod generate;
mod message;
mod refusal;
pub mod session;
mod settle;
mod sheet;
mod stage;

pub use book::{Book, Notice, Position, Row, Standing, Total};
pub use refusal::{Level, Refusal};
pub use sheet::{EveryWord, Layout, LengthOnly, SheetTest};
pub use stage::Rule;

/// Quarter hours of a day.
pub const QUARTERS: usize = 96;
/// Days of a year; a book closes this many and no more.
pub const DAYS: u16 = 366;
/// A book has 2 to this many groups.
pub const MAX_GROUPS: usize = 16;
/// A tariff has 1 to this many rows.
pub const MAX_ROWS: usize = 10;
/// The highest power in kW: of a message, a word of the sheet, a figure of a group, and,
/// without its sign, of a feed-in.
pub const MAX_POWER: u32 = 10_000_000;
/// The highest price without its sign and the highest rate, in cents per MWh.
pub const MAX_PRICE: u32 = 1_000_000;
/// The highest fee in cents.
pub const MAX_FEE: u32 = 100_000_000;
/// 1 kW during one quarter hour is 1 MWh divided by this.
pub const PER_MWH: i64 = 4_000;

/// The first quarter hour, from 0, for which `holds` says yes.
///
/// It first asks over the whole day without leaving early, so that the usual answer, none,
/// costs one pass that the compiler can vectorise.
fn first_quarter(holds: impl Fn(usize) -> bool) -> Option<usize> {
    let any = (0..QUARTERS).fold(false, |any, quarter| any | holds(quarter));
    if any { (0..QUARTERS).find(|&quarter| holds(quarter)) } else { None }
}
