//! The opening and the closing form.

use crate::settle::{Figures, TariffRow};
use crate::{
    MAX_FEE, MAX_GROUPS, MAX_POWER, MAX_PRICE, MAX_ROWS, QUARTERS, Refusal, first_quarter,
};

/// A series as it stands in a form: 4 bytes for each quarter hour, high byte first.
pub type SeriesBytes = [[u8; 4]; QUARTERS];

/// Cuts bytes, whose length was tested, into series.
pub fn series_of(bytes: &[u8]) -> &[SeriesBytes] {
    bytes.as_chunks::<4>().0.as_chunks().0
}

const GROUP_ROW: usize = 21;
const TARIFF_ROW: usize = 8;

/// An opening form whose sizes and length are right.
pub struct Opening<'a> {
    groups: &'a [[u8; GROUP_ROW]],
    tariff: &'a [[u8; TARIFF_ROW]],
}

impl<'a> Opening<'a> {
    /// Tests 1, 2 and 3.
    pub fn read(form: &'a [u8]) -> Result<Opening<'a>, Refusal> {
        let [groups, rows, rest @ ..] = form else {
            return Err(Refusal::Header);
        };
        let (groups, rows) = (usize::from(*groups), usize::from(*rows));
        if !(2..=MAX_GROUPS).contains(&groups) || !(1..=MAX_ROWS).contains(&rows) {
            return Err(Refusal::Sizes);
        }
        if rest.len() != GROUP_ROW * groups + TARIFF_ROW * rows {
            return Err(Refusal::Length);
        }
        let (groups, tariff) = rest.split_at(GROUP_ROW * groups);
        Ok(Opening { groups: groups.as_chunks().0, tariff: tariff.as_chunks().0 })
    }

    pub fn groups(&self) -> usize {
        self.groups.len()
    }

    /// The figures of the groups. Test 16.
    pub fn figures(&self) -> Result<[Figures; MAX_GROUPS], Refusal> {
        let mut figures = [Figures::default(); MAX_GROUPS];
        for (group, row) in self.groups.iter().enumerate() {
            figures[group] = figures_of(row).ok_or(Refusal::GroupRow { group: group + 1 })?;
        }
        Ok(figures)
    }

    /// The tariff and its number of rows. Test 17.
    pub fn tariff(&self) -> Result<([TariffRow; MAX_ROWS], usize), Refusal> {
        let mut tariff = [TariffRow::default(); MAX_ROWS];
        // A row of nothing before the first: no figure is below it.
        let mut before = TariffRow::default();
        for (number, bytes) in self.tariff.iter().enumerate() {
            let [fee, rate] = numbers(bytes);
            if fee > MAX_FEE || rate > MAX_PRICE || fee < before.fee || rate < before.rate {
                return Err(Refusal::TariffRow { place: self.groups() + number + 1 });
            }
            before = TariffRow { fee, rate };
            tariff[number] = before;
        }
        Ok((tariff, self.tariff.len()))
    }
}

/// The unsigned numbers of a row.
fn numbers<const N: usize>(bytes: &[u8]) -> [u32; N] {
    let mut numbers = [0; N];
    for (number, &bytes) in numbers.iter_mut().zip(bytes.as_chunks().0) {
        *number = u32::from_be_bytes(bytes);
    }
    numbers
}

/// The figures of a group row, if it is lawful.
fn figures_of(row: &[u8; GROUP_ROW]) -> Option<Figures> {
    let [flag, powers @ ..] = row;
    let powers: [u32; 5] = numbers(powers);
    if *flag > 1 || powers.iter().any(|&power| power > MAX_POWER) {
        return None;
    }
    let [prod_max, pump_depth, limit1, limit2, limit3] = powers.map(|power| power as i32);
    let metered = *flag == 1;
    if !metered && (prod_max, pump_depth) != (0, 0) {
        return None;
    }
    Some(Figures { metered, prod_max, pump_depth, limits: [limit1, limit2, limit3] })
}

/// A closing form whose sizes and length are right: the feed-ins of the groups, the long
/// prices, the short prices.
pub struct Closing<'a> {
    parts: &'a [SeriesBytes],
}

impl<'a> Closing<'a> {
    /// Tests 1, 2 and 3, for a book of `groups` groups.
    pub fn read(form: &'a [u8], groups: usize) -> Result<Closing<'a>, Refusal> {
        let [form_groups, quarters, rest @ ..] = form else {
            return Err(Refusal::Header);
        };
        if usize::from(*form_groups) != groups || usize::from(*quarters) != QUARTERS {
            return Err(Refusal::Sizes);
        }
        if rest.len() != 4 * QUARTERS * (groups + 2) {
            return Err(Refusal::Length);
        }
        Ok(Closing { parts: series_of(rest) })
    }

    /// Test 12.
    pub fn test_values(&self) -> Result<(), Refusal> {
        let groups = self.parts.len() - 2;
        for (part, series) in self.parts.iter().enumerate() {
            let bound = if part < groups { MAX_POWER } else { MAX_PRICE };
            let outside = |t: usize| i32::from_be_bytes(series[t]).unsigned_abs() > bound;
            if let Some(quarter) = first_quarter(outside) {
                return Err(Refusal::Value { place: part + 1, quarter: quarter + 1 });
            }
        }
        Ok(())
    }

    /// The metered net feed-ins of a group.
    pub fn feed_in(&self, group: usize) -> [i32; QUARTERS] {
        signed(&self.parts[group])
    }

    pub fn long_prices(&self) -> [i32; QUARTERS] {
        signed(&self.parts[self.parts.len() - 2])
    }

    pub fn short_prices(&self) -> [i32; QUARTERS] {
        signed(&self.parts[self.parts.len() - 1])
    }
}

fn signed(series: &SeriesBytes) -> [i32; QUARTERS] {
    let mut numbers = [0; QUARTERS];
    for (number, &bytes) in numbers.iter_mut().zip(series) {
        *number = i32::from_be_bytes(bytes);
    }
    numbers
}

#[cfg(test)]
mod tests {
    use super::*;

    /// The opening form of FORMS, 68 bytes.
    const FORM: [u8; 68] = [
        0x02, 0x03, //
        0x01, 0, 0, 0x03, 0xE8, 0, 0, 0x01, 0xF4, 0, 0, 0x01, 0x2C, 0, 0, 0, 0xC8, 0, 0, 0,
        0x64, //
        0x00, 0, 0, 0, 0, 0, 0, 0, 0, 0, 0, 0, 0x64, 0, 0, 0, 0x32, 0, 0, 0, 0, //
        0, 0, 0, 0, 0, 0, 0, 0, //
        0, 0, 0, 0, 0, 0, 0, 0, //
        0, 0, 0xC3, 0x50, 0, 0, 0x1F, 0x40,
    ];

    #[test]
    fn opening_form_of_forms() {
        let form = Opening::read(&FORM).unwrap();
        assert_eq!(form.groups(), 2);
        let figures = form.figures().unwrap();
        let first =
            Figures { metered: true, prod_max: 1_000, pump_depth: 500, limits: [300, 200, 100] };
        let second = Figures { limits: [100, 50, 0], ..Figures::default() };
        assert_eq!(figures[..2], [first, second]);
        let (tariff, rows) = form.tariff().unwrap();
        let free = TariffRow::default();
        assert_eq!(tariff[..rows], [free, free, TariffRow { fee: 50_000, rate: 8_000 }]);
    }

    #[test]
    fn opening_sizes_and_lengths() {
        let refusal = |form: &[u8]| Opening::read(form).err();
        assert_eq!(refusal(&[]), Some(Refusal::Header));
        assert_eq!(refusal(&[2]), Some(Refusal::Header));
        for sizes in [[0, 3], [1, 3], [17, 3], [255, 3], [2, 0], [2, 11]] {
            assert_eq!(refusal(&sizes), Some(Refusal::Sizes));
        }
        assert_eq!(refusal(&[2, 3]), Some(Refusal::Length));
        assert_eq!(refusal(&FORM[..67]), Some(Refusal::Length));
        assert_eq!(refusal(&[&FORM[..], &[0]].concat()), Some(Refusal::Length));
        let largest = [&[16, 10][..], &[0; 21 * 16 + 8 * 10]].concat();
        assert!(Opening::read(&largest).is_ok());
    }

    fn with(changes: &[(usize, u32)]) -> Vec<u8> {
        let mut form = FORM.to_vec();
        for &(at, number) in changes {
            form[at..at + 4].copy_from_slice(&number.to_be_bytes());
        }
        form
    }

    #[test]
    fn group_rows() {
        let refusal = |form: Vec<u8>| Opening::read(&form).unwrap().figures().err();
        let at = |group: usize| Some(Refusal::GroupRow { group });
        for field in 0..5 {
            assert_eq!(refusal(with(&[(3 + 4 * field, 10_000_000)])), None);
            assert_eq!(refusal(with(&[(3 + 4 * field, 10_000_001)])), at(1));
            assert_eq!(refusal(with(&[(3 + 4 * field, u32::MAX)])), at(1));
            // Group 2 is not metered: PRODmax and pump depth are 0.
            let second = if field < 2 { at(2) } else { None };
            assert_eq!(refusal(with(&[(24 + 4 * field, 1)])), second);
        }
        let mut form = FORM.to_vec();
        form[23] = 2;
        assert_eq!(refusal(form), at(2));
    }

    #[test]
    fn tariff_rows() {
        let refusal =
            |changes: &[(usize, u32)]| Opening::read(&with(changes)).unwrap().tariff().err();
        let at = |place: usize| Some(Refusal::TariffRow { place });
        assert_eq!(refusal(&[(60, 100_000_000), (64, 1_000_000)]), None);
        assert_eq!(refusal(&[(60, 100_000_001)]), at(5));
        assert_eq!(refusal(&[(64, 1_000_001)]), at(5));
        // Row 3 with a rate below row 2's, then row 2 below row 1, then the earlier of two.
        assert_eq!(refusal(&[(56, 8_001)]), at(5));
        assert_eq!(refusal(&[(44, 1)]), at(4));
        assert_eq!(refusal(&[(44, 1), (60, 100_000_001)]), at(4));
        assert_eq!(refusal(&[(44, 100_000_001)]), at(3));
    }

    fn closing(groups: u8) -> Vec<u8> {
        [&[groups, 96][..], &vec![0; 384 * (usize::from(groups) + 2)]].concat()
    }

    #[test]
    fn closing_sizes_and_lengths() {
        let refusal = |form: &[u8]| Closing::read(form, 2).err();
        assert_eq!(refusal(&[]), Some(Refusal::Header));
        assert_eq!(refusal(&[2]), Some(Refusal::Header));
        assert_eq!(refusal(&[3, 96]), Some(Refusal::Sizes));
        assert_eq!(refusal(&[2, 95]), Some(Refusal::Sizes));
        assert_eq!(refusal(&[2, 96]), Some(Refusal::Length));
        let form = closing(2);
        assert_eq!(form.len(), 1_538);
        assert_eq!(refusal(&form), None);
        assert_eq!(refusal(&form[..1_537]), Some(Refusal::Length));
        assert_eq!(refusal(&[&form[..], &[0]].concat()), Some(Refusal::Length));
        assert_eq!(refusal(&closing(3)), Some(Refusal::Sizes));
    }

    #[test]
    fn closing_values() {
        let refusal = |values: &[(usize, usize, i32)]| {
            let mut form = closing(2);
            for &(place, quarter, number) in values {
                let at = 2 + 4 * ((place - 1) * 96 + (quarter - 1));
                form[at..at + 4].copy_from_slice(&number.to_be_bytes());
            }
            Closing::read(&form, 2).unwrap().test_values().err()
        };
        let at = |place, quarter| Some(Refusal::Value { place, quarter });
        for place in [1, 2] {
            assert_eq!(refusal(&[(place, 96, 10_000_000), (place, 1, -10_000_000)]), None);
            assert_eq!(refusal(&[(place, 96, 10_000_001)]), at(place, 96));
            assert_eq!(refusal(&[(place, 5, -10_000_001)]), at(place, 5));
        }
        for place in [3, 4] {
            assert_eq!(refusal(&[(place, 96, 1_000_000), (place, 1, -1_000_000)]), None);
            assert_eq!(refusal(&[(place, 96, 1_000_001)]), at(place, 96));
            assert_eq!(refusal(&[(place, 7, -1_000_001)]), at(place, 7));
        }
        // The examples of REFUSALS, and the lowest number.
        assert_eq!(refusal(&[(3, 1, 2_000_000), (2, 96, 10_000_001)]), at(2, 96));
        assert_eq!(refusal(&[(4, 7, 2_000_000)]), at(4, 7));
        assert_eq!(refusal(&[(1, 3, i32::MIN)]), at(1, 3));
    }

    #[test]
    fn signed_numbers_of_forms() {
        let mut form = closing(2);
        form[2..6].copy_from_slice(&[0xFF, 0xFF, 0xFF, 0x6A]);
        form[6..10].copy_from_slice(&[0, 0, 0, 0x96]);
        form[386..390].copy_from_slice(&[0x80, 0, 0, 0]);
        form[770..774].copy_from_slice(&[0, 0, 0x0F, 0xA0]);
        form[1_534..].copy_from_slice(&[0, 0, 0x27, 0x10]);
        let form = Closing::read(&form, 2).unwrap();
        assert_eq!(form.feed_in(0)[..2], [-150, 150]);
        assert_eq!(form.feed_in(1)[0], -2_147_483_648);
        assert_eq!(form.long_prices()[0], 4_000);
        assert_eq!(form.short_prices()[95], 10_000);
    }
}
