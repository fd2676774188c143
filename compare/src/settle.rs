//! The formulas: open position, excess, penalty, balance amount.
//!
//! Powers are `i32`: a check value, the widest of them, lies within ±160,000,000. Sums of
//! powers and all money are `i64`.

use crate::PER_MWH;

/// A group's figures from the opening form.
#[derive(Clone, Copy, Debug, Default, PartialEq, Eq)]
pub struct Figures {
    pub metered: bool,
    pub prod_max: i32,
    pub pump_depth: i32,
    /// Limits 1, 2 and 3.
    pub limits: [i32; 3],
}

impl Figures {
    /// The open position of a check value: below zero short, above zero long.
    pub fn open_position(&self, check: i32) -> i32 {
        if check < -self.prod_max {
            check + self.prod_max
        } else if check > self.pump_depth {
            check - self.pump_depth
        } else {
            0
        }
    }
}

/// How far an open position lies beyond a limit; 0 if it does not.
pub fn excess(open: i32, limit: i32) -> i32 {
    (open.abs() - limit).max(0)
}

/// A tariff row.
#[derive(Clone, Copy, Debug, Default, PartialEq, Eq)]
pub struct TariffRow {
    /// In cents.
    pub fee: u32,
    /// In cents per MWh.
    pub rate: u32,
}

/// The row of a stage: the one of its number, or the last.
pub fn row_of_stage(tariff: &[TariffRow], stage: u16) -> TariffRow {
    tariff[usize::from(stage).min(tariff.len() - 1)]
}

/// The penalty of a day with the excesses `sum`, E.
pub fn penalty(row: TariffRow, sum: i64) -> i64 {
    if sum == 0 {
        return 0;
    }
    i64::from(row.fee) + i64::from(row.rate) * sum / PER_MWH
}

/// What one quarter hour adds to the balance sum S.
pub fn balance_of_quarter(imbalance: i32, long_price: i32, short_price: i32) -> i64 {
    let price = if imbalance < 0 { short_price } else { long_price };
    -i64::from(imbalance) * i64::from(price)
}

/// The balance amount of a balance sum S: the nearest cent, halves away from zero.
pub fn balance_amount(sum: i64) -> i64 {
    sum.signum() * ((sum.abs() + PER_MWH / 2) / PER_MWH)
}

#[cfg(test)]
mod tests {
    use super::*;

    #[test]
    fn open_positions_and_excesses_of_account() {
        let group = Figures { metered: true, prod_max: 1_000, pump_depth: 500, limits: [0; 3] };
        for (check, open, beyond) in [
            (-1_101, -101, 1),
            (-1_100, -100, 0),
            (-1_000, 0, 0),
            (0, 0, 0),
            (500, 0, 0),
            (600, 100, 0),
            (601, 101, 1),
        ] {
            assert_eq!(group.open_position(check), open, "check {check}");
            assert_eq!(excess(open, 100), beyond, "check {check}");
        }
        let trading = Figures::default();
        for check in [-150, -1, 0, 1, 150] {
            assert_eq!(trading.open_position(check), check);
        }
    }

    #[test]
    fn penalties_of_account() {
        for (sum, fee, rate, expected) in [
            (14_400, 50_000, 8_000, 78_800),
            (1, 0, 3_999, 0),
            (1, 0, 4_000, 1),
            (3, 7, 2_000, 8),
            (0, 50_000, 8_000, 0),
        ] {
            assert_eq!(penalty(TariffRow { fee, rate }, sum), expected, "E {sum}");
        }
    }

    #[test]
    fn rows_of_stages() {
        let dear = TariffRow { fee: 50_000, rate: 8_000 };
        let tariff = [TariffRow::default(), TariffRow::default(), dear];
        for stage in [0, 1] {
            assert_eq!(row_of_stage(&tariff, stage), TariffRow::default());
        }
        for stage in [2, 3, 10, 366] {
            assert_eq!(row_of_stage(&tariff, stage), dear);
        }
        // 'stage 2 and every higher stage cost 50,000 plus 2 cents for each kW of E'
        assert_eq!(penalty(row_of_stage(&tariff, 5), 7), 50_014);
        assert_eq!(row_of_stage(&tariff[2..], 0), dear);
        // The setting of DECISIONS near to the regulation, for 1 MWh: a warning, then once,
        // twice and five times 100 EUR.
        let tariff = [0, 0, 10_000, 20_000, 50_000].map(|rate| TariffRow { fee: 0, rate });
        let costs = [1, 2, 3, 4, 5].map(|stage| penalty(row_of_stage(&tariff, stage), 4_000));
        assert_eq!(costs, [0, 10_000, 20_000, 50_000, 50_000]);
    }

    #[test]
    fn balance_amounts_of_account() {
        for (sum, amount) in [
            (1_999, 0),
            (2_000, 1),
            (-1_999, 0),
            (-2_000, -1),
            (5_999, 1),
            (6_000, 2),
            (-6_000, -2),
            (0, 0),
        ] {
            assert_eq!(balance_amount(sum), amount, "S {sum}");
        }
    }

    #[test]
    fn balances_of_quarter_hours_of_account() {
        // Each with one quarter hour; the other price must not matter.
        let other = 77_777;
        let sum = balance_of_quarter(-4_000, other, 12_345);
        assert_eq!((sum, balance_amount(sum)), (49_380_000, 12_345));
        let sum = balance_of_quarter(2_000, 3, other);
        assert_eq!((sum, balance_amount(sum)), (-6_000, -2));
        let sum = balance_of_quarter(4_000, -500, other);
        assert_eq!((sum, balance_amount(sum)), (2_000_000, 500));
        // Adding first.
        let each = balance_of_quarter(-1_000, other, 2);
        assert_eq!((2 * each, balance_amount(2 * each)), (4_000, 1));
        assert_eq!(balance_amount(each), 1);
        // The table of charges and credits.
        assert!(balance_of_quarter(-1, other, 1) > 0);
        assert!(balance_of_quarter(-1, other, -1) < 0);
        assert!(balance_of_quarter(1, 1, other) < 0);
        assert!(balance_of_quarter(1, -1, other) > 0);
        assert_eq!(balance_of_quarter(0, other, -other), 0);
    }

    #[test]
    fn ranges_of_account() {
        let group = Figures { metered: true, ..Figures::default() };
        let open = group.open_position(-160_000_000);
        let sum = i64::from(excess(open, 0)) * 96;
        assert_eq!(sum, 15_360_000_000);
        let dearest = TariffRow { fee: 100_000_000, rate: 1_000_000 };
        assert_eq!(penalty(dearest, sum), 3_840_100_000_000);
        assert_eq!(penalty(dearest, sum) * 366, 1_405_476_600_000_000);
        let s = balance_of_quarter(-160_000_000, 0, 1_000_000) * 96;
        assert_eq!(s, 15_360_000_000_000_000);
        assert_eq!(balance_amount(s), 3_840_000_000_000);
        assert_eq!(balance_amount(-s), -3_840_000_000_000);
        assert_eq!(balance_amount(s) * 366, 1_405_440_000_000_000);
    }
}
