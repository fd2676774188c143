//! Marks of a group and the two stage rules.

use crate::{DAYS, Refusal};

const WORDS: usize = (DAYS as usize).div_ceil(64);

/// A group's marks, one bit for each day.
#[derive(Clone, Copy, Debug, PartialEq, Eq)]
pub struct Marks([u64; WORDS]);

impl Marks {
    pub const NONE: Marks = Marks([0; WORDS]);

    pub fn mark(&mut self, day: u16) {
        let bit = usize::from(day) - 1;
        self.0[bit / 64] |= 1 << (bit % 64);
    }

    pub fn is_marked(&self, day: u16) -> bool {
        let bit = usize::from(day) - 1;
        self.0[bit / 64] >> (bit % 64) & 1 == 1
    }
}

/// A stage rule: its kind and its number of days W.
#[derive(Clone, Copy, Debug, PartialEq, Eq)]
pub enum Rule {
    Rolling(u16),
    Run(u16),
}

impl Rule {
    /// Reads a rule form. Tests 1, 3 and 17.
    pub fn read(form: &[u8]) -> Result<Rule, Refusal> {
        let &[kind, high, low] = form else {
            return Err(if form.len() < 3 { Refusal::Header } else { Refusal::Length });
        };
        match (kind, u16::from_be_bytes([high, low])) {
            (1, days @ 1..=DAYS) => Ok(Rule::Rolling(days)),
            (2, days @ 1..=DAYS) => Ok(Rule::Run(days)),
            _ => Err(Refusal::RuleForm),
        }
    }

    /// The stage on `day`, 1 to 366, by the marks of day 1 to `day`.
    pub(crate) fn stage(self, marks: &Marks, day: u16) -> u16 {
        match self {
            Rule::Rolling(window) => {
                let first = (day + 1).saturating_sub(window).max(1);
                (first..=day).map(|d| u16::from(marks.is_marked(d))).sum()
            }
            // Backwards: a marked day counts as long as the unmarked days passed since the
            // last marked one never were `gap` in a row.
            Rule::Run(gap) => {
                let (mut stage, mut unmarked) = (0, 0);
                for d in (1..=day).rev() {
                    if marks.is_marked(d) {
                        stage += 1;
                        unmarked = 0;
                    } else {
                        unmarked += 1;
                        if unmarked == gap {
                            break;
                        }
                    }
                }
                stage
            }
        }
    }
}

#[cfg(test)]
mod tests {
    use super::*;

    fn marks(days: &[u16]) -> Marks {
        let mut marks = Marks::NONE;
        days.iter().for_each(|&day| marks.mark(day));
        marks
    }

    #[test]
    fn forms() {
        assert_eq!(Rule::read(&[1, 0, 0x1E]), Ok(Rule::Rolling(30)));
        assert_eq!(Rule::read(&[2, 1, 0x6E]), Ok(Rule::Run(366)));
        for short in [&[][..], &[1], &[1, 0]] {
            assert_eq!(Rule::read(short), Err(Refusal::Header));
        }
        assert_eq!(Rule::read(&[1, 0, 30, 0]), Err(Refusal::Length));
        // The length goes before the content.
        assert_eq!(Rule::read(&[9, 0, 0, 0]), Err(Refusal::Length));
        for unlawful in [[0, 0, 30], [3, 0, 30], [1, 0, 0], [2, 1, 0x6F], [1, 0xFF, 0xFF]] {
            assert_eq!(Rule::read(&unlawful), Err(Refusal::RuleForm));
        }
    }

    #[test]
    fn rolling_table_of_account() {
        let stage = |w, days: &[u16], on| Rule::Rolling(w).stage(&marks(days), on);
        assert_eq!(stage(30, &[1, 31], 31), 1);
        assert_eq!(stage(30, &[2, 31], 31), 2);
        assert_eq!(stage(30, &[1, 5], 10), 2);
        assert_eq!(stage(30, &[1], 30), 1);
        assert_eq!(stage(30, &[1], 31), 0);
        assert_eq!(stage(1, &[4], 4), 1);
        assert_eq!(stage(1, &[4], 5), 0);
        assert_eq!(stage(366, &[1, 366], 366), 2);
    }

    #[test]
    fn run_table_of_account() {
        let stage = |w, days: &[u16], on| Rule::Run(w).stage(&marks(days), on);
        assert_eq!(stage(30, &[1, 31], 31), 2);
        assert_eq!(stage(30, &[1, 32], 32), 1);
        assert_eq!(stage(30, &[1], 30), 1);
        assert_eq!(stage(30, &[1], 31), 0);
        assert_eq!(stage(30, &[1, 25, 50], 50), 3);
        assert_eq!(stage(1, &[3, 4, 6], 4), 2);
        assert_eq!(stage(1, &[3, 4, 6], 6), 1);
        assert_eq!(stage(366, &[1], 366), 1);
    }

    /// The two definitions of ACCOUNT word by word, and the counting forward.
    #[test]
    fn rules_are_their_definitions() {
        let mut random = 1_u64;
        let mut next = move |below: u64| {
            random ^= random << 13;
            random ^= random >> 7;
            random ^= random << 17;
            random % below
        };
        for _ in 0..12 {
            let sparse = 1 + next(12);
            let days: Vec<u16> = (1..=DAYS).filter(|_| next(sparse) == 0).collect();
            let marks = marks(&days);
            let w = [1, 2, 3, 7, 30, 183, 365, 366][next(8) as usize];
            let (mut forward, mut unmarked) = (0, 0);
            for on in 1..=DAYS {
                let rolling = days.iter().filter(|&&d| on < d + w && d <= on).count();
                assert_eq!(usize::from(Rule::Rolling(w).stage(&marks, on)), rolling);

                let gap_after = |d: u16| {
                    (d + 1..=on).any(|from| {
                        from + w - 1 <= on && (from..from + w).all(|x| !days.contains(&x))
                    })
                };
                if on % 13 == 0 {
                    let run = days.iter().filter(|&&d| d <= on && !gap_after(d)).count();
                    assert_eq!(usize::from(Rule::Run(w).stage(&marks, on)), run);
                }

                if days.contains(&on) {
                    (forward, unmarked) = (forward + 1, 0);
                } else {
                    unmarked += 1;
                    if unmarked == w {
                        forward = 0;
                    }
                }
                assert_eq!(Rule::Run(w).stage(&marks, on), forward);
            }
        }
    }

    #[test]
    fn a_further_mark_never_lowers_the_stage() {
        for rule in [Rule::Rolling(5), Rule::Run(3), Rule::Run(1)] {
            for bits in 0_u16..1 << 8 {
                let of =
                    |bits: u16| (1..=8).filter(|d| bits >> (d - 1) & 1 == 1).collect::<Vec<_>>();
                let before = rule.stage(&marks(&of(bits)), 8);
                for more in 0..8 {
                    assert!(rule.stage(&marks(&of(bits | 1 << more)), 8) >= before);
                }
            }
        }
    }
}
