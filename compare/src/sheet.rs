//! The sheet: where each series lies, which words count, and what is summed from them.

use crate::{MAX_GROUPS, MAX_POWER, QUARTERS, Refusal};

/// One series of the sheet, a word for each quarter hour.
pub type Slot = [u32; QUARTERS];

/// Powers of a day, signed.
pub type Powers = [i32; QUARTERS];

/// Where the slots lie in a sheet for a number of groups.
///
/// Slots of a group, from 0: out to each group, in from each group, CONS, PROD, PUMP.
#[derive(Clone, Copy, Debug, PartialEq, Eq)]
pub struct Layout {
    groups: usize,
}

impl Layout {
    pub const fn new(groups: usize) -> Layout {
        Layout { groups }
    }

    pub const fn groups(self) -> usize {
        self.groups
    }

    /// Slots of each group.
    pub const fn slots(self) -> usize {
        2 * self.groups + 3
    }

    /// Words of a whole sheet.
    pub const fn words(self) -> usize {
        self.groups * self.slots() * QUARTERS
    }

    pub(crate) const fn out_to(self, group: usize) -> usize {
        group
    }

    pub(crate) const fn in_from(self, group: usize) -> usize {
        self.groups + group
    }

    pub(crate) const fn consumption(self) -> usize {
        2 * self.groups
    }

    /// The bits of CONS, PROD and PUMP in a set of slots.
    pub(crate) const fn forecasts(self) -> u64 {
        0b111 << self.consumption()
    }

    /// The slots of a sheet, of all groups one after another. Test 5.
    pub(crate) fn slots_of(self, sheet: &[u32], test: impl SheetTest) -> Result<&[Slot], Refusal> {
        self.test(sheet, test)?;
        Ok(sheet.as_chunks().0)
    }

    /// The same, to be written.
    pub(crate) fn slots_of_mut(
        self,
        sheet: &mut [u32],
        test: impl SheetTest,
    ) -> Result<&mut [Slot], Refusal> {
        self.test(sheet, test)?;
        Ok(sheet.as_chunks_mut().0)
    }

    fn test(self, sheet: &[u32], test: impl SheetTest) -> Result<(), Refusal> {
        if sheet.len() == self.words() && test.passes(sheet) { Ok(()) } else { Err(Refusal::Sheet) }
    }
}

/// What test 5 asks of the words of a sheet. Its length is tested always.
///
/// The choice is one of types, so it costs nothing while a program runs.
pub trait SheetTest: Copy {
    /// Whether these words may stand in a sheet.
    fn passes(self, words: &[u32]) -> bool;
}

/// Each word is at most the highest power: for a sheet that anybody may have written.
#[derive(Clone, Copy, Debug)]
pub struct EveryWord;

impl SheetTest for EveryWord {
    fn passes(self, words: &[u32]) -> bool {
        within_power(words)
    }
}

/// Nothing: for a sheet that nobody but its book has written since open, each word from a
/// message whose values were tested.
#[derive(Clone, Copy, Debug)]
pub struct LengthOnly;

impl SheetTest for LengthOnly {
    fn passes(self, _: &[u32]) -> bool {
        true
    }
}

/// Whether no word is above the highest power.
///
/// The bits of all words together make a number that no word is above, so one pass without a
/// comparison mostly decides. If that number is too high, each word is compared.
pub fn within_power(words: &[u32]) -> bool {
    let bits = words.iter().fold(0, |bits, &word| bits | word);
    bits <= MAX_POWER || !words.iter().fold(false, |above, &word| above | (word > MAX_POWER))
}

/// The series of the current day: the slots of a sheet, and which of them were sent.
#[derive(Clone, Copy)]
pub struct Today<'a> {
    pub layout: Layout,
    /// For each group a set of its slots, slot 0 the lowest bit.
    pub sent: &'a [u64],
    pub slots: &'a [Slot],
}

impl<'a> Today<'a> {
    /// A group's series, if it was sent today.
    fn series(&self, group: usize, slot: usize) -> Option<&'a Slot> {
        let sent = self.sent[group] >> slot & 1 == 1;
        sent.then(|| &self.slots[group * self.layout.slots() + slot])
    }

    /// One word of a series, 0 if the series was not sent today.
    fn word(&self, group: usize, slot: usize, quarter: usize) -> u32 {
        self.series(group, slot).map_or(0, |series| series[quarter])
    }

    fn others(&self, group: usize) -> impl Iterator<Item = usize> + use<> {
        (0..self.layout.groups()).filter(move |&other| other != group)
    }

    /// The confirmed trade in a quarter hour.
    pub fn trade(&self, from: usize, to: usize, quarter: usize) -> u32 {
        let out = self.word(from, self.layout.out_to(to), quarter);
        let into = self.word(to, self.layout.in_from(from), quarter);
        out.min(into)
    }

    /// The confirmed net purchases in a quarter hour.
    pub fn net(&self, group: usize, quarter: usize) -> i32 {
        self.others(group)
            .map(|other| {
                self.trade(other, group, quarter) as i32 - self.trade(group, other, quarter) as i32
            })
            .sum()
    }

    /// CONS in a quarter hour.
    pub fn consumption(&self, group: usize, quarter: usize) -> i32 {
        self.word(group, self.layout.consumption(), quarter) as i32
    }

    /// The stated check value in a quarter hour.
    pub fn stated_check(&self, group: usize, quarter: usize) -> i32 {
        let trades: i32 = self
            .others(group)
            .map(|other| {
                self.word(group, self.layout.in_from(other), quarter) as i32
                    - self.word(group, self.layout.out_to(other), quarter) as i32
            })
            .sum();
        trades - self.consumption(group, quarter)
    }

    /// The stated check values of a whole day.
    pub fn stated_checks(&self, group: usize) -> Powers {
        let mut check = [0; QUARTERS];
        for other in self.others(group) {
            if let Some(into) = self.series(group, self.layout.in_from(other)) {
                add(&mut check, into);
            }
            if let Some(out) = self.series(group, self.layout.out_to(other)) {
                subtract(&mut check, out);
            }
        }
        if let Some(consumption) = self.series(group, self.layout.consumption()) {
            subtract(&mut check, consumption);
        }
        check
    }

    /// The confirmed net purchases of all groups for a whole day.
    pub fn nets(&self) -> [Powers; MAX_GROUPS] {
        let mut nets = [[0; QUARTERS]; MAX_GROUPS];
        for from in 0..self.layout.groups() {
            for to in self.others(from) {
                let out = self.series(from, self.layout.out_to(to));
                let into = self.series(to, self.layout.in_from(from));
                if let (Some(out), Some(into)) = (out, into) {
                    let mut confirmed = [0; QUARTERS];
                    for ((confirmed, &out), &into) in confirmed.iter_mut().zip(out).zip(into) {
                        *confirmed = out.min(into);
                    }
                    add(&mut nets[to], &confirmed);
                    subtract(&mut nets[from], &confirmed);
                }
            }
        }
        nets
    }

    /// Turns the confirmed net purchases of a group into its confirmed check values.
    pub fn confirmed_checks(&self, group: usize, mut net: Powers) -> Powers {
        if let Some(consumption) = self.series(group, self.layout.consumption()) {
            subtract(&mut net, consumption);
        }
        net
    }
}

/// Adds a series, each word at most the highest power.
pub fn add(powers: &mut Powers, series: &Slot) {
    for (power, &word) in powers.iter_mut().zip(series) {
        *power += word as i32;
    }
}

/// Subtracts a series, each word at most the highest power.
pub fn subtract(powers: &mut Powers, series: &Slot) {
    for (power, &word) in powers.iter_mut().zip(series) {
        *power -= word as i32;
    }
}

#[cfg(test)]
mod tests {
    use super::*;

    /// ACCOUNT's index of the word of group a, slot s, quarter hour t, all from 1.
    fn index(g: usize, a: usize, s: usize, t: usize) -> usize {
        ((a - 1) * (2 * g + 3) + (s - 1)) * 96 + (t - 1)
    }

    #[test]
    fn sizes_of_account() {
        assert_eq!(Layout::new(2).words(), 1_344);
        assert_eq!(Layout::new(8).words(), 14_592);
        assert_eq!(Layout::new(16).words(), 53_760);
    }

    #[test]
    fn places_of_account() {
        let layout = Layout::new(2);
        let sheet: Vec<u32> = (0..layout.words() as u32).collect();
        let slots = layout.slots_of(&sheet, EveryWord).unwrap();
        let ends = |group: usize, slot: usize| {
            let slot = slots[group * layout.slots() + slot];
            (slot[0], slot[95])
        };
        assert_eq!(ends(1, layout.out_to(0)), (672, 767));
        assert_eq!(ends(0, layout.in_from(1)), (288, 383));
        assert_eq!(ends(0, layout.consumption()), (384, 479));
        assert_eq!(index(2, 2, 1, 1), 672);
        assert_eq!(index(2, 1, 5, 96), 479);
    }

    #[test]
    fn every_word_is_tested() {
        let layout = Layout::new(2);
        let mut sheet = vec![MAX_POWER; layout.words()];
        assert!(layout.slots_of(&sheet, EveryWord).is_ok());
        assert!(layout.slots_of(&sheet[1..], EveryWord).is_err());
        for wrong in [10_000_001, 1 << 31, (1 << 31) + 10_000_000, (1 << 31) + 10_000_001, u32::MAX]
        {
            for at in 0..sheet.len() {
                sheet[at] = wrong;
                assert!(layout.slots_of(&sheet, EveryWord).is_err(), "{wrong} at {at}");
                sheet[at] = MAX_POWER;
            }
        }
        sheet.push(0);
        assert_eq!(layout.slots_of(&sheet, EveryWord), Err(Refusal::Sheet));
    }

    #[test]
    fn only_the_length_is_tested() {
        let layout = Layout::new(2);
        let mut sheet = vec![u32::MAX; layout.words() + 1];
        assert_eq!(layout.slots_of(&sheet, LengthOnly), Err(Refusal::Sheet));
        assert_eq!(layout.slots_of_mut(&mut sheet[2..], LengthOnly), Err(Refusal::Sheet));
        assert!(layout.slots_of(&sheet[1..], LengthOnly).is_ok());
        assert!(layout.slots_of_mut(&mut sheet[1..], LengthOnly).is_ok());
    }

    #[test]
    fn within_power_is_at_most_the_highest() {
        let around = |x: u32| (x.saturating_sub(3)..=x.saturating_add(3)).collect::<Vec<_>>();
        for x in [0, MAX_POWER, 1 << 24, 1 << 31, (1 << 31) + MAX_POWER, u32::MAX] {
            for word in around(x) {
                assert_eq!(within_power(&[word]), word <= 10_000_000, "{word}");
                assert_eq!(within_power(&[0, word, 9_999_999]), word <= 10_000_000, "{word}");
            }
        }
        // Together their bits are above the highest power, and none of them is.
        assert!(within_power(&[1 << 23, 1 << 22, 1 << 21]));
    }

    /// The three groups of ACCOUNT's example of confirmed trades.
    #[test]
    fn confirmed_trades_of_account() {
        let layout = Layout::new(3);
        let mut sheet = vec![0; layout.words()];
        let mut sent = [0_u64; 3];
        let mut put = |a: usize, s: usize, power: u32| {
            sheet[index(3, a, s, 1)..=index(3, a, s, 96)].fill(power);
            sent[a - 1] |= 1 << (s - 1);
        };
        put(1, 2, 200); // 1 out to 2
        put(2, 4, 150); // 2 in from 1
        put(3, 1, 40); // 3 out to 1
        put(1, 6, 40); // 1 in from 3
        put(3, 2, 200); // 3 out to 2, and 2 has sent nothing of it
        let slots = layout.slots_of(&sheet, EveryWord).unwrap();
        let today = Today { layout, sent: &sent, slots };
        assert_eq!(today.trade(0, 1, 0), 150);
        assert_eq!(today.trade(2, 0, 95), 40);
        assert_eq!(today.trade(2, 1, 0), 0);
        assert_eq!([0, 1, 2].map(|a| today.net(a, 50)), [-110, 150, -40]);
        let nets = today.nets();
        assert_eq!([0, 1, 2].map(|a| nets[a][50]), [-110, 150, -40]);
    }

    /// ACCOUNT's example of check values; group 1 also has a word that was not sent.
    #[test]
    fn check_values_of_account() {
        let layout = Layout::new(2);
        let mut sheet = vec![0; layout.words()];
        sheet[index(2, 1, 4, 1)..=index(2, 1, 4, 96)].fill(200); // 1 in from 2
        sheet[index(2, 1, 5, 1)..=index(2, 1, 5, 96)].fill(900); // 1 CONS
        sheet[index(2, 2, 1, 1)..=index(2, 2, 1, 96)].fill(150); // 2 out to 1
        sheet[index(2, 1, 2, 1)..=index(2, 1, 2, 96)].fill(70); // 1 out to 2, not sent
        sheet[index(2, 2, 5, 1)..=index(2, 2, 5, 96)].fill(70); // 2 CONS, not sent
        let sent = [1 << 3 | 1 << 4, 1 << 0];
        let slots = layout.slots_of(&sheet, EveryWord).unwrap();
        let today = Today { layout, sent: &sent, slots };
        for (group, stated, confirmed) in [(0, -700, -750), (1, -150, -150)] {
            assert_eq!(today.stated_check(group, 0), stated);
            assert_eq!(today.stated_checks(group), [stated; 96]);
            assert_eq!(today.net(group, 0) - today.consumption(group, 0), confirmed);
            assert_eq!(today.confirmed_checks(group, today.nets()[group]), [confirmed; 96]);
        }
    }
}
