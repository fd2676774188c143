//! Forms by their fields, and random numbers.
#![allow(dead_code)]

/// An opening form. A group is flag, PRODmax, pump depth and three limits.
pub fn opening(groups: &[[u32; 6]], tariff: &[(u32, u32)]) -> Vec<u8> {
    let mut form = vec![groups.len() as u8, tariff.len() as u8];
    for [flag, powers @ ..] in groups {
        form.push(*flag as u8);
        form.extend(powers.iter().flat_map(|power| power.to_be_bytes()));
    }
    for (fee, rate) in tariff {
        form.extend(fee.to_be_bytes());
        form.extend(rate.to_be_bytes());
    }
    form
}

/// A series of a message: kind, counter, values.
pub type Series = (u8, u8, [u32; 96]);

pub fn message(group: u16, version: u16, day: u16, series: &[Series]) -> Vec<u8> {
    let mut form = vec![series.len() as u8, 96];
    form.extend([group, version, day].iter().flat_map(|number| number.to_be_bytes()));
    series.iter().for_each(|&(kind, counter, _)| form.extend([kind, counter]));
    for (.., values) in series {
        form.extend(values.iter().flat_map(|value| value.to_be_bytes()));
    }
    form
}

pub fn closing(feed_ins: &[[i32; 96]], long: [i32; 96], short: [i32; 96]) -> Vec<u8> {
    let mut form = vec![feed_ins.len() as u8, 96];
    let parts = feed_ins.iter().chain([&long, &short]);
    form.extend(parts.flatten().flat_map(|number| number.to_be_bytes()));
    form
}

/// The opening form of FORMS.
pub fn sample_opening() -> Vec<u8> {
    opening(
        &[[1, 1_000, 500, 300, 200, 100], [0, 0, 0, 100, 50, 0]],
        &[(0, 0), (0, 0), (50_000, 8_000)],
    )
}

/// Group 1's message of the sample session.
pub fn sample_first(version: u16, day: u16) -> Vec<u8> {
    let series = [(3, 0, [900; 96]), (4, 0, [900; 96]), (5, 0, [0; 96]), (2, 2, [200; 96])];
    message(1, version, day, &series)
}

/// Group 2's message of the sample session, with any power.
pub fn sample_second(version: u16, day: u16, out: u32) -> Vec<u8> {
    message(2, version, day, &[(1, 1, [out; 96])])
}

/// The closing form of the sample session.
pub fn sample_closing() -> Vec<u8> {
    closing(&[[-150; 96], [0; 96]], [4_000; 96], [10_000; 96])
}

/// Random numbers, the same in every run.
pub struct Random(pub u64);

impl Random {
    pub fn next(&mut self) -> u64 {
        self.0 ^= self.0 << 13;
        self.0 ^= self.0 >> 7;
        self.0 ^= self.0 << 17;
        self.0
    }

    pub fn below(&mut self, bound: u64) -> u64 {
        (self.next() >> 20) % bound
    }

    pub fn one_in(&mut self, times: u64) -> bool {
        self.below(times) == 0
    }

    pub fn pick<T: Copy>(&mut self, choices: &[T]) -> T {
        choices[self.below(choices.len() as u64) as usize]
    }
}
