//! The message: its bytes, and the tests that need no more than the message and its sender.

use crate::forms::{SeriesBytes, series_of};
use crate::sheet::{Layout, Powers, Slot, add, subtract, within_power};
use crate::{MAX_GROUPS, MAX_POWER, QUARTERS, Refusal, first_quarter};

/// The most series that a message without a repeated head can have.
const MAX_SERIES: usize = 2 * (MAX_GROUPS - 1) + 3;

/// A message whose sizes and length are right.
pub struct Message<'a> {
    pub group: u16,
    pub version: u16,
    pub day: u16,
    heads: &'a [[u8; 2]],
    series: &'a [SeriesBytes],
}

/// The slots that the series of a message belong to.
pub struct Slots {
    /// For each place of the message the slot of its series.
    of_place: [u8; MAX_SERIES],
    count: usize,
    /// The same as a set.
    pub set: u64,
}

impl Slots {
    /// The slots in the order of the places.
    fn iter(&self) -> impl Iterator<Item = usize> {
        self.of_place[..self.count].iter().map(|&slot| usize::from(slot))
    }

    /// The place, from 0, of the series that belongs to a slot.
    fn place_of(&self, slot: usize) -> Option<usize> {
        self.iter().position(|other| other == slot)
    }
}

impl<'a> Message<'a> {
    /// Tests 1, 2 and 3.
    pub fn read(form: &'a [u8]) -> Result<Message<'a>, Refusal> {
        let Some((&[count, quarters, g1, g0, v1, v0, d1, d0], rest)) =
            form.split_first_chunk::<8>()
        else {
            return Err(Refusal::Header);
        };
        if usize::from(quarters) != QUARTERS {
            return Err(Refusal::Sizes);
        }
        let count = usize::from(count);
        if rest.len() != (2 + 4 * QUARTERS) * count {
            return Err(Refusal::Length);
        }
        let (heads, values) = rest.split_at(2 * count);
        Ok(Message {
            group: u16::from_be_bytes([g1, g0]),
            version: u16::from_be_bytes([v1, v0]),
            day: u16::from_be_bytes([d1, d0]),
            heads: heads.as_chunks().0,
            series: series_of(values),
        })
    }

    /// The slots of the series. Tests 9 and 10.
    pub fn slots(&self, layout: Layout, sender: usize) -> Result<Slots, Refusal> {
        for (place, &head) in self.heads.iter().enumerate() {
            if slot_of(head, layout, sender).is_none() {
                return Err(Refusal::Head { place: place + 1 });
            }
        }
        let mut slots = Slots { of_place: [0; MAX_SERIES], count: 0, set: 0 };
        let lawful = self.heads.iter().filter_map(|&head| slot_of(head, layout, sender));
        for (place, slot) in lawful.enumerate() {
            if slots.set >> slot & 1 == 1 {
                return Err(Refusal::Repeated { place: place + 1 });
            }
            slots.set |= 1 << slot;
            slots.of_place[place] = slot as u8;
            slots.count += 1;
        }
        Ok(slots)
    }

    /// Decodes the values into `values`, all series of the message one after another, and adds
    /// up its stated check values. Test 12.
    pub fn decode<'v>(
        &self,
        layout: Layout,
        slots: &Slots,
        values: &'v mut Values,
    ) -> Result<(&'v [Slot], Powers), Refusal> {
        let mut check = [0; QUARTERS];
        let places = self.series.iter().zip(&mut values.0).zip(slots.iter());
        for (place, ((series, values), slot)) in places.enumerate() {
            for (value, &bytes) in values.iter_mut().zip(series) {
                *value = u32::from_be_bytes(bytes);
            }
            if !within_power(values) {
                let quarter = values.iter().take_while(|&&value| value <= MAX_POWER).count();
                return Err(Refusal::Value { place: place + 1, quarter: quarter + 1 });
            }
            if slot < layout.in_from(0) || slot == layout.consumption() {
                subtract(&mut check, values);
            } else if slot < layout.consumption() {
                add(&mut check, values);
            }
        }
        Ok((&values.0[..self.series.len()], check))
    }
}

/// Room for the values of a message.
#[derive(Clone, Debug)]
pub struct Values([Slot; MAX_SERIES]);

impl Values {
    pub const NONE: Values = Values([[0; QUARTERS]; MAX_SERIES]);
}

/// Test 13, of the series of a group without metering points.
pub fn test_forecasts(layout: Layout, slots: &Slots, values: &[Slot]) -> Result<(), Refusal> {
    for ((place, series), slot) in values.iter().enumerate().zip(slots.iter()) {
        if slot >= layout.consumption()
            && let Some(quarter) = first_quarter(|t| series[t] > 0)
        {
            return Err(Refusal::Forecast { place: place + 1, quarter: quarter + 1 });
        }
    }
    Ok(())
}

/// Test 14.
pub fn test_opposed(layout: Layout, slots: &Slots, values: &[Slot]) -> Result<(), Refusal> {
    for ((place, out), slot) in values.iter().enumerate().zip(slots.iter()) {
        if slot >= layout.in_from(0) {
            continue;
        }
        if let Some(other) = slots.place_of(layout.in_from(slot)) {
            let into = &values[other];
            if let Some(quarter) = first_quarter(|t| (out[t] > 0) & (into[t] > 0)) {
                return Err(Refusal::Opposed { place: place + 1, quarter: quarter + 1 });
            }
        }
    }
    Ok(())
}

/// Writes the series of a message into the slots of its sender.
pub fn write(slots: &Slots, values: &[Slot], sheet: &mut [Slot]) {
    for (series, slot) in values.iter().zip(slots.iter()) {
        sheet[slot] = *series;
    }
}

/// The slot that a head names, if it is lawful.
fn slot_of([kind, counter]: [u8; 2], layout: Layout, sender: usize) -> Option<usize> {
    let counter = usize::from(counter);
    let another = (1..=layout.groups()).contains(&counter) && counter != sender + 1;
    match kind {
        1 if another => Some(layout.out_to(counter - 1)),
        2 if another => Some(layout.in_from(counter - 1)),
        3..=5 if counter == 0 => Some(layout.consumption() + usize::from(kind - 3)),
        _ => None,
    }
}

#[cfg(test)]
mod tests {
    use super::*;

    const LAYOUT: Layout = Layout::new(3);

    /// A message of group 1 with heads and constant values.
    fn message(series: &[(u8, u8, u32)]) -> Vec<u8> {
        let mut form = vec![series.len() as u8, 96, 0, 1, 0, 1, 0, 1];
        series.iter().for_each(|&(kind, counter, _)| form.extend([kind, counter]));
        series.iter().for_each(|&(.., value)| form.extend(value.to_be_bytes().repeat(96)));
        form
    }

    fn set_value(form: &mut [u8], place: usize, quarter: usize, value: u32) {
        let count = usize::from(form[0]);
        let at = 8 + 2 * count + 4 * ((place - 1) * 96 + (quarter - 1));
        form[at..at + 4].copy_from_slice(&value.to_be_bytes());
    }

    #[test]
    fn messages_of_forms() {
        let empty = [0x00, 0x60, 0, 2, 0, 1, 0, 1];
        let read = Message::read(&empty).unwrap();
        assert_eq!((read.group, read.version, read.day, read.heads.len()), (2, 1, 1, 0));
        let mut one = vec![0x01, 0x60, 0, 2, 0, 1, 0, 1, 1, 1];
        one.extend([0, 0, 0, 0x96].repeat(96));
        assert_eq!(one.len(), 394);
        let read = Message::read(&one).unwrap();
        let slots = read.slots(Layout::new(2), 1).unwrap();
        assert_eq!(slots.set, 1);
        let mut values = Values::NONE;
        let (series, checks) = read.decode(Layout::new(2), &slots, &mut values).unwrap();
        assert_eq!((series, checks), (&[[150; 96]][..], [-150; 96]));
    }

    #[test]
    fn sizes_and_lengths() {
        let refusal = |form: &[u8]| Message::read(form).err();
        assert_eq!(refusal(&[]), Some(Refusal::Header));
        assert_eq!(refusal(&[0, 96, 0, 1, 0, 1, 0]), Some(Refusal::Header));
        assert_eq!(refusal(&[1, 95, 0, 1, 0, 1, 0, 1]), Some(Refusal::Sizes));
        assert_eq!(refusal(&[1, 96, 0, 1, 0, 1, 0, 1]), Some(Refusal::Length));
        let form = message(&[(3, 0, 0)]);
        assert_eq!(refusal(&form), None);
        assert_eq!(refusal(&form[..393]), Some(Refusal::Length));
        assert_eq!(refusal(&[&form[..], &[0]].concat()), Some(Refusal::Length));
        assert_eq!(refusal(&message(&[(3, 0, 0); 255])), None);
    }

    #[test]
    fn heads() {
        let refusal = |heads: &[(u8, u8)]| {
            let form = message(&heads.iter().map(|&(k, c)| (k, c, 0)).collect::<Vec<_>>());
            Message::read(&form).unwrap().slots(LAYOUT, 0).err()
        };
        for lawful in [(1, 2), (1, 3), (2, 2), (2, 3), (3, 0), (4, 0), (5, 0)] {
            assert_eq!(refusal(&[lawful]), None);
        }
        for unlawful in
            [(0, 0), (6, 0), (255, 2), (1, 0), (1, 1), (1, 4), (2, 1), (2, 255), (3, 1), (5, 2)]
        {
            assert_eq!(refusal(&[(3, 0), unlawful]), Some(Refusal::Head { place: 2 }));
        }
        let repeated = |place| Some(Refusal::Repeated { place });
        assert_eq!(refusal(&[(3, 0), (4, 0), (3, 0), (4, 0)]), repeated(3));
        assert_eq!(refusal(&[(1, 2), (1, 2), (1, 2)]), repeated(2));
        assert_eq!(refusal(&[(1, 2), (2, 2)]), None);
        assert_eq!(refusal(&[(3, 0); 255]), repeated(2));
        // Unlawful and twice: 9 at the first place; 9 goes before an earlier 10.
        assert_eq!(refusal(&[(3, 0), (7, 0), (7, 0)]), Some(Refusal::Head { place: 2 }));
        assert_eq!(refusal(&[(3, 0), (3, 0), (7, 0)]), Some(Refusal::Head { place: 3 }));
    }

    #[test]
    fn values() {
        let refusal = |changes: &[(usize, usize, u32)]| {
            let mut form = message(&[(3, 0, 10_000_000), (1, 2, 0), (4, 0, 0)]);
            changes
                .iter()
                .for_each(|&(place, quarter, value)| set_value(&mut form, place, quarter, value));
            let message = Message::read(&form).unwrap();
            let slots = message.slots(LAYOUT, 0).unwrap();
            let mut values = Values::NONE;
            message.decode(LAYOUT, &slots, &mut values).err()
        };
        let at = |place, quarter| Some(Refusal::Value { place, quarter });
        assert_eq!(refusal(&[]), None);
        assert_eq!(refusal(&[(2, 5, 10_000_001), (2, 96, u32::MAX), (3, 1, 10_000_001)]), at(2, 5));
        assert_eq!(refusal(&[(1, 96, 0xFFFF_FF6A)]), at(1, 96));
        assert_eq!(refusal(&[(3, 1, 1 << 31)]), at(3, 1));
    }

    #[test]
    fn forecasts_of_trading_groups() {
        let refusal = |form: &[u8]| {
            let message = Message::read(form).unwrap();
            let slots = message.slots(LAYOUT, 0).unwrap();
            let mut values = Values::NONE;
            // The range test stops at a value too large, which is decoded all the same.
            let _ = message.decode(LAYOUT, &slots, &mut values);
            super::test_forecasts(LAYOUT, &slots, &values.0[..message.series.len()]).err()
        };
        let mut form = message(&[(1, 2, 5), (5, 0, 0), (3, 0, 0), (4, 0, 0)]);
        assert_eq!(refusal(&form), None);
        set_value(&mut form, 4, 1, 1);
        assert_eq!(refusal(&form), Some(Refusal::Forecast { place: 4, quarter: 1 }));
        set_value(&mut form, 2, 96, 1);
        set_value(&mut form, 2, 95, 1 << 24);
        assert_eq!(refusal(&form), Some(Refusal::Forecast { place: 2, quarter: 95 }));
    }

    #[test]
    fn opposed_trades() {
        let refusal = |form: &[u8]| {
            let message = Message::read(form).unwrap();
            let slots = message.slots(LAYOUT, 0).unwrap();
            let mut values = Values::NONE;
            let (series, _) = message.decode(LAYOUT, &slots, &mut values).unwrap();
            super::test_opposed(LAYOUT, &slots, series).err()
        };
        // Out to 3 at place 1, out to 2 at place 3; both ins behind and before.
        let mut form = message(&[(1, 3, 0), (2, 2, 7), (1, 2, 0), (2, 3, 9)]);
        assert_eq!(refusal(&form), None);
        set_value(&mut form, 3, 2, 1);
        assert_eq!(refusal(&form), Some(Refusal::Opposed { place: 3, quarter: 2 }));
        set_value(&mut form, 1, 96, 1);
        assert_eq!(refusal(&form), Some(Refusal::Opposed { place: 1, quarter: 96 }));
        // Above 0 in different quarter hours.
        let mut form = message(&[(1, 2, 0), (2, 2, 0)]);
        set_value(&mut form, 1, 1, 1);
        set_value(&mut form, 2, 2, 1);
        assert_eq!(refusal(&form), None);
    }
}
