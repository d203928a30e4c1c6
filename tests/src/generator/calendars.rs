//! Calendars on which something hangs: working days as they are in most weeks, some that are rare or none, and an end next to a
//! day that asks for one.
use crate::make::calendar;
use crate::peer::calendar::Calendar;
use crate::peer::kind::*;
use crate::peer::LAST_DAY;
use crate::random::Random;
use tools::core::lent::CALENDAR_WORDS;
use tools::event::Event;

pub type Bits = [u64; CALENDAR_WORDS];

/// Bits of most kinds: often weekdays, some of them holidays.
pub fn bits(random: &mut Random) -> Bits {
    match random.below(8) {
        0 => [u64::MAX; CALENDAR_WORDS],
        1 => [0; CALENDAR_WORDS],
        2 => std::array::from_fn(|_| random.draw()),
        // About as many as a notice wants of its days, or fewer.
        3 => std::array::from_fn(|_| random.draw() & random.draw()),
        4 => std::array::from_fn(|_| random.draw() & random.draw() & random.draw()),
        _ => weekdays(random),
    }
}

fn weekdays(random: &mut Random) -> Bits {
    let shift = random.below(7) as u32;
    let mut bits = calendar(0, |place| (place + shift) % 7 < 5).bits;
    if random.once_in(2) {
        let holidays = |word: &mut u64| *word &= random.draw() | random.draw() | random.draw();
        bits.iter_mut().for_each(holidays);
    }
    bits
}

/// The first day of a calendar in which a day has a place, counted from 0. Where the day is too early for the place, it is one
/// of the last numbers that a day can be, and the day lies in it only where days come round to 0.
pub fn first_for(day: u32, place: u32) -> u32 {
    day.wrapping_sub(place)
}

/// A calendar for events that were written without one.
pub fn around(events: &[Event], random: &mut Random) -> Calendar {
    let asking = events.iter().filter(|e| [NOTICE, CUT].contains(&e.kind));
    let mut days: Vec<u32> = asking.map(|e| e.day).collect();
    days.push(events.first().map_or(0, |e| e.day));
    let day = random.pick(&days);
    let near = random.below(3) as u32;
    let first = match random.below(12) {
        0 => random.pick(&[u32::MAX, u32::MAX - 2_047, LAST_DAY + 1, LAST_DAY]),
        // It begins, or ends, next to the day.
        1..=3 => first_for(day.saturating_add(1), near),
        4 => first_for(day, 2_046 + near),
        5 => first_for(day, random.below(2_048) as u32),
        // Most of what follows the first event lies in it.
        _ => days[days.len() - 1].saturating_sub(random.below(90) as u32),
    };
    let bits = bits(random);
    Calendar { first, bits }
}

#[cfg(test)]
mod tests {
    use super::*;
    use crate::make::{bill, cut, notice};
    use crate::peer::calendar::{holds, working_days};

    #[test]
    fn weeks_have_five_working_days_or_fewer() {
        let mut counts = Vec::new();
        for seed in 0..40 {
            let bits = weekdays(&mut Random::new(seed));
            let calendar = Calendar { first: 0, bits };
            let weeks = (0..290).map(|week| working_days(&calendar, 7 * week, 7 * week + 7));
            counts.extend(weeks);
        }
        assert_eq!(counts.iter().max(), Some(&5));
        assert!(counts.iter().any(|&count| count < 5));
    }

    #[test]
    fn a_calendar_may_hold_all_some_or_none_of_the_days() {
        let events = [bill(2_980, 6_000), notice(3_000), cut(3_005)];
        let held = |seed| {
            let calendar = around(&events, &mut Random::new(seed));
            let days = [2_980, 2_999, 3_000, 3_005, 3_006];
            days.map(|day| u8::from(holds(&calendar, day)))
        };
        let found: Vec<[u8; 5]> = (0..400).map(held).collect();
        for wanted in [
            [1, 1, 1, 1, 1],
            [0, 0, 0, 0, 0],
            // It begins, and ends, with the notice.
            [0, 0, 1, 1, 1],
            [1, 1, 1, 0, 0],
            // With the cut, and on the days before and after it.
            [0, 0, 0, 1, 1],
            [0, 0, 0, 0, 1],
            [1, 1, 1, 1, 0],
        ] {
            assert!(found.contains(&wanted), "{wanted:?}");
        }
    }
}
