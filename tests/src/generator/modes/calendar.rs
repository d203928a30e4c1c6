//! Modes about accounts that are begun with a calendar.
use super::COLLECTION;
use crate::generator::calendars::{bits, first_for, Bits};
use crate::generator::Writer;
use crate::make::*;
use crate::peer::calendar::{Calendar, DAYS};
use crate::peer::kind::*;
use crate::peer::LAST_DAY;
use crate::random::Random;

/// A notice in a calendar that is made for it, or next to one, and a cut asked for on each of the days after it.
pub fn working_days(w: &mut Writer) {
    let notice_day = some_notice_day(w.random);
    let place = some_place(w.random);
    let bits = waited(w.random, place);
    let first = first_for(notice_day, place);
    w.begin(Calendar { first, bits });
    let age = w.random.pick(&[20, 21, 25]);
    let amount = w.random.between(5_000, 9_000);
    w.post(bill(notice_day - age, amount));
    if w.random.once_in(3) {
        w.post(notice(notice_day - 1));
    }
    w.post(notice(notice_day));
    cut_on_each_day(w, notice_day);
    if w.random.once_in(2) {
        w.go_to_reconnection();
    }
}

/// Also next to the last day.
fn some_notice_day(random: &mut Random) -> u32 {
    match random.below(8) {
        0 => LAST_DAY - random.below(25) as u32,
        1 => random.between(25, 2_100) as u32,
        _ => random.between(2_100, 70_000) as u32,
    }
}

/// The place of a notice in its calendar: next to an end of it, before the end of a word, or anywhere. The last is one that
/// no calendar has.
fn some_place(random: &mut Random) -> u32 {
    let ends = [0, 1, 2_027, 2_028, 2_042, 2_043, 2_047, DAYS as u32];
    let word = 64 * random.below(31) as u32;
    match random.below(3) {
        0 => random.pick(&ends),
        1 => word + random.between(58, 64) as u32,
        _ => random.below(DAYS) as u32,
    }
}

/// Bits in which some of the twenty days after a place are set: the first or the last of them, or any.
fn waited(random: &mut Random, place: u32) -> Bits {
    let some = bits(random);
    let count = random.pick(&[0, 4, 4, 5, 5, 6, 20]);
    let mut days: Vec<u32> = (1..=20).collect();
    match random.below(4) {
        0 => return some,
        1 => days.truncate(count),
        2 => drop(days.drain(..20 - count)),
        _ => thin_out(random, &mut days, count),
    }
    let among = |at: u32| (1..=20).contains(&at.wrapping_sub(place));
    let is_set = |at: u32| match among(at) {
        true => days.contains(&(at - place)),
        false => some[at as usize / 64] >> (at % 64) & 1 == 1,
    };
    calendar(0, is_set).bits
}

/// Takes some out until so many are left.
fn thin_out(random: &mut Random, days: &mut Vec<u32>, count: usize) {
    while days.len() > count {
        days.swap_remove(random.below(days.len() as u64) as usize);
    }
}

/// A refused cut changes nothing: it is asked for until one is accepted or the notice is over, and once more.
fn cut_on_each_day(w: &mut Writer, notice_day: u32) {
    for day in notice_day..=notice_day + 21 {
        if !w.random.once_in(12) {
            w.post(call(day));
        }
        if w.post(cut(day + 1)) {
            break;
        }
    }
    w.post(cut(w.later(1)));
}

/// What is asked for next to both ends of a calendar, while service is on, off or closed.
pub fn ends(w: &mut Writer) {
    let first = w.random.between(60, 4_000) as u32;
    let bits = bits(w.random);
    w.begin(Calendar { first, bits });
    let last = first + DAYS as u32 - 1;
    let age = w.random.between(20, 40) as u32;
    w.guided(BILL, first - age);
    w.post(bill(first - age, 6_000));
    for day in first - 1..=first {
        w.post(call(day));
        w.post(cut(day));
        w.post(notice(day));
    }
    // Not by the days next to bounds, since the other end is one.
    for _ in 0..w.random.below(12) {
        let kind = w.random.pick(&COLLECTION);
        let day = w.within(0, 4);
        w.guided(kind, day);
    }
    w.post(bill(last - 60, 9_000));
    w.go_to_reconnection();
    past_the_end(w, last);
    if w.random.once_in(2) {
        w.post(close(w.today()));
    }
    for day in last..last + 3 {
        w.post(notice(day));
        w.post(cut(day));
    }
    let steps = w.random.below(10);
    w.walk(steps, &COLLECTION);
}

/// A notice lives on past the last day, with something else that may refuse a cut there, or nothing.
fn past_the_end(w: &mut Writer, last: u32) {
    let notice_day = last - w.random.between(3, 19) as u32;
    w.post(notice(notice_day));
    match w.random.below(6) {
        0 => w.post(arrangement(notice_day, 6)),
        1 => w.post(certificate(notice_day, 180)),
        2 => w.guided(PAYMENT, notice_day),
        _ => false,
    };
    let from = last - w.random.below(3) as u32;
    for day in from..last + 3 {
        if w.random.once_in(2) {
            w.post(call(day - 1));
        }
        w.post(cut(day));
    }
}
