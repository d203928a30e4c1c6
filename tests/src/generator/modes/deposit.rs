//! Modes about deposits and closing.
use super::{ALL, COLLECTION, DEPOSIT};
use crate::generator::Writer;
use crate::make::*;
use crate::peer::dates::{date, first_from, year_later};
use crate::peer::deposit::{held, required};
use crate::peer::kind::*;
use crate::peer::LAST_DAY;
use crate::random::Random;
use tools::event::Event;

pub fn deposits(w: &mut Writer) {
    let steps = w.random.below(6);
    w.walk(steps, &COLLECTION);
    for _ in 0..w.random.between(1, 3) {
        fill_deposit(w);
        let full = w.today();
        for _ in 0..w.random.below(4) {
            w.go_to_cut();
            if w.random.once_in(2) {
                w.go_to_reconnection();
            }
        }
        if w.random.once_in(3) {
            move_on_the_day(w, full);
        }
        // A refused move changes nothing: every day next to a bound may be asked for.
        for day in w.edge_days() {
            if day >= full.saturating_add(364) {
                w.post(deposit_moved(day));
            }
        }
        let steps = w.random.below(6);
        w.walk(steps, &DEPOSIT);
        w.post(deposit_moved(w.later(1)));
    }
    let steps = w.random.below(30);
    w.walk(steps, &[&DEPOSIT[..], &COLLECTION].concat());
}

/// Asks for the move on the very day of a notice or of a cut, with up to two notices in the 365 days before it.
fn move_on_the_day(w: &mut Writer, full: u32) {
    let day = w.later(75).max(earned_from(full));
    w.post(bill(w.today(), 9_000));
    let earlier = w.random.below(3) as usize;
    for before in &[52, 31][..earlier] {
        w.post(notice(day - before));
    }
    if w.random.once_in(2) {
        w.post(notice(day));
    } else {
        w.post(notice(day - 5));
        w.post(call(day - 1));
        w.post(cut(day));
    }
    w.post(deposit_moved(day));
}

/// The first day on which a deposit that is full since a day can be earned; the last day where waiting does not earn it.
pub fn earned_from(full: u32) -> u32 {
    year_later(full).unwrap_or(LAST_DAY)
}

/// A deposit is asked for on the days around the same date one year after it was full, where that may be a day later, or no day.
pub fn a_year(w: &mut Writer) {
    let full = some_full_day(w.random);
    for event in full_on(full, w.random) {
        w.post(event);
    }
    let from = earned_from(full);
    for day in from - 2..from + 2 {
        if w.random.once_in(16) {
            w.post(close(day));
        }
        w.post(deposit_moved(day));
    }
    let steps = w.random.below(6);
    w.walk(steps, &DEPOSIT);
}

/// One of four around the end of February of a leap year, of a year before or after one, or of 2099 to 2101; or around the end
/// of a year, often that of 2198.
fn some_full_day(random: &mut Random) -> u32 {
    let leap = 4 * random.between(500, 549) as u32;
    let near = random.pick(&[2000, 2024, 2096, 2100, 2100, leap]);
    let year = near + random.below(3) as u32 - 1;
    let first = match random.below(6) {
        0 => date(year, 12, 30),
        1 => date(2198, 12, 30),
        _ => date(year, 2, 27),
    };
    first_from(first).expect("a day of that date") + random.below(4) as u32
}

/// A deposit of two parts, full on a day. Three notices or a cut, or neither, begin about there.
fn full_on(full: u32, random: &mut Random) -> Vec<Event> {
    let first_part = full.saturating_sub(random.below(4) as u32);
    let mut events = vec![
        bill(full.saturating_sub(44), 9_000),
        deposit_asked(first_part, 500),
        deposit_paid(first_part, 200),
        deposit_paid(full, 300),
    ];
    let near = full + random.below(3) as u32;
    match random.below(4) {
        0 => events.extend([0, 21, 42].map(|later| notice(near + later))),
        1 => {
            let notice_day = near.saturating_sub(5);
            events.extend([notice(notice_day), call(near.saturating_sub(1)), cut(near)]);
        }
        _ => {}
    }
    events.sort_by_key(|e| e.day);
    events
}

/// Asks for a deposit, if none is asked for, and pays it to the last cent.
pub fn fill_deposit(w: &mut Writer) {
    let today = w.today();
    w.guided(DEPOSIT_ASKED, today);
    w.guided(DEPOSIT_PAID, today);
    w.guided(DEPOSIT_PAID, w.later(1));
    let rest = required(w.accepted()) - held(w.accepted());
    if rest > 0 {
        w.post(deposit_paid(w.today(), rest as u64));
    }
}

pub fn closed(w: &mut Writer) {
    let steps = w.random.between(1, 20);
    w.walk(steps, &ALL[..15]);
    if w.random.once_in(2) {
        w.go_to_cut();
    }
    fill_deposit(w);
    let day = w.within(0, 1);
    w.post(close(day));
    let steps = w.random.between(3, 12);
    w.walk(steps, &[PAYMENT, RETURNED, PAYOUT, PAYOUT]);
    w.walk(6, &ALL);
}
