//! Modes over everything.
use super::{ALL, COLLECTION};
use crate::generator::Writer;
use crate::make::*;
use crate::peer::kind::*;
use crate::peer::{tariff, LAST_DAY};

/// Each month's bill is that of a reading.
pub fn months(w: &mut Writer) {
    let first = w.random.below(400) as u32;
    let count = w.random.between(70, 80) as u32;
    for month in 0..count {
        let day = (first + 30 * month).max(w.today());
        let class = w.random.pick(&tariff::CLASSES);
        let usage = w.random.below(4_000);
        let amount = tariff::bill(class, usage).expect("a reading in range");
        w.post(bill(day, amount));
        match w.random.below(6) {
            0 => {}
            1..=3 => {
                let pay = w.within(1, 25);
                w.guided(PAYMENT, pay);
            }
            4 => w.go_to_cut(),
            _ => {
                let owed = w.money().owed().max(1);
                w.post(payment(w.later(3), owed as u64));
            }
        }
        if w.random.once_in(4) {
            w.go_to_reconnection();
        }
    }
    let steps = w.random.below(10);
    w.walk(steps, &ALL);
}

pub fn last_days(w: &mut Writer) {
    let back = w.random.pick(&[0, 1, 20, 25, 60, 400]);
    w.post(bill(LAST_DAY - back, 6_000));
    let steps = w.random.below(10);
    w.walk(steps, &COLLECTION);
    for _ in 0..6 {
        let kind = w.random.pick(&ALL);
        let day = w.random.pick(&[LAST_DAY, LAST_DAY, LAST_DAY + 1]);
        w.guided(kind, day);
    }
}

pub fn odd(w: &mut Writer) {
    let first = w.within(0, 100);
    w.guided(BILL, first);
    for _ in 0..w.random.between(5, 40) {
        let kind = w.random.pick(&ALL[..15]);
        if w.random.once_in(2) {
            w.odd_event(kind);
        } else {
            let today = w.today();
            w.guided(kind, today);
        }
    }
    w.odd_event(CLOSE);
    // Bytes that name no kind: a book that holds one is refused.
    if w.random.once_in(8) {
        let kind = w.random.pick(&[0, 17, 18, 255]);
        w.odd_event(kind);
    }
}

pub fn wander_all(w: &mut Writer) {
    let first = w.random.below(2_000) as u32;
    w.guided(BILL, first);
    let steps = w.random.between(5, 80);
    w.walk(steps, &ALL[..15]);
    let steps = w.random.below(6);
    w.walk(steps, &ALL);
}
