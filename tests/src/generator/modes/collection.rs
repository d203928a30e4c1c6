//! Modes about notices, disconnections, arrangements and certificates.
use super::{deposit::fill_deposit, COLLECTION, MEDICAL};
use crate::generator::Writer;
use crate::make::*;
use crate::peer::kind::*;
use crate::peer::receipts;
use crate::peer::rows::{LONGEST_BEFORE_2026, LONGEST_FROM_2026, NEW_YEAR_2026};

pub fn disconnections(w: &mut Writer) {
    for _ in 0..w.random.between(1, 4) {
        w.go_to_cut();
        let steps = w.random.below(12);
        w.walk(steps, &COLLECTION);
        if w.random.once_in(2) {
            w.go_to_reconnection();
        }
    }
}

/// A notice lapses by a payment, and a later item makes the arrears high enough again within its days.
pub fn lapses(w: &mut Writer) {
    if w.random.once_in(3) {
        fill_deposit(w);
        w.post(call(w.later(345)));
    }
    let first = w.today();
    let second = first + w.random.between(1, 16) as u32;
    let (one, other) = (w.random.between(5_000, 9_000), w.random.between(1, 9_000));
    w.post(bill(first, one));
    w.post(bill(second, other));
    w.post(notice(first + 20));
    match w.random.below(8) {
        0 => w.post(deposit_moved(w.later(1))),
        1..=4 => {
            let left = w.random.pick(&[4_998, 4_999, 4_999, 5_000, 5_001]);
            let day = w.within(0, 1);
            let arrears = w.money().arrears(day);
            w.post(payment(day, (arrears - left).max(1) as u64))
        }
        _ => {
            let day = w.within(0, 3);
            w.guided(PAYMENT, day)
        }
    };
    let day = w.today().max(second + 20).max(first + 25);
    if w.random.once_in(3) {
        w.post(notice(day));
    }
    w.post(call(day));
    for day in day + 1..day + 4 {
        w.post(cut(day));
    }
    let steps = w.random.below(10);
    w.walk(steps, &COLLECTION);
}

/// A cut uses the notice up while the arrears stay: service comes back under an arrangement, within the notice's days.
pub fn used_up(w: &mut Writer) {
    let first = w.within(0, 400);
    w.post(bill(first, 9_000));
    w.post(payment(first, 1_000));
    if w.random.once_in(2) {
        // An arrangement that is behind at the cut, catches up by a payment, and falls behind by its return.
        w.post(arrangement(first + 20, 2));
        w.post(notice(first + 50));
    } else {
        w.post(notice(first + 20));
    }
    let notice_day = w.today();
    w.post(call(notice_day + 4));
    w.post(cut(notice_day + 5));
    if w.random.once_in(2) {
        w.post(arrangement(notice_day + 5, 3));
    }
    let pays = w.random.between(2_900, 4_100);
    w.post(payment(notice_day + 6, pays));
    w.guided(RECONNECTION, notice_day + 6);
    w.guided(RETURNED, notice_day + 7);
    w.post(call(notice_day + 8));
    w.post(cut(notice_day + 9));
    w.post(notice(notice_day + 20));
    let steps = w.random.below(12);
    w.walk(steps, &COLLECTION);
}

pub fn arrangements(w: &mut Writer) {
    let today = w.today();
    w.guided(PAYMENT, today);
    if w.random.once_in(4) {
        paid_at_two_tills(w);
    }
    for _ in 0..w.random.between(1, 3) {
        let bills = w.random.between(1, 3);
        w.walk(bills, &[BILL]);
        w.guided(ARRANGEMENT, w.later(20));
        let steps = w.random.between(4, 30);
        let kinds = [
            PAYMENT,
            PAYMENT,
            RETURNED,
            ARRANGEMENT,
            NOTICE,
            CALL,
            CUT,
            CUT,
        ];
        w.walk(steps, &kinds);
        w.go_to_cut();
    }
    let steps = w.random.below(8);
    w.walk(steps, &[PAYMENT, ARRANGEMENT, RECONNECTION, DEPOSIT_ASKED]);
    returned_before_cut(w);
}

/// A cut on the day from which an arrangement wants its first part: that was paid at two tills, or all but a cent of it.
fn paid_at_two_tills(w: &mut Writer) {
    let today = w.today();
    w.post(bill(today, 40_000));
    w.guided(ARRANGEMENT, today.saturating_add(20));
    let due = w.behind(&w.money(), w.later(30)).max(2) as u64;
    let first = w.random.between(1, due - 1);
    let short = w.random.below(2);
    w.post(notice(w.later(25)));
    for amount in [first, due - first - short] {
        let till = w.till();
        w.post(payment_at(till, w.today(), amount));
    }
    w.post(call(w.later(4)));
    w.post(cut(w.later(1)));
}

/// A check that was paid before an arrangement comes back after it: less than nothing is then paid under it.
fn returned_before_cut(w: &mut Writer) {
    let today = w.today();
    w.post(bill(today, 9_000));
    let amount = w.random.between(1, 3_000);
    let till = w.till();
    w.post(payment_at(till, today, amount));
    w.guided(ARRANGEMENT, today.saturating_add(20));
    w.post(notice(w.today()));
    let receipt = receipts::payments(w.accepted(), till);
    let day = w.within(0, 3);
    w.post(returned_at(till, day, receipt));
    if w.random.once_in(2) {
        let back = w.random.between(amount - 1, amount);
        let till = w.till();
        w.post(payment_at(till, day, back.max(1)));
    }
    w.post(call(w.later(4)));
    w.post(cut(w.later(1)));
}

/// An arrangement of a few cents: its parts, rounded up, come to more than the debt. It is paid part by part, and
/// another is asked for next to every bound, while a bill that came after keeps the account in arrears.
pub fn small_debts(w: &mut Writer) {
    let first = w.within(0, 90);
    let cents = w.random.between(1, 14);
    w.post(bill(first, cents));
    w.post(bill(first + 1, 40_000));
    w.guided(ARRANGEMENT, first + 20);
    for day in w.edge_days() {
        if w.random.once_in(3) {
            let cents = w.random.between(1, 6);
            w.post(payment(day, cents));
        }
        let kind = w.random.pick(&[ARRANGEMENT, ARRANGEMENT, NOTICE, RETURNED]);
        w.guided(kind, day);
    }
}

pub fn medical(w: &mut Writer) {
    for _ in 0..w.random.between(1, 3) {
        w.post(bill(w.today(), 9_000));
        let steps = w.random.below(4);
        w.walk(steps, &MEDICAL);
        w.post(notice(w.later(20)));
        let notice_day = w.today();
        let steps = w.random.between(1, 8);
        w.walk(steps, &MEDICAL);
        // A refused cut changes nothing: every day of the notice may be asked for.
        let first = w.today().max(notice_day.saturating_add(4));
        for day in first..=notice_day.saturating_add(21) {
            w.post(call(day - 1));
            if w.random.once_in(4) {
                let kind = w.random.pick(&MEDICAL);
                w.guided(kind, day - 1);
            }
            w.post(cut(day));
        }
        w.go_to_reconnection();
    }
}

/// On the days around 1 January 2026, certificates of about the most days that one may have before it, and from it on.
pub fn around_2026(w: &mut Writer) {
    let first = NEW_YEAR_2026 - w.random.between(1, 20) as u32;
    w.post(bill(first - 20, 9_000));
    let steps = w.random.below(3);
    w.walk(steps, &MEDICAL);
    for day in NEW_YEAR_2026 - 1..NEW_YEAR_2026 + 2 {
        for _ in 0..w.random.below(3) {
            let longest = w.random.pick(&[LONGEST_FROM_2026, LONGEST_BEFORE_2026]);
            let days = w.random.between(longest - 1, longest + 1);
            w.post(certificate(day, days));
        }
    }
    cut_at_the_ends(w);
    let steps = w.random.below(8);
    w.walk(steps, &COLLECTION);
}

/// A cut on the last day of the certificate that runs longest, and on the day after; first on those two days as they would be
/// if it had no more days than one from 2026 on.
fn cut_at_the_ends(w: &mut Writer) {
    let certificates = w.accepted().iter().filter(|e| e.kind == CERTIFICATE);
    let Some(&longest) = certificates.max_by_key(|e| u64::from(e.day) + e.amount) else {
        return;
    };
    for days in [LONGEST_FROM_2026, longest.amount] {
        let end = longest.day + days as u32;
        let waited = w.random.between(6, 20) as u32;
        w.post(notice(end - waited));
        w.post(call(end - 2));
        if w.random.once_in(4) {
            approve_and_certify(w);
        }
        w.post(cut(end - 1));
        w.post(cut(end));
    }
}

/// An approval, and a certificate that would void it if it were not too long.
fn approve_and_certify(w: &mut Writer) {
    let day = w.today();
    let days = w.random.between(2, 30);
    w.post(approval(day, days));
    let days = w.random.between(LONGEST_FROM_2026, LONGEST_BEFORE_2026 + 1);
    w.post(certificate(day, days));
}
