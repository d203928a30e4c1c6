//! Modes about sums, open items and receipts.
use super::deposit::{earned_from, fill_deposit};
use crate::generator::Writer;
use crate::make::*;
use crate::peer::deposit;
use crate::peer::kind::*;
use crate::peer::money::{late_charge, received_in_all};
use crate::peer::receipts::TILLS;
use crate::peer::rows::{LARGEST_AMOUNT, LARGEST_TOTAL};
use tools::event::Event;

pub fn returned_checks(w: &mut Writer) {
    match w.random.once_in(4) {
        true => tills_in_turn(w),
        false => busy_till(w),
    }
    past_the_last_till(w);
    let steps = w.random.between(5, 40);
    w.walk(
        steps,
        &[BILL, PAYMENT, RETURNED, RETURNED, RETURNED, PAYOUT],
    );
}

/// One till takes most of the payments, so that it forgets its first while others still know all of theirs.
fn busy_till(w: &mut Writer) {
    let busy = w.random.below(TILLS.into()) as u8;
    for _ in 0..w.random.between(1, 40) {
        let till = match w.random.once_in(3) {
            true => w.till(),
            false => busy,
        };
        pay_at(w, till);
    }
}

/// All tills take as many payments, until each knows as many as it can or is about to.
fn tills_in_turn(w: &mut Writer) {
    for turn in 0..w.random.between(78, 88) {
        pay_at(w, turn as u8 % TILLS);
    }
}

/// A payment of any amount, and now and then a return of it or of one before.
fn pay_at(w: &mut Writer, till: u8) {
    let day = w.within(0, 2);
    let amount = w.random.between(1, 5_000);
    w.post(payment_at(till, day, amount));
    if w.random.once_in(3) {
        w.guided(RETURNED, day);
    }
}

/// A payment and a return at the first till that there is not, all else as at one that there is.
fn past_the_last_till(w: &mut Writer) {
    for kind in [PAYMENT, RETURNED] {
        let event = w.guided_event(kind, w.today());
        let option = TILLS;
        w.post(Event { option, ..event });
    }
}

pub fn open_items(w: &mut Writer) {
    let steps = w.random.below(4);
    w.walk(steps, &[PAYMENT, BILL]);
    for _ in 0..w.random.between(60, 68) {
        let kind = w.random.pick(&[FEE, FEE, FEE, BILL]);
        let day = w.within(0, 1);
        w.guided(kind, day);
    }
    let steps = w.random.between(5, 30);
    let kinds = [BILL, FEE, FEE, FEE, NOTICE, PAYMENT, PAYMENT, RETURNED];
    w.walk(steps, &kinds);
}

/// A reconnection makes an item too, and only an account that is off can be refused one.
pub fn open_while_off(w: &mut Writer) {
    w.post(bill(w.today(), 6_000));
    w.post(notice(w.later(20)));
    w.post(call(w.later(4)));
    w.post(cut(w.later(1)));
    if w.random.once_in(2) {
        w.post(arrangement(w.today(), 6));
    }
    for _ in 0..w.random.between(58, 66) {
        w.guided(FEE, w.today());
    }
    let steps = w.random.between(3, 12);
    w.walk(steps, &[FEE, FEE, RECONNECTION, RECONNECTION, PAYMENT]);
    w.go_to_reconnection();
}

pub fn totals(w: &mut Writer) {
    let off = w.random.once_in(3);
    if off {
        w.go_to_cut();
    }
    if w.random.once_in(2) {
        fill_deposit(w);
    }
    large_sums(w);
    fill_charges(w);
    fill_credits(w);
    if w.random.once_in(2) {
        w.post(notice(w.later(20)));
    }
    if w.random.once_in(2) {
        w.post(deposit_moved(earned_from(w.today())));
    }
    let steps = w.random.between(5, 25);
    let kinds = [
        BILL,
        PAYMENT,
        RETURNED,
        FEE,
        FEE,
        NOTICE,
        PAYOUT,
        RECONNECTION,
        DEPOSIT_MOVED,
    ];
    w.walk(steps, &kinds);
    w.post(close(w.today()));
    w.walk(3, &[PAYMENT, RETURNED, PAYOUT]);
}

/// As many open items as may be and charges at their end, so that both refuse: the smaller number is the answer.
pub fn both_ends(w: &mut Writer) {
    while w.money().charged() < LARGEST_TOTAL - 14_000_000_000 {
        let open = w.money().open_items();
        let today = w.today();
        if open.len() >= 58 {
            w.post(payment(today, open[0].1 as u64));
        } else {
            w.post(bill(today, LARGEST_AMOUNT / 2));
        }
    }
    while w.money().open_items().len() < 62 {
        w.guided(FEE, w.today());
    }
    fill_charges(w);
    w.post(fee(w.today(), 3));
    let steps = w.random.between(2, 8);
    w.walk(steps, &[BILL, FEE, FEE, NOTICE, RETURNED, PAYMENT]);
}

/// So many of the largest bills, payments or both that one of the totals is near its end.
fn large_sums(w: &mut Writer) {
    let near = w.random.between(95, 101);
    let counts = [(near, near), (near, 3), (near, 60), (3, near)];
    let (bills, payments) = w.random.pick(&counts);
    for turn in 0..bills.max(payments) {
        if turn < bills {
            w.post(bill(w.today(), LARGEST_AMOUNT));
        }
        if turn < payments {
            w.post(payment(w.today(), LARGEST_AMOUNT));
        }
    }
}

/// Brings the charges to their end, to a cent before, or to less than a fee before it.
fn fill_charges(w: &mut Writer) {
    let short = w.random.pick(&[0, 0, 1, 1_499, 1_500, 1_501, 2_000, 3_000]);
    for _ in 0..12 {
        let money = w.money();
        let late = late_charge(money.owed());
        let room = LARGEST_TOTAL - money.charged() - late - short;
        if room <= 0 {
            return;
        }
        w.post(bill(w.today(), room.min(LARGEST_AMOUNT as i64) as u64));
    }
}

/// The same of payments plus deposits moved; what is held may be short of it by one.
fn fill_credits(w: &mut Writer) {
    let held = deposit::held(w.accepted());
    let short = w.random.pick(&[0, 1, held, held, held - 1]);
    for _ in 0..12 {
        let received = received_in_all(w.accepted());
        let room = LARGEST_TOTAL - received - short;
        if room <= 0 {
            return;
        }
        w.post(payment(w.today(), room.min(LARGEST_AMOUNT as i64) as u64));
    }
}

pub fn late_charges(w: &mut Writer) {
    for _ in 0..w.random.between(3, 20) {
        let today = w.today();
        let owed = w.money().owed();
        // Owed just before and at each of the first cents of a late charge.
        let cents = w.random.below(6) as i64;
        let wanted = (400 * cents + 2) / 3 - w.random.below(2) as i64;
        if wanted > owed {
            w.post(bill(today, (wanted - owed) as u64));
        } else if wanted < owed {
            w.post(payment(today, (owed - wanted) as u64));
        }
        let amount = w.random.between(1, 500);
        w.post(bill(today, amount));
    }
}
