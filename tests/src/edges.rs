//! The bounds of the rules, each as a question about an event and its answer.
mod calendar;
mod deposit;

use crate::peer::arrangement::{stands, Arrangement};
use crate::peer::calendar::Calendar;
use crate::peer::collection::{called, live_notice};
use crate::peer::deposit::held;
use crate::peer::kind::*;
use crate::peer::money::{charge, received, received_in_all, Money};
use crate::peer::receipts::{payments, returnable, KNOWN, TILLS};
use crate::peer::rows::{refusal, LARGEST_TOTAL};
use crate::peer::{medical, receipts, LAST_DAY};
use tools::event::Event;

pub use calendar::CALENDAR_EDGES;
pub use deposit::DEPOSIT_EDGES;

/// An event with what was accepted before it and with its answer.
pub struct Case<'a> {
    /// Of the account, where it has one.
    pub calendar: Option<&'a Calendar>,
    pub accepted: &'a [Event],
    pub money: &'a Money,
    pub event: Event,
    pub answer: u8,
}

pub type Edge = (&'static str, fn(&Case) -> bool);

/// A name for each bound and what meets it, of events posted to an account without a calendar.
pub const EDGES: [Edge; 80] = [
    ("final notice at arrears of 5,000", |c| {
        c.is(NOTICE, 0) && c.arrears() == 5_000
    }),
    ("final notice refused at arrears of 4,999", |c| {
        c.is(NOTICE, 10) && c.arrears() == 4_999
    }),
    ("final notice for an item of 20 days", |c| {
        c.is(NOTICE, 0) && c.open_item_of(20)
    }),
    ("final notice refused beside a large item of 19 days", |c| {
        c.is(NOTICE, 10) && c.open_item_of(19)
    }),
    ("final notice refused 20 days after a live one", |c| {
        c.is(NOTICE, 11) && c.ago(NOTICE, 20)
    }),
    ("final notice 21 days after the last, uncut", |c| {
        c.is(NOTICE, 0) && c.ago(NOTICE, 21) && !c.used_up()
    }),
    ("final notice after one that lapsed in its days", |c| {
        c.is(NOTICE, 0) && c.within(NOTICE, 0, 20) && !c.used_up()
    }),
    (
        "final notice after one that a cut used up in its days",
        |c| c.is(NOTICE, 0) && c.within(NOTICE, 0, 20) && c.used_up(),
    ),
    ("cut refused on notice + 4", |c| {
        c.is(CUT, 12) && c.live() == Some(4)
    }),
    ("cut on notice + 5", |c| c.is(CUT, 0) && c.live() == Some(5)),
    ("cut on notice + 20", |c| {
        c.is(CUT, 0) && c.live() == Some(20)
    }),
    ("cut refused on notice + 21", |c| {
        c.is(CUT, 12) && c.ago(NOTICE, 21)
    }),
    ("cut refused after the notice lapsed in its days", |c| {
        c.is(CUT, 12) && c.within(NOTICE, 5, 20) && !c.used_up()
    }),
    ("cut refused after a cut used the notice up", |c| {
        c.is(CUT, 12) && c.within(NOTICE, 5, 20) && c.used_up()
    }),
    ("cut at arrears of 5,000", |c| {
        c.is(CUT, 0) && c.arrears() == 5_000
    }),
    ("cut refused at arrears of 4,999", |c| {
        c.is(CUT, 10) && c.arrears() == 4_999
    }),
    ("cut with a call three days before and none since", |c| {
        c.is(CUT, 0) && c.ago(CALL, 3)
    }),
    ("cut with a call on the day before", |c| {
        c.is(CUT, 0) && c.ago(CALL, 1)
    }),
    ("cut refused with the last call four days before", |c| {
        c.is(CUT, 13) && c.ago(CALL, 4)
    }),
    ("cut refused with a call on its own day", |c| {
        c.is(CUT, 13) && c.ago(CALL, 0)
    }),
    ("cut with a call in its days and one on its own day", |c| {
        c.is(CUT, 0) && c.ago(CALL, 0) && called(c.accepted, c.event.day)
    }),
    ("cut refused on an arrangement's last day", |c| {
        c.is(CUT, 14) && c.arrangement_left() == Some(1)
    }),
    ("cut on the first day after an arrangement", |c| {
        c.is(CUT, 0) && c.arrangement_left() == Some(0)
    }),
    ("cut while an arrangement is behind", |c| {
        c.is(CUT, 0) && c.arrangement_left().is_some_and(|left| left > 0)
    }),
    ("cut refused where an arrangement caught up", |c| {
        c.is(CUT, 14) && c.caught_up()
    }),
    ("cut refused where all that was due is paid", |c| {
        c.is(CUT, 14) && c.ahead_by(0)
    }),
    (
        "cut refused where two tills' payments keep an arrangement",
        |c| c.is(CUT, 14) && c.no_till_alone(),
    ),
    ("cut where an arrangement lacks one cent", |c| {
        c.is(CUT, 0) && c.ahead_by(-1)
    }),
    ("cut with an arrangement behind by a returned check", |c| {
        c.is(CUT, 0) && c.behind_by_return()
    }),
    (
        "cut in an arrangement's first month, more returned than paid",
        |c| c.is(CUT, 0) && c.below_nothing(),
    ),
    ("cut refused on a certificate's last day", |c| {
        c.is(CUT, 15) && c.ends(CERTIFICATE, 1)
    }),
    ("cut on the day after a certificate", |c| {
        c.is(CUT, 0) && c.ends(CERTIFICATE, 0)
    }),
    ("cut on an approval's last day, certified", |c| {
        c.is(CUT, 0) && c.certified() && c.ends(APPROVAL, 1)
    }),
    ("cut refused on the day after an approval", |c| {
        c.is(CUT, 15) && c.ends(APPROVAL, 0)
    }),
    ("cut refused where a certificate voids an approval", |c| {
        c.is(CUT, 15) && c.voided()
    }),
    (
        "cut refused where an earlier certificate runs longer",
        |c| c.is(CUT, 15) && c.outlived(CERTIFICATE),
    ),
    ("cut where an earlier approval runs longer", |c| {
        c.is(CUT, 0) && c.certified() && c.outlived(APPROVAL)
    }),
    ("certificate of 180 days on day 9,496", |c| {
        c.certificate(9_496, 180) && c.answer == 0
    }),
    ("certificate of 181 days refused on day 9,496", |c| {
        c.certificate(9_496, 181) && c.longer_than(180)
    }),
    ("certificate of 90 days on day 9,497", |c| {
        c.certificate(9_497, 90) && c.answer == 0
    }),
    (
        "certificate of 91 days refused as the first event of day 9,497",
        |c| c.certificate(9_497, 91) && c.longer_than(90) && c.is_first_of_its_day(),
    ),
    ("certificate of 180 days refused on day 9,497", |c| {
        c.certificate(9_497, 180) && c.longer_than(90)
    }),
    ("certificate of 91 days refused on the last day", |c| {
        c.certificate(LAST_DAY, 91) && c.longer_than(90)
    }),
    (
        "certificate of 91 to 180 days refused while an approval allows a cut",
        |c| c.longer_than(90) && c.event.amount <= 180 && c.certified() && c.approved(),
    ),
    (
        "cut refused on the last of a certificate's over 90 days, from 9,497 on",
        |c| c.is(CUT, 15) && c.ends(CERTIFICATE, 1) && c.long_since_2026(),
    ),
    (
        "cut on the day after a certificate's over 90 days, from 9,497 on",
        |c| c.is(CUT, 0) && c.ends(CERTIFICATE, 0) && c.long_since_2026(),
    ),
    ("payout of the whole credit", |c| {
        c.is(PAYOUT, 0) && c.amount() == -c.money.owed()
    }),
    ("payout refused for one cent", |c| {
        c.is(PAYOUT, 7) && c.money.owed() < 0 && c.amount() == 1 - c.money.owed()
    }),
    ("the 16th newest payment of its till returned", |c| {
        c.is(RETURNED, 0) && c.newer_there() == Some(15)
    }),
    ("the 17th newest payment of its till refused", |c| {
        c.is(RETURNED, 6) && c.newer_there() == Some(16) && !c.was_returned()
    }),
    (
        "the 17th newest refused where some of the 16 were returned",
        |c| c.is(RETURNED, 6) && c.newer_there() == Some(16) && c.newer_returned(),
    ),
    ("the 17th newest payment of all tills returned", |c| {
        c.is(RETURNED, 0) && c.newer_anywhere() == Some(16)
    }),
    (
        "the 33rd newest of all tills, or an older one, returned",
        |c| c.is(RETURNED, 0) && c.newer_anywhere() >= Some(32),
    ),
    ("a payment returned while every till knows 16", |c| {
        c.is(RETURNED, 0) && (0..TILLS).all(|till| payments(c.accepted, till) >= KNOWN)
    }),
    ("a payment returned twice refused", |c| {
        c.is(RETURNED, 6) && c.newer_there() < Some(16) && c.was_returned()
    }),
    (
        "a receipt returned that was returned at another till",
        |c| c.is(RETURNED, 0) && c.returned_elsewhere(),
    ),
    ("a receipt refused that only another till has", |c| {
        c.is(RETURNED, 6) && c.newer_there().is_none() && c.returnable_elsewhere()
    }),
    ("a payment at till 4", |c| {
        c.is(PAYMENT, 0) && c.event.option == 4
    }),
    ("a payment refused at till 5", |c| {
        c.is(PAYMENT, 3) && c.event.option == 5 && c.fine_at_a_till()
    }),
    ("a payment returned at till 4", |c| {
        c.is(RETURNED, 0) && c.event.option == 4
    }),
    ("a return refused at till 5", |c| {
        c.is(RETURNED, 3) && c.event.option == 5 && c.fine_at_a_till()
    }),
    ("the 64th open item", |c| {
        c.answer == 0 && c.item().is_some() && c.money.open_items().len() == 63
    }),
    ("charges of 1,000,000,000,000", |c| {
        c.answer == 0 && c.item().is_some() && c.charged() == LARGEST_TOTAL
    }),
    ("charges refused for one cent", |c| {
        c.answer == 19 && c.charged() == LARGEST_TOTAL + 1
    }),
    (
        "the 65th item refused where the charges would pass too",
        |c| c.answer == 18 && c.charged() > LARGEST_TOTAL,
    ),
    ("payments and deposits of 1,000,000,000,000", |c| {
        c.answer == 0 && c.receives() && c.credited() == LARGEST_TOTAL
    }),
    ("payments and deposits refused for one cent", |c| {
        c.answer == 19 && c.credited() == LARGEST_TOTAL + 1
    }),
    ("a deposit moved on close makes 1,000,000,000,000", |c| {
        c.is(CLOSE, 0) && held(c.accepted) > 0 && c.credited() == LARGEST_TOTAL
    }),
    ("an event on the last day", |c| {
        c.answer == 0 && c.event.day == LAST_DAY
    }),
    ("an event refused on the day after", |c| {
        c.answer == 1 && c.event.day == LAST_DAY + 1
    }),
    ("a bill at 133 owed", |c| {
        c.is(BILL, 0) && c.money.owed() == 133
    }),
    ("a bill at 134 owed", |c| {
        c.is(BILL, 0) && c.money.owed() == 134
    }),
    ("a bill at 266 owed", |c| c.billed_at(266)),
    ("a bill at 267 owed", |c| c.billed_at(267)),
    ("a bill at 399 owed", |c| c.billed_at(399)),
    ("a bill at 400 owed", |c| c.billed_at(400)),
    ("a bill on a credit of over 133", |c| {
        c.is(BILL, 0) && c.money.owed() < -133
    }),
    ("reconnection under an arrangement", |c| {
        c.is(RECONNECTION, 0) && c.arrears() > 0
    }),
    ("the seventieth bill", |c| {
        c.is(BILL, 0) && c.accepted.iter().filter(|e| e.kind == BILL).count() == 69
    }),
    ("payout after closing", |c| c.is(PAYOUT, 0) && c.any(CLOSE)),
];

impl Case<'_> {
    fn is(&self, kind: u8, answer: u8) -> bool {
        self.event.kind == kind && self.answer == answer
    }

    /// An accepted bill with so much owed before it.
    fn billed_at(&self, owed: i64) -> bool {
        self.is(BILL, 0) && self.money.owed() == owed
    }

    fn amount(&self) -> i64 {
        self.event.amount as i64
    }

    fn arrears(&self) -> i64 {
        self.money.arrears(self.event.day)
    }

    fn any(&self, kind: u8) -> bool {
        self.accepted.iter().any(|e| e.kind == kind)
    }

    /// The days since an earlier event.
    fn days_since(&self, earlier: &Event) -> u32 {
        self.event.day - earlier.day
    }

    fn last(&self, kind: u8) -> Option<&Event> {
        self.accepted.iter().rfind(|e| e.kind == kind)
    }

    /// Whether the last event of a kind was so many days before.
    fn ago(&self, kind: u8, days: u32) -> bool {
        self.within(kind, days, days)
    }

    fn within(&self, kind: u8, first: u32, last: u32) -> bool {
        let last_event = self.last(kind);
        last_event.is_some_and(|e| (first..=last).contains(&self.days_since(e)))
    }

    fn some_ago(&self, kind: u8, days: u32) -> bool {
        let mut events = self.accepted.iter();
        events.any(|e| e.kind == kind && self.days_since(e) == days)
    }

    /// An open item of so many days that alone would allow a final notice.
    fn open_item_of(&self, days: u32) -> bool {
        let mut open = self.money.open_items().into_iter();
        open.any(|(day, unpaid)| self.event.day - day == days && unpaid >= 5_000)
    }

    /// Whether a cut came after the last notice.
    fn used_up(&self) -> bool {
        let mut ends = self.accepted.iter().rev();
        ends.find(|e| e.kind == NOTICE || e.kind == CUT)
            .is_some_and(|e| e.kind == CUT)
    }

    /// How many days ago the live notice was.
    fn live(&self) -> Option<u32> {
        live_notice(self.accepted, self.money, self.event.day).map(|day| self.event.day - day)
    }

    /// How many days an arrangement still has, this one among them.
    fn arrangement_left(&self) -> Option<i64> {
        let last = Arrangement::last(self.accepted, self.money)?;
        Some(last.end() - i64::from(self.event.day))
    }

    /// Whether the arrangement that stands did not stand after some event before.
    fn caught_up(&self) -> bool {
        let Some(last) = Arrangement::last(self.accepted, self.money) else {
            return false;
        };
        (last.event..self.accepted.len()).any(|at| {
            let earlier = &self.accepted[..=at];
            !stands(earlier, &Money::of(earlier), self.accepted[at].day)
        })
    }

    /// Whether an arrangement in its days, with something due, is paid so much ahead.
    fn ahead_by(&self, cents: i64) -> bool {
        let Some(last) = Arrangement::last(self.accepted, self.money) else {
            return false;
        };
        let due = last.due(self.event.day);
        let in_its_days = i64::from(self.event.day) < last.end();
        in_its_days && due > 0 && last.paid(self.accepted) - due == cents
    }

    /// Whether an arrangement in its days would stand without the checks returned.
    fn behind_by_return(&self) -> bool {
        let Some(last) = Arrangement::last(self.accepted, self.money) else {
            return false;
        };
        let after = &self.accepted[last.event + 1..];
        let payments = after.iter().filter(|e| e.kind == PAYMENT);
        let paid: i64 = payments.map(|e| e.amount as i64).sum();
        i64::from(self.event.day) < last.end() && paid >= last.due(self.event.day)
    }

    /// Whether an arrangement wants more than was paid after it at any one till.
    fn no_till_alone(&self) -> bool {
        let Some(last) = Arrangement::last(self.accepted, self.money) else {
            return false;
        };
        let mut paid = [0; TILLS as usize];
        for e in &self.accepted[last.event + 1..] {
            if e.kind == PAYMENT {
                paid[usize::from(e.option)] += e.amount as i64;
            }
        }
        let due = last.due(self.event.day);
        paid.iter().all(|&paid| paid < due)
    }

    /// Whether an arrangement has nothing due yet, and less than nothing was paid after it.
    fn below_nothing(&self) -> bool {
        let Some(last) = Arrangement::last(self.accepted, self.money) else {
            return false;
        };
        last.due(self.event.day) == 0 && last.paid(self.accepted) < 0
    }

    fn certified(&self) -> bool {
        medical::certified(self.accepted, self.event.day)
    }

    fn approved(&self) -> bool {
        medical::approved(self.accepted, self.event.day)
    }

    /// Whether nothing was accepted on the event's day.
    fn is_first_of_its_day(&self) -> bool {
        self.accepted.iter().all(|e| e.day < self.event.day)
    }

    /// Whether the event is a certificate of a day, with so many days.
    fn certificate(&self, day: u32, days: u64) -> bool {
        let Event { kind, amount, .. } = self.event;
        kind == CERTIFICATE && self.event.day == day && amount == days
    }

    /// Whether only its length is wrong: a certificate refused that would be accepted if it had so many days, and has more.
    fn longer_than(&self, days: u64) -> bool {
        let as_long = Event {
            amount: days,
            ..self.event
        };
        let refused = self.is(CERTIFICATE, 3) && self.event.amount > days;
        refused && refusal(self.calendar, self.accepted, as_long) == 0
    }

    /// Whether the last certificate has more days than one of this day could have.
    fn long_since_2026(&self) -> bool {
        let long = self.last(CERTIFICATE).is_some_and(|e| e.amount > 90);
        long && self.event.day >= 9_497
    }

    /// Whether the last certificate or approval has so many days left, this one among them.
    fn ends(&self, kind: u8, left: u64) -> bool {
        let end = self.last(kind).map(|e| u64::from(e.day) + e.amount);
        end == Some(u64::from(self.event.day) + left)
    }

    /// Whether an approval covers the day but was posted before the last certificate.
    fn voided(&self) -> bool {
        let others: Vec<Event> = self
            .accepted
            .iter()
            .filter(|e| e.kind == APPROVAL)
            .copied()
            .collect();
        medical::approved(&others, self.event.day)
    }

    /// Whether the last certificate or approval is over; with one in force, an earlier one is it.
    fn outlived(&self, kind: u8) -> bool {
        let end = self.last(kind).map(|e| u64::from(e.day) + e.amount);
        end.is_some_and(|end| end <= u64::from(self.event.day))
    }

    /// How many payments of its till are newer than the one returned, if the till has it.
    fn newer_there(&self) -> Option<u64> {
        payments(self.accepted, self.event.option).checked_sub(self.event.amount)
    }

    /// How many payments of all tills are newer than the one returned.
    fn newer_anywhere(&self) -> Option<usize> {
        let newest_first = self.accepted.iter().rev().filter(|e| e.kind == PAYMENT);
        let mut of_till = newest_first
            .enumerate()
            .filter(|(_, e)| e.option == self.event.option);
        let (newer, _) = of_till.nth(self.newer_there()? as usize)?;
        Some(newer)
    }

    fn was_returned(&self) -> bool {
        receipts::returned(self.accepted, self.event.option, self.event.amount)
    }

    /// Whether it was not returned, but one that is newer at its till was.
    fn newer_returned(&self) -> bool {
        let mut returns = self.accepted.iter().filter(|e| e.kind == RETURNED);
        let newer = |e: &Event| e.option == self.event.option && e.amount > self.event.amount;
        !self.was_returned() && returns.any(newer)
    }

    fn other_tills(&self) -> impl Iterator<Item = u8> {
        let own = self.event.option;
        (0..TILLS).filter(move |&till| till != own)
    }

    fn returned_elsewhere(&self) -> bool {
        self.other_tills()
            .any(|till| receipts::returned(self.accepted, till, self.event.amount))
    }

    fn returnable_elsewhere(&self) -> bool {
        self.other_tills()
            .any(|till| returnable(self.accepted, till, self.event.amount))
    }

    /// Whether only the till is wrong: there is one at which the event would be accepted.
    fn fine_at_a_till(&self) -> bool {
        let at = |option| Event {
            option,
            ..self.event
        };
        (0..TILLS).any(|till| refusal(self.calendar, self.accepted, at(till)) == 0)
    }

    fn item(&self) -> Option<i64> {
        charge(self.accepted, self.money.owed(), self.event)
    }

    /// The charges with this event's.
    fn charged(&self) -> i64 {
        self.money.charged() + self.item().unwrap_or(0)
    }

    fn receives(&self) -> bool {
        received(self.accepted, self.event) > 0
    }

    /// Payments plus deposits moved with this event's.
    fn credited(&self) -> i64 {
        received_in_all(self.accepted) + received(self.accepted, self.event)
    }
}
