//! Days and amounts next to the bounds that the accepted events give.
use super::Writer;
use crate::peer::arrangement::Arrangement;
use crate::peer::calendar::{working_days, Calendar, DAYS};
use crate::peer::kind::*;
use crate::peer::money::{late_charge, received_in_all, Money};
use crate::peer::rows::{
    longest_certificate, LARGEST_AMOUNT, LARGEST_DEPOSIT, LARGEST_TOTAL, NEW_YEAR_2026,
};
use crate::peer::{deposit, receipts, LAST_DAY};
use tools::event::Event;

impl Writer<'_> {
    /// Writes an event of a kind with fields that are mostly in range and often next to a bound.
    pub fn guided(&mut self, kind: u8, day: u32) -> bool {
        let event = self.guided_event(kind, day);
        self.post(event)
    }

    pub fn guided_event(&mut self, kind: u8, day: u32) -> Event {
        let option = match kind {
            PAYMENT => self.till(),
            RETURNED => self.till_with_payments(),
            FEE => self.random.between(1, 3) as u8,
            ARRANGEMENT => self.random.between(2, 6) as u8,
            RECONNECTION => self.random.below(2) as u8,
            _ => 0,
        };
        Event {
            kind,
            option,
            day,
            amount: self.guided_amount(kind, option, day),
        }
    }

    fn guided_amount(&mut self, kind: u8, option: u8, day: u32) -> u64 {
        match kind {
            BILL => self.bill_amount(),
            PAYMENT => self.payment_amount(day),
            RETURNED => self.receipt(option),
            DEPOSIT_ASKED => self.asked_amount(),
            DEPOSIT_PAID => self.paid_amount(),
            PAYOUT => self.payout_amount(),
            CERTIFICATE => {
                let longest = longest_certificate(day);
                let some = self.random.between(1, longest);
                self.random
                    .pick(&[1, 4, 5, 6, 20, some, longest, longest + 1])
            }
            APPROVAL => {
                let some = self.random.between(1, 30);
                self.random.pick(&[1, 3, 4, 5, 30, some])
            }
            _ => 0,
        }
    }

    fn bill_amount(&mut self) -> u64 {
        let money = self.money();
        let owed = money.owed();
        let room = LARGEST_TOTAL - money.charged() - late_charge(owed);
        let small = self.random.between(1, 200) as i64;
        let common = self.random.between(3_000, 30_000) as i64;
        let wanted = [
            small,
            common,
            common,
            6_000,
            5_000,
            133 - owed,
            134 - owed,
            room,
            room + 1,
        ];
        self.amount_of(&wanted)
    }

    fn payment_amount(&mut self, day: u32) -> u64 {
        let money = self.money();
        let owed = money.owed();
        let arrears = money.arrears(day);
        let oldest = money.open_items().first().map_or(0, |item| item.1);
        let room = LARGEST_TOTAL - received_in_all(self.accepted());
        let behind = self.behind(&money, day);
        let some = self.random.between(1, 20_000) as i64;
        let near = self.random.between(0, 2) as i64 - 1;
        let wanted = [
            some,
            owed + near,
            arrears + near,
            arrears - 5_000 + near,
            oldest + near,
            behind,
            behind - 1,
            room,
            room + 1,
        ];
        self.amount_of(&wanted)
    }

    /// What an arrangement still wants to stand on a day.
    pub fn behind(&self, money: &Money, day: u32) -> i64 {
        let last = Arrangement::last(self.accepted(), money);
        last.map_or(0, |last| last.due(day) - last.paid(self.accepted()))
    }

    /// One of the sums wanted that an event can carry. A very large one would hide all else, and is seldom taken.
    fn amount_of(&mut self, wanted: &[i64]) -> u64 {
        for _ in 0..8 {
            let amount = self.random.pick(wanted);
            let large = amount > 1_000_000 && !self.random.once_in(16);
            if (1..=LARGEST_AMOUNT as i64).contains(&amount) && !large {
                return amount as u64;
            }
        }
        self.random.between(1, 9_000)
    }

    /// Any till, half of the time 0.
    pub fn till(&mut self) -> u8 {
        self.random.pick(&[0, 0, 0, 0, 1, 2, 3, 4])
    }

    /// The till of some payment, so that one with many is named often; once in a while any.
    fn till_with_payments(&mut self) -> u8 {
        let payments = self.accepted().iter().filter(|e| e.kind == PAYMENT);
        let tills: Vec<u8> = payments.map(|e| e.option).collect();
        if tills.is_empty() || self.random.once_in(8) {
            return self.till();
        }
        self.random.pick(&tills)
    }

    /// A receipt of a till, often one next to the last that is still known there, or one that another till has or has
    /// seen returned.
    fn receipt(&mut self, till: u8) -> u64 {
        let newest = receipts::payments(self.accepted(), till);
        let some = self.random.between(1, newest.max(1));
        let recent = newest.saturating_sub(self.random.below(4));
        let known = newest.saturating_sub(receipts::KNOWN - 1);
        let forgotten = newest.saturating_sub(receipts::KNOWN);
        let other = self.till();
        let elsewhere = receipts::payments(self.accepted(), other);
        let mut events = self.accepted().iter();
        let returned = events.rfind(|e| e.kind == RETURNED).map_or(1, |e| e.amount);
        let receipt = self.random.pick(&[
            some,
            some,
            recent,
            recent,
            recent,
            known,
            known,
            forgotten,
            newest + 1,
            elsewhere,
            returned,
        ]);
        receipt.max(1)
    }

    fn asked_amount(&mut self) -> u64 {
        let held = deposit::held(self.accepted()) as u64;
        let some = held + self.random.between(1, 20_000);
        self.random
            .pick(&[some, some, some, held + 1, held.max(1), LARGEST_DEPOSIT])
    }

    fn paid_amount(&mut self) -> u64 {
        let rest = deposit::required(self.accepted()) - deposit::held(self.accepted());
        let rest = rest.max(0) as u64;
        let some = self.random.between(1, rest.max(1));
        let amount = self.random.pick(&[rest, rest, some, rest + 1]);
        amount.max(1)
    }

    fn payout_amount(&mut self) -> u64 {
        let credit = (-self.money().owed()).max(0) as u64;
        let some = self.random.between(1, credit.max(1));
        let amount = self.random.pick(&[credit, some, credit + 1]);
        amount.clamp(1, LARGEST_AMOUNT)
    }

    /// The days to come that lie next to a bound.
    pub fn edge_days(&self) -> Vec<u32> {
        let today = self.today();
        let mut days: Vec<u32> = self.accepted().iter().flat_map(edges).collect();
        // A history that is far from it has bounds of its own.
        if today + 30 >= NEW_YEAR_2026 {
            days.extend([NEW_YEAR_2026 - 1, NEW_YEAR_2026]);
        }
        if let Some(calendar) = &self.posted.calendar {
            days.extend(calendar_edges(calendar, self.accepted()));
        }
        days.retain(|&day| (today..=LAST_DAY).contains(&day));
        days.sort_unstable();
        days.dedup();
        days
    }

    /// A day on or next to one that some rule speaks of.
    pub fn edge_day(&mut self) -> u32 {
        let mut days = self.edge_days();
        // The nearest are taken more often: what lies between would never be seen else.
        if self.random.once_in(2) {
            days.truncate(4);
        }
        if days.is_empty() {
            return self.later(1);
        }
        self.random.pick(&days)
    }
}

/// The days next to both ends of a calendar, and to the fifth working day after each notice.
fn calendar_edges(calendar: &Calendar, accepted: &[Event]) -> Vec<u32> {
    let first = u64::from(calendar.first);
    let ends = [
        first.saturating_sub(1),
        first,
        first + DAYS - 1,
        first + DAYS,
    ];
    let fifth = |notice: &Event| {
        let waited = |day: &u32| working_days(calendar, notice.day, *day) >= 5;
        (notice.day..notice.day + 22).find(waited)
    };
    let notices = accepted.iter().filter(|e| e.kind == NOTICE);
    let waits = notices.filter_map(fifth).flat_map(|day| [day - 1, day]);
    let ends = ends.into_iter().filter_map(|day| u32::try_from(day).ok());
    ends.chain(waits).collect()
}

/// The days next to the bounds that an accepted event gives.
fn edges(event: &Event) -> Vec<u32> {
    let days = event.amount as u32;
    let steps: Vec<u32> = match event.kind {
        BILL | FEE | RETURNED => vec![19, 20],
        DEPOSIT_PAID => vec![364, 365, 366],
        CERTIFICATE | APPROVAL => vec![days - 1, days],
        ARRANGEMENT => (1..=u32::from(event.option))
            .flat_map(|part| [30 * part - 1, 30 * part])
            .collect(),
        NOTICE => vec![4, 5, 20, 21, 364, 365],
        CALL => vec![0, 1, 3, 4],
        CUT => vec![364, 365],
        _ => vec![],
    };
    steps.into_iter().map(|step| event.day + step).collect()
}
