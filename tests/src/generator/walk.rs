//! Steps that several modes take.
use super::Writer;
use crate::make::*;
use crate::peer::kind::*;
use crate::peer::rows::LARGEST_AMOUNT;
use crate::peer::LAST_DAY;
use tools::event::Event;

impl Writer<'_> {
    /// So many guided events of the kinds given, on the same day, soon after, or on a day next to a bound.
    pub fn walk(&mut self, steps: u64, kinds: &[u8]) {
        for _ in 0..steps {
            let kind = self.random.pick(kinds);
            let day = match self.random.below(8) {
                0..=2 => self.today(),
                3 => self.within(1, 4),
                _ => self.edge_day(),
            };
            if self.random.once_in(60) {
                self.odd_event(kind);
            } else {
                self.guided(kind, day);
            }
        }
    }

    /// An event of a kind with a field that is not as it should be.
    pub fn odd_event(&mut self, kind: u8) {
        let today = self.today();
        let mut event = Event::of(kind, today, 0);
        if self.random.once_in(2) {
            event = self.guided_event(kind, today);
        }
        match self.random.below(5) {
            0 => event.day = self.random.pick(&[LAST_DAY + 1, u32::MAX, 1 << 31]),
            1 => event.day = today.saturating_sub(self.random.between(1, 30) as u32),
            2 => event.option = self.random.pick(&[0, 1, 2, 3, 4, 5, 6, 7, 8, 128, 255]),
            3 => event.amount = self.odd_amount(),
            _ => {}
        }
        self.post(event);
    }

    fn odd_amount(&mut self) -> u64 {
        let any = self.random.draw();
        let some = any >> self.random.below(64);
        let edges = [0, 1, 30, 31, 90, 91, 180, 181, 100_000_000, 100_000_001];
        let edge = self.random.pick(&edges);
        let large = [LARGEST_AMOUNT, LARGEST_AMOUNT + 1, 1 << 63, u64::MAX];
        let large = self.random.pick(&large);
        self.random.pick(&[edge, large, some])
    }

    /// Makes arrears that allow a notice, posts it and goes on to a day of a cut, with a call before.
    pub fn go_to_cut(&mut self) {
        let day = self.within(0, 2);
        self.guided(BILL, day);
        if self.money().owed() < 5_000 {
            self.post(bill(day, 6_000));
        }
        let wait = self.random.pick(&[19, 20, 20, 20, 21]);
        if self.random.once_in(4) {
            self.post(notice(day.saturating_add(wait - 1)));
        }
        self.post(notice(day.saturating_add(wait)));
        let notice_day = self.today();
        let after = self.random.pick(&[4, 5, 5, 6, 12, 19, 20, 20, 21]);
        let before = self.random.pick(&[0, 1, 1, 2, 3, 3, 4]);
        self.post(call(notice_day.saturating_add(after - before)));
        self.post(cut(notice_day.saturating_add(after)));
    }

    /// Pays what stands against a reconnection, more or less, and asks for one.
    pub fn go_to_reconnection(&mut self) {
        let today = self.today();
        for _ in 0..self.random.below(4) {
            let kind = self.random.pick(&[
                PAYMENT,
                PAYMENT,
                ARRANGEMENT,
                DEPOSIT_ASKED,
                DEPOSIT_PAID,
                RECONNECTION,
            ]);
            self.guided(kind, today);
        }
        let owed = self.money().owed();
        if owed > 0 && self.random.once_in(2) {
            self.post(payment(today, owed as u64));
        }
        self.guided(RECONNECTION, today);
    }
}
