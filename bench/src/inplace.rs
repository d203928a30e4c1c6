//! The same rules in place, written for speed: one account in bounded memory that every event changes where it stands.
//! It is what the proved core is measured against, so it takes the short cuts that a careful programmer would take.
//!
//! Credits pay the oldest charge first and days never go back, so the charges up to the newest delinquent one, less the
//! credits, are the arrears: a running cursor replaces every loop over the open items.

const LAST_DAY: u32 = 73_048;
const LIMIT: u64 = 1_000_000_000_000;
const LARGEST_AMOUNT: u64 = 10_000_000_000;
const LARGEST_DEPOSIT: u64 = 100_000_000;
const ENOUGH_ARREARS: u64 = 5_000;
const CERTIFICATE_DAYS: u64 = 180;
const SHORT_CERTIFICATE_DAYS: u64 = 90;
const SHORT_CERTIFICATES_FROM: u32 = 9_497;
/// Days from 1 March of a leap year on: in four years, and in the first three of them. The fourth ends with 29 February.
const FOUR_YEARS: u32 = 1_461;
const THREE_YEARS: u32 = 1_095;
/// So many days of such four years have passed on day 0.
const PASSED_ON_DAY_0: u32 = 1_401;
/// 1 March 2100, before which there was no 29 February.
const MARCH_2100: u32 = 36_584;
const OPEN: usize = 64;
const TILLS: usize = 5;
const KNOWN: u64 = 16;
const FEES: [u64; 8] = [0, 7_500, 15_000, 3_000, 1_500, 2_500, 2_000, 7_500];
const NOTICE_FEE: usize = 4;
const RETURN_FEE: usize = 5;
const RECONNECTION_FEE: usize = 6;

#[derive(Clone, Copy, PartialEq)]
enum Service {
    On,
    Off,
    Closed,
}

/// A charge that is not paid: its day, and all charges up to it.
#[derive(Clone, Copy)]
struct Item {
    day: u32,
    upto: u64,
}

/// A record of a book, read where it lies.
#[derive(Clone, Copy)]
pub struct Record {
    pub kind: u8,
    pub option: u8,
    pub day: u32,
    pub amount: u64,
}

/// A payment arrangement, with payments less returned ones since. In no parts where there is none.
#[derive(Clone, Copy)]
struct Arrangement {
    day: u32,
    parts: u8,
    debt: u64,
    paid: i64,
}

pub struct Account {
    last: u32,
    service: Service,
    notice_live: bool,
    notice_day: u32,
    charged: u64,
    credited: u64,
    paid_out: u64,
    // The open items are `count` places from `head` on; the first `passed` of them are delinquent on the last day, and
    // `due` is what was charged up to the newest delinquent one.
    head: usize,
    count: usize,
    passed: usize,
    due: u64,
    held: u64,
    required: u64,
    full_on: u32,
    // The day after an event, 0 for none: the three newest final notices, the newest disconnection, and the last two
    // days on which there was a call.
    notices: [u32; 3],
    cut: u32,
    calls: [u32; 2],
    // The day past the end of certificates, and of the approvals after the newest.
    certified_to: u32,
    approved_to: u32,
    arrangement: Arrangement,
    // Of each till: how many payments it took, and the newest of them by receipt, 0 for one that was returned.
    payments: [u64; TILLS],
    recent: [[u64; KNOWN as usize]; TILLS],
    refused: u64,
    items: [Item; OPEN],
}

impl Account {
    pub fn fresh() -> Account {
        Account {
            last: 0,
            service: Service::On,
            notice_live: false,
            notice_day: 0,
            charged: 0,
            credited: 0,
            paid_out: 0,
            head: 0,
            count: 0,
            passed: 0,
            due: 0,
            held: 0,
            required: 0,
            full_on: 0,
            notices: [0; 3],
            cut: 0,
            calls: [0; 2],
            certified_to: 0,
            approved_to: 0,
            arrangement: Arrangement {
                day: 0,
                parts: 0,
                debt: 0,
                paid: 0,
            },
            payments: [0; TILLS],
            recent: [[0; KNOWN as usize]; TILLS],
            refused: 0,
            items: [Item { day: 0, upto: 0 }; OPEN],
        }
    }

    fn credits(&self) -> u64 {
        self.credited - self.paid_out
    }

    pub fn owed(&self) -> i64 {
        self.charged as i64 - self.credits() as i64
    }

    /// How many of the open items are delinquent on day t, and what was charged up to the newest delinquent one.
    #[inline]
    fn passed_on(&self, t: u32) -> (usize, u64) {
        let (mut passed, mut due) = (self.passed, self.due);
        while passed < self.count {
            let item = self.items[(self.head + passed) % OPEN];
            if item.day + 20 > t {
                break;
            }
            due = item.upto;
            passed += 1;
        }
        (passed, due)
    }

    #[inline]
    fn arrears(&self, t: u32) -> u64 {
        self.passed_on(t).1.saturating_sub(self.credits())
    }

    fn in_force(&self, t: u32) -> bool {
        let a = &self.arrangement;
        let parts = a.parts as u64;
        if t as u64 >= a.day as u64 + 30 * parts {
            return false;
        }
        let part = a.debt.div_ceil(parts);
        let months = ((t - a.day) / 30) as u64;
        a.paid >= a.debt.min(part * months) as i64
    }

    /// Posts one event: 0 where it is accepted, else the number that refuses it, and the account is as it was.
    #[inline]
    pub fn post(&mut self, e: Record) -> u8 {
        let number = self.judge(e);
        if number == 0 {
            self.last = e.day;
            self.settle(e.day);
        } else {
            self.refused += 1;
        }
        number
    }

    #[inline]
    fn judge(&mut self, e: Record) -> u8 {
        if e.day > LAST_DAY {
            return 1;
        }
        if e.day < self.last {
            return 2;
        }
        match e.kind {
            1 => self.bill(e),
            2 => self.payment(e),
            3 => self.returned(e),
            4 => self.fee(e),
            5 => self.deposit_asked(e),
            6 => self.deposit_paid(e),
            7 => self.deposit_moved(e),
            8 => self.payout(e),
            9 => self.certificate(e),
            10 => self.approval(e),
            11 => self.arrange(e),
            12 => self.final_notice(e),
            13 => self.call(e),
            14 => self.disconnection(e),
            15 => self.reconnection(e),
            16 => self.closing(e),
            _ => 3,
        }
    }

    /// Closes what is paid, moves the cursor to day t, and lets the notice lapse where the arrears are too low.
    #[inline]
    fn settle(&mut self, t: u32) {
        let credits = self.credits();
        while self.count > 0 && self.items[self.head].upto <= credits {
            self.head = (self.head + 1) % OPEN;
            self.count -= 1;
            self.passed = self.passed.saturating_sub(1);
        }
        (self.passed, self.due) = self.passed_on(t);
        if self.notice_live && self.due < credits + ENOUGH_ARREARS {
            self.notice_live = false;
        }
    }

    /// Adds an item, or says why there is no room for it.
    #[inline]
    fn charge(&mut self, day: u32, amount: u64) -> u8 {
        if self.count == OPEN {
            return 18;
        }
        if self.charged + amount > LIMIT {
            return 19;
        }
        self.charged += amount;
        let at = (self.head + self.count) % OPEN;
        self.items[at] = Item {
            day,
            upto: self.charged,
        };
        self.count += 1;
        0
    }

    #[inline]
    fn credit(&mut self, amount: u64) -> u8 {
        if self.credited + amount > LIMIT {
            return 19;
        }
        self.credited += amount;
        0
    }

    /// 3 or 4 for an event that takes an amount from 1 to `largest`, 0 where neither refuses it.
    #[inline]
    fn amount_or_closed(&self, e: Record, largest: u64) -> u8 {
        if e.option != 0 || e.amount.wrapping_sub(1) >= largest {
            return 3;
        }
        self.closed()
    }

    /// 3 or 4 for an event that takes an option from `from` to `to`.
    #[inline]
    fn option_or_closed(&self, e: Record, from: u8, to: u8) -> u8 {
        if e.amount != 0 || e.option < from || e.option > to {
            return 3;
        }
        self.closed()
    }

    #[inline]
    fn closed(&self) -> u8 {
        if self.service == Service::Closed {
            4
        } else {
            0
        }
    }

    #[inline]
    fn bill(&mut self, e: Record) -> u8 {
        let number = self.amount_or_closed(e, LARGEST_AMOUNT);
        if number != 0 {
            return number;
        }
        let late = 3 * self.charged.saturating_sub(self.credits()) / 400;
        self.charge(e.day, e.amount + late)
    }

    #[inline]
    fn payment(&mut self, e: Record) -> u8 {
        let till = e.option as usize;
        if till >= TILLS || e.amount.wrapping_sub(1) >= LARGEST_AMOUNT {
            return 3;
        }
        let number = self.credit(e.amount);
        if number == 0 {
            self.payments[till] += 1;
            self.recent[till][(self.payments[till] % KNOWN) as usize] = e.amount;
            self.arrangement.paid += e.amount as i64;
        }
        number
    }

    fn returned(&mut self, e: Record) -> u8 {
        let till = e.option as usize;
        if till >= TILLS || e.amount == 0 {
            return 3;
        }
        let payments = self.payments[till];
        if e.amount > payments || payments - e.amount >= KNOWN {
            return 6;
        }
        let at = (e.amount % KNOWN) as usize;
        let payment = self.recent[till][at];
        if payment == 0 {
            return 6;
        }
        let number = self.charge(e.day, payment + FEES[RETURN_FEE]);
        if number == 0 {
            self.recent[till][at] = 0;
            self.arrangement.paid -= payment as i64;
        }
        number
    }

    fn fee(&mut self, e: Record) -> u8 {
        match self.option_or_closed(e, 1, 3) {
            0 => self.charge(e.day, FEES[e.option as usize]),
            number => number,
        }
    }

    fn deposit_asked(&mut self, e: Record) -> u8 {
        let number = self.amount_or_closed(e, LARGEST_DEPOSIT);
        if number != 0 {
            return number;
        }
        if e.amount <= self.held {
            return 7;
        }
        self.required = e.amount;
        0
    }

    fn deposit_paid(&mut self, e: Record) -> u8 {
        let number = self.amount_or_closed(e, LARGEST_AMOUNT);
        if number != 0 {
            return number;
        }
        if e.amount > self.required - self.held {
            return 7;
        }
        self.held += e.amount;
        self.full_on = e.day;
        0
    }

    fn deposit_moved(&mut self, e: Record) -> u8 {
        let number = self.option_or_closed(e, 0, 0);
        if number != 0 {
            return number;
        }
        if self.required == 0 || self.held != self.required {
            return 7;
        }
        let in_year = |next: u32| next != 0 && e.day < next + 364;
        if e.day < year_later(self.full_on) || in_year(self.notices[2]) || in_year(self.cut) {
            return 8;
        }
        self.move_deposit()
    }

    fn move_deposit(&mut self) -> u8 {
        let number = self.credit(self.held);
        if number == 0 {
            self.held = 0;
            self.required = 0;
        }
        number
    }

    fn payout(&mut self, e: Record) -> u8 {
        if e.option != 0 || e.amount.wrapping_sub(1) >= LARGEST_AMOUNT {
            return 3;
        }
        if e.amount > self.credits().saturating_sub(self.charged) {
            return 7;
        }
        self.paid_out += e.amount;
        0
    }

    fn certificate(&mut self, e: Record) -> u8 {
        let longest = if e.day < SHORT_CERTIFICATES_FROM {
            CERTIFICATE_DAYS
        } else {
            SHORT_CERTIFICATE_DAYS
        };
        let number = self.amount_or_closed(e, longest);
        if number == 0 {
            self.certified_to = self.certified_to.max(e.day + e.amount as u32);
            self.approved_to = 0;
        }
        number
    }

    fn approval(&mut self, e: Record) -> u8 {
        let number = self.amount_or_closed(e, 30);
        if number == 0 {
            self.approved_to = self.approved_to.max(e.day + e.amount as u32);
        }
        number
    }

    fn arrange(&mut self, e: Record) -> u8 {
        let number = self.option_or_closed(e, 2, 6);
        if number != 0 {
            return number;
        }
        let debt = self.arrears(e.day);
        if debt == 0 || self.in_force(e.day) {
            return 9;
        }
        self.arrangement = Arrangement {
            day: e.day,
            parts: e.option,
            debt,
            paid: 0,
        };
        0
    }

    fn notice_is_live(&self, from: u32, t: u32) -> bool {
        self.notice_live && self.notice_day + from <= t && t <= self.notice_day + 20
    }

    /// 3, 4 or 5 for an event that has no fields and needs service.
    fn plain_while_on(&self, e: Record) -> u8 {
        match self.option_or_closed(e, 0, 0) {
            0 if self.service != Service::On => 5,
            number => number,
        }
    }

    fn final_notice(&mut self, e: Record) -> u8 {
        let number = self.plain_while_on(e);
        if number != 0 {
            return number;
        }
        if self.arrears(e.day) < ENOUGH_ARREARS {
            return 10;
        }
        if self.notice_is_live(0, e.day) {
            return 11;
        }
        let number = self.charge(e.day, FEES[NOTICE_FEE]);
        if number == 0 {
            self.notice_live = true;
            self.notice_day = e.day;
            self.notices = [e.day + 1, self.notices[0], self.notices[1]];
        }
        number
    }

    fn call(&mut self, e: Record) -> u8 {
        let number = self.plain_while_on(e);
        if number == 0 && self.calls[0] != e.day + 1 {
            self.calls = [e.day + 1, self.calls[0]];
        }
        number
    }

    fn disconnection(&mut self, e: Record) -> u8 {
        let number = self.plain_while_on(e);
        if number != 0 {
            return number;
        }
        let t = e.day;
        let called = |next: u32| next != 0 && next <= t && t <= next + 2;
        if self.arrears(t) < ENOUGH_ARREARS {
            return 10;
        }
        if !self.notice_is_live(5, t) {
            return 12;
        }
        if !called(self.calls[0]) && !called(self.calls[1]) {
            return 13;
        }
        if self.in_force(t) {
            return 14;
        }
        if t < self.certified_to && t >= self.approved_to {
            return 15;
        }
        self.service = Service::Off;
        self.notice_live = false;
        self.cut = t + 1;
        0
    }

    fn reconnection(&mut self, e: Record) -> u8 {
        let number = self.option_or_closed(e, 0, 1);
        if number != 0 {
            return number;
        }
        if self.service != Service::Off {
            return 5;
        }
        if self.arrears(e.day) > 0 && !self.in_force(e.day) {
            return 16;
        }
        if self.held < self.required {
            return 17;
        }
        let number = self.charge(e.day, FEES[RECONNECTION_FEE + e.option as usize]);
        if number == 0 {
            self.service = Service::On;
        }
        number
    }

    fn closing(&mut self, e: Record) -> u8 {
        let number = self.option_or_closed(e, 0, 0);
        if number != 0 {
            return number;
        }
        let number = self.move_deposit();
        if number == 0 {
            self.service = Service::Closed;
        }
        number
    }
}

/// The same date one year later, and of 29 February 1 March. The fourth year has a day more, but for that to 1 March 2100; that
/// to 1 March 2200 has none either, and is past the last day with one or without.
fn year_later(day: u32) -> u32 {
    let of_four_years = (day + PASSED_ON_DAY_0 + u32::from(day >= MARCH_2100)) % FOUR_YEARS;
    let to_2100 = day < MARCH_2100 && day + 365 >= MARCH_2100;
    day + 365 + u32::from(of_four_years >= THREE_YEARS && !to_2100)
}

const HEADER: &[u8] = b"account owed held open service refused\n";

/// The text, written from the front of a buffer that is long enough.
struct Text<'a> {
    out: &'a mut [u8],
    len: usize,
}

impl Text<'_> {
    #[inline]
    fn put(&mut self, bytes: &[u8]) {
        self.out[self.len..self.len + bytes.len()].copy_from_slice(bytes);
        self.len += bytes.len();
    }

    fn number(&mut self, mut n: u64) {
        let mut digits = [0; 20];
        let mut at = digits.len();
        loop {
            at -= 1;
            digits[at] = b'0' + (n % 10) as u8;
            n /= 10;
            if n == 0 {
                break;
            }
        }
        self.put(&digits[at..]);
    }

    fn line(&mut self, index: usize, account: &Account) {
        self.number(index as u64);
        self.put(b" ");
        let owed = account.owed();
        if owed < 0 {
            self.put(b"-");
        }
        self.number(owed.unsigned_abs());
        self.put(b" ");
        self.number(account.held);
        self.put(b" ");
        self.number(account.count as u64);
        self.put(match account.service {
            Service::On => b" on ",
            Service::Off => b" off ",
            Service::Closed => b" closed ",
        });
        self.number(account.refused);
        self.put(b"\n");
    }
}

#[inline]
fn word(bytes: &[u8], at: usize) -> u32 {
    u32::from_le_bytes([bytes[at], bytes[at + 1], bytes[at + 2], bytes[at + 3]])
}

#[inline]
pub fn record(bytes: &[u8; 16]) -> Record {
    let all = u128::from_le_bytes(*bytes);
    Record {
        kind: all as u8,
        option: (all >> 8) as u8,
        day: (all >> 32) as u32,
        amount: (all >> 64) as u64,
    }
}

/// 20 or 21 where the book is refused, else 0.
pub fn book_refusal(book: &[u8]) -> u8 {
    if book.len() < 8 || word(book, 0) > 1_024 || book.len() > u32::MAX as usize {
        return 20;
    }
    let accounts = word(book, 0) as usize;
    let records = word(book, 4) as usize;
    let table = 8 + 8 * accounts;
    if book.len() != table + 16 * records {
        return 20;
    }
    let mut at = table;
    for entry in book[8..table].chunks_exact(8) {
        if word(entry, 0) as usize != at {
            return 20;
        }
        at += 16 * word(entry, 4) as usize;
    }
    if at != book.len() {
        return 20;
    }
    let fine = |r: &[u8]| r[0].wrapping_sub(1) < 16 && r[2] == 0 && r[3] == 0;
    if book[table..].chunks_exact(16).all(fine) {
        0
    } else {
        21
    }
}

/// The records of account i of an accepted book.
pub fn records(book: &[u8], i: usize) -> &[[u8; 16]] {
    let from = word(book, 8 + 8 * i) as usize;
    let count = word(book, 12 + 8 * i) as usize;
    book[from..from + 16 * count].as_chunks().0
}

/// Writes the standing of a book's accounts into `out`, which has room for it, and says how many bytes it took.
pub fn report(book: &[u8], out: &mut [u8]) -> usize {
    let mut text = Text { out, len: 0 };
    let refusal = book_refusal(book);
    if refusal != 0 {
        text.put(b"book refused ");
        text.number(refusal as u64);
        text.put(b"\n");
        return text.len;
    }
    text.put(HEADER);
    for i in 0..word(book, 0) as usize {
        let mut account = Account::fresh();
        for bytes in records(book, i) {
            account.post(record(bytes));
        }
        text.line(i, &account);
    }
    text.len
}

#[cfg(test)]
mod tests {
    use super::*;
    use ::tests::books;
    use std::collections::BTreeSet;
    use tools::core::{self, Answer};
    use tools::event::Event;

    /// What is answered to the events of an account, and what is owed after each.
    fn replies(book: &[u8], account: usize) -> Vec<core::Reply> {
        let mut kept = Account::fresh();
        let reply = |bytes| core::Reply {
            number: kept.post(record(bytes)),
            owed: kept.owed(),
        };
        records(book, account).iter().map(reply).collect()
    }

    #[test]
    fn it_answers_as_the_core_does() {
        let mut numbers = BTreeSet::new();
        for index in 0..1_500 {
            let list = books::book(2, index).list();
            if let Ok(book) = core::books::write(&list) {
                for account in 0..list.len() {
                    let by_core = core::history(&book, account).unwrap();
                    assert_eq!(replies(&book, account), by_core, "book {index}");
                    numbers.extend(by_core.iter().map(|reply| reply.number));
                }
            }
        }
        // Every number refused something, and 0 is accepted.
        assert_eq!(numbers, (0..=19).collect());
    }

    /// On both sides of the day from which on they are shorter, each on an account of its own.
    #[test]
    fn certificates_are_as_long_as_the_core_s() {
        let mut list = Vec::new();
        for day in [SHORT_CERTIFICATES_FROM - 1, SHORT_CERTIFICATES_FROM] {
            for last in [0, SHORT_CERTIFICATE_DAYS, CERTIFICATE_DAYS] {
                list.extend([last, last + 1].map(|days| vec![Event::of(9, day, days)]));
            }
        }
        let book = core::books::write(&list).unwrap();
        for (account, events) in list.iter().enumerate() {
            let by_core = core::history(&book, account).unwrap();
            assert_eq!(replies(&book, account), by_core, "{events:?}");
        }
    }

    /// Full on each day that there is, and moved on the days about a year later.
    #[test]
    fn a_year_is_as_long_as_the_core_s() {
        for full in 0..=LAST_DAY {
            let (mut kept, mut by_core) = (Account::fresh(), core::Account::fresh());
            let moves = (364..=366).map(|later| (7, full + later, 0));
            for (kind, day, amount) in [(5, full, 900), (6, full, 900)].into_iter().chain(moves) {
                let number = kept.post(Record {
                    kind,
                    option: 0,
                    day,
                    amount,
                });
                let expected = match by_core.post(Event::of(kind, day, amount)) {
                    Answer::Accepted(_) => 0,
                    Answer::Refused(number) => number,
                };
                assert_eq!(number, expected, "full {full}, kind {kind} on {day}");
            }
            assert_eq!(kept.owed(), by_core.owed());
        }
    }

    #[test]
    fn it_prints_what_the_core_prints() {
        let mut refusals = BTreeSet::new();
        for index in 0..600 {
            let book = books::book(3, index).bytes;
            let mut out = vec![0; core::report_room(&book)];
            let written = report(&book, &mut out);
            assert_eq!(core::report(&book), out[..written], "book {index}");
            refusals.insert(book_refusal(&book));
        }
        assert_eq!(refusals, BTreeSet::from([0, 20, 21]));
    }
}
