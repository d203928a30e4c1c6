//! The books that are measured. They are made by a fixed seed, so each run measures the same bytes.
use crate::inplace::{Account, Record};
use tools::event::Event;
use tools::kinds;

/// The most records of a book of so many accounts that `standing` reads.
pub fn most_records(accounts: usize) -> usize {
    (65_536 - 8 - 8 * accounts) / 16
}

/// Numbers that look random, the same in each run.
pub struct Dice(u64);

impl Dice {
    pub fn new(seed: u64) -> Dice {
        Dice(seed.wrapping_mul(0x9E37_79B9_7F4A_7C15) | 1)
    }

    /// A number from `from` to `to`.
    pub fn roll(&mut self, from: u64, to: u64) -> u64 {
        self.0 ^= self.0 << 13;
        self.0 ^= self.0 >> 7;
        self.0 ^= self.0 << 17;
        from + (self.0 >> 16) % (to - from + 1)
    }

    pub fn chance(&mut self, percent: u64) -> bool {
        self.roll(1, 100) <= percent
    }
}

/// An account's events as they come up. It is posted along the way, since people look at what is owed before they act.
struct Story {
    events: Vec<Event>,
    account: Account,
    day: u32,
    payments: u64,
    has_deposit: bool,
    dice: Dice,
}

impl Story {
    fn new(seed: u64) -> Story {
        let mut dice = Dice::new(seed);
        Story {
            events: Vec::new(),
            account: Account::fresh(),
            day: dice.roll(0, 30) as u32,
            payments: 0,
            has_deposit: false,
            dice,
        }
    }

    /// One event more, accepted or not.
    fn happens(&mut self, word: &str, option: u8, amount: u64) -> bool {
        let kind = kinds::of_word(word).expect("a word of the table");
        let day = self.day;
        self.events.push(Event {
            kind,
            option,
            day,
            amount,
        });
        let record = Record {
            kind,
            option,
            day,
            amount,
        };
        let accepted = self.account.post(record) == 0;
        self.payments += u64::from(word == "payment" && accepted);
        accepted
    }

    fn wait(&mut self, from: u64, to: u64) {
        self.day += self.dice.roll(from, to) as u32;
    }

    fn pay(&mut self, sum: u64) {
        self.happens("payment", 0, sum);
    }

    fn pay_all(&mut self) {
        let owed = self.account.owed();
        if owed > 0 {
            self.pay(owed as u64);
        }
    }

    /// A month: a bill, and what the customer makes of it.
    fn month(&mut self) {
        let bill = self.dice.roll(4_000, 25_000);
        self.happens("bill", 0, bill);
        self.wait(8, 16);
        match self.dice.roll(1, 100) {
            1..=52 => self.pay_all(),
            53..=60 => self.returned_check(),
            61..=75 => self.pay(bill / 2),
            76..=80 => self.deposit(),
            81..=83 => self.overpaid(),
            84..=85 => self.pay_fee(),
            _ => {}
        }
        self.wait(10, 16);
        if self.account.owed() > 22_000 {
            self.collection();
        }
    }

    fn pay_fee(&mut self) {
        let number = self.dice.roll(1, 3) as u8;
        self.happens("fee", number, 0);
        self.pay_all();
    }

    fn overpaid(&mut self) {
        let sum = self.dice.roll(1_000, 5_000);
        self.pay_all();
        self.pay(sum);
        self.happens("payout", 0, sum);
    }

    fn returned_check(&mut self) {
        self.pay_all();
        self.wait(2, 5);
        self.happens("returned", 0, self.payments.max(1));
        if self.dice.chance(60) {
            self.wait(1, 4);
            self.pay_all();
        }
    }

    /// The deposit goes back where it is earned; else one is asked where there is none.
    fn deposit(&mut self) {
        if self.has_deposit && self.happens("deposit-moved", 0, 0) {
            self.has_deposit = false;
        } else if !self.has_deposit {
            let sum = self.dice.roll(10_000, 30_000);
            self.happens("deposit-asked", 0, sum);
            self.wait(1, 3);
            self.happens("deposit-paid", 0, sum / 2);
            self.happens("deposit-paid", 0, sum - sum / 2);
            self.has_deposit = true;
        }
    }

    /// Behind with more than one bill: a final notice, and where that leads.
    fn collection(&mut self) {
        self.wait(4, 8);
        self.happens("notice", 0, 0);
        match self.dice.roll(1, 100) {
            1..=20 => {
                let parts = self.dice.roll(2, 6) as u8;
                self.happens("arrangement", parts, 0);
            }
            21..=30 => {
                self.happens("certificate", 0, 30);
            }
            31..=45 => self.pay_all(),
            _ => {}
        }
        self.wait(2, 3);
        self.happens("call", 0, 0);
        self.wait(1, 3);
        self.happens("call", 0, 0);
        self.wait(1, 2);
        if self.dice.chance(15) {
            self.happens("approval", 0, 10);
        }
        if self.happens("cut", 0, 0) {
            self.wait(1, 3);
            self.pay_all();
            let hours = self.dice.roll(0, 1) as u8;
            self.happens("reconnection", hours, 0);
        }
    }
}

/// The events of one account over years.
pub fn years(seed: u64, records: usize) -> Vec<Event> {
    let mut story = Story::new(seed);
    while story.events.len() < records {
        story.month();
    }
    story.events.truncate(records);
    story.events
}

/// An account that holds its 64 open items: each payment closes the oldest charge, and a new fee takes the place.
pub fn full_house(seed: u64, records: usize) -> Vec<Event> {
    let mut story = Story::new(seed);
    for _ in 0..64 {
        story.happens("fee", 3, 0);
    }
    while story.events.len() < records {
        story.wait(0, 2);
        story.pay(3_000);
        story.happens("fee", 3, 0);
        if story.dice.chance(20) {
            story.happens("call", 0, 0);
        }
    }
    story.events.truncate(records);
    story.events
}
