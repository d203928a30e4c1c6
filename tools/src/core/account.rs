//! Accounts that the caller keeps and posts to, one event at a time.
use super::lent::{self, ACCEPTED, CALENDAR_WORDS, WORDS};
use crate::event::Event;
use crate::service::Service;

/// An account in the caller's memory. What its words hold is the core's own business.
#[derive(Clone, Debug, PartialEq, Eq)]
pub struct Account {
    words: [u64; WORDS],
}

/// A calendar that an account may be begun with: its first day, and a bit for each of its days in order, lowest bit first, set for
/// a working day.
#[derive(Clone, Debug, PartialEq, Eq)]
pub struct Calendar {
    pub first: u32,
    pub bits: [u64; CALENDAR_WORDS],
}

/// Accounts that lie one after another in one memory.
#[derive(Clone, Debug, PartialEq, Eq)]
pub struct Accounts {
    words: Vec<u64>,
}

/// The answer to one event.
#[derive(Clone, Copy, Debug, PartialEq, Eq)]
pub enum Answer {
    /// With the receipt of a payment, which its till counts, or 0 for any other event.
    Accepted(u64),
    /// With the number of the rule, 1 to 19 or 24; or 0 where no account was lent.
    Refused(u8),
}

impl Answer {
    /// The answer that a number of the library is.
    pub fn of(number: u64) -> Answer {
        match u8::try_from(number) {
            Ok(number) => Answer::Refused(number),
            Err(_) => Answer::Accepted(number - ACCEPTED),
        }
    }
}

/// What is told: a number, or the one that refuses the question. For a day that is 1 past the last day, 2 before the last
/// accepted event, and 0 where no account was lent.
pub(super) fn told(number: u64) -> Result<u64, u8> {
    match Answer::of(number) {
        Answer::Accepted(told) => Ok(told),
        Answer::Refused(number) => Err(number),
    }
}

/// A charge that is not paid in full.
#[derive(Clone, Copy, Debug, PartialEq, Eq)]
pub struct OpenItem {
    pub day: u64,
    /// In cents.
    pub unpaid: u64,
}

impl Account {
    /// No events, service on, all sums 0.
    pub fn fresh() -> Account {
        let mut words = [0; WORDS];
        assert_eq!(lent::fresh(&mut words), 1, "the library has other accounts");
        Account { words }
    }

    /// The same with a calendar, of any first day and any bits.
    pub fn begin(calendar: &Calendar) -> Account {
        let mut words = [0; WORDS];
        let begun = lent::begin(&mut words, calendar.first, &calendar.bits);
        assert_eq!(begun, 1, "the library has other accounts or calendars");
        Account { words }
    }

    /// Posts one event, of any kind and any numbers. A refused event leaves the account as it was.
    #[inline]
    pub fn post(&mut self, event: Event) -> Answer {
        Answer::of(lent::post(&mut self.words, event))
    }

    /// What posting the event would answer, with the account left alone.
    pub fn would_answer(&self, event: Event) -> Answer {
        Answer::of(lent::would_answer(&self.words, event))
    }

    /// Whether the words are an account: false where they are of another version, or were changed so that the core sees it.
    pub fn is_ok(&self) -> bool {
        lent::ok(&self.words) == 1
    }

    /// What is owed in cents, negative where there is credit.
    #[inline]
    pub fn owed(&self) -> i64 {
        lent::owed(&self.words)
    }

    /// The deposit held, in cents.
    pub fn held(&self) -> u64 {
        lent::held(&self.words)
    }

    /// The deposit required, in cents.
    pub fn required(&self) -> u64 {
        lent::required(&self.words)
    }

    pub fn service(&self) -> Service {
        match lent::service(&self.words) {
            0 => Service::On,
            1 => Service::Off,
            _ => Service::Closed,
        }
    }

    pub fn open_count(&self) -> u64 {
        lent::open_count(&self.words)
    }

    /// One open item, counted from 0 in the order posted. Past the last one, day and unpaid part are 0.
    pub fn open_item(&self, index: usize) -> OpenItem {
        OpenItem {
            day: lent::open_day(&self.words, index),
            unpaid: lent::open_unpaid(&self.words, index),
        }
    }

    /// The open items in the order posted.
    pub fn open_items(&self) -> impl Iterator<Item = OpenItem> + '_ {
        (0..self.open_count() as usize).map(|index| self.open_item(index))
    }

    /// The arrears on a day, in cents, or the number that refuses the day.
    pub fn arrears(&self, day: u32) -> Result<u64, u8> {
        told(lent::arrears(&self.words, day))
    }

    /// Whether a payment arrangement is in force on a day.
    pub fn in_force(&self, day: u32) -> Result<bool, u8> {
        told(lent::in_force(&self.words, day)).map(|yes| yes == 1)
    }

    /// Whether a final notice is live on a day.
    pub fn notice_live(&self, day: u32) -> Result<bool, u8> {
        told(lent::notice_live(&self.words, day)).map(|yes| yes == 1)
    }

    /// Whether a medical certificate is live on a day.
    pub fn certified(&self, day: u32) -> Result<bool, u8> {
        told(lent::certified(&self.words, day)).map(|yes| yes == 1)
    }

    /// The working days of its calendar after one day and up to another, which is counted: none where it has no calendar.
    pub fn working_days(&self, after: u32, to: u32) -> Option<u64> {
        told(lent::working_days(&self.words, after, to)).ok()
    }

    /// The account as it lies in memory, for keeping it elsewhere.
    pub fn words(&self) -> &[u64; WORDS] {
        &self.words
    }

    /// The account of words that were kept elsewhere. Words of another version are refused ([`Account::is_ok`]); words that the
    /// core did not leave so do no harm, but what is said of them means nothing.
    pub fn from_words(words: [u64; WORDS]) -> Account {
        Account { words }
    }
}

impl Default for Account {
    fn default() -> Account {
        Account::fresh()
    }
}

impl Accounts {
    /// So many accounts without events.
    pub fn fresh(count: usize) -> Accounts {
        let words = Account::fresh().words.repeat(count);
        Accounts { words }
    }

    /// Posts one event to an account, counted from 0, and leaves the others alone. Past the last one it is refused with 0.
    #[inline]
    pub fn post_at(&mut self, index: usize, event: Event) -> Answer {
        Answer::of(lent::post_at(&mut self.words, index, event))
    }

    pub fn count(&self) -> usize {
        self.words.len() / WORDS
    }

    /// A copy of one account, none past the last.
    pub fn account(&self, index: usize) -> Option<Account> {
        let words = *self.words.as_chunks().0.get(index)?;
        Some(Account { words })
    }

    /// All accounts as they lie in memory.
    pub fn words(&self) -> &[u64] {
        &self.words
    }
}
