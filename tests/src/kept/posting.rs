//! A history posted to an account that the caller keeps.
use super::bytes;
use super::days::{self, OnDay};
use super::told::Told;
use super::working::{self, Worked};
use crate::peer::calendar::Calendar;
use std::hint::black_box;
use tools::core::{Account, Answer};
use tools::event::Event;

/// What lies before and behind the account.
pub const AROUND: [u64; 8] = [0xa55a_c33c_a55a_c33c; 8];

/// An account in memory of which the core may touch nothing else.
#[repr(C)]
pub struct Surrounded {
    before: [u64; 8],
    pub account: Account,
    behind: [u64; 8],
}

impl Surrounded {
    pub fn by(account: Account) -> Surrounded {
        Surrounded {
            before: AROUND,
            account,
            behind: AROUND,
        }
    }

    pub fn is_untouched_around(&self) -> bool {
        // The account alone was lent: it must not be taken for granted that nothing else changed.
        let memory = black_box(self);
        memory.before == AROUND && memory.behind == AROUND
    }
}

/// An account without events, with a calendar or without.
pub fn begin(calendar: Option<&Calendar>) -> Account {
    calendar.map_or_else(Account::fresh, Account::begin)
}

/// When an account is asked what it tells; what is owed it is asked after each event anyway.
#[derive(Clone, Copy, Debug, PartialEq, Eq)]
pub enum Asked {
    AfterEach,
    AtTheEnd,
}

/// What a kept account showed.
pub struct Kept {
    /// What would be answered to each event, asked before it was posted.
    pub would: Vec<Answer>,
    /// The answer to each event, and what was owed after it.
    pub replies: Vec<(Answer, i64)>,
    pub asked: Asked,
    pub told: Vec<Told>,
    /// What it told for days, asked as often.
    pub days: Vec<Vec<OnDay>>,
    /// What it told of its working days, at the end.
    pub worked: Vec<Worked>,
    /// The account at the end.
    pub account: Account,
    /// The first refused event that changed the account, counted from 0, and the bytes that it changed.
    pub changed: Option<(usize, Vec<usize>)>,
    pub is_touched_around: bool,
    /// Whether the account passed its test after each event, and stayed as it was when it was asked what it would answer.
    pub is_fine: bool,
}

/// The library's posting, or one that is not as it should be.
type Post = fn(&mut Surrounded, Event) -> Answer;

pub fn keep(calendar: Option<&Calendar>, events: &[Event], asked: Asked) -> Kept {
    keep_by(calendar, events, asked, |memory, event| {
        memory.account.post(event)
    })
}

fn keep_by(calendar: Option<&Calendar>, events: &[Event], asked: Asked, post: Post) -> Kept {
    let mut memory = Surrounded::by(begin(calendar));
    let mut kept = Kept::nothing(asked);
    kept.is_fine = memory.account.is_ok();
    let mut accepted = Vec::new();
    for (at, &event) in events.iter().enumerate() {
        if let Answer::Accepted(_) = kept.post(&mut memory, at, event, post) {
            accepted.push(event);
        }
        let account = &memory.account;
        if asked == Asked::AfterEach || at + 1 == events.len() {
            kept.told.push(Told::by_account(account));
            let asked = days::asked(&accepted);
            kept.days.push(days::by_account(account.words(), &asked));
        }
    }
    let pairs = working::asked(calendar, &accepted);
    kept.worked = working::by_account(memory.account.words(), &pairs);
    kept.is_touched_around = !memory.is_untouched_around();
    kept.account = memory.account;
    kept
}

impl Kept {
    fn nothing(asked: Asked) -> Kept {
        Kept {
            would: Vec::new(),
            replies: Vec::new(),
            asked,
            told: Vec::new(),
            days: Vec::new(),
            worked: Vec::new(),
            account: Account::fresh(),
            changed: None,
            is_touched_around: false,
            is_fine: true,
        }
    }

    /// Posts an event, the one at a place of the history, and keeps what there was to see.
    fn post(&mut self, memory: &mut Surrounded, at: usize, event: Event, post: Post) -> Answer {
        let before = memory.account.clone();
        self.would.push(memory.account.would_answer(event));
        self.is_fine &= memory.account == before;
        let answer = post(memory, event);
        let account = &memory.account;
        self.is_fine &= account.is_ok();
        self.replies.push((answer, account.owed()));
        if matches!(answer, Answer::Refused(_)) && self.changed.is_none() {
            let differing = bytes::differing(&before, account);
            self.changed = (!differing.is_empty()).then_some((at, differing));
        }
        answer
    }
}

#[cfg(test)]
mod tests {
    use super::*;
    use crate::make::{bill, cut, payment};

    #[test]
    fn a_word_touched_before_or_behind_is_seen() {
        let mut memory = Surrounded::by(Account::fresh());
        assert!(memory.is_untouched_around());
        memory.before[7] += 1;
        assert!(!memory.is_untouched_around());
        let mut memory = Surrounded::by(Account::fresh());
        memory.behind[0] += 1;
        assert!(!memory.is_untouched_around());
    }

    #[test]
    fn an_account_is_asked_after_each_event_or_at_the_end() {
        let events = [bill(100, 10_000), payment(101, 4_000), cut(101)];
        let each = keep(None, &events, Asked::AfterEach);
        let end = keep(None, &events, Asked::AtTheEnd);
        let expected = [
            (Answer::Accepted(0), 10_000),
            (Answer::Accepted(1), 6_000),
            (Answer::Refused(10), 6_000),
        ];
        assert_eq!(each.replies, expected);
        assert_eq!(end.replies, expected);
        assert_eq!(each.told.len(), 3);
        assert_eq!(end.told, each.told[2..]);
        assert_eq!((each.days.len(), &end.days[..]), (3, &each.days[2..]));
    }

    #[test]
    fn a_posting_that_touches_too_much_is_seen() {
        let events = [bill(100, 10_000), cut(101)];
        let right = keep(None, &events, Asked::AtTheEnd);
        assert!(right.changed.is_none() && !right.is_touched_around);
        let touching = keep_by(None, &events, Asked::AtTheEnd, |memory, event| {
            memory.behind[7] = 0;
            memory.account.post(event)
        });
        assert!(touching.changed.is_none() && touching.is_touched_around);
        // The refused cut is posted as a payment, and so changes the account.
        let changing = keep_by(None, &events, Asked::AtTheEnd, |memory, event| {
            let answer = memory.account.post(event);
            memory.account.post(payment(event.day, 1));
            answer
        });
        assert_eq!(changing.changed.map(|(at, _)| at), Some(1));
    }
}
