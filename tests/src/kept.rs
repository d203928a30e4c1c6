//! Accounts that the caller keeps and posts to one event at a time: each history of each book, against the peer.
mod against;
mod bytes;
mod days;
mod lengths;
mod many;
mod posting;
mod told;
mod turned;
mod working;

use crate::books::Book;
use crate::peer::Posted;
use crate::random::Random;
use crate::tally::{Group, Tally};
use against::Check;
use posting::{keep, Asked, Kept};
use tools::event::Event;

/// In every such book the account is asked for everything after each event, bits of it are turned, and the book's accounts
/// are kept in one memory.
const SHARE: u64 = 16;

/// What accounts of one sort showed, those without a calendar or those with one.
#[derive(Default)]
struct Sort {
    answers: Group,
    would: Group,
    at_the_end: Group,
    after_each: Group,
    days_at_the_end: Group,
    days_after_each: Group,
    worked: Group,
    refused: Group,
    alone: Group,
    around: Group,
    lengths: Group,
    anew: Group,
}

/// What kept accounts showed.
#[derive(Default)]
pub struct Accounts {
    without_calendar: Sort,
    with_calendar: Sort,
    history: Group,
    many: Group,
    turned: Group,
    reached: days::Reached,
    worked: working::Reached,
    /// How many accounts with turned bits the core saw to be none of its own, and how many not.
    seen: usize,
    unseen: usize,
}

impl Accounts {
    /// The histories of a book, whatever was damaged in its bytes: an account takes any kind and any numbers. Each is posted
    /// to an account without a calendar, and to one that is begun with the history's.
    pub fn book(&mut self, seed: u64, index: u64, book: &Book) {
        let mut random = Random::new(seed.wrapping_add(index));
        let often = index.is_multiple_of(SHARE);
        let asked = match often {
            true => Asked::AfterEach,
            false => Asked::AtTheEnd,
        };
        for history in &book.histories {
            let events = &history.events;
            let kept = self.post(events, &history.posted, asked);
            // A book with an unknown kind has no history, and none has a calendar.
            if book.is_good() {
                let compare = || against::compare(events, &history.posted, &kept, against::history);
                self.history.try_one(compare);
            }
            self.post(events, &history.with_calendar, asked);
            if often {
                self.turn(events, &history.posted, &mut random);
                self.turn(events, &history.with_calendar, &mut random);
            }
        }
        if often {
            let list = many::lists(&book.histories);
            let calendars = many::calendars(&book.histories);
            self.many.try_one(|| many::compare(&calendars, list));
        }
    }

    /// Posts a history to an account that is begun as the peer's was.
    fn post(&mut self, events: &[Event], posted: &Posted, asked: Asked) -> Kept {
        let calendar = posted.calendar.as_ref();
        let kept = keep(calendar, events, asked);
        kept.days.iter().for_each(|told| self.reached.note(told));
        self.worked.note(calendar, &kept.worked);
        let sort = match calendar {
            None => &mut self.without_calendar,
            Some(_) => &mut self.with_calendar,
        };
        sort.compare(events, posted, &kept);
        kept
    }

    fn turn(&mut self, events: &[Event], posted: &Posted, random: &mut Random) {
        let outcome = turned::compare(events, posted, random);
        self.seen += usize::from(outcome == Ok(true));
        self.unseen += usize::from(outcome == Ok(false));
        self.turned.try_one(|| outcome.err());
    }

    pub fn tell(&self, tally: &mut Tally) {
        self.without_calendar.tell(tally, "kept accounts");
        self.with_calendar
            .tell(tally, "kept accounts with a calendar");
        let others = [
            (&self.history, "the same answers as the history of the book"),
            (&self.many, "three in one memory as three apart"),
            (&self.turned, "with bits turned, answered or refused"),
        ];
        for (group, words) in others {
            group.tell(tally, &format!("kept accounts, {words}"));
        }
        tally.check(
            "the library's version and the words of an account",
            &lengths::said(),
        );
    }

    /// What the accounts up to here have to reach, and what of it they did not.
    pub fn demands(&self) -> Vec<(String, Vec<String>)> {
        let days = "every answer for a day, and both sides of a change";
        let bits = "turned bits that the core sees, and some that it can't";
        let worked = "working days between all sorts of days";
        vec![
            (days.to_string(), self.reached.missing()),
            (worked.to_string(), self.worked.missing()),
            (bits.to_string(), self.not_reached()),
        ]
    }

    fn not_reached(&self) -> Vec<String> {
        let wanted = [
            (self.seen, "  no turned bits were seen"),
            (self.unseen, "  all turned bits were seen"),
        ];
        let missing = wanted.iter().filter(|(count, _)| *count == 0);
        missing.map(|(_, words)| words.to_string()).collect()
    }
}

impl Sort {
    fn compare(&mut self, events: &[Event], posted: &Posted, kept: &Kept) {
        let (told, days) = match kept.asked {
            Asked::AfterEach => (&mut self.after_each, &mut self.days_after_each),
            Asked::AtTheEnd => (&mut self.at_the_end, &mut self.days_at_the_end),
        };
        let checks: [(&mut Group, Check); 10] = [
            (&mut self.answers, against::answers),
            (&mut self.would, against::would),
            (told, against::told),
            (days, against::days),
            (&mut self.worked, against::worked),
            (&mut self.refused, against::refused),
            (&mut self.alone, against::accepted_alone),
            (&mut self.around, against::around),
            (&mut self.lengths, lengths::refused),
            (&mut self.anew, lengths::anew),
        ];
        for (group, check) in checks {
            group.try_one(|| against::compare(events, posted, kept, check));
        }
    }

    fn tell(&self, tally: &mut Tally, name: &str) {
        for (group, words) in self.of_answers().into_iter().chain(self.of_memory()) {
            group.tell(tally, &format!("{name}, {words}"));
        }
    }

    fn of_answers(&self) -> Vec<(&Group, &'static str)> {
        vec![
            (
                &self.answers,
                "each answer with its number or receipt and what is owed after it",
            ),
            (
                &self.would,
                "what would be answered to each event, with nothing changed",
            ),
            (
                &self.at_the_end,
                "deposit, service and open items at the end",
            ),
            (
                &self.after_each,
                "deposit, service and open items after each event",
            ),
            (
                &self.days_at_the_end,
                "arrears, arrangement, notice and certificate for days, at the end",
            ),
            (
                &self.days_after_each,
                "arrears, arrangement, notice and certificate for days, after each event",
            ),
            (&self.worked, "working days between days, at the end"),
        ]
    }

    fn of_memory(&self) -> Vec<(&Group, &'static str)> {
        vec![
            (&self.refused, "as they were after a refused event"),
            (&self.alone, "the same bytes by the accepted events alone"),
            (&self.around, "the memory around them as it was"),
            (&self.lengths, "in memory of another length refused"),
            (
                &self.anew,
                "made anew where they lie, and not by other bits",
            ),
        ]
    }
}

#[cfg(test)]
mod tests {
    use super::*;

    #[test]
    fn turned_bits_are_to_be_seen_and_not_to_be_seen() {
        let reached = |seen, unseen| {
            let accounts = Accounts {
                seen,
                unseen,
                ..Accounts::default()
            };
            accounts.not_reached().len()
        };
        assert_eq!(reached(0, 0), 2);
        assert_eq!((reached(1, 0), reached(0, 1)), (1, 1));
        assert_eq!(reached(1, 1), 0);
    }
}
