//! What the histories reached: which answers to which kinds, and both sides of the bounds.
use crate::edges::{Case, Edge, CALENDAR_EDGES, DEPOSIT_EDGES, EDGES};
use crate::peer::kind::*;
use crate::peer::money::Money;
use crate::peer::Posted;
use crate::show;
use std::collections::BTreeMap;
use tools::event::Event;

/// Whether a number can refuse a kind.
pub fn concerns(number: u8, kind: u8) -> bool {
    match number {
        1..=3 => true,
        4 => ![PAYMENT, RETURNED, PAYOUT].contains(&kind),
        5 => [NOTICE, CALL, CUT, RECONNECTION].contains(&kind),
        6 => kind == RETURNED,
        7 => [DEPOSIT_ASKED, DEPOSIT_PAID, DEPOSIT_MOVED, PAYOUT].contains(&kind),
        8 => kind == DEPOSIT_MOVED,
        9 => kind == ARRANGEMENT,
        10 => [NOTICE, CUT].contains(&kind),
        11 => kind == NOTICE,
        12..=15 => kind == CUT,
        16 | 17 => kind == RECONNECTION,
        18 => [BILL, RETURNED, FEE, NOTICE, RECONNECTION].contains(&kind),
        19 => concerns(18, kind) || [PAYMENT, DEPOSIT_MOVED, CLOSE].contains(&kind),
        24 => [NOTICE, CUT].contains(&kind),
        _ => false,
    }
}

/// What the events reached that were posted to accounts of one sort, those without a calendar or those with one.
struct Reached {
    /// How often a number, 0 for accepted, was the answer to a kind.
    answers: BTreeMap<(u8, u8), usize>,
    edges: Vec<Edge>,
    /// How often each of the bounds was met, in the order of their list.
    met: Vec<usize>,
}

impl Reached {
    fn of(edges: &[Edge]) -> Reached {
        Reached {
            answers: BTreeMap::new(),
            edges: edges.to_vec(),
            met: vec![0; edges.len()],
        }
    }

    fn note(&mut self, events: &[Event], posted: &Posted) {
        let mut before = 0;
        for (&event, &answer) in events.iter().zip(&posted.answers) {
            *self.answers.entry((answer, event.kind)).or_default() += 1;
            let accepted = &posted.accepted[..before];
            let case = Case {
                calendar: posted.calendar.as_ref(),
                accepted,
                money: &Money::of(accepted),
                event,
                answer,
            };
            for (count, (_, met)) in self.met.iter_mut().zip(&self.edges) {
                *count += usize::from(met(&case));
            }
            before += usize::from(answer == 0);
        }
    }

    fn times(&self, number: u8, kind: u8) -> usize {
        self.answers.get(&(number, kind)).copied().unwrap_or(0)
    }

    fn accepted(&self, kind: u8) -> usize {
        self.times(0, kind)
    }

    fn refused(&self, number: u8) -> usize {
        let of_number = self.answers.iter().filter(|((n, _), _)| *n == number);
        of_number.map(|(_, count)| count).sum()
    }

    /// The kinds that were never accepted.
    fn never_accepted(&self) -> Vec<String> {
        let kinds = (1..=16).filter(|&kind| self.accepted(kind) == 0);
        kinds.map(|kind| show::name(kind).into()).collect()
    }

    fn never_met(&self) -> Vec<String> {
        let edges = self.met.iter().zip(&self.edges);
        let never = edges.filter(|(times, _)| **times == 0);
        never.map(|(_, (name, _))| String::from(*name)).collect()
    }

    /// How often each of these numbers refused each of these kinds that it concerns, the rarest first.
    fn pairs(&self, numbers: &[u8], kinds: &[u8]) -> Vec<(usize, String)> {
        let all = numbers
            .iter()
            .flat_map(|&number| kinds.iter().map(move |&kind| (number, kind)));
        let concerned = all.filter(|&(number, kind)| concerns(number, kind));
        let mut pairs: Vec<(usize, String)> = concerned
            .map(|(number, kind)| {
                let pair = format!("{number} for a {}", show::name(kind));
                (self.times(number, kind), pair)
            })
            .collect();
        pairs.sort();
        pairs
    }

    fn print_bounds(&self) {
        for (times, (name, _)) in self.met.iter().zip(&self.edges) {
            println!("  {:70} {:>11}", name, show::count(*times));
        }
    }
}

fn never(pairs: Vec<(usize, String)>) -> Vec<String> {
    let never = pairs.into_iter().filter(|(times, _)| *times == 0);
    never.map(|(_, pair)| pair).collect()
}

/// The numbers that refuse an event whether there is a calendar or not.
const NUMBERS: [u8; 19] = [
    1, 2, 3, 4, 5, 6, 7, 8, 9, 10, 11, 12, 13, 14, 15, 16, 17, 18, 19,
];
const KINDS: [u8; 16] = [1, 2, 3, 4, 5, 6, 7, 8, 9, 10, 11, 12, 13, 14, 15, 16];

pub struct Coverage {
    without_calendar: Reached,
    with_calendar: Reached,
    /// How often a book was refused with a number, 0 for accepted.
    books: BTreeMap<u8, usize>,
}

impl Default for Coverage {
    fn default() -> Coverage {
        Coverage {
            without_calendar: Reached::of(&[&EDGES[..], &DEPOSIT_EDGES].concat()),
            with_calendar: Reached::of(&CALENDAR_EDGES),
            books: BTreeMap::new(),
        }
    }
}

impl Coverage {
    /// Counts what a history reached.
    pub fn history(&mut self, events: &[Event], posted: &Posted) {
        match posted.calendar {
            None => self.without_calendar.note(events, posted),
            Some(_) => self.with_calendar.note(events, posted),
        }
    }

    /// Counts a book by the text that it gives.
    pub fn book(&mut self, text: &[u8]) {
        let number = match text {
            b"book refused 20\n" => 20,
            b"book refused 21\n" => 21,
            _ => 0,
        };
        *self.books.entry(number).or_default() += 1;
    }

    fn books_refused(&self, number: u8) -> usize {
        self.books.get(&number).copied().unwrap_or(0)
    }

    pub fn print(&self) {
        println!("accepted, by kind, without a calendar and with one:");
        let (without, with) = (&self.without_calendar, &self.with_calendar);
        for kind in KINDS {
            let times = [without, with].map(|reached| show::count(reached.accepted(kind)));
            let [without, with] = times;
            println!(
                "  {kind:2} {:15} {without:>11} {with:>11}",
                show::name(kind)
            );
        }
        println!("refused, by number, without a calendar and with one:");
        for number in (1..=19).chain([24]) {
            let times = [without, with].map(|reached| show::count(reached.refused(number)));
            let [without, with] = times;
            println!("  {number:2} {without:>27} {with:>11}");
        }
        for number in [20, 21] {
            let times = show::count(self.books_refused(number));
            println!("  {number:2} {times:>27}");
        }
        println!("rarest of a number and a kind that it concerns:");
        let pairs = without.pairs(&NUMBERS, &KINDS).into_iter().take(5);
        let calendar = self.calendar_pairs().into_iter().take(5);
        for (times, pair) in pairs.chain(calendar) {
            println!("  {pair:18} {:>11}", show::count(times));
        }
        println!("bounds met:");
        without.print_bounds();
        println!("bounds met with a calendar:");
        with.print_bounds();
    }

    /// Of final notices and disconnections, which alone look at a calendar.
    fn calendar_pairs(&self) -> Vec<(usize, String)> {
        let numbers = [&NUMBERS[..], &[24]].concat();
        self.with_calendar.pairs(&numbers, &[NOTICE, CUT])
    }

    /// Each thing asked of the histories, with what of it they did not reach.
    pub fn demands(&self) -> Vec<(String, Vec<String>)> {
        let (without, with) = (&self.without_calendar, &self.with_calendar);
        let numbers = NUMBERS.iter().filter(|&&n| without.refused(n) == 0);
        let books = [20, 21].into_iter().filter(|&n| self.books_refused(n) == 0);
        let demands = [
            ("every kind is accepted", without.never_accepted()),
            (
                "every number refuses an event",
                numbers.map(|n| n.to_string()).collect(),
            ),
            (
                "20 and 21 refuse a book",
                books.map(|n| n.to_string()).collect(),
            ),
            (
                "every number refuses every kind that it concerns",
                never(without.pairs(&NUMBERS, &KINDS)),
            ),
            ("both sides of every bound are met", without.never_met()),
            (
                "every kind is accepted with a calendar",
                with.never_accepted(),
            ),
            (
                "every number that concerns a final notice or a cut refuses it with a calendar",
                never(self.calendar_pairs()),
            ),
            (
                "both sides of every bound of a calendar are met",
                with.never_met(),
            ),
        ];
        let named = |(text, missing): (&str, Vec<String>)| (String::from(text), missing);
        demands.map(named).into()
    }
}

#[cfg(test)]
mod tests {
    use super::*;
    use crate::make::{bill, calendar, cut};
    use crate::peer::{post_all, post_all_by};

    fn missing(coverage: &Coverage) -> Vec<usize> {
        let demands = coverage.demands().into_iter();
        demands.map(|(_, missing)| missing.len()).collect()
    }

    #[test]
    fn what_is_not_reached_is_missing() {
        let mut coverage = Coverage::default();
        let edges = EDGES.len() + DEPOSIT_EDGES.len();
        let of_calendars = CALENDAR_EDGES.len();
        let with = [16, CALENDAR_PAIRS, of_calendars];
        let nothing = [&[16, 19, 2, PAIRS, edges][..], &with].concat();
        assert_eq!(missing(&coverage), nothing);
        let events = [bill(0, 133), bill(0, 1), cut(0)];
        coverage.history(&events, &post_all(&events));
        // A bill is accepted, 10 refuses, and refuses a cut; the second bill is one at 133 owed.
        let without = [15, 18, 2, PAIRS - 1, edges - 1];
        assert_eq!(missing(&coverage), [&without[..], &with].concat());
        // With a calendar that begins on the next day, 24 refuses the cut and not 10.
        let later = calendar(1, |_| true);
        coverage.history(&events, &post_all_by(Some(&later), &events));
        let with = [15, CALENDAR_PAIRS - 1, of_calendars - 2];
        assert_eq!(missing(&coverage), [&without[..], &with].concat());
        coverage.book(b"book refused 21\n");
        coverage.book(b"account owed held open service refused\n");
        assert_eq!(missing(&coverage)[2], 1);
    }

    #[test]
    fn a_pair_is_one_of_the_table() {
        let coverage = Coverage::default();
        let pairs = coverage.without_calendar.pairs(&NUMBERS, &KINDS);
        assert_eq!(pairs.len(), PAIRS);
        assert_eq!(coverage.calendar_pairs().len(), CALENDAR_PAIRS);
        assert!(!concerns(0, BILL) && !concerns(20, BILL) && !concerns(24, CALL));
    }

    /// Document 01's table: 1 to 3 concern all kinds, 4 all but three, and so on.
    const PAIRS: usize = 3 * 16 + 13 + 4 + 1 + 4 + 1 + 1 + 2 + 1 + 4 + 2 + 5 + 8;

    /// 1 to 5, 10 and 24 concern both kinds, 11, 18 and 19 a final notice, 12 to 15 a cut.
    const CALENDAR_PAIRS: usize = 7 * 2 + 3 + 4;
}
