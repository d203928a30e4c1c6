//! An account list as it is lent to the core.
use crate::event::{AccountList, Event};

/// How many records each account has, and each field of all records, one account after another. As lent memory, the columns
/// may have any lengths.
#[derive(Clone, Debug, Default, PartialEq, Eq)]
pub struct Columns {
    pub counts: Vec<u32>,
    pub kinds: Vec<u8>,
    pub options: Vec<u8>,
    pub days: Vec<u32>,
    pub amounts: Vec<u64>,
}

impl Columns {
    /// Memory for so many accounts and records.
    pub fn for_list(accounts: usize, records: usize) -> Columns {
        Columns {
            counts: vec![0; accounts],
            kinds: vec![0; records],
            options: vec![0; records],
            days: vec![0; records],
            amounts: vec![0; records],
        }
    }

    pub fn of(list: &[Vec<Event>]) -> Columns {
        let records = || list.iter().flatten();
        // An account with more records than a count can say is one whose count the core finds wrong.
        let count = |account: &Vec<Event>| u32::try_from(account.len()).unwrap_or(u32::MAX);
        Columns {
            counts: list.iter().map(count).collect(),
            kinds: records().map(|e| e.kind).collect(),
            options: records().map(|e| e.option).collect(),
            days: records().map(|e| e.day).collect(),
            amounts: records().map(|e| e.amount).collect(),
        }
    }

    /// The list in these columns, which have as many records as the counts say.
    pub fn list(&self) -> AccountList {
        let marks = self.kinds.iter().zip(&self.options);
        let numbers = self.days.iter().zip(&self.amounts);
        let mut records = marks
            .zip(numbers)
            .map(|((&kind, &option), (&day, &amount))| Event::new(kind, option, day, amount));
        let mut account = |&count: &u32| records.by_ref().take(count as usize).collect();
        self.counts.iter().map(&mut account).collect()
    }
}

#[cfg(test)]
mod tests {
    use super::*;

    #[test]
    fn a_list_comes_back() {
        let event = Event::new(14, 3, 4_000_000_000, u64::MAX);
        let list = vec![vec![event], vec![], vec![event, Event::of(1, 5, 7)]];
        let columns = Columns::of(&list);
        assert_eq!(columns.counts, [1, 0, 2]);
        assert_eq!(columns.days, [4_000_000_000, 4_000_000_000, 5]);
        assert_eq!(columns.list(), list);
    }
}
