//! What an account tells when it is asked, by itself and by the peer.
use crate::peer::collection::service;
use crate::peer::deposit::{held, required};
use crate::peer::money::Money;
use tools::core::Account;
use tools::event::Event;
use tools::service::Service;

/// More items than an account has, so that an odd count is not followed to its end.
const ENOUGH: usize = 100;

#[derive(Clone, Debug, PartialEq, Eq)]
pub struct Told {
    owed: i64,
    held: i64,
    required: i64,
    service: Service,
    /// Day and unpaid part of the open items, and of the one past the last.
    open: Vec<(u64, i64)>,
}

impl Told {
    pub fn by_account(account: &Account) -> Told {
        let item = |index| {
            let item = account.open_item(index);
            (item.day, item.unpaid as i64)
        };
        let places = 0..=account.open_count() as usize;
        Told {
            owed: account.owed(),
            held: account.held() as i64,
            required: account.required() as i64,
            service: account.service(),
            open: places.take(ENOUGH).map(item).collect(),
        }
    }

    /// What memory tells that is no account.
    pub fn by_no_account() -> Told {
        Told {
            owed: 0,
            held: 0,
            required: 0,
            service: Service::Closed,
            open: vec![(0, 0)],
        }
    }

    /// After the first `after` of the accepted events.
    pub fn by_peer(accepted: &[Event], money: &Money, after: usize) -> Told {
        let accepted = &accepted[..after];
        let items = money.open_items_after(after).into_iter();
        let mut open: Vec<(u64, i64)> = items.map(|(day, unpaid)| (day.into(), unpaid)).collect();
        open.push((0, 0));
        Told {
            owed: money.owed_after(after),
            held: held(accepted),
            required: required(accepted),
            service: service(accepted),
            open,
        }
    }
}

#[cfg(test)]
mod tests {
    use super::*;
    use crate::make::{bill, call, cut, deposit_asked, deposit_paid, notice};

    #[test]
    fn both_tell_each_part() {
        let events = [
            deposit_asked(0, 700),
            deposit_paid(0, 300),
            bill(0, 6_000),
            notice(20),
            call(24),
            cut(25),
        ];
        let mut account = Account::fresh();
        for event in events {
            account.post(event);
        }
        let told = Told {
            owed: 7_500,
            held: 300,
            required: 700,
            service: Service::Off,
            open: vec![(0, 6_000), (20, 1_500), (0, 0)],
        };
        assert_eq!(Told::by_account(&account), told);
        let by_peer = Told::by_peer(&events, &Money::of(&events), events.len());
        assert_eq!(by_peer, told);
    }
}
