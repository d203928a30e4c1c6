//! What is refused: the rows asked in the order of their numbers, but for 24, which comes after 5.
use super::arrangement::stands;
use super::calendar::{holds, Calendar};
use super::collection::{called, live_notice, notice_allows, service, Service, ARREARS};
use super::days;
use super::deposit::{earned, full_since, held, required};
use super::kind::*;
use super::medical::{approved, certified};
use super::money::{charge, received, received_in_all, Money};
use super::receipts::{returnable, TILLS};
use tools::event::Event;

/// The largest amount A.
pub const LARGEST_AMOUNT: u64 = 10_000_000_000;
/// The largest sum that may be asked as a deposit.
pub const LARGEST_DEPOSIT: u64 = 100_000_000;
/// What charges, and payments plus deposits moved, may reach.
pub const LARGEST_TOTAL: i64 = 1_000_000_000_000;
/// How many items may be open.
pub const OPEN_ITEMS: usize = 64;
/// 1 January 2026: a certificate of that day or later is shorter.
pub const NEW_YEAR_2026: u32 = 9_497;
/// The most days of a certificate of before that day, and of one of that day or later.
pub const LONGEST_BEFORE_2026: u64 = 180;
pub const LONGEST_FROM_2026: u64 = 90;

/// The number that refuses an event after those accepted before it, on an account with this calendar or none; 0 where none
/// does.
pub fn refusal(calendar: Option<&Calendar>, accepted: &[Event], event: Event) -> u8 {
    let money = Money::of(accepted);
    let refuses = |row: &u8| refuses(*row, calendar, accepted, &money, event);
    (1..=5).chain([24]).chain(6..=19).find(refuses).unwrap_or(0)
}

fn refuses(
    row: u8,
    calendar: Option<&Calendar>,
    accepted: &[Event],
    money: &Money,
    event: Event,
) -> bool {
    let Event { kind, day, .. } = event;
    match (row, kind) {
        (1 | 2, _) => days::refusal(accepted, day) == Some(row),
        (3, _) => !well_formed(event),
        (4, PAYMENT | RETURNED | PAYOUT) => false,
        (4, _) => service(accepted) == Service::Closed,
        (5, NOTICE | CALL | CUT) => service(accepted) != Service::On,
        (5, RECONNECTION) => service(accepted) != Service::Off,
        (6, RETURNED) => !returnable(accepted, event.option, event.amount),
        (7, _) => over(accepted, money, event),
        (8, DEPOSIT_MOVED) => !earned(accepted, day),
        (9, ARRANGEMENT) => money.arrears(day) == 0 || stands(accepted, money, day),
        (10, NOTICE | CUT) => money.arrears(day) < ARREARS,
        (11, NOTICE) => live_notice(accepted, money, day).is_some(),
        (12, CUT) => !notice_allows(calendar, accepted, money, day),
        (13, CUT) => !called(accepted, day),
        (14, CUT) => stands(accepted, money, day),
        (15, CUT) => certified(accepted, day) && !approved(accepted, day),
        (16, RECONNECTION) => money.arrears(day) > 0 && !stands(accepted, money, day),
        (17, RECONNECTION) => held(accepted) < required(accepted),
        (18, BILL | RETURNED | FEE | NOTICE | RECONNECTION) => {
            money.open_items().len() >= OPEN_ITEMS
        }
        (19, _) => too_much(accepted, money, event),
        (24, NOTICE | CUT) => calendar.is_some_and(|calendar| !holds(calendar, day)),
        _ => false,
    }
}

/// The most days of a certificate by the day of its event.
pub fn longest_certificate(day: u32) -> u64 {
    match day < NEW_YEAR_2026 {
        true => LONGEST_BEFORE_2026,
        false => LONGEST_FROM_2026,
    }
}

/// Whether kind, option and amount are in range, and 0 where the kind does not name them. The day counts for a certificate
/// alone.
pub fn well_formed(event: Event) -> bool {
    let Event { option, amount, .. } = event;
    match event.kind {
        BILL | DEPOSIT_PAID | PAYOUT => option == 0 && (1..=LARGEST_AMOUNT).contains(&amount),
        PAYMENT => option < TILLS && (1..=LARGEST_AMOUNT).contains(&amount),
        RETURNED => option < TILLS && amount >= 1,
        FEE => (1..=3).contains(&option) && amount == 0,
        DEPOSIT_ASKED => option == 0 && (1..=LARGEST_DEPOSIT).contains(&amount),
        CERTIFICATE => option == 0 && (1..=longest_certificate(event.day)).contains(&amount),
        APPROVAL => option == 0 && (1..=30).contains(&amount),
        ARRANGEMENT => (2..=6).contains(&option) && amount == 0,
        RECONNECTION => option <= 1 && amount == 0,
        DEPOSIT_MOVED | NOTICE | CALL | CUT | CLOSE => option == 0 && amount == 0,
        _ => false,
    }
}

/// Row 7: a payout or a deposit that is out of proportion to what there is.
fn over(accepted: &[Event], money: &Money, event: Event) -> bool {
    let amount = event.amount as i64;
    match event.kind {
        PAYOUT => amount > -money.owed(),
        DEPOSIT_ASKED => amount <= held(accepted),
        DEPOSIT_PAID => held(accepted) + amount > required(accepted),
        DEPOSIT_MOVED => full_since(accepted).is_none(),
        _ => false,
    }
}

/// Row 19: a total that would pass what it may reach. A payout takes nothing from payments plus deposits moved.
fn too_much(accepted: &[Event], money: &Money, event: Event) -> bool {
    let item = charge(accepted, money.owed(), event).unwrap_or(0);
    let credit = received(accepted, event);
    money.charged() + item > LARGEST_TOTAL || received_in_all(accepted) + credit > LARGEST_TOTAL
}
