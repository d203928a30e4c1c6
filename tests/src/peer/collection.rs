//! Service, final notices and calls.
use super::calendar::{working_days, Calendar};
use super::kind::*;
use super::money::Money;
use tools::event::Event;
pub use tools::service::Service;

/// A final notice or a cut wants arrears of at least so much.
pub const ARREARS: i64 = 5_000;

/// Service is as the last event that sets it says.
pub fn service(accepted: &[Event]) -> Service {
    let set = |e: &Event| match e.kind {
        CUT => Some(Service::Off),
        RECONNECTION => Some(Service::On),
        CLOSE => Some(Service::Closed),
        _ => None,
    };
    accepted.iter().rev().find_map(set).unwrap_or(Service::On)
}

/// The day of a notice that is live on a day.
pub fn live_notice(accepted: &[Event], money: &Money, day: u32) -> Option<u32> {
    let in_time = |e: &Event| e.day <= day && i64::from(day) <= i64::from(e.day) + 20;
    (0..accepted.len())
        .filter(|&at| accepted[at].kind == NOTICE && in_time(&accepted[at]))
        .find(|&at| kept_alive(accepted, money, at))
        .map(|at| accepted[at].day)
}

/// Whether nothing used the notice up, and the arrears were high enough after it and after each later event.
fn kept_alive(accepted: &[Event], money: &Money, notice: usize) -> bool {
    let used_up = accepted[notice..].iter().any(|e| e.kind == CUT);
    let lapsed =
        (notice..accepted.len()).any(|at| money.arrears_after(at + 1, accepted[at].day) < ARREARS);
    !used_up && !lapsed
}

/// Whether a live notice has the day among those on which it allows a cut: from its fifth day on, or with a calendar from its
/// fifth working day on.
pub fn notice_allows(
    calendar: Option<&Calendar>,
    accepted: &[Event],
    money: &Money,
    day: u32,
) -> bool {
    let waited = |notice: u32| match calendar {
        None => i64::from(notice) + 5 <= i64::from(day),
        Some(calendar) => working_days(calendar, notice, day) >= 5,
    };
    live_notice(accepted, money, day).is_some_and(waited)
}

/// Whether there was a call on one of the three days before a day.
pub fn called(accepted: &[Event], day: u32) -> bool {
    let before = |e: &Event| i64::from(day) - i64::from(e.day);
    accepted
        .iter()
        .any(|e| e.kind == CALL && (1..=3).contains(&before(e)))
}
