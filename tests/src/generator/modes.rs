//! The modes: each sets a scene, then walks on among the bounds of what it set up.
mod calendar;
mod collection;
mod deposit;
mod mixed;
mod money;

use super::Writer;
use crate::peer::kind::*;

pub struct Mode {
    pub name: &'static str,
    pub write: fn(&mut Writer),
}

pub const MODES: [Mode; 22] = [
    mode("seventy months of bills", mixed::months),
    mode("returned checks", money::returned_checks),
    mode("notices and disconnections", collection::disconnections),
    mode("notices that lapse", collection::lapses),
    mode("notices that a cut used up", collection::used_up),
    mode("deposits and their return", deposit::deposits),
    mode("deposits a year by the date", deposit::a_year),
    mode("payment arrangements", collection::arrangements),
    mode("arrangements of a few cents", collection::small_debts),
    mode("certificates and approvals", collection::medical),
    mode("certificates around 2026", collection::around_2026),
    mode("working days after a notice", calendar::working_days),
    mode("both ends of a calendar", calendar::ends),
    mode("sixty-four open items", money::open_items),
    mode("open items while off", money::open_while_off),
    mode("totals at their end", money::totals),
    mode("both ends at once", money::both_ends),
    mode("late charges", money::late_charges),
    mode("closed accounts", deposit::closed),
    mode("the last days", mixed::last_days),
    mode("odd events", mixed::odd),
    mode("any kind on any day", mixed::wander_all),
];

const fn mode(name: &'static str, write: fn(&mut Writer)) -> Mode {
    Mode { name, write }
}

const ALL: [u8; 16] = [1, 2, 3, 4, 5, 6, 7, 8, 9, 10, 11, 12, 13, 14, 15, 16];
/// What collection is about, closing left out since nothing comes after it.
const COLLECTION: [u8; 14] = [
    BILL,
    PAYMENT,
    PAYMENT,
    RETURNED,
    CERTIFICATE,
    APPROVAL,
    ARRANGEMENT,
    NOTICE,
    NOTICE,
    CALL,
    CALL,
    CUT,
    CUT,
    RECONNECTION,
];
const MEDICAL: [u8; 6] = [CERTIFICATE, CERTIFICATE, APPROVAL, APPROVAL, CALL, CUT];
const DEPOSIT: [u8; 4] = [DEPOSIT_ASKED, DEPOSIT_PAID, DEPOSIT_PAID, DEPOSIT_MOVED];
