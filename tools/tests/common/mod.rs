//! What the tests of the tools share.
use tools::core::{Account, Answer};
use tools::event::Event;

/// An account after events that are all accepted.
pub fn after(events: &[Event]) -> Account {
    let mut account = Account::fresh();
    for &event in events {
        let answer = account.post(event);
        assert!(
            matches!(answer, Answer::Accepted(_)),
            "{event:?} {answer:?}"
        );
    }
    account
}

/// The answer to the last event, posted after the others, which have to be accepted.
#[allow(dead_code)] // Not every test that shares this file asks for it.
pub fn last_answer(events: &[Event]) -> Answer {
    let (&last, before) = events.split_last().unwrap();
    after(before).post(last)
}
