//! Certificates around 1 January 2026, which is day 9,497: of that day or later they have at most 90 days, and those of before
//! run on.
use super::*;

#[test]
fn more_than_90_days_are_refused_from_day_9497_on() {
    for (day, days, answer) in [
        (0, 180, 0),
        (9_496, 90, 0),
        (9_496, 91, 0),
        (9_496, 180, 0),
        (9_496, 181, 3),
        (9_497, 1, 0),
        (9_497, 90, 0),
        (9_497, 91, 3),
        (9_497, 180, 3),
        (9_497, 181, 3),
        (9_498, 91, 3),
        (73_048, 90, 0),
        (73_048, 91, 3),
        (73_049, 91, 1),
    ] {
        let answered = last_answer(&[certificate(day, days)]);
        assert_eq!(answered, answer, "{days} days from {day} on");
    }
}

#[test]
fn the_day_is_its_own_and_not_that_of_an_event_before() {
    for before in [call(0), call(9_496), certificate(9_496, 180)] {
        for (day, days, answer) in [(9_496, 180, 0), (9_497, 90, 0), (9_497, 91, 3)] {
            let answered = last_answer(&[before, certificate(day, days)]);
            assert_eq!(answered, answer, "{days} days from {day} on");
        }
    }
}

#[test]
fn two_comes_before_it_and_four_after_it() {
    assert_eq!(last_answer(&[call(9_498), certificate(9_497, 91)]), 2);
    assert_eq!(last_answer(&[call(9_497), certificate(9_496, 180)]), 2);
    assert_eq!(last_answer(&[close(9_497), certificate(9_497, 91)]), 3);
    assert_eq!(last_answer(&[close(9_497), certificate(9_497, 90)]), 4);
    assert_eq!(last_answer(&[close(9_496), certificate(9_496, 180)]), 4);
}

/// The answer to a cut after these events, for which a notice and a call were made in time.
fn cut_after(events: &[Event], day: u32) -> u8 {
    let mut history = vec![bill(9_000, 6_000)];
    history.extend(events);
    history.extend([notice(day - 5), call(day - 1), cut(day)]);
    history.sort_by_key(|e| e.day);
    last_answer(&history)
}

#[test]
fn a_certificate_of_before_bars_a_cut_on_all_of_its_days() {
    let longest = [certificate(9_496, 180)];
    let answers = [9_586, 9_587, 9_675, 9_676].map(|day| cut_after(&longest, day));
    assert_eq!(answers, [15, 15, 15, 0]);
    // One of the next day, as long as it may be then, is over on the second of these days.
    let short = [certificate(9_497, 90)];
    assert_eq!([9_586, 9_587].map(|day| cut_after(&short, day)), [15, 0]);
    // A later one does not end it.
    let both = [certificate(9_496, 180), certificate(9_497, 90)];
    assert_eq!([9_675, 9_676].map(|day| cut_after(&both, day)), [15, 0]);
}

#[test]
fn a_refused_certificate_neither_certifies_nor_voids_an_approval() {
    let history = |days| {
        [
            bill(9_000, 6_000),
            certificate(9_496, 20),
            approval(9_497, 30),
            certificate(9_497, days),
            notice(9_497),
            call(9_501),
            cut(9_502),
        ]
    };
    assert_eq!(post_all(&history(91)).answers, [0, 0, 0, 3, 0, 0, 0]);
    assert_eq!(post_all(&history(90)).answers, [0, 0, 0, 0, 0, 0, 15]);
    // With no certificate before it, nothing bars the cut.
    let refused_alone = [
        bill(9_000, 6_000),
        certificate(9_497, 91),
        notice(9_497),
        call(9_501),
        cut(9_502),
    ];
    assert_eq!(post_all(&refused_alone).answers, [0, 3, 0, 0, 0]);
}
