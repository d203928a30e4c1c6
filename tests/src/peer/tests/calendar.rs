//! Accounts that are begun with a calendar: both sides of the count and of the calendar's days.
use super::*;
use crate::peer::calendar::{holds, working_days, DAYS};

/// The answer to the last event, after the others were accepted, on an account with a calendar.
fn last_answer(calendar: &Calendar, events: &[Event]) -> u8 {
    let posted = post_all_by(Some(calendar), events);
    let (last, before) = posted.answers.split_last().unwrap();
    assert!(before.iter().all(|&answer| answer == 0), "{posted:?}");
    *last
}

/// The answer to a cut, with a call on the day before and a notice so many days before; the bill is 20 days older.
fn cut_after(calendar: &Calendar, notice_day: u32, days: u32) -> u8 {
    let cut_day = notice_day + days;
    let events = [
        bill(notice_day - 20, 6_000),
        notice(notice_day),
        call(cut_day - 1),
        cut(cut_day),
    ];
    last_answer(calendar, &events)
}

/// Over 1,000 days before the days of these tests, so that both its ends are far from them.
fn far(is_working: impl Fn(u32) -> bool) -> Calendar {
    calendar(1_000, |place| is_working(1_000 + place))
}

#[test]
fn the_bits_are_in_order_of_days_the_lowest_first() {
    let mut calendar = Calendar {
        first: 100,
        bits: [0; 32],
    };
    calendar.bits[0] = 0b101;
    calendar.bits[1] = 1 << 63;
    calendar.bits[31] = 1 << 63;
    let working = |day: u32| working_days(&calendar, day - 1, day) == 1;
    let days: Vec<u32> = (1..4_000).filter(|&day| working(day)).collect();
    assert_eq!(days, [100, 102, 227, 2_147]);
    let same = make::calendar(100, |place| [0, 2, 127, 2_047].contains(&place));
    assert_eq!(same, calendar);
}

#[test]
fn a_day_lies_in_it_in_whole_numbers() {
    let held = |first, days: &[u32]| -> Vec<bool> {
        let calendar = calendar(first, |_| true);
        days.iter().map(|&day| holds(&calendar, day)).collect()
    };
    let far = [2_999, 3_000, 5_047, 5_048];
    assert_eq!(held(3_000, &far), [false, true, true, false]);
    assert_eq!(held(0, &[0, 2_047, 2_048]), [true, true, false]);
    let most = u32::MAX;
    // Its last day is the last number that a day can be; then days beyond that, none of which comes round to 0.
    assert_eq!(held(most - 2_047, &[most, 0, 2_047]), [true, false, false]);
    assert_eq!(held(most - 2_046, &[most, 0, 2_046]), [true, false, false]);
    assert_eq!(held(most, &[most, most - 1, 0]), [true, false, false]);
    assert_eq!(held(73_049, &[73_048, 73_049]), [false, true]);
}

#[test]
fn the_working_days_after_one_day_up_to_another() {
    let all = calendar(3_000, |_| true);
    for (after, to, count) in [
        (3_000, 3_000, 0),
        (3_000, 3_001, 1),
        (2_999, 3_000, 1),
        (2_998, 2_999, 0),
        (3_005, 3_000, 0),
        (3_059, 3_070, 11),
        (5_046, 5_047, 1),
        (5_046, u32::MAX, 1),
        (5_047, u32::MAX, 0),
        (0, u32::MAX, DAYS),
        (0, 4_000, 1_001),
        (u32::MAX, 0, 0),
    ] {
        assert_eq!(working_days(&all, after, to), count, "{after} to {to}");
    }
    let third = calendar(3_000, |place| place % 3 == 0);
    assert_eq!(working_days(&third, 3_000, 3_009), 3);
    assert_eq!(working_days(&third, 0, u32::MAX), 683);
    // Of the days of this one only the first is a number that a day can be.
    let last = calendar(u32::MAX, |_| true);
    assert_eq!(working_days(&last, 0, u32::MAX), 1);
    assert_eq!(working_days(&last, u32::MAX, u32::MAX), 0);
    assert_eq!(working_days(&last, 0, u32::MAX - 1), 0);
}

#[test]
fn a_cut_wants_five_working_days_after_the_notice() {
    let all = far(|_| true);
    assert_eq!([4, 5].map(|days| cut_after(&all, 1_500, days)), [12, 0]);
    // Every second day: the fifth is ten days after the notice, which is a working day itself and is not counted.
    let second = far(|day| day % 2 == 0);
    let answers = [5, 8, 9, 10, 11, 20].map(|days| cut_after(&second, 1_500, days));
    assert_eq!(answers, [12, 12, 12, 0, 0, 0]);
    // The notice on a day that is none: the fifth is a day sooner, and counts though it is the day of the cut.
    assert_eq!([8, 9].map(|days| cut_after(&second, 1_501, days)), [12, 0]);
}

#[test]
fn weekends_are_waited_over() {
    // Day 1,500 is a Monday, and 1,505 and 1,506 are its weekend.
    let weekdays = far(|day| (day + 5) % 7 < 5);
    let first = |notice_day| (1..=20).find(|&days| cut_after(&weekdays, notice_day, days) == 0);
    let waits = [1_500, 1_501, 1_504, 1_505, 1_506].map(first);
    assert_eq!(waits, [Some(7), Some(7), Some(7), Some(6), Some(5)]);
}

#[test]
fn the_last_five_days_of_a_notice_may_be_the_only_ones() {
    let last_five = far(|day| (1_516..=1_520).contains(&day));
    let answers = [19, 20, 21].map(|days| cut_after(&last_five, 1_500, days));
    assert_eq!(answers, [12, 0, 12]);
    // The fifth a day after the notice is over; the notice's own day in place of the fifth.
    let late = far(|day| (1_517..=1_521).contains(&day));
    let own = far(|day| day == 1_500 || (1_517..=1_520).contains(&day));
    for calendar in [late, own, far(|_| false)] {
        let answers = [5, 20, 21].map(|days| cut_after(&calendar, 1_500, days));
        assert_eq!(answers, [12; 3]);
    }
}

#[test]
fn the_days_cross_a_word() {
    // The notice on bit 59 to 63 of a word, and the days around the end of it.
    for bit in 59..64 {
        let notice_day = 1_000 + 7 * 64 + bit;
        let all = far(|_| true);
        let answers = [4, 5].map(|days| cut_after(&all, notice_day, days));
        assert_eq!(answers, [12, 0], "bit {bit}");
        let without_the_last = far(|day| day != 1_000 + 7 * 64 + 63);
        let without_the_first = far(|day| day != 1_000 + 8 * 64);
        let waits = [5 + u32::from(bit < 63), 6];
        for (calendar, wait) in [without_the_last, without_the_first].iter().zip(waits) {
            let answers = [wait - 1, wait].map(|days| cut_after(calendar, notice_day, days));
            assert_eq!(answers, [12, 0], "bit {bit}");
        }
    }
}

#[test]
fn a_notice_wants_to_lie_in_the_calendar() {
    let noticed = |first, day| {
        let calendar = calendar(first, |_| false);
        last_answer(&calendar, &[bill(0, 6_000), notice(day)])
    };
    let days = [2_999, 3_000, 5_047, 5_048];
    assert_eq!(days.map(|day| noticed(3_000, day)), [24, 0, 0, 24]);
    for first in [u32::MAX, u32::MAX - 2_047, u32::MAX - 2_000, 73_049] {
        assert_eq!([20, 73_048].map(|day| noticed(first, day)), [24, 24]);
    }
}

#[test]
fn a_cut_wants_to_lie_in_the_calendar() {
    let all = calendar(3_000, |_| true);
    // On the first day there can be no live notice, nor before it.
    let cut_on = |day| last_answer(&all, &[bill(0, 6_000), cut(day)]);
    assert_eq!([2_999, 3_000].map(cut_on), [24, 12]);
    assert_eq!([4, 5].map(|days| cut_after(&all, 3_000, days)), [12, 0]);
    // The notice is live and waited long enough up to the last day, and on the day after it too.
    assert_eq!(cut_after(&all, 5_042, 5), 0);
    assert_eq!(cut_after(&all, 5_042, 6), 24);
    assert_eq!(cut_after(&all, 5_043, 4), 12);
    assert_eq!(cut_after(&all, 5_043, 5), 24);
}

#[test]
fn the_calendar_is_asked_after_the_service_and_before_the_arrears() {
    let outside = calendar(5_000, |_| true);
    let noticed = [bill(0, 6_000), notice(5_000)];
    for event in [notice, cut] {
        let answer =
            |events: &[Event], day| last_answer(&outside, &[events, &[event(day)]].concat());
        // 1 to 5 come before 24.
        assert_eq!(answer(&[], 73_049), 1);
        assert_eq!(answer(&[call(9)], 8), 2);
        let odd = Event {
            option: 1,
            ..event(9)
        };
        assert_eq!(last_answer(&outside, &[odd]), 3);
        assert_eq!(answer(&[close(9)], 9), 4);
        let off = [&noticed[..], &[call(5_004), cut(5_005)]].concat();
        assert_eq!(answer(&off, 7_048), 5);
        // 10 and those after it do not; inside the calendar, these are the answer.
        assert_eq!(answer(&[], 9), 24);
        assert_eq!(answer(&[bill(0, 6_000)], 4_999), 24);
        assert_eq!(answer(&[], 5_000), 10);
    }
    // 11 to 15 each where a notice of the calendar's last days lives on behind them, and 12 after it is over.
    let last = [bill(0, 6_000), notice(7_040)];
    let then = |events: &[Event]| last_answer(&outside, &[&last[..], events].concat());
    assert_eq!(then(&[notice(7_047)]), 11);
    assert_eq!(then(&[notice(7_048)]), 24);
    assert_eq!(then(&[cut(7_048)]), 24);
    assert_eq!(then(&[arrangement(7_041, 2), cut(7_048)]), 24);
    assert_eq!(then(&[certificate(7_041, 9), call(7_047), cut(7_048)]), 24);
    assert_eq!(then(&[cut(7_061)]), 24);
}

#[test]
fn other_kinds_are_taken_outside_the_calendar() {
    let outside = calendar(u32::MAX, |_| false);
    let events = [
        bill(0, 6_000),
        certificate(20, 9),
        arrangement(20, 2),
        call(21),
        payment(22, 9),
        close(23),
    ];
    assert_eq!(post_all_by(Some(&outside), &events).answers, [0; 6]);
}

#[test]
fn what_lives_and_lapses_asks_for_no_working_day() {
    let never = far(|_| false);
    let noticed = [bill(1_480, 6_000), bill(1_483, 9_000), notice(1_500)];
    let then = |events: &[Event]| last_answer(&never, &[&noticed[..], events].concat());
    assert_eq!([1_520, 1_521].map(|day| then(&[notice(day)])), [11, 0]);
    assert_eq!(then(&[payment(1_502, 1_000), notice(1_503)]), 11);
    // A cent less than is wanted: it lapsed, and the second bill allows another.
    assert_eq!(then(&[payment(1_502, 1_001), notice(1_503)]), 0);
}

#[test]
fn without_a_calendar_five_days_are_waited() {
    let events = |days: u32| {
        [
            bill(1_480, 6_000),
            notice(1_500),
            call(1_499 + days),
            cut(1_500 + days),
        ]
    };
    let answers = [4, 5].map(|days| post_all(&events(days)).answers[3]);
    assert_eq!(answers, [12, 0]);
}
