//! The peer against the worked examples of document 01: the marked histories, an input for each row, the printed text.
mod calendar;
mod certificates;
mod dates;

use super::*;
use crate::make::{self, *};

/// The answer to the last event of a history, after the others were accepted.
fn last_answer(events: &[Event]) -> u8 {
    let posted = post_all(events);
    let (last, before) = posted.answers.split_last().unwrap();
    assert!(before.iter().all(|&answer| answer == 0), "{posted:?}");
    *last
}

/// Histories a to k start so and are sorted by day.
fn marked(events: &[Event]) -> u8 {
    let mut history = vec![bill(0, 6_000), notice(20), call(22)];
    history.extend(events);
    history.sort_by_key(|e| e.day);
    last_answer(&history)
}

#[test]
fn notice_when_the_bill_is_delinquent() {
    assert_eq!(last_answer(&[bill(0, 6_000), notice(19)]), 10);
    assert_eq!(last_answer(&[bill(0, 6_000), notice(20)]), 0);
}

#[test]
fn cut_in_the_days_of_the_notice() {
    assert_eq!(marked(&[cut(24)]), 12);
    assert_eq!(marked(&[cut(25)]), 0);
    assert_eq!(marked(&[call(39), cut(40)]), 0);
    assert_eq!(marked(&[call(39), cut(41)]), 12);
}

#[test]
fn cut_after_a_call() {
    let start = [bill(0, 6_000), notice(20)];
    assert_eq!(
        last_answer(&[&start[..], &[call(21), cut(25)]].concat()),
        13
    );
    assert_eq!(marked(&[call(24), call(25), cut(25)]), 0);
}

#[test]
fn cut_and_arrangement() {
    assert_eq!(marked(&[arrangement(22, 2), cut(25)]), 14);
}

#[test]
fn cut_and_certificate() {
    assert_eq!(marked(&[certificate(21, 4), cut(25)]), 0);
    assert_eq!(marked(&[certificate(21, 5), cut(25)]), 15);
    assert_eq!(marked(&[certificate(21, 5), approval(22, 4), cut(25)]), 0);
    assert_eq!(marked(&[approval(21, 30), certificate(21, 5), cut(25)]), 15);
}

#[test]
fn cut_after_a_payment() {
    assert_eq!(marked(&[payment(22, 1_001), cut(25)]), 10);
    assert_eq!(marked(&[payment(22, 1_000), cut(25)]), 0);
}

#[test]
fn late_charge_by_what_is_owed() {
    assert_eq!(standing_of(&[bill(0, 133), bill(1, 1_000)]).owed, 1_133);
    assert_eq!(standing_of(&[bill(0, 134), bill(1, 1_000)]).owed, 1_135);
    // Both sides of the next cents.
    for (owed, late) in [(266, 1), (267, 2), (399, 2), (400, 3)] {
        let after = standing_of(&[bill(0, owed), bill(1, 1_000)]).owed;
        assert_eq!(after, owed as i64 + 1_000 + late, "{owed} owed");
    }
    assert_eq!(
        standing_of(&[payment(0, 5_000), bill(1, 1_000)]).owed,
        -4_000
    );
}

#[test]
fn rows_one_to_five() {
    assert_eq!(last_answer(&[bill(73_049, 1)]), 1);
    assert_eq!(last_answer(&[bill(73_048, 1)]), 0);
    assert_eq!(last_answer(&[call(5), call(4)]), 2);
    assert_eq!(last_answer(&[bill(0, 0)]), 3);
    assert_eq!(last_answer(&[Event::new(17, 0, 0, 0)]), 3);
    assert_eq!(last_answer(&[Event::new(0, 0, 73_049, 0)]), 1);
    assert_eq!(last_answer(&[close(0), close(0)]), 4);
    assert_eq!(last_answer(&[reconnection(0, 0)]), 5);
}

#[test]
fn fees_are_those_of_the_table() {
    let fees = [7_500, 15_000, 3_000, 1_500, 2_500, 2_000, 7_500];
    for (number, amount) in (1..).zip(fees) {
        assert_eq!(money::fee(number), amount, "fee {number}");
    }
}

/// A kind, the ends of its option, and the ends of its amount.
type Fields = (u8, (u8, u8), (u64, u64));

/// Those of every kind, on a day on which a certificate may have so many days.
fn fields(certificate_days: u64) -> [Fields; 16] {
    let most = 10_000_000_000;
    [
        (1, (0, 0), (1, most)),
        (2, (0, 4), (1, most)),
        (3, (0, 4), (1, u64::MAX)),
        (4, (1, 3), (0, 0)),
        (5, (0, 0), (1, 100_000_000)),
        (6, (0, 0), (1, most)),
        (7, (0, 0), (0, 0)),
        (8, (0, 0), (1, most)),
        (9, (0, 0), (1, certificate_days)),
        (10, (0, 0), (1, 30)),
        (11, (2, 6), (0, 0)),
        (12, (0, 0), (0, 0)),
        (13, (0, 0), (0, 0)),
        (14, (0, 0), (0, 0)),
        (15, (0, 1), (0, 0)),
        (16, (0, 0), (0, 0)),
    ]
}

#[test]
fn row_three_at_the_ends_of_each_range() {
    for (day, certificate_days) in [(0, 180), (9_496, 180), (9_497, 90), (73_048, 90)] {
        for (kind, (least, greatest), (from, to)) in fields(certificate_days) {
            let answer = |option, amount| last_answer(&[Event::new(kind, option, day, amount)]);
            let fits = |option: u8, amount| answer(option, amount) != 3;
            let which = format!("kind {kind} on day {day}");
            assert!(fits(least, from) && fits(greatest, to), "{which}");
            assert!(least == 0 || !fits(least - 1, from), "{which}");
            assert!(from == 0 || !fits(least, from - 1), "{which}");
            assert!(!fits(greatest + 1, to), "{which}");
            assert!(to == u64::MAX || !fits(greatest, to + 1), "{which}");
        }
    }
}

#[test]
fn row_six_at_the_newest_16_of_a_till() {
    // All 20 of till 2 are older than the last 39 of till 0; till 4 has none.
    let mut payments = vec![payment(0, 10)];
    payments.extend([payment_at(2, 0, 10); 20]);
    payments.extend([payment(0, 10); 39]);
    for (till, first, last) in [(0, 25, 40), (2, 5, 20), (4, 1, 0)] {
        for receipt in 1..=41 {
            payments.push(returned_at(till, 0, receipt));
            let known = (first..=last).contains(&receipt);
            let answer = last_answer(&payments);
            assert_eq!(answer == 0, known, "receipt {receipt} of till {till}");
            payments.pop();
        }
    }
}

#[test]
fn a_returned_payment_keeps_its_place_among_the_16() {
    let mut history = vec![payment_at(1, 0, 10); 16];
    history.extend((2..=16).map(|receipt| returned_at(1, 0, receipt)));
    let then = |events: &[Event]| last_answer(&[&history[..], events].concat());
    assert_eq!(then(&[returned_at(1, 0, 1)]), 0);
    assert_eq!(then(&[payment_at(3, 0, 10), returned_at(1, 0, 1)]), 0);
    assert_eq!(then(&[payment_at(1, 0, 10), returned_at(1, 0, 1)]), 6);
}

#[test]
fn each_till_counts_its_own_receipts() {
    let history = [
        payment_at(4, 0, 100),
        payment_at(1, 0, 20),
        payment_at(4, 0, 3),
        payment_at(0, 0, 5_000),
    ];
    let counted = [0, 1, 2, 3, 4].map(|till| receipts::payments(&history, till));
    assert_eq!(counted, [1, 1, 0, 0, 2]);
    // What is charged again is the payment of that till and number, with fee 5.
    let paid = 5_123;
    for (till, receipt, amount) in [(0, 1, 5_000), (1, 1, 20), (4, 1, 100), (4, 2, 3)] {
        let event = returned_at(till, 0, receipt);
        assert_eq!(receipts::named(&history, event), Some(amount));
        let after = standing_of(&[&history[..], &[event]].concat());
        assert_eq!(after.owed, amount + 2_500 - paid, "{event:?}");
    }
}

#[test]
fn a_receipt_is_returned_once_at_each_till_that_has_it() {
    let mut history = vec![payment_at(1, 0, 10), payment_at(4, 0, 10)];
    for (till, answer) in [(1, 0), (1, 6), (4, 0), (4, 6), (0, 6), (5, 3)] {
        let event = returned_at(till, 0, 1);
        history.push(event);
        assert_eq!(last_answer(&history), answer, "{event:?}");
        if answer != 0 {
            history.pop();
        }
    }
    assert_eq!(last_answer(&[payment_at(4, 0, 10)]), 0);
    assert_eq!(last_answer(&[payment_at(5, 0, 10)]), 3);
}

#[test]
fn rows_six_and_seven() {
    assert_eq!(last_answer(&[returned(0, 1)]), 6);
    let once = [payment(0, 10), returned(0, 1), returned(0, 1)];
    assert_eq!(last_answer(&once), 6);
    assert_eq!(last_answer(&[payout(0, 1)]), 7);
    assert_eq!(last_answer(&[deposit_moved(0)]), 7);
    assert_eq!(last_answer(&[deposit_paid(0, 1)]), 7);
    let held = [
        deposit_asked(0, 10),
        deposit_paid(0, 5),
        deposit_asked(0, 5),
    ];
    assert_eq!(last_answer(&held), 7);
}

#[test]
fn row_eight_and_the_year() {
    let full = [deposit_asked(9, 50), deposit_paid(10, 50)];
    let moved = |day| last_answer(&[&full[..], &[deposit_moved(day)]].concat());
    // Of 11 January 2000: that of 2001 is 366 days later.
    assert_eq!([374, 375, 376].map(moved), [8, 8, 0]);
    let mut notices = vec![bill(0, 6_000), deposit_asked(0, 50), deposit_paid(0, 50)];
    notices.extend([notice(20), notice(41), notice(62)]);
    let third = |day| last_answer(&[&notices[..], &[deposit_moved(day)]].concat());
    assert_eq!(third(384), 8);
    assert_eq!(third(385), 0);
}

#[test]
fn rows_nine_to_eleven() {
    assert_eq!(last_answer(&[arrangement(0, 2)]), 9);
    let twice = [bill(0, 10), arrangement(20, 2), arrangement(49, 2)];
    assert_eq!(last_answer(&twice), 9);
    let lapsed = [bill(0, 10), arrangement(20, 2), arrangement(50, 2)];
    assert_eq!(last_answer(&lapsed), 0);
    assert_eq!(last_answer(&[cut(0)]), 10);
    assert_eq!(last_answer(&[bill(0, 5_000), notice(20), notice(20)]), 11);
}

#[test]
fn rows_sixteen_and_seventeen() {
    let cut_off = [bill(0, 6_000), notice(20), call(22), cut(25)];
    let then = |events: &[Event]| last_answer(&[&cut_off[..], events].concat());
    assert_eq!(then(&[reconnection(25, 0)]), 16);
    assert_eq!(then(&[payment(25, 6_000), reconnection(25, 0)]), 0);
    assert_eq!(then(&[arrangement(25, 3), reconnection(25, 1)]), 0);
    let asked = [
        payment(25, 6_000),
        deposit_asked(25, 1),
        reconnection(25, 0),
    ];
    assert_eq!(then(&asked), 17);
}

#[test]
fn row_eighteen_at_the_sixty_fifth_fee() {
    assert_eq!(last_answer(&[fee(0, 3); 64]), 0);
    assert_eq!(last_answer(&[fee(0, 3); 65]), 18);
}

#[test]
fn row_nineteen_on_both_sides() {
    let most = 10_000_000_000;
    let mut history = [bill(0, most), payment(0, most)].repeat(100);
    let then = |event| last_answer(&[&history[..], &[event]].concat());
    assert_eq!(then(bill(0, 1)), 19);
    assert_eq!(then(payment(0, 1)), 19);
    assert_eq!(then(fee(0, 3)), 19);
    history.pop();
    assert_eq!(last_answer(&history), 0);
}

/// What is told for a day after events that are all accepted.
fn on(events: &[Event], day: u32) -> days::Told {
    told(events, day).unwrap()
}

fn told(events: &[Event], day: u32) -> Result<days::Told, u8> {
    let accepted = post_all(events).accepted;
    assert_eq!(accepted, events);
    days::told(&accepted, &Money::of(&accepted), accepted.len(), day)
}

#[test]
fn a_question_for_a_day_is_refused_as_an_event_is() {
    let events = [bill(0, 6_000), call(100)];
    for day in [0, 99, 100, 101, 73_048, 73_049, u32::MAX] {
        let answer = last_answer(&[&events[..], &[call(day)]].concat());
        assert_eq!(told(&events, day).err().unwrap_or(0), answer, "day {day}");
    }
    assert_eq!(told(&events, 99), Err(2));
    assert_eq!(told(&events, 73_049), Err(1));
    assert_eq!(told(&[], 73_049), Err(1));
    let nothing = days::Told {
        arrears: 0,
        in_force: false,
        notice_live: false,
        certified: false,
    };
    assert_eq!(
        (told(&[], 0), told(&[], 73_048)),
        (Ok(nothing), Ok(nothing))
    );
}

#[test]
fn arrears_are_unpaid_parts_of_items_of_20_days() {
    let events = [bill(0, 6_000), bill(10, 1_000), payment(10, 2_000)];
    // The second bill has a late charge of 45.
    for (day, arrears) in [
        (19, 0),
        (20, 4_000),
        (29, 4_000),
        (30, 5_045),
        (73_048, 5_045),
    ] {
        assert_eq!(on(&events, day).arrears, arrears, "day {day}");
    }
    let all = [
        bill(0, 6_000),
        notice(20),
        call(24),
        cut(25),
        payment(25, 6_000),
        reconnection(25, 1),
    ];
    // The fees of the notice and of the reconnection, each on its own day and 20.
    for (day, arrears) in [(39, 0), (40, 1_500), (44, 1_500), (45, 9_000)] {
        assert_eq!(on(&all, day).arrears, arrears, "day {day}");
    }
}

#[test]
fn an_arrangement_is_in_force_while_it_is_paid() {
    let made = [bill(0, 1_000), arrangement(20, 3)];
    let in_force = |events: &[Event], days: &[u32]| -> Vec<bool> {
        let events = [&made[..], events].concat();
        days.iter().map(|&day| on(&events, day).in_force).collect()
    };
    // A third of 1,000 is rounded up to 334; of the last part only 332 are left.
    assert_eq!(in_force(&[], &[20, 49, 50]), [true, true, false]);
    assert_eq!(in_force(&[payment(20, 333)], &[49, 50]), [true, false]);
    assert_eq!(
        in_force(&[payment(20, 334)], &[50, 79, 80]),
        [true, true, false]
    );
    assert_eq!(in_force(&[payment(20, 667)], &[79, 80]), [true, false]);
    assert_eq!(
        in_force(&[payment(20, 668)], &[80, 109, 110]),
        [true, true, false]
    );
    assert_eq!(in_force(&[payment(20, 1_000)], &[109, 110]), [true, false]);
    // Catching up makes it stand again.
    assert_eq!(
        in_force(&[call(60), payment(60, 334)], &[60, 79, 80]),
        [true, true, false]
    );
    // A returned payment does not count, nor does its fee.
    let returned = [payment(20, 334), returned(20, 1), payment(20, 333)];
    assert_eq!(in_force(&returned, &[49, 50]), [true, false]);
}

#[test]
fn an_arrangement_counts_the_payments_of_all_tills() {
    let made = [
        payment_at(1, 0, 9),
        payment_at(3, 0, 7),
        bill(0, 1_016),
        arrangement(20, 3),
    ];
    let in_force = |events: &[Event], day| on(&[&made[..], events].concat(), day).in_force;
    let paid = [payment_at(1, 20, 300), payment_at(3, 20, 34)];
    assert!(in_force(&paid, 79));
    assert!(!in_force(&paid, 80));
    assert!(!in_force(&paid[..1], 50));
    // Of 341 paid, 7 came back: what till 3 has under 1, and not the 9 of till 1.
    let returned = [paid[0], payment_at(3, 20, 41), returned_at(3, 20, 1)];
    assert!(in_force(&returned, 50));
    let cent_less = [paid[0], payment_at(3, 20, 40), returned_at(3, 20, 1)];
    assert!(!in_force(&cent_less, 50));
}

#[test]
fn a_new_arrangement_replaces_the_old_for_good() {
    let debt = [bill(0, 1_000), arrangement(20, 6), arrangement(50, 2)];
    for (day, stands) in [
        (50, true),
        (79, true),
        (80, false),
        (109, false),
        (199, false),
    ] {
        assert_eq!(on(&debt, day).in_force, stands, "day {day}");
    }
    let paid = [&debt[..], &[payment(50, 1_000)]].concat();
    assert_eq!([109, 110].map(|day| on(&paid, day).in_force), [true, false]);
}

#[test]
fn a_notice_is_live_for_20_days_unless_it_lapses_or_is_used() {
    let start = [bill(0, 6_000), notice(20)];
    let live = |events: &[Event], day| on(&[&start[..], events].concat(), day).notice_live;
    assert_eq!([20, 40, 41].map(|day| live(&[], day)), [true, true, false]);
    assert!(!on(&start[..1], 20).notice_live);
    // Arrears of 5,000 keep it, a cent less lets it lapse, and it does not come back with later arrears.
    assert!(live(&[payment(22, 1_000)], 22));
    assert!(!live(&[payment(22, 1_001)], 22));
    assert!(!live(&[payment(22, 1_001), returned(22, 1)], 40));
    let used = [call(24), cut(25)];
    assert!(live(&used[..1], 25));
    assert!(!live(&used, 25));
}

#[test]
fn a_certificate_is_live_on_as_many_days_as_it_has() {
    let certified = |events: &[Event], day| on(events, day).certified;
    for (first, days) in [
        (10, 1),
        (10, 5),
        (10, 179),
        (10, 180),
        // Those of before 2026 run their full length in it.
        (9_317, 180),
        (9_496, 91),
        (9_496, 180),
        (9_497, 90),
        (72_958, 90),
    ] {
        let events = [certificate(first, days)];
        let end = first + days as u32;
        let live = [first, end - 1, end].map(|day| certified(&events, day));
        assert_eq!(live, [true, true, false], "{days} days from {first} on");
    }
    // Earlier ones run on, and an approval ends none.
    let events = [certificate(10, 20), certificate(11, 2), approval(12, 30)];
    assert_eq!(
        [13, 29, 30].map(|day| certified(&events, day)),
        [true, true, false]
    );
    assert!(!certified(&[approval(10, 30)], 10));
}

#[test]
fn the_deposit_required_is_the_last_asked_until_it_is_moved() {
    let asked = |events: &[Event]| deposit::required(&post_all(events).accepted);
    assert_eq!(asked(&[]), 0);
    let events = [
        deposit_asked(0, 70),
        deposit_asked(1, 50),
        deposit_paid(2, 50),
        deposit_moved(368),
    ];
    assert_eq!(
        [1, 2, 3, 4].map(|count| asked(&events[..count])),
        [70, 50, 50, 0]
    );
    assert_eq!(asked(&[&events[..3], &[close(3)]].concat()), 0);
}

#[test]
fn the_worked_example_is_printed() {
    let events = vec![
        bill(100, 10_000),
        bill(130, 5_000),
        payment(131, 4_000),
        cut(131),
    ];
    let book = writer::encode(&[events]);
    let text = "account owed held open service refused\n0 11075 0 2 on 1\n";
    assert_eq!(report(&book), text.as_bytes());
}

#[test]
fn a_bad_book_prints_its_number() {
    let book = writer::encode(&[vec![bill(0, 1)], vec![]]);
    assert_eq!(report(&book[..7]), b"book refused 20\n");
    assert_eq!(report(&book[..book.len() - 1]), b"book refused 20\n");
    let changed = |at: usize, byte| {
        let mut book = book.clone();
        book[at] = byte;
        report(&book)
    };
    assert_eq!(changed(4, 2), b"book refused 20\n");
    assert_eq!(changed(16, 25), b"book refused 20\n");
    assert_eq!(changed(24, 17), b"book refused 21\n");
    assert_eq!(changed(27, 1), b"book refused 21\n");
    assert_eq!(report(&[0; 8]), b"account owed held open service refused\n");
    let empty = |accounts| writer::encode(&vec![vec![]; accounts]);
    assert!(report(&empty(1_024)).starts_with(b"account"));
    assert_eq!(report(&empty(1_025)), b"book refused 20\n");
}

#[test]
fn a_longer_file_is_refused() {
    let longest = writer::encode(&[vec![bill(0, 1); 4_095]]);
    assert_eq!(longest.len(), book::LONGEST_FILE);
    assert_eq!(standing(&longest), report(&longest));
    assert!(standing(&longest).ends_with(b" 64 on 4031\n"));
    let longer = writer::encode(&[vec![call(0); 4_096]]);
    assert_eq!(standing(&longer), b"book refused 20\n");
    assert!(report(&longer).starts_with(b"account"));
}

/// The sum of the amounts of a kind.
fn sum(accepted: &[Event], kind: u8) -> i64 {
    let of_kind = accepted.iter().filter(|e| e.kind == kind);
    of_kind.map(|e| e.amount as i64).sum()
}

#[test]
fn histories_keep_the_books_balanced() {
    for seed in 0..400 {
        let history = crate::generator::history(&mut crate::random::Random::new(seed));
        let accepted = &history.posted.accepted;
        let money = Money::of(accepted);
        let came_in = sum(accepted, kind::PAYMENT) + sum(accepted, kind::DEPOSIT_PAID);
        let went_out = money.charged() + sum(accepted, kind::PAYOUT);
        let held = deposit::held(accepted);
        assert_eq!(money.owed() - held, went_out - came_in, "seed {seed}");
        let unpaid: i64 = money.open_items().iter().map(|item| item.1).sum();
        assert_eq!(unpaid, money.owed().max(0), "seed {seed}");
        assert!(money.open_items().len() <= rows::OPEN_ITEMS);
        assert!(held <= deposit::required(accepted));
        assert!(accepted.windows(2).all(|two| two[0].day <= two[1].day));
    }
}

#[test]
fn every_answer_is_one_of_the_table() {
    for seed in 0..400 {
        let history = crate::generator::history(&mut crate::random::Random::new(seed));
        for posted in [&history.posted, &history.with_calendar] {
            let again = post_all_by(posted.calendar.as_ref(), &history.events);
            assert_eq!(again.answers, posted.answers);
            assert_eq!(again.accepted.len() + again.refused(), history.events.len());
            for (event, &answer) in history.events.iter().zip(&again.answers) {
                let known = answer == 0 || crate::coverage::concerns(answer, event.kind);
                assert!(known, "{event:?} refused with {answer}");
            }
        }
    }
}

#[test]
fn a_history_is_posted_without_a_calendar_and_with_one() {
    let mut differing = 0;
    for seed in 0..400 {
        let history = crate::generator::history(&mut crate::random::Random::new(seed));
        assert_eq!(history.posted.calendar, None, "seed {seed}");
        assert!(history.with_calendar.calendar.is_some(), "seed {seed}");
        let same = history.posted.answers == history.with_calendar.answers;
        differing += usize::from(!same);
        // A calendar refuses with 24, and only where there is one.
        assert!(!history.posted.answers.contains(&24), "seed {seed}");
    }
    assert!((100..=300).contains(&differing), "{differing} of 400");
}
