// Keeps one account and posts a few events to it, through the static library. From the top of the repository, once the
// library is built:
//
//   rustc --edition 2021 -O -L target/staticlib -o target/post-rust examples/link/post.rs
//   target/post-rust
//
// It prints what is in examples/link/post.printed. The crate `tools` has the same calls with a safe wrapper and tests
// (tools/src/core/lent.rs, tools/src/core/account.rs).
use std::process::ExitCode;

#[link(name = "hollupaq", kind = "static")]
extern "C" {
    fn hollupaq_version() -> u64;
    fn hollupaq_fresh(account: *mut u64, words: usize) -> u8;
    fn hollupaq_post(
        account: *mut u64,
        words: usize,
        kind: u8,
        option: u8,
        day: u32,
        amount: u64,
    ) -> u64;
    fn hollupaq_would_answer(
        account: *const u64,
        words: usize,
        kind: u8,
        option: u8,
        day: u32,
        amount: u64,
    ) -> u64;
    fn hollupaq_owed(account: *const u64, words: usize) -> i64;
    fn hollupaq_service(account: *const u64, words: usize) -> u32;
    fn hollupaq_open_count(account: *const u64, words: usize) -> u64;
    fn hollupaq_open_day(account: *const u64, words: usize, index: usize) -> u64;
    fn hollupaq_open_unpaid(account: *const u64, words: usize, index: usize) -> u64;
}

// The version of the library that this is written for, as include/hollupaq.h has it.
const VERSION: u64 = 10_600;
// An account takes so many words.
const WORDS: usize = 274;
// An answer from here on is an acceptance, and what is above it the receipt of a payment.
const ACCEPTED: u64 = 256;

const BILL: u8 = 1;
const PAYMENT: u8 = 2;
const CUT: u8 = 14;

const ON: u32 = 0;
const OFF: u32 = 1;

// Two bills, a payment, and a disconnection that no final notice announced: kind, day and amount.
const EVENTS: [(u8, u32, u64); 4] = [
    (BILL, 100, 10_000),
    (BILL, 130, 5_000),
    (PAYMENT, 131, 4_000),
    (CUT, 131, 0),
];

fn post(account: &mut [u64], kind: u8, day: u32, amount: u64) {
    let (words, option) = (account.len(), 0);
    // SAFETY here and below: the slice is valid for its length and borrowed, and the library keeps no pointer to it.
    let answer = unsafe { hollupaq_post(account.as_mut_ptr(), words, kind, option, day, amount) };
    let owed = unsafe { hollupaq_owed(account.as_ptr(), words) };
    println!("day {day}, kind {kind}: {}; owed {owed}", told(answer));
}

fn told(answer: u64) -> String {
    match answer {
        ACCEPTED => "accepted".to_string(),
        0..ACCEPTED => format!("refused {answer}"),
        _ => format!("accepted, receipt {}", answer - ACCEPTED),
    }
}

// Before anybody is sent out: would a disconnection be accepted?
fn ask_for_cut(account: &[u64], day: u32) {
    let answer = unsafe { hollupaq_would_answer(account.as_ptr(), account.len(), CUT, 0, day, 0) };
    println!("day {day}: a cut would be {}", told(answer));
}

fn service(account: &[u64]) -> &'static str {
    match unsafe { hollupaq_service(account.as_ptr(), account.len()) } {
        ON => "on",
        OFF => "off",
        _ => "closed",
    }
}

fn print_open_items(account: &[u64]) {
    let (at, words) = (account.as_ptr(), account.len());
    for i in 0..unsafe { hollupaq_open_count(at, words) } as usize {
        let day = unsafe { hollupaq_open_day(at, words, i) };
        let unpaid = unsafe { hollupaq_open_unpaid(at, words, i) };
        println!("open: {unpaid} of day {day}");
    }
}

fn main() -> ExitCode {
    let version = unsafe { hollupaq_version() };
    if version != VERSION {
        eprintln!("post-rust: it is written for version {VERSION}, the library is {version}");
        return ExitCode::FAILURE;
    }
    let mut account = [0; WORDS];
    unsafe { hollupaq_fresh(account.as_mut_ptr(), WORDS) };
    for (kind, day, amount) in EVENTS {
        if kind == CUT {
            ask_for_cut(&account, day);
        }
        post(&mut account, kind, day, amount);
    }
    print_open_items(&account);
    println!("service: {}", service(&account));
    ExitCode::SUCCESS
}
