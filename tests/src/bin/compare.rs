//! Runs the core, by its static library and as the program `standing`, against the peer.
//!
//! `compare [PROGRAM] [--seed N] [--books N] [--files N] [--part]`: the program is crates/standing/out/standing if none is
//! named, and gets so many files. The same seed gives the same books. Most books are of seed 1, so that every run reaches the
//! same, and a sixth is of the day's own seed, so that each day tries others; `--seed N` runs that seed alone. Fewer than some
//! thousand books do not reach everything that is asked of them: with `--part`, what they did not reach is told and does not
//! fail.
use std::env;
use std::path::{Path, PathBuf};
use std::process::ExitCode;
use tests::books::{self, Book};
use tests::budgets::Budgets;
use tests::coverage::Coverage;
use tests::damage;
use tests::kept;
use tests::library::{self, Lent};
use tests::lists::Lists;
use tests::peer;
use tests::program::{self, Feed};
use tests::random::Random;
use tests::readings::Readings;
use tests::seeds::{self, Share};
use tests::tally::{Group, Tally};

struct Wanted {
    program: PathBuf,
    /// None where no seed is named.
    seed: Option<u64>,
    books: u64,
    files: u64,
    part: bool,
}

fn main() -> ExitCode {
    let wanted = match arguments() {
        Ok(wanted) => wanted,
        Err(words) => {
            let usage = "usage: compare [PROGRAM] [--seed N] [--books N] [--files N] [--part]";
            eprintln!("{words}\n{usage}");
            return ExitCode::from(2);
        }
    };
    let mut tally = match wanted.part {
        true => Tally::of_part(),
        false => Tally::default(),
    };
    let shares = seeds::shares(wanted.seed, seeds::of_today(), wanted.books, wanted.files);
    println!("{}", seeds::told(&shares));
    let mut library = by_library(&shares);
    let particular = particular_books(&shares, &mut library.lists);
    library.coverage.print();
    library.tell(&mut tally);
    particular.tell(
        &mut tally,
        "short books and books of many accounts by the library",
    );
    Readings::compared(&shares, wanted.part).tell(&mut tally);
    Budgets::compared(&shares, wanted.part).tell(&mut tally);
    by_program(&wanted.program, &shares, &mut tally);
    if tally.finish() {
        ExitCode::SUCCESS
    } else {
        ExitCode::FAILURE
    }
}

fn arguments() -> Result<Wanted, String> {
    let mut wanted = Wanted {
        program: PathBuf::from("crates/standing/out/standing"),
        seed: None,
        books: 24_000,
        files: 600,
        part: false,
    };
    let mut words = env::args().skip(1);
    while let Some(word) = words.next() {
        let mut number = || {
            let number = words.next().and_then(|word| word.parse().ok());
            number.ok_or(format!("{word} wants a number"))
        };
        match word.as_str() {
            "--seed" => wanted.seed = Some(number()?),
            "--books" => wanted.books = number()?,
            "--files" => wanted.files = number()?,
            "--part" => wanted.part = true,
            _ if word.starts_with('-') => return Err(format!("{word} is not known")),
            _ => wanted.program = PathBuf::from(word),
        }
    }
    Ok(wanted)
}

/// What the books by the library showed.
#[derive(Default)]
struct ByLibrary {
    coverage: Coverage,
    /// What the books of the first seed had to reach, and what of it they did not.
    demands: Vec<(String, Vec<String>)>,
    good: Group,
    damaged: Group,
    histories: Group,
    beginnings: Group,
    exact: Group,
    longer: Group,
    shorter: Group,
    kept: kept::Accounts,
    lists: Lists,
}

fn by_library(shares: &[Share]) -> ByLibrary {
    let mut all = ByLibrary::default();
    for (turn, share) in shares.iter().enumerate() {
        for index in 0..share.books {
            all.book(share.seed, index);
        }
        // What has to be reached is asked of the first seed alone: whether a run passes must not hang on the day.
        if turn == 0 {
            all.demands = all.coverage.demands();
            all.demands.extend(all.kept.demands());
        }
    }
    all
}

impl ByLibrary {
    /// Book number `index` of a seed, in every way.
    fn book(&mut self, seed: u64, index: u64) {
        let book = books::book(seed, index);
        let expected = peer::report(&book.bytes);
        self.coverage.book(&expected);
        for history in &book.histories {
            for posted in [&history.posted, &history.with_calendar] {
                self.coverage.history(&history.events, posted);
            }
        }
        let group = match book.damaged {
            true => &mut self.damaged,
            false => &mut self.good,
        };
        group.try_one(|| library::compare_report(&book.bytes, &expected));
        // A text that differs was shown, and would differ in any memory.
        if library::agrees(&book.bytes, &expected) {
            self.lend(index, &book.bytes, &expected);
        }
        if book.is_good() {
            self.replies(&book);
        }
        if index.is_multiple_of(16) {
            self.beginnings(&book);
        }
        self.kept.book(seed, index, &book);
        self.lists.book(index as usize, &book.bytes);
    }

    /// One kind of memory for each book in turn.
    fn lend(&mut self, index: u64, book: &[u8], expected: &[u8]) {
        let some = 1 + index as usize / 6 % 200;
        let (group, lent) = match index % 6 {
            0 => (&mut self.exact, Lent::Exact),
            1 => (&mut self.longer, Lent::Longer(1)),
            2 => (&mut self.longer, Lent::Longer(some)),
            3 => (&mut self.shorter, Lent::Shorter(some)),
            _ => (&mut self.shorter, Lent::Shorter(1)),
        };
        group.try_one(|| library::compare_lent(book, expected, lent));
    }

    fn replies(&mut self, book: &Book) {
        for account in 0..book.histories.len() {
            let history = || library::compare_history(book, account);
            self.histories.try_one(history);
        }
    }

    /// The standing after each event: all beginnings of a history are the accounts of one book.
    fn beginnings(&mut self, book: &Book) {
        let history = &book.histories[0].events;
        let book = books::beginnings(history);
        let expected = peer::report(&book);
        self.beginnings
            .try_one(|| library::compare_report(&book, &expected));
    }

    fn tell(&self, tally: &mut Tally) {
        for (demand, missing) in &self.demands {
            tally.reached(demand, missing);
        }
        self.good.tell(tally, "books by the library");
        self.damaged.tell(tally, "damaged books by the library");
        self.histories.tell(
            tally,
            "accounts by the library, each answer and what is owed after it",
        );
        self.beginnings.tell(
            tally,
            "histories by the library, the standing after each event",
        );
        self.exact.tell(tally, "texts in memory of their length");
        self.longer
            .tell(tally, "texts in longer memory, the tail as it was");
        self.shorter
            .tell(tally, "texts refused in shorter memory, all as it was");
        self.kept.tell(tally);
        self.lists.tell(tally);
    }
}

fn particular_books(shares: &[Share], lists: &mut Lists) -> Group {
    let mut group = Group::default();
    for share in shares {
        let mut random = Random::new(share.seed);
        let mut list = damage::particular(&mut random);
        for accounts in [1, 41, 999] {
            list.push(books::of_length(65_536, accounts, &mut random));
        }
        for (turn, book) in list.iter().enumerate() {
            group.try_one(|| library::compare_report(book, &peer::report(book)));
            lists.book(turn, book);
        }
    }
    group
}

/// Files for the program, fewer than for the library since each is a process.
fn by_program(program: &Path, shares: &[Share], tally: &mut Tally) {
    let (mut whole, mut damaged, mut pieces) =
        (Group::default(), Group::default(), Group::default());
    for (seed, index) in shares.iter().flat_map(Share::each_file) {
        // Not the books that the library had.
        let book = books::book(!seed, index);
        let size = [1, 5, 8, 16, 100, 4_096][index as usize % 6];
        let (group, feed) = match index % 3 {
            0 => (&mut pieces, Feed::Pieces(size)),
            _ if book.damaged => (&mut damaged, Feed::Whole),
            _ => (&mut whole, Feed::Whole),
        };
        group.try_one(|| program::compare(program, &book.bytes, feed));
    }
    whole.tell(tally, "books by the program");
    damaged.tell(tally, "damaged books by the program");
    pieces.tell(tally, "books by the program, read in small pieces");
    for (name, file) in long_files(shares[0].seed) {
        tally.check(
            &format!("{name} by the program"),
            &both_ways(program, &file),
        );
    }
}

fn both_ways(program: &Path, file: &[u8]) -> Vec<String> {
    let feeds = [Feed::Whole, Feed::Pieces(1_000)];
    let differences = feeds.map(|feed| program::compare(program, file, feed));
    differences.into_iter().flatten().collect()
}

/// The empty file, and files about as long as the program reads.
fn long_files(seed: u64) -> Vec<(&'static str, Vec<u8>)> {
    let mut random = Random::new(seed);
    let mut of_length = |length, accounts| books::of_length(length, accounts, &mut random);
    let mut spare = of_length(65_536, 5);
    spare[65_536 - 13] = 1;
    let mut tail = of_length(65_536, 5);
    tail.push(0);
    vec![
        ("the empty file", Vec::new()),
        ("a book of no accounts", vec![0; 8]),
        ("a book of 65,536 bytes", of_length(65_536, 41)),
        (
            "a book of 65,536 bytes and 1,023 accounts",
            of_length(65_536, 1_023),
        ),
        ("a book of 65,536 bytes whose last record is damaged", spare),
        ("a book of 65,536 bytes and one more", tail),
        ("a longer good book", of_length(65_544, 40)),
        ("a book of a million bytes", of_length(1_000_000, 501)),
    ]
}
