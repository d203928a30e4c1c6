//! Which books a run makes: those of a fixed seed, and some of a seed that is another each day.
use std::time::{SystemTime, UNIX_EPOCH};

/// The seed of which every run makes the most books, so that it reaches what is demanded on any day.
const FIXED: u64 = 1;

/// One book in so many is of the day's seed.
const OF_TODAY: u64 = 6;

const SECONDS_OF_A_DAY: u64 = 24 * 60 * 60;

/// So many books for the library and files for the program, of one seed.
#[derive(Clone, Copy, Debug, PartialEq, Eq)]
pub struct Share {
    pub seed: u64,
    pub books: u64,
    pub files: u64,
}

impl Share {
    /// The seed and the number of each file.
    pub fn each_file(&self) -> impl Iterator<Item = (u64, u64)> + use<> {
        let seed = self.seed;
        (0..self.files).map(move |index| (seed, index))
    }
}

/// The days since 1 January 1970: all runs of a day have the same.
pub fn of_today() -> u64 {
    let since = SystemTime::now().duration_since(UNIX_EPOCH);
    since.map_or(0, |since| since.as_secs() / SECONDS_OF_A_DAY)
}

/// All of the seed that is named; where none is, the most of the fixed one and some of today's.
pub fn shares(named: Option<u64>, today: u64, books: u64, files: u64) -> Vec<Share> {
    if let Some(seed) = named {
        return vec![Share { seed, books, files }];
    }
    let of_today = Share {
        seed: today,
        books: books / OF_TODAY,
        files: files / OF_TODAY,
    };
    let fixed = Share {
        seed: FIXED,
        books: books - of_today.books,
        files: files - of_today.files,
    };
    vec![fixed, of_today]
}

/// The seeds, as the run tells them before anything else.
pub fn told(shares: &[Share]) -> String {
    match shares {
        [fixed, today] => format!(
            "seed {}, and {} from the date; --seed N repeats one",
            fixed.seed, today.seed
        ),
        _ => format!("seed {}", shares[0].seed),
    }
}

#[cfg(test)]
mod tests {
    use super::*;

    fn share(seed: u64, books: u64, files: u64) -> Share {
        Share { seed, books, files }
    }

    #[test]
    fn a_sixth_is_of_the_day() {
        let both = shares(None, 20_773, 24_000, 600);
        assert_eq!(both, [share(1, 20_000, 500), share(20_773, 4_000, 100)]);
        let told = told(&both);
        assert_eq!(
            told,
            "seed 1, and 20773 from the date; --seed N repeats one"
        );
        // As .ci/arm calls it.
        let both = shares(None, 20_773, 2_000, 0);
        assert_eq!(both, [share(1, 1_667, 0), share(20_773, 333, 0)]);
    }

    #[test]
    fn a_seed_that_is_named_is_run_alone() {
        let one = shares(Some(20_773), 20_774, 4_000, 600);
        assert_eq!(one, [share(20_773, 4_000, 600)]);
        assert_eq!(told(&one), "seed 20773");
    }

    #[test]
    fn the_seed_of_a_day_is_its_number() {
        // Some day after this was written, and before the last day of accounts.
        assert!((20_000..=10_957 + 73_048).contains(&of_today()));
        assert_ne!(of_today(), FIXED);
    }

    #[test]
    fn each_file_is_told_with_its_seed() {
        let files: Vec<(u64, u64)> = share(7, 9, 2).each_file().collect();
        assert_eq!(files, [(7, 0), (7, 1)]);
    }
}
