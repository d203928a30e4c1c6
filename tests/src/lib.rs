//! The tests beside the proofs: a second implementation of the rules, histories that reach every answer, and what is
//! needed to lay a difference open.

pub mod books;
pub mod budgets;
pub mod coverage;
pub mod damage;
pub mod edges;
pub mod generator;
pub mod kept;
pub mod library;
pub mod lists;
pub mod make;
pub mod peer;
pub mod program;
pub mod random;
pub mod readings;
pub mod seeds;
pub mod show;
pub mod shrink;
pub mod tally;
pub mod usages;

#[cfg(test)]
mod tests {
    use std::hint::black_box;

    /// The peer's sums are plain ones: without these checks, which `--release` leaves out, one that wraps is not seen.
    #[test]
    #[should_panic(expected = "attempt to add with overflow")]
    fn a_sum_that_wraps_stops_the_tests() {
        let sum = black_box(i64::MAX) + black_box(1);
        unreachable!("the sum went on as {sum}");
    }

    #[test]
    #[should_panic(expected = "seen")]
    fn a_false_assumption_stops_the_tests() {
        debug_assert!(black_box(false), "seen");
    }
}
