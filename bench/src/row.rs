//! One line of the benchmark: a ratio, and whether it keeps to its goal.
use crate::clock::{self, Task};

/// What a ratio may be at most; with a wish, where less would be better still.
#[derive(Clone, Copy)]
pub struct Goal {
    pub most: f64,
    pub wish: Option<f64>,
}

impl Goal {
    pub const fn of(most: f64) -> Goal {
        Goal { most, wish: None }
    }

    pub const fn with_wish(self, wish: f64) -> Goal {
        Goal {
            wish: Some(wish),
            ..self
        }
    }

    /// The goal and the wish, each met or missed.
    pub fn verdict(&self, ratio: f64) -> String {
        let mut words = format!("goal {:.2} {}", self.most, met(ratio, self.most));
        if let Some(wish) = self.wish {
            words += &format!(", wish {wish:.2} {}", met(ratio, wish));
        }
        words
    }
}

/// The ratio counts as it is printed, with two places.
fn met(ratio: f64, most: f64) -> &'static str {
    if (ratio * 100.0).round() <= (most * 100.0).round() {
        "met"
    } else {
        "missed"
    }
}

/// Median times of both, in seconds.
pub struct Times {
    pub core: f64,
    pub in_place: f64,
}

impl Times {
    /// The core's task first, then the same in place.
    pub fn of(mut tasks: [Task; 2]) -> Times {
        let times = clock::medians(&mut tasks, clock::SAMPLES);
        Times {
            core: times[0],
            in_place: times[1],
        }
    }

    /// Prints the ratio of the core to the rules in place, and the times of one of so many events.
    pub fn show(&self, name: &str, goal: Goal, events: usize) {
        let each = |time: f64| time * 1e9 / events as f64;
        let ratio = self.core / self.in_place;
        println!(
            "  {name:<28} {ratio:6.2}   {:<32}   (an event {:.1} to {:.1} ns, {events} events)",
            goal.verdict(ratio),
            each(self.core),
            each(self.in_place),
        );
    }
}

#[cfg(test)]
mod tests {
    use super::*;

    #[test]
    fn a_goal_is_met_as_far_as_the_ratio_is_printed() {
        let goal = Goal::of(4.0);
        assert_eq!(goal.verdict(4.0), "goal 4.00 met");
        assert_eq!(goal.verdict(4.004), "goal 4.00 met");
        assert_eq!(goal.verdict(4.006), "goal 4.00 missed");
        assert_eq!(goal.verdict(f64::NAN), "goal 4.00 missed");
    }

    #[test]
    fn a_wish_may_be_missed_where_the_goal_is_met() {
        let goal = Goal::of(2.0).with_wish(1.5);
        assert_eq!(goal.verdict(1.5), "goal 2.00 met, wish 1.50 met");
        assert_eq!(goal.verdict(1.51), "goal 2.00 met, wish 1.50 missed");
        assert_eq!(goal.verdict(2.01), "goal 2.00 missed, wish 1.50 missed");
    }
}
