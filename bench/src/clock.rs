//! Times of one thing against another, taken in turn so that a slow moment of the machine meets both.
use std::time::{Duration, Instant};

/// Many short samples: where the machine has other work, most of them still run without a break.
pub const SAMPLES: usize = 151;
const SAMPLE: Duration = Duration::from_micros(800);

pub type Task<'a> = Box<dyn FnMut() + 'a>;

/// How often a task has to run for a sample that the clock can tell.
fn turns(task: &mut Task) -> u32 {
    let mut turns = 1;
    loop {
        let start = Instant::now();
        (0..turns).for_each(|_| task());
        if start.elapsed() >= SAMPLE {
            return turns;
        }
        turns *= 2;
    }
}

/// The median time of each task over so many samples, in seconds.
pub fn medians(tasks: &mut [Task], samples: usize) -> Vec<f64> {
    let turns: Vec<u32> = tasks.iter_mut().map(turns).collect();
    let mut times = vec![Vec::new(); tasks.len()];
    for _ in 0..samples {
        for (i, task) in tasks.iter_mut().enumerate() {
            let start = Instant::now();
            (0..turns[i]).for_each(|_| task());
            times[i].push(start.elapsed().as_secs_f64() / f64::from(turns[i]));
        }
    }
    times.into_iter().map(median).collect()
}

pub fn median(mut times: Vec<f64>) -> f64 {
    times.sort_by(f64::total_cmp);
    times[times.len() / 2]
}
