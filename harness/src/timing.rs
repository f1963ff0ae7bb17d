//! Times of the library and of the model over the same work.

use std::time::{Duration, Instant};

/// Rounds of each measurement; the median counts.
const ROUNDS: usize = 25;

/// The median and the least of some times, for one of so many events each.
pub fn median_and_least(mut times: Vec<Duration>, events: usize) -> (f64, f64) {
    times.sort();
    let one = |time: Duration| time.as_nanos() as f64 / events as f64;
    (one(times[times.len() / 2]), one(times[0]))
}

pub fn timed(work: &mut dyn FnMut() -> u64) -> (Duration, u64) {
    let began = Instant::now();
    let sum = work();
    (began.elapsed(), sum)
}

/// Runs both by turns, and prints the median time of one event of each.
///
/// Both give the sum of their result words, which must agree.
pub fn compare(
    name: &str,
    events: usize,
    library: &mut dyn FnMut() -> u64,
    model: &mut dyn FnMut() -> u64,
) -> Result<(), String> {
    let (mut libraries, mut models) = (Vec::new(), Vec::new());
    for _ in 0..ROUNDS {
        let (library_time, library_sum) = timed(library);
        let (model_time, model_sum) = timed(model);
        if library_sum != model_sum {
            return Err(format!("{name}: library and model differ; run compare"));
        }
        libraries.push(library_time);
        models.push(model_time);
    }
    let (library, library_least) = median_and_least(libraries, events);
    let (model, model_least) = median_and_least(models, events);
    let (ratio, least) = (model / library, model_least / library_least);
    println!("{name:<42}{library:>11.1}{model:>11.1}{ratio:>9.2}{least:>9.2}");
    Ok(())
}

/// The heading of what `compare` prints: medians, their ratio, and the ratio of
/// the least times, which other work on the machine disturbs less.
pub fn heading() {
    println!(
        "{:<42}{:>11}{:>11}{:>9}{:>9}",
        "ns for one", "library", "model", "ratio", "least"
    );
}
