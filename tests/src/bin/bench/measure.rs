//! Rounds in which contenders take turns, and tables of what they come to.

use std::hint::black_box;
use std::time::Instant;

pub const ROUNDS: usize = 31;

/// Nanoseconds of one of the `calls` that `run` makes.
pub fn time(calls: usize, run: impl FnOnce()) -> f64 {
    let start = Instant::now();
    run();
    start.elapsed().as_nanos() as f64 / calls as f64
}

/// Nanoseconds of one call, by `calls` of them with an input that the compiler does not know. A slice is an input by
/// reference: its two words would else go through memory for each call, and the call wait for them.
pub fn repeat<T>(calls: usize, input: &T, mut call: impl FnMut(&T)) -> f64 {
    time(calls, || {
        for _ in 0..calls {
            call(black_box(input));
        }
    })
}

/// Runs once in each round, and gives the time that it took.
pub type Contender<'a> = &'a mut dyn FnMut() -> f64;

/// The times of each contender, round by round.
pub fn rounds<const N: usize>(count: usize, mut contenders: [Contender; N]) -> [Vec<f64>; N] {
    let mut times = std::array::from_fn(|_| Vec::with_capacity(count));
    for _ in 0..count {
        for (contender, times) in contenders.iter_mut().zip(&mut times) {
            times.push(contender());
        }
    }
    times
}

/// The value at a quarter, half or three quarters of the values in order.
pub fn quartile(values: &[f64], quarters: usize) -> f64 {
    let mut ordered = values.to_vec();
    ordered.sort_by(f64::total_cmp);
    ordered[(ordered.len() - 1) * quarters / 4]
}

/// The median of the rounds' ratios, and the two values that the middle half of them lies between.
pub fn ratio(ours: &[f64], theirs: &[f64]) -> String {
    let ratios: Vec<f64> = ours.iter().zip(theirs).map(|(a, b)| a / b).collect();
    let [low, middle, high] = [1, 2, 3].map(|quarters| quartile(&ratios, quarters));
    format!("{middle:.2} ({low:.2} to {high:.2})")
}

/// The head of a table whose rows `row` prints: the first contender is Poheldu.
pub fn head(title: &str, what: &str, others: &[&str]) {
    let times: String = others.iter().map(|name| format!(" {name}, ns |")).collect();
    let ratios: String = others.iter().map(|name| format!(" to {name} |")).collect();
    println!("\n### {title}\n\n| {what} | Poheldu, ns |{times}{ratios}");
    println!("|---|---|{}", "---|".repeat(2 * others.len()));
}

/// Runs the rounds and prints the medians of all times, and the first contender's ratio to each other one.
pub fn row<const N: usize>(name: &str, contenders: [Contender; N]) {
    let times = rounds(ROUNDS, contenders);
    let medians: String = times
        .iter()
        .map(|times| format!(" {:.1} |", quartile(times, 2)))
        .collect();
    let ratios: String = times[1..]
        .iter()
        .map(|others| format!(" {} |", ratio(&times[0], others)))
        .collect();
    println!("| {name} |{medians}{ratios}");
}
