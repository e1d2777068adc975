//! Holds the proved library against the second implementation, over random,
//! edge and damaged inputs: every answer, and every byte after every call.
//!
//! Arguments: --calls N (default 1,000,000), --seed N (default: from the clock),
//! --progress (a line on standard error at each twentieth of the calls).

mod canaries;
mod counts;
mod differences;
mod document;
mod edges;
mod kinds;
mod lookups;
mod metadata;
mod nulls;
mod report;
mod requests;
mod runs;
mod session;
mod tester;
mod twin;
mod votes;
mod whole;

use poheldu_tests::inputs::Shape;
use poheldu_tests::random::Random;
use std::time::{SystemTime, UNIX_EPOCH};
use tester::Tester;

const DEFAULT_CALLS: u64 = 1_000_000;
const PROGRESS_LINES: u64 = 20;

fn main() {
    let Arguments {
        calls,
        seed,
        progress,
    } = Arguments::read();
    println!("differential: seed {seed}");
    let mut tester = Tester::new(seed);
    let mut rng = Random::new(seed);
    let mut next_line = calls / PROGRESS_LINES;
    document::cases(&mut tester);
    nulls::null_buffers(&mut tester);
    edges::too_long(&mut tester);
    for shape in Shape::all() {
        edges::of_regions(&mut tester, shape);
        counts::above_half(&mut tester, shape);
        counts::of_half(&mut tester, shape);
        counts::of_nothing(&mut tester, shape);
        canaries::filled_slots(&mut tester, shape);
        canaries::inspected_edges(&mut tester, shape);
        canaries::inspected_slots(&mut tester, shape);
        lookups::looked_up_slots(&mut tester, shape);
        edges::traps(&mut tester, &mut rng, shape);
    }
    edges::most_slots(&mut tester, &mut rng);
    votes::vote_grid(&mut tester, &mut rng);
    votes::each_lowest(&mut tester);
    votes::huge_votes(&mut tester);
    whole::by_letters(&mut tester);
    whole::limits(&mut tester, &mut rng);
    whole::longest(&mut tester);
    whole::judged_first(&mut tester);
    while tester.calls < calls {
        runs::random_calls(&mut tester, &mut rng, calls);
        if progress && tester.calls >= next_line {
            show_progress(&tester, calls);
            next_line = tester.calls + calls / PROGRESS_LINES;
        }
    }
    report::report(&tester);
}

struct Arguments {
    calls: u64,
    seed: u64,
    progress: bool,
}

impl Arguments {
    fn read() -> Arguments {
        let mut read = Arguments {
            calls: DEFAULT_CALLS,
            seed: clock(),
            progress: false,
        };
        let mut words = std::env::args().skip(1);
        while let Some(word) = words.next() {
            match word.as_str() {
                "--calls" => read.calls = number(words.next()),
                "--seed" => read.seed = number(words.next()),
                "--progress" => read.progress = true,
                _ => usage(),
            }
        }
        read
    }
}

fn number(word: Option<String>) -> u64 {
    let number = word.and_then(|word| word.parse().ok());
    number.unwrap_or_else(|| usage())
}

fn usage() -> ! {
    stop("usage: differential [--calls N] [--seed N] [--progress]")
}

fn show_progress(tester: &Tester, calls: u64) {
    let refusals: u64 = tester.counts[1..].iter().sum();
    let percent = 100 * tester.calls / calls;
    eprintln!(
        "{percent:3} %: {} calls, {refusals} refusals, no difference",
        tester.calls
    );
}

fn clock() -> u64 {
    let now = SystemTime::now().duration_since(UNIX_EPOCH);
    now.map_or(1, |time| time.as_nanos() as u64)
}

fn stop(message: &str) -> ! {
    println!("{message}");
    std::process::exit(1)
}
