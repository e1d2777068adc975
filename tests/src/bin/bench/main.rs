//! Ratios in one run: the proved library against the second implementation, other allocators, memcpy, memset and memcmp.
//! `bench BENCHRUN` prints tables in Markdown. Contenders take turns, and medians of the rounds are shown.

mod canaries;
mod churn;
mod copies;
mod heap;
mod measure;
mod operations;
mod reads;
mod stream;
mod votes;

use std::process::ExitCode;

fn main() -> ExitCode {
    let words: Vec<String> = std::env::args().skip(1).collect();
    let words: Vec<&str> = words.iter().map(String::as_str).collect();
    match words[..] {
        [churn::CHILD, name, region] => churn::child(name, region.parse().expect("a number")),
        [benchrun] => all(benchrun),
        _ => {
            eprintln!("usage: bench BENCHRUN");
            return ExitCode::from(2);
        }
    }
    ExitCode::SUCCESS
}

fn all(benchrun: &str) {
    for region in [4096, 1 << 20] {
        operations::table(region);
    }
    operations::sizes();
    operations::growth();
    canaries::tables();
    reads::table();
    votes::tables();
    copies::table();
    for region in [65536, 1 << 20] {
        churn::table(region);
    }
    stream::table(benchrun);
}
