//! `benchrun` in requests a second, and the second implementation's program on the same input.

use crate::heap::{allocate, free, remaining, request, Request};
use crate::measure::{quartile, rounds};
use poheldu_tests::random::Random;
use poheldu_tests::reference;
use std::io::Write;
use std::path::Path;
use std::process::{Command, Stdio};
use std::time::Instant;

const REQUESTS: usize = 1_000_000;

const ROUNDS: usize = 7;

/// Allocations, and frees, remaining sizes and copies of zeros at live objects, on the heap that `benchrun` has.
fn requests() -> Vec<u8> {
    let mut random = Random::new(1);
    let mut heap = vec![0; 12 * 4096];
    let mut metadata = vec![0; reference::metadata_length(heap.len())];
    reference::open(&mut heap, &mut metadata, 1, 1, 0);
    let mut live: Vec<u32> = Vec::new();
    let mut input = Vec::with_capacity(16 * REQUESTS);
    while input.len() < 16 * REQUESTS {
        let request = next(&mut random, &mut live);
        let answer = reference::serve(&mut heap, &mut metadata, &request, &[], &[]);
        if request[0] == 0 && answer.number == 0 {
            live.push(answer.value);
        }
        input.extend_from_slice(&request);
    }
    input
}

fn next(random: &mut Random, live: &mut Vec<u32>) -> Request {
    if live.is_empty() || random.once_in(4) {
        return allocate(random.between(1, 300));
    }
    let chosen = random.below(live.len());
    match random.below(3) {
        0 => free(live.swap_remove(chosen)),
        1 => remaining(live[chosen]),
        _ => request(5, live[chosen], 40),
    }
}

/// Seconds that a program takes for its input, by a pipe.
fn run(program: &Path, input: &[u8]) -> f64 {
    let start = Instant::now();
    let mut child = Command::new(program)
        .stdin(Stdio::piped())
        .stdout(Stdio::null())
        .spawn()
        .expect("the program can be run");
    let written = child.stdin.take().expect("piped").write_all(input);
    let ended = child.wait().expect("the program ends");
    assert!(written.is_ok() && ended.success(), "{}", program.display());
    start.elapsed().as_secs_f64()
}

pub fn table(benchrun: &str) {
    let this = std::env::current_exe().expect("this program's path");
    let (ours, second) = (Path::new(benchrun), this.with_file_name("expected"));
    let input = requests();
    let times = rounds(
        ROUNDS,
        [&mut || run(ours, &input), &mut || run(&second, &input)],
    );
    println!("\n### Programs, on a million requests by a pipe\n");
    println!("| program | million requests a second |\n|---|---|");
    for (name, times) in ["benchrun", "second implementation"].iter().zip(times) {
        println!(
            "| {name} | {:.1} |",
            REQUESTS as f64 / 1e6 / quartile(&times, 2)
        );
    }
}
