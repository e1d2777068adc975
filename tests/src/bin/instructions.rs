//! One request after another, for a count of instructions by valgrind's callgrind (tests/instructions):
//! `instructions ours|second REQUEST` serves the request once, on a heap with regions of 4,096 bytes;
//! call-N is no request but a read of N bytes by its own call, inspect an inspection that lists nothing,
//! and open an opening, which open-zero and open-frozen refuse for their z and their w.

use poheldu_tests::capi;
use poheldu_tests::inputs::FROZEN_W;
use poheldu_tests::reference::{self, Answer, Part};
use std::hint::black_box;
use std::process::ExitCode;

const HEAP: usize = 12 * 4096;

/// Counted as `poheldu_serve` is: its name is what callgrind is told.
#[inline(never)]
fn second_serve(
    heap: &mut [u8],
    metadata: &mut [u8],
    request: &[u8],
    source: &[u8],
    page: &[u8],
) -> Answer {
    reference::serve(heap, metadata, request, source, page)
}

/// Counted as `poheldu_read` is.
#[inline(never)]
fn second_read(heap: &[u8], metadata: &[u8], offset: u32, count: u32, page: &[u8]) -> Part {
    reference::read(heap, metadata, offset, count, page)
}

/// Counted as `poheldu_inspect` is.
#[inline(never)]
fn second_inspect(heap: &[u8], metadata: &[u8], list: &mut [u32]) -> Answer {
    reference::inspect(heap, metadata, list)
}

/// Counted as `poheldu_open` is.
#[inline(never)]
fn second_open(heap: &mut [u8], metadata: &mut [u8], z: u32, w: u32, pattern: u32) -> Answer {
    reference::open(heap, metadata, z, w, pattern)
}

fn request(operation: u32, argument: u32, count: u32) -> [u8; 16] {
    let mut bytes = [0; 16];
    for (word, value) in bytes.chunks_mut(4).zip([operation, argument, count, 0]) {
        word.copy_from_slice(&value.to_le_bytes());
    }
    bytes
}

/// How long the object is that the request is about: as long as the word says of a free, else 256 bytes.
fn object(word: &str) -> u32 {
    let size = word.strip_prefix("free-").map(str::parse);
    size.and_then(Result::ok).unwrap_or(256)
}

/// The request that a word names, and its source's length; `at` is an object as long as `object` says.
fn named(word: &str, at: u32) -> Option<([u8; 16], usize)> {
    Some(match word {
        "malformed" => (request(9, 0, 0), 0),
        "allocate-0" => (request(0, 0, 0), 0),
        "allocate-8" => (request(0, 8, 0), 0),
        "allocate-64" => (request(0, 64, 0), 0),
        "allocate-256" => (request(0, 256, 0), 0),
        "allocate-16384" => (request(0, 16_384, 0), 0),
        "allocate-16385" => (request(0, 16_385, 0), 0),
        "free" | "free-8" | "free-2048" => (request(1, at, 0), 0),
        "free-inside" => (request(1, at + 1, 0), 0),
        "remaining" => (request(2, at + 1, 0), 0),
        "copy-0" => (request(3, at, 0), 0),
        "copy-64" => (request(3, at, 0), 64),
        "copy-256" => (request(3, at, 0), 256),
        "string-20" => (request(4, at, 0), 20),
        "string-40" => (request(4, at, 0), 40),
        "string-256" => (request(4, at, 0), 256),
        "string-257" => (request(4, at, 0), 257),
        "read-8" => (request(6, at, 8), 0),
        "read-256" => (request(6, at, 256), 0),
        _ => return None,
    })
}

/// How many bytes a call of read asks for, where the word names one.
fn called(word: &str) -> Option<u32> {
    word.strip_prefix("call-")?.parse().ok()
}

/// The seeds of an opening, where the word names one.
fn seeds(word: &str) -> Option<(u32, u32)> {
    match word {
        "open" => Some((1, 1)),
        "open-zero" => Some((0, 1)),
        "open-frozen" => Some((1, FROZEN_W[0])),
        _ => None,
    }
}

fn main() -> ExitCode {
    let words: Vec<String> = std::env::args().skip(1).collect();
    let (ours, word) = match &words[..] {
        [who, word] => (who == "ours", word.as_str()),
        _ => (false, ""),
    };
    let mut heap = vec![0; HEAP];
    let mut metadata = vec![0; reference::metadata_length(HEAP)];
    reference::open(&mut heap, &mut metadata, 1, 1, 0);
    let allocate = request(0, object(word), 0);
    let at = reference::serve(&mut heap, &mut metadata, &allocate, &[], &[]).value;
    if let Some(count) = called(word) {
        let read = if ours { capi::read } else { second_read };
        let (at, count) = black_box((at, count));
        black_box(read(&heap, &metadata, at, count, &[]));
    } else if let Some((z, w)) = seeds(word) {
        let open = if ours { capi::open } else { second_open };
        let (z, w) = black_box((z, w));
        black_box(open(&mut heap, &mut metadata, z, w, 0));
    } else if word == "inspect" {
        let inspect = if ours { capi::inspect } else { second_inspect };
        black_box(inspect(&heap, &metadata, black_box(&mut [0; 8])));
    } else if let Some((bytes, length)) = named(word, at) {
        let serve = if ours { capi::serve } else { second_serve };
        let (request, source) = black_box((&bytes, &[65; 257][..length]));
        black_box(serve(&mut heap, &mut metadata, request, source, &[]));
    } else {
        eprintln!("usage: instructions ours|second REQUEST");
        return ExitCode::from(2);
    }
    ExitCode::SUCCESS
}
