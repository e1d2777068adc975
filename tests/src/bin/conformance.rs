//! By the second implementation, what the program `conformance` prints for the cases on standard input: a header of eight words (the
//! heap's length, z, w, the pattern, the source's length, the number of requests, the number of replicas, the length of their blocks or
//! whole outputs) and then the source and the requests of each.

use poheldu_tests::reference::{self, Verdict};
use std::io::{self, Read, Write};

const HEADER: usize = 32;
const HEAP: usize = 98_304;
const SOURCE: usize = 65_536;
const REQUESTS: usize = 1024;
const BLOCK: usize = 4_096;
const WHOLE: usize = 5 * BLOCK;

fn word(bytes: &[u8], at: usize) -> u32 {
    u32::from_le_bytes(bytes[at..at + 4].try_into().expect("four bytes"))
}

/// Takes up to `most` bytes off the front of the input.
fn take<'a>(input: &mut &'a [u8], most: usize) -> &'a [u8] {
    let (front, rest) = input.split_at(most.min(input.len()));
    *input = rest;
    front
}

/// Metadata for a heap of this length; that of no heap is as long as its fields.
fn metadata_length(heap_len: usize) -> usize {
    match reference::metadata_length(heap_len) {
        0 => 60,
        len => len,
    }
}

/// Byte after byte, modulo 2^32.
fn digest(bytes: &[u8]) -> u32 {
    bytes.iter().fold(0u32, |sum, &byte| {
        sum.wrapping_mul(31).wrapping_add(u32::from(byte))
    })
}

/// A line of a vote's answer and of what its output holds after it.
fn vote_line(out: &mut impl Write, name: &str, v: Verdict, output: &[u8]) -> io::Result<()> {
    write!(out, "{name} {} {} {}", v.number, v.mask, v.value)?;
    writeln!(out, " {} {}", v.replica, digest(output))
}

fn main() -> io::Result<()> {
    let mut all = Vec::new();
    io::stdin().lock().read_to_end(&mut all)?;
    let mut input = &all[..];
    let mut out = io::BufWriter::new(io::stdout().lock());
    let (mut heap, mut metadata) = (vec![0; HEAP], vec![0; 4096]);
    let (mut output, mut whole) = ([0; BLOCK], [0; WHOLE]);
    while input.len() >= HEADER {
        let header = take(&mut input, HEADER);
        let heap = &mut heap[..HEAP.min(word(header, 0) as usize)];
        let metadata = &mut metadata[..metadata_length(heap.len())];
        let [z, w, pattern] = [4, 8, 12].map(|at| word(header, at));
        let opened = reference::open(heap, metadata, z, w, pattern);
        writeln!(out, "open {} {}", opened.number, opened.value)?;
        let source = take(&mut input, SOURCE.min(word(header, 16) as usize));
        let requests = take(&mut input, 16 * REQUESTS.min(word(header, 20) as usize));
        for (i, request) in requests.chunks(16).enumerate() {
            let answer = reference::serve(heap, metadata, request, source, &[]);
            writeln!(out, "{} {} {}", i + 1, answer.number, answer.value)?;
        }
        writeln!(out, "heap {}", digest(heap))?;
        let [replicas, length] = [24, 28].map(|at| word(header, at) as usize);
        let verdict = reference::vote(source, replicas, length, &mut output);
        vote_line(&mut out, "vote", verdict, &output)?;
        let verdict = reference::vote_whole(source, replicas, length, &mut whole);
        vote_line(&mut out, "whole", verdict, &whole)?;
    }
    out.flush()
}
