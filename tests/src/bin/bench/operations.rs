//! Each operation against the second implementation, both on the same heap and with the same requests.

use crate::heap::{allocate, figure, free, read, remaining, request, Heap, Request, PATTERN};
use crate::measure::{head, ratio, repeat, rounds, row, time, ROUNDS};
use crate::votes;
use poheldu_tests::reference::Answer;
use poheldu_tests::{capi, reference};
use std::cell::RefCell;
use std::hint::black_box;
use std::ops::Range;

/// The calls of a round.
const CALLS: usize = 512;

/// The openings of a round that are served: each writes all of its heap.
const OPENINGS: usize = 8;

/// Where the metadata has the live count of the last class.
const LAST_COUNT: Range<usize> = 52..56;

/// Serves a request: on a heap and its metadata, with a source and a page.
pub trait Serve: Fn(&mut [u8], &mut [u8], &[u8], &[u8], &[u8]) -> Answer {}

impl<F: Fn(&mut [u8], &mut [u8], &[u8], &[u8], &[u8]) -> Answer> Serve for F {}

/// Requests on a heap in a known state, and the refusal's number that all of them get.
pub struct Case {
    name: String,
    number: u32,
    heap: Heap,
    requests: Vec<Request>,
    source: Vec<u8>,
}

impl Case {
    /// One request many times. It leaves the metadata as they are.
    fn same(name: &str, number: u32, heap: &Heap, request: Request, source: &[u8]) -> Case {
        Case {
            name: name.into(),
            number,
            heap: heap.clone(),
            requests: vec![request; CALLS],
            source: source.to_vec(),
        }
    }

    fn answers(&self, serve: impl Serve) -> Vec<Answer> {
        let Heap {
            mut bytes,
            mut metadata,
        } = self.heap.clone();
        let mut one = |r: &Request| serve(&mut bytes, &mut metadata, r, &self.source, &[]);
        self.requests.iter().map(&mut one).collect()
    }

    /// The case is what it says it is, for both implementations.
    pub fn check(&self) {
        let answers = self.answers(capi::serve);
        assert!(answers.iter().all(|a| a.number == self.number));
        assert_eq!(answers, self.answers(reference::serve));
    }

    fn row(&self) {
        self.check();
        let stage = RefCell::new(Stage::new(self));
        row(
            &self.name,
            [&mut || stage.borrow_mut().run(capi::serve), &mut || {
                stage.borrow_mut().run(reference::serve)
            }],
        );
    }
}

/// What both implementations run a case on, in turns: the metadata several times where the requests are few.
pub struct Stage<'a> {
    case: &'a Case,
    bytes: Vec<u8>,
    metadata: Vec<Vec<u8>>,
}

impl Stage<'_> {
    pub fn new(case: &Case) -> Stage<'_> {
        let times = CALLS.div_ceil(case.requests.len());
        Stage {
            case,
            bytes: case.heap.bytes.clone(),
            metadata: vec![case.heap.metadata.clone(); times],
        }
    }

    pub fn run(&mut self, serve: impl Serve) -> f64 {
        for metadata in &mut self.metadata {
            metadata.copy_from_slice(&self.case.heap.metadata);
        }
        time(self.metadata.len() * self.case.requests.len(), || {
            for metadata in &mut self.metadata {
                for request in &self.case.requests {
                    let request = black_box(&request[..]);
                    let source = &self.case.source;
                    black_box(serve(&mut self.bytes, metadata, request, source, &[]));
                }
            }
        })
    }
}

/// The last allocations of a size before its class is half full.
fn allocating(region: usize, size: usize) -> Case {
    let half = region / size / 2;
    let count = (half / 2).min(CALLS);
    let mut heap = Heap::new(region);
    heap.fill(size, half - count);
    Case {
        name: format!("allocate, {size} bytes"),
        number: 0,
        heap,
        requests: vec![allocate(size); count],
        source: vec![],
    }
}

/// Frees of objects of a size, whose class is half full at first.
pub fn freeing(region: usize, size: usize) -> Case {
    let half = region / size / 2;
    let mut heap = Heap::new(region);
    let mut objects = heap.fill(size, half);
    objects.truncate(CALLS);
    Case {
        name: format!("free, {size} bytes"),
        number: 0,
        heap,
        requests: objects.into_iter().map(free).collect(),
        source: vec![],
    }
}

/// Allocations of 8 bytes with three eighths of the slots live on average: a quarter to half in regions of 4,096 bytes.
fn allocating_level(region: usize) -> Case {
    let slots = region / 8;
    let count = (slots / 4).min(CALLS);
    let mut heap = Heap::new(region);
    heap.fill(8, slots * 3 / 8 - count / 2);
    Case {
        name: "allocate, 8 bytes".into(),
        number: 0,
        heap,
        requests: vec![allocate(8); count],
        source: vec![],
    }
}

fn refusals(region: usize) -> Vec<Case> {
    let mut heap = Heap::new(region);
    heap.fill(8, region / 16);
    let at = heap.fill(256, 1)[0];
    let clear = (0..region as u32 / 256)
        .map(|slot| 5 * region as u32 + 256 * slot)
        .find(|&other| other != at)
        .expect("at least four slots");
    let end = 12 * region as u32;
    let mut corrupt = heap.clone();
    corrupt.metadata[LAST_COUNT].fill(0xFF);
    let name = "request refused, corrupt metadata";
    let case = |name, number, request| Case::same(name, number, &heap, request, &[]);
    vec![
        Case::same(name, 13, &corrupt, allocate(8), &[]),
        case("request refused, malformed", 4, request(9, 0, 0)),
        case("allocate refused, 16,385 bytes", 5, allocate(16_385)),
        case("allocate refused, at capacity", 7, allocate(8)),
        case("free refused, out of range", 8, free(end)),
        case("free refused, not a slot start", 9, free(at + 1)),
        case("free refused, not allocated", 10, free(clear)),
        case("remaining size refused", 8, remaining(end)),
        case("read refused", 8, read(end, 256)),
    ]
}

fn lookups_and_copies(region: usize) -> Vec<Case> {
    let mut heap = Heap::new(region);
    let at = heap.fill(256, 1)[0];
    let text = [65; 300];
    let mut closed = text;
    closed[128] = 0;
    let case = |name, request, source: &[u8]| Case::same(name, 0, &heap, request, source);
    let (bytes, string, padded) = (request(3, at, 0), request(4, at, 0), request(5, at, 256));
    vec![
        case("remaining size, live", remaining(at + 1), &[]),
        case("remaining size, nothing live", remaining(0), &[]),
        case("read, 256 clipped to 255", read(at + 1, 256), &[]),
        case("read, nothing live", read(0, 256), &[]),
        case("copy bytes, none", bytes, &[]),
        case("copy bytes, 256", bytes, &text[..256]),
        case("copy bytes, 300 clipped to 256", bytes, &text),
        case("copy string, 256 of 300", string, &text),
        case("copy string, 129", string, &closed),
        case("copy padded, 256 of 300", padded, &text),
        case("copy padded, 128 and 128 zeros", padded, &closed),
        case("copy padded, 256 zeros", padded, &[]),
    ]
}

fn metadata_lengths(region: usize) {
    let heap_len = 12 * region;
    row(
        "metadata length",
        [
            &mut || {
                repeat(CALLS, &heap_len, |&heap_len| {
                    black_box(capi::metadata_length(heap_len));
                })
            },
            &mut || {
                repeat(CALLS, &heap_len, |&heap_len| {
                    black_box(reference::metadata_length(heap_len));
                })
            },
        ],
    );
}

fn openings(region: usize, name: &str, seed: u32) {
    let calls = if seed == 0 { CALLS } else { OPENINGS };
    let heap = RefCell::new(Heap::new(region));
    row(
        name,
        [
            &mut || {
                let Heap { bytes, metadata } = &mut *heap.borrow_mut();
                repeat(calls, &seed, |&z| {
                    black_box(capi::open(bytes, metadata, z, 1, PATTERN));
                })
            },
            &mut || {
                let Heap { bytes, metadata } = &mut *heap.borrow_mut();
                repeat(calls, &seed, |&z| {
                    black_box(reference::open(bytes, metadata, z, 1, PATTERN));
                })
            },
        ],
    );
}

pub fn table(region: usize) {
    let title = format!(
        "Operations against the second implementation, regions of {} bytes",
        figure(region)
    );
    head(&title, "operation", &["second"]);
    metadata_lengths(region);
    openings(region, "open", 1);
    openings(region, "open refused, zero seed", 0);
    for size in [8, 64, 256] {
        allocating(region, size).row();
        freeing(region, size).row();
    }
    for case in refusals(region)
        .into_iter()
        .chain(lookups_and_copies(region))
    {
        case.row();
    }
    votes::refused_row();
}

/// An allocation over all slot sizes, in regions that have four slots of the longest.
pub fn sizes() {
    let region = 65_536;
    let title = format!(
        "An allocation over the sizes, in a class near half full, regions of {} bytes",
        figure(region)
    );
    head(&title, "size, bytes", &["second"]);
    for size in (3..=14).map(|shift| 1 << shift) {
        let mut case = allocating(region, size);
        case.name = figure(size);
        case.row();
    }
}

/// Requests of 8 bytes over all region lengths.
fn lengths(title: &str, case: fn(usize, usize) -> Case) {
    head(title, "region, bytes", &["second"]);
    for shift in 10..=20 {
        let mut case = case(1 << shift, 8);
        case.name = figure(1 << shift);
        case.row();
    }
}

/// A line: what an allocation takes in the longest regions, to what it takes in regions of 4,096 bytes. All take turns.
fn longest_to_short() {
    let cases = [1 << 20, 4096].map(allocating_level);
    cases.iter().for_each(Case::check);
    let [long, short] = cases.each_ref().map(|case| RefCell::new(Stage::new(case)));
    let [ours_long, ours_short, second_long, second_short] = rounds(
        ROUNDS,
        [
            &mut || long.borrow_mut().run(capi::serve),
            &mut || short.borrow_mut().run(capi::serve),
            &mut || long.borrow_mut().run(reference::serve),
            &mut || short.borrow_mut().run(reference::serve),
        ],
    );
    println!(
        "\nIn regions of 1,048,576 bytes to regions of 4,096, three eighths of the slots live:\nPoheldu {}, second {}.",
        ratio(&ours_long, &ours_short),
        ratio(&second_long, &second_short)
    );
}

/// An allocation and a free over all region lengths.
pub fn growth() {
    lengths(
        "An allocation of 8 bytes in a class near half full, over the region lengths",
        allocating,
    );
    longest_to_short();
    lengths(
        "A free of 8 bytes in a class half full at first, over the region lengths",
        freeing,
    );
}
