//! Reads against the remaining size at the same offset: whatever their length, they copy nothing.

use crate::heap::{figure, read, remaining, Heap, Request};
use crate::measure::{head, repeat, row};
use poheldu_tests::{capi, reference};
use std::cell::RefCell;
use std::hint::black_box;

const CALLS: usize = 512;

/// A heap with an object that no read here is longer than.
struct Stage {
    heap: Heap,
    at: u32,
}

impl Stage {
    fn new() -> Stage {
        let mut heap = Heap::new(1 << 20);
        let at = heap.fill(16384, 1)[0];
        Stage { heap, at }
    }

    fn serve(&mut self, request: &Request) -> f64 {
        let Heap { bytes, metadata } = &mut self.heap;
        repeat(CALLS, request, |request| {
            black_box(capi::serve(bytes, metadata, request, &[], &[]));
        })
    }

    /// A request by the second implementation.
    fn serve_second(&mut self, request: &Request) -> f64 {
        let Heap { bytes, metadata } = &mut self.heap;
        repeat(CALLS, request, |request| {
            black_box(reference::serve(bytes, metadata, request, &[], &[]));
        })
    }

    fn read(&mut self, count: u32) -> f64 {
        let Heap { bytes, metadata } = &self.heap;
        repeat(CALLS, &(self.at, count), |&(at, count)| {
            black_box(capi::read(bytes, metadata, at, count, &[]));
        })
    }

    /// A call by the second implementation.
    fn read_second(&mut self, count: u32) -> f64 {
        let Heap { bytes, metadata } = &self.heap;
        repeat(CALLS, &(self.at, count), |&(at, count)| {
            black_box(reference::read(bytes, metadata, at, count, &[]));
        })
    }

    /// A read of this length shows all of it, by the call and as a request.
    fn check(&mut self, count: usize) {
        let Heap { bytes, metadata } = &self.heap;
        let part = capi::read(bytes, metadata, self.at, count as u32, &[]);
        assert_eq!(
            part,
            reference::read(bytes, metadata, self.at, count as u32, &[])
        );
        assert_eq!((part.value as usize, part.of_page), (count, 0));
        let answer = self.heap.serve(&read(self.at, count));
        assert_eq!((answer.number, answer.value), (0, count as u32));
    }
}

fn rows(count: usize) {
    let mut stage = Stage::new();
    stage.check(count);
    let (whole, part) = (remaining(stage.at), read(stage.at, count));
    let stage = RefCell::new(stage);
    row(
        &format!("the call, {}", figure(count)),
        [
            &mut || stage.borrow_mut().read(count as u32),
            &mut || stage.borrow_mut().serve(&whole),
            &mut || stage.borrow_mut().read_second(count as u32),
        ],
    );
    row(
        &format!("a request, {}", figure(count)),
        [
            &mut || stage.borrow_mut().serve(&part),
            &mut || stage.borrow_mut().serve(&whole),
            &mut || stage.borrow_mut().serve_second(&part),
        ],
    );
}

pub fn table() {
    head(
        "Reads against a remaining size at the same offset",
        "read, bytes",
        &["remaining size", "second"],
    );
    for count in [8, 64, 1024, 16384] {
        rows(count);
    }
}
