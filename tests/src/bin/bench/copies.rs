//! Copies against the C library's memcpy: the same source, to the same place.

use crate::heap::{figure, request, Heap};
use crate::measure::{head, repeat, row};
use poheldu_tests::{capi, reference};
use std::cell::RefCell;
use std::ffi::c_void;
use std::hint::black_box;

const CALLS: usize = 256;

pub type Memcpy = unsafe extern "C" fn(*mut c_void, *const c_void, usize) -> *mut c_void;

extern "C" {
    pub fn memcpy(target: *mut c_void, source: *const c_void, len: usize) -> *mut c_void;
}

/// One operation of copying, to an object of the source's size.
fn copy(name: &str, operation: u32, size: usize) {
    let mut heap = Heap::new(1 << 20);
    let at = heap.fill(size.max(1), 1)[0];
    let count = if operation == 5 { size as u32 } else { 0 };
    let (source, request) = (vec![65u8; size], request(operation, at, count));
    let move_bytes = black_box(memcpy as Memcpy);
    let heap = RefCell::new(heap);
    row(
        name,
        [
            &mut || {
                let Heap { bytes, metadata } = &mut *heap.borrow_mut();
                repeat(CALLS, &&source[..], |&source| {
                    let request = black_box(&request);
                    black_box(capi::serve(bytes, metadata, request, source, &[]));
                })
            },
            &mut || {
                let target = &mut heap.borrow_mut().bytes[at as usize..][..size];
                repeat(CALLS, &&source[..], |&source| {
                    let (to, from) = (target.as_mut_ptr().cast(), source.as_ptr().cast());
                    // SAFETY: the target is as long as the source, and lies elsewhere.
                    black_box(unsafe { move_bytes(to, from, source.len()) });
                })
            },
            &mut || {
                let Heap { bytes, metadata } = &mut *heap.borrow_mut();
                repeat(CALLS, &&source[..], |&source| {
                    let request = black_box(&request);
                    black_box(reference::serve(bytes, metadata, request, source, &[]));
                })
            },
        ],
    );
}

pub fn table() {
    let others = ["memcpy", "second"];
    head("Copies against memcpy of the same bytes", "copy", &others);
    copy("bytes, none", 3, 0);
    for shift in 3..=14 {
        let size = 1 << shift;
        copy(&format!("bytes, {}", figure(size)), 3, size);
    }
    for (name, operation) in [("string", 4), ("padded", 5)] {
        for size in [20, 64, 256, 1024, 4096, 16384] {
            copy(&format!("{name}, {}", figure(size)), operation, size);
        }
    }
}
