//! What filling with a canary and inspection take, against the C library's memset and memcmp of as many bytes.

use crate::heap::{figure, Heap, PATTERN};
use crate::measure::{head, repeat, row};
use crate::operations::{freeing, Serve, Stage};
use crate::votes::{equal, memcmp, Memcmp};
use poheldu_tests::reference::Answer;
use poheldu_tests::{capi, reference};
use std::cell::RefCell;
use std::ffi::{c_int, c_void};
use std::hint::black_box;

const REGIONS: [usize; 2] = [65_536, 1 << 20];

/// The bytes of a region that the calls of a round go through, together.
const REGION_BYTES: usize = 1 << 22;

type Memset = unsafe extern "C" fn(*mut c_void, c_int, usize) -> *mut c_void;

extern "C" {
    fn memset(target: *mut c_void, byte: c_int, len: usize) -> *mut c_void;
}

/// Sets all bytes to one that is none of the pattern's.
fn set(fill: Memset, bytes: &mut [u8]) {
    // SAFETY: the length is that of the bytes.
    black_box(unsafe { fill(bytes.as_mut_ptr().cast(), 0x5A, bytes.len()) });
}

/// An opening, and a memset of all bytes of the same heap.
fn opening(region: usize) {
    let calls = REGION_BYTES / region;
    let heap = RefCell::new(Heap::new(region));
    let fill = black_box(memset as Memset);
    row(
        &figure(region),
        [
            &mut || {
                let Heap { bytes, metadata } = &mut *heap.borrow_mut();
                repeat(calls, &PATTERN, |&pattern| {
                    black_box(capi::open(bytes, metadata, 1, 1, pattern));
                })
            },
            &mut || {
                let bytes = &mut heap.borrow_mut().bytes;
                repeat(calls, &(), |_| set(fill, bytes))
            },
            &mut || {
                let Heap { bytes, metadata } = &mut *heap.borrow_mut();
                repeat(calls, &PATTERN, |&pattern| {
                    black_box(reference::open(bytes, metadata, 1, 1, pattern));
                })
            },
        ],
    );
}

/// Each class half full of objects that hold no byte of the pattern's.
fn at_capacity(region: usize) -> Heap {
    let mut heap = Heap::new(region);
    for size in (3..=14).map(|shift| 1 << shift) {
        for at in heap.fill(size, region / size / 2) {
            heap.bytes[at as usize..][..size].fill(0x5A);
        }
    }
    heap
}

/// As `repeat`, after one call that is not timed: what a contender reads is then in the cache as far as it fits, whoever
/// came before.
fn repeat_warm<T>(calls: usize, input: &T, mut call: impl FnMut(&T)) -> f64 {
    call(input);
    repeat(calls, input, call)
}

/// An inspection that lists nothing, and memcmp of as many bytes as the clear slots have and as the heap has, with a
/// copy of them.
fn inspection(name: &str, heap: &Heap, clear: usize) {
    let Heap { bytes, metadata } = heap;
    let calls = REGION_BYTES * 12 / bytes.len();
    let nothing = reference::inspect(bytes, metadata, &mut []);
    assert_eq!((nothing.number, nothing.value), (0, 0));
    assert_eq!(capi::inspect(bytes, metadata, &mut []), nothing);
    let (copy, compare) = (bytes.clone(), black_box(memcmp as Memcmp));
    let compared = |len: usize| {
        repeat_warm(calls, &len, |&len| {
            assert!(equal(compare, &bytes[..len], &copy[..len]));
        })
    };
    row(
        name,
        [
            &mut || {
                repeat_warm(calls, &heap, |heap| {
                    black_box(capi::inspect(&heap.bytes, &heap.metadata, &mut [0; 8]));
                })
            },
            &mut || compared(clear),
            &mut || compared(bytes.len()),
            &mut || {
                repeat_warm(calls, &heap, |heap| {
                    black_box(reference::inspect(&heap.bytes, &heap.metadata, &mut [0; 8]));
                })
            },
        ],
    );
}

/// A memset of the slot that a free names.
fn set_slot(fill: Memset, size: usize) -> impl Serve + Copy {
    move |heap: &mut [u8], _: &mut [u8], request: &[u8], _: &[u8], _: &[u8]| {
        let at = u32::from_le_bytes([4, 5, 6, 7].map(|at| request[at])) as usize;
        set(fill, &mut heap[at..at + size]);
        Answer {
            number: 0,
            value: size as u32,
        }
    }
}

/// A free, and a memset of the bytes of the same slot.
fn free_of(region: usize, size: usize) {
    let case = freeing(region, size);
    case.check();
    let stage = RefCell::new(Stage::new(&case));
    let set_slot = set_slot(black_box(memset as Memset), size);
    row(
        &figure(size),
        [
            &mut || stage.borrow_mut().run(capi::serve),
            &mut || stage.borrow_mut().run(set_slot),
            &mut || stage.borrow_mut().run(reference::serve),
        ],
    );
}

/// An opening over region lengths. Target: at most 1.5 times memset.
fn openings() {
    head(
        "An opening against a memset of the heap (target: at most 1.5)",
        "region, bytes",
        &["memset", "second"],
    );
    REGIONS.into_iter().for_each(opening);
}

/// Inspections of clean heaps. Target: at most twice memcmp of the clear slots' bytes.
fn inspections() {
    head(
        "An inspection against a memcmp of the clear slots' bytes (target: at most 2) and of the heap",
        "heap, regions in bytes",
        &["memcmp", "memcmp, heap", "second"],
    );
    for region in REGIONS {
        let name = |state| format!("{state}, {}", figure(region));
        inspection(&name("newly opened"), &Heap::new(region), 12 * region);
        inspection(&name("half full"), &at_capacity(region), 6 * region);
    }
}

/// A free over all slot sizes: its own work, and that of its slot's bytes.
fn frees(region: usize) {
    let title = format!(
        "A free against a memset of its slot (target from 8,192 bytes up: 1.35), regions of {}",
        figure(region)
    );
    head(&title, "slot, bytes", &["memset", "second"]);
    for size in (3..=14).map(|shift| 1 << shift) {
        free_of(region, size);
    }
}

pub fn tables() {
    openings();
    inspections();
    frees(1 << 20);
}
