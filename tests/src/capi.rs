//! The proved library's C interface, with safe wrappers over slices.
//! All unsafe code of this package is here and in `exported`.

use crate::reference::{Answer, Part, SlotNumbers, Verdict};

extern "C" {
    fn poheldu_open(
        heap: *mut u8,
        heap_len: usize,
        metadata: *mut u8,
        metadata_len: usize,
        z: u32,
        w: u32,
        pattern: u32,
    ) -> Answer;

    fn poheldu_serve(
        heap: *mut u8,
        heap_len: usize,
        metadata: *mut u8,
        metadata_len: usize,
        request: *const u8,
        request_len: usize,
        source: *const u8,
        source_len: usize,
        page: *const u8,
        page_len: usize,
    ) -> Answer;

    fn poheldu_read(
        heap: *const u8,
        heap_len: usize,
        metadata: *const u8,
        metadata_len: usize,
        offset: u32,
        count: u32,
        page: *const u8,
        page_len: usize,
    ) -> Part;

    fn poheldu_inspect(
        heap: *const u8,
        heap_len: usize,
        metadata: *const u8,
        metadata_len: usize,
        list: *mut u32,
        list_len: usize,
    ) -> Answer;

    fn poheldu_vote(
        blocks: *const u8,
        blocks_len: usize,
        replicas: usize,
        block_len: usize,
        output: *mut u8,
        output_len: usize,
    ) -> Verdict;

    fn poheldu_vote_whole(
        outputs: *const u8,
        outputs_len: usize,
        replicas: usize,
        length: usize,
        output: *mut u8,
        output_len: usize,
    ) -> Verdict;

    fn poheldu_metadata_length(heap_len: usize) -> usize;

    fn poheldu_nth_slot(
        heap_len: usize,
        metadata: *const u8,
        metadata_len: usize,
        size_class: u32,
        number: u32,
    ) -> SlotNumbers;

    fn poheldu_find_slot(
        heap_len: usize,
        metadata: *const u8,
        metadata_len: usize,
        offset: u32,
    ) -> SlotNumbers;

    fn poheldu_count_slots(heap_len: usize, metadata: *const u8, metadata_len: usize) -> usize;

    fn poheldu_stored_pattern(heap_len: usize, metadata: *const u8, metadata_len: usize) -> u32;
}

/// How an empty slice is passed: by its own (dangling) address, or as NULL.
#[derive(Clone, Copy, Debug, PartialEq, Eq)]
pub enum Empty {
    Dangling,
    Null,
}

impl Empty {
    #[inline]
    fn shared(self, bytes: &[u8]) -> *const u8 {
        match self {
            Empty::Null if bytes.is_empty() => std::ptr::null(),
            _ => bytes.as_ptr(),
        }
    }

    #[inline]
    fn unique<T>(self, items: &mut [T]) -> *mut T {
        match self {
            Empty::Null if items.is_empty() => std::ptr::null_mut(),
            _ => items.as_mut_ptr(),
        }
    }
}

#[inline]
pub fn open(heap: &mut [u8], metadata: &mut [u8], z: u32, w: u32, pattern: u32) -> Answer {
    open_with(Empty::Dangling, heap, metadata, z, w, pattern)
}

#[inline]
pub fn serve(
    heap: &mut [u8],
    metadata: &mut [u8],
    request: &[u8],
    source: &[u8],
    page: &[u8],
) -> Answer {
    serve_with(Empty::Dangling, heap, metadata, request, source, page)
}

#[inline]
pub fn read(heap: &[u8], metadata: &[u8], offset: u32, count: u32, page: &[u8]) -> Part {
    read_with(Empty::Dangling, heap, metadata, offset, count, page)
}

#[inline]
pub fn inspect(heap: &[u8], metadata: &[u8], list: &mut [u32]) -> Answer {
    inspect_with(Empty::Dangling, heap, metadata, list)
}

#[inline]
pub fn vote(blocks: &[u8], replicas: usize, block_len: usize, output: &mut [u8]) -> Verdict {
    vote_with(Empty::Dangling, blocks, replicas, block_len, output)
}

#[inline]
pub fn vote_whole(outputs: &[u8], replicas: usize, length: usize, output: &mut [u8]) -> Verdict {
    vote_whole_with(Empty::Dangling, outputs, replicas, length, output)
}

#[inline]
pub fn metadata_length(heap_len: usize) -> usize {
    // SAFETY: the function takes and returns numbers only.
    unsafe { poheldu_metadata_length(heap_len) }
}

/// `open`, with empty slices passed as `empty` says.
#[inline]
pub fn open_with(
    empty: Empty,
    heap: &mut [u8],
    metadata: &mut [u8],
    z: u32,
    w: u32,
    pattern: u32,
) -> Answer {
    let (heap_len, metadata_len) = (heap.len(), metadata.len());
    let (heap, metadata) = (empty.unique(heap), empty.unique(metadata));
    // SAFETY: each pointer is valid for its length, or the length is 0; the
    // slices do not overlap.
    unsafe { poheldu_open(heap, heap_len, metadata, metadata_len, z, w, pattern) }
}

/// `serve`, with empty slices passed as `empty` says.
#[inline]
pub fn serve_with(
    empty: Empty,
    heap: &mut [u8],
    metadata: &mut [u8],
    request: &[u8],
    source: &[u8],
    page: &[u8],
) -> Answer {
    // SAFETY: each pointer is valid for its length, or the length is 0;
    // the slices do not overlap where one of them is mutable.
    unsafe {
        poheldu_serve(
            empty.unique(heap),
            heap.len(),
            empty.unique(metadata),
            metadata.len(),
            empty.shared(request),
            request.len(),
            empty.shared(source),
            source.len(),
            empty.shared(page),
            page.len(),
        )
    }
}

/// `read`, with empty slices passed as `empty` says.
#[inline]
pub fn read_with(
    empty: Empty,
    heap: &[u8],
    metadata: &[u8],
    offset: u32,
    count: u32,
    page: &[u8],
) -> Part {
    // SAFETY: each pointer is valid for its length, or the length is 0;
    // `offset` and `count` are mere numbers that the library judges.
    unsafe {
        poheldu_read(
            empty.shared(heap),
            heap.len(),
            empty.shared(metadata),
            metadata.len(),
            offset,
            count,
            empty.shared(page),
            page.len(),
        )
    }
}

/// `inspect`, with empty slices passed as `empty` says.
#[inline]
pub fn inspect_with(empty: Empty, heap: &[u8], metadata: &[u8], list: &mut [u32]) -> Answer {
    // SAFETY: each pointer is valid for its length, or the length is 0; the
    // list, which counts numbers, overlaps no other slice.
    unsafe {
        poheldu_inspect(
            empty.shared(heap),
            heap.len(),
            empty.shared(metadata),
            metadata.len(),
            empty.unique(list),
            list.len(),
        )
    }
}

/// `vote`, with empty slices passed as `empty` says.
#[inline]
pub fn vote_with(
    empty: Empty,
    blocks: &[u8],
    replicas: usize,
    block_len: usize,
    output: &mut [u8],
) -> Verdict {
    // SAFETY: each pointer is valid for its length, or the length is 0;
    // `replicas` and `block_len` are mere numbers that the library judges.
    unsafe {
        poheldu_vote(
            empty.shared(blocks),
            blocks.len(),
            replicas,
            block_len,
            empty.unique(output),
            output.len(),
        )
    }
}

/// `vote_whole`, with empty slices passed as `empty` says.
#[inline]
pub fn vote_whole_with(
    empty: Empty,
    outputs: &[u8],
    replicas: usize,
    length: usize,
    output: &mut [u8],
) -> Verdict {
    // SAFETY: each pointer is valid for its length, or the length is 0;
    // `replicas` and `length` are mere numbers that the library judges.
    unsafe {
        poheldu_vote_whole(
            empty.shared(outputs),
            outputs.len(),
            replicas,
            length,
            empty.unique(output),
            output.len(),
        )
    }
}

// The four lookups of slots: each with empty slices passed as `empty` says.
// SAFETY of each: the pointer is valid for its length, or that is 0; all else
// are mere numbers that the library judges.

pub fn nth_slot_with(
    empty: Empty,
    heap_len: usize,
    metadata: &[u8],
    class: u32,
    number: u32,
) -> SlotNumbers {
    let (pointer, len) = (empty.shared(metadata), metadata.len());
    unsafe { poheldu_nth_slot(heap_len, pointer, len, class, number) }
}

pub fn find_slot_with(empty: Empty, heap_len: usize, metadata: &[u8], offset: u32) -> SlotNumbers {
    let (pointer, len) = (empty.shared(metadata), metadata.len());
    unsafe { poheldu_find_slot(heap_len, pointer, len, offset) }
}

pub fn count_slots_with(empty: Empty, heap_len: usize, metadata: &[u8]) -> usize {
    unsafe { poheldu_count_slots(heap_len, empty.shared(metadata), metadata.len()) }
}

pub fn stored_pattern_with(empty: Empty, heap_len: usize, metadata: &[u8]) -> u32 {
    unsafe { poheldu_stored_pattern(heap_len, empty.shared(metadata), metadata.len()) }
}

#[cfg(test)]
mod tests {
    use super::*;
    use crate::inputs::{request, slot_size, Shape, CLASSES};

    #[test]
    fn every_size_goes_to_the_first_class_that_holds_it() {
        let shape = Shape { region: 32_768 };
        let mut heap = vec![0; shape.heap_len()];
        let mut fresh = vec![0; shape.metadata_len()];
        open(&mut heap, &mut fresh, 1, 1, 0);
        for size in (0..=16_400).chain([65_536, 1 << 31, u32::MAX]) {
            let mut metadata = fresh.clone();
            let answer = serve(&mut heap, &mut metadata, &request(0, size, 0), &[], &[]);
            let class = (0..CLASSES).find(|&class| size as usize <= slot_size(class));
            let number = if class.is_some() { 0 } else { 5 };
            let region = (number == 0).then_some(answer.value as usize / shape.region);
            assert_eq!((answer.number, region), (number, class), "{size} bytes");
        }
    }
}
