//! The second implementation for C: the functions of include/poheldu.h, under
//! names of their own, for the fuzzer to hold against the library's.

use crate::reference::{self, Answer, Part, SlotNumbers, Verdict};

/// # Safety
/// `bytes` is valid for `len` bytes, or `len` is 0.
unsafe fn shared<'a>(bytes: *const u8, len: usize) -> &'a [u8] {
    match len {
        0 => &[],
        _ => std::slice::from_raw_parts(bytes, len),
    }
}

/// # Safety
/// `items` is valid for `len` bytes or numbers that nobody else uses, or `len`
/// is 0.
unsafe fn unique<'a, T>(items: *mut T, len: usize) -> &'a mut [T] {
    match len {
        0 => &mut [],
        _ => std::slice::from_raw_parts_mut(items, len),
    }
}

/// # Safety
/// As include/poheldu.h asks of `poheldu_open`.
#[no_mangle]
pub unsafe extern "C" fn reference_open(
    heap: *mut u8,
    heap_len: usize,
    metadata: *mut u8,
    metadata_len: usize,
    z: u32,
    w: u32,
    pattern: u32,
) -> Answer {
    let (heap, metadata) = (unique(heap, heap_len), unique(metadata, metadata_len));
    reference::open(heap, metadata, z, w, pattern)
}

/// # Safety
/// As include/poheldu.h asks of `poheldu_serve`.
#[no_mangle]
pub unsafe extern "C" fn reference_serve(
    heap: *mut u8,
    heap_len: usize,
    metadata: *mut u8,
    metadata_len: usize,
    request: *const u8,
    request_len: usize,
    source: *const u8,
    source_len: usize,
    page: *const u8,
    page_len: usize,
) -> Answer {
    reference::serve(
        unique(heap, heap_len),
        unique(metadata, metadata_len),
        shared(request, request_len),
        shared(source, source_len),
        shared(page, page_len),
    )
}

/// # Safety
/// As include/poheldu.h asks of `poheldu_read`.
#[no_mangle]
pub unsafe extern "C" fn reference_read(
    heap: *const u8,
    heap_len: usize,
    metadata: *const u8,
    metadata_len: usize,
    offset: u32,
    count: u32,
    page: *const u8,
    page_len: usize,
) -> Part {
    reference::read(
        shared(heap, heap_len),
        shared(metadata, metadata_len),
        offset,
        count,
        shared(page, page_len),
    )
}

/// # Safety
/// As include/poheldu.h asks of `poheldu_inspect`.
#[no_mangle]
pub unsafe extern "C" fn reference_inspect(
    heap: *const u8,
    heap_len: usize,
    metadata: *const u8,
    metadata_len: usize,
    list: *mut u32,
    list_len: usize,
) -> Answer {
    let (heap, metadata) = (shared(heap, heap_len), shared(metadata, metadata_len));
    reference::inspect(heap, metadata, unique(list, list_len))
}

/// # Safety
/// As include/poheldu.h asks of `poheldu_vote`.
#[no_mangle]
pub unsafe extern "C" fn reference_vote(
    blocks: *const u8,
    blocks_len: usize,
    replicas: usize,
    block_len: usize,
    output: *mut u8,
    output_len: usize,
) -> Verdict {
    reference::vote(
        shared(blocks, blocks_len),
        replicas,
        block_len,
        unique(output, output_len),
    )
}

/// # Safety
/// As include/poheldu.h asks of `poheldu_vote_whole`.
#[no_mangle]
pub unsafe extern "C" fn reference_vote_whole(
    outputs: *const u8,
    outputs_len: usize,
    replicas: usize,
    length: usize,
    output: *mut u8,
    output_len: usize,
) -> Verdict {
    reference::vote_whole(
        shared(outputs, outputs_len),
        replicas,
        length,
        unique(output, output_len),
    )
}

#[no_mangle]
pub extern "C" fn reference_metadata_length(heap_len: usize) -> usize {
    reference::metadata_length(heap_len)
}

/// # Safety
/// As include/poheldu.h asks of `poheldu_nth_slot`.
#[no_mangle]
pub unsafe extern "C" fn reference_nth_slot(
    heap_len: usize,
    metadata: *const u8,
    metadata_len: usize,
    size_class: u32,
    number: u32,
) -> SlotNumbers {
    reference::nth_slot(heap_len, shared(metadata, metadata_len), size_class, number)
}

/// # Safety
/// As include/poheldu.h asks of `poheldu_find_slot`.
#[no_mangle]
pub unsafe extern "C" fn reference_find_slot(
    heap_len: usize,
    metadata: *const u8,
    metadata_len: usize,
    offset: u32,
) -> SlotNumbers {
    reference::find_slot(heap_len, shared(metadata, metadata_len), offset)
}

/// # Safety
/// As include/poheldu.h asks of `poheldu_count_slots`.
#[no_mangle]
pub unsafe extern "C" fn reference_count_slots(
    heap_len: usize,
    metadata: *const u8,
    metadata_len: usize,
) -> usize {
    reference::count_slots(heap_len, shared(metadata, metadata_len))
}

/// # Safety
/// As include/poheldu.h asks of `poheldu_stored_pattern`.
#[no_mangle]
pub unsafe extern "C" fn reference_stored_pattern(
    heap_len: usize,
    metadata: *const u8,
    metadata_len: usize,
) -> u32 {
    reference::stored_pattern(heap_len, shared(metadata, metadata_len))
}
