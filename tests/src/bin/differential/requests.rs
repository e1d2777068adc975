//! Random requests, what is lent beside them, and what others write to the heap.

use poheldu_tests::inputs::{slot_size, Shape, CLASSES};
use poheldu_tests::random::Random;

/// A request with something wrong in it (or, rarely, nothing).
pub fn damaged_request(rng: &mut Random, good: [u8; 16]) -> Vec<u8> {
    let mut bytes = good.to_vec();
    match rng.below(5) {
        0 => bytes.resize(rng.pick(&[0, 1, 4, 8, 15, 17, 32, 40]), 0),
        1 => bytes[0] = rng.pick(&[7, 7, 8, 16, 64, 128, 129, 255]),
        2 => bytes[0] = rng.byte(),
        3 => rng.fill(&mut bytes),
        _ => {
            let at = rng.pick(&[1, 2, 3, 8, 9, 10, 11, 12, 13, 14, 15]);
            bytes[at] = rng.pick(&[1, 2, 64, 128, 255]);
        }
    }
    bytes
}

/// A size to allocate, often at the edge of a class.
pub fn size(rng: &mut Random) -> u32 {
    let class = rng.pick(&[0, 1, 2, 3, 4, 5, 6, 7, 8, 9, 10, 11, 0, 1, 2, 3, 4, 5, 6]);
    match rng.below(16) {
        0 => rng.pick(&[0, 16_385, 16_386, 32_768, 65_536, 1 << 31, u32::MAX]),
        1 => rng.word(),
        2..=5 => rng.between(0, 16_384) as u32,
        6..=8 => slot_size(class) as u32 + 1,
        9..=11 => slot_size(class) as u32 - 1,
        _ => slot_size(class) as u32,
    }
}

/// A class, mostly one that allows allocations.
pub fn class(rng: &mut Random, shape: Shape) -> usize {
    let open = (0..CLASSES).filter(|&class| shape.slots(class) > 1);
    match rng.below(8) {
        0 => rng.below(CLASSES),
        _ => rng.below(open.count()),
    }
}

/// A size that belongs to the class.
pub fn size_in(rng: &mut Random, class: usize) -> u32 {
    let high = slot_size(class);
    let low = if class == 0 { 0 } else { high / 2 + 1 };
    rng.between(low, high) as u32
}

/// A heap offset: of an object allocated before, of an edge, or any.
pub fn offset(rng: &mut Random, shape: Shape, allocated: &[u32]) -> u32 {
    let class = rng.below(CLASSES);
    let start = class * shape.region;
    let slot = start + rng.below(shape.region) / slot_size(class) * slot_size(class);
    let near = match rng.below(16) {
        0..=5 if !allocated.is_empty() => rng.pick(allocated) as usize,
        6 => shape.heap_len(),
        7 => start,
        8 => start + shape.region,
        9 => rng.below(shape.heap_len()),
        10 => rng.pick(&[0, 1 << 31, u32::MAX - 1, u32::MAX]) as usize,
        11 => rng.word() as usize,
        _ => slot,
    };
    step(rng, near, shape) as u32
}

/// Moves an offset a little, or to somewhere in its slot, or not at all.
fn step(rng: &mut Random, offset: usize, shape: Shape) -> usize {
    let class = (offset / shape.region).min(CLASSES - 1);
    let size = slot_size(class);
    match rng.below(10) {
        0 => offset + 1,
        1 => offset.saturating_sub(1),
        2 => offset + size - 1,
        3 => offset + size / 2,
        4 => offset + rng.below(size),
        _ => offset,
    }
}

pub fn count(rng: &mut Random) -> u32 {
    let size = slot_size(rng.below(CLASSES)) as u32;
    match rng.below(8) {
        0 => rng.pick(&[0, 1, 2, 65_535, 65_536, 1 << 31, u32::MAX - 1, u32::MAX]),
        1 => rng.word(),
        2 => size + 1,
        3 => size - 1,
        4 => size,
        _ => rng.below(size as usize + 1) as u32,
    }
}

/// A copy's source: empty, short, or longer than any slot; with zeros or without.
pub fn source(rng: &mut Random) -> Vec<u8> {
    let size = slot_size(rng.below(CLASSES));
    let len = match rng.below(10) {
        0 => 0,
        1 => rng.between(16_384, 20_000),
        2 => size,
        3 => size + 1,
        4 => size - 1,
        5 => rng.below(size + 1),
        _ => rng.below(40),
    };
    let mut bytes = rng.bytes(len);
    place_zeros(rng, &mut bytes);
    bytes
}

/// A page to show where nothing is live: empty, short, or longer than any slot.
pub fn page(rng: &mut Random) -> Vec<u8> {
    let size = slot_size(rng.below(CLASSES));
    let len = match rng.below(16) {
        0..=2 => 0,
        3 => rng.between(16_384, 20_000),
        4 => size,
        5 => size + 1,
        6 => size - 1,
        7 => rng.below(size + 1),
        _ => rng.below(40),
    };
    rng.bytes(len)
}

fn place_zeros(rng: &mut Random, bytes: &mut [u8]) {
    let kind = rng.below(8);
    if kind == 0 {
        return bytes.fill(0);
    }
    if kind < 6 {
        bytes.iter_mut().for_each(|byte| *byte |= 1);
    }
    let Some(last) = bytes.len().checked_sub(1) else {
        return;
    };
    match kind {
        1 => bytes[0] = 0,
        2 => bytes[last] = 0,
        3 | 4 => bytes[rng.below(last + 1)] = 0,
        _ => (),
    }
}

/// What others write to the heap, and where: past an object, after its free, at
/// the ends of a slot, over all of it, or anywhere.
pub fn scribble(
    rng: &mut Random,
    shape: Shape,
    pattern: [u8; 4],
    allocated: &[u32],
) -> (usize, Vec<u8>) {
    let slot = any_slot(rng, shape, allocated);
    let size = slot_size(slot / shape.region);
    let (at, len) = match rng.below(10) {
        0..=2 => (slot + size, rng.between(1, 16)),
        3 => (slot + size - 1, 1),
        4 => (slot, 1),
        5 => (slot, size),
        6 | 7 => (slot + rng.below(size), rng.between(1, 16)),
        _ => (rng.below(shape.heap_len()), rng.between(1, 40)),
    };
    let at = at.min(shape.heap_len() - 1);
    let bytes = stray_bytes(rng, pattern, at, len.min(shape.heap_len() - at));
    (at, bytes)
}

/// The start of a slot: of an object allocated before, or of any.
fn any_slot(rng: &mut Random, shape: Shape, allocated: &[u32]) -> usize {
    if !allocated.is_empty() && !rng.once_in(3) {
        return rng.pick(allocated) as usize;
    }
    let class = rng.below(CLASSES);
    class * shape.region + rng.below(shape.slots(class).max(1)) * slot_size(class)
}

/// Any bytes, or the pattern's: as the slots hold them, or out of step.
fn stray_bytes(rng: &mut Random, pattern: [u8; 4], at: usize, len: usize) -> Vec<u8> {
    let step = match rng.below(8) {
        0 => 0,
        1 | 2 => rng.between(1, 3),
        _ => return rng.bytes(len),
    };
    (at..at + len).map(|at| pattern[(at + step) % 4]).collect()
}

/// The length of a list where so many slots are to be listed: none, one too few
/// or fewer, just enough, or more.
pub fn list_length(rng: &mut Random, hits: usize) -> usize {
    match rng.below(8) {
        0 => 0,
        1 | 2 => hits.saturating_sub(1),
        3 => rng.below(hits + 1),
        4 | 5 => hits,
        6 => hits + 1,
        _ => hits + rng.below(40),
    }
}
