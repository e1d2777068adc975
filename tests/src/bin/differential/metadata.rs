//! Random seeds, patterns, counts, metadata and lengths.

use crate::votes::HUGE;
use poheldu_tests::inputs::{
    count_of, fit_counts, set_bits, set_count, set_pattern, set_seeds, Shape, BITMAPS, CLASSES,
    COUNTS, FROZEN_W, FROZEN_Z, PATTERN,
};
use poheldu_tests::random::Random;

/// Seeds for an opening: most are good, some zero or frozen, next to a frozen
/// one, or frozen in the other half alone.
pub fn seeds(rng: &mut Random) -> (u32, u32) {
    (
        seed(rng, &FROZEN_Z, &FROZEN_W),
        seed(rng, &FROZEN_W, &FROZEN_Z),
    )
}

fn seed(rng: &mut Random, frozen: &[u32], other: &[u32]) -> u32 {
    match rng.below(24) {
        0 => 0,
        1 => rng.pick(frozen),
        2 => rng.pick(frozen) + 1,
        3 => rng.pick(frozen) - 1,
        4 => rng.pick(other),
        5 | 6 => rng.pick(&[1, 2, 65_535, 65_536, u32::MAX]),
        _ => rng.word(),
    }
}

/// Seeds that metadata may hold which no opening made: often frozen.
fn foreign_seeds(rng: &mut Random) -> (u32, u32) {
    let (z, w) = seeds(rng);
    (
        if rng.once_in(4) {
            rng.pick(&FROZEN_Z)
        } else {
            z
        },
        if rng.once_in(4) {
            rng.pick(&FROZEN_W)
        } else {
            w
        },
    )
}

/// A pattern: zeros, one byte four times, or most often four bytes.
pub fn pattern(rng: &mut Random) -> u32 {
    match rng.below(8) {
        0 => 0,
        1 => u32::from_le_bytes([rng.byte(); 4]),
        2 => rng.pick(&[1, 0xFF00_0000, 0x00FF_00FF, u32::MAX]),
        _ => rng.word(),
    }
}

/// A count above half: by one, or small once it is doubled in 32 bits or cut to
/// 16, or any.
fn count_above(rng: &mut Random, half: u32) -> u32 {
    match rng.below(8) {
        0..=2 => half + 1,
        3 | 4 => (1 << 31) + rng.below(half as usize + 1) as u32,
        5 => u32::MAX - rng.below(3) as u32,
        6 => (half + 1).next_multiple_of(1 << 16),
        _ => rng.word().max(half + 1),
    }
}

/// A count that nothing in the bitmap speaks for.
fn any_count(rng: &mut Random, half: u32) -> u32 {
    match rng.below(4) {
        0 => 0,
        1 => half,
        2 => rng.below(half as usize + 1) as u32,
        _ => count_above(rng, half),
    }
}

/// Counts that fit the bitmaps, or are at most half and do not, or are one or
/// several of them above half.
fn foreign_counts(rng: &mut Random, shape: Shape, metadata: &mut [u8]) {
    let kind = rng.below(10);
    fit_counts(shape, metadata);
    for class in 0..CLASSES {
        let half = shape.half(class);
        let count = match kind {
            0 | 1 => 0,
            2 => half,
            3 => rng.below(half as usize + 1) as u32,
            4 => set_bits(shape, metadata, class),
            _ => count_of(metadata, class),
        };
        set_count(metadata, class, count);
    }
    if rng.once_in(8) {
        let class = rng.below(CLASSES);
        set_count(metadata, class, count_above(rng, shape.half(class)));
    }
}

/// Metadata of the right length that no opening made.
pub fn foreign_metadata(rng: &mut Random, shape: Shape) -> Vec<u8> {
    let len = shape.metadata_len();
    let mut bytes = match rng.below(9) {
        0 => vec![0; len],
        1 => vec![0xFF; len],
        2 => rng.bytes(len),
        3 => combine(rng, len, |a, b| a & b),
        4 => combine(rng, len, |a, b| a | b),
        5 => near_capacity(rng, shape),
        6 => full_class(rng, shape),
        _ => {
            let open = (0..CLASSES).filter(|&class| shape.slots(class) >= 128);
            let class = rng.below(open.count());
            return trap(rng, shape, class);
        }
    };
    if !rng.once_in(8) {
        let (z, w) = foreign_seeds(rng);
        set_seeds(&mut bytes, z, w);
    }
    if !rng.once_in(8) {
        set_pattern(&mut bytes, pattern(rng));
    }
    foreign_counts(rng, shape, &mut bytes);
    bytes
}

fn combine(rng: &mut Random, len: usize, with: fn(u8, u8) -> u8) -> Vec<u8> {
    (0..len).map(|_| with(rng.byte(), rng.byte())).collect()
}

/// Each class has about half of its slots live, with stray bits beyond them.
fn near_capacity(rng: &mut Random, shape: Shape) -> Vec<u8> {
    let mut bytes = vec![0; shape.metadata_len()];
    for class in 0..CLASSES {
        let slots = shape.slots(class);
        let bitmap = &mut bytes[shape.bitmap_start(class)..shape.bitmap_start(class + 1)];
        let live = (slots / 2).saturating_sub(rng.below(3));
        set_run(bitmap, slots, rng.below(slots.max(1)), live);
        if slots < 8 && !bitmap.is_empty() {
            bitmap[0] |= rng.byte() << slots;
        }
    }
    bytes
}

/// One class has all slots live, so that by a count below half an allocation
/// walks round all of it: not one of the longest, where that takes its time.
fn full_class(rng: &mut Random, shape: Shape) -> Vec<u8> {
    let mut bytes = vec![0; shape.metadata_len()];
    let short = (0..CLASSES).filter(|&class| (2..=4_096).contains(&shape.slots(class)));
    let class = rng.pick(&short.collect::<Vec<_>>());
    bytes[shape.bitmap_start(class)..shape.bitmap_start(class + 1)].fill(0xFF);
    bytes
}

/// Sets `live` bits from slot `first` on, going round the end.
fn set_run(bitmap: &mut [u8], slots: usize, first: usize, live: usize) {
    for index in (first..first + live).map(|index| index % slots) {
        bitmap[index / 8] |= 1 << (index % 8);
    }
}

/// Metadata whose next 32 draws in the class (or all but the last) meet live
/// slots, so that the walk starts anywhere. The class has 128 slots or more, and
/// its count is that of its set bits, or below half where those are not.
pub fn trap(rng: &mut Random, shape: Shape, class: usize) -> Vec<u8> {
    let mut bytes = vec![0; shape.metadata_len()];
    let (mut z, mut w) = (rng.word(), rng.word());
    set_seeds(&mut bytes, z, w);
    let slots = shape.slots(class);
    let bitmap = &mut bytes[shape.bitmap_start(class)..];
    for _ in 0..rng.pick(&[31, 32, 32, 32]) {
        z = 36_969 * (z % 65_536) + z / 65_536;
        w = 18_000 * (w % 65_536) + w / 65_536;
        let slot = 65_536u32.wrapping_mul(z).wrapping_add(w) as usize % slots;
        let live = rng.pick(&[1, 1, 1, 1, 1, 1, 1, 10]).min(slots - slot);
        set_run(bitmap, slots, slot, live);
    }
    let count = set_bits(shape, &bytes, class).min(shape.half(class) - 2);
    set_count(&mut bytes, class, count);
    bytes
}

/// Changes a class's count, or a few bytes that are no count's: of theirs most
/// would be refused, and nothing else be tried.
pub fn damage(rng: &mut Random, shape: Shape, bytes: &mut [u8]) {
    if rng.once_in(4) {
        let class = rng.below(CLASSES);
        let count = any_count(rng, shape.half(class));
        return set_count(bytes, class, count);
    }
    for _ in 0..rng.between(1, 4) {
        let at = match rng.below(COUNTS + bytes.len() - PATTERN) {
            at @ 0..COUNTS => at,
            at => at - COUNTS + PATTERN,
        };
        bytes[at] = rng.byte();
    }
}

/// A heap length that is seldom allowed.
pub fn heap_length(rng: &mut Random) -> usize {
    let right = Shape::random(rng).heap_len().min(12 << 14);
    match rng.below(8) {
        0 => rng.pick(&[0, 1, 11, 12, 24, 12 * 512, 12 * 1_023, 12 * 1_025]),
        1 => right + rng.pick(&[1, 4, 11, 12, 1_024]),
        2 => right - rng.pick(&[1, 4, 11, 12, 1_024]),
        3 => right / 12 * rng.pick(&[1, 2, 4, 8, 11, 13, 16]),
        4 => 12 * 1_024 * rng.pick(&[3, 5, 6, 7]),
        5 => rng.below(12 * 4_096),
        _ => right,
    }
}

/// A metadata length for that heap, often wrong.
pub fn metadata_length(rng: &mut Random, heap_len: usize) -> usize {
    let shape = Shape {
        region: heap_len / CLASSES,
    };
    let right = shape.metadata_len();
    match rng.below(8) {
        0 => 0,
        1 => right + 1,
        2 => right - 1,
        3 => Shape::random(rng).metadata_len(),
        4 => rng.below(250),
        5 => rng.pick(&[1, 7, 8, 9, PATTERN, BITMAPS - 1, BITMAPS, BITMAPS + 1]),
        _ => right,
    }
}

/// Any heap length, as a number.
pub fn any_length(rng: &mut Random) -> usize {
    match rng.below(4) {
        0 => rng.pick(&HUGE),
        1 => rng.long() as usize,
        2 => 12usize.wrapping_mul(1 << rng.below(64)),
        _ => heap_length(rng),
    }
}
