//! What inputs are made of: the shapes of heaps, requests, the fields of
//! metadata, and outputs to vote on.

use crate::random::Random;

pub const CLASSES: usize = 12;
/// Where the live counts start in the metadata, the pattern after them, and the
/// bitmaps after that.
pub const COUNTS: usize = 8;
pub const PATTERN: usize = COUNTS + 4 * CLASSES;
pub const BITMAPS: usize = PATTERN + 4;
/// The values of each half of the generator that draws never change, the first,
/// or change once, into the first. No opening takes them; other metadata have
/// them, and then every draw is the same.
pub const FROZEN_Z: [u32; 1] = [0x9068_FFFF];
pub const FROZEN_W: [u32; 3] = [0x464F_FFFF, 0x8C9F_FFFE, 0xD2EF_FFFD];
/// The draw of both.
pub const FROZEN_DRAW: usize = 0x464E_FFFF;
/// Whole outputs are voted on in blocks of this length.
pub const BLOCK: usize = 4_096;

/// What inputs need to know of a heap whose regions are `region` bytes long.
#[derive(Clone, Copy)]
pub struct Shape {
    pub region: usize,
}

impl Shape {
    /// One of the eleven shapes; a shape twice as large comes half as often.
    pub fn random(rng: &mut Random) -> Shape {
        let shift = 10 + rng.long().trailing_ones().min(10);
        Shape { region: 1 << shift }
    }

    pub fn all() -> impl Iterator<Item = Shape> {
        (10..=20).map(|shift| Shape { region: 1 << shift })
    }

    pub fn heap_len(self) -> usize {
        CLASSES * self.region
    }

    pub fn slots(self, class: usize) -> usize {
        self.region / slot_size(class)
    }

    /// How many slots the heap has: no inspection lists more.
    pub fn all_slots(self) -> usize {
        (0..CLASSES).map(|class| self.slots(class)).sum()
    }

    /// How many objects the class takes, and no count of it is above.
    pub fn half(self, class: usize) -> u32 {
        (self.slots(class) / 2) as u32
    }

    pub fn bitmap_start(self, class: usize) -> usize {
        let before = (0..class).map(|class| self.slots(class).div_ceil(8));
        BITMAPS + before.sum::<usize>()
    }

    pub fn metadata_len(self) -> usize {
        self.bitmap_start(CLASSES)
    }
}

pub fn slot_size(class: usize) -> usize {
    8 << class
}

/// A well-formed request.
pub fn request(operation: u8, argument: u32, count: u32) -> [u8; 16] {
    let mut bytes = [0; 16];
    bytes[0] = operation;
    bytes[4..8].copy_from_slice(&argument.to_le_bytes());
    bytes[8..12].copy_from_slice(&count.to_le_bytes());
    bytes
}

/// The four words of a request that is as long as one.
pub fn words(request: &[u8]) -> Option<[u32; 4]> {
    let request: &[u8; 16] = request.try_into().ok()?;
    let word = |at: usize| u32::from_le_bytes([0, 1, 2, 3].map(|byte| request[at + byte]));
    Some([word(0), word(4), word(8), word(12)])
}

pub fn set_seeds(metadata: &mut [u8], z: u32, w: u32) {
    metadata[0..4].copy_from_slice(&z.to_le_bytes());
    metadata[4..8].copy_from_slice(&w.to_le_bytes());
}

/// The pattern's bytes, in the order in which slots hold them.
pub fn pattern_of(metadata: &[u8]) -> [u8; 4] {
    [0, 1, 2, 3].map(|byte| metadata[PATTERN + byte])
}

pub fn set_pattern(metadata: &mut [u8], pattern: u32) {
    metadata[PATTERN..BITMAPS].copy_from_slice(&pattern.to_le_bytes());
}

pub fn count_of(metadata: &[u8], class: usize) -> u32 {
    let at = COUNTS + 4 * class;
    u32::from_le_bytes([0, 1, 2, 3].map(|byte| metadata[at + byte]))
}

pub fn set_count(metadata: &mut [u8], class: usize, count: u32) {
    let at = COUNTS + 4 * class;
    metadata[at..at + 4].copy_from_slice(&count.to_le_bytes());
}

/// The class's set bits; those beyond its slots do not count.
pub fn set_bits(shape: Shape, metadata: &[u8], class: usize) -> u32 {
    let bitmap = &metadata[shape.bitmap_start(class)..shape.bitmap_start(class + 1)];
    match (shape.slots(class), bitmap) {
        (slots @ 1..8, [byte]) => (byte & ((1 << slots) - 1)).count_ones(),
        _ => bitmap.iter().map(|byte| byte.count_ones()).sum(),
    }
}

/// The first class whose count is above half, so that every request is refused.
pub fn above_half(shape: Shape, metadata: &[u8]) -> Option<usize> {
    (0..CLASSES).find(|&class| count_of(metadata, class) > shape.half(class))
}

/// Counts that requests are served with: each class's set bits, or half of its
/// slots where more are set.
pub fn fit_counts(shape: Shape, metadata: &mut [u8]) {
    for class in 0..CLASSES {
        let count = set_bits(shape, metadata, class).min(shape.half(class));
        set_count(metadata, class, count);
    }
}

/// All bits set, those beyond the slots too, and each class half full by its
/// count.
pub fn all_live(shape: Shape) -> Vec<u8> {
    let mut bytes = vec![0xFF; shape.metadata_len()];
    fit_counts(shape, &mut bytes);
    bytes
}

/// A heap that holds the pattern everywhere, in its slots and outside them.
pub fn filled(shape: Shape, pattern: [u8; 4]) -> Vec<u8> {
    pattern.repeat(shape.heap_len() / pattern.len())
}

/// Changes every byte that no inspection looks at: those of live slots, and
/// those outside all slots.
pub fn change_unseen(shape: Shape, metadata: &[u8], heap: &mut [u8]) {
    for (class, region) in heap.chunks_exact_mut(shape.region).enumerate() {
        let bitmap = &metadata[shape.bitmap_start(class)..];
        for (index, bytes) in region.chunks_mut(slot_size(class)).enumerate() {
            let is_slot = index < shape.slots(class);
            if !is_slot || bitmap[index / 8] >> (index % 8) & 1 == 1 {
                bytes.iter_mut().for_each(|byte| *byte = !*byte);
            }
        }
    }
}

/// Outputs by what each replica has in each block, a letter each, which stands in
/// the block's last byte. Blocks are whole, but for the last one of each output.
pub fn outputs(replicas: &[&str], last: usize) -> Vec<u8> {
    let mut bytes = Vec::new();
    for letters in replicas {
        for (block, letter) in letters.bytes().enumerate() {
            let is_last = block + 1 == letters.len();
            let length = if is_last { last } else { BLOCK };
            bytes.extend((1..length).map(|at| ((at + block) % 251) as u8));
            bytes.push(letter);
        }
    }
    bytes
}
