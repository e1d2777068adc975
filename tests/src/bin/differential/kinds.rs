//! The kinds of calls that are told apart, and of which kinds a call is.

use crate::tester::Tester;
use crate::twin::{Lent, Twin};
use crate::whole;
use poheldu_tests::capi::Empty;
use poheldu_tests::inputs::{self, Shape, FROZEN_W, FROZEN_Z};
use poheldu_tests::reference::{self, Answer, Part, Verdict};

pub const REFUSALS: usize = 16;
pub const OPERATIONS: usize = 7;
pub const BUFFERS: usize = 10;
pub const KINDS: usize = 9;
pub const STRINGS: usize = 6;
pub const CORRUPT: usize = 8;
pub const INSPECTIONS: usize = 9;
pub const LISTED: usize = 7;
pub const SEEDS: usize = 8;
pub const LOOKUPS: usize = 6;
/// Of two winners the last replica is not the lowest.
pub const NAMED: usize = 15;
pub const WHOLES: usize = 9;
pub const INVALIDS: usize = 8;
/// Of longer lists the slots are not told apart.
const MOST_TOLD_APART: usize = 64;
/// The refusal of metadata that no opening and no request left so.
pub const CORRUPT_METADATA: u32 = 13;
/// The refusal of outputs that no whole vote takes.
pub const INVALID_OUTPUTS: u32 = 15;

/// The kinds of reads that are told apart, in the order they are counted in.
pub const READ_KINDS: [&str; KINDS] = [
    "of the heap",
    "clipped at the object's end",
    "of nothing over an object",
    "of the page",
    "clipped at the page's end",
    "refused with 2",
    "refused with 3",
    "refused with 13",
    "refused with 8",
];

/// The kinds of string copies that are told apart, in the order they are counted in.
pub const STRING_KINDS: [&str; STRINGS] = [
    "with room to spare",
    "that fill the space, with a zero",
    "that fill the space, without a zero",
    "longer by their zero",
    "longer by more",
    "where there is no space",
];

/// The kinds of refusals with 13 that are told apart, in the order they are
/// counted in. One for a count above half may be of several.
pub const CORRUPT_KINDS: [&str; CORRUPT] = [
    "for a count one above half",
    "for a count that fits once doubled in 32 bits",
    "for a count that fits once cut to 16 bits",
    "for another count",
    "for a count of a class of no or one slot",
    "of a malformed request",
    "by the walk",
    "at a free",
];

/// The kinds of inspections that are told apart, in the order they are counted in.
pub const INSPECTION_KINDS: [&str; INSPECTIONS] = [
    "that list nothing",
    "that list nothing, with an empty list",
    "with a longer list than wanted",
    "with a list just long enough",
    "refused with 2",
    "refused with 3",
    "refused with 13",
    "refused with 14, one number too few",
    "refused with 14, several too few",
];

/// The kinds of listed slots that are told apart, in the order they are counted
/// in. A slot may be of several.
pub const LISTED_KINDS: [&str; LISTED] = [
    "first of a class",
    "last of a class",
    "the only one of a class",
    "of a class with fewer bits than a byte has",
    "for their first byte alone",
    "for their last byte alone",
    "for the pattern out of step",
];

/// The kinds of openings of right lengths that are told apart by their seeds, in
/// the order they are counted in. One may be of several.
pub const SEED_KINDS: [&str; SEEDS] = [
    "with a z of zero",
    "with a w of zero",
    "with a frozen z",
    "with the first frozen w",
    "with the second frozen w",
    "with the third frozen w",
    "next to a frozen half, served",
    "with what is frozen in the other half, served",
];

/// The kinds of lookups of slots that are told apart, in the order they are
/// counted in. One is of two kinds where lengths are right.
pub const LOOKUP_KINDS: [&str; LOOKUPS] = [
    "where lengths are refused",
    "of a class that has the number",
    "of a class that has not",
    "at a slot's start",
    "further into a slot",
    "in no slot",
];

/// The kinds of whole votes on valid outputs that are told apart, in the order
/// they are counted in. One may be of several.
pub const WHOLE_KINDS: [&str; WHOLES] = [
    "without agreement in block 0",
    "without agreement in a later block",
    "without agreement of the two that were left",
    "that leave two",
    "with a short last block",
    "with a last block of one byte",
    "of several whole blocks",
    "of 1,048,576 bytes",
    "with a replica that was out and agrees again",
];

/// The kinds of refusals with 15 that are told apart, in the order they are
/// counted in: nothing else is wrong, but for the last one.
pub const INVALID_KINDS: [&str; INVALIDS] = [
    "for too few replicas",
    "for too many replicas",
    "for outputs of no byte",
    "for outputs too long",
    "for too few bytes lent",
    "for too many bytes lent",
    "for an output too short",
    "of numbers whose product wraps to the bytes lent",
];

/// Which of `READ_KINDS` a read of `count` bytes was.
pub fn read_kind(part: Part, count: u32) -> usize {
    let clipped = usize::from(part.value < count);
    match (part.number, part.of_page) {
        (0, 0) if count == 0 => 2,
        (0, 0) => clipped,
        (0, _) => 3 + clipped,
        (2, _) => 5,
        (3, _) => 6,
        (CORRUPT_METADATA, _) => 7,
        _ => 8,
    }
}

/// Which of `CORRUPT_KINDS` a request's refusal with 13 was.
fn corrupt_kinds(shape: Shape, metadata: &[u8], request: &[u8]) -> [bool; CORRUPT] {
    let Some(class) = inputs::above_half(shape, metadata) else {
        let free = request.first() == Some(&1);
        return [false, false, false, false, false, false, !free, free];
    };
    let (count, half) = (inputs::count_of(metadata, class), shape.half(class));
    let one_above = count == half + 1;
    let doubled = count.wrapping_mul(2) <= 2 * half;
    let cut = count & 0xFFFF <= half;
    let malformed = request.len() != 16 || request[0] > 6;
    [
        one_above,
        doubled,
        cut,
        !one_above && !doubled && !cut,
        shape.slots(class) < 2,
        malformed,
        false,
        false,
    ]
}

/// Which of `STRING_KINDS` a copy of a string was.
fn string_kind(source: &[u8], space: usize) -> usize {
    let zero = source.iter().position(|&byte| byte == 0);
    let length = zero.map_or(source.len(), |zero| zero + 1);
    match (space, zero) {
        (0, _) => 5,
        (_, _) if length < space => 0,
        (_, Some(_)) if length == space => 1,
        (_, None) if length == space => 2,
        (_, Some(_)) if length == space + 1 => 3,
        _ => 4,
    }
}

/// Which of `INSPECTION_KINDS` an inspection was, of a heap with so many slots
/// to be listed.
fn inspection_kind(answer: Answer, list_len: usize, hits: usize) -> usize {
    match answer.number {
        0 if hits == 0 => usize::from(list_len == 0),
        0 => 2 + usize::from(list_len == hits),
        2 => 4,
        3 => 5,
        CORRUPT_METADATA => 6,
        _ => 7 + usize::from(list_len + 1 < hits),
    }
}

/// How many slots a heap has to be listed: none where its lengths or counts are
/// refused.
pub fn hits(heap: &[u8], metadata: &[u8]) -> usize {
    let region = heap.len() / inputs::CLASSES;
    let mut list = vec![0; Shape { region }.all_slots()];
    reference::inspect(heap, metadata, &mut list).value as usize
}

/// Which of `LISTED_KINDS` a listed slot is.
fn listed_kinds(shape: Shape, heap: &[u8], pattern: [u8; 4], offset: usize) -> [bool; LISTED] {
    let class = offset / shape.region;
    let (slots, size) = (shape.slots(class), inputs::slot_size(class));
    let index = offset % shape.region / size;
    let bytes = &heap[offset..offset + size];
    let stray = |at: &usize| bytes[*at] != pattern[at % 4];
    let (first, last) = ((0..size).find(stray), (0..size).rev().find(stray));
    let holds = |step: usize| (0..size).all(|at| bytes[at] == pattern[(at + step) % 4]);
    [
        index == 0,
        index == slots - 1,
        slots == 1,
        slots < 8,
        last == Some(0),
        first == Some(size - 1),
        (1..4).any(holds),
    ]
}

fn count<const N: usize>(counts: &mut [u64; N], kinds: [bool; N]) {
    for (count, is_kind) in counts.iter_mut().zip(kinds) {
        *count += u64::from(is_kind);
    }
}

impl Tester {
    pub fn count_seeds(&mut self, number: u32, z: u32, w: u32) {
        let next_to = |frozen: &[u32], x: u32| frozen.iter().any(|value| value.abs_diff(x) == 1);
        let served = number == 0;
        let kinds = [
            z == 0,
            w == 0,
            z == FROZEN_Z[0],
            w == FROZEN_W[0],
            w == FROZEN_W[1],
            w == FROZEN_W[2],
            served && (next_to(&FROZEN_Z, z) || next_to(&FROZEN_W, w)),
            served && (FROZEN_W.contains(&z) || FROZEN_Z.contains(&w)),
        ];
        for (count, is_kind) in self.seeds.iter_mut().zip(kinds) {
            *count += u64::from(is_kind && number <= 1);
        }
    }

    /// Counts the buffers that are passed as NULL, of those with these lengths.
    pub fn count_nulls(&mut self, empty: Empty, lengths: &[(usize, usize)]) {
        for &(at, len) in lengths {
            if empty == Empty::Null && len == 0 {
                self.nulls[at] += 1;
            }
        }
    }

    pub fn count_served(&mut self, operation: u8, heap: &Twin, metadata: &Twin, value: u32) {
        self.served[usize::from(operation)] += 1;
        if operation == 0 {
            self.count_walk(heap.shown / 12, metadata.bytes(), value as usize);
        }
    }

    /// Counts reads, whose kind the second implementation tells, copies of
    /// strings, requests with one thing wrong, and sizes at an edge.
    pub fn count_request(&mut self, heap: &Twin, metadata: &Twin, lent: &Lent, answer: Answer) {
        match (inputs::words(lent.request.bytes()), answer.number) {
            (Some([6, offset, count, 0]), _) => {
                let (heap, page) = (heap.bytes(), lent.page.bytes());
                let part = reference::read(heap, metadata.bytes(), offset, count, page);
                self.read_requests[read_kind(part, count)] += 1;
            }
            (Some([4, offset, 0, 0]), 0) => {
                let (heap, most) = (heap.bytes(), u32::MAX);
                let space = reference::read(heap, metadata.bytes(), offset, most, &[]).value;
                self.strings[string_kind(lent.source.bytes(), space as usize)] += 1;
            }
            (Some([7, _, _, 0]), 4) => self.malformed[0] += 1,
            (Some([4, _, _, 0]), 4) => self.malformed[1] += 1,
            (Some([0, 0, 0, 0]), 0) => self.edge_sizes[0] += 1,
            (Some([0, 0, 0, 0]), 7) => self.edge_sizes[1] += 1,
            (Some([0, 16_385, 0, 0]), 5) => self.edge_sizes[2] += 1,
            _ => (),
        }
    }

    /// A refusal changes no byte, so that the metadata still show its reason.
    pub fn count_corrupt(&mut self, heap: &Twin, metadata: &Twin, lent: &Lent) {
        let region = heap.shown / inputs::CLASSES;
        let kinds = corrupt_kinds(Shape { region }, metadata.bytes(), lent.request.bytes());
        count(&mut self.corrupt, kinds);
    }

    /// An inspection changes no byte that it reads, so that these still show
    /// what it was.
    pub fn count_inspection(&mut self, heap: &[u8], metadata: &[u8], list: &[u32], answer: Answer) {
        let hits = hits(heap, metadata);
        self.inspections[inspection_kind(answer, list.len(), hits)] += 1;
        let value = answer.value as usize;
        if value > MOST_TOLD_APART {
            return;
        }
        let region = heap.len() / inputs::CLASSES;
        for &offset in &list[..value] {
            let pattern = inputs::pattern_of(metadata);
            let kinds = listed_kinds(Shape { region }, heap, pattern, offset as usize);
            count(&mut self.listed, kinds);
        }
    }

    /// A served whole vote leaves just those whose output it wrote.
    pub fn count_whole(
        &mut self,
        outputs: &[u8],
        replicas: usize,
        length: usize,
        output: &[u8],
        verdict: Verdict,
    ) {
        if verdict.number == INVALID_OUTPUTS {
            let kinds = whole::invalid_kinds(outputs.len(), replicas, length, output.len());
            count(&mut self.invalids, kinds);
        } else {
            whole::expect_written(outputs, length, output, verdict);
            count(
                &mut self.wholes,
                whole::kinds(outputs, length, output, verdict),
            );
        }
    }

    /// A drawn slot is that of the last draw, which z and w still show; any
    /// other slot was found by the walk.
    pub fn count_walk(&mut self, region: usize, metadata: &[u8], offset: usize) {
        let word = |at: usize| u32::from_le_bytes(metadata[at..at + 4].try_into().expect("four"));
        let drawn = (word(0) << 16).wrapping_add(word(4)) as usize;
        let slot_size = 8 << (offset / region);
        let tested = drawn % (region / slot_size);
        let taken = offset % region / slot_size;
        self.walks += u64::from(taken != tested);
        self.wraps += u64::from(taken < tested);
    }
}
