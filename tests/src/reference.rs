//! Second implementation of the allocator, written from the specification alone.
//!
//! The heap is twelve regions of equal length, one for each size class. The
//! metadata holds the generator's state (z, w), a live count for each class, the
//! pattern of the canaries and then a bitmap for each class. Opening and requests
//! keep each count equal to its bitmap's set bits; metadata that others made are
//! believed in their counts, unless one is above half of its class's slots or an
//! operation finds that it cannot be right.
//!
//! Opening fills every slot with the pattern, and a free its slot: an inspection
//! finds the clear slots that others have written to since.

use std::cmp::Reverse;
use std::collections::BTreeMap;
use std::ops::{Range, RangeInclusive};

const CLASSES: usize = 12;
/// Slots of class c are 2^(3 + c) bytes long.
const SMALLEST_SLOT_SHIFT: u32 = 3;
const LARGEST_SIZE: u32 = 16_384;
/// A region is 2^10 to 2^20 bytes long.
const REGION_SHIFTS: Range<u32> = 10..21;
const LAYOUTS: usize = 11;
/// z, w, the live counts and the pattern, four bytes each, stand before the
/// bitmaps.
const COUNTS_START: usize = 8;
const PATTERN_START: usize = COUNTS_START + 4 * CLASSES;
const FIELDS_LENGTH: usize = PATTERN_START + 4;
const REQUEST_LENGTH: usize = 16;
const MOST_DRAWS: usize = 32;
/// Seeds that draws never change, or change once: zero and four others.
const UNUSABLE_Z: [u32; 2] = [0, 0x9068_FFFF];
const UNUSABLE_W: [u32; 4] = [0, 0x464F_FFFF, 0x8C9F_FFFE, 0xD2EF_FFFD];
const REPLICAS: RangeInclusive<usize> = 3..=16;
const LONGEST_BLOCK: usize = 4_096;
/// The longest output of a whole vote.
const LONGEST_OUTPUT: usize = 1_048_576;

/// What `open`, `serve` and `inspect` answer: refusal number (0: served) and
/// value.
#[derive(Clone, Copy, Debug, PartialEq, Eq)]
#[repr(C)]
pub struct Answer {
    pub number: u32,
    pub value: u32,
}

/// What `read` answers: `value` bytes from `start` on, of the page where
/// `of_page` is 1, else of the heap.
#[derive(Clone, Copy, Debug, PartialEq, Eq)]
#[repr(C)]
pub struct Part {
    pub number: u32,
    pub value: u32,
    pub of_page: u32,
    pub start: u32,
}

impl Part {
    fn front_of_page(length: u32) -> Part {
        Part {
            number: 0,
            value: length,
            of_page: 1,
            start: 0,
        }
    }

    /// The empty part of the page.
    fn refused(refusal: Refusal) -> Part {
        Part {
            number: refusal as u32,
            ..Part::front_of_page(0)
        }
    }
}

/// What `vote` and `vote_whole` answer; `value` counts the winners, `replica` is
/// the lowest. A whole vote without agreement has the block's number as its value.
#[derive(Clone, Copy, Debug, PartialEq, Eq)]
#[repr(C)]
pub struct Verdict {
    pub number: u32,
    pub mask: u32,
    pub value: u32,
    pub replica: u32,
}

impl Verdict {
    fn won(mask: u32) -> Verdict {
        Verdict {
            number: 0,
            mask,
            value: mask.count_ones(),
            replica: mask.trailing_zeros(),
        }
    }

    fn refused(refusal: Refusal) -> Verdict {
        Verdict {
            number: refusal as u32,
            mask: 0,
            value: 0,
            replica: 0,
        }
    }
}

/// A slot in numbers: its class, its number there, and where its bytes lie.
/// Zeros where there is none.
#[derive(Clone, Copy, Debug, Default, PartialEq, Eq)]
#[repr(C)]
pub struct SlotNumbers {
    pub size_class: u32,
    pub number: u32,
    pub start: u32,
    pub len: u32,
}

/// The refusals, with their numbers.
#[derive(Clone, Copy, Debug, PartialEq, Eq)]
#[repr(u32)]
enum Refusal {
    UnusableSeed = 1,
    HeapLength = 2,
    MetadataLength = 3,
    MalformedRequest = 4,
    UnsupportedSize = 5,
    ClassTooSmall = 6,
    ClassAtCapacity = 7,
    OutOfRange = 8,
    NotASlotStart = 9,
    NotAllocated = 10,
    InvalidVote = 11,
    NoAgreement = 12,
    CorruptMetadata = 13,
    ListTooShort = 14,
    InvalidOutputs = 15,
}

impl From<Result<u32, Refusal>> for Answer {
    fn from(outcome: Result<u32, Refusal>) -> Self {
        match outcome {
            Ok(value) => Answer { number: 0, value },
            Err(refusal) => Answer {
                number: refusal as u32,
                value: 0,
            },
        }
    }
}

/// Writes a fresh state into the metadata, and the pattern into every slot.
pub fn open(heap: &mut [u8], metadata: &mut [u8], z: u32, w: u32, pattern: u32) -> Answer {
    try_open(heap, metadata, z, w, pattern).into()
}

/// Serves one request. Copies take from the source; a read where nothing is
/// live shows the page; a free writes the pattern into its slot.
pub fn serve(
    heap: &mut [u8],
    metadata: &mut [u8],
    request: &[u8],
    source: &[u8],
    page: &[u8],
) -> Answer {
    try_serve(heap, metadata, request, source, page).into()
}

/// Says where the bytes of a read lie. Nothing is copied.
pub fn read(heap: &[u8], metadata: &[u8], offset: u32, count: u32, page: &[u8]) -> Part {
    Layout::of_buffers(heap.len(), metadata)
        .and_then(|layout| show(layout, metadata, offset, count, page))
        .unwrap_or_else(Part::refused)
}

/// Lists where the clear slots start that do not hold the pattern throughout.
pub fn inspect(heap: &[u8], metadata: &[u8], list: &mut [u32]) -> Answer {
    try_inspect(heap, metadata, list).into()
}

/// Finds the content that most replicas share and copies it to the output.
pub fn vote(blocks: &[u8], replicas: usize, block_len: usize, output: &mut [u8]) -> Verdict {
    match try_vote(blocks, replicas, block_len, output) {
        Ok(mask) => Verdict::won(mask),
        Err(refusal) => Verdict::refused(refusal),
    }
}

/// Has replicas vote on whole outputs, block by block, and copies what wins to
/// the output. Who is not among a block's winners has no vote in later ones.
pub fn vote_whole(outputs: &[u8], replicas: usize, length: usize, output: &mut [u8]) -> Verdict {
    let fits = REPLICAS.contains(&replicas)
        && (1..=LONGEST_OUTPUT).contains(&length)
        && outputs.len() == replicas * length
        && output.len() >= length;
    if !fits {
        return Verdict::refused(Refusal::InvalidOutputs);
    }
    let mut left = (1 << replicas) - 1;
    for (number, written) in output[..length].chunks_mut(LONGEST_BLOCK).enumerate() {
        let start = number * LONGEST_BLOCK;
        let blocks = outputs
            .chunks_exact(length)
            .map(|whole| &whole[start..start + written.len()]);
        let Some((content, mask)) = most_shared(blocks, left) else {
            return Verdict {
                value: number as u32,
                ..Verdict::refused(Refusal::NoAgreement)
            };
        };
        written.copy_from_slice(content);
        left = mask;
    }
    Verdict::won(left)
}

/// Metadata length for a heap of this length; 0 where that is not allowed.
pub fn metadata_length(heap_len: usize) -> usize {
    Layout::of_heap(heap_len).map_or(0, Layout::metadata_length)
}

/// The slot of a class with a number. Lengths are judged as a request's are;
/// this and the next three answer zeros where they are refused.
pub fn nth_slot(heap_len: usize, metadata: &[u8], class: u32, number: u32) -> SlotNumbers {
    let (class, index) = (class as usize, number as usize);
    match Layout::of_lengths(heap_len, metadata.len()) {
        Ok(layout) if class < CLASSES && index < layout.slots(class) => {
            layout.numbers(Slot { class, index })
        }
        _ => SlotNumbers::default(),
    }
}

/// The slot that an offset lies in.
pub fn find_slot(heap_len: usize, metadata: &[u8], offset: u32) -> SlotNumbers {
    let layout = Layout::of_lengths(heap_len, metadata.len());
    match layout.map(|layout| (layout, layout.slot_at(offset))) {
        Ok((layout, Ok(Some(slot)))) => layout.numbers(slot),
        _ => SlotNumbers::default(),
    }
}

/// How many slots the heap has in all classes.
pub fn count_slots(heap_len: usize, metadata: &[u8]) -> usize {
    let layout = Layout::of_lengths(heap_len, metadata.len());
    layout.map_or(0, |layout| {
        (0..CLASSES).map(|class| layout.slots(class)).sum()
    })
}

/// The pattern that clear slots hold.
pub fn stored_pattern(heap_len: usize, metadata: &[u8]) -> u32 {
    let layout = Layout::of_lengths(heap_len, metadata.len());
    layout.map_or(0, |_| word(metadata, PATTERN_START))
}

fn try_open(
    heap: &mut [u8],
    metadata: &mut [u8],
    z: u32,
    w: u32,
    pattern: u32,
) -> Result<u32, Refusal> {
    let layout = Layout::of_lengths(heap.len(), metadata.len())?;
    if UNUSABLE_Z.contains(&z) || UNUSABLE_W.contains(&w) {
        return Err(Refusal::UnusableSeed);
    }
    metadata.fill(0);
    Generator { z, w }.store(metadata);
    set_word(metadata, PATTERN_START, pattern);
    for class in 0..CLASSES {
        fill(&mut heap[layout.all_slots(class)], pattern_of(metadata));
    }
    Ok(0)
}

fn try_serve(
    heap: &mut [u8],
    metadata: &mut [u8],
    request: &[u8],
    source: &[u8],
    page: &[u8],
) -> Result<u32, Refusal> {
    let layout = Layout::of_buffers(heap.len(), metadata)?;
    match Request::read(request)? {
        Request::Allocate { size } => allocate(layout, metadata, size),
        Request::Free { offset } => free(layout, heap, metadata, offset),
        Request::Remaining { offset } => remaining(layout, metadata, offset),
        Request::CopyBytes { offset } => {
            let target = lend(layout, heap, metadata, offset)?;
            Ok(copy_bytes(target, source))
        }
        Request::CopyString { offset } => {
            let target = lend(layout, heap, metadata, offset)?;
            Ok(copy_string(target, source))
        }
        Request::CopyPadded { offset, count } => {
            let target = lend(layout, heap, metadata, offset)?;
            Ok(copy_padded(target, source, count))
        }
        Request::Read { offset, count } => {
            let part = show(layout, metadata, offset, count, page)?;
            Ok(part.value)
        }
    }
}

// --- Requests ---

#[derive(Clone, Copy, Debug, PartialEq, Eq)]
enum Request {
    Allocate { size: u32 },
    Free { offset: u32 },
    Remaining { offset: u32 },
    CopyBytes { offset: u32 },
    CopyString { offset: u32 },
    CopyPadded { offset: u32, count: u32 },
    Read { offset: u32, count: u32 },
}

impl Request {
    fn read(bytes: &[u8]) -> Result<Request, Refusal> {
        let bytes: &[u8; REQUEST_LENGTH] =
            bytes.try_into().map_err(|_| Refusal::MalformedRequest)?;
        let [operation, s1, s2, s3, a0, a1, a2, a3, c0, c1, c2, c3, t0, t1, t2, t3] = *bytes;
        let offset = u32::from_le_bytes([a0, a1, a2, a3]);
        let count = u32::from_le_bytes([c0, c1, c2, c3]);
        if [s1, s2, s3] != [0; 3] || [t0, t1, t2, t3] != [0; 4] {
            return Err(Refusal::MalformedRequest);
        }
        match (operation, count) {
            (0, 0) => Ok(Request::Allocate { size: offset }),
            (1, 0) => Ok(Request::Free { offset }),
            (2, 0) => Ok(Request::Remaining { offset }),
            (3, 0) => Ok(Request::CopyBytes { offset }),
            (4, 0) => Ok(Request::CopyString { offset }),
            (5, _) => Ok(Request::CopyPadded { offset, count }),
            (6, _) => Ok(Request::Read { offset, count }),
            _ => Err(Refusal::MalformedRequest),
        }
    }
}

// --- Layout ---

/// Where each class's bitmap starts, for each region length; the entry past
/// the last class is the metadata's length.
static BITMAP_STARTS: [[usize; CLASSES + 1]; LAYOUTS] = bitmap_starts();

const fn bitmap_starts() -> [[usize; CLASSES + 1]; LAYOUTS] {
    let mut table = [[FIELDS_LENGTH; CLASSES + 1]; LAYOUTS];
    let mut row = 0;
    while row < LAYOUTS {
        let layout = Layout::of_row(row);
        let mut class = 0;
        while class < CLASSES {
            let length = layout.slots(class).div_ceil(8);
            table[row][class + 1] = table[row][class] + length;
            class += 1;
        }
        row += 1;
    }
    table
}

/// How many objects each class takes, for each region length.
static CAPACITIES: [[u32; CLASSES]; LAYOUTS] = capacities();

const fn capacities() -> [[u32; CLASSES]; LAYOUTS] {
    let mut table = [[0; CLASSES]; LAYOUTS];
    let mut row = 0;
    while row < LAYOUTS {
        let mut class = 0;
        while class < CLASSES {
            table[row][class] = Layout::of_row(row).capacity(class);
            class += 1;
        }
        row += 1;
    }
    table
}

/// The division of a heap whose regions are 2^`shift` bytes long.
#[derive(Clone, Copy)]
struct Layout {
    shift: u32,
}

/// A slot, by its class and its number there.
#[derive(Clone, Copy)]
struct Slot {
    class: usize,
    index: usize,
}

impl Layout {
    /// The layout of a row in the tables.
    const fn of_row(row: usize) -> Layout {
        Layout {
            shift: REGION_SHIFTS.start + row as u32,
        }
    }

    fn of_heap(heap_len: usize) -> Result<Layout, Refusal> {
        let region = heap_len / CLASSES;
        let shift = region.trailing_zeros();
        let whole = heap_len.is_multiple_of(CLASSES) && region.is_power_of_two();
        if whole && REGION_SHIFTS.contains(&shift) {
            Ok(Layout { shift })
        } else {
            Err(Refusal::HeapLength)
        }
    }

    fn of_lengths(heap_len: usize, metadata_len: usize) -> Result<Layout, Refusal> {
        let layout = Layout::of_heap(heap_len)?;
        if metadata_len == layout.metadata_length() {
            Ok(layout)
        } else {
            Err(Refusal::MetadataLength)
        }
    }

    /// The layout of a heap that requests are for. Whatever a request's class
    /// is, no count may be above its class's capacity.
    #[inline]
    fn of_buffers(heap_len: usize, metadata: &[u8]) -> Result<Layout, Refusal> {
        let layout = Layout::of_lengths(heap_len, metadata.len())?;
        if any_above(metadata, &CAPACITIES[layout.row()]) {
            return Err(Refusal::CorruptMetadata);
        }
        Ok(layout)
    }

    fn row(self) -> usize {
        (self.shift - REGION_SHIFTS.start) as usize
    }

    fn starts(self) -> &'static [usize; CLASSES + 1] {
        &BITMAP_STARTS[self.row()]
    }

    fn metadata_length(self) -> usize {
        self.starts()[CLASSES]
    }

    fn heap_length(self) -> usize {
        CLASSES << self.shift
    }

    const fn slots(self, class: usize) -> usize {
        (1 << self.shift) >> slot_shift(class)
    }

    /// Half of the slots, rounded down.
    const fn capacity(self, class: usize) -> u32 {
        (self.slots(class) / 2) as u32
    }

    fn bitmap(self, class: usize) -> Range<usize> {
        self.starts()[class]..self.starts()[class + 1]
    }

    /// Where the heap has the class's slots, one after another.
    fn all_slots(self, class: usize) -> Range<usize> {
        let start = class << self.shift;
        start..start + (self.slots(class) << slot_shift(class))
    }

    fn slot_start(self, slot: Slot) -> u32 {
        ((slot.class << self.shift) + (slot.index << slot_shift(slot.class))) as u32
    }

    fn numbers(self, slot: Slot) -> SlotNumbers {
        SlotNumbers {
            size_class: slot.class as u32,
            number: slot.index as u32,
            start: self.slot_start(slot),
            len: 1 << slot_shift(slot.class),
        }
    }

    /// The slot that an offset lies in; none where its region has no slots.
    fn slot_at(self, offset: u32) -> Result<Option<Slot>, Refusal> {
        let offset = offset as usize;
        if offset >= self.heap_length() {
            return Err(Refusal::OutOfRange);
        }
        let class = offset >> self.shift;
        let within = offset & ((1 << self.shift) - 1);
        let index = within >> slot_shift(class);
        Ok((index < self.slots(class)).then_some(Slot { class, index }))
    }
}

const fn slot_shift(class: usize) -> u32 {
    SMALLEST_SLOT_SHIFT + class as u32
}

/// The smallest class whose slots hold `size` bytes (0 to 16,384).
fn class_of(size: u32) -> usize {
    let shift = size.next_power_of_two().trailing_zeros();
    shift.saturating_sub(SMALLEST_SLOT_SHIFT) as usize
}

// --- The fields ---

fn word(metadata: &[u8], at: usize) -> u32 {
    let bytes = &metadata[at..at + 4];
    u32::from_le_bytes(bytes.try_into().expect("four bytes"))
}

fn set_word(metadata: &mut [u8], at: usize, word: u32) {
    metadata[at..at + 4].copy_from_slice(&word.to_le_bytes());
}

fn live_count(metadata: &[u8], class: usize) -> u32 {
    word(metadata, COUNTS_START + 4 * class)
}

fn set_live_count(metadata: &mut [u8], class: usize, count: u32) {
    set_word(metadata, COUNTS_START + 4 * class, count);
}

/// The pattern's bytes, in the order in which slots hold them.
fn pattern_of(metadata: &[u8]) -> [u8; 4] {
    word(metadata, PATTERN_START).to_le_bytes()
}

/// Whether a class's live count is above its capacity.
fn any_above(metadata: &[u8], capacities: &[u32; CLASSES]) -> bool {
    let (counts, _) = metadata[COUNTS_START..PATTERN_START].as_chunks();
    let mut pairs = counts.iter().zip(capacities);
    pairs.any(|(&count, &capacity)| u32::from_le_bytes(count) > capacity)
}

// --- The generator ---

/// G. Marsaglia's pair of multiply-with-carry generators.
#[derive(Clone, Copy)]
struct Generator {
    z: u32,
    w: u32,
}

impl Generator {
    fn load(metadata: &[u8]) -> Generator {
        Generator {
            z: word(metadata, 0),
            w: word(metadata, 4),
        }
    }

    fn store(self, metadata: &mut [u8]) {
        set_word(metadata, 0, self.z);
        set_word(metadata, 4, self.w);
    }

    /// Neither product overflows: the larger is 36,969 × 65,535 + 65,535.
    fn draw(&mut self) -> u32 {
        self.z = 36_969 * (self.z & 0xFFFF) + (self.z >> 16);
        self.w = 18_000 * (self.w & 0xFFFF) + (self.w >> 16);
        (self.z << 16).wrapping_add(self.w)
    }
}

// --- Bitmaps ---

fn is_live(bitmap: &[u8], index: usize) -> bool {
    bitmap[index / 8] & (1 << (index % 8)) != 0
}

/// Draws a clear slot, or walks to the next one after 32 draws of live slots.
/// There is none where all slots are live: in metadata that no opening made.
fn choose_slot(generator: &mut Generator, bitmap: &[u8], slots: usize) -> Option<usize> {
    let mut tested = 0;
    for _ in 0..MOST_DRAWS {
        // The number of slots is a power of two.
        tested = generator.draw() as usize & (slots - 1);
        if !is_live(bitmap, tested) {
            return Some(tested);
        }
    }
    (tested + 1..slots)
        .chain(0..tested)
        .find(|&index| !is_live(bitmap, index))
}

// --- Canaries ---

/// Fills slots that lie side by side. The pattern begins anew at each of them,
/// since it divides the length of every slot.
fn fill(slots: &mut [u8], pattern: [u8; 4]) {
    let (fours, _) = slots.as_chunks_mut();
    fours.fill(pattern);
}

/// Whether a slot holds the pattern throughout. Mostly it does: a loop without
/// an exit takes less time then.
fn is_filled(slot: &[u8], pattern: [u8; 4]) -> bool {
    let (fours, _) = slot.as_chunks();
    let pattern = u32::from_le_bytes(pattern);
    let strays = |bits, &four: &[u8; 4]| bits | (u32::from_le_bytes(four) ^ pattern);
    fours.iter().fold(0, strays) == 0
}

fn try_inspect(heap: &[u8], metadata: &[u8], list: &mut [u32]) -> Result<u32, Refusal> {
    let layout = Layout::of_buffers(heap.len(), metadata)?;
    let hit = hit_slots(layout, heap, metadata);
    let front = list.get_mut(..hit.len()).ok_or(Refusal::ListTooShort)?;
    front.copy_from_slice(&hit);
    Ok(hit.len() as u32)
}

/// The offsets of all clear slots that somebody has written to, rising.
fn hit_slots(layout: Layout, heap: &[u8], metadata: &[u8]) -> Vec<u32> {
    let pattern = pattern_of(metadata);
    let mut hit = Vec::new();
    for class in 0..CLASSES {
        let bitmap = &metadata[layout.bitmap(class)];
        let slots = heap[layout.all_slots(class)].chunks_exact(1 << slot_shift(class));
        for (index, slot) in slots.enumerate() {
            if !is_live(bitmap, index) && !is_filled(slot, pattern) {
                hit.push(layout.slot_start(Slot { class, index }));
            }
        }
    }
    hit
}

// --- The operations ---

fn allocate(layout: Layout, metadata: &mut [u8], size: u32) -> Result<u32, Refusal> {
    if size > LARGEST_SIZE {
        return Err(Refusal::UnsupportedSize);
    }
    let class = class_of(size);
    let slots = layout.slots(class);
    if slots < 2 {
        return Err(Refusal::ClassTooSmall);
    }
    let live = live_count(metadata, class);
    if live >= layout.capacity(class) {
        return Err(Refusal::ClassAtCapacity);
    }
    let mut generator = Generator::load(metadata);
    let bitmap = &mut metadata[layout.bitmap(class)];
    let index = choose_slot(&mut generator, bitmap, slots).ok_or(Refusal::CorruptMetadata)?;
    bitmap[index / 8] |= 1 << (index % 8);
    generator.store(metadata);
    set_live_count(metadata, class, live + 1);
    Ok(layout.slot_start(Slot { class, index }))
}

fn free(layout: Layout, heap: &mut [u8], metadata: &mut [u8], offset: u32) -> Result<u32, Refusal> {
    let slot = layout.slot_at(offset)?.ok_or(Refusal::NotASlotStart)?;
    if layout.slot_start(slot) != offset {
        return Err(Refusal::NotASlotStart);
    }
    let live = live_count(metadata, slot.class);
    let bitmap = &mut metadata[layout.bitmap(slot.class)];
    if !is_live(bitmap, slot.index) {
        return Err(Refusal::NotAllocated);
    }
    let left = live.checked_sub(1).ok_or(Refusal::CorruptMetadata)?;
    bitmap[slot.index / 8] &= !(1 << (slot.index % 8));
    set_live_count(metadata, slot.class, left);
    let size = 1 << slot_shift(slot.class);
    let start = offset as usize;
    fill(&mut heap[start..start + size], pattern_of(metadata));
    Ok(size as u32)
}

/// Bytes from the offset to the end of the live object there; 0 if there is none.
fn remaining(layout: Layout, metadata: &[u8], offset: u32) -> Result<u32, Refusal> {
    let Some(slot) = layout.slot_at(offset)? else {
        return Ok(0);
    };
    if !is_live(&metadata[layout.bitmap(slot.class)], slot.index) {
        return Ok(0);
    }
    Ok(layout.slot_start(slot) + (1 << slot_shift(slot.class)) - offset)
}

/// The part that a read shows: of the live object at the offset, clipped at
/// its end, or the front of the page where nothing is live.
fn show(
    layout: Layout,
    metadata: &[u8],
    offset: u32,
    count: u32,
    page: &[u8],
) -> Result<Part, Refusal> {
    Ok(match remaining(layout, metadata, offset)? {
        0 => Part::front_of_page(page.len().min(count as usize) as u32),
        space => Part {
            number: 0,
            value: space.min(count),
            of_page: 0,
            start: offset,
        },
    })
}

/// The part of the heap that a copy may write.
fn lend<'heap>(
    layout: Layout,
    heap: &'heap mut [u8],
    metadata: &[u8],
    offset: u32,
) -> Result<&'heap mut [u8], Refusal> {
    let space = remaining(layout, metadata, offset)? as usize;
    let start = offset as usize;
    Ok(&mut heap[start..start + space])
}

/// Copies the source, clipped to the target.
fn copy_bytes(target: &mut [u8], source: &[u8]) -> u32 {
    let length = source.len().min(target.len());
    target[..length].copy_from_slice(&source[..length]);
    length as u32
}

/// Copies through the first zero byte, or the whole source if it has none. Of
/// a text longer than the target the last byte there becomes zero.
fn copy_string(target: &mut [u8], source: &[u8]) -> u32 {
    let length = find_zero(source).map_or(source.len(), |zero| zero + 1);
    let written = copy_bytes(target, &source[..length]);
    if length > target.len() {
        if let Some(last) = target.last_mut() {
            *last = 0;
        }
    }
    written
}

/// Copies what stands before the first zero byte, then zeros up to `count`.
fn copy_padded(target: &mut [u8], source: &[u8], count: u32) -> u32 {
    let length = target.len().min(count as usize);
    let target = &mut target[..length];
    let clipped = &source[..source.len().min(length)];
    let text = find_zero(clipped).unwrap_or(clipped.len());
    target[..text].copy_from_slice(&clipped[..text]);
    target[text..].fill(0);
    length as u32
}

fn find_zero(bytes: &[u8]) -> Option<usize> {
    bytes.iter().position(|&byte| byte == 0)
}

// --- The vote ---

/// Returns the mask of the winning replicas.
fn try_vote(
    blocks: &[u8],
    replicas: usize,
    block_len: usize,
    output: &mut [u8],
) -> Result<u32, Refusal> {
    let fits = REPLICAS.contains(&replicas)
        && (1..=LONGEST_BLOCK).contains(&block_len)
        && blocks.len() == replicas * block_len
        && output.len() >= block_len;
    if !fits {
        return Err(Refusal::InvalidVote);
    }
    let mask = winners(blocks, block_len);
    if mask.count_ones() < 2 {
        return Err(Refusal::NoAgreement);
    }
    let start = mask.trailing_zeros() as usize * block_len;
    output[..block_len].copy_from_slice(&blocks[start..start + block_len]);
    Ok(mask)
}

/// The mask of the most shared content; the lowest replica decides a tie.
fn winners(blocks: &[u8], block_len: usize) -> u32 {
    let mut best = 0u32;
    let mut seen = 0u32;
    for (replica, block) in blocks.chunks_exact(block_len).enumerate() {
        if seen & (1 << replica) != 0 {
            continue;
        }
        let mask = sharers(blocks, block_len, replica, block);
        seen |= mask;
        if mask.count_ones() > best.count_ones() {
            best = mask;
        }
    }
    best
}

/// The mask of the replicas from `first` on that hold this block.
fn sharers(blocks: &[u8], block_len: usize, first: usize, block: &[u8]) -> u32 {
    blocks
        .chunks_exact(block_len)
        .enumerate()
        .skip(first)
        .filter(|(_, other)| *other == block)
        .fold(0, |mask, (replica, _)| mask | 1 << replica)
}

/// The content that most of the replicas in the mask share, and theirs; none
/// where no two do. The lowest replica decides a tie.
fn most_shared<'a>(blocks: impl Iterator<Item = &'a [u8]>, left: u32) -> Option<(&'a [u8], u32)> {
    let mut by_content: BTreeMap<&[u8], u32> = BTreeMap::new();
    for (replica, block) in blocks.enumerate() {
        if left >> replica & 1 == 1 {
            *by_content.entry(block).or_default() |= 1 << replica;
        }
    }
    let shared = by_content
        .into_iter()
        .filter(|(_, mask)| mask.count_ones() > 1);
    shared.max_by_key(|(_, mask)| (mask.count_ones(), Reverse(mask.trailing_zeros())))
}

#[cfg(test)]
mod tests {
    use super::*;
    use crate::inputs::{outputs, set_seeds, BLOCK, FROZEN_W, FROZEN_Z};

    const HEAP: usize = 12 * 4_096;
    const METADATA: usize = 190;
    const BITMAPS: usize = 60;
    /// Benches open with this one, so that the bytes around what a call writes
    /// are known.
    const PATTERN: u32 = 0xEEEE_EEEE;
    /// A pattern whose bytes, as slots hold them, are all different.
    const FOUR: [u8; 4] = [0x11, 0x22, 0x33, 0x44];

    #[derive(Clone)]
    struct Opened {
        heap: Vec<u8>,
        metadata: Vec<u8>,
    }

    impl Opened {
        fn open(z: u32, w: u32) -> Opened {
            let (heap, metadata) = (vec![0xEE; HEAP], vec![0xEE; METADATA]);
            let mut opened = Opened { heap, metadata };
            assert_eq!(opened.reopen(z, w, PATTERN), served(0));
            opened
        }

        /// One whose w draws leave as it is, which no opening makes.
        fn frozen() -> Opened {
            let mut opened = Opened::open(1, 1);
            set_seeds(&mut opened.metadata, 1, FROZEN_W[0]);
            opened
        }

        fn reopen(&mut self, z: u32, w: u32, pattern: u32) -> Answer {
            open(&mut self.heap, &mut self.metadata, z, w, pattern)
        }

        /// What an inspection lists; it has room for all slots.
        fn inspect(&self) -> Vec<u32> {
            let mut list = vec![0; 1_023];
            let answer = inspect(&self.heap, &self.metadata, &mut list);
            assert_eq!(answer.number, 0);
            list.truncate(answer.value as usize);
            list
        }

        /// One with the object of the first allocation, at 640.
        fn with_object() -> Opened {
            let mut opened = Opened::open(1, 1);
            assert_eq!(opened.run(0, 5, 0, &[]), served(640));
            opened
        }

        fn run(&mut self, operation: u8, argument: u32, count: u32, source: &[u8]) -> Answer {
            let request = request(operation, argument, count);
            self.serve(&request, source, &[])
        }

        fn serve(&mut self, request: &[u8], source: &[u8], page: &[u8]) -> Answer {
            serve(&mut self.heap, &mut self.metadata, request, source, page)
        }

        /// A class's live count, changed behind the functions' back.
        fn set_count(&mut self, class: usize, count: u32) {
            self.metadata[8 + 4 * class..12 + 4 * class].copy_from_slice(&count.to_le_bytes());
        }

        /// The live counts, which are the bitmaps' set bits too.
        fn counts(&self) -> [u32; 12] {
            let mut at = BITMAPS;
            std::array::from_fn(|class| {
                let length = (512usize >> class).div_ceil(8);
                let bitmap = &self.metadata[at..at + length];
                at += length;
                let set = bitmap.iter().map(|byte| byte.count_ones()).sum();
                assert_eq!(live_count(&self.metadata, class), set);
                set
            })
        }

        /// Whether this request is refused so, and changes no byte.
        fn refuses(&mut self, operation: u8, argument: u32, number: u32) -> bool {
            let (heap, metadata) = (self.heap.clone(), self.metadata.clone());
            let answer = self.run(operation, argument, 0, b"text");
            answer == refused(number) && self.heap == heap && self.metadata == metadata
        }

        /// A read, by its own call and as a request: both say the same, and
        /// neither writes.
        fn read(&mut self, offset: u32, count: u32, page: &[u8]) -> Part {
            let part = read(&self.heap, &self.metadata, offset, count, page);
            let (heap, metadata) = (self.heap.clone(), self.metadata.clone());
            let answer = self.serve(&request(6, offset, count), b"text", page);
            assert_eq!((answer.number, answer.value), (part.number, part.value));
            assert_eq!((&self.heap, &self.metadata), (&heap, &metadata));
            part
        }
    }

    fn request(operation: u8, argument: u32, count: u32) -> [u8; 16] {
        let mut request = [0; 16];
        request[0] = operation;
        request[4..8].copy_from_slice(&argument.to_le_bytes());
        request[8..12].copy_from_slice(&count.to_le_bytes());
        request
    }

    fn of_heap(start: u32, value: u32) -> Part {
        Part {
            number: 0,
            value,
            of_page: 0,
            start,
        }
    }

    fn of_page(number: u32, value: u32) -> Part {
        Part {
            number,
            value,
            of_page: 1,
            start: 0,
        }
    }

    fn served(value: u32) -> Answer {
        Answer { number: 0, value }
    }

    fn refused(number: u32) -> Answer {
        Answer { number, value: 0 }
    }

    #[test]
    fn draws_from_one_and_one() {
        let mut generator = Generator { z: 1, w: 1 };
        assert_eq!(generator.draw(), 2_422_818_384);
        assert_eq!(generator.draw(), 1_583_405_312);
        assert_eq!(generator.draw(), 3_876_119_375);
    }

    #[test]
    fn draw_that_wraps() {
        let mut generator = Generator { z: 5, w: 65_535 };
        assert_eq!(generator.draw(), 408_730_032);
    }

    #[test]
    fn metadata_after_the_first_allocation() {
        let opened = Opened::with_object();
        let mut expected = vec![0; METADATA];
        for (at, byte) in [(0, 0x69), (1, 0x90), (4, 0x50), (5, 0x46), (8, 1), (70, 1)] {
            expected[at] = byte;
        }
        expected[56..60].fill(0xEE);
        assert_eq!(opened.metadata, expected);
    }

    #[test]
    fn classes_of_eight_and_nine() {
        assert_eq!((class_of(8), class_of(9)), (0, 1));
        assert_eq!((class_of(0), class_of(1)), (0, 0));
        assert_eq!(class_of(16_384), 11);
    }

    #[test]
    fn second_allocation_of_2048_is_at_capacity() {
        let mut opened = Opened::open(1, 1);
        assert_eq!(opened.run(0, 2_048, 0, &[]).number, 0);
        assert_eq!(opened.run(0, 2_048, 0, &[]), refused(7));
    }

    #[test]
    fn copy_of_bytes_is_clipped() {
        let mut opened = Opened::with_object();
        assert_eq!(opened.run(3, 643, 0, b"ABCDEFGH"), served(5));
        assert_eq!(opened.heap[642..649], *b"\xEEABCDE\xEE");
    }

    #[test]
    fn copy_of_a_string_ends_with_its_zero() {
        let mut opened = Opened::with_object();
        assert_eq!(opened.run(4, 640, 0, &[0x41, 0x42, 0, 0x43]), served(3));
        assert_eq!(opened.heap[639..644], [0xEE, 0x41, 0x42, 0, 0xEE]);
    }

    #[test]
    fn clipped_string_is_closed() {
        for (offset, source, value, bytes) in [
            (640, &b"Valentina"[..], 8, b"Valenti\0\xEE"),
            (640, b"Bertrand\0", 8, b"Bertran\0\xEE"),
            (640, b"Bertrand", 8, b"Bertrand\xEE"),
            (640, b"Bertran\0", 8, b"Bertran\0\xEE"),
            (640, b"Anna\0Bertrand", 5, b"Anna\0\xEE\xEE\xEE\xEE"),
            (643, b"Norbert", 5, b"\xEE\xEE\xEENorb\0\xEE"),
            (643, b"Clara", 5, b"\xEE\xEE\xEEClara\xEE"),
            (647, b"Jo", 1, b"\xEE\xEE\xEE\xEE\xEE\xEE\xEE\0\xEE"),
            (648, b"Jo", 0, &[0xEE; 9]),
        ] {
            let mut opened = Opened::with_object();
            assert_eq!(opened.run(4, offset, 0, source), served(value));
            assert_eq!(opened.heap[640..649], *bytes);
        }
    }

    #[test]
    fn other_copies_are_not_closed() {
        for (operation, count) in [(3, 0), (5, 9)] {
            let mut opened = Opened::with_object();
            assert_eq!(opened.run(operation, 640, count, b"Valentina"), served(8));
            assert_eq!(opened.heap[639..649], *b"\xEEValentin\xEE");
        }
    }

    #[test]
    fn padded_copy_writes_zeros() {
        let mut opened = Opened::with_object();
        assert_eq!(opened.run(5, 640, 4, &[0x41, 0, 0x43]), served(4));
        assert_eq!(opened.heap[639..645], [0xEE, 0x41, 0, 0, 0, 0xEE]);
    }

    #[test]
    fn read_is_clipped_at_the_objects_end() {
        let mut opened = Opened::with_object();
        assert_eq!(opened.read(640, 5, b"page"), of_heap(640, 5));
        assert_eq!(opened.read(640, 8, b"page"), of_heap(640, 8));
        assert_eq!(opened.read(640, 9, b"page"), of_heap(640, 8));
        assert_eq!(opened.read(643, u32::MAX, b"page"), of_heap(643, 5));
        assert_eq!(opened.read(647, 1, &[]), of_heap(647, 1));
    }

    #[test]
    fn read_of_nothing_over_a_live_object() {
        let mut opened = Opened::with_object();
        assert_eq!(opened.read(640, 0, b"page"), of_heap(640, 0));
        assert_eq!(opened.read(647, 0, &[]), of_heap(647, 0));
    }

    #[test]
    fn read_where_nothing_is_live_shows_the_page() {
        let mut opened = Opened::with_object();
        for offset in [0, 639, 648, 11 * 4_096, HEAP as u32 - 1] {
            assert_eq!(opened.read(offset, 0, b"page"), of_page(0, 0));
            assert_eq!(opened.read(offset, 3, b"page"), of_page(0, 3));
            assert_eq!(opened.read(offset, 4, b"page"), of_page(0, 4));
            assert_eq!(opened.read(offset, 5, b"page"), of_page(0, 4));
            assert_eq!(opened.read(offset, u32::MAX, &[]), of_page(0, 0));
        }
    }

    #[test]
    fn read_of_a_freed_object_shows_the_page() {
        let mut opened = Opened::with_object();
        assert_eq!(opened.run(1, 640, 0, &[]), served(8));
        assert_eq!(opened.read(640, 8, b"page"), of_page(0, 4));
    }

    #[test]
    fn page_may_be_longer_than_any_slot() {
        let mut opened = Opened::with_object();
        assert_eq!(opened.read(0, 20_000, &[7; 20_001]), of_page(0, 20_000));
        assert_eq!(opened.read(640, 20_000, &[7; 20_001]), of_heap(640, 8));
    }

    #[test]
    fn read_refuses_as_a_remaining_size_does() {
        let mut opened = Opened::with_object();
        for offset in [HEAP as u32, u32::MAX] {
            assert_eq!(opened.run(2, offset, 0, &[]), refused(8));
            assert_eq!(opened.read(offset, 4, b"page"), of_page(8, 0));
        }
        opened.metadata.pop();
        assert_eq!(opened.read(640, 4, b"page"), of_page(3, 0));
        opened.heap.pop();
        assert_eq!(opened.read(640, 4, b"page"), of_page(2, 0));
    }

    #[test]
    fn operations_and_counts_that_are_malformed() {
        let mut opened = Opened::with_object();
        for (operation, count) in [(7, 0), (7, 8), (255, 0), (4, 1), (3, 1), (2, 1)] {
            assert_eq!(opened.run(operation, 640, count, &[]), refused(4));
        }
        for at in [1, 2, 3, 12, 13, 14, 15] {
            let mut request = request(6, 640, 8);
            request[at] = 1;
            assert_eq!(opened.serve(&request, &[], b"page"), refused(4));
        }
        assert_eq!(opened.run(6, 640, 8, &[]), served(8));
    }

    #[test]
    fn free_past_the_end_is_out_of_range() {
        assert_eq!(Opened::open(1, 1).run(1, 49_152, 0, &[]), refused(8));
    }

    fn won(mask: u32, value: u32, replica: u32) -> Verdict {
        Verdict {
            number: 0,
            mask,
            value,
            replica,
        }
    }

    #[test]
    fn vote_of_two_in_three() {
        let mut output = [9, 9];
        let verdict = vote(&[0x41, 0x42, 0x41], 3, 1, &mut output);
        assert_eq!(verdict, won(5, 2, 0));
        assert_eq!(output, [0x41, 9]);
    }

    #[test]
    fn vote_with_a_tie() {
        let mut output = [9];
        let verdict = vote(&[0x42, 0x41, 0x41, 0x42], 4, 1, &mut output);
        assert_eq!(verdict, won(9, 2, 0));
        assert_eq!(output, [0x42]);
    }

    #[test]
    fn vote_names_the_lowest_winner() {
        for (blocks, expected) in [
            (&b"baa"[..], won(6, 2, 1)),
            (b"xbaab", won(18, 2, 1)),
            (b"bbaaa", won(28, 3, 2)),
            (b"abcdefghijklmnoo", won(3 << 14, 2, 14)),
        ] {
            assert_eq!(vote(blocks, blocks.len(), 1, &mut [0]), expected);
        }
    }

    #[test]
    fn vote_without_agreement() {
        let mut output = [9];
        let verdict = vote(&[0x41, 0x42, 0x43], 3, 1, &mut output);
        assert_eq!(verdict, refused_vote(12, 0));
        assert_eq!(output, [9]);
    }

    fn refused_vote(number: u32, value: u32) -> Verdict {
        Verdict {
            number,
            mask: 0,
            value,
            replica: 0,
        }
    }

    /// A whole vote on outputs by their letters (`inputs::outputs`), and what it
    /// writes: so many blocks of an output. What lies behind them is kept.
    fn whole(replicas: &[&str], last: usize, expected: Verdict, written: (usize, &str)) {
        let lent = outputs(replicas, last);
        let length = lent.len() / replicas.len();
        let mut after = vec![9; length + 5];
        let kept = after.clone();
        let verdict = vote_whole(&lent, replicas.len(), length, &mut after);
        assert_eq!(verdict, expected, "{replicas:?} {last}");
        let (blocks, content) = written;
        let end = length.min(BLOCK * blocks);
        assert!(
            after[..end] == outputs(&[content], last)[..end],
            "{replicas:?} {last}"
        );
        assert!(after[end..] == kept[end..], "{replicas:?} {last}");
    }

    const LAST_BLOCKS: [usize; 4] = [1, 2, 4_095, 4_096];

    #[test]
    fn whole_vote_of_one_block() {
        for last in LAST_BLOCKS {
            whole(&["a", "b", "a"], last, won(5, 2, 0), (1, "a"));
            whole(&["a", "a", "a", "b"], last, won(7, 3, 0), (1, "a"));
            whole(&["a", "b", "c"], last, refused_vote(12, 0), (0, "a"));
        }
    }

    #[test]
    fn whole_vote_that_leaves_two() {
        for last in LAST_BLOCKS {
            whole(&["aa", "aa", "ba"], last, won(3, 2, 0), (2, "aa"));
            whole(&["ba", "aa", "aa"], last, won(6, 2, 1), (2, "aa"));
            whole(&["aaa", "aba", "aaa"], last, won(5, 2, 0), (3, "aaa"));
            whole(&["aab", "aaa", "aaa"], last, won(6, 2, 1), (3, "aaa"));
            whole(
                &["abcd", "xbcd", "axcd", "abxd", "abcd"],
                last,
                won(17, 2, 0),
                (4, "abcd"),
            );
        }
    }

    #[test]
    fn who_is_out_stays_out() {
        for last in LAST_BLOCKS {
            // Replicas 2 to 4 agree in the second block, with each other or with
            // replica 0.
            whole(
                &["aa", "aa", "bb", "cb", "db"],
                last,
                won(3, 2, 0),
                (2, "aa"),
            );
            whole(
                &["aa", "aa", "ba", "ca", "da"],
                last,
                won(3, 2, 0),
                (2, "aa"),
            );
            // Two are left and differ, and one of them agrees with who is out.
            whole(&["aa", "ab", "ba"], last, refused_vote(12, 1), (1, "aa"));
            whole(
                &["aab", "aaa", "baa"],
                last,
                refused_vote(12, 2),
                (2, "aaa"),
            );
        }
    }

    #[test]
    fn whole_vote_without_agreement() {
        for last in LAST_BLOCKS {
            whole(&["aa", "ba", "ca"], last, refused_vote(12, 0), (0, "aa"));
            whole(
                &["aab", "aca", "ada"],
                last,
                refused_vote(12, 1),
                (1, "aaa"),
            );
            whole(
                &["aaa", "aab", "aac"],
                last,
                refused_vote(12, 2),
                (2, "aaa"),
            );
            whole(
                &["aaaa", "aaba", "abaa"],
                last,
                refused_vote(12, 2),
                (2, "aaaa"),
            );
        }
    }

    #[test]
    fn whole_vote_with_a_tie() {
        for last in LAST_BLOCKS {
            whole(&["aa", "ba", "ba", "aa"], last, won(9, 2, 0), (2, "aa"));
            whole(
                &["xa", "ba", "aa", "aa", "ba"],
                last,
                won(18, 2, 1),
                (2, "ba"),
            );
            // Four are left and tie; who is out would break the tie.
            whole(
                &["aa", "ab", "ab", "aa", "bb"],
                last,
                won(9, 2, 0),
                (2, "aa"),
            );
            whole(
                &["aab", "aac", "bac", "aab", "aac"],
                last,
                won(9, 2, 0),
                (3, "aab"),
            );
        }
    }

    #[test]
    fn more_than_half_with_one_output_win() {
        for replicas in 3..=16 {
            // The others agree with each other everywhere, and with them but for
            // one block.
            for first in 0..replicas {
                for block in 0..3 {
                    let mut other = *b"aaa";
                    other[block] = b'b';
                    let most = replicas / 2 + 1;
                    let shares = |replica: usize| (replica + replicas - first) % replicas < most;
                    let other = std::str::from_utf8(&other).expect("letters");
                    let all: Vec<&str> = (0..replicas)
                        .map(|replica| if shares(replica) { "aaa" } else { other })
                        .collect();
                    let mask = (0..replicas).filter(|&replica| shares(replica));
                    let mask = mask.fold(0, |mask, replica| mask | 1 << replica);
                    whole(&all, 1, Verdict::won(mask), (3, "aaa"));
                }
            }
        }
    }

    #[test]
    fn outputs_that_are_refused() {
        let (mebibyte, wraps) = (1_048_576, 1 << 63);
        for (lent, replicas, length, output_len, number) in [
            (2, 2, 1, 1, 15),
            (3, 3, 1, 1, 0),
            (16, 16, 1, 1, 0),
            (17, 17, 1, 1, 15),
            (0, 0, 1, 1, 15),
            (0, 3, 0, 1, 15),
            (3 * mebibyte, 3, mebibyte, mebibyte, 0),
            (3 * mebibyte + 3, 3, mebibyte + 1, mebibyte + 1, 15),
            (3 * 4_097 - 1, 3, 4_097, 4_097, 15),
            (3 * 4_097 + 1, 3, 4_097, 4_097, 15),
            (3 * 4_097, 3, 4_097, 4_097, 0),
            (3 * 4_097, 3, 4_097, 4_096, 15),
            (3, 3, 1, 0, 15),
            (6, 3, 1, 1, 15),
            (0, 4, wraps, 9, 15),
            (0, wraps, 4, 9, 15),
            (2, 3, usize::MAX / 3 + 1, 9, 15),
            (2, usize::MAX / 3 + 1, 3, 9, 15),
            (3, (1 << 32) + 3, 1, 9, 15),
            (3, 3, (1 << 32) + 1, 9, 15),
        ] {
            let (lent, mut output) = (vec![b'a'; lent], vec![9; output_len]);
            let verdict = vote_whole(&lent, replicas, length, &mut output);
            assert_eq!(verdict.number, number, "{replicas} {length} {output_len}");
            if number != 0 {
                assert_eq!(verdict, refused_vote(15, 0), "{replicas} {length}");
                assert!(output.iter().all(|&byte| byte == 9), "{replicas} {length}");
            }
        }
    }

    #[test]
    fn outputs_are_judged_before_agreement() {
        let mut output = [9];
        assert_eq!(
            vote_whole(b"abcdef", 3, 2, &mut output),
            refused_vote(15, 0)
        );
        assert_eq!(vote_whole(b"ab", 2, 1, &mut output), refused_vote(15, 0));
        assert_eq!(output, [9]);
    }

    #[test]
    fn eight_lines_of_the_bench_run() {
        let mut opened = Opened::open(1, 1);
        let lines = [
            (0, 5, served(640)),
            (0, 100, served(16_384)),
            (1, 644, refused(9)),
            (2, 643, served(5)),
            (1, 640, served(8)),
            (1, 640, refused(10)),
            (0, 4_096, refused(6)),
            (0, 0, served(2_680)),
        ];
        for (operation, argument, expected) in lines {
            assert_eq!(opened.run(operation, argument, 0, &[]), expected);
        }
    }

    #[test]
    fn sizes_that_no_class_holds() {
        let mut opened = Opened::open(1, 1);
        assert_eq!(opened.run(0, 16_384, 0, &[]), refused(6));
        assert_eq!(opened.run(0, 16_385, 0, &[]), refused(5));
        assert_eq!(opened.run(0, u32::MAX, 0, &[]), refused(5));
    }

    #[test]
    fn metadata_lengths_of_the_document() {
        assert_eq!(metadata_length(12 * 1_024), 94);
        assert_eq!(metadata_length(12 * 4_096), 190);
        assert_eq!(metadata_length(12 * 1_048_576), 32_820);
        assert_eq!(metadata_length(12 * 512), 0);
        assert_eq!(metadata_length(12 * 2_097_152), 0);
    }

    #[test]
    fn counts_follow_allocations_and_frees() {
        let mut opened = Opened::open(1, 1);
        let first = opened.run(0, 100, 0, &[]).value;
        for size in [100, 8, 65, 2_048] {
            assert_eq!(opened.run(0, size, 0, &[]).number, 0);
        }
        assert_eq!(opened.counts(), [1, 0, 0, 0, 3, 0, 0, 0, 1, 0, 0, 0]);
        assert_eq!(opened.run(1, first, 0, &[]), served(128));
        assert_eq!(opened.counts(), [1, 0, 0, 0, 2, 0, 0, 0, 1, 0, 0, 0]);
        for (operation, argument) in [(1, first), (0, 2_048), (0, 4_096), (2, 0), (3, first)] {
            opened.run(operation, argument, 0, b"text");
            assert_eq!(opened.counts(), [1, 0, 0, 0, 2, 0, 0, 0, 1, 0, 0, 0]);
        }
        assert_eq!(opened.reopen(7, 11, PATTERN), served(0));
        assert_eq!(opened.counts(), [0; 12]);
    }

    #[test]
    fn count_above_half_refuses_every_request() {
        for (class, half) in [256, 128, 64, 32, 16, 8, 4, 2, 1, 0, 0, 0]
            .into_iter()
            .enumerate()
        {
            let mut opened = Opened::with_object();
            opened.set_count(class, half);
            assert_eq!(opened.run(2, 643, 0, &[]), served(5));
            assert_eq!(opened.read(643, 9, b"page"), of_heap(643, 5));
            for count in [half + 1, 1 << 31, (1 << 31) + half, u32::MAX - 1, u32::MAX] {
                opened.set_count(class, count);
                assert!((0..=7).all(|operation| opened.refuses(operation, 640, 13)));
                assert_eq!(opened.serve(&[], &[], &[]), refused(13));
                assert_eq!(opened.read(640, 9, b"page"), of_page(13, 0));
            }
            assert_eq!(opened.reopen(1, 1, PATTERN), served(0));
            assert_eq!(opened.run(0, 5, 0, &[]), served(640));
        }
    }

    #[test]
    fn lengths_are_checked_before_counts() {
        let mut opened = Opened::with_object();
        opened.set_count(0, 257);
        let fields = opened.metadata[..BITMAPS].to_vec();
        opened.metadata.pop();
        assert_eq!(opened.run(7, 0, 0, &[]), refused(3));
        assert_eq!(opened.read(640, 4, b"page"), of_page(3, 0));
        opened.metadata.clear();
        assert_eq!(opened.run(0, 8, 0, &[]), refused(3));
        opened.metadata = fields;
        assert_eq!(opened.run(0, 8, 0, &[]), refused(3));
        opened.heap.pop();
        assert_eq!(opened.run(0, 8, 0, &[]), refused(2));
    }

    #[test]
    fn counts_are_believed() {
        let mut opened = Opened::open(1, 1);
        opened.set_count(0, 256);
        assert!(opened.refuses(0, 8, 7));
        opened.set_count(0, 255);
        assert_eq!(opened.run(0, 8, 0, &[]), served(640));
        assert!(opened.refuses(0, 8, 7));
        opened.metadata[BITMAPS..BITMAPS + 64].fill(0x0F);
        opened.set_count(0, 0);
        assert_eq!(opened.run(0, 8, 0, &[]).number, 0);
        assert_eq!(live_count(&opened.metadata, 0), 1);
    }

    #[test]
    fn no_clear_slot() {
        let mut opened = Opened::open(1, 1);
        opened.metadata[BITMAPS..].fill(0xFF);
        for size in [8, 16, 512, 1_024, 2_048] {
            assert!(opened.refuses(0, size, 13));
        }
        assert!(opened.refuses(0, 16_385, 5));
        assert!(opened.refuses(0, 4_096, 6));
        opened.set_count(0, 256);
        assert!(opened.refuses(0, 8, 7));
        // One clear slot is found, wherever it lies.
        for slot in [0, 1, 256, 510, 511] {
            let mut opened = Opened::frozen();
            opened.metadata[BITMAPS..].fill(0xFF);
            opened.metadata[BITMAPS + slot / 8] ^= 1 << (slot % 8);
            assert_eq!(opened.run(0, 8, 0, &[]), served(8 * slot as u32));
            assert!(opened.refuses(0, 8, 13));
        }
    }

    #[test]
    fn free_of_an_object_that_no_count_has() {
        let mut opened = Opened::with_object();
        opened.set_count(0, 0);
        for (offset, number) in [(640, 13), (648, 10), (641, 9), (49_152, 8)] {
            assert!(opened.refuses(1, offset, number));
        }
        assert_eq!(opened.run(2, 640, 0, &[]), served(8));
        opened.set_count(0, 1);
        assert_eq!(opened.run(1, 640, 0, &[]), served(8));
        assert_eq!(opened.counts(), [0; 12]);
    }

    #[test]
    fn class_of_one_slot_has_no_count() {
        let mut opened = Opened::open(1, 1);
        opened.metadata[BITMAPS..].fill(0xFF);
        assert_eq!(opened.run(2, 9 * 4_096, 0, &[]), served(4_096));
        assert!(opened.refuses(1, 9 * 4_096, 13));
        assert!(opened.refuses(1, 10 * 4_096, 9));
    }

    #[test]
    fn seeds_that_freeze_are_refused() {
        let mut opened = Opened::with_object();
        let (heap, metadata) = (opened.heap.clone(), opened.metadata.clone());
        for z in [0].into_iter().chain(FROZEN_Z) {
            assert_eq!(opened.reopen(z, 1, 7), refused(1));
        }
        for w in [0].into_iter().chain(FROZEN_W) {
            assert_eq!(opened.reopen(1, w, 7), refused(1));
        }
        assert_eq!(opened.reopen(FROZEN_Z[0], FROZEN_W[0], 7), refused(1));
        assert_eq!((&opened.heap, &opened.metadata), (&heap, &metadata));
        opened.metadata.pop();
        assert_eq!(opened.reopen(FROZEN_Z[0], 1, 7), refused(3));
    }

    #[test]
    fn seeds_are_judged_each_by_itself() {
        for (z, w) in [
            (FROZEN_W[0], FROZEN_Z[0]),
            (FROZEN_W[1], 1),
            (FROZEN_W[2], 1),
            (FROZEN_Z[0] - 1, FROZEN_W[0] - 1),
            (FROZEN_Z[0] + 1, FROZEN_W[0] + 1),
            (1, FROZEN_W[1] - 1),
            (1, FROZEN_W[1] + 1),
            (1, FROZEN_W[2] - 1),
            (1, FROZEN_W[2] + 1),
            (u32::MAX, u32::MAX),
        ] {
            Opened::open(z, w);
        }
    }

    #[test]
    fn listed_seeds_stop_after_a_draw_at_the_latest() {
        for w in FROZEN_W {
            let mut generator = Generator { z: FROZEN_Z[0], w };
            for _ in 0..3 {
                generator.draw();
                assert_eq!((generator.z, generator.w), (FROZEN_Z[0], FROZEN_W[0]));
            }
        }
    }

    #[test]
    fn requests_do_not_judge_seeds() {
        for (z, w) in [(0, 0), (FROZEN_Z[0], FROZEN_W[2]), (0, FROZEN_W[0])] {
            let mut opened = Opened::with_object();
            set_seeds(&mut opened.metadata, z, w);
            assert_eq!(opened.run(0, 8, 0, &[]).number, 0);
            assert_eq!(opened.run(2, 643, 0, &[]), served(5));
            assert_eq!(opened.run(1, 640, 0, &[]), served(8));
            assert_eq!(opened.inspect(), []);
        }
    }

    #[test]
    fn walk_after_32_draws() {
        let mut opened = Opened::frozen();
        for expected in [20_352, 16_384, 16_512] {
            assert_eq!(opened.run(0, 128, 0, &[]), served(expected));
        }
    }

    #[test]
    fn opening_fills_slots_alone() {
        // Regions of 1,024 bytes have slots in classes 0 to 7, of 4,096 in 0 to 9.
        for (region, slots_end) in [(1_024, 8 * 1_024), (4_096, 10 * 4_096)] {
            let mut heap = vec![0x55; 12 * region];
            let mut metadata = vec![0x55; metadata_length(heap.len())];
            let pattern = u32::from_le_bytes(FOUR);
            assert_eq!(open(&mut heap, &mut metadata, 1, 1, pattern), served(0));
            let filled = |(at, &byte): (usize, &u8)| byte == FOUR[at % 4];
            assert!(heap[..slots_end].iter().enumerate().all(filled));
            assert!(heap[slots_end..].iter().all(|&byte| byte == 0x55));
            assert_eq!(metadata[56..60], FOUR);
        }
    }

    #[test]
    fn refused_opening_changes_nothing() {
        let mut opened = Opened::with_object();
        let (heap, metadata) = (opened.heap.clone(), opened.metadata.clone());
        assert_eq!(opened.reopen(0, 1, 7), refused(1));
        assert_eq!(opened.reopen(1, 0, 7), refused(1));
        opened.metadata.pop();
        assert_eq!(opened.reopen(0, 1, 7), refused(3));
        opened.heap.pop();
        assert_eq!(opened.reopen(0, 1, 7), refused(2));
        assert_eq!(opened.heap, heap[..HEAP - 1]);
        assert_eq!(opened.metadata, metadata[..METADATA - 1]);
    }

    #[test]
    fn served_free_fills_its_slot() {
        let mut opened = Opened::with_object();
        opened.heap[632..656].copy_from_slice(b"beforeit--object--behind");
        assert!(opened.refuses(1, 641, 9) && opened.refuses(1, 648, 10));
        opened.metadata[56..60].copy_from_slice(&FOUR);
        assert_eq!(opened.run(1, 640, 0, &[]), served(8));
        assert_eq!(opened.heap[632..640], *b"beforeit");
        assert_eq!(opened.heap[640..648], [FOUR, FOUR].concat());
        assert_eq!(opened.heap[648..656], *b"--behind");
        assert!(opened.refuses(1, 640, 10));
    }

    #[test]
    fn allocation_leaves_the_heap() {
        let mut opened = Opened::open(1, 1);
        opened.heap[640..648].copy_from_slice(b"strayed!");
        let heap = opened.heap.clone();
        assert_eq!(opened.run(0, 5, 0, &[]), served(640));
        assert_eq!(opened.heap, heap);
    }

    #[test]
    fn inspection_lists_what_others_wrote_to() {
        let mut opened = Opened::with_object();
        assert_eq!(opened.run(3, 640, 0, b"Bertrand"), served(8));
        assert_eq!(opened.inspect(), []);
        opened.heap[648] = 0; // past the object
        assert_eq!(opened.inspect(), [648]);
        assert_eq!(opened.run(1, 640, 0, &[]), served(8));
        assert_eq!(opened.inspect(), [648]);
        opened.heap[647] = 0; // after the free
        assert_eq!(opened.inspect(), [640, 648]);
        assert_eq!(opened.reopen(1, 1, 0), served(0));
        assert_eq!(opened.inspect(), []);
    }

    #[test]
    fn inspection_finds_each_byte_of_each_slot() {
        let fresh = Opened::open(1, 1);
        for class in 0..10 {
            let (start, size) = (4_096 * class, 8 << class);
            for slot in [0, 4_096 / size - 1].map(|index| start + index * size) {
                for at in [0, 1, size / 2, size - 2, size - 1] {
                    let mut opened = fresh.clone();
                    opened.heap[slot + at] ^= 1;
                    assert_eq!(opened.inspect(), [slot as u32]);
                }
            }
        }
    }

    #[test]
    fn pattern_out_of_step_is_listed() {
        let mut opened = Opened::open(1, 1);
        assert_eq!(opened.reopen(1, 1, u32::from_le_bytes(FOUR)), served(0));
        opened.heap[16..24].copy_from_slice(&[0x22, 0x33, 0x44, 0x11, 0x22, 0x33, 0x44, 0x11]);
        assert_eq!(opened.inspect(), [16]);
    }

    #[test]
    fn inspection_looks_at_clear_slots_alone() {
        let mut opened = Opened::with_object();
        opened.heap[640..648].fill(1);
        opened.heap[10 * 4_096..].fill(1); // regions without slots
        assert_eq!(opened.inspect(), []);
        opened.heap.fill(1);
        let listed = opened.inspect();
        assert_eq!(listed.len(), 1_022);
        assert!(listed.is_sorted() && !listed.contains(&640));
        // A class of eight slots and less has bits beyond them, which are none.
        opened.metadata[BITMAPS..].fill(0xFF);
        assert_eq!(opened.inspect(), []);
        *opened.metadata.last_mut().expect("bytes") = 0xFE;
        assert_eq!(opened.inspect(), [9 * 4_096]);
    }

    #[test]
    fn lists_of_every_length() {
        let mut opened = Opened::open(1, 1);
        opened.heap[8..24].fill(1);
        let mut list = [7; 4];
        for (len, answer, after) in [
            (0, refused(14), [7; 4]),
            (1, refused(14), [7; 4]),
            (2, served(2), [8, 16, 7, 7]),
            (4, served(2), [8, 16, 7, 7]),
        ] {
            let front = &mut list[..len];
            assert_eq!(inspect(&opened.heap, &opened.metadata, front), answer);
            assert_eq!(list, after);
        }
        opened.heap[8..24].fill(0xEE);
        assert_eq!(inspect(&opened.heap, &opened.metadata, &mut []), served(0));
    }

    #[test]
    fn list_is_judged_last() {
        let mut opened = Opened::open(1, 1);
        opened.heap.fill(1);
        let judged = |opened: &Opened| inspect(&opened.heap, &opened.metadata, &mut [7; 9]);
        assert_eq!(judged(&opened), refused(14));
        opened.set_count(11, 1);
        assert_eq!(judged(&opened), refused(13));
        opened.metadata.pop();
        assert_eq!(judged(&opened), refused(3));
        opened.heap.pop();
        assert_eq!(judged(&opened), refused(2));
    }

    #[test]
    fn counts_of_nothing_are_inspected() {
        let mut opened = Opened::open(1, 1);
        opened.metadata[BITMAPS..].fill(0xFF);
        assert!(opened.refuses(0, 8, 13) && opened.refuses(1, 0, 13));
        assert_eq!(opened.inspect(), []);
    }

    #[test]
    fn slots_are_found_where_they_lie() {
        let slot = |size_class, number, start, len| SlotNumbers {
            size_class,
            number,
            start,
            len,
        };
        let (heap_len, none) = (12 * 1_024, SlotNumbers::default());
        let mut metadata = vec![0; 94];
        metadata[56..60].copy_from_slice(&FOUR);
        assert_eq!(nth_slot(heap_len, &metadata, 5, 3), slot(5, 3, 5_888, 256));
        assert_eq!(nth_slot(heap_len, &metadata, 5, 4), none);
        assert_eq!(nth_slot(heap_len, &metadata, 8, 0), none);
        assert_eq!(nth_slot(heap_len, &metadata, 12, 0), none);
        assert_eq!(
            find_slot(heap_len, &metadata, 6_143),
            slot(5, 3, 5_888, 256)
        );
        assert_eq!(
            find_slot(heap_len, &metadata, 6_144),
            slot(6, 0, 6_144, 512)
        );
        assert_eq!(find_slot(heap_len, &metadata, 8_192), none);
        assert_eq!(find_slot(heap_len, &metadata, 12_288), none);
        assert_eq!(count_slots(heap_len, &metadata), 255);
        assert_eq!(stored_pattern(heap_len, &metadata), 0x4433_2211);
        assert_eq!(nth_slot(heap_len, &metadata[1..], 0, 0), none);
        assert_eq!(find_slot(heap_len - 1, &metadata, 0), none);
        assert_eq!(count_slots(heap_len - 1, &metadata), 0);
        assert_eq!(stored_pattern(heap_len, &metadata[1..]), 0);
    }
}
