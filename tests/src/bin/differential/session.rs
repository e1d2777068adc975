//! A heap with its metadata in both implementations, and calls on it with what
//! must hold after each.

use crate::lookups::Asked;
use crate::stop;
use crate::tester::Tester;
use crate::twin::{Lent, Twin};
use poheldu_tests::inputs::{self, Shape, CLASSES};
use poheldu_tests::reference::{Answer, Part};

pub const ALLOCATE: u8 = 0;
pub const FREE: u8 = 1;
pub const REMAINING: u8 = 2;
pub const COPY_BYTES: u8 = 3;
pub const COPY_STRING: u8 = 4;
pub const COPY_PADDED: u8 = 5;
pub const READ: u8 = 6;
pub const NO_OPERATION: u8 = 7;
/// Corrupt metadata.
pub const CORRUPT: Answer = Answer {
    number: 13,
    value: 0,
};
/// A list too short.
pub const TOO_SHORT: Answer = Answer {
    number: 14,
    value: 0,
};
/// The page of calls that do not choose one.
pub const PAGE: &[u8] = b"fallback page";
/// The pattern of openings that do not choose one: its bytes are all different.
const PATTERN: u32 = u32::from_le_bytes(PATTERN_BYTES);
pub const PATTERN_BYTES: [u8; 4] = [0xA9, 0xC7, 0xE3, 0xB5];

/// A heap with its metadata, twice.
pub struct Session {
    pub shape: Shape,
    pub heap: Twin,
    pub metadata: Twin,
    guard: usize,
    /// The metadata are what a served opening and requests since have left.
    opened: bool,
    /// And so are the bytes of the slots, but for those of live ones.
    clean: bool,
    /// Others write to the heap now and then.
    pub others_write: bool,
}

impl Session {
    pub fn new(shape: Shape, heap: &[u8], guard: usize) -> Session {
        Session::with(shape, heap, &vec![0xEE; shape.metadata_len()], guard)
    }

    /// A heap and metadata whose lengths may not belong together.
    pub fn with(shape: Shape, heap: &[u8], metadata: &[u8], guard: usize) -> Session {
        Session {
            shape,
            heap: Twin::new(heap, guard),
            metadata: Twin::new(metadata, guard),
            guard,
            opened: false,
            clean: false,
            others_write: false,
        }
    }

    /// Heap bytes that count up: no slot holds a pattern.
    pub fn counting(shape: Shape) -> Session {
        Session::new(shape, &counting_bytes(shape.heap_len()), 0)
    }

    /// Opens with the pattern of calls that do not choose one.
    pub fn open(&mut self, tester: &mut Tester, z: u32, w: u32) -> Answer {
        self.open_with(tester, z, w, PATTERN)
    }

    pub fn open_with(&mut self, tester: &mut Tester, z: u32, w: u32, pattern: u32) -> Answer {
        let answer = tester.open(&mut self.heap, &mut self.metadata, z, w, pattern);
        self.opened |= answer.number == 0;
        self.clean |= answer.number == 0;
        answer
    }

    /// Metadata that no opening made, from now on.
    pub fn replace_metadata(&mut self, metadata: &[u8]) {
        self.metadata.replace(metadata);
        self.opened = false;
        self.clean = false;
    }

    /// Bytes that neither opening nor a request wrote.
    pub fn scribble(&mut self, at: usize, bytes: &[u8]) {
        self.heap.write(at, bytes);
        self.clean = false;
    }

    pub fn serve(
        &mut self,
        tester: &mut Tester,
        request: &[u8],
        source: &[u8],
        page: &[u8],
    ) -> Answer {
        let mut lent = Lent::new(request, source, page, self.guard);
        let answer = tester.serve(&mut self.heap, &mut self.metadata, &mut lent);
        self.expect_no_corruption(answer.number);
        answer
    }

    pub fn run(&mut self, tester: &mut Tester, operation: u8, argument: u32) -> Answer {
        let request = inputs::request(operation, argument, 0);
        self.serve(tester, &request, b"text", PAGE)
    }

    pub fn read(&mut self, tester: &mut Tester, offset: u32, count: u32, page: &[u8]) -> Part {
        let mut page = Twin::new(page, self.guard);
        let part = tester.read(&mut self.heap, &mut self.metadata, offset, count, &mut page);
        self.expect_no_corruption(part.number);
        part
    }

    /// What an inspection answers, and what it lists. Entries past that, and all
    /// where it is refused, are kept.
    pub fn inspect(&mut self, tester: &mut Tester, list_len: usize) -> (Answer, Vec<u32>) {
        let before: Vec<u32> = (0..list_len as u32).map(|at| !at).collect();
        let mut list = Twin::new(&before, self.guard);
        let answer = tester.inspect(&mut self.heap, &mut self.metadata, &mut list);
        let (listed, kept) = list.items().split_at(answer.value as usize);
        expect(kept == &before[listed.len()..], "entries past the list");
        expect(listed.is_sorted_by(|a, b| a < b), "a list that rises");
        self.expect_no_corruption(answer.number);
        expect(
            !self.clean || answer.value == 0 && answer.number != TOO_SHORT.number,
            "a slot listed that nobody wrote to",
        );
        tester.clean += u64::from(self.clean && answer.number == 0);
        (answer, listed.to_vec())
    }

    /// Two inspections, between which all bytes of live slots and all outside
    /// slots change: they answer and list the same.
    pub fn inspect_changed(&mut self, tester: &mut Tester, list_len: usize) {
        let first = self.inspect(tester, list_len);
        let mut heap = self.heap.bytes().to_vec();
        inputs::change_unseen(self.shape, self.metadata.bytes(), &mut heap);
        self.heap.replace(&heap);
        expect(
            self.inspect(tester, list_len) == first,
            "an inspection of other bytes in live slots and outside slots",
        );
        tester.changed += u64::from(!first.1.is_empty());
    }

    pub fn look_up(&mut self, tester: &mut Tester, class: u32, number: u32, offset: u32) {
        let asked = Asked {
            class,
            number,
            offset,
        };
        tester.look_up(&self.heap, &mut self.metadata, asked);
    }

    fn expect_no_corruption(&self, number: u32) {
        expect(!self.opened || number != 13, "13 in a run from an opening");
    }

    /// In a run from an opening each count is that of its class's set bits.
    pub fn expect_counts(&self) {
        let metadata = self.metadata.bytes();
        let agrees = |class| {
            inputs::count_of(metadata, class) == inputs::set_bits(self.shape, metadata, class)
        };
        expect(
            !self.opened || (0..CLASSES).all(agrees),
            "a count in a run from an opening",
        );
    }

    /// A read by its own call and as a request, which say the same.
    pub fn read_twice(
        &mut self,
        tester: &mut Tester,
        offset: u32,
        count: u32,
        page: &[u8],
    ) -> Part {
        let part = self.read(tester, offset, count, page);
        let request = inputs::request(READ, offset, count);
        let answer = self.serve(tester, &request, b"text", page);
        expect(
            (answer.number, answer.value) == (part.number, part.value),
            "a read as a request",
        );
        part
    }

    pub fn show_all(&mut self) {
        self.heap.show(self.shape.heap_len());
        self.metadata.show(self.shape.metadata_len());
    }
}

fn counting_bytes(len: usize) -> Vec<u8> {
    (0..len).map(|at| at as u8).collect()
}

pub fn expect(holds: bool, what: &str) {
    if !holds {
        stop(&format!(
            "difference from the document's figures: {what} (both implementations agree)"
        ));
    }
}
