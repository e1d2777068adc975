//! Heaps in a known state, and requests.

use poheldu_tests::capi;
use poheldu_tests::reference::Answer;

pub type Request = [u8; 16];

/// The pattern that heaps are opened with: its bytes are all different.
pub const PATTERN: u32 = 0xB5E3_C7A9;

pub fn request(operation: u32, argument: u32, count: u32) -> Request {
    let mut bytes = [0; 16];
    for (word, value) in bytes.chunks_mut(4).zip([operation, argument, count, 0]) {
        word.copy_from_slice(&value.to_le_bytes());
    }
    bytes
}

pub fn allocate(size: usize) -> Request {
    request(0, size as u32, 0)
}

pub fn free(offset: u32) -> Request {
    request(1, offset, 0)
}

pub fn remaining(offset: u32) -> Request {
    request(2, offset, 0)
}

pub fn read(offset: u32, count: usize) -> Request {
    request(6, offset, count as u32)
}

/// A number for tables, with its thousands set off.
pub fn figure(number: usize) -> String {
    if number < 1000 {
        return number.to_string();
    }
    format!("{},{:03}", figure(number / 1000), number % 1000)
}

/// The buffers of an opened heap.
#[derive(Clone)]
pub struct Heap {
    pub bytes: Vec<u8>,
    pub metadata: Vec<u8>,
}

impl Heap {
    pub fn new(region: usize) -> Heap {
        let mut heap = Heap {
            bytes: vec![0; 12 * region],
            metadata: vec![0; capi::metadata_length(12 * region)],
        };
        let opened = capi::open(&mut heap.bytes, &mut heap.metadata, 1, 1, PATTERN);
        assert_eq!(opened.number, 0);
        heap
    }

    pub fn serve(&mut self, request: &Request) -> Answer {
        capi::serve(&mut self.bytes, &mut self.metadata, request, &[], &[])
    }

    /// Allocates objects of one size, and gives their offsets.
    pub fn fill(&mut self, size: usize, count: usize) -> Vec<u32> {
        let one = |_| {
            let answer = self.serve(&allocate(size));
            assert_eq!(answer.number, 0);
            answer.value
        };
        (0..count).map(one).collect()
    }
}
