//! The four lookups of slots, which are made as one call.

use crate::kinds::LOOKUPS;
use crate::session::Session;
use crate::tester::Tester;
use poheldu_tests::capi::{self, Empty};
use poheldu_tests::inputs::{self, Shape, CLASSES};
use poheldu_tests::reference::{self, SlotNumbers};

/// What is asked of a heap's slots: one by class and number, one by an offset.
#[derive(Clone, Copy)]
pub struct Asked {
    pub class: u32,
    pub number: u32,
    pub offset: u32,
}

/// What the four lookups answer.
#[derive(Debug, PartialEq, Eq)]
pub struct Found {
    nth: SlotNumbers,
    at: SlotNumbers,
    slots: usize,
    pattern: u32,
}

impl Found {
    pub fn by_reference(heap_len: usize, metadata: &[u8], asked: Asked) -> Found {
        Found {
            nth: reference::nth_slot(heap_len, metadata, asked.class, asked.number),
            at: reference::find_slot(heap_len, metadata, asked.offset),
            slots: reference::count_slots(heap_len, metadata),
            pattern: reference::stored_pattern(heap_len, metadata),
        }
    }

    pub fn by_library(empty: Empty, heap_len: usize, metadata: &[u8], asked: Asked) -> Found {
        Found {
            nth: capi::nth_slot_with(empty, heap_len, metadata, asked.class, asked.number),
            at: capi::find_slot_with(empty, heap_len, metadata, asked.offset),
            slots: capi::count_slots_with(empty, heap_len, metadata),
            pattern: capi::stored_pattern_with(empty, heap_len, metadata),
        }
    }

    /// Which of `LOOKUP_KINDS` they are.
    pub fn kinds(&self, offset: u32) -> [bool; LOOKUPS] {
        let (known, has, at) = (self.slots > 0, self.nth.len > 0, self.at);
        [
            !known,
            has,
            known && !has,
            at.len > 0 && at.start == offset,
            at.len > 0 && at.start < offset,
            known && at.len == 0,
        ]
    }
}

/// The first and the last slot of each class and the one past it, their first
/// and last bytes, and what lies past the last class and the heap's end.
pub fn looked_up_slots(tester: &mut Tester, shape: Shape) {
    let mut session = Session::counting(shape);
    for class in 0..=CLASSES {
        let start = (class * shape.region) as u32;
        let size = inputs::slot_size(class) as u32;
        let slots = (shape.region / inputs::slot_size(class)) as u32;
        for number in [0, slots.saturating_sub(1), slots, u32::MAX] {
            let at = start.saturating_add(number.saturating_mul(size));
            for offset in [at.saturating_sub(1), at, at.saturating_add(size - 1)] {
                session.look_up(tester, class as u32, number, offset);
            }
        }
    }
    session.look_up(tester, u32::MAX, 0, shape.heap_len() as u32);
    session.look_up(tester, u32::MAX, u32::MAX, u32::MAX);
}
