//! Edges of every region length: seeds, sizes, offsets, lengths and draws.

use crate::metadata;
use crate::session::{
    expect, Session, ALLOCATE, COPY_BYTES, COPY_PADDED, COPY_STRING, FREE, PAGE, READ, REMAINING,
};
use crate::tester::Tester;
use poheldu_tests::inputs::{self, Shape, CLASSES, FROZEN_W, FROZEN_Z};
use poheldu_tests::random::Random;
use poheldu_tests::reference::Answer;

/// A heap twice as long as the longest allowed, with metadata to match.
pub fn too_long(tester: &mut Tester) {
    let mut session = Session::counting(Shape { region: 1 << 21 });
    session.open(tester, 1, 1);
    session.run(tester, ALLOCATE, 8);
    session.inspect(tester, 8);
}

/// Edges of every region length: openings, a class filled to its limit, and
/// the first and last byte of each region with all bits set.
pub fn of_regions(tester: &mut Tester, shape: Shape) {
    let mut session = Session::counting(shape);
    edge_seeds(tester, &mut session);
    for length in [
        shape.heap_len(),
        shape.heap_len() + 1,
        12 * shape.region - 1,
    ] {
        tester.metadata_length(length);
    }
    fill_class(tester, &mut session);
    session.replace_metadata(&inputs::all_live(shape));
    for class in 0..CLASSES {
        let start = (class * shape.region) as u32;
        session.run(tester, REMAINING, start);
        session.run(tester, COPY_BYTES, start + shape.region as u32 - 2);
        long_copies(tester, &mut session, start);
        edge_reads(tester, &mut session, start);
        session.run(tester, FREE, start);
    }
    let end = shape.heap_len() as u32;
    for offset in [end - 1, end, u32::MAX] {
        for operation in [FREE, REMAINING, COPY_BYTES, COPY_STRING, COPY_PADDED, READ] {
            session.run(tester, operation, offset);
        }
        session.read_twice(tester, offset, 4, PAGE);
    }
}

/// Seeds that freeze are refused, those next to them are not, and none for what
/// freezes in the other half.
fn edge_seeds(tester: &mut Tester, session: &mut Session) {
    let refused = Answer {
        number: 1,
        value: 0,
    };
    for (z, w) in [(0, 0), (0, 5), (5, 0), (FROZEN_Z[0], 5), (FROZEN_Z[0], 0)] {
        expect(session.open(tester, z, w) == refused, "an unusable seed");
    }
    for w in FROZEN_W {
        expect(session.open(tester, 5, w) == refused, "a frozen w");
        for (z, w) in [(w, w - 1), (w, w + 1), (w, FROZEN_Z[0])] {
            let answer = session.open(tester, z, w);
            expect(answer.number == 0, "seeds next to a frozen one");
        }
    }
    for z in [FROZEN_Z[0] - 1, FROZEN_Z[0] + 1] {
        expect(session.open(tester, z, 5).number == 0, "z next to 9068FFFF");
    }
}

/// Allocates in the largest class that allows it until that is refused.
fn fill_class(tester: &mut Tester, session: &mut Session) {
    let mut classes = (0..CLASSES).rev();
    let Some(class) = classes.find(|&class| session.shape.slots(class) > 1) else {
        return;
    };
    let size = inputs::slot_size(class) as u32;
    while session.run(tester, ALLOCATE, size).number == 0 {}
}

/// Copies that are longer than any slot.
fn long_copies(tester: &mut Tester, session: &mut Session, offset: u32) {
    let mut source = vec![0x5A; 20_000];
    let request = inputs::request(COPY_BYTES, offset, 0);
    session.serve(tester, &request, &source, PAGE);
    source[17_000] = 0;
    let request = inputs::request(COPY_STRING, offset + 1, 0);
    session.serve(tester, &request, &source, PAGE);
    let request = inputs::request(COPY_PADDED, offset + 2, u32::MAX);
    session.serve(tester, &request, &[1, 2, 3, 4, 5], PAGE);
}

/// Reads past the end of the first and the last object of a region.
fn edge_reads(tester: &mut Tester, session: &mut Session, start: u32) {
    let last = start + session.shape.region as u32 - 1;
    session.read(tester, start, u32::MAX, PAGE);
    let request = inputs::request(READ, last, 2);
    session.serve(tester, &request, b"text", PAGE);
}

/// Walks that start anywhere in a class.
pub fn traps(tester: &mut Tester, rng: &mut Random, shape: Shape) {
    let mut session = Session::counting(shape);
    for class in (0..CLASSES).filter(|&class| shape.slots(class) >= 128) {
        session.replace_metadata(&metadata::trap(rng, shape, class));
        for _ in 0..2 {
            session.run(tester, ALLOCATE, inputs::slot_size(class) as u32);
        }
    }
}

/// Only class 0 of the longest heap has more than 65,536 slots, so that the
/// high half of the draw chooses the slot too.
pub fn most_slots(tester: &mut Tester, rng: &mut Random) {
    let mut session = Session::counting(Shape { region: 1 << 20 });
    for _ in 0..4 {
        session.open(tester, rng.word() | 1, rng.word() | 1);
        for size in 1..=8 {
            session.run(tester, ALLOCATE, size);
        }
    }
}
