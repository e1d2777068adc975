//! Live counts that do not agree with the bitmaps.

use crate::session::{expect, Session, ALLOCATE, CORRUPT, FREE, NO_OPERATION, PAGE, READ};
use crate::tester::Tester;
use poheldu_tests::inputs::{self, Shape, CLASSES, FROZEN_DRAW, FROZEN_W, FROZEN_Z};
use poheldu_tests::reference::Answer;

/// A count above half, of any class, refuses every request of another class, the
/// malformed ones, reads, and inspections.
pub fn above_half(tester: &mut Tester, shape: Shape) {
    let mut session = Session::counting(shape);
    session.open(tester, 1, 1);
    let opened = session.metadata.bytes().to_vec();
    for class in 0..CLASSES {
        let (half, other) = (shape.half(class), (class + 1) % CLASSES);
        let huge = [(1 << 31) + half, u32::MAX][class % 2];
        let (operation, start) = (class as u8 % (READ + 1), (other * shape.region) as u32);
        let argument = match operation {
            ALLOCATE => inputs::slot_size(other) as u32,
            _ => start,
        };
        for (count, operation) in [(half + 1, operation), (huge, NO_OPERATION)] {
            let mut metadata = opened.clone();
            inputs::set_count(&mut metadata, class, count);
            session.replace_metadata(&metadata);
            let answer = session.run(tester, operation, argument);
            expect(answer == CORRUPT, "a request by a count above half");
        }
        let part = session.read(tester, start, 8, PAGE);
        let shown = (part.value, part.of_page, part.start);
        expect(
            part.number == 13 && shown == (0, 1, 0),
            "a read by a count above half",
        );
        let (answer, _) = session.inspect(tester, class);
        expect(answer == CORRUPT, "an inspection by a count above half");
    }
}

/// All slots are live, and each class half full by its count: that is served.
/// The slot before the drawn one is freed, and is where the longest walk ends.
pub fn of_half(tester: &mut Tester, shape: Shape) {
    let mut session = Session::counting(shape);
    let mut metadata = inputs::all_live(shape);
    inputs::set_seeds(&mut metadata, FROZEN_Z[0], FROZEN_W[0]);
    session.replace_metadata(&metadata);
    for class in 0..CLASSES {
        let (slots, size) = (shape.slots(class), inputs::slot_size(class));
        let index = if slots > 1 {
            FROZEN_DRAW % slots - 1
        } else {
            0
        };
        let offset = (class * shape.region + index * size) as u32;
        let size = size as u32;
        let (full, freed, taken) = match slots {
            0 => ((6, 0), (9, 0), (6, 0)),
            1 => ((6, 0), (13, 0), (6, 0)),
            _ => ((7, 0), (0, size), (0, offset)),
        };
        for (operation, argument, (number, value)) in [
            (ALLOCATE, size, full),
            (FREE, offset, freed),
            (ALLOCATE, size, taken),
        ] {
            let answer = session.run(tester, operation, argument);
            expect(answer == Answer { number, value }, "a count of half");
        }
    }
}

/// All slots are live, and none by its count: an allocation finds no clear slot,
/// and a free an object that the count does not have. Neither changes a byte.
pub fn of_nothing(tester: &mut Tester, shape: Shape) {
    let mut session = Session::counting(shape);
    let mut metadata = inputs::all_live(shape);
    (0..CLASSES).for_each(|class| inputs::set_count(&mut metadata, class, 0));
    session.replace_metadata(&metadata);
    for class in (0..CLASSES).filter(|&class| shape.slots(class) > 1) {
        let size = inputs::slot_size(class) as u32;
        let answer = session.run(tester, ALLOCATE, size);
        expect(answer == CORRUPT, "an allocation without a clear slot");
        let answer = session.run(tester, FREE, (class * shape.region) as u32);
        expect(answer == CORRUPT, "a free by a count of 0");
    }
    expect(
        session.metadata.bytes() == metadata,
        "metadata after refusals",
    );
    let (answer, _) = session.inspect(tester, 0);
    expect(answer.number == 0, "an inspection by counts of nothing");
}
