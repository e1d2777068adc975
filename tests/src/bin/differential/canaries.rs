//! What opening fills, and what an inspection then lists.

use crate::session::{expect, Session, PATTERN_BYTES, TOO_SHORT};
use crate::tester::Tester;
use poheldu_tests::inputs::{self, Shape, CLASSES};

/// Opening writes the pattern over every slot, anew from its first byte on, and
/// no byte outside slots.
pub fn filled_slots(tester: &mut Tester, shape: Shape) {
    let mut session = Session::counting(shape);
    let mut expected = session.heap.bytes().to_vec();
    session.open(tester, 1, 1);
    for class in 0..CLASSES {
        let (start, size) = (class * shape.region, inputs::slot_size(class));
        for at in 0..shape.slots(class) * size {
            expected[start + at] = PATTERN_BYTES[at % size % 4];
        }
    }
    expect(session.heap.bytes() == expected, "filled slots");
    expect(session.inspect(tester, 0).0.number == 0, "an opened heap");
}

/// The last byte of each class's first slot and the first byte of its last are
/// written to: those slots are listed, and live ones are not.
pub fn inspected_edges(tester: &mut Tester, shape: Shape) {
    let mut session = Session::counting(shape);
    session.open(tester, 1, 1);
    let mut edges = Vec::new();
    for class in (0..CLASSES).filter(|&class| shape.slots(class) > 0) {
        let (start, size) = (class * shape.region, inputs::slot_size(class));
        let last = start + shape.region - size;
        session.scribble(start + size - 1, &[!PATTERN_BYTES[3]]);
        session.scribble(last, &[!PATTERN_BYTES[0]]);
        edges.extend([start as u32, last as u32]);
    }
    edges.dedup();
    for (list_len, expected) in [
        (edges.len() - 1, &[][..]),
        (edges.len(), &edges[..]),
        (edges.len() + 1, &edges[..]),
    ] {
        let (_, listed) = session.inspect(tester, list_len);
        expect(listed == expected, "slots at the edges of classes");
    }
    session.replace_metadata(&inputs::all_live(shape));
    expect(session.inspect(tester, 0).0.number == 0, "live slots");
}

/// No slot holds the pattern: all are listed, and with every other bit set the
/// others are.
pub fn inspected_slots(tester: &mut Tester, shape: Shape) {
    let mut session = Session::counting(shape);
    let mut metadata = vec![0; shape.metadata_len()];
    session.replace_metadata(&metadata);
    let all = shape.all_slots();
    expect(
        session.inspect(tester, all - 1).0 == TOO_SHORT,
        "all slots but one",
    );
    let (_, listed) = session.inspect(tester, all);
    expect(listed.len() == all, "all slots");
    metadata[inputs::BITMAPS..].fill(0b0101_0101);
    session.replace_metadata(&metadata);
    let (_, others) = session.inspect(tester, all);
    let odd = |offset: &u32| {
        let (offset, region) = (*offset as usize, shape.region);
        offset % region / inputs::slot_size(offset / region) % 2 == 1
    };
    let expected: Vec<u32> = listed.into_iter().filter(odd).collect();
    expect(others == expected, "every other slot");
    session.inspect_changed(tester, expected.len());
}
