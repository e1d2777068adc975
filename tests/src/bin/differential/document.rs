//! Calls whose answers the document gives.

use crate::session::{
    expect, Session, ALLOCATE, COPY_BYTES, COPY_PADDED, COPY_STRING, FREE, NO_OPERATION, PAGE,
    PATTERN_BYTES, REMAINING, TOO_SHORT,
};
use crate::tester::Tester;
use crate::twin::Twin;
use poheldu_tests::inputs::{self, Shape, FROZEN_W};
use poheldu_tests::reference::{Answer, Part};

pub fn cases(tester: &mut Tester) {
    metadata_lengths(tester);
    first_line(tester);
    eight_lines(tester);
    sizes_at_the_edge(tester);
    walk(tester);
    strings(tester);
    reads(tester);
    refused_reads(tester);
    counts_among_checks(tester);
    filling_frees(tester);
    inspections(tester);
    inspections_among_checks(tester);
    for (blocks, number, mask, replica) in [
        (&b"ABA"[..], 0, 5, 0),
        (b"BAAB", 0, 9, 0),
        (b"BAA", 0, 6, 1),
        (b"xbaab", 0, 18, 1),
        (b"ABC", 12, 0, 0),
        (b"AA", 11, 0, 0),
    ] {
        let mut output = Twin::new(b"???", 0);
        let verdict = tester.vote(&mut Twin::new(blocks, 0), blocks.len(), 1, &mut output);
        expect(
            (verdict.number, verdict.mask, verdict.replica) == (number, mask, replica),
            "a vote of the document",
        );
    }
}

fn metadata_lengths(tester: &mut Tester) {
    for (region, length) in [(1_024, 94), (4_096, 190), (1_048_576, 32_820)] {
        expect(
            tester.metadata_length(12 * region) == length,
            "a metadata length",
        );
    }
}

/// The metadata after the first of the eight lines: z and w have moved, class 0
/// has a live object by its count and by its bit, the pattern is stored.
fn first_line(tester: &mut Tester) {
    let mut session = Session::counting(Shape { region: 4_096 });
    session.open(tester, 1, 1);
    session.run(tester, ALLOCATE, 5);
    let mut expected = [0; 190];
    for (at, byte) in [(0, 0x69), (1, 0x90), (4, 0x50), (5, 0x46), (8, 1), (70, 1)] {
        expected[at] = byte;
    }
    expected[56..60].copy_from_slice(&PATTERN_BYTES);
    expect(
        session.metadata.bytes() == expected,
        "the metadata after the first line",
    );
}

fn eight_lines(tester: &mut Tester) {
    let mut session = Session::counting(Shape { region: 4_096 });
    session.open(tester, 1, 1);
    for (operation, argument, number, value) in [
        (ALLOCATE, 5, 0, 640),
        (ALLOCATE, 100, 0, 16_384),
        (FREE, 644, 9, 0),
        (REMAINING, 643, 0, 5),
        (FREE, 640, 0, 8),
        (FREE, 640, 10, 0),
        (ALLOCATE, 4_096, 6, 0),
        (ALLOCATE, 0, 0, 2_680),
        (FREE, 49_152, 8, 0),
    ] {
        let answer = session.run(tester, operation, argument);
        expect(answer == Answer { number, value }, "the eight lines");
    }
}

/// Nothing takes a slot of 8 bytes until half of them are live, and is refused
/// then as 8 bytes are; 5 begins above the longest slot.
fn sizes_at_the_edge(tester: &mut Tester) {
    let mut session = Session::counting(Shape { region: 1_024 });
    session.open(tester, 1, 1);
    for _ in 0..64 {
        let answer = session.run(tester, ALLOCATE, 0);
        expect(answer.number == 0, "an allocation of nothing");
        let space = session.run(tester, REMAINING, answer.value).value;
        expect(space == 8, "the space of an object of nothing");
    }
    for (size, number) in [(0, 7), (8, 7), (16_384, 6), (16_385, 5), (u32::MAX, 5)] {
        let answer = session.run(tester, ALLOCATE, size);
        expect(answer == Answer { number, value: 0 }, "a refused size");
    }
}

/// Every draw tests the same slot: the second allocation walks round the end.
fn walk(tester: &mut Tester) {
    let mut session = Session::counting(Shape { region: 4_096 });
    session.open(tester, 1, 1);
    let mut metadata = session.metadata.bytes().to_vec();
    inputs::set_seeds(&mut metadata, 1, FROZEN_W[0]);
    session.replace_metadata(&metadata);
    for value in [20_352, 16_384, 16_512] {
        let answer = session.run(tester, ALLOCATE, 128);
        expect(answer == Answer { number: 0, value }, "the walk");
    }
}

/// An object of 8 bytes at 640: strings that fit it, just fit it and do not.
/// Those that do not are closed; copies of another kind never are.
fn strings(tester: &mut Tester) {
    for (operation, count, offset, source, value, bytes) in [
        (COPY_STRING, 0, 640, &b"Valentina"[..], 8, b"Valenti\0?"),
        (COPY_STRING, 0, 640, b"Bertrand\0", 8, b"Bertran\0?"),
        (COPY_STRING, 0, 640, b"Bertrand", 8, b"Bertrand?"),
        (COPY_STRING, 0, 640, b"Bertran\0", 8, b"Bertran\0?"),
        (COPY_STRING, 0, 640, b"Anna\0Bertrand", 5, b"Anna\0????"),
        (COPY_STRING, 0, 643, b"Norbert", 5, b"???Norb\0?"),
        (COPY_STRING, 0, 643, b"Clara", 5, b"???Clara?"),
        (COPY_STRING, 0, 647, b"Jo", 1, b"???????\0?"),
        (COPY_STRING, 0, 648, b"Jo", 0, b"?????????"),
        (COPY_BYTES, 0, 640, b"Valentina", 8, b"Valentin?"),
        (COPY_PADDED, 9, 640, b"Valentina", 8, b"Valentin?"),
    ] {
        let shape = Shape { region: 4_096 };
        let mut session = Session::new(shape, &vec![b'?'; shape.heap_len()], 16);
        session.open_with(tester, 1, 1, u32::from_le_bytes(*b"????"));
        session.run(tester, ALLOCATE, 5);
        let request = inputs::request(operation, offset, count);
        let answer = session.serve(tester, &request, source, PAGE);
        expect(answer == Answer { number: 0, value }, "a clipped copy");
        expect(session.heap.bytes()[640..649] == *bytes, "a copy's end");
    }
}

/// An object of 8 bytes at 640: reads of it, beside it and after it is freed.
fn reads(tester: &mut Tester) {
    let mut session = Session::counting(Shape { region: 4_096 });
    session.open(tester, 1, 1);
    session.run(tester, ALLOCATE, 5);
    for (offset, count, page, value, of_page) in [
        (640, 5, PAGE, 5, 0),
        (640, 8, PAGE, 8, 0),
        (640, 9, PAGE, 8, 0),
        (643, u32::MAX, PAGE, 5, 0),
        (647, 1, b"", 1, 0),
        (640, 0, PAGE, 0, 0),
        (647, 0, b"", 0, 0),
        (639, 4, PAGE, 4, 1),
        (648, 4, b"pag", 3, 1),
        (648, 0, PAGE, 0, 1),
        (49_151, u32::MAX, &[7; 20_000], 20_000, 1),
        (45_056, 4, b"", 0, 1),
    ] {
        let start = if of_page == 0 { offset } else { 0 };
        let part = session.read_twice(tester, offset, count, page);
        let expected = Part {
            number: 0,
            value,
            of_page,
            start,
        };
        expect(part == expected, "a read");
    }
    session.run(tester, FREE, 640);
    let part = session.read_twice(tester, 640, 8, b"page");
    expect((part.value, part.of_page) == (4, 1), "a read after a free");
}

/// Reads refuse as a remaining size does, and show the page's empty part. The
/// operation above them, and a count below, are malformed.
fn refused_reads(tester: &mut Tester) {
    let shape = Shape { region: 4_096 };
    let mut session = Session::counting(shape);
    session.open(tester, 1, 1);
    for (cut_heap, cut_metadata, offset, number) in [
        (0, 0, 49_152, 8),
        (0, 0, u32::MAX, 8),
        (0, 1, 640, 3),
        (0, 1, 49_152, 3),
        (1, 0, 640, 2),
        (1, 1, 640, 2),
    ] {
        session.heap.show(shape.heap_len() - cut_heap);
        session.metadata.show(shape.metadata_len() - cut_metadata);
        let part = session.read_twice(tester, offset, 4, PAGE);
        let expected = Part {
            number,
            value: 0,
            of_page: 1,
            start: 0,
        };
        expect(part == expected, "a refused read");
    }
    session.show_all();
    for (operation, count) in [(NO_OPERATION, 0), (NO_OPERATION, 4), (COPY_STRING, 1)] {
        let request = inputs::request(operation, 640, count);
        let answer = session.serve(tester, &request, b"text", PAGE);
        expect(answer.number == 4, "a malformed request");
    }
}

/// Lengths are judged before counts, a request's bytes after them, and opening
/// judges none.
fn counts_among_checks(tester: &mut Tester) {
    let shape = Shape { region: 4_096 };
    let mut session = Session::counting(shape);
    session.replace_metadata(&vec![0xFF; shape.metadata_len()]);
    for (cut_heap, metadata_len, number) in [
        (0, 190, 13),
        (0, 189, 3),
        (0, 60, 3),
        (0, 59, 3),
        (0, 0, 3),
        (1, 190, 2),
    ] {
        session.heap.show(shape.heap_len() - cut_heap);
        session.metadata.show(metadata_len);
        let answer = session.serve(tester, &[], b"text", PAGE);
        expect(answer == Answer { number, value: 0 }, "counts among checks");
    }
    session.show_all();
    expect(
        session.open(tester, 1, 1).number == 0,
        "opening over counts",
    );
}

/// An object of 8 bytes at 640, and text all round it: a free that is served
/// writes the pattern over the object, and one that is refused nothing. An
/// allocation writes nothing.
fn filling_frees(tester: &mut Tester) {
    let mut session = Session::counting(Shape { region: 4_096 });
    session.open(tester, 1, 1);
    session.scribble(632, b"before it, the object, behind it");
    session.run(tester, ALLOCATE, 5);
    let text = session.heap.bytes().to_vec();
    for offset in [639, 641, 648, 49_152] {
        session.run(tester, FREE, offset);
        expect(session.heap.bytes() == text, "a heap after a refused free");
    }
    session.run(tester, FREE, 640);
    let mut filled = text;
    filled[640..648].copy_from_slice(&[PATTERN_BYTES, PATTERN_BYTES].concat());
    expect(session.heap.bytes() == filled, "a heap after a served free");
    let mut metadata = session.metadata.bytes().to_vec();
    inputs::set_pattern(&mut metadata, 0);
    metadata[70] = 1; // slot 80 is live
    metadata[8] = 1;
    session.replace_metadata(&metadata);
    session.run(tester, FREE, 640);
    filled[640..648].fill(0);
    expect(session.heap.bytes() == filled, "a free by another pattern");
}

/// An object of 8 bytes at 640: nothing is listed until others write past it or
/// after its free, and its own bytes never are.
fn inspections(tester: &mut Tester) {
    let mut session = Session::counting(Shape { region: 4_096 });
    session.open(tester, 1, 1);
    session.run(tester, ALLOCATE, 5);
    session.run(tester, COPY_BYTES, 640);
    let served = |value| Answer { number: 0, value };
    expect(session.inspect(tester, 0).0 == served(0), "a clean heap");
    session.scribble(644, b"text too long");
    expect(session.inspect(tester, 9).1 == [648, 656], "past an object");
    session.run(tester, FREE, 640);
    expect(session.inspect(tester, 9).1 == [648, 656], "after a free");
    session.scribble(647, b"!");
    for (list_len, answer) in [
        (0, TOO_SHORT),
        (2, TOO_SHORT),
        (3, served(3)),
        (4, served(3)),
    ] {
        let (found, listed) = session.inspect(tester, list_len);
        let expected: &[u32] = if answer == TOO_SHORT {
            &[]
        } else {
            &[640, 648, 656]
        };
        expect(found == answer && listed == expected, "a list's length");
    }
    session.scribble(640, &[PATTERN_BYTES; 3].concat());
    expect(session.inspect(tester, 9).1 == [648, 656], "filled by hand");
    session.scribble(640, &[PATTERN_BYTES; 7].concat()[1..]);
    expect(
        session.inspect(tester, 9).1 == [640, 648, 656, 664],
        "out of step",
    );
    session.open(tester, 1, 1);
    session.inspect_changed(tester, 9);
}

/// Lengths are judged before counts, and a list last of all.
fn inspections_among_checks(tester: &mut Tester) {
    let shape = Shape { region: 4_096 };
    let mut session = Session::counting(shape);
    let mut metadata = vec![0; shape.metadata_len()];
    session.replace_metadata(&metadata);
    expect(
        session.inspect(tester, 1_022).0 == TOO_SHORT,
        "a list too short",
    );
    expect(
        session.inspect(tester, 1_023).1.len() == 1_023,
        "all slots listed",
    );
    inputs::set_count(&mut metadata, 11, 1);
    session.replace_metadata(&metadata);
    for (heap_len, metadata_len, number) in [
        (49_152, 190, 13),
        (49_152, 189, 3),
        (49_152, 60, 3),
        (49_152, 0, 3),
        (49_151, 190, 2),
        (49_151, 189, 2),
        (0, 0, 2),
    ] {
        session.heap.show(heap_len);
        session.metadata.show(metadata_len);
        let (answer, _) = session.inspect(tester, 9);
        expect(
            answer == Answer { number, value: 0 },
            "an inspection refused",
        );
    }
}
