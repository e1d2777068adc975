//! Empty buffers, as NULL and as dangling pointers.

use crate::session::{Session, ALLOCATE, COPY_BYTES, COPY_PADDED, COPY_STRING, READ};
use crate::tester::Tester;
use crate::twin::Twin;
use poheldu_tests::inputs::{self, Shape};

/// Each call is made twice: once with NULL, once with a dangling pointer.
pub fn null_buffers(tester: &mut Tester) {
    let mut session = Session::counting(Shape { region: 1_024 });
    session.open(tester, 1, 1);
    let object = session.run(tester, ALLOCATE, 64).value;
    for _ in 0..2 {
        session.serve(tester, &[], &[], &[]);
        for operation in [COPY_BYTES, COPY_STRING, COPY_PADDED] {
            let count = 60 * u32::from(operation == COPY_PADDED);
            let request = inputs::request(operation, object, count);
            session.serve(tester, &request, &[], &[]);
            session.serve(tester, &request, &[], &[]);
        }
        null_pages(tester, &mut session, object);
        (0..2).for_each(|_| session.inspect_changed(tester, 0));
        null_votes(tester);
        null_session(tester, &mut session);
    }
}

/// Reads of an object and beside it, with an empty page.
fn null_pages(tester: &mut Tester, session: &mut Session, object: u32) {
    for offset in [object, object ^ 64, session.shape.heap_len() as u32] {
        let request = inputs::request(READ, offset, 60);
        for _ in 0..2 {
            session.read(tester, offset, 60, &[]);
        }
        for _ in 0..2 {
            session.serve(tester, &request, &[], &[]);
        }
    }
}

fn null_session(tester: &mut Tester, session: &mut Session) {
    let (heap_len, metadata_len) = (session.shape.heap_len(), session.shape.metadata_len());
    for (heap_len, metadata_len) in [(0, 0), (0, metadata_len), (heap_len, 0)] {
        session.heap.show(heap_len);
        session.metadata.show(metadata_len);
        for _ in 0..2 {
            session.open(tester, 1, 1);
            session.open(tester, 0, 0);
            session.run(tester, ALLOCATE, 8);
            session.read(tester, 0, 8, &[]);
            session.inspect(tester, 0);
            session.look_up(tester, 0, 0, 0);
        }
    }
    session.show_all();
}

/// Votes, and whole votes on the same.
fn null_votes(tester: &mut Tester) {
    for (blocks, replicas, block_len, output) in [
        (&b""[..], 3, 1, &b"?"[..]),
        (b"", 3, 0, b"?"),
        (b"", 0, 0, b""),
        (b"", 0, 1, b"?"),
        (b"AAA", 3, 1, b""),
        (b"", 1 << 63, 2, b"?"),
        (b"", 4, 1 << 62, b"?"),
    ] {
        let (mut blocks, mut output) = (Twin::new(blocks, 0), Twin::new(output, 0));
        for _ in 0..2 {
            tester.vote(&mut blocks, replicas, block_len, &mut output);
        }
        for _ in 0..2 {
            tester.vote_whole(&mut blocks, replicas, block_len, &mut output);
        }
    }
}
