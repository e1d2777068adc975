//! Random calls: runs of requests on one heap, among them votes and wrong lengths.

use crate::kinds;
use crate::metadata;
use crate::requests;
use crate::session::{Session, ALLOCATE, COPY_PADDED, READ};
use crate::tester::Tester;
use crate::twin::Twin;
use crate::votes;
use crate::whole;
use poheldu_tests::inputs::{self, Shape, CLASSES};
use poheldu_tests::random::Random;
use poheldu_tests::reference::Answer;

pub fn random_calls(tester: &mut Tester, rng: &mut Random, calls: u64) {
    match rng.below(40) {
        0 => wrong_lengths(tester, rng),
        1 => (0..20).for_each(|_| {
            tester.metadata_length(metadata::any_length(rng));
        }),
        2..=5 => random_votes(tester, rng),
        _ => random_session(tester, rng, calls),
    }
}

fn random_guard(rng: &mut Random) -> usize {
    rng.pick(&[0, 16])
}

fn random_votes(tester: &mut Tester, rng: &mut Random) {
    (0..90).for_each(|_| random_vote(tester, rng));
    (0..10).for_each(|_| random_whole_vote(tester, rng));
}

fn random_vote(tester: &mut Tester, rng: &mut Random) {
    let vote = votes::vote(rng);
    let guard = random_guard(rng);
    let mut blocks = Twin::new(&vote.outputs, guard);
    let mut output = Twin::new(&vote.output, guard);
    tester.vote(&mut blocks, vote.replicas, vote.length, &mut output);
}

fn random_whole_vote(tester: &mut Tester, rng: &mut Random) {
    let vote = whole::whole_vote(rng);
    let guard = random_guard(rng);
    let mut outputs = Twin::new(&vote.outputs, guard);
    let mut output = Twin::new(&vote.output, guard);
    tester.vote_whole(&mut outputs, vote.replicas, vote.length, &mut output);
}

/// Calls on buffers whose lengths seldom belong together.
fn wrong_lengths(tester: &mut Tester, rng: &mut Random) {
    for _ in 0..10 {
        let (guard, heap_len) = (random_guard(rng), metadata::heap_length(rng));
        let heap = rng.bytes(heap_len);
        let metadata_len = metadata::metadata_length(rng, heap_len);
        let metadata = rng.bytes(metadata_len);
        let shape = Shape {
            region: (heap_len / CLASSES).max(1),
        };
        let mut session = Session::with(shape, &heap, &metadata, guard);
        let (z, w) = (rng.pick(&[0, 1, 9]), rng.pick(&[0, 1, 9]));
        random_serve(tester, rng, &mut session, &[]);
        session.inspect(tester, rng.below(3));
        session.open_with(tester, z, w, metadata::pattern(rng));
        random_serve(tester, rng, &mut session, &[]);
        random_read(tester, rng, &mut session, &[]);
        random_lookup(tester, rng, &mut session, &[]);
        session.inspect(tester, rng.below(3));
    }
}

/// A request with its source and its page. Gives its first byte, where it has
/// one, and the answer.
fn random_serve(
    tester: &mut Tester,
    rng: &mut Random,
    session: &mut Session,
    allocated: &[u32],
) -> (Option<u8>, Answer) {
    let request = random_request(rng, &session.shape, allocated);
    let (source, page) = (requests::source(rng), requests::page(rng));
    let answer = session.serve(tester, &request, &source, &page);
    (request.first().copied(), answer)
}

fn random_lookup(tester: &mut Tester, rng: &mut Random, session: &mut Session, allocated: &[u32]) {
    let offset = requests::offset(rng, session.shape, allocated);
    let class = rng.below(CLASSES + 1);
    let most = session.shape.region / inputs::slot_size(class) + 1;
    session.look_up(tester, class as u32, rng.below(most) as u32, offset);
}

fn random_read(tester: &mut Tester, rng: &mut Random, session: &mut Session, allocated: &[u32]) {
    let offset = requests::offset(rng, session.shape, allocated);
    let (count, page) = (requests::count(rng), requests::page(rng));
    session.read(tester, offset, count, &page);
}

/// An inspection with a list that is about as long as it must be.
fn random_inspection(tester: &mut Tester, rng: &mut Random, session: &mut Session) {
    let hits = kinds::hits(session.heap.bytes(), session.metadata.bytes());
    let list_len = requests::list_length(rng, hits);
    if rng.once_in(4) {
        session.inspect_changed(tester, list_len);
    } else {
        session.inspect(tester, list_len);
    }
}

/// Others write to the heap, wherever they like.
fn random_scribble(rng: &mut Random, session: &mut Session, allocated: &[u32]) {
    let pattern = inputs::pattern_of(session.metadata.bytes());
    let (at, bytes) = requests::scribble(rng, session.shape, pattern, allocated);
    session.scribble(at, &bytes);
}

/// Any request, seldom damaged.
fn random_request(rng: &mut Random, shape: &Shape, allocated: &[u32]) -> Vec<u8> {
    let operation = rng.pick(&[0, 0, 0, 0, 0, 1, 1, 2, 3, 4, 5, 5, 6, 6]);
    let argument = match operation {
        ALLOCATE => requests::size(rng),
        _ => requests::offset(rng, *shape, allocated),
    };
    let count = match operation {
        COPY_PADDED | READ => requests::count(rng),
        _ => 0,
    };
    let good = inputs::request(operation, argument, count);
    if rng.once_in(25) {
        requests::damaged_request(rng, good)
    } else {
        good.to_vec()
    }
}

/// A run of requests on one heap; some runs fill a single class, and in some
/// others write to the heap.
fn random_session(tester: &mut Tester, rng: &mut Random, calls: u64) {
    let shape = Shape::random(rng);
    let heap = rng.bytes(shape.heap_len());
    let mut session = Session::new(shape, &heap, random_guard(rng));
    session.others_write = rng.once_in(2);
    let mut allocated = Vec::new();
    if rng.once_in(3) {
        foreign_start(rng, &mut session);
    } else {
        random_open(tester, rng, &mut session);
    }
    let class = rng.once_in(2).then(|| requests::class(rng, shape));
    for _ in 0..rng.between(1, 200) {
        if tester.calls >= calls {
            break;
        }
        random_step(tester, rng, &mut session, &mut allocated, class);
    }
    session.expect_counts();
}

/// Metadata that no opening made; half of these heaps hold the pattern all the
/// same, so that few slots are listed.
fn foreign_start(rng: &mut Random, session: &mut Session) {
    let metadata = metadata::foreign_metadata(rng, session.shape);
    session.replace_metadata(&metadata);
    if rng.once_in(2) {
        let pattern = inputs::pattern_of(&metadata);
        session
            .heap
            .replace(&inputs::filled(session.shape, pattern));
    }
}

fn random_open(tester: &mut Tester, rng: &mut Random, session: &mut Session) {
    let (z, w) = metadata::seeds(rng);
    session.open_with(tester, z, w, metadata::pattern(rng));
}

fn random_step(
    tester: &mut Tester,
    rng: &mut Random,
    session: &mut Session,
    allocated: &mut Vec<u32>,
    class: Option<usize>,
) {
    match (rng.below(100), class) {
        (0, _) => random_open(tester, rng, session),
        (1, _) => damage_metadata(rng, session),
        (2..=70, Some(class)) => {
            let size = requests::size_in(rng, class);
            let answer = session.run(tester, ALLOCATE, size);
            remember(allocated, answer);
        }
        (71..=77, _) => random_read(tester, rng, session, allocated),
        (78..=81, _) => random_inspection(tester, rng, session),
        (82..=86, _) if session.others_write => random_scribble(rng, session, allocated),
        (87..=89, _) => random_lookup(tester, rng, session, allocated),
        _ => {
            let (operation, answer) = random_serve(tester, rng, session, allocated);
            if operation == Some(ALLOCATE) {
                remember(allocated, answer);
            }
        }
    }
    mend_counts(rng, session);
    if rng.once_in(64) {
        cut_lengths(rng, session);
        session.run(tester, ALLOCATE, 8);
        random_read(tester, rng, session, allocated);
        random_lookup(tester, rng, session, allocated);
        session.inspect(tester, rng.below(3));
        session.show_all();
    }
}

fn remember(allocated: &mut Vec<u32>, answer: Answer) {
    if answer.number == 0 {
        allocated.push(answer.value);
    }
}

fn damage_metadata(rng: &mut Random, session: &mut Session) {
    let mut metadata = session.metadata.bytes().to_vec();
    metadata::damage(rng, session.shape, &mut metadata);
    session.replace_metadata(&metadata);
}

/// Sets counts right that refuse every request, after a few calls.
fn mend_counts(rng: &mut Random, session: &mut Session) {
    let above = inputs::above_half(session.shape, session.metadata.bytes());
    if above.is_none() || !rng.once_in(4) {
        return;
    }
    let mut metadata = session.metadata.bytes().to_vec();
    inputs::fit_counts(session.shape, &mut metadata);
    session.replace_metadata(&metadata);
}

/// Shows the next call a shorter heap or shorter metadata.
fn cut_lengths(rng: &mut Random, session: &mut Session) {
    let cut = rng.pick(&[0, 1, 2, 8, 12]);
    if rng.once_in(2) {
        session.heap.show(session.heap.full_len() - cut);
    } else {
        session.metadata.show(session.metadata.full_len() - cut);
    }
}
