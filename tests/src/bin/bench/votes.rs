//! The vote against the second implementation, and against memcmp; whole votes against memcmp and memcpy.

use crate::copies::{memcpy, Memcpy};
use crate::heap::figure;
use crate::measure::{head, repeat, row};
use poheldu_tests::{capi, reference};
use std::ffi::{c_int, c_void};
use std::hint::black_box;

const CALLS: usize = 16;
const WHOLE_CALLS: usize = 4;
const BLOCK: usize = 4096;

pub type Memcmp = unsafe extern "C" fn(*const c_void, *const c_void, usize) -> c_int;

extern "C" {
    pub fn memcmp(a: *const c_void, b: *const c_void, len: usize) -> c_int;
}

/// Whether memcmp finds two blocks of one length equal.
pub fn equal(compare: Memcmp, a: &[u8], b: &[u8]) -> bool {
    // SAFETY: both blocks have the length of `a`.
    0 == unsafe { compare(a.as_ptr().cast(), b.as_ptr().cast(), a.len()) }
}

/// How many of the pairs that decide are equal: each block with those before it, until one is equal.
fn deciding_pairs(compare: Memcmp, blocks: &[u8], block_len: usize) -> usize {
    let all = blocks.chunks_exact(block_len).enumerate();
    all.filter(|(i, own)| {
        let before = &blocks[..i * block_len];
        let mut before = before.chunks_exact(block_len);
        before.any(|other| equal(compare, other, own))
    })
    .count()
}

/// How many of all pairs are equal.
fn all_pairs(compare: Memcmp, blocks: &[u8], block_len: usize) -> usize {
    let mut count = 0;
    for (i, own) in blocks.chunks_exact(block_len).enumerate() {
        let after = &blocks[(i + 1) * block_len..];
        let after = after.chunks_exact(block_len);
        count += after.filter(|other| equal(compare, own, other)).count();
    }
    count
}

/// Blocks of 7s, but for one byte, which has `distinct` different values in turn.
fn blocks(replicas: usize, block_len: usize, distinct: usize, place: usize) -> Vec<u8> {
    let mut blocks = vec![7; replicas * block_len];
    for (replica, block) in blocks.chunks_exact_mut(block_len).enumerate() {
        block[place] = (replica % distinct) as u8;
    }
    blocks
}

fn vote(name: &str, blocks: &[u8], replicas: usize, block_len: usize) {
    let (mut ours, mut theirs) = (vec![0; block_len], vec![0; block_len]);
    let verdict = capi::vote(blocks, replicas, block_len, &mut ours);
    assert_eq!(
        verdict,
        reference::vote(blocks, replicas, block_len, &mut theirs)
    );
    let compare = black_box(memcmp as Memcmp);
    row(
        name,
        [
            &mut || {
                repeat(CALLS, &blocks, |&blocks| {
                    black_box(capi::vote(blocks, replicas, block_len, &mut ours));
                })
            },
            &mut || {
                repeat(CALLS, &blocks, |&blocks| {
                    black_box(reference::vote(blocks, replicas, block_len, &mut theirs));
                })
            },
            &mut || {
                repeat(CALLS, &blocks, |&blocks| {
                    black_box(deciding_pairs(compare, blocks, block_len));
                })
            },
            &mut || {
                repeat(CALLS, &blocks, |&blocks| {
                    black_box(all_pairs(compare, blocks, block_len));
                })
            },
        ],
    );
}

/// A row for a vote that is refused for its number of replicas.
pub fn refused_row() {
    let blocks = blocks(2, 256, 1, 0);
    let (mut ours, mut theirs) = (vec![0; 256], vec![0; 256]);
    assert_eq!(capi::vote(&blocks, 2, 256, &mut ours).number, 11);
    row(
        "vote refused, 2 replicas",
        [
            &mut || {
                repeat(512, &&blocks[..], |&blocks| {
                    black_box(capi::vote(blocks, 2, 256, &mut ours));
                })
            },
            &mut || {
                repeat(512, &&blocks[..], |&blocks| {
                    black_box(reference::vote(blocks, 2, 256, &mut theirs));
                })
            },
        ],
    );
}

/// What a whole vote cannot do without where all are equal: block by block, each other output is compared with the
/// first, and the block is copied. Gives how many blocks are equal.
fn compare_and_copy(
    (compare, copy): (Memcmp, Memcpy),
    outputs: &[u8],
    length: usize,
    output: &mut [u8],
) -> usize {
    let mut count = 0;
    for (number, target) in output[..length].chunks_mut(BLOCK).enumerate() {
        let start = number * BLOCK;
        let block = &outputs[start..start + target.len()];
        let others = outputs[length..].chunks_exact(length);
        count += others
            .filter(|other| equal(compare, block, &other[start..start + target.len()]))
            .count();
        let (to, from) = (target.as_mut_ptr().cast(), block.as_ptr().cast());
        // SAFETY: the target is as long as the block, and lies elsewhere.
        unsafe { copy(to, from, block.len()) };
    }
    count
}

/// A row for outputs that are equal, but for the last byte of the last one where `differs`.
fn whole(name: &str, replicas: usize, length: usize, differs: bool) {
    let mut outputs = vec![7; replicas * length];
    outputs[replicas * length - 1] -= differs as u8;
    let (mut ours, mut theirs) = (vec![0; length], vec![0; length]);
    let library = black_box((memcmp as Memcmp, memcpy as Memcpy));
    let left = replicas - differs as usize;
    let verdict = capi::vote_whole(&outputs, replicas, length, &mut ours);
    assert_eq!((verdict.number, verdict.value as usize), (0, left));
    let equal_blocks = (replicas - 1) * length.div_ceil(BLOCK) - differs as usize;
    let count = compare_and_copy(library, &outputs, length, &mut theirs);
    assert_eq!((count, &theirs), (equal_blocks, &ours));
    row(
        name,
        [
            &mut || {
                repeat(WHOLE_CALLS, &&outputs[..], |&outputs| {
                    black_box(capi::vote_whole(outputs, replicas, length, &mut ours));
                })
            },
            &mut || {
                repeat(WHOLE_CALLS, &&outputs[..], |&outputs| {
                    black_box(compare_and_copy(library, outputs, length, &mut theirs));
                })
            },
        ],
    );
}

pub fn tables() {
    blocks_table();
    whole_table();
}

fn blocks_table() {
    head(
        "The vote, against memcmp of the same pairs and of all pairs",
        "blocks",
        &["second", "memcmp", "memcmp, all"],
    );
    for (replicas, block_len) in [(3, 16), (3, 256), (3, 4096), (16, 256), (16, 4096)] {
        let name = format!("{replicas} of {}, equal", figure(block_len));
        vote(
            &name,
            &blocks(replicas, block_len, 1, 0),
            replicas,
            block_len,
        );
    }
    for (name, distinct, place) in [
        ("two contents, the last byte", 2, 4095),
        ("all different, the last byte", 16, 4095),
        ("all different, the first byte", 16, 0),
    ] {
        let blocks = blocks(16, 4096, distinct, place);
        vote(&format!("16 of 4,096, {name}"), &blocks, 16, 4096);
    }
}

fn whole_table() {
    const LENGTH: usize = 1 << 20;
    head(
        "Whole votes against memcmp and memcpy by blocks (target: at most 1.7 for three, 2.2 for sixteen)",
        "outputs",
        &["memcmp and memcpy"],
    );
    for replicas in [3, 16] {
        let name = format!("{replicas} of {}", figure(LENGTH));
        whole(&format!("{name}, equal"), replicas, LENGTH, false);
        let differs = format!("{name}, one different, the last byte");
        whole(&differs, replicas, LENGTH, true);
    }
}
