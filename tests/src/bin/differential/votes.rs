//! Votes: every number of replicas, random blocks, and numbers that no buffer has.
//! Whole votes take some of the inputs too.

use crate::tester::Tester;
use crate::twin::Twin;
use poheldu_tests::random::Random;
use std::ops::Range;

pub const HUGE: [usize; 10] = [
    1 << 32,
    (1 << 32) + 3,
    (1 << 32) + 16,
    (1 << 63) - 1,
    1 << 63,
    (1 << 63) + 1,
    (1 << 63) + 4,
    usize::MAX - 3,
    usize::MAX - 1,
    usize::MAX,
];

/// Every number of replicas with every block length at an edge.
pub fn vote_grid(tester: &mut Tester, rng: &mut Random) {
    for replicas in 0..=17 {
        for block_len in [0, 1, 2, 4_095, 4_096, 4_097] {
            let blocks = replica_blocks(rng, replicas, block_len);
            let mut output = Twin::new(&vec![0x3F; block_len + 3], 0);
            tester.vote(&mut Twin::new(&blocks, 0), replicas, block_len, &mut output);
        }
    }
}

/// Each replica in turn is the lowest winner: those before it have contents of
/// their own, and from it on all share one, or every other one does and the rest
/// share another.
pub fn each_lowest(tester: &mut Tester) {
    for replicas in 3..=16 {
        for lowest in 0..replicas {
            for contents in [1, 2] {
                let content = |replica: usize| match replica.checked_sub(lowest) {
                    None => replica,
                    Some(later) => replicas + later % contents,
                };
                let blocks: Vec<u8> = (0..replicas).map(|r| content(r) as u8).collect();
                let mut output = Twin::new(b"?", 0);
                tester.vote(&mut Twin::new(&blocks, 0), replicas, 1, &mut output);
            }
        }
    }
}

/// Numbers near 2^32, 2^63 and 2^64 with buffers of a few bytes, as votes and as
/// whole votes.
pub fn huge_votes(tester: &mut Tester) {
    for huge in HUGE {
        for other in [0, 1, 2, 3, 4, 1 << 32, 1 << 63, usize::MAX] {
            for len in [0, 3, 4] {
                let mut blocks = Twin::new(&b"AAAA"[..len], 0);
                let mut output = Twin::new(b"????", 0);
                for (replicas, len) in [(huge, other), (other, huge)] {
                    tester.vote(&mut blocks, replicas, len, &mut output);
                    tester.vote_whole(&mut blocks, replicas, len, &mut output);
                }
            }
        }
    }
}

/// The inputs of a vote, on blocks or on whole outputs: these, how many, the
/// length of one, and the output.
pub struct Vote {
    pub outputs: Vec<u8>,
    pub replicas: usize,
    pub length: usize,
    pub output: Vec<u8>,
}

pub fn vote(rng: &mut Random) -> Vote {
    if rng.once_in(8) {
        return huge_vote(rng);
    }
    let replicas = replica_count(rng);
    let block_len = block_length(rng);
    let blocks = replica_blocks(rng, replicas, block_len);
    lend(rng, blocks, replicas, block_len)
}

pub fn replica_count(rng: &mut Random) -> usize {
    match rng.below(6) {
        0 => rng.below(18),
        _ => rng.between(3, 16),
    }
}

/// Outputs that are lent whole, seldom not, and an output for the winner's.
pub fn lend(rng: &mut Random, mut outputs: Vec<u8>, replicas: usize, length: usize) -> Vote {
    if rng.once_in(12) {
        outputs.resize(wrong_length(rng, outputs.len(), length), 7);
    }
    let output_len = output_length(rng, length);
    Vote {
        outputs,
        replicas,
        length,
        output: rng.bytes(output_len),
    }
}

fn block_length(rng: &mut Random) -> usize {
    match rng.below(24) {
        0 => rng.pick(&[0, 4_097, 5_000]),
        1 => rng.pick(&[4_095, 4_096, 4_097]),
        2 => rng.between(1, 4_096),
        // Next to powers of two, where code that works by strides goes wrong.
        3 => (1 << rng.between(3, 11)) + rng.below(3) - 1,
        4..=8 => rng.between(3, 100),
        9..=15 => 2,
        _ => 1,
    }
}

/// Few distinct contents, which differ in one byte only.
pub fn replica_blocks(rng: &mut Random, replicas: usize, block_len: usize) -> Vec<u8> {
    let mut blocks = rng.bytes(block_len).repeat(replicas);
    differ(rng, &mut blocks, block_len, 0..block_len);
    blocks
}

/// Gives equal outputs few distinct contents, which differ in one byte of a block
/// only.
pub fn differ(rng: &mut Random, outputs: &mut [u8], length: usize, block: Range<usize>) {
    if block.is_empty() {
        return;
    }
    let distinct = rng.pick(&[1, 2, 2, 3, 4, 5, 8, 17]);
    let at = match rng.below(3) {
        0 => block.start,
        1 => block.end - 1,
        _ => rng.between(block.start, block.end - 1),
    };
    for (replica, output) in outputs.chunks_exact_mut(length).enumerate() {
        let kind = match distinct {
            17 => replica,
            _ => rng.below(distinct),
        };
        output[at] ^= kind as u8;
    }
}

fn wrong_length(rng: &mut Random, right: usize, length: usize) -> usize {
    rng.pick(&[
        0,
        right + 1,
        right.saturating_sub(1),
        right + length,
        right.saturating_sub(length),
    ])
}

fn output_length(rng: &mut Random, length: usize) -> usize {
    match rng.below(14) {
        0 => length.saturating_sub(1),
        1 => 0,
        2 => rng.below(length + 1),
        3 => length + 1,
        4 => length + rng.below(300),
        _ => length,
    }
}

/// Numbers near 2^32, 2^63 and 2^64 beside small buffers; often their product
/// wraps to the buffer's length.
pub fn huge_vote(rng: &mut Random) -> Vote {
    let small = rng.between(1, 16);
    let (replicas, length) = match rng.below(6) {
        0 => (rng.pick(&HUGE), small),
        1 => (small, rng.pick(&HUGE)),
        2 => (rng.pick(&HUGE), rng.pick(&HUGE)),
        3 => (small, wrapping_partner(rng, small)),
        4 => (wrapping_partner(rng, small), small),
        _ => ((rng.below(3) << 32) + 3, (rng.below(3) << 32) + small),
    };
    let product = replicas.wrapping_mul(length);
    let low = (replicas & 0xFF) * (length & 0xFF);
    let len = if product <= 256 { product } else { low % 4_096 };
    let output_len = rng.below(64);
    Vote {
        outputs: vec![rng.byte(); len],
        replicas,
        length,
        output: rng.bytes(output_len),
    }
}

/// A number that multiplied by `small` just passes 2^64.
fn wrapping_partner(rng: &mut Random, small: usize) -> usize {
    let quotient = (1u128 << 64).div_ceil(small as u128);
    (quotient as usize).wrapping_add(rng.below(8))
}
