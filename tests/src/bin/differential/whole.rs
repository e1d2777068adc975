//! Whole votes: replicas that differ block by block, every limit, and random
//! outputs.

use crate::kinds::{INVALIDS, WHOLES};
use crate::session::expect;
use crate::tester::Tester;
use crate::twin::Twin;
use crate::votes::{self, Vote};
use poheldu_tests::inputs::{self, BLOCK};
use poheldu_tests::random::Random;
use poheldu_tests::reference::Verdict;

const LONGEST: usize = 1_048_576;
const NO_AGREEMENT: u32 = 12;

/// Lengths next to the ends of blocks.
const EDGES: [usize; 9] = [0, 1, 2, 4_095, 4_096, 4_097, 8_191, 8_192, 8_193];

/// Outputs by their letters (`inputs::outputs`), and who is left at the end, or
/// the block that finds no agreement.
const BY_LETTERS: [(&[&str], Result<u32, u32>); 25] = [
    (&["a", "a", "a"], Ok(0b111)),
    (&["a", "b", "a"], Ok(0b101)),
    (&["a", "b", "c"], Err(0)),
    (&["x", "b", "a", "a", "b"], Ok(0b10010)),
    (&["aa", "aa", "aa", "ba"], Ok(0b111)),
    (&["aa", "ba", "ca"], Err(0)),
    (&["aa", "ab", "ac"], Err(1)),
    // Who is out agrees again, and is not named.
    (&["aa", "aa", "ba"], Ok(0b011)),
    (&["ba", "aa", "aa"], Ok(0b110)),
    (&["aba", "aaa", "aaa"], Ok(0b110)),
    // Two are left, and agree to the end or not.
    (&["aaaa", "baaa", "aaaa"], Ok(0b101)),
    (&["aaab", "aaaa", "baaa"], Err(3)),
    (&["aab", "aaa", "baa"], Err(2)),
    (&["aa", "ab", "bb"], Err(1)),
    (&["ba", "aa", "ab"], Err(1)),
    // Who is out would have most votes, would break a tie, or would decide it.
    (&["aa", "aa", "bb", "cb", "db"], Ok(0b00011)),
    (&["aa", "ab", "ab", "aa", "bb"], Ok(0b01001)),
    (&["bb", "aa", "ab", "ab", "aa"], Ok(0b10010)),
    (&["aaab", "aaac", "baac", "aaab", "aaac"], Ok(0b01001)),
    // More than half have one output.
    (&["aba", "aaa", "baa", "aaa", "aaa"], Ok(0b11010)),
    (&["bbb", "aaa", "bbb", "aaa", "aaa"], Ok(0b11010)),
    // Many who agree lose to more, and those to who is left.
    (&["aa", "aa", "bb", "bb", "bb"], Ok(0b11100)),
    (&["bc", "bd", "be", "aa", "aa"], Err(1)),
    (&["abcd", "xbcd", "axcd", "abxd", "abcd"], Ok(0b10001)),
    (&["abcdx", "abcde", "abcde", "abcdx", "xbcdx"], Ok(0b01001)),
];

pub fn by_letters(tester: &mut Tester) {
    for last in [1, 2, BLOCK - 1, BLOCK] {
        for (replicas, left) in BY_LETTERS {
            lettered(tester, replicas, last, left);
        }
    }
    // Of sixteen each block loses one, until the last two are left.
    let letter = |replica, block| if replica == block { 'b' } else { 'a' };
    let letters = |replica| (0..14).map(|block| letter(replica, block)).collect();
    let replicas: Vec<String> = (0..16).map(letters).collect();
    let replicas: Vec<&str> = replicas.iter().map(String::as_str).collect();
    lettered(tester, &replicas, 1, Ok(3 << 14));
}

fn lettered(tester: &mut Tester, replicas: &[&str], last: usize, left: Result<u32, u32>) {
    let outputs = inputs::outputs(replicas, last);
    let length = outputs.len() / replicas.len();
    let mut lent = Twin::new(&outputs, 0);
    let mut output = Twin::new(&vec![b'?'; length + 3], 0);
    let verdict = tester.vote_whole(&mut lent, replicas.len(), length, &mut output);
    let (number, mask, value, replica, written) = match left {
        Ok(mask) => (0, mask, mask.count_ones(), mask.trailing_zeros(), length),
        Err(block) => (NO_AGREEMENT, 0, block, 0, block as usize * BLOCK),
    };
    let expected = Verdict {
        number,
        mask,
        value,
        replica,
    };
    expect(verdict == expected, "a whole vote of the document");
    let kept = &output.bytes()[written..];
    expect(
        kept.iter().all(|&byte| byte == b'?'),
        "bytes behind what a whole vote writes",
    );
}

/// Every number of replicas with lengths next to the ends of blocks: all right,
/// or the buffers a byte, a replica's output or the rest of a block out.
pub fn limits(tester: &mut Tester, rng: &mut Random) {
    for replicas in 0..=17 {
        for length in EDGES {
            let outputs = outputs(rng, replicas, length);
            let right = outputs.len();
            let rounded = replicas * length.next_multiple_of(BLOCK);
            for (lent, output_len) in [
                (right, length),
                (right, length + 3),
                (right, length.saturating_sub(1)),
                (right, 0),
                (right + 1, length),
                (right.saturating_sub(1), length),
                (right + length, length),
                (rounded, length),
            ] {
                let mut outputs = outputs.clone();
                outputs.resize(lent, 7);
                let mut output = Twin::new(&vec![0x3F; output_len], 0);
                tester.vote_whole(&mut Twin::new(&outputs, 0), replicas, length, &mut output);
            }
        }
    }
}

/// The longest outputs that are allowed, and those a byte shorter and longer:
/// equal, with one that differs in its last byte, and with three that do.
pub fn longest(tester: &mut Tester) {
    let left = |mask: u32| (0, mask, mask.count_ones());
    for (length, last, expected) in [
        (LONGEST - 1, b"aba", left(5)),
        (LONGEST, b"baa", left(6)),
        (LONGEST, b"abc", (NO_AGREEMENT, 0, 255)),
        (LONGEST + 1, b"aaa", (15, 0, 0)),
    ] {
        let mut outputs = vec![0x55; 3 * length];
        for (output, letter) in outputs.chunks_exact_mut(length).zip(last) {
            output[length - 1] = *letter;
        }
        let mut output = Twin::new(&vec![0x3F; length], 0);
        let verdict = tester.vote_whole(&mut Twin::new(&outputs, 0), 3, length, &mut output);
        expect(
            (verdict.number, verdict.mask, verdict.value) == expected,
            "a vote on the longest outputs",
        );
    }
}

/// Outputs are judged before agreement: no two of these agree.
pub fn judged_first(tester: &mut Tester) {
    for (outputs, replicas, length, output_len) in [
        (&b"ab"[..], 2, 1, 1),
        (b"abcdefghijklmnopq", 17, 1, 1),
        (b"abcd", 3, 1, 1),
        (b"ab", 3, 1, 1),
        (b"abcdef", 3, 2, 1),
        (b"abc", 3, 1, 0),
    ] {
        let mut output = Twin::new(&b"?"[..output_len], 0);
        let verdict = tester.vote_whole(&mut Twin::new(outputs, 0), replicas, length, &mut output);
        expect(verdict.number == 15, "outputs that are judged first");
    }
}

pub fn whole_vote(rng: &mut Random) -> Vote {
    if rng.once_in(8) {
        return votes::huge_vote(rng);
    }
    let replicas = votes::replica_count(rng);
    let length = length(rng);
    let outputs = outputs(rng, replicas, length);
    votes::lend(rng, outputs, replicas, length)
}

/// Long ones are rare: they take as long as a thousand others.
fn length(rng: &mut Random) -> usize {
    match rng.below(1_000) {
        0 => rng.pick(&[65_536, 100_001, LONGEST - 1, LONGEST, LONGEST + 1]),
        1..=15 => 0,
        16..=50 => rng.between(1, 5 * BLOCK),
        51..=350 => BLOCK * rng.between(1, 3) + rng.below(5) - 2,
        351..=500 => BLOCK + 1,
        _ => rng.between(1, 100),
    }
}

/// Equal outputs, but for a few blocks.
fn outputs(rng: &mut Random, replicas: usize, length: usize) -> Vec<u8> {
    let mut outputs = rng.bytes(length).repeat(replicas);
    for _ in 0..rng.below(5) {
        let start = rng.below(length.div_ceil(BLOCK).max(1)) * BLOCK;
        let block = start..length.min(start + BLOCK);
        votes::differ(rng, &mut outputs, length, block);
    }
    outputs
}

/// Who is left at the end are just those whose output was written.
pub fn expect_written(outputs: &[u8], length: usize, output: &[u8], verdict: Verdict) {
    for (replica, whole) in outputs.chunks_exact(length).enumerate() {
        let left = verdict.mask >> replica & 1 == 1;
        expect(
            verdict.number != 0 || left == (*whole == output[..length]),
            "who is left at the end of a whole vote",
        );
    }
}

/// Which of `WHOLE_KINDS` a whole vote was.
pub fn kinds(outputs: &[u8], length: usize, output: &[u8], verdict: Verdict) -> [bool; WHOLES] {
    let (served, split) = (verdict.number == 0, verdict.number == NO_AGREEMENT);
    let later = split && verdict.value > 0;
    let agreed = verdict.value as usize * BLOCK;
    let begins_so = |whole: &&[u8]| whole[..agreed] == output[..agreed];
    let (blocks, last) = (served && length > BLOCK, length % BLOCK);
    [
        split && verdict.value == 0,
        later,
        later && outputs.chunks_exact(length).filter(begins_so).count() == 2,
        served && verdict.value == 2,
        blocks && last > 1,
        blocks && last == 1,
        blocks && last == 0,
        length == LONGEST,
        blocks && agrees_again(outputs, length, output),
    ]
}

/// Which of `INVALID_KINDS` a whole vote was: what alone is wrong with it.
pub fn invalid_kinds(
    outputs_len: usize,
    replicas: usize,
    length: usize,
    output_len: usize,
) -> [bool; INVALIDS] {
    let (lent, right) = (outputs_len as u128, replicas as u128 * length as u128);
    let wrong = [
        replicas < 3,
        replicas > 16,
        length == 0,
        length > LONGEST,
        lent < right,
        lent > right,
        output_len < length,
    ];
    let alone = wrong.iter().filter(|&&wrong| wrong).count() == 1;
    let wraps = lent != right && lent == right % (1 << 64);
    let mut kinds = [wraps; INVALIDS];
    kinds[..INVALIDS - 1].copy_from_slice(&wrong.map(|wrong| wrong && alone));
    kinds
}

/// Whether a replica differs from the output that was written, and agrees with
/// it in a later block.
fn agrees_again(outputs: &[u8], length: usize, output: &[u8]) -> bool {
    outputs.chunks_exact(length).any(|whole| {
        let blocks = whole.chunks(BLOCK).zip(output[..length].chunks(BLOCK));
        let mut later = blocks.skip_while(|(block, written)| block == written);
        later.any(|(block, written)| block == written)
    })
}
