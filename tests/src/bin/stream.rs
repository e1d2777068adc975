//! Writes random requests for `benchrun` to standard output: `stream COUNT [SEED]`.

use poheldu_tests::random::Random;
use std::io::{self, Write};

/// The four words of a request that `benchrun` may see: mostly valid, on its heap of 49,152 bytes.
fn request(random: &mut Random) -> [u32; 4] {
    let offset = if random.once_in(2) {
        8 * random.below(6200)
    } else {
        random.below(50_000)
    } as u32;
    let bits = random.between(1, 15);
    match random.below(9) {
        0..=2 => [0, random.below(1 << bits) as u32, 0, 0],
        3..=4 => [1, offset, 0, 0],
        5 => [2, offset, 0, 0],
        6 => [random.between(3, 4) as u32, offset, 0, 0],
        7 => [6, offset, random.below(1 << bits) as u32, 0],
        _ => [
            random.below(8) as u32,
            offset,
            random.below(40) as u32,
            u32::from(random.once_in(9)),
        ],
    }
}

fn main() -> io::Result<()> {
    let numbers: Vec<u64> = std::env::args()
        .skip(1)
        .filter_map(|a| a.parse().ok())
        .collect();
    let mut random = Random::new(numbers.get(1).copied().unwrap_or(1));
    let mut out = io::BufWriter::new(io::stdout().lock());
    for _ in 0..numbers.first().copied().unwrap_or(1000) {
        for word in request(&mut random) {
            out.write_all(&word.to_le_bytes())?;
        }
    }
    // a last part that is cut short
    out.write_all(&[0; 7])?;
    out.flush()
}
