//! Prints, by the second implementation, what `benchrun` prints.

use poheldu_tests::reference::{metadata_length, open, serve};
use std::io::{self, BufRead, BufWriter, Read, Write};

const HEAP_LENGTH: usize = 12 * 4_096;
/// Four zero bytes.
const PATTERN: u32 = 0;

fn main() -> io::Result<()> {
    let mut output = BufWriter::new(io::stdout().lock());
    run(&mut io::stdin().lock(), &mut output)?;
    output.flush()
}

fn run(input: &mut impl BufRead, output: &mut impl Write) -> io::Result<()> {
    let mut heap = vec![0; HEAP_LENGTH];
    let mut metadata = vec![0; metadata_length(HEAP_LENGTH)];
    open(&mut heap, &mut metadata, 1, 1, PATTERN);
    let mut request = Vec::with_capacity(16);
    for line in 1u64.. {
        request.clear();
        input.by_ref().take(16).read_to_end(&mut request)?;
        if request.is_empty() {
            break;
        }
        let answer = serve(&mut heap, &mut metadata, &request, &[], &[]);
        writeln!(output, "{line} {} {}", answer.number, answer.value)?;
    }
    Ok(())
}
