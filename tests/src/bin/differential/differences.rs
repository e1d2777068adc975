//! A difference between the two implementations, and what is said of it.

use crate::tester::Tester;
use crate::twin::{Item, Twin};
use poheldu_tests::reference::Part;
use std::fmt::{self, Debug, Display};

const MOST_BYTES_SHOWN: usize = 4_096;

/// What a call was given, for the message about a difference.
pub struct Call<'a> {
    pub name: Name,
    /// What buffers held before the call.
    pub buffers: &'a [(&'a str, &'a [u8])],
}

/// The call's name and its numbers.
pub enum Name {
    Open {
        heap_len: usize,
        z: u32,
        w: u32,
        pattern: u32,
    },
    Serve {
        heap_len: usize,
    },
    Read {
        heap_len: usize,
        offset: u32,
        count: u32,
    },
    Inspect {
        heap_len: usize,
        list_len: usize,
    },
    Vote {
        replicas: usize,
        block_len: usize,
        output_len: usize,
    },
    WholeVote {
        replicas: usize,
        length: usize,
        output_len: usize,
    },
    MetadataLength(usize),
    LookUp {
        heap_len: usize,
        class: u32,
        number: u32,
        offset: u32,
    },
}

struct Hex<'a>(&'a [u8]);

impl Display for Hex<'_> {
    fn fmt(&self, f: &mut fmt::Formatter) -> fmt::Result {
        write!(f, "{} bytes:", self.0.len())?;
        for byte in self.0.iter().take(MOST_BYTES_SHOWN) {
            write!(f, " {byte:02x}")?;
        }
        let cut = self.0.len() > MOST_BYTES_SHOWN;
        write!(f, "{}", if cut { " ..." } else { "" })
    }
}

impl Display for Name {
    fn fmt(&self, f: &mut fmt::Formatter) -> fmt::Result {
        match *self {
            Name::Open {
                heap_len,
                z,
                w,
                pattern,
            } => {
                write!(f, "open z={z:#x} w={w:#x} pattern={pattern:#x}, ")?;
                write!(f, "heap of {heap_len} bytes")
            }
            Name::Serve { heap_len } => write!(f, "serve, heap of {heap_len} bytes"),
            Name::Read {
                heap_len,
                offset,
                count,
            } => {
                write!(f, "read offset={offset} count={count}, ")?;
                write!(f, "heap of {heap_len} bytes")
            }
            Name::Inspect { heap_len, list_len } => {
                write!(f, "inspect, list of {list_len} numbers, ")?;
                write!(f, "heap of {heap_len} bytes")
            }
            Name::Vote {
                replicas,
                block_len,
                output_len,
            } => {
                writeln!(f, "vote replicas={replicas} block_len={block_len}")?;
                write!(f, "output of {output_len} bytes")
            }
            Name::WholeVote {
                replicas,
                length,
                output_len,
            } => {
                writeln!(f, "whole vote replicas={replicas} length={length}")?;
                write!(f, "output of {output_len} bytes")
            }
            Name::MetadataLength(heap_len) => write!(f, "metadata_length {heap_len}"),
            Name::LookUp {
                heap_len,
                class,
                number,
                offset,
            } => {
                write!(f, "slot {number} of class {class}, slot at {offset}, ")?;
                write!(f, "heap of {heap_len} bytes")
            }
        }
    }
}

impl Display for Call<'_> {
    fn fmt(&self, f: &mut fmt::Formatter) -> fmt::Result {
        write!(f, "{}", self.name)?;
        for (name, bytes) in self.buffers {
            write!(f, "\n{name}, {}", Hex(bytes))?;
        }
        Ok(())
    }
}

impl Tester {
    pub fn check<T: PartialEq + Debug>(&self, call: &Call, expected: T, got: T) {
        if expected != got {
            self.fail(
                call,
                &format!("answers: reference {expected:?}, library {got:?}"),
            );
        }
    }

    /// What a read shows lies within the buffer that it is said to be a part of.
    pub fn check_part(&self, call: &Call, part: Part, heap: &Twin, page: &Twin) {
        let whole = match part.of_page {
            0 => heap.shown,
            1 => page.shown,
            _ => self.fail(call, &format!("neither heap nor page: {part:?}")),
        };
        if part.start as usize + part.value as usize > whole {
            self.fail(call, &format!("past the end of {whole} bytes: {part:?}"));
        }
    }

    pub fn check_bytes(&self, call: &Call, twins: &[(&str, &Twin)]) {
        for (name, twin) in twins {
            self.check_twin(call, name, twin);
        }
    }

    pub fn check_twin<T: Item>(&self, call: &Call, name: &str, twin: &Twin<T>) {
        if let Some(difference) = twin.first_difference() {
            self.fail(call, &format!("{name}: {difference}"));
        }
    }

    pub fn fail(&self, call: &Call, what: &str) -> ! {
        println!("difference: seed {}, call {}", self.seed, self.calls);
        println!("{what}\n{call}");
        println!(
            "again with: --seed {} --calls {}",
            self.seed,
            self.calls.max(1)
        );
        std::process::exit(1)
    }
}
