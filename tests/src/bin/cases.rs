//! Writes the input of the program `conformance` to standard output, from cases as text: `cases FILE..`, the files in their order.
//!
//! A case begins with a line that opens a heap, and goes on with lines of its source, of its requests and of its votes:
//!
//!     open heap=12*4096 z=1 w=1 pattern=0x07050301
//!     source "Bertrand\0"
//!     place 5; text 640
//!
//! - `open`: the heap's length, both seeds and the pattern, each named and all four there. Numbers are below 2^32, decimal or
//!   hexadecimal (0x), and may be products.
//! - `source "TEXT"`: bytes that every request of the case is lent; `\0`, `\\` and `\"` stand for a zero byte, a backslash and a
//!   quote. `source letters N`: N bytes, the letters A to Z over and over. A further line's bytes come after those before.
//! - `source-at N "TEXT"`: from byte N of the last source line on, these bytes in place of those that it has there.
//! - Requests in the words of `assemble`, several of them in a line with `;` between: place SIZE, free OFFSET, measure OFFSET,
//!   copy OFFSET, text OFFSET, counted OFFSET COUNT, read OFFSET COUNT. `bytes 07 00000000 ..`: these, in hexadecimal, as they
//!   are, and so malformed requests too. `N times REQUEST`: it, N times.
//! - `vote REPLICAS LENGTH`: so many replicas vote on the source, so many bytes of each: as blocks, and as whole outputs. Without such a
//!   line both numbers are 0.
//! - `source-length N`, `request-count N`: what the header says in place of what is there.
//! - What comes after `#` is a comment, unless it stands between quotes; a line may be empty.
//!
//! What an opening does not write stays as the case before left it, so that the order of the cases matters.

use std::io::{self, Write};
use std::process::ExitCode;

const REQUEST: usize = 16;
const OPERATIONS: [&str; 7] = [
    "place", "free", "measure", "copy", "text", "counted", "read",
];
/// The first operation that has a count.
const COUNTED: usize = 5;
const OPENED_WITH: [&str; 4] = ["heap", "z", "w", "pattern"];

type Read<T> = Result<T, String>;

#[derive(Default)]
struct Case {
    opened_with: [u32; 4],
    source: Vec<u8>,
    /// Where the last line of the source begins in it.
    last_line: usize,
    requests: Vec<u8>,
    source_length: Option<u32>,
    request_count: Option<u32>,
    /// How many replicas, and the length of their blocks or whole outputs.
    vote: [u32; 2],
}

impl Case {
    /// A header of eight words, the source and the requests.
    fn bytes(&self) -> Vec<u8> {
        let source_length = self.source_length.unwrap_or(self.source.len() as u32);
        let requests = self.requests.len().div_ceil(REQUEST) as u32;
        let mut header = self.opened_with.to_vec();
        header.extend([source_length, self.request_count.unwrap_or(requests)]);
        header.extend(self.vote);
        let header = header.iter().flat_map(|word| word.to_le_bytes());
        header
            .chain(self.source.iter().copied())
            .chain(self.requests.iter().copied())
            .collect()
    }

    /// A line that does not open a case.
    fn line(&mut self, line: &str) -> Read<()> {
        let (word, rest) = line.split_once(' ').unwrap_or((line, ""));
        match word {
            "source" => {
                self.last_line = self.source.len();
                self.source.extend(source(rest.trim())?);
            }
            "source-at" => self.change_source(rest.trim())?,
            "source-length" => self.source_length = Some(number(rest)?),
            "request-count" => self.request_count = Some(number(rest)?),
            "vote" => self.vote = vote(rest)?,
            _ => {
                for request in line.split(';') {
                    self.requests.extend(requests(request)?);
                }
            }
        }
        Ok(())
    }

    /// What stands after `source-at`.
    fn change_source(&mut self, text: &str) -> Read<()> {
        let (at, text) = text.split_once(' ').ok_or("expected a number and a text")?;
        let (at, bytes) = (number(at)? as usize, quoted(text.trim())?);
        let place = self.source[self.last_line..].get_mut(at..at + bytes.len());
        let place = place.ok_or("expected a place within the last source line")?;
        place.copy_from_slice(&bytes);
        Ok(())
    }
}

/// A product of numbers, decimal or hexadecimal.
fn number(text: &str) -> Read<u32> {
    let wrong = || format!("expected a number below 2^32, found \"{}\"", text.trim());
    text.split('*').try_fold(1u32, |product, factor| {
        let factor = factor.trim();
        let factor = match factor.strip_prefix("0x") {
            Some(digits) => u32::from_str_radix(digits, 16),
            None => factor.parse(),
        };
        product
            .checked_mul(factor.map_err(|_| wrong())?)
            .ok_or_else(wrong)
    })
}

/// What stands after `open`: each of the four once.
fn opening(text: &str) -> Read<[u32; 4]> {
    let mut found = [None; 4];
    for setting in text.split_whitespace() {
        let (name, value) = setting.split_once('=').ok_or("expected NAME=NUMBER")?;
        let place = OPENED_WITH.iter().position(|&known| known == name);
        let place =
            place.ok_or_else(|| format!("expected heap, z, w or pattern, found \"{name}\""))?;
        if found[place].replace(number(value)?).is_some() {
            return Err(format!("{name} is there twice"));
        }
    }
    let mut all = [0; 4];
    for (place, value) in found.into_iter().enumerate() {
        all[place] = value.ok_or_else(|| format!("{} is missing", OPENED_WITH[place]))?;
    }
    Ok(all)
}

/// What stands after `vote`.
fn vote(text: &str) -> Read<[u32; 2]> {
    let words: Vec<&str> = text.split_whitespace().collect();
    let [replicas, length] = words[..] else {
        return Err("expected replicas and a length".into());
    };
    Ok([number(replicas)?, number(length)?])
}

/// What stands after `source`.
fn source(text: &str) -> Read<Vec<u8>> {
    if let Some(count) = text.strip_prefix("letters ") {
        return Ok((b'A'..=b'Z')
            .cycle()
            .take(number(count)? as usize)
            .collect());
    }
    if !text.starts_with('"') {
        return Err("expected letters N or a text between quotes".into());
    }
    quoted(text)
}

/// The bytes that a text between quotes stands for.
fn quoted(text: &str) -> Read<Vec<u8>> {
    let quoted = text
        .strip_prefix('"')
        .and_then(|text| text.strip_suffix('"'));
    let mut rest = quoted.ok_or("expected a text between quotes")?.chars();
    let mut bytes = Vec::new();
    while let Some(char) = rest.next() {
        let char = match char {
            '\\' => match rest.next() {
                Some('0') => '\0',
                Some(char @ ('\\' | '"')) => char,
                _ => return Err("expected 0, \\ or \" after \\".into()),
            },
            char => char,
        };
        bytes.push(u8::try_from(char).map_err(|_| "expected ASCII")?);
    }
    Ok(bytes)
}

/// The bytes of a request, or of many.
fn requests(text: &str) -> Read<Vec<u8>> {
    let words: Vec<&str> = text.split_whitespace().collect();
    match words[..] {
        [times, "times", ref request @ ..] => {
            let one = requests(&request.join(" "))?;
            Ok(one.repeat(number(times)? as usize))
        }
        ["bytes", ref digits @ ..] => hexadecimal(&digits.concat()),
        [operation, ref numbers @ ..] => request(operation, numbers),
        [] => Err("expected a request".into()),
    }
}

fn request(name: &str, numbers: &[&str]) -> Read<Vec<u8>> {
    let operation = OPERATIONS.iter().position(|&known| known == name);
    let operation = operation.ok_or_else(|| format!("expected a request, found \"{name}\""))?;
    let (argument, count) = match *numbers {
        [argument] if operation < COUNTED => (argument, "0"),
        [argument, count] if operation >= COUNTED => (argument, count),
        _ => return Err(format!("expected the numbers that {name} has")),
    };
    let words = [operation as u32, number(argument)?, number(count)?, 0];
    Ok(words.iter().flat_map(|word| word.to_le_bytes()).collect())
}

fn hexadecimal(digits: &str) -> Read<Vec<u8>> {
    let wrong = "expected bytes in hexadecimal";
    if digits.len() % 2 != 0 || !digits.bytes().all(|digit| digit.is_ascii_hexdigit()) {
        return Err(wrong.into());
    }
    let byte = |at| u8::from_str_radix(&digits[at..at + 2], 16).map_err(|_| wrong.to_string());
    (0..digits.len()).step_by(2).map(byte).collect()
}

/// A line up to its comment.
fn without_comment(line: &str) -> &str {
    let (mut quoted, mut escaped) = (false, false);
    for (at, char) in line.char_indices() {
        match char {
            '#' if !quoted => return &line[..at],
            '"' if !escaped => quoted = !quoted,
            _ => {}
        }
        escaped = char == '\\' && !escaped;
    }
    line
}

fn read(text: &str) -> Read<Vec<Case>> {
    let mut cases: Vec<Case> = Vec::new();
    for (at, line) in text.lines().enumerate() {
        let line = without_comment(line).trim();
        let done = match line.strip_prefix("open ") {
            _ if line.is_empty() => Ok(()),
            Some(rest) => opening(rest).map(|opened_with| {
                cases.push(Case {
                    opened_with,
                    ..Case::default()
                });
            }),
            None => match cases.last_mut() {
                Some(case) => case.line(line),
                None => Err("expected open".into()),
            },
        };
        done.map_err(|message| format!("{}: {message}", at + 1))?;
    }
    Ok(cases)
}

fn main() -> ExitCode {
    let mut out = io::stdout().lock();
    for file in std::env::args().skip(1) {
        let cases = std::fs::read_to_string(&file)
            .map_err(|error| format!(" {error}"))
            .and_then(|text| read(&text));
        let bytes = cases.map(|cases| cases.iter().flat_map(Case::bytes).collect::<Vec<u8>>());
        let written =
            bytes.and_then(|bytes| out.write_all(&bytes).map_err(|error| format!(" {error}")));
        if let Err(message) = written {
            eprintln!("{file}:{message}");
            return ExitCode::FAILURE;
        }
    }
    ExitCode::SUCCESS
}

#[cfg(test)]
mod tests {
    use super::*;

    fn bytes_of(text: &str) -> Vec<u8> {
        let cases = read(text).expect("good cases");
        cases.iter().flat_map(Case::bytes).collect()
    }

    fn words(words: &[u32]) -> Vec<u8> {
        words.iter().flat_map(|word| word.to_le_bytes()).collect()
    }

    #[test]
    fn a_case_is_its_header_source_and_requests() {
        let text = "open heap=12*4096 z=1 w=0x10 pattern=7 # a comment\nsource \"A#\\0\"\nplace 5; counted 640 4\nvote 3 0x1\n";
        let mut expected = words(&[49_152, 1, 16, 7, 3, 2, 3, 1]);
        expected.extend(b"A#\0");
        expected.extend(words(&[0, 5, 0, 0, 5, 640, 4, 0]));
        assert_eq!(bytes_of(text), expected);
    }

    #[test]
    fn requests_are_repeated_and_may_be_any_bytes() {
        let text = "open heap=1 z=2 w=3 pattern=4\n2 times free 8\nbytes 07 0102\nsource letters 28\nsource-length 5\n";
        let mut expected = words(&[1, 2, 3, 4, 5, 3, 0, 0]);
        expected.extend(b"ABCDEFGHIJKLMNOPQRSTUVWXYZAB");
        expected.extend(words(&[1, 8, 0, 0, 1, 8, 0, 0]));
        expected.extend([7, 1, 2]);
        assert_eq!(bytes_of(text), expected);
    }

    #[test]
    fn source_lines_are_changed_each_by_itself() {
        let text = "open heap=1 z=2 w=3 pattern=4\nsource letters 3\nsource letters 4\nsource-at 2*1 \"x\\0\"\nsource-at 0 \"y\"\nsource \"DE\"\nsource-at 2 \"\"\n";
        let mut expected = words(&[1, 2, 3, 4, 9, 0, 0, 0]);
        expected.extend(b"ABCyBx\0DE");
        assert_eq!(bytes_of(text), expected);
    }

    #[test]
    fn bad_lines_are_named() {
        let open = "open heap=1 z=2 w=3 pattern=4\n";
        for bad in [
            "place",
            "place 5 6",
            "counted 5",
            "place 4294967296",
            "leave 5",
            "bytes 0",
            "bytes 0g",
            "place 5;",
            "source A",
            "source \"\\n\"",
            "2 times",
            "x times place 5",
            "open heap=1",
            "request-count",
            "source letters",
            "source-at 0 \"x\"",
            "source-at",
            "vote 3",
            "vote 3 1 1",
        ] {
            let found = read(&format!("{open}{bad}")).err().unwrap_or_default();
            assert!(found.starts_with("2: "), "{bad}: {found}");
        }
        for bad in [
            "2 \"x\"",
            "1 \"xy\"",
            "4294967295 \"x\"",
            "0",
            "\"x\"",
            "x \"x\"",
            "0 x",
            "0 letters 1",
        ] {
            let found = read(&format!("{open}source \"AB\"\nsource-at {bad}"))
                .err()
                .unwrap_or_default();
            assert!(found.starts_with("3: "), "{bad}: {found}");
        }
        assert!(read("place 5").is_err());
        assert!(read("open heap=1 z=2 w=3 pattern=4 z=2").is_err());
    }
}
