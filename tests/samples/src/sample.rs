//! The sample's file. A deck begins with a line `deck NAME`, its answer with `answer`. A line of a deck or an answer is its
//! numbers, parted by single spaces, for columns of 11; or else, between quotes and with escapes, its bytes, behind a
//! count where there are several alike. Of a long answer there is `sha256` and its digest alone.

use std::fmt::Write as _;

use deck::write::row;
use source::sha256;

/// A longer answer is stored as its digest.
const LONG: usize = 4_000;

#[derive(Clone, Debug, PartialEq, Eq)]
pub struct Case {
    pub name: String,
    pub deck: Vec<u8>,
    pub answer: Stored,
}

/// An answer, or the SHA-256 of one.
#[derive(Clone, Debug, PartialEq, Eq)]
pub enum Stored {
    Text(Vec<u8>),
    Digest(String),
}

impl Stored {
    #[must_use]
    pub fn of(text: &[u8]) -> Self {
        if text.len() > LONG {
            Self::Digest(sha256(text))
        } else {
            Self::Text(text.to_vec())
        }
    }

    #[must_use]
    pub fn is_of(&self, text: &[u8]) -> bool {
        match self {
            Self::Text(stored) => stored == text,
            Self::Digest(digest) => *digest == sha256(text),
        }
    }
}

#[must_use]
pub fn write(cases: &[Case]) -> String {
    let mut out = String::new();
    for case in cases {
        writeln!(out, "deck {}", case.name).expect("a text takes all");
        write_lines(&mut out, &case.deck);
        out.push_str("answer\n");
        match &case.answer {
            Stored::Text(text) => write_lines(&mut out, text),
            Stored::Digest(digest) => writeln!(out, "sha256 {digest}").expect("a text takes all"),
        }
    }
    out
}

/// A deck or an answer as the file has it.
#[must_use]
pub fn lines(bytes: &[u8]) -> String {
    let mut out = String::new();
    write_lines(&mut out, bytes);
    out
}

fn write_lines(out: &mut String, bytes: &[u8]) {
    let lines: Vec<&[u8]> = bytes.split_inclusive(|&byte| byte == b'\n').collect();
    for alike in lines.chunk_by(|first, second| first == second) {
        match (numbers(alike[0]), alike.len()) {
            (Some(numbers), times) => (0..times).for_each(|_| writeln(out, &numbers)),
            (None, 1) => writeln(out, &quoted(alike[0])),
            (None, times) => writeln(out, &format!("{times} {}", quoted(alike[0]))),
        }
    }
}

fn writeln(out: &mut String, line: &str) {
    out.push_str(line);
    out.push('\n');
}

fn quoted(bytes: &[u8]) -> String {
    format!("\"{}\"", bytes.escape_ascii())
}

/// The numbers of a line that is nothing but numbers in their columns.
fn numbers(line: &[u8]) -> Option<String> {
    let text = std::str::from_utf8(line).ok()?;
    let numbers: Vec<u32> = text
        .split_ascii_whitespace()
        .map(str::parse)
        .collect::<Result<_, _>>()
        .ok()?;
    let plain: Vec<String> = numbers.iter().map(u32::to_string).collect();
    (!numbers.is_empty() && columns(&numbers) == line).then(|| plain.join(" "))
}

fn columns(numbers: &[u32]) -> Vec<u8> {
    let mut line = Vec::new();
    row(&mut line, numbers);
    line
}

/// The cases of a file's text.
///
/// # Errors
/// With the number of the line that is not of this form.
pub fn read(text: &str) -> Result<Vec<Case>, String> {
    let mut cases: Vec<Case> = Vec::new();
    let mut in_answer = false;
    for (number, line) in (1..).zip(text.lines()) {
        let place = || format!("line {number}: {line}");
        if let Some(name) = line.strip_prefix("deck ") {
            in_answer = false;
            cases.push(Case {
                name: name.to_owned(),
                deck: Vec::new(),
                answer: Stored::Text(Vec::new()),
            });
            continue;
        }
        let case = cases.last_mut().ok_or_else(place)?;
        if line == "answer" {
            in_answer = true;
        } else if let Some(digest) = line.strip_prefix("sha256 ") {
            case.answer = Stored::Digest(digest.to_owned());
        } else {
            let bytes = line_bytes(line).ok_or_else(place)?;
            match &mut case.answer {
                Stored::Text(text) if in_answer => text.extend(bytes),
                Stored::Text(_) => case.deck.extend(bytes),
                Stored::Digest(_) => return Err(place()),
            }
        }
    }
    Ok(cases)
}

fn line_bytes(line: &str) -> Option<Vec<u8>> {
    if let Some(text) = line.strip_suffix('"') {
        let (count, text) = text.split_once('"')?;
        let times = match count.strip_suffix(' ') {
            Some(count) => count.parse().ok()?,
            None => 1,
        };
        return Some(unescaped(text)?.repeat(times));
    }
    let numbers: Vec<u32> = line
        .split(' ')
        .map(str::parse)
        .collect::<Result<_, _>>()
        .ok()?;
    Some(columns(&numbers))
}

/// What `escape_ascii` made its text of.
fn unescaped(text: &str) -> Option<Vec<u8>> {
    let mut bytes = text.bytes();
    let mut out = Vec::new();
    while let Some(byte) = bytes.next() {
        out.push(match byte {
            b'\\' => match bytes.next()? {
                b'n' => b'\n',
                b'r' => b'\r',
                b't' => b'\t',
                b'x' => 16 * digit(bytes.next()?)? + digit(bytes.next()?)?,
                other => other,
            },
            _ => byte,
        });
    }
    Some(out)
}

fn digit(byte: u8) -> Option<u8> {
    let digit = char::from(byte).to_digit(16)?;
    u8::try_from(digit).ok()
}
