//! Refusal 2: the columns of a line. A state's lines have the same.

use super::fault::Fault;

/// Columns of a number.
pub(super) const FIELD: usize = 11;
/// Of UTF-8, and of UTF-16 with either byte first.
const BYTE_ORDER_MARKS: [&[u8]; 3] = [b"\xef\xbb\xbf", b"\xff\xfe", b"\xfe\xff"];

/// The numbers of a line of something, which ends with its line feed unless the last one is missing.
pub(super) fn numbers(what: &str, text: &[u8]) -> Result<Vec<u32>, Fault> {
    let is_strange = |&byte: &u8| !matches!(byte, b' ' | b'0'..=b'9' | b'\n');
    if let Some(place) = text.iter().position(is_strange) {
        return Err(fault(stranger(what, &text[place..])).at(place));
    }
    let Some(line) = text.strip_suffix(b"\n") else {
        let cause = format!(
            "the {what} ends without a line feed; each line ends with one, the last one too"
        );
        return Err(fault(cause).at(text.len()));
    };
    if line.is_empty() {
        return Err(fault("an empty line; each line begins with its kind"));
    }
    let starts = (0..line.len()).step_by(FIELD);
    starts.map(|start| number(line, start)).collect()
}

fn fault(cause: impl Into<String>) -> Fault {
    Fault::new(2, cause)
}

/// What the first byte of `text` is, which is neither a digit nor a space.
fn stranger(what: &str, text: &[u8]) -> String {
    let alone = "a line has digits and spaces alone";
    match text[0] {
        _ if BYTE_ORDER_MARKS.iter().any(|mark| text.starts_with(mark)) => {
            format!("a byte order mark; save the {what} as ASCII, without one")
        }
        b'\r' => "a carriage return; a line ends with a line feed alone".into(),
        b'\t' => format!("a tab; numbers are set in columns of {FIELD} with spaces"),
        byte if byte.is_ascii_graphic() => format!("the character '{}'; {alone}", char::from(byte)),
        byte => format!("the byte 0x{byte:02X}; {alone}"),
    }
}

/// The number in the 11 columns behind `start`; the line has digits and spaces alone.
fn number(line: &[u8], start: usize) -> Result<u32, Fault> {
    let end = start + FIELD;
    let field = &line[start..line.len().min(end)];
    let spaces = field.iter().take_while(|&&byte| byte == b' ').count();
    let digits = digits(&field[spaces..]);
    if digits.is_empty() {
        return Err(no_number(line, start));
    }
    if spaces == 0 {
        return Err(no_space(line, start));
    }
    let first = start + spaces;
    let last = first + digits.len();
    if last < end {
        let number = called(digits);
        let cause = format!("{number} ends in column {last}; it has to end in column {end}");
        return Err(fault(cause).at(first));
    }
    value(digits).map_err(|fault| fault.at(first))
}

/// The digits at the front.
fn digits(text: &[u8]) -> &[u8] {
    let count = text.iter().take_while(|byte| byte.is_ascii_digit()).count();
    &text[..count]
}

fn called(digits: &[u8]) -> String {
    if digits.len() > 20 {
        return format!("a number of {} digits", digits.len());
    }
    format!("the number {}", String::from_utf8_lossy(digits))
}

/// Nothing but spaces behind `start`, to the end of the columns or of the line.
fn no_number(line: &[u8], start: usize) -> Fault {
    let end = start + FIELD;
    let rest_is_empty = line[start..].iter().all(|&byte| byte == b' ');
    match (rest_is_empty, start) {
        (true, 0) => fault("a line of spaces alone; each line begins with its kind"),
        (true, _) => fault("spaces after the last number; the line ends with it").at(start),
        (false, _) => {
            let columns = format!("columns {} to {end}", start + 1);
            let cause = format!("no number in {columns}; one has to end in column {end}");
            fault(cause).at(start)
        }
    }
}

/// A digit in the first of 11 columns. Where other columns stand before them, these end with a digit too.
fn no_space(line: &[u8], start: usize) -> Fault {
    let before = line[..start].iter().rposition(|&byte| byte == b' ');
    let first = before.map_or(0, |space| space + 1);
    let number = called(digits(&line[first..]));
    let cause = if start == 0 {
        let end = "it has to end in column 11";
        format!("{number} begins in column 1, with no space before it; {end}")
    } else {
        format!("{number} goes on past column {start}, in which it has to end")
    };
    fault(cause).at(start)
}

/// What at most 10 digits say.
fn value(digits: &[u8]) -> Result<u32, Fault> {
    let but = |what: &str| fault(format!("{} {what}", called(digits)));
    if digits[0] == b'0' && digits.len() > 1 {
        return Err(but("has a leading zero"));
    }
    let decimal = |value: u64, digit: &u8| 10 * value + u64::from(digit - b'0');
    let value = u32::try_from(digits.iter().fold(0, decimal));
    value.map_err(|_| but("is larger than 4294967295, the largest"))
}
