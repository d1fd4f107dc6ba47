//! Refusal 2.

use super::{WORKED, assert_told, deck, diagnose};

const HEADER: &str = "          0          1          0          0          0\n";

/// The second line of a deck is this text, and it is told with these words.
fn assert_line(text: &str, words: &str) {
    assert_told(format!("{HEADER}{text}").as_bytes(), 2, words);
}

#[test]
fn too_many_bytes() {
    let words = "the deck has 65540 bytes, 4 more than the 65536 it may have";
    assert_told(&vec![b' '; 65_540], 2, words);
    let told = diagnose(&vec![b'\n'; 65_537]).expect("a diagnosis");
    assert_eq!((told.line, told.column), (0, None));
    let told = diagnose(&vec![b'\n'; 65_536]).expect("a diagnosis");
    assert_eq!(told.line, 1);
}

#[test]
fn carriage_returns() {
    let text = String::from_utf8(deck(&WORKED)).expect("ASCII");
    let words = "line 1, column 56: a carriage return; a line ends with a line feed alone";
    assert_told(text.replace('\n', "\r\n").as_bytes(), 2, words);
    assert_told(text.replace('\n', "\r").as_bytes(), 2, words);
}

#[test]
fn byte_order_marks() {
    let words = "line 1, column 1: a byte order mark; save the deck as ASCII, without one";
    let text = deck(&WORKED);
    assert_told(&[b"\xef\xbb\xbf", text.as_slice()].concat(), 2, words);
    let wide: Vec<u8> = text.iter().flat_map(|&byte| [byte, 0]).collect();
    assert_told(&[b"\xff\xfe", wide.as_slice()].concat(), 2, words);
    assert_told(&[b"\xfe\xff\0", wide.as_slice()].concat(), 2, words);
}

#[test]
fn bytes_that_no_line_has() {
    let tab = "line 2, column 2: a tab; numbers are set in columns of 11 with spaces";
    assert_line("3\t0\n", tab);
    let alone = "a line has digits and spaces alone";
    let letter = format!("line 2, column 22: the character 'x'; {alone}");
    assert_line("          3          x\n", &letter);
    let sign = format!("line 2, column 21: the character '-'; {alone}");
    assert_line("          3         -1\n", &sign);
    let zero = format!("line 2, column 4: the byte 0x00; {alone}");
    assert_line("   \0      3          0\n", &zero);
    let beyond = format!("line 2, column 12: the byte 0xC3; {alone}");
    assert_line("          3é        0\n", &beyond);
}

#[test]
fn such_a_byte_comes_before_other_causes() {
    let words = "line 2, column 10: a carriage return; a line ends with a line feed alone";
    assert_line("3 0 00000\r\n", words);
    let words = "line 2, column 2: a tab; numbers are set in columns of 11 with spaces";
    assert_line("3\tx", words);
}

#[test]
fn the_last_line_feed() {
    let missing = "the deck ends without a line feed; each line ends with one, the last one too";
    let whole = format!("line 2, column 23: {missing}");
    assert_line("          3          0", &whole);
    let cut = format!("line 2, column 16: {missing}");
    assert_line("          3    ", &cut);
    assert_told(b" ", 2, &format!("line 1, column 2: {missing}"));
}

#[test]
fn lines_without_a_number() {
    let empty = "line 2: an empty line; each line begins with its kind";
    assert_line("\n", empty);
    let spaces = "line 2: a line of spaces alone; each line begins with its kind";
    assert_line(" \n", spaces);
    assert_line("                        \n", spaces);
}

#[test]
fn spaces_where_a_number_is_expected() {
    let after = "line 2, column 23: spaces after the last number; the line ends with it";
    assert_line("          3          0 \n", after);
    assert_line("          3          0           \n", after);
    let hole = "line 2, column 12: no number in columns 12 to 22; one has to end in column 22";
    assert_line("          3                     0\n", hole);
}

#[test]
fn a_number_that_ends_early() {
    let first = "line 2, column 10: the number 3 ends in column 10; it has to end in column 11";
    assert_line("         3           0\n", first);
    let last = "line 2, column 20: the number 12 ends in column 21; it has to end in column 22";
    assert_line("          3        12\n", last);
    assert_line("          3        12 \n", last);
}

#[test]
fn a_number_that_ends_late() {
    let words = "line 2, column 12: the number 21 goes on past column 11, in which it has to end";
    assert_line("          21         0\n", words);
    let words =
        "line 2, column 12: the number 344294967295 goes on past column 11, in which it has to end";
    assert_line("          344294967295\n", words);
    let words =
        "line 2, column 12: a number of 21 digits goes on past column 11, in which it has to end";
    assert_line(" 123456789012345678901\n", words);
}

#[test]
fn a_number_without_a_space() {
    let words = "begins in column 1, with no space before it; it has to end in column 11";
    let first = format!("line 1, column 1: the number 0 {words}");
    assert_told(b"0 3 0 1 3\n", 2, &first);
    let second = format!("line 2, column 1: the number 42949672950 {words}");
    assert_line("42949672950\n", &second);
}

#[test]
fn leading_zeros() {
    let words = "line 2, column 21: the number 00 has a leading zero";
    assert_line("          3         00\n", words);
    let words = "line 2, column 2: the number 0000000003 has a leading zero";
    assert_line(" 0000000003          0\n", words);
}

#[test]
fn numbers_that_are_too_large() {
    let words = "line 2, column 13: the number 4294967296 is larger than 4294967295, the largest";
    assert_line("          3 4294967296\n", words);
    let words = "line 2, column 2: the number 9999999999 is larger than 4294967295, the largest";
    assert_line(" 9999999999\n", words);
    let told = diagnose(format!("{HEADER} 4294967295\n").as_bytes());
    assert_eq!(told.map(|told| told.number), Some(3));
}
