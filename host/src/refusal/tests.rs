use std::fs;

use super::{Refusal, RefusalKind};

fn refusal(number: u64, line: u64) -> Refusal {
    Refusal::of_reply((number << 32) + line).expect("a refusal")
}

#[test]
fn a_reply_has_number_and_line() {
    for verdict in [0, 1] {
        assert_eq!(Refusal::of_reply(verdict), None);
    }
    assert_eq!(refusal(12, 0).number(), 12);
    assert_eq!(refusal(12, 0).line(), None);
    assert_eq!(refusal(5, 4_294_967_295).line(), Some(u32::MAX));
}

#[test]
fn kinds_are_numbered_from_one() {
    for (number, kind) in (1..).zip(RefusalKind::ALL) {
        assert_eq!(kind.number(), Some(number));
        assert_eq!(refusal(u64::from(number), 3).kind(), kind);
    }
    for number in [16, 256, 271] {
        assert_eq!(refusal(number, 3).kind(), RefusalKind::Unknown);
        assert_eq!(u64::from(refusal(number, 3).number()), number);
    }
}

#[test]
fn the_text_names_line_and_number() {
    assert_eq!(
        refusal(8, 17).to_string(),
        "line 17: the concept stands on an earlier line already; to do: use that line's concept, and take this line out \
         (refusal 8)"
    );
    assert!(
        refusal(2, 0)
            .to_string()
            .starts_with("the deck has over 65,536 bytes; ")
    );
    let of_state = refusal(13, 17).to_string();
    assert!(of_state.starts_with("line 17 of the state: the state's line breaks "));
    assert_eq!(
        refusal(13, 0).to_string(),
        "all of the state's lines are good, and an individual has no line 53; to do: correct the state's line, or give the \
         individual one (refusal 13)"
    );
}

/// The two cells behind the number, of the row of the page's table of refusals.
fn cells(page: &str, number: u32) -> [String; 2] {
    let table = page
        .split("## Refusals")
        .nth(1)
        .expect("a part on refusals");
    let is_row = |line: &&str| {
        let first = line.split('|').nth(1).unwrap_or_default().trim();
        first == number.to_string() || first.starts_with(&format!("{number} ("))
    };
    let row = table.lines().find(is_row).expect("a row of the number");
    let cells: Vec<&str> = row.split('|').map(str::trim).collect();
    [cells[2], cells[3]].map(str::to_owned)
}

fn sentence(words: &str) -> String {
    let (first, rest) = words.split_at(1);
    format!("{}{rest}.", first.to_uppercase())
}

#[test]
fn the_words_are_those_of_the_page_entries() {
    let page = concat!(env!("CARGO_MANIFEST_DIR"), "/../docs/ENTRIES.md");
    let page = fs::read_to_string(page).expect("the page");
    for number in 1..=15 {
        let refusal = refusal(u64::from(number), 5);
        let wrong = match number {
            2 | 13 => {
                let no_line = Refusal { line: 0, ..refusal };
                let [no_line, line] = [no_line, refusal].map(Refusal::wrong);
                format!("At line 0: {no_line}. Otherwise {line}.")
            }
            _ => sentence(refusal.wrong()),
        };
        assert_eq!([wrong, sentence(refusal.remedy())], cells(&page, number));
    }
}
