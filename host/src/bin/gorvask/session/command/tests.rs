use super::Command;
use crate::ended::Failure;

fn read(line: &[u8]) -> Result<Option<Command>, String> {
    Command::read(line).map_err(|failure| match failure {
        Failure::Input(words) => words,
        other => panic!("no bad input: {other:?}"),
    })
}

fn assert_read(line: &[u8], command: Command) {
    assert_eq!(read(line), Ok(Some(command)));
}

#[test]
fn each_command() {
    assert_read(b"start my.deck\n", Command::Start("my.deck".into()));
    assert_read(
        b"add 21 0 4294967295\n",
        Command::Add(vec![21, 0, u32::MAX]),
    );
    assert_read(b"add 28\n", Command::Add(vec![28]));
    assert_read(b"add new.line\n", Command::AddFile("new.line".into()));
    assert_read(b"strike 34\n", Command::Strike(34));
    assert_read(b"options 7\n", Command::Options(7));
    assert_read(b"take\n", Command::Take);
    assert_read(b"text\n", Command::Text);
    assert_read(b"axioms\n", Command::Axioms);
    assert_read(b"save my.deck\n", Command::Save("my.deck".into()));
    assert_read(b"help\n", Command::Help);
    assert_read(b"quit\n", Command::Quit);
}

#[test]
fn spaces_and_line_ends() {
    assert_read(b"  add\t21  0 1 \r\n", Command::Add(vec![21, 0, 1]));
    assert_read(b"take", Command::Take);
    assert_read(b"take\r\n", Command::Take);
    assert_read(b"start  a  b.deck \r\n", Command::Start("a  b.deck".into()));
    assert_read(b"add ./21\n", Command::AddFile("./21".into()));
    assert_read(b"add 21.axiom\n", Command::AddFile("21.axiom".into()));
    for line in [&b""[..], b"\n", b" \t\r\n", b"# take\n", b"  #\n"] {
        assert_eq!(read(line), Ok(None));
    }
}

#[test]
fn what_is_wrong_is_told() {
    for (line, told) in [
        (
            "undo",
            "there is no command undo; 'help' lists those there are",
        ),
        (
            "Take",
            "there is no command Take; 'help' lists those there are",
        ),
        ("start", "start takes a file: start FILE"),
        ("save ", "save takes a file: save FILE"),
        (
            "add",
            "add takes the numbers of one axiom, or a file: add 21 0 1, or add FILE",
        ),
        ("add 21 x", "x is no number"),
        ("add 21 -1", "-1 is no number"),
        ("strike", "strike takes one number: strike LINE"),
        ("strike 34 35", "strike takes one number: strike LINE"),
        ("strike +34", "+34 is no number"),
        (
            "options 4294967296",
            "4294967296 is larger than 4294967295, the largest number",
        ),
        ("options three", "three is no number"),
        ("take all", "take stands alone"),
        ("quit now", "quit stands alone"),
    ] {
        assert_eq!(read(line.as_bytes()), Err(told.to_owned()), "{line}");
    }
}

#[test]
fn long_words_and_bytes_that_are_no_text() {
    let told = read(&[b'x'; 5_000]).expect_err("no command");
    assert_eq!(
        told,
        format!(
            "there is no command {}..; 'help' lists those there are",
            "x".repeat(60)
        )
    );
    let told = read(b"\xfftake").expect_err("no command");
    assert!(told.starts_with("there is no command \u{fffd}take;"));
    let command = read(b"start \xff.deck")
        .expect("a command")
        .expect("a command");
    assert!(matches!(command, Command::Start(file) if file.as_encoded_bytes() == b"\xff.deck"));
}
