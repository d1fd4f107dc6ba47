//! Running the command.

use std::ffi::OsStr;
use std::fs;
use std::io::Write;
use std::path::PathBuf;
use std::process::{Command, Output, Stdio};

/// What a run left.
#[derive(Debug, PartialEq, Eq)]
pub struct Ran {
    pub status: Option<i32>,
    pub out: String,
    pub err: String,
}

impl From<Output> for Ran {
    fn from(output: Output) -> Self {
        let text = |bytes| String::from_utf8(bytes).expect("a text");
        Self {
            status: output.status.code(),
            out: text(output.stdout),
            err: text(output.stderr),
        }
    }
}

/// The command in the repository's folder, with nothing on standard input.
pub fn command<S: AsRef<OsStr>>(words: &[S]) -> Command {
    let mut command = Command::new(env!("CARGO_BIN_EXE_gorvask"));
    command
        .args(words)
        .current_dir(repository())
        .stdin(Stdio::null())
        .stdout(Stdio::piped())
        .stderr(Stdio::piped());
    command
}

pub fn run<S: AsRef<OsStr>>(words: &[S]) -> Ran {
    command(words).output().expect("a run").into()
}

/// With these bytes on standard input. Whatever is not read is no matter.
pub fn run_on<S: AsRef<OsStr>>(words: &[S], input: &[u8]) -> Ran {
    let mut child = command(words).stdin(Stdio::piped()).spawn().expect("a run");
    let mut stdin = child.stdin.take().expect("its standard input");
    let _ = stdin.write_all(input);
    drop(stdin);
    child.wait_with_output().expect("a run").into()
}

pub fn repository() -> PathBuf {
    PathBuf::from(concat!(env!("CARGO_MANIFEST_DIR"), "/.."))
}

pub fn read(file: &str) -> Vec<u8> {
    fs::read(repository().join(file)).expect("a file of the repository")
}

pub fn read_text(file: &str) -> String {
    String::from_utf8(read(file)).expect("a text")
}

/// A file for one test.
pub struct Scratch(PathBuf);

impl Scratch {
    pub fn new(name: &str, bytes: &[u8]) -> Self {
        let path = PathBuf::from(env!("CARGO_TARGET_TMPDIR")).join(name);
        fs::write(&path, bytes).expect("a file");
        Self(path)
    }

    pub fn path(&self) -> &str {
        self.0.to_str().expect("a path in UTF-8")
    }
}

impl Drop for Scratch {
    fn drop(&mut self) {
        let _ = fs::remove_file(&self.0);
    }
}
