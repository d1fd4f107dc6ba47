//! Instructions of a call, counted by running this program under valgrind or perf.

use std::env;
use std::fs;
use std::io;
use std::path::Path;
use std::process::Command;

use crate::ways::Way;

/// What counts.
#[derive(Clone, Copy, Debug, PartialEq, Eq)]
pub enum Counter {
    Callgrind,
    Perf,
}

impl Counter {
    const ALL: [Self; 2] = [Self::Callgrind, Self::Perf];

    /// The first that counts on this machine.
    pub fn find() -> Option<Self> {
        let mut all = Self::ALL.into_iter();
        all.find(|counter| counter.total(&["idle"]).is_some())
    }

    pub fn named(name: &str) -> Option<Self> {
        Self::ALL.into_iter().find(|counter| counter.name() == name)
    }

    pub fn name(self) -> &'static str {
        match self {
            Self::Callgrind => "valgrind's callgrind",
            Self::Perf => "perf",
        }
    }

    /// Instructions of one call on a deck, or on a deck and a state: with one call, less those without.
    pub fn call(self, way: Way, texts: &[&[u8]]) -> io::Result<Option<u64>> {
        let folder = env::temp_dir().join(format!("gorvask-bench-{}", std::process::id()));
        fs::create_dir_all(&folder)?;
        let mut files = Vec::new();
        for (name, bytes) in ["deck", "state"].into_iter().zip(texts) {
            let file = folder.join(name);
            fs::write(&file, bytes)?;
            files.push(text(&file));
        }
        let files: Vec<&str> = files.iter().map(String::as_str).collect();
        let [without, with] = ["0", "1"].map(|calls| {
            let words = [&["once", way.name(), calls], &files[..]].concat();
            self.total(&words)
        });
        fs::remove_dir_all(&folder)?;
        Ok(with
            .zip(without)
            .and_then(|(with, without)| with.checked_sub(without)))
    }

    /// Instructions of this program with these arguments.
    fn total(self, arguments: &[&str]) -> Option<u64> {
        let program = env::current_exe().ok()?;
        let mut command = match self {
            Self::Callgrind => {
                let mut command = Command::new("valgrind");
                command.args(["--tool=callgrind", "--callgrind-out-file=/dev/null"]);
                command
            }
            Self::Perf => {
                let mut command = Command::new("perf");
                command.args(["stat", "-x,", "-e", "instructions:u"]);
                command
            }
        };
        let output = command.arg(program).args(arguments).output().ok()?;
        if !output.status.success() {
            return None;
        }
        let words = String::from_utf8_lossy(&output.stderr);
        match self {
            Self::Callgrind => words
                .lines()
                .find_map(|line| line.split_once("Collected :"))
                .and_then(|(_, number)| number.trim().parse().ok()),
            Self::Perf => words
                .lines()
                .find_map(|line| line.split(',').next()?.parse().ok()),
        }
    }
}

fn text(path: &Path) -> String {
    path.to_string_lossy().into_owned()
}
