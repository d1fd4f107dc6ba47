//! The option `--names`.

use std::ffi::{OsStr, OsString};

use gorvask::{Header, Names};

use crate::arguments::{Arguments, Form};
use crate::ended::Failure;
use crate::input::read_file;

pub const FORM: Form = Form {
    name: "--names",
    value: Some("FILE"),
};

/// The most bytes of a names file.
const MOST: usize = 1 << 20;

/// Names and their file; no name where there is none.
pub struct NamesFile {
    file: OsString,
    names: Names,
}

impl NamesFile {
    /// The names that are asked for.
    pub fn read(arguments: &Arguments) -> Result<Self, Failure> {
        let file = arguments.option(FORM.name);
        let names = file.map_or(Ok(Names::default()), read_names)?;
        let file = file.unwrap_or_default().to_owned();
        Ok(Self { file, names })
    }

    /// The names, if the deck has all that is named.
    pub fn fitting(&self, header: Header) -> Result<&Names, Failure> {
        let fit = self.names.fit(header);
        fit.map_err(|error| bad_names(&self.file, &error.to_string()))?;
        Ok(&self.names)
    }
}

fn read_names(file: &OsStr) -> Result<Names, Failure> {
    let bytes = read_file(file, "names file", MOST as u64 + 1)?;
    if bytes.len() > MOST {
        return Err(bad_names(file, &format!("it has over {MOST} bytes")));
    }
    let text = String::from_utf8(bytes).map_err(|error| {
        let before = &error.as_bytes()[..error.utf8_error().valid_up_to()];
        let line = before.split(|&byte| byte == b'\n').count();
        bad_names(
            file,
            &format!("line {line}: a byte is no part of a UTF-8 text"),
        )
    })?;
    let names = text.trim_start_matches('\u{feff}').parse::<Names>();
    names.map_err(|error| bad_names(file, &error.to_string()))
}

fn bad_names(file: &OsStr, words: &str) -> Failure {
    Failure::Input(format!("{}: {words}", file.to_string_lossy()))
}
