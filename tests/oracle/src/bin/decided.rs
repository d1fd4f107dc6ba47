//! Writes the table of decided decks, and that of followed maps (see tests/decided).

use std::fs;

use oracle::{decided, followed_maps};

fn main() -> std::io::Result<()> {
    let (folder, file) = decided::paths();
    fs::write(file, decided::table(&folder)?)?;
    fs::write(followed_maps::path(), followed_maps::table())
}
