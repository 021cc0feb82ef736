//! The stored list in two forms: text for people, and words of 8 bytes, little-endian, for programs.
mod leaves;
mod records;

pub use records::outcome_text;

use crate::{
    calls::root_words,
    record::Finality,
    stored::{self, SEED},
};
use std::{fmt::Write, fs, io, path::Path};

/// A block stands alone: a program reads as many as it likes.
const BLOCK: usize = 65536;

/// What stands in the first line of each text.
fn made() -> String {
    format!("made by reference/run --vectors from ralexstokes/ethereum-consensus at 5031d31e31, seed {SEED}")
}

/// The texts in a folder; the words as files of their own, which programs of the gate read.
pub fn write(folder: &Path, leaf_words: &Path, record_words: &Path) -> io::Result<String> {
    fs::create_dir_all(folder)?;
    let (table, cases, records) = (stored::leaves::settings(), stored::leaves::cases(), stored::records::records());
    let (blocks, places) = records::blocks(&records);
    let files = [
        (folder.join("leaves.txt"), leaves::text(&table, &cases).into_bytes()),
        (leaf_words.to_path_buf(), leaves::blocks(&table, &cases)),
        (folder.join("records.txt"), records::text(&records, &places).into_bytes()),
        (record_words.to_path_buf(), blocks),
    ];
    let mut summary = format!("{} leaf cases, {} records\n", cases.len(), records.len());
    for (file, bytes) in &files {
        fs::write(file, bytes)?;
        let _ = writeln!(summary, "{}: {} bytes", file.display(), bytes.len());
    }
    Ok(summary)
}

fn hex(bytes: &[u8]) -> String {
    bytes.iter().fold("x".to_string(), |text, b| text + &format!("{b:02x}"))
}

fn decimals(numbers: &[u64]) -> String {
    numbers.iter().map(u64::to_string).collect::<Vec<_>>().join(" ")
}

fn finality_text(f: &Finality) -> String {
    let checkpoints = [&f.previous, &f.current, &f.finalized].map(|c| format!("{} {}", c.epoch, hex(&c.root)));
    format!("{} {} {}", f.slot, f.bits, checkpoints.join(" "))
}

/// Bytes as their count and words, the last one filled with zeros.
fn bytes_words(bytes: &[u8]) -> Vec<u64> {
    let mut padded = bytes.to_vec();
    padded.resize(bytes.len().div_ceil(8) * 8, 0);
    let mut words = vec![bytes.len() as u64];
    words.extend(root_words(&padded));
    words
}

fn block_bytes(words: &[u64]) -> Vec<u8> {
    let mut bytes: Vec<u8> = words.iter().flat_map(|w| w.to_le_bytes()).collect();
    assert!(bytes.len() <= BLOCK);
    bytes.resize(BLOCK, 0);
    bytes
}
