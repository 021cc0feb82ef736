//! The record files and their answers.
use super::{block_bytes, bytes_words, decimals, finality_text, made, BLOCK};
use crate::{
    calls::{finality_words, Operation, Outcome, OPERATIONS},
    record::Record,
    stored::records::StoredRecord,
};
use std::fmt::Write;

/// The numbers of a buffer that differ from the opening's, as place and value.
type Changes = Vec<(usize, u64)>;

fn changes(opening: &[u64], closing: &[u64]) -> Changes {
    (0..opening.len()).filter(|&i| opening[i] != closing[i]).map(|i| (i, closing[i])).collect()
}

fn changes_of(operation: Operation, r: &Record, o: &Outcome) -> (Changes, Changes) {
    let accepted = o.refusal == 0;
    let registry = if accepted && operation.writes_registry() { changes(&r.registry, &o.registry) } else { Vec::new() };
    let slashings =
        if accepted && operation.writes_slashings() { changes(&r.slashings, &o.slashings) } else { Vec::new() };
    (registry, slashings)
}

fn gives_finality(operation: Operation) -> bool {
    matches!(operation, Operation::Justification | Operation::Close)
}

pub fn text(records: &[StoredRecord], places: &[usize]) -> String {
    let mut text = format!("# {} record files with their answers, {}\n", records.len(), made());
    text += "# record NUMBER at OFFSET in crates/replay_records/stdin, LENGTH bytes: KIND; the file itself is there\n";
    text += "# lent: how many numbers of its registry, how many of its slashings, how many bytes of its roots, lengths of closing registry and slashings\n";
    text += "# read refusal position: reading it into buffers of the closing buffers' lengths\n";
    text += "# STEP refusal, and where it is 0: finality after, which totals were raised; registry or slashings with PLACE:NUMBER for each number that is not the opening's\n";
    text += "# a file whose header is bad has no parts to ask a step with\n";
    for (i, (r, at)) in records.iter().zip(places).enumerate() {
        let _ = writeln!(text, "record {i} at {at}, {} bytes: {}", r.file.len(), r.kind);
        let _ = writeln!(text, "lent {}", decimals(&r.lent.words()));
        let _ = writeln!(text, "read {} {}", r.read.0, r.read.1);
        if let Some(record) = &r.record {
            for (operation, outcome) in OPERATIONS.into_iter().zip(&r.outcomes) {
                let _ = writeln!(text, "{}", outcome_text(operation, record, outcome));
            }
        }
    }
    text
}

pub fn outcome_text(operation: Operation, r: &Record, o: &Outcome) -> String {
    let mut text = format!("{} {}", operation.name(), o.refusal);
    if o.refusal != 0 {
        return text;
    }
    let (registry, slashings) = changes_of(operation, r, o);
    let list = |changes: &[(usize, u64)]| changes.iter().fold(String::new(), |t, (i, n)| t + &format!(" {i}:{n}"));
    if gives_finality(operation) {
        text += &format!(" finality {} raised {}", finality_text(&o.finality), decimals(&o.raised));
    }
    if operation.writes_registry() {
        text += &format!(" registry{}", list(&registry));
    }
    if operation.writes_slashings() {
        text += &format!(" slashings{}", list(&slashings));
    }
    text
}

/// Words in all, the file as its length and words, the lengths lent, the number of answers. Of the read: refusal and position. Of
/// each operation: its refusal, and where it is 0 the 17 words of finality and 3 of what was raised (justification and close), the number of changes of
/// the registry and each as place and value, the same of the slashings, as far as it is lent them.
fn record_words(r: &StoredRecord) -> Vec<u64> {
    let mut words = vec![0];
    words.extend(bytes_words(&r.file));
    words.extend(r.lent.words());
    words.extend([1 + r.outcomes.len() as u64, r.read.0, r.read.1]);
    let put = |changes: &[(usize, u64)], words: &mut Vec<u64>| {
        words.push(changes.len() as u64);
        changes.iter().for_each(|&(i, n)| words.extend([i as u64, n]));
    };
    if let Some(record) = &r.record {
        for (operation, o) in OPERATIONS.into_iter().zip(&r.outcomes) {
            words.push(o.refusal);
            if o.refusal != 0 {
                continue;
            }
            let (registry, slashings) = changes_of(operation, record, o);
            if gives_finality(operation) {
                words.extend(finality_words(&o.finality));
                words.extend(o.raised);
            }
            if operation.writes_registry() {
                put(&registry, &mut words);
            }
            if operation.writes_slashings() {
                put(&slashings, &mut words);
            }
        }
    }
    words[0] = words.len() as u64;
    words
}

/// Blocks of records, and where each record's file begins.
pub fn blocks(records: &[StoredRecord]) -> (Vec<u8>, Vec<usize>) {
    let mut out = Vec::new();
    let mut places = Vec::new();
    let mut block = vec![0];
    for r in records {
        let words = record_words(r);
        if 8 * (block.len() + words.len()) > BLOCK {
            out.extend(block_bytes(&block));
            block = vec![0];
        }
        places.push(out.len() + 8 * (block.len() + 2));
        block[0] += 1;
        block.extend(words);
    }
    out.extend(block_bytes(&block));
    (out, places)
}
