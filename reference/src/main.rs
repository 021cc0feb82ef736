//! The reference's commands.
use reference::{
    calls::{Case, Lent, Number, LEAVES, OPERATIONS},
    figures, judge, record, refusals, report, stored, vectors,
};
use std::{path::Path, process::ExitCode};

const USAGE: &str = "\
reference check COUNT SEED               the figures of 01, and the Rust's process_epoch against its eight steps on COUNT records
reference vectors FOLDER LEAVES RECORDS  write the stored list: its texts to a folder, its words to two files
reference record FILE                    reading, the eight steps and the close of a record file
reference leaf FILE NAME NUMBERS..       a leaf on a record file: the validator's number where it is lent an entry, then its
                                         numbers but for the state's slot and finalized epoch, which are the record's";

fn main() -> ExitCode {
    judge::install_hook();
    if !judge::overflow_is_checked() {
        eprintln!("built without overflow checks: use -C overflow-checks=on");
        return ExitCode::FAILURE;
    }
    let args: Vec<String> = std::env::args().skip(1).collect();
    let args: Vec<&str> = args.iter().map(String::as_str).collect();
    let done = match args[..] {
        ["check", count, seed] => numbers(&[count, seed]).and_then(|n| check(n[0], n[1])),
        ["vectors", folder, leaves, records] => {
            vectors::write(Path::new(folder), Path::new(leaves), Path::new(records))
                .map(|summary| print!("{summary}"))
                .map_err(|e| e.to_string())
        }
        ["record", file] => read(file).and_then(|bytes| record(&bytes)),
        ["leaf", file, name, ref rest @ ..] => read(file).and_then(|bytes| leaf(&bytes, name, &numbers(rest)?)),
        _ => Err(USAGE.to_string()),
    };
    match done {
        Ok(()) => ExitCode::SUCCESS,
        Err(text) => {
            eprintln!("{text}");
            ExitCode::FAILURE
        }
    }
}

fn numbers(args: &[&str]) -> Result<Vec<u64>, String> {
    args.iter().map(|a| a.parse().map_err(|_| format!("{a} is not a number of 64 bits"))).collect()
}

fn read(file: &str) -> Result<Vec<u8>, String> {
    std::fs::read(file).map_err(|e| format!("{file}: {e}"))
}

fn check(count: u64, seed: u64) -> Result<(), String> {
    let figures = figures::all();
    for (name, met) in &figures {
        if !met {
            println!("FIGURE not met: {name}");
        }
    }
    let met = figures.iter().filter(|f| f.1).count();
    println!("figures of document 01 that the Rust meets: {met} of {}", figures.len());
    let report = report::run(seed, count);
    report::print(&report, seed, count);
    if met < figures.len() || report.differences() > 0 {
        Err("there are findings".to_string())
    } else {
        Ok(())
    }
}

/// A file with its answers, unless its S and L are good ones for which the Rust is not compiled.
fn answers(bytes: &[u8]) -> Result<stored::records::StoredRecord, String> {
    if bytes.len() >= 80 && refusals::header_good(bytes) {
        let (s, l) = (record::number_at(bytes, 24), record::number_at(bytes, 32));
        let in_range = [s, l].iter().all(|n| (1..=65536).contains(n));
        if in_range && !judge::PAIRS.contains(&(s, l)) {
            return Err(format!(
                "the Rust is not compiled for S = {s}, L = {l}: add the pair in reference/src/judge.rs"
            ));
        }
    }
    Ok(stored::records::stored("given", bytes.to_vec()))
}

fn record(bytes: &[u8]) -> Result<(), String> {
    let r = answers(bytes)?;
    println!("read {} {}", r.read.0, r.read.1);
    if let Some(record) = &r.record {
        for (operation, outcome) in OPERATIONS.into_iter().zip(&r.outcomes) {
            println!("{}", vectors::outcome_text(operation, record, outcome));
        }
        print!("{}", figures::listing(record));
    }
    Ok(())
}

fn leaf(bytes: &[u8], name: &str, given: &[u64]) -> Result<(), String> {
    let leaf = LEAVES.iter().copied().find(|l| l.shape().name == name).ok_or(format!("{name} is no leaf"))?;
    let shape = leaf.shape();
    let Some(r) = answers(bytes)?.record else {
        println!("6");
        return Ok(());
    };
    let mut given = given.iter().copied();
    let mut next = || given.next().ok_or("too few numbers");
    let registry = match shape.lent {
        Lent::Nothing => Vec::new(),
        Lent::Registry => r.registry.clone(),
        Lent::Entry => {
            let i = next()? as usize;
            r.registry.chunks_exact(10).nth(i).ok_or("no such validator")?.to_vec()
        }
    };
    let number = |kind: &Number| match kind {
        Number::StateSlot => Ok(r.finality.slot),
        Number::FinalizedEpoch => Ok(r.finality.finalized.epoch),
        _ => next(),
    };
    let numbers = shape.numbers.iter().map(number).collect::<Result<Vec<_>, _>>()?;
    let roots = if shape.roots { r.roots.clone() } else { Vec::new() };
    let answer = judge::answer(&Case { leaf, settings: r.settings, roots, finality: r.finality, numbers, registry });
    println!("{} {:?}", answer.refusal, answer.words);
    Ok(())
}
