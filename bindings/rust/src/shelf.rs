//! A shelf of record files, closed in one call.
use crate::close_shelf;
use crate::fault::Fault;
use crate::refusal::Refusal;
use crate::types::Bellatrix;
use std::vec;
use std::vec::Vec;

/// The closed record's file of each, or why it was refused. A record file of version 1 is refused.
///
/// ```
/// use altair_close::{close_files, validator, Bellatrix, Finality, Record, Refusal, Rules, Settings};
/// let settings = Settings { slots_per_historical_root: 64, epochs_per_slashings_vector: 64, ..Settings::MAINNET };
/// let record = Record {
///     settings,
///     finality: Finality { slot: 127, ..Finality::default() },
///     registry: validator::new(32_000_000_000).to_vec(),
///     slashings: vec![0; 64],
///     roots: vec![0; 32 * 64],
///     queue: None,
/// };
/// let (good, bad) = (record.write()?, vec![0; 80]);
/// let closed = close_files(&[&good, &bad, &good], Rules::ALTAIR, &Bellatrix::default());
/// assert_eq!(closed[0], record.close()?.write());
/// assert_eq!((&closed[1], &closed[2]), (&Err(Refusal::File), &closed[0]));
/// # Ok::<(), Refusal>(())
/// ```
pub fn close_files<File: AsRef<[u8]>>(files: &[File], fork: u64, pair: &Bellatrix) -> Vec<Result<Vec<u8>, Refusal>> {
    let lengths: Vec<u64> = files.iter().map(|file| file.as_ref().len() as u64).collect();
    let longest = lengths.iter().copied().max().unwrap_or(0) as usize;
    let all: Vec<u8> = files.iter().flat_map(|file| file.as_ref()).copied().collect();
    let mut closing = vec![0; all.len()];
    let (mut opening_numbers, mut closing_numbers) = (vec![0; longest.div_ceil(8)], vec![0; longest.div_ceil(8)]);
    let mut answers = vec![0; lengths.len()];
    let (opened, closed) = (&mut opening_numbers, &mut closing_numbers);
    close_shelf(&all, &lengths, &mut closing, opened, closed, &mut answers, fork, pair)
        .expect("the buffers are as long as they must be");
    let mut rest = &closing[..];
    let parts = lengths.iter().map(|&length| {
        let part;
        (part, rest) = rest.split_at(length as usize);
        part.to_vec()
    });
    parts.zip(&answers).map(|(part, &number)| Refusal::or(number, Fault::UNKNOWN, || part)).collect()
}
