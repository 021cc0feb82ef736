//! Shelves: files of up to 200 records one behind another, with damaged ones, files of version 1 and empty ones among them, closed in one
//! call. Each file's answer and part must be what its own bytes call for: by the tests of document 01, then by the original Rust's close.
use crate::{
    booked::{self, Queue},
    files,
    raw::altair_close_shelf,
    rules::{self, Rules},
    steps::Watched,
    types::Bellatrix,
};
use reference::{
    booked::queue as queue_of,
    calls::{Call, Operation},
    generate,
    random::Random,
    record::{number_at, write_file, Record},
    refusals,
};

/// One record in so many also begins a shelf.
pub const ONE_IN: u64 = 500;
const MOST: usize = 200;

/// A file, and its form in version 1 with the pair where it is of version 2.
struct File {
    bytes: Vec<u8>,
    old: Option<(Vec<u8>, Queue)>,
}

fn file(rng: &mut Random, record: &Record) -> File {
    if rng.once_in(30) {
        let bytes = if rng.once_in(2) { Vec::new() } else { write_file(record) };
        return File { bytes, old: None };
    }
    let old = if rng.once_in(4) { generate::damaged_file(rng, record) } else { write_file(record) };
    let queue = booked::queue(rng, &record.registry);
    match files::in_version_2(&old, queue) {
        Some(bytes) => File { bytes, old: Some((old, queue)) },
        None => File { bytes: old, old: None },
    }
}

fn bad_pair(rules: Rules) -> bool {
    rules.fork == 1 && !rules.good_pair()
}

/// The answer, and the part of the closing buffer, which was filled with this byte.
fn called_for(file: &File, rules: Rules, filled: u8) -> (u64, Vec<u8>) {
    let untouched = |refusal| (refusal, vec![filled; file.bytes.len()]);
    let Some((old, queue)) = &file.old else {
        return untouched(6);
    };
    if old.len() < 80 || !refusals::header_good(old) {
        return untouched(6);
    }
    let (n, l) = (number_at(old, 16) as usize, number_at(old, 32) as usize);
    let read = refusals::read(old, n.wrapping_mul(10), l);
    match read.refusal {
        1 => return untouched(1),
        _ if rules.fork > 1 => return untouched(1),
        2 => return untouched(2),
        _ if bad_pair(rules) => return untouched(2),
        0 => (),
        refusal => return untouched(refusal),
    }
    let record = read.record.expect("it was read");
    if *queue != queue_of(&record.registry) {
        return untouched(8);
    }
    let call = Call {
        closing_registry: record.registry.clone(),
        closing_slashings: record.slashings.clone(),
        record: record.clone(),
    };
    let closed = rules::outcome(&call, Operation::Close, rules);
    if closed.refusal != 0 {
        return (closed.refusal, file.bytes.clone());
    }
    let queue = queue_of(&closed.registry);
    let after = Record { finality: closed.finality, registry: closed.registry, slashings: closed.slashings, ..record };
    (0, files::in_version_2(&write_file(&after), queue).expect("a whole file"))
}

/// What a shelf was: how many files, and how many of them were closed.
pub type Counted = (u64, u64);

pub fn compared(rng: &mut Random, draw: impl Fn(u64) -> Record) -> Result<Counted, String> {
    let count = if rng.once_in(8) { 0 } else { 1 + rng.index(MOST) };
    let under = rules::drawn(rng);
    let shelf: Vec<File> = (0..count as u64).map(|k| draw(k)).map(|record| file(rng, &record)).collect();
    let mut lengths: Vec<u64> = shelf.iter().map(|f| f.bytes.len() as u64).collect();
    let all: Vec<u8> = shelf.iter().flat_map(|f| f.bytes.iter().copied()).collect();
    let longest = lengths.iter().copied().max().unwrap_or(0) as usize;
    let filled = rng.next() as u8;
    let (mut room, mut ends, mut told) = ([longest.div_ceil(8) + rng.index(2); 2], all.len(), count);
    // now and then one of the lengths is not the one called for, and the whole call is refused
    let misshapen = match rng.below(20) {
        0 if count > 0 => {
            let k = rng.index(count);
            lengths[k] = lengths[k].wrapping_add(rng.pick(&[1, u64::MAX, 1 << 63]));
            true
        }
        1 => {
            ends += 1;
            true
        }
        2 if longest > 8 => {
            room[rng.index(2)] = longest.div_ceil(8) - 1;
            true
        }
        3 => {
            told += 1;
            true
        }
        _ => false,
    };
    let mut closing = vec![filled; ends];
    let mut answers = Watched::around(&vec![77; told]);
    let (mut opened, mut closed) = (Watched::around(&vec![5; room[0]]), Watched::around(&vec![6; room[1]]));
    let (a, b, c) = (opened.lent(), closed.lent(), answers.lent());
    let [inactivity_penalty_quotient_bellatrix, proportional_slashing_multiplier_bellatrix] = under.pair;
    let pair = Bellatrix { inactivity_penalty_quotient_bellatrix, proportional_slashing_multiplier_bellatrix };
    let number = unsafe {
        altair_close_shelf(
            all.as_ptr(),
            all.len(),
            lengths.as_ptr(),
            lengths.len(),
            closing.as_mut_ptr(),
            closing.len(),
            a.as_mut_ptr(),
            a.len(),
            b.as_mut_ptr(),
            b.len(),
            c.as_mut_ptr(),
            c.len(),
            under.fork,
            pair,
        )
    };
    let (opened, closed, answers) = (opened.after(), closed.after(), answers.after());
    let about = || format!("a shelf of {count} files under {under:?}");
    if number != u64::from(misshapen) {
        return Err(format!("{}: the call answers {number}", about()));
    }
    if misshapen {
        let kept = closing.iter().all(|&b| b == filled) && answers.iter().all(|&n| n == 77);
        let idle = opened.iter().all(|&n| n == 5) && closed.iter().all(|&n| n == 6);
        return if kept && idle { Ok((0, 0)) } else { Err(format!("{}: a refused call has written", about())) };
    }
    let (mut at, mut accepted) = (0, 0);
    for (k, file) in shelf.iter().enumerate() {
        let (answer, part) = called_for(file, under, filled);
        let found = &closing[at..at + file.bytes.len()];
        if answers[k] != answer || found != part {
            let parts = if found == part { "alike" } else { "not alike" };
            return Err(format!(
                "{}: file {k} gets {}, {answer} is called for, the parts are {parts}",
                about(),
                answers[k]
            ));
        }
        accepted += u64::from(answer == 0);
        at += file.bytes.len();
    }
    Ok((count as u64, accepted))
}
