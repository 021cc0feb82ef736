//! A thousand records of a thousand validators: closed one by one, read, closed and written one by one, and closed as a shelf in one call.
use crate::{
    convert,
    measure::{time, Time},
    record::{at, MAINNET},
    scenarios::Scenario,
};
use altair_close::{
    close, close_shelf, exit_queue, read_file, write_file, Amounts, Bellatrix, ExitQueue, Finality, Header, Rules,
    Settings,
};
use std::{hint::black_box, time::Instant};

const RECORDS: usize = 1_000;
const VALIDATORS: usize = 1_000;
const ROUNDS: usize = 9;

pub struct Row {
    pub closes: Time,
    pub files: Time,
    pub shelf: Time,
}

struct Opening {
    settings: Settings,
    finality: Finality,
    queue: ExitQueue,
    registry: Vec<u64>,
    slashings: Vec<u64>,
    roots: Vec<u8>,
}

/// A calm record with small vectors, so that the registry is most of its file.
fn opening(seed: usize) -> Opening {
    let mut r = Scenario::Calm.record(VALIDATORS);
    r.settings = MAINNET;
    (r.settings[at::S], r.settings[at::L]) = (64, 64);
    r.roots.truncate(32 * 64);
    r.slashings.truncate(64);
    // no two alike
    r.registry[6] += seed as u64;
    Opening {
        settings: convert::settings(&r.settings),
        finality: convert::finality(&r.finality),
        queue: exit_queue(&r.registry).expect("a good registry"),
        registry: r.registry,
        slashings: r.slashings,
        roots: r.roots,
    }
}

pub fn row() -> Row {
    let openings: Vec<Opening> = (0..RECORDS).map(opening).collect();
    let header = Header { version: Header::VERSION, validators: VALIDATORS, roots: 64, slashings: 64 };
    let length = header.file_length();
    let mut files = vec![0; RECORDS * length];
    for (o, file) in openings.iter().zip(files.chunks_exact_mut(length)) {
        write_file(&o.settings, &o.finality, Some(&o.queue), &o.registry, &o.roots, &o.slashings, file)
            .expect("a good record");
    }
    let lengths = vec![length as u64; RECORDS];
    let (mut closing, mut one_by_one) = (vec![0; files.len()], vec![0; files.len()]);
    let mut working = [vec![0; length.div_ceil(8)], vec![0; length.div_ceil(8)]];
    let mut answers = vec![9; RECORDS];
    let (mut registry, mut slashings) = (vec![0; 10 * VALIDATORS], vec![0; 64]);
    let (mut read, mut read_slashings) = (registry.clone(), slashings.clone());
    let mut amounts = vec![Amounts::default(); VALIDATORS];
    let (mut closes, mut alone, mut shelves) = (Vec::new(), Vec::new(), Vec::new());
    for _ in 0..ROUNDS {
        let start = Instant::now();
        for o in &openings {
            let (s, f, q) = (&o.settings, &o.finality, Some(&o.queue));
            let (r, l) = (&mut registry, &mut slashings);
            black_box(close(s, f, q, &o.registry, &o.slashings, &o.roots, r, l, &mut amounts)).expect("it closes");
        }
        closes.push(start.elapsed());

        let start = Instant::now();
        for (file, out) in files.chunks_exact(length).zip(one_by_one.chunks_exact_mut(length)) {
            let (s, f, q) = read_file(file, &mut read, &mut read_slashings).expect("a good file");
            let roots = &file[header.roots_part()];
            let (r, l) = (&mut registry, &mut slashings);
            let closed = close(&s, &f, Some(&q), &read, &read_slashings, roots, r, l, &mut amounts).expect("it closes");
            write_file(&s, &closed.finality, Some(&closed.queue), &registry, roots, &slashings, out)
                .expect("a good record");
        }
        alone.push(start.elapsed());

        let start = Instant::now();
        let [a, b] = &mut working;
        close_shelf(&files, &lengths, &mut closing, a, b, &mut answers, Rules::ALTAIR, &Bellatrix::default())
            .expect("the shelf has its lengths");
        shelves.push(start.elapsed());
        assert!(answers.iter().all(|&n| n == 0), "each is closed");
        assert!(closing == one_by_one, "the shelf's files are not those of the closes one by one");
    }
    Row { closes: time(closes), files: time(alone), shelf: time(shelves) }
}

/// In words.
pub fn text(row: &Row) -> String {
    let ms = |t: &Time| format!("{:.1} ms ({:.1})", t.median, t.least);
    let ratio = |t: &Time| format!("{:.2} ({:.2})", row.shelf.median / t.median, row.shelf.least / t.least);
    format!(
        "A shelf of 1,000 records of 1,000 validators: {} in one call; their closes one by one, with amounts, {}; read, closed and \
         written one by one {}. The shelf takes {} times their closes and {} times as long as file by file.\n",
        ms(&row.shelf),
        ms(&row.closes),
        ms(&row.files),
        ratio(&row.closes),
        ratio(&row.files)
    )
}
