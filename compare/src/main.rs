//! The library's archive against the Rust of ethereum-consensus, in one process, on generated records: the close, each of the eight
//! steps, the registry step with every stop, every leaf, and reading and writing a file. Every number that comes back or is left in a lent buffer is compared. The
//! listing's lines, the exit queue's pair and the finalizing test, of which the Rust knows nothing, are held to models, and the amounts of a
//! close to the Rust's own deltas. A Bellatrix call is judged by the Rust with the two numbers replaced.
use reference::record;
mod booked;
mod convert;
mod crowd;
mod files;
mod leaves;
mod library;
mod listing;
#[allow(dead_code, unused_imports, unused_macros)]
#[path = "../../bindings/rust/src/fault.rs"]
mod fault;
#[allow(dead_code)]
#[path = "../../bindings/rust/src/raw.rs"]
mod raw;
#[allow(dead_code)]
#[path = "../../bindings/rust/src/refusal.rs"]
mod refusal;
mod rules;
mod shelf;
mod steps;
#[allow(dead_code)]
#[path = "../../bindings/rust/src/types.rs"]
mod types;

use reference::{
    calls::{Call, Operation, LEAVES, OPERATIONS},
    generate_leaves, judge,
    random::Random,
    record::{describe, write_file, Record},
    refusals,
    report::{self, Report, Tally},
};
use std::{
    path::Path,
    process::ExitCode,
    sync::{
        atomic::{AtomicU64, Ordering},
        Mutex,
    },
    time::Instant,
};

const USAGE: &str = "compare COUNT SEED FOLDER: COUNT records from SEED; a difference is saved in FOLDER";

/// Records that a worker takes at a time.
const BATCH: u64 = 500;

/// The place of a difference, and all that is to be known about it.
struct Difference {
    number: u64,
    text: String,
    record: Record,
}

fn main() -> ExitCode {
    judge::install_hook();
    assert!(judge::overflow_is_checked(), "the reference is built without overflow checks");
    let args: Vec<String> = std::env::args().skip(1).collect();
    let number = |i: usize| args.get(i).and_then(|a: &String| a.replace(['_', ','], "").parse().ok());
    let (Some(count), Some(seed), Some(folder)) = (number(0), number(1), args.get(2)) else {
        eprintln!("{USAGE}");
        return ExitCode::FAILURE;
    };
    match run(count, seed) {
        None => {
            println!("no difference between the library and the Rust on {count} records from seed {seed}");
            ExitCode::SUCCESS
        }
        Some(d) => {
            println!("DIFFERENCE\n{}", d.text);
            save(Path::new(folder), &d);
            ExitCode::FAILURE
        }
    }
}

fn save(folder: &Path, d: &Difference) {
    let (text, file) = (folder.join("difference.txt"), folder.join("difference.record"));
    let saved = std::fs::write(&text, &d.text).and_then(|()| std::fs::write(&file, write_file(&d.record)));
    match saved {
        Ok(()) => println!("saved as {} and, for reference/run --record, {}", text.display(), file.display()),
        Err(e) => println!("not saved in {}: {e}", folder.display()),
    }
}

/// All workers' counts are printed. The difference is that of the smallest number, whatever the workers' order.
fn run(count: u64, seed: u64) -> Option<Difference> {
    let start = Instant::now();
    let (next, told) = (AtomicU64::new(0), AtomicU64::new(0));
    let first: Mutex<Option<Difference>> = Mutex::new(None);
    let workers = std::thread::available_parallelism().map_or(1, |n| n.get());
    let worker = || {
        let mut counts = Counts::default();
        // a batch that is begun is ended, so that the smallest number is found
        while first.lock().expect("a worker panicked").is_none() {
            let from = next.fetch_add(BATCH, Ordering::Relaxed);
            for i in from..count.min(from + BATCH) {
                if let Err((text, record)) = counts.one(seed, i) {
                    let text = format!("record {i} of seed {seed}: {text}\n{}", describe(&record));
                    let mut first = first.lock().expect("a worker panicked");
                    if first.as_ref().is_none_or(|d| i < d.number) {
                        *first = Some(Difference { number: i, text, record });
                    }
                    return counts;
                }
            }
            if from + BATCH >= count {
                return counts;
            }
            progress(from, count, &start, &told);
        }
        counts
    };
    let counts = std::thread::scope(|scope| {
        let started: Vec<_> = (0..workers).map(|_| scope.spawn(worker)).collect();
        started.into_iter().map(|w| w.join().expect("a worker panicked")).reduce(Counts::joined)
    });
    let counts = counts.expect("at least one worker");
    report::table(&counts.report, seed, count);
    println!(
        "{} answers and {} numbers compared in {:.0} seconds by {workers} workers",
        counts.answers,
        counts.numbers,
        start.elapsed().as_secs_f64()
    );
    println!("{} of them registry steps with a stop", counts.stops);
    println!("{} amounts of accepted closes held to the Rust's deltas", counts.amounts);
    println!(
        "{} calls refused with 8, a pair that is not the registry's; finalizing tests 0 to 4: {:?}",
        counts.queues, counts.tests
    );
    let [shelves, files, closed] = counts.shelves;
    println!("{shelves} shelves of {files} files, {closed} of them closed");
    let [altair, bellatrix, other] = counts.forks;
    println!("{altair} closes under Altair, {bellatrix} under Bellatrix, {other} under another fork");
    println!("{} closes and registry steps as Deneb's, where the churn limit is the smaller", counts.deneb);
    println!("{} lines and net changes held to the model, {} of them refused with 7", counts.lines, counts.wide);
    first.into_inner().expect("a worker panicked")
}

/// A line every five seconds.
fn progress(from: u64, count: u64, start: &Instant, told: &AtomicU64) {
    let seconds = start.elapsed().as_secs();
    let last = told.load(Ordering::Relaxed);
    let due = seconds >= last + 5;
    if due && told.compare_exchange(last, seconds, Ordering::Relaxed, Ordering::Relaxed).is_ok() {
        let done = (from + BATCH).min(count);
        let speed = done as f64 / start.elapsed().as_secs_f64();
        println!("{done} of {count} records, {speed:.0} a second, no difference so far");
    }
}

struct Counts {
    report: Report,
    answers: u64,
    numbers: u64,
    stops: u64,
    lines: u64,
    wide: u64,
    amounts: u64,
    /// shelves, their files, and how many of these were closed
    shelves: [u64; 3],
    /// refused with 8
    queues: u64,
    /// accepted closes by their finalizing test
    tests: [u64; 5],
    /// closes under Altair, under Bellatrix, and under another fork
    forks: [u64; 3],
    /// closes and registry steps as Deneb's, with a limit of activations that is the churn limit or more
    deneb: u64,
}

impl Default for Counts {
    fn default() -> Self {
        let report = Report { leaves: vec![Tally::default(); LEAVES.len()], ..Report::default() };
        Counts {
            report,
            answers: 0,
            numbers: 0,
            stops: 0,
            lines: 0,
            wide: 0,
            amounts: 0,
            shelves: [0; 3],
            queues: 0,
            tests: [0; 5],
            forks: [0; 3],
            deneb: 0,
        }
    }
}

/// What was asked and what both sides say, and the record.
type Found = Result<(), (String, Record)>;

impl Counts {
    fn joined(mut self, other: Counts) -> Counts {
        let (a, b) = (&mut self.report, &other.report);
        let operations = a.operations.iter_mut().zip(&b.operations);
        let closes = a.closes.iter_mut().zip(&b.closes);
        let leaves = a.leaves.iter_mut().zip(&b.leaves);
        operations.chain(closes).chain(leaves).chain([(&mut a.files, &b.files)]).for_each(|(a, b)| a.add(b));
        self.answers += other.answers;
        self.numbers += other.numbers;
        self.stops += other.stops;
        self.lines += other.lines;
        self.wide += other.wide;
        self.amounts += other.amounts;
        self.shelves.iter_mut().zip(other.shelves).for_each(|(a, b)| *a += b);
        self.queues += other.queues;
        self.tests.iter_mut().zip(other.tests).for_each(|(a, b)| *a += b);
        self.forks.iter_mut().zip(other.forks).for_each(|(a, b)| *a += b);
        self.deneb += other.deneb;
        self
    }

    fn same<T: PartialEq + std::fmt::Debug>(
        &mut self,
        asked: impl FnOnce() -> String,
        rust: T,
        library: T,
    ) -> Result<(), String> {
        self.answers += 1;
        if rust == library {
            return Ok(());
        }
        Err(format!("{}\nthe Rust:    {rust:?}\nthe library: {library:?}", asked()))
    }

    fn one(&mut self, seed: u64, i: u64) -> Found {
        let (kind, mut rng, mut record) = report::drawn(seed, i);
        // in the place of one of the queues
        if i % crowd::ONE_IN == 7 {
            record = crowd::record(&mut rng);
        }
        self.operations(&mut rng, &record, kind)
            .and_then(|()| self.leaves(&mut rng, &record))
            .and_then(|()| self.files(&mut rng, &record))
            .and_then(|()| self.shelf(&mut rng, seed, i))
            .map_err(|text| (text, record))
    }

    fn operations(&mut self, rng: &mut Random, record: &Record, kind: usize) -> Result<(), String> {
        let call = steps::call(rng, record);
        let under = rules::drawn(rng);
        let given = booked::given(rng, record);
        self.forks[under.fork.min(2) as usize] += 1;
        let mut closed = None;
        for (i, operation) in OPERATIONS.into_iter().enumerate() {
            let rust = rules::outcome(&call, operation, under);
            self.report.operations[i].count(rust.refusal);
            if i + 1 == OPERATIONS.len() {
                self.report.closes[kind].count(rust.refusal);
                closed = (rust.refusal == 0).then(|| rust.registry.clone());
            }
            let wanted = booked::called_for(&call, &given, operation, under, rust);
            self.numbers += (24 + wanted.outcome.registry.len() + wanted.outcome.slashings.len()) as u64;
            self.queues += u64::from(wanted.outcome.refusal == 8);
            if operation == Operation::Close && wanted.outcome.refusal == 0 {
                self.amounts += wanted.amounts.len() as u64;
                self.tests[wanted.test as usize] += 1;
            }
            if operation == Operation::Registry {
                self.stops(rng, &call, &given, &wanted)?;
            }
            let asked = || {
                let buffers = (&call.closing_registry, &call.closing_slashings, &given.amounts);
                format!("{} under {under:?} with the pair {:?} into {buffers:?}", operation.name(), given.queue)
            };
            if under.fork == 1 && (operation == Operation::Close || operation == Operation::Registry && under.good_pair()) {
                let limit = steps::roomy_limit(rng, record);
                let named = || format!("{} as Deneb with the limit {limit} under {under:?}", operation.name());
                self.deneb += 1;
                self.same(named, wanted.clone(), steps::deneb_told(&call, &given, operation, under, limit))?;
            }
            self.same(asked, wanted, steps::told(&call, &given, operation, under))?;
        }
        let pair = reference::booked::queue(&record.registry);
        let counted = match judge_registry(record) {
            0 => (0, pair),
            refusal => (refusal, [0; 2]),
        };
        self.same(|| "the exit queue's pair".to_string(), counted, library::exit_queue(&record.registry))?;
        if call.record != *record {
            return Err("the opening was written to".to_string());
        }
        closed.map_or(Ok(()), |closed| self.listing(rng, &record.registry, &closed))
    }

    fn stops(
        &mut self,
        rng: &mut Random,
        call: &Call,
        given: &booked::Given,
        step: &booked::Told,
    ) -> Result<(), String> {
        for stop in steps::stops(rng, &call.record) {
            let rust = steps::stopped_called_for(call, given, step, stop);
            self.stops += 1;
            self.numbers += 3 + rust.2.len() as u64;
            let asked = || format!("the registry step to stop {stop} into {:?}", call.closing_registry);
            self.same(asked, rust, steps::stopped(call, given, stop))?;
        }
        Ok(())
    }

    fn listing(&mut self, rng: &mut Random, opening: &[u64], closed: &[u64]) -> Result<(), String> {
        for (i, (before, after)) in opening.chunks(10).zip(closed.chunks(10)).enumerate() {
            let line = listing::line(i, before, after);
            (self.lines, self.wide) = (self.lines + 1, self.wide + u64::from(line.0 == 7));
            let asked = || format!("the line of validator {i}, closed to {after:?}");
            self.same(asked, line, listing::told(opening, closed, i))?;
        }
        let (a, b) = listing::far_apart(rng);
        let change = listing::change(a, b);
        (self.lines, self.wide) = (self.lines + 1, self.wide + u64::from(change.0 == 7));
        self.same(|| format!("the net change from {a} to {b}"), change, listing::change_told(a, b))
    }

    fn leaves(&mut self, rng: &mut Random, record: &Record) -> Result<(), String> {
        for (i, &leaf) in LEAVES.iter().enumerate() {
            let case = generate_leaves::case(rng, leaf, record);
            let under = rules::drawn(rng);
            let queue = booked::queue(rng, &case.registry);
            let answer = rules::answer(&case, under);
            self.report.leaves[i].count(answer.refusal);
            let rust = leaves::called_for(&case, queue, answer);
            self.numbers += (1 + rust.answer.words.len() + rust.lent.len()) as u64;
            let asked = || format!("{case:?} under {under:?} with the pair {queue:?}");
            self.same(asked, rust, leaves::told(&case, queue, under))?;
        }
        Ok(())
    }

    /// Now and then a shelf of this record and those behind it.
    fn shelf(&mut self, rng: &mut Random, seed: u64, i: u64) -> Result<(), String> {
        if i % shelf::ONE_IN != 0 {
            return Ok(());
        }
        let (files, closed) = shelf::compared(rng, |k| report::drawn(seed, i + k).2)?;
        self.answers += 1 + files;
        self.shelves[0] += 1;
        self.shelves[1] += files;
        self.shelves[2] += closed;
        Ok(())
    }

    fn files(&mut self, rng: &mut Random, record: &Record) -> Result<(), String> {
        let reading = files::reading(rng, record);
        let read = files::called_for(&reading);
        match read.refusal {
            8 => self.queues += 1,
            refusal => self.report.files.count(refusal),
        }
        let asked = || format!("reading the {} bytes {:?}", reading.bytes.len(), reading.bytes);
        self.same(asked, read, files::told(&reading))?;
        let length = files::length(rng, record);
        let queue = booked::queue(rng, &record.registry);
        let asked = || format!("writing into {length} bytes with the pair {queue:?}");
        self.same(asked, files::write_called_for(record, queue, length), files::written(record, queue, length))
    }
}

/// Tests 1 and 3 of a registry lent alone.
fn judge_registry(r: &Record) -> u64 {
    let call = Call { record: r.clone(), closing_registry: r.registry.clone(), closing_slashings: Vec::new() };
    refusals::operation(&call, Operation::ParticipationFlags)
}
