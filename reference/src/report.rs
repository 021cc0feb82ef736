//! The Rust held to itself on generated records and questions, and the counts of its answers. Every difference is a finding.
use crate::{
    calls::{Answer, Call, Case, Leaf, Operation, Outcome, LEAVES, OPERATIONS},
    generate::{self, Kind, KINDS},
    generate_leaves, judge,
    random::Random,
    record::{at, describe, write_file, Record},
    refusals,
};

/// How often each refusal came, by its number; 0 is an answer.
#[derive(Default, Clone, Copy)]
pub struct Tally {
    pub by_refusal: [u64; 7],
    pub unexpected: u64,
}

impl Tally {
    pub fn count(&mut self, refusal: u64) {
        match self.by_refusal.get_mut(refusal as usize) {
            Some(n) => *n += 1,
            None => self.unexpected += 1,
        }
    }

    pub fn add(&mut self, other: &Tally) {
        self.by_refusal.iter_mut().zip(other.by_refusal).for_each(|(n, more)| *n += more);
        self.unexpected += other.unexpected;
    }

    pub fn total(&self) -> u64 {
        self.by_refusal.iter().sum::<u64>() + self.unexpected
    }
}

#[derive(Default)]
pub struct Report {
    pub operations: [Tally; 9],
    /// accepted closes that changed something, besides what a close always changes
    pub closes: [Tally; 5],
    pub leaves: Vec<Tally>,
    pub files: Tally,
    pub whole: u64,
    /// where, how often, and the first
    pub findings: Vec<(&'static str, u64, String)>,
}

impl Report {
    fn find(&mut self, place: &'static str, text: impl FnOnce() -> String) {
        match self.findings.iter_mut().find(|f| f.0 == place) {
            Some(f) => f.1 += 1,
            None => self.findings.push((place, 1, text())),
        }
    }

    pub fn differences(&self) -> u64 {
        self.findings.iter().map(|f| f.1).sum()
    }
}

pub fn run(seed: u64, count: u64) -> Report {
    let mut report = Report { leaves: vec![Tally::default(); LEAVES.len()], ..Report::default() };
    for i in 0..count {
        let (kind, mut rng, record) = drawn(seed, i);
        operations(&mut rng, &record, kind, &mut report);
        files(&mut rng, &record, &mut report);
        leaves(&mut rng, &record, &mut report);
    }
    report
}

/// The i-th record of a run, its kind's place, and what the run's other choices for it are drawn from. Of ten records: two pools,
/// four boundary, two queues, one leak, one damaged.
pub fn drawn(seed: u64, i: u64) -> (usize, Random, Record) {
    let kind = [0, 0, 1, 1, 1, 1, 2, 2, 3, 4][(i % 10) as usize];
    let mut rng = Random::new(generate::seed_of(seed, i));
    let record = generate::record(KINDS[kind], rng.next());
    (kind, rng, record)
}

/// Closing buffers of the opening's lengths, or now and then of another, with contents of their own.
fn call(rng: &mut Random, record: &Record) -> Call {
    let mut longer = |n: usize| if rng.once_in(50) { (n + rng.index(3)).saturating_sub(1) } else { n };
    Call {
        closing_registry: vec![0xa5a5; longer(record.registry.len())],
        closing_slashings: vec![0x5a5a; longer(record.slashings.len())],
        record: record.clone(),
    }
}

fn operations(rng: &mut Random, record: &Record, kind: usize, report: &mut Report) {
    let call = call(rng, record);
    for (i, operation) in OPERATIONS.into_iter().enumerate() {
        let rust = judge::outcome(&call, operation);
        report.operations[i].count(rust.refusal);
        if operation == Operation::Close {
            report.closes[kind].count(rust.refusal);
            whole(record, &rust, report);
        }
        if rust.refusal == judge::UNEXPECTED {
            report.find(operation.name(), || format!("{}: {}", judge::unexpected_text(), describe(record)));
        }
    }
}

/// process_epoch itself, with the steps that are left out, gives what the eight give.
fn whole(record: &Record, rust: &Outcome, report: &mut Report) {
    let asked = rust.refusal == 0 || rust.refusal == 4 || rust.refusal == 5;
    if !asked || record.settings[at::S] < record.settings[at::SLOTS_PER_EPOCH] {
        return;
    }
    report.whole += 1;
    let same = match judge::whole(record) {
        Ok((finality, registry, slashings)) => {
            rust.refusal == 0 && (finality, &registry, &slashings) == (rust.finality, &rust.registry, &rust.slashings)
        }
        Err(number) => number == rust.refusal,
    };
    if !same {
        report.find("process_epoch", || describe(record));
    }
}

fn files(rng: &mut Random, record: &Record, report: &mut Report) {
    let bytes = if rng.once_in(2) { write_file(record) } else { generate::damaged_file(rng, record) };
    let registry = if rng.once_in(20) { rng.index(30) } else { record.registry.len() };
    let slashings = if rng.once_in(20) { rng.index(30) } else { record.slashings.len() };
    let ours = refusals::read(&bytes, registry, slashings);
    report.files.count(ours.refusal);
    if ours.record.as_ref().is_some_and(|read| write_file(read) != bytes) {
        report.find("a file read and written", || format!("{} bytes", bytes.len()));
    }
}

fn leaves(rng: &mut Random, record: &Record, report: &mut Report) {
    for (i, &leaf) in LEAVES.iter().enumerate() {
        let case = generate_leaves::case(rng, leaf, record);
        let rust = judge::answer(&case);
        report.leaves[i].count(rust.refusal);
        let known = rust.refusal == 0 || leaf.shape().refusals.contains(&rust.refusal);
        if !known {
            report.find(leaf.shape().name, || format!("{} of {case:?}", rust.refusal));
        }
        epoch_alone(&case, &rust, report);
    }
}

/// Where the participation epoch is all that is wrong, the Rust itself answers InvalidEpoch.
fn epoch_alone(case: &Case, rust: &Answer, report: &mut Report) {
    let place = match case.leaf {
        Leaf::IsUnslashedParticipating | Leaf::GetParticipatingBalance => 2,
        _ => return,
    };
    if rust.refusal != 1 || refusals::participation_epoch_good(case, case.numbers[place]) {
        return;
    }
    let mut good = case.clone();
    good.numbers[place] = case.numbers[0].checked_div(case.settings[at::SLOTS_PER_EPOCH]).unwrap_or(0);
    if refusals::leaf(&good) == 0 && judge::leaf(case) != Err(1) {
        report.find("the participation epoch", || format!("{case:?}"));
    }
}

/// A line for each operation, leaf and kind.
pub fn table(report: &Report, seed: u64, count: u64) {
    println!("{count} records from seed {seed}");
    let head = |name: &str| {
        println!(
            "{name:<38} {:>9} {:>9} {:>8} {:>8} {:>8} {:>8} {:>8} {:>8}",
            "asked", "answered", "1", "2", "3", "4", "5", "6"
        )
    };
    let row = |name: &str, t: &Tally| {
        let r = t.by_refusal;
        println!(
            "{name:<38} {:>9} {:>9} {:>8} {:>8} {:>8} {:>8} {:>8} {:>8}",
            t.total(),
            r[0],
            r[1],
            r[2],
            r[3],
            r[4],
            r[5],
            r[6]
        );
    };
    head("operation, refusals by number");
    for (operation, tally) in OPERATIONS.iter().zip(&report.operations) {
        row(operation.name(), tally);
    }
    row("reading a file", &report.files);
    head("leaf");
    for (leaf, tally) in LEAVES.iter().zip(&report.leaves) {
        row(leaf.shape().name, tally);
    }
    head("the close, by kind of record");
    for (kind, tally) in KINDS.iter().zip(&report.closes) {
        row(kind.name(), tally);
    }
    for (kind, tally) in KINDS.iter().zip(&report.closes) {
        if *kind == Kind::Boundary && tally.total() > 0 {
            let percent = 100.0 * tally.by_refusal[0] as f64 / tally.total() as f64;
            println!("boundary records accepted by the close: {percent:.1} percent");
        }
    }
}

/// The table, and the findings.
pub fn print(report: &Report, seed: u64, count: u64) {
    table(report, seed, count);
    println!("process_epoch itself against the eight steps: {} records", report.whole);
    for (place, count, text) in &report.findings {
        println!("DIFFERENCE in {place}, {count} times, first: {text}");
    }
    println!("findings: {}", report.differences());
}
