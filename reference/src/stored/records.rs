//! The record files, and what is lent of each.
use super::SEED;
use crate::{
    calls::{Call, Outcome, OPERATIONS},
    figures,
    generate::{self, Kind, KINDS},
    judge,
    random::Random,
    record::{at, parts_of, write_file, Checkpoint, Finality, Record, FAR},
    refusals,
};

/// Records of each kind.
const RECORDS: usize = 36;

/// How much is lent: the first numbers of the file's registry and slashings, the first bytes of its roots, and buffers to write.
#[derive(Clone, Copy)]
pub struct Lengths {
    registry: usize,
    slashings: usize,
    roots: usize,
    closing_registry: usize,
    closing_slashings: usize,
}

impl Lengths {
    /// All of a file's parts, and buffers as long.
    fn of(r: &Record) -> Lengths {
        Lengths {
            registry: r.registry.len(),
            slashings: r.slashings.len(),
            roots: r.roots.len(),
            closing_registry: r.registry.len(),
            closing_slashings: r.slashings.len(),
        }
    }

    pub fn words(&self) -> [u64; 5] {
        [self.registry, self.slashings, self.roots, self.closing_registry, self.closing_slashings].map(|n| n as u64)
    }
}

pub struct StoredRecord {
    pub kind: &'static str,
    pub file: Vec<u8>,
    pub lent: Lengths,
    /// what reading it into the buffers answers
    pub read: (u64, u64),
    /// of each operation, in their order, on the file's parts as far as they are lent; none where the header is bad
    pub outcomes: Vec<Outcome>,
    /// those parts
    pub record: Option<Record>,
}

pub fn records() -> Vec<StoredRecord> {
    let mut out: Vec<StoredRecord> = named().into_iter().map(|(name, r)| stored(name, write_file(&r))).collect();
    for (k, kind) in KINDS.into_iter().enumerate() {
        let rng = &mut Random::new(SEED ^ (k as u64 + 1) << 40);
        let mut kept: Vec<StoredRecord> = Vec::new();
        let mut tries = 0;
        while kept.len() < RECORDS {
            tries += 1;
            assert!(tries < 100_000, "too few records of the kind {}", kind.name());
            let file = file_of(rng, kind);
            if file.len() > 368 + 80 * 8 + 40 * 16 {
                continue;
            }
            let next = stored(kind.name(), file);
            // at most half of a kind's records share a close's answer
            let close = |r: &StoredRecord| r.outcomes.last().map_or(6, |o| o.refusal);
            if kept.iter().filter(|r| close(r) == close(&next)).count() < RECORDS / 2 {
                kept.push(next);
            }
        }
        out.extend(kept);
    }
    out.extend(wrong_lengths());
    out
}

fn file_of(rng: &mut Random, kind: Kind) -> Vec<u8> {
    let record = generate::record(kind, rng.next());
    let damaged = kind == Kind::Damaged && rng.once_in(2);
    if damaged {
        generate::damaged_file(rng, &record)
    } else {
        write_file(&record)
    }
}

/// Each wrong length with a record that is read, and with one that test 2 or 3 refuses: test 1 comes before them.
fn wrong_lengths() -> Vec<StoredRecord> {
    let rng = &mut Random::new(SEED ^ (KINDS.len() as u64 + 1) << 40);
    let mut next = |kind: Kind, refusals: &[u64]| loop {
        let file = file_of(rng, kind);
        if file.len() > 368 + 80 * 4 + 40 * 16 {
            continue;
        }
        let r = stored(kind.name(), file);
        if refusals.contains(&r.read.0) && r.lent.registry > 0 {
            return r.file;
        }
    };
    let cut = |(kind, change): (&'static str, fn(&mut Lengths))| {
        let files = [next(Kind::Pool, &[0]), next(Kind::Boundary, &[0]), next(Kind::Damaged, &[2, 3])];
        files.map(|file| lent(kind, file, change))
    };
    let changes: [(&'static str, fn(&mut Lengths)); 15] = [
        ("lent: a number of the registry short", |n| n.registry -= 1),
        ("lent: a validator short", |n| n.registry -= 10),
        ("lent: closing registry a number short", |n| n.closing_registry -= 1),
        ("lent: closing registry a validator longer", |n| n.closing_registry += 10),
        ("lent: no closing registry", |n| n.closing_registry = 0),
        ("lent: both registries a number short", |n| {
            n.registry -= 1;
            n.closing_registry -= 1;
        }),
        // nothing but the file knows of the last validator: no step refuses
        ("lent: both registries a validator short", |n| {
            n.registry -= 10;
            n.closing_registry -= 10;
        }),
        ("lent: slashings a number short", |n| n.slashings -= 1),
        ("lent: closing slashings a number short", |n| n.closing_slashings -= 1),
        ("lent: closing slashings a number longer", |n| n.closing_slashings += 1),
        ("lent: both slashings a number short", |n| {
            n.slashings -= 1;
            n.closing_slashings -= 1;
        }),
        ("lent: roots a byte short", |n| n.roots -= 1),
        ("lent: a root short", |n| n.roots -= 32),
        ("lent: no roots", |n| n.roots = 0),
        ("lent: buffers alone", |n| (n.registry, n.slashings, n.roots) = (0, 0, 0)),
    ];
    changes.into_iter().flat_map(cut).collect()
}

/// The records that the papers speak of, as small as they come.
fn named() -> Vec<(&'static str, Record)> {
    let checkpoint = |epoch| Checkpoint { epoch, root: [0; 32] };
    let with = |changes: &[(usize, u64)], slot, finalized, validators: &[[u64; 10]]| {
        let mut settings = [1; 19];
        changes.iter().for_each(|&(k, n)| settings[k] = n);
        let (roots, slashings) = (vec![7; 32 * settings[at::S] as usize], vec![0; settings[at::L] as usize]);
        let finality = Finality { slot, finalized: checkpoint(finalized), ..Finality::default() };
        Record { settings, finality, registry: validators.concat(), roots, slashings }
    };
    let active = |effective, exit, previous, current| [effective, 0, 0, 0, exit, FAR, effective, previous, current, 0];
    let third = FAR / 3;
    vec![
        ("the example of 01", figures::example()),
        ("nobody, finalized above the previous epoch", with(&[], 1, 1, &[])),
        ("nobody, thresholds above 64 bits", with(&[(at::INCREMENT, 1 << 47), (at::DOWNWARD, 1 << 47)], 1, 0, &[])),
        (
            "nobody, roots found: both epochs justified",
            with(&[(at::SLOTS_PER_EPOCH, 4), (at::S, 8), (at::L, 4)], 11, 0, &[]),
        ),
        (
            "first slot of an epoch",
            with(&[(at::SLOTS_PER_EPOCH, 4), (at::S, 8), (at::L, 4)], 8, 0, &[active(1, FAR, 7, 7)]),
        ),
        (
            "an exit at FAR with delay 0",
            with(&[(at::DELAY, 0), (at::CHURN_QUOTIENT, 9)], 1, 0, &[active(1, FAR, 2, 2), active(2, FAR - 1, 2, 2)]),
        ),
        (
            "an exit at FAR with delay 1",
            with(&[(at::DELAY, 1), (at::CHURN_QUOTIENT, 9)], 1, 0, &[active(1, FAR, 2, 2), active(2, FAR - 1, 2, 2)]),
        ),
        (
            "4 before 5: no previous root, three times the current target above 64 bits",
            with(&[(at::SLOTS_PER_EPOCH, 2)], 5, 0, &[active(third, FAR, 7, 7), active(1, FAR, 0, 7)]),
        ),
        (
            "churn limit 0: an ejection goes one epoch further",
            with(&[(at::MIN_CHURN, 0), (at::CHURN_QUOTIENT, 9)], 1, 0, &[active(1, FAR, 2, 2), active(1, FAR, 2, 2)]),
        ),
    ]
}

/// A file with all its answers.
pub fn stored(kind: &'static str, file: Vec<u8>) -> StoredRecord {
    lent(kind, file, |_| ())
}

/// A file with its answers where what is lent of it has other lengths.
fn lent(kind: &'static str, file: Vec<u8>, change: fn(&mut Lengths)) -> StoredRecord {
    let mut record = (file.len() >= 80 && refusals::header_good(&file)).then(|| parts_of(&file));
    // a bad header names no lengths
    let any = Lengths { registry: 0, slashings: 0, roots: 0, closing_registry: 10, closing_slashings: 2 };
    let mut lent = record.as_ref().map_or(any, Lengths::of);
    change(&mut lent);
    let read = refusals::read(&file, lent.closing_registry, lent.closing_slashings);
    let mut outcomes = Vec::new();
    if let Some(r) = &mut record {
        r.registry.truncate(lent.registry);
        r.slashings.truncate(lent.slashings);
        r.roots.truncate(lent.roots);
        let call = Call {
            record: r.clone(),
            closing_registry: vec![0; lent.closing_registry],
            closing_slashings: vec![0; lent.closing_slashings],
        };
        outcomes.extend(OPERATIONS.map(|operation| judge::outcome(&call, operation)));
    }
    StoredRecord { kind, file, lent, read: (read.refusal, read.position), outcomes, record }
}
