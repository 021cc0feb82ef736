//! The library's reading and writing of record files, against the reference's, which are of version 1: a file of version 2 is one of
//! version 1 with the pair behind the finality and later offsets and the length 16 more, damaged or not.
use crate::{
    booked::{self, Queue},
    convert, raw,
};
use reference::{
    booked::queue as queue_of,
    calls::{Call, Operation},
    generate,
    random::Random,
    record::{number_at, write_file, Finality, Record, Settings},
    refusals,
};

/// Everything that a reading answers and leaves in the buffers.
#[derive(Debug, PartialEq, Eq)]
pub struct Told {
    /// refusal, validators, roots, slashings
    header: [u64; 4],
    pub refusal: u64,
    position: u64,
    settings: Settings,
    finality: Finality,
    queue: Queue,
    registry: Vec<u64>,
    slashings: Vec<u64>,
}

/// A file, good or damaged, and the lengths of the buffers that it is read into. `old` is its form in version 1, and `queue` the pair
/// where it is of version 2.
pub struct Reading {
    pub bytes: Vec<u8>,
    old: Vec<u8>,
    queue: Option<Queue>,
    pub registry: usize,
    pub slashings: usize,
}

/// A file of version 1 as one of version 2; one that ends before the pair's place stays as it is.
pub fn in_version_2(old: &[u8], queue: Queue) -> Option<Vec<u8>> {
    let mut bytes = old.get(..368)?.to_vec();
    for (at, more) in [(0, 1), (8, 16), (56, 16), (64, 16), (72, 16)] {
        let number = number_at(&bytes, at).wrapping_add(more);
        bytes[at..at + 8].copy_from_slice(&number.to_le_bytes());
    }
    queue.iter().for_each(|n| bytes.extend_from_slice(&n.to_le_bytes()));
    bytes.extend_from_slice(&old[368..]);
    Some(bytes)
}

pub fn reading(rng: &mut Random, record: &Record) -> Reading {
    let old = if rng.once_in(2) { write_file(record) } else { generate::damaged_file(rng, record) };
    let pair = booked::queue(rng, &record.registry);
    let two = if rng.once_in(2) { in_version_2(&old, pair) } else { None };
    let queue = two.as_ref().map(|_| pair);
    let bytes = two.unwrap_or_else(|| old.clone());
    let registry = if rng.once_in(20) { rng.index(30) } else { record.registry.len() };
    let slashings = if rng.once_in(20) { rng.index(30) } else { record.slashings.len() };
    Reading { bytes, old, queue, registry, slashings }
}

fn pattern(n: usize) -> Vec<u64> {
    (1..=n as u64).map(|i| i.wrapping_mul(0x9e37_79b9_7f4a_7c15)).collect()
}

pub fn called_for(r: &Reading) -> Told {
    let good = r.old.len() >= 80 && refusals::header_good(&r.old);
    let count = |at| if good { number_at(&r.old, at) } else { 0 };
    let header = [if good { 0 } else { 6 }, count(16), count(24), count(32)];
    let mut read = refusals::read(&r.old, r.registry, r.slashings);
    // the validators of version 2, and its end, stand 16 further on
    if r.queue.is_some() && (read.refusal == 0 || read.position > 368) {
        read.position += 16;
    }
    let counted = read.record.as_ref().map(|record| queue_of(&record.registry));
    if r.queue.is_some() && counted.is_some() && r.queue != counted {
        (read.refusal, read.position, read.record) = (8, 368, None);
    }
    let (refusal, position) = (read.refusal, read.position);
    match read.record {
        Some(Record { settings, finality, registry, slashings, .. }) => {
            let queue = queue_of(&registry);
            Told { header, refusal, position, settings, finality, queue, registry, slashings }
        }
        None => Told {
            queue: [0; 2],
            header,
            refusal,
            position,
            settings: [0; 19],
            finality: Finality::default(),
            registry: pattern(r.registry),
            slashings: pattern(r.slashings),
        },
    }
}

pub fn told(r: &Reading) -> Told {
    let (bytes, n) = (r.bytes.as_ptr(), r.bytes.len());
    let (mut registry, mut slashings) = (pattern(r.registry), pattern(r.slashings));
    let header = unsafe { raw::altair_read_header(bytes, n) };
    let (a, b) = (registry.as_mut_ptr(), slashings.as_mut_ptr());
    let read = unsafe { raw::altair_read_file(bytes, n, a, registry.len(), b, slashings.len()) };
    Told {
        header: [header.refusal, header.validators, header.roots, header.slashings],
        refusal: read.refusal,
        position: read.position,
        settings: convert::numbers(&read.settings),
        finality: convert::plain(&read.finality),
        queue: [read.queue.last_epoch, read.queue.number],
        registry,
        slashings,
    }
}

/// The refusal of a write and the bytes afterwards: as a close's tests, 1 where the file is not as long as it is called for, and 8.
pub fn write_called_for(record: &Record, queue: Queue, length: usize) -> (u64, Vec<u8>) {
    let call = Call {
        closing_registry: record.registry.clone(),
        closing_slashings: record.slashings.clone(),
        record: record.clone(),
    };
    let tests = refusals::operation(&call, Operation::Close);
    let file = in_version_2(&write_file(record), queue).expect("it has a header and a finality");
    match (tests, file.len() == length) {
        (0, true) if queue != queue_of(&record.registry) => (8, vec![0xa5; length]),
        (0, true) => (0, file),
        (1, _) | (_, false) => (1, vec![0xa5; length]),
        (refusal, _) => (refusal, vec![0xa5; length]),
    }
}

pub fn written(record: &Record, queue: Queue, length: usize) -> (u64, Vec<u8>) {
    let mut file = vec![0xa5; length];
    let r = record;
    let refusal = unsafe {
        raw::altair_write_file(
            convert::settings(&r.settings),
            convert::finality(&r.finality),
            convert::queue(queue),
            r.registry.as_ptr(),
            r.registry.len(),
            r.roots.as_ptr(),
            r.roots.len(),
            r.slashings.as_ptr(),
            r.slashings.len(),
            file.as_mut_ptr(),
            length,
        )
    };
    (refusal, file)
}

/// The length that a record calls for, or now and then one beside it.
pub fn length(rng: &mut Random, r: &Record) -> usize {
    let right = 384 + 8 * r.registry.len() + r.roots.len() + 8 * r.slashings.len();
    if rng.once_in(20) {
        right - 1 + 2 * rng.index(2)
    } else {
        right
    }
}
