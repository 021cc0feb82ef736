//! Records and files with something wrong.
use super::{edge, record, Kind};
use crate::{
    random::Random,
    record::{at, of, write_file, Record, FAR, SMALL},
    refusals::DIVISORS,
};

/// A record of another kind with one or two numbers out of range, or a part of the wrong length.
pub fn damaged(rng: &mut Random) -> Record {
    let kind = rng.pick(&[Kind::Pool, Kind::Boundary, Kind::Queues]);
    let seed = rng.next();
    let mut r = record(kind, seed);
    for _ in 0..1 + rng.below(2) {
        damage(rng, &mut r);
    }
    r
}

pub fn damage(rng: &mut Random, r: &mut Record) {
    let large = |rng: &mut Random| rng.pick(&[SMALL, SMALL + 1, 1 << 63, FAR]);
    match rng.below(16) {
        0 => {
            let k = rng.index(19);
            r.settings[k] = large(rng);
        }
        1 | 2 => {
            let k = rng.pick(&DIVISORS);
            r.settings[k] = 0;
        }
        3 => r.settings[rng.pick(&[at::S, at::L])] = rng.pick(&[0, 65537, 7, SMALL, FAR]),
        4 => r.finality.slot = large(rng),
        5 => r.finality.bits = rng.pick(&[16, 17, 255, FAR]),
        6 => r.finality.previous.epoch = large(rng),
        7 => r.finality.current.epoch = large(rng),
        8 => r.finality.finalized.epoch = large(rng),
        9..=11 if !r.registry.is_empty() => {
            let i = rng.index(r.validators().max(1));
            let place = rng.pick(&[of::SLASHED, of::PREVIOUS, of::CURRENT]);
            if let Some(n) = r.registry.get_mut(10 * i + place) {
                *n = if place == of::SLASHED { rng.pick(&[2, 255, FAR]) } else { rng.pick(&[256, 257, 1 << 16, FAR]) };
            }
        }
        12 => {
            let cut = rng.index(r.registry.len() + 1).min(12);
            r.registry.truncate(r.registry.len() - cut);
        }
        13 => r.registry.extend_from_slice(&[0; 3]),
        14 => match rng.below(3) {
            0 => r.roots.push(0),
            1 => drop(r.roots.pop()),
            _ => r.roots.truncate(r.roots.len() / 2),
        },
        _ => match rng.below(3) {
            0 => r.slashings.push(0),
            1 => drop(r.slashings.pop()),
            _ => r.slashings.clear(),
        },
    }
}

/// A file with some bytes or its length changed. The parts of the record need not fit each other either.
pub fn damaged_file(rng: &mut Random, r: &Record) -> Vec<u8> {
    let mut bytes = write_file(r);
    for _ in 0..rng.below(3) {
        match rng.below(8) {
            0 => bytes.truncate(rng.pick(&[0, 1, 8, 79, 80, 81, 231, 232, 367, 368])),
            1 => drop(bytes.pop()),
            2 => bytes.push(0),
            // a word of the header
            3..=5 if bytes.len() >= 80 => {
                let at = 8 * rng.index(10);
                let old = u64::from_le_bytes(bytes[at..at + 8].try_into().expect("eight bytes"));
                let new = match rng.below(4) {
                    0 => edge(rng),
                    1 => old.wrapping_add(1),
                    2 => old.wrapping_sub(1),
                    _ => old.wrapping_add(rng.pick(&[1 << 59, 1 << 60, 1 << 61])),
                };
                bytes[at..at + 8].copy_from_slice(&new.to_le_bytes());
            }
            // a header of other counts that agrees with itself, so that only the length tells
            6 if bytes.len() >= 80 => {
                let counts = [
                    rng.pick(&[0, 1, 2, (1 << 24) + 1, 1 << 60]),
                    rng.pick(&[0, 1, 65537, 1 << 59]),
                    rng.pick(&[0, 1, 2, 65537, 1 << 61]),
                ];
                let header = header_for(counts);
                for (i, n) in header.into_iter().enumerate() {
                    bytes[8 * i..8 * i + 8].copy_from_slice(&n.to_le_bytes());
                }
            }
            _ if !bytes.is_empty() => {
                let at = rng.index(bytes.len());
                bytes[at] ^= 1 << rng.below(8);
            }
            _ => (),
        }
    }
    bytes
}

/// The header of these counts, in arithmetic that wraps.
fn header_for([n, s, l]: [u64; 3]) -> [u64; 10] {
    let roots_at = n.wrapping_mul(80).wrapping_add(368);
    let slashings_at = roots_at.wrapping_add(s.wrapping_mul(32));
    let length = slashings_at.wrapping_add(l.wrapping_mul(8));
    [1, length, n, s, l, 80, 232, 368, roots_at, slashings_at]
}
