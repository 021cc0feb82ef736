//! The record of document 01 in plain numbers, and its file.

pub const FAR: u64 = u64::MAX;
pub const SMALL: u64 = 1 << 48;

/// Places of the nineteen settings, in document 01's order.
pub mod at {
    pub const SLOTS_PER_EPOCH: usize = 0;
    pub const S: usize = 1;
    pub const L: usize = 2;
    pub const INCREMENT: usize = 3;
    pub const MAX_EFFECTIVE: usize = 4;
    pub const HYSTERESIS_QUOTIENT: usize = 5;
    pub const DOWNWARD: usize = 6;
    pub const UPWARD: usize = 7;
    pub const BASE_REWARD_FACTOR: usize = 8;
    pub const LEAK_AFTER: usize = 9;
    pub const BIAS: usize = 10;
    pub const RECOVERY: usize = 11;
    pub const PENALTY_QUOTIENT: usize = 12;
    pub const MULTIPLIER: usize = 13;
    pub const LOOKAHEAD: usize = 14;
    pub const DELAY: usize = 15;
    pub const EJECTION: usize = 16;
    pub const MIN_CHURN: usize = 17;
    pub const CHURN_QUOTIENT: usize = 18;
}

/// Places of a validator's ten numbers.
pub mod of {
    pub const EFFECTIVE: usize = 0;
    pub const SLASHED: usize = 1;
    pub const ELIGIBILITY: usize = 2;
    pub const ACTIVATION: usize = 3;
    pub const EXIT: usize = 4;
    pub const WITHDRAWABLE: usize = 5;
    pub const BALANCE: usize = 6;
    pub const PREVIOUS: usize = 7;
    pub const CURRENT: usize = 8;
    pub const SCORE: usize = 9;
}

pub type Settings = [u64; 19];

pub const MAINNET: Settings = [
    32,
    8192,
    8192,
    1_000_000_000,
    32_000_000_000,
    4,
    1,
    5,
    64,
    4,
    4,
    16,
    50_331_648,
    2,
    4,
    256,
    16_000_000_000,
    4,
    65_536,
];

#[derive(Debug, Clone, Copy, PartialEq, Eq, Default)]
pub struct Checkpoint {
    pub epoch: u64,
    pub root: [u8; 32],
}

#[derive(Debug, Clone, Copy, PartialEq, Eq, Default)]
pub struct Finality {
    pub slot: u64,
    pub bits: u64,
    pub previous: Checkpoint,
    pub current: Checkpoint,
    pub finalized: Checkpoint,
}

/// What a close is handed. The lengths are free: the tests of document 01 ask about them.
#[derive(Debug, Clone, PartialEq, Eq)]
pub struct Record {
    pub settings: Settings,
    pub finality: Finality,
    pub registry: Vec<u64>,
    pub roots: Vec<u8>,
    pub slashings: Vec<u64>,
}

impl Record {
    pub fn validators(&self) -> usize {
        self.registry.len() / 10
    }
}

fn put(bytes: &mut Vec<u8>, numbers: &[u64]) {
    for n in numbers {
        bytes.extend_from_slice(&n.to_le_bytes());
    }
}

/// The file of a record: header, settings, finality, validators, roots, slashings. Its counts are those of the parts.
pub fn write_file(r: &Record) -> Vec<u8> {
    let (n, s, l) = (r.validators() as u64, r.roots.len() as u64 / 32, r.slashings.len() as u64);
    let roots_at = 368 + 80 * n;
    let slashings_at = roots_at + 32 * s;
    let mut bytes = Vec::new();
    put(&mut bytes, &[1, slashings_at + 8 * l, n, s, l, 80, 232, 368, roots_at, slashings_at]);
    put(&mut bytes, &r.settings);
    put(&mut bytes, &[r.finality.slot, r.finality.bits]);
    for c in [&r.finality.previous, &r.finality.current, &r.finality.finalized] {
        put(&mut bytes, &[c.epoch]);
        bytes.extend_from_slice(&c.root);
    }
    put(&mut bytes, &r.registry);
    bytes.extend_from_slice(&r.roots);
    put(&mut bytes, &r.slashings);
    bytes
}

/// The 8 bytes at an offset, which must be there.
pub fn number_at(bytes: &[u8], offset: usize) -> u64 {
    u64::from_le_bytes(bytes[offset..offset + 8].try_into().expect("eight bytes"))
}

fn numbers_at(bytes: &[u8], offset: usize, count: usize) -> Vec<u64> {
    (0..count).map(|i| number_at(bytes, offset + 8 * i)).collect()
}

fn checkpoint_at(bytes: &[u8], offset: usize) -> Checkpoint {
    Checkpoint { epoch: number_at(bytes, offset), root: bytes[offset + 8..offset + 40].try_into().expect("32 bytes") }
}

/// The parts of a file whose header is good.
pub fn parts_of(bytes: &[u8]) -> Record {
    let n = number_at(bytes, 16) as usize;
    let s = number_at(bytes, 24) as usize;
    let l = number_at(bytes, 32) as usize;
    let roots_at = 368 + 80 * n;
    let slashings_at = roots_at + 32 * s;
    Record {
        settings: numbers_at(bytes, 80, 19).try_into().expect("nineteen settings"),
        finality: Finality {
            slot: number_at(bytes, 232),
            bits: number_at(bytes, 240),
            previous: checkpoint_at(bytes, 248),
            current: checkpoint_at(bytes, 288),
            finalized: checkpoint_at(bytes, 328),
        },
        registry: numbers_at(bytes, 368, 10 * n),
        roots: bytes[roots_at..slashings_at].to_vec(),
        slashings: numbers_at(bytes, slashings_at, l),
    }
}

/// A record in words, without the parts that are zero.
pub fn describe(r: &Record) -> String {
    let mut text = format!("settings {:?}", r.settings);
    let f = &r.finality;
    text += &format!(
        " slot {} bits {} epochs {} {} {}",
        f.slot, f.bits, f.previous.epoch, f.current.epoch, f.finalized.epoch
    );
    for entry in r.registry.chunks(10) {
        text += &format!(" validator {entry:?}");
    }
    let nonzero = |text: &mut String, name: &str, at: usize, n: u64| {
        if n != 0 {
            *text += &format!(" {name}[{at}] = {n}");
        }
    };
    text += &format!(" roots of {} bytes, {} slashings", r.roots.len(), r.slashings.len());
    r.roots.iter().enumerate().for_each(|(i, &b)| nonzero(&mut text, "roots", i, b.into()));
    r.slashings.iter().enumerate().for_each(|(i, &n)| nonzero(&mut text, "slashings", i, n));
    text
}
