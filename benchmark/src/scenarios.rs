//! Records of any size at mainnet's settings. Each is a function of its number of validators.
use crate::{
    random::Random,
    record::{at, of, Checkpoint, Finality, Record, FAR, MAINNET},
};
use altair_close::Refusal;

#[derive(Clone, Copy, PartialEq, Eq)]
pub enum Scenario {
    /// final two epochs ago, 99 percent hit every flag
    Calm,
    /// no finality for 100 epochs, 60 percent hit the target
    Leak,
    /// as calm, with a fifth waiting for activation and 2 percent to be ejected at once
    Queue,
    /// as queue, with a churn limit of 1,000
    Churn,
    /// as calm, with one sum out of 64 bits that justification does not ask for
    Overflow,
}

pub const SCENARIOS: [Scenario; 5] =
    [Scenario::Calm, Scenario::Leak, Scenario::Queue, Scenario::Churn, Scenario::Overflow];

const EPOCH: u64 = 200_000;
const ETHER: u64 = 1_000_000_000;

impl Scenario {
    pub fn name(self) -> &'static str {
        match self {
            Scenario::Calm => "calm",
            Scenario::Leak => "leak",
            Scenario::Queue => "queue",
            Scenario::Churn => "churn",
            Scenario::Overflow => "overflow",
        }
    }

    /// What the close answers.
    pub fn refusal(self) -> Option<Refusal> {
        (self == Scenario::Overflow).then_some(Refusal::Overflow)
    }

    fn crowded(self) -> bool {
        matches!(self, Scenario::Queue | Scenario::Churn)
    }

    fn finality(self, rng: &mut Random) -> Finality {
        let mut at = |epoch| Checkpoint { epoch, root: std::array::from_fn(|_| rng.next() as u8) };
        let (bits, previous, current, finalized) = match self {
            Scenario::Leak => (0, EPOCH - 101, EPOCH - 101, EPOCH - 102),
            _ => (7, EPOCH - 2, EPOCH - 1, EPOCH - 2),
        };
        Finality { slot: 32 * EPOCH + 31, bits, previous: at(previous), current: at(current), finalized: at(finalized) }
    }

    fn validator(self, rng: &mut Random) -> [u64; 10] {
        let draw = rng.below(1000);
        let effective = if draw < 20 { ETHER * (17 + rng.below(15)) } else { 32 * ETHER };
        let balance = effective + rng.below(ETHER) - ETHER / 5;
        let past = 1000 + rng.below(EPOCH - 2000);
        let mut v = [effective, 0, past - 1, past, FAR, FAR, balance, self.flags(rng), self.flags(rng), 0];
        if self == Scenario::Leak {
            v[9] = if v[7] & 2 == 0 { 300 + rng.below(100) } else { rng.below(40) };
        }
        match draw {
            // left long ago
            20..=39 => (v[4], v[5]) = (past + 100, past + 356),
            // slashed, and one in ten of them due now
            40 => (v[1], v[4], v[5]) = (1, EPOCH - 10, EPOCH + if rng.once_in(10) { 4096 } else { 500 }),
            // leaving
            41 => (v[4], v[5]) = (EPOCH + 5 + rng.below(3), EPOCH + 300),
            // new
            42 => (v[2], v[3], v[7], v[8]) = (FAR, FAR, 0, 0),
            // waiting
            43..=242 if self.crowded() => {
                (v[2], v[3], v[7], v[8]) = (EPOCH - 3 - rng.below(4000), FAR, 0, 0);
            }
            // ejected now
            243..=262 if self.crowded() => (v[0], v[6]) = (16 * ETHER, 16 * ETHER + rng.below(ETHER)),
            _ => (),
        }
        v
    }

    fn flags(self, rng: &mut Random) -> u64 {
        match (self, rng.below(1000)) {
            (Scenario::Leak, 0..=399) => 0,
            (Scenario::Leak, 400..=449) => 1,
            (_, 990..=995) => 3,
            (_, 996..=997) => 1,
            (_, 998..=999) => 0,
            _ => 7,
        }
    }

    pub fn record(self, validators: usize) -> Record {
        let rng = &mut Random::new(validators as u64);
        let finality = self.finality(rng);
        let mut registry: Vec<u64> = (0..validators).flat_map(|_| self.validator(rng)).collect();
        let roots = (0..32 * MAINNET[at::S]).map(|_| rng.next() as u8).collect();
        let mut slashings = vec![0; MAINNET[at::L] as usize];
        for _ in 0..20 {
            slashings[rng.index(8192)] = 32 * ETHER * rng.below(10);
        }
        let mut settings = MAINNET;
        if self == Scenario::Churn {
            settings[at::MIN_CHURN] = 1_000;
        }
        if self == Scenario::Overflow {
            // the last two left with this epoch and hit the previous source alone: in no sum but that one
            for v in registry.chunks_exact_mut(10).rev().take(2) {
                (v[of::EFFECTIVE], v[of::SLASHED], v[of::ACTIVATION], v[of::EXIT], v[of::PREVIOUS]) =
                    (1 << 63, 0, 1, EPOCH, 1);
            }
        }
        Record { settings, finality, registry, roots, slashings }
    }
}
