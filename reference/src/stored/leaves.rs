//! The questions to the leaves.
use super::SEED;
use crate::{
    calls::{Answer, Case, Leaf, Lent, LEAVES},
    figures, generate, generate_leaves, judge,
    random::Random,
    record::{at, Finality, Settings, MAINNET, SMALL},
    refusals,
};

/// Cases for each leaf that are answered, and for each refusal that it gives.
const ANSWERED: usize = 46;
const REFUSED: usize = 10;
/// The place in the table of settings with four slots an epoch and eight roots.
const SHORT: usize = 2;

/// The settings that leaves are asked with: good ones, ones at each edge, and ones that each test refuses.
pub fn settings() -> Vec<Settings> {
    let rng = &mut Random::new(SEED);
    let with = |changes: &[(usize, u64)]| {
        let mut s = MAINNET;
        (s[at::SLOTS_PER_EPOCH], s[at::S], s[at::L]) = (4, 8, 4);
        changes.iter().for_each(|&(k, n)| s[k] = n);
        s
    };
    let mut out = vec![MAINNET, figures::example().settings, with(&[])];
    for (s, l) in [(1, 1), (1, 2), (2, 1), (3, 5), (8, 4), (16, 16)] {
        let mut t = generate::tiny(rng);
        (t[at::S], t[at::L]) = (s, l);
        out.push(t);
    }
    let top = SMALL - 1;
    out.extend([
        with(&[(at::SLOTS_PER_EPOCH, 1)]),
        with(&[(at::SLOTS_PER_EPOCH, top)]),
        with(&[(at::S, 65536), (at::L, 65536)]),
        with(&[(at::INCREMENT, 1), (at::BASE_REWARD_FACTOR, top)]),
        with(&[(at::INCREMENT, top), (at::BASE_REWARD_FACTOR, 65536)]),
        with(&[(at::INCREMENT, top), (at::BASE_REWARD_FACTOR, 65537)]),
        with(&[(at::BASE_REWARD_FACTOR, 0)]),
        with(&[(at::BIAS, top), (at::PENALTY_QUOTIENT, 65536)]),
        with(&[(at::BIAS, top), (at::PENALTY_QUOTIENT, 65537)]),
        with(&[(at::BIAS, 1), (at::PENALTY_QUOTIENT, 1)]),
        with(&[(at::LOOKAHEAD, top), (at::DELAY, top)]),
        with(&[(at::LOOKAHEAD, 0), (at::DELAY, 0), (at::MIN_CHURN, 0), (at::CHURN_QUOTIENT, top)]),
        with(&[(at::MIN_CHURN, 1), (at::CHURN_QUOTIENT, 1)]),
        with(&[(at::LEAK_AFTER, 0)]),
        with(&[(at::LEAK_AFTER, top)]),
        with(&[(at::MAX_EFFECTIVE, 0), (at::EJECTION, top)]),
        // 1: S or L out of range, also where it is 2^48 or more, and before 2
        with(&[(at::S, 0)]),
        with(&[(at::L, 0)]),
        with(&[(at::S, 65537)]),
        with(&[(at::L, 65537)]),
        with(&[(at::S, SMALL)]),
        with(&[(at::L, 0), (at::SLOTS_PER_EPOCH, 0)]),
        with(&[(at::S, 65537), (at::INCREMENT, SMALL)]),
    ]);
    // 2: each divisor 0, each setting 2^48
    out.extend(refusals::DIVISORS.map(|k| with(&[(k, 0)])));
    out.extend((0..19).filter(|&k| k != at::S && k != at::L).map(|k| with(&[(k, SMALL)])));
    out
}

pub struct StoredCase {
    pub case: Case,
    /// its place in the table of settings, where it is handed any
    pub settings: usize,
    pub answer: Answer,
}

pub fn cases() -> Vec<StoredCase> {
    let table = settings();
    let mut out = Vec::new();
    for &leaf in LEAVES {
        let rng = &mut Random::new(SEED ^ (leaf as u64) << 32);
        let mut kept: Vec<StoredCase> = Vec::new();
        for (settings, case) in fixed(leaf, &table) {
            let answer = judge::answer(&case);
            kept.push(StoredCase { case, settings, answer });
        }
        let full = |kept: &[StoredCase]| kept.len() >= ANSWERED + REFUSED * leaf.shape().refusals.len();
        for _ in 0..100_000 {
            if full(&kept) {
                break;
            }
            let settings = rng.index(table.len());
            let record = generate::around(rng, table[settings]);
            let case = generate_leaves::case(rng, leaf, &record);
            let in_table = !leaf.shape().settings || case.settings == table[settings];
            if in_table && small(&case) {
                let answer = judge::answer(&case);
                if wanted(&kept, &case, &answer) {
                    kept.push(StoredCase { case, settings, answer });
                }
            }
        }
        for &refusal in leaf.shape().refusals {
            let found = kept.iter().filter(|c| c.answer.refusal == refusal).count();
            assert!(found == REFUSED, "{}: {found} cases of refusal {refusal}", leaf.shape().name);
        }
        kept.sort_by_key(|c| c.answer.refusal);
        out.extend(kept);
    }
    out
}

/// At most four validators and 16 roots.
fn small(c: &Case) -> bool {
    c.registry.len() <= 45 && c.roots.len() <= 32 * 16 + 1
}

/// Whether there are too few of this kind so far. Of yes and no each gets a half, and answers of zeros alone a third.
fn wanted(kept: &[StoredCase], case: &Case, answer: &Answer) -> bool {
    if kept.iter().any(|k| k.case == *case) {
        return false;
    }
    let alike = |test: &dyn Fn(&Answer) -> bool| kept.iter().filter(|k| test(&k.answer)).count();
    if answer.refusal != 0 {
        return alike(&|a| a.refusal == answer.refusal) < REFUSED;
    }
    let answers = alike(&|a| a.refusal == 0);
    let share = if case.leaf.shape().answer == "0 or 1" {
        alike(&|a| a == answer) < ANSWERED / 2
    } else {
        answer.words.iter().any(|&w| w != 0) || alike(&|a| a.words.iter().all(|&w| w == 0)) < ANSWERED / 3
    };
    answers < ANSWERED && share
}

/// Cases that are not left to chance, with the place of their settings in the table.
fn fixed(leaf: Leaf, table: &[Settings]) -> Vec<(usize, Case)> {
    let at_settings = |place: usize, slot: u64, numbers: &[u64]| {
        let shape = leaf.shape();
        let s = table[place];
        let case = Case {
            leaf,
            settings: if shape.settings { s } else { [0; 19] },
            roots: if shape.roots { (0..32 * s[at::S]).map(|i| i as u8).collect() } else { Vec::new() },
            finality: Finality { slot, ..Finality::default() },
            numbers: numbers.to_vec(),
            registry: Vec::new(),
        };
        (place, case)
    };
    let plain = |numbers: &[u64]| at_settings(0, 0, numbers);
    match leaf {
        Leaf::IntegerSqrt => {
            let top = u64::from(u32::MAX);
            let squares = [1, 2, 3, 1000, 400_000, 1 << 16, 1 << 31, top].map(|x: u64| x * x);
            let around = squares.iter().flat_map(|&n| [n - 1, n, n + 1]);
            around.chain([0, 2, 5, 160_000_000_000, 1 << 63, u64::MAX - 1, u64::MAX]).map(|n| plain(&[n])).collect()
        }
        Leaf::HasFlag | Leaf::AddFlag => {
            (0..9).flat_map(|i| [0, 0x55, 0xaa, 255].map(|flags| plain(&[flags, i]))).collect()
        }
        // state slot 0, and both ends of what is kept
        Leaf::GetBlockRootAtSlot => {
            [[0, 0], [0, u64::MAX], [8, 0], [9, 0], [9, 1], [9, 8], [9, 9]].map(|n| at_settings(SHORT, 0, &n)).to_vec()
        }
        Leaf::GetBlockRoot => {
            [[0, 0], [0, u64::MAX], [8, 0], [9, 0], [9, 1], [9, 2], [9, 3]].map(|n| at_settings(SHORT, 0, &n)).to_vec()
        }
        // at slot 0; then the previous root out of range before the product of the current target, and after it
        Leaf::WeighJustificationAndFinalization => vec![
            at_settings(SHORT, 0, &[3, 2, 0]),
            at_settings(SHORT, 0, &[3, 1, 1]),
            at_settings(SHORT, 23, &[3, 2, u64::MAX]),
            at_settings(SHORT, 13, &[3, 2, u64::MAX]),
            at_settings(SHORT, 13, &[u64::MAX, 2, 2]),
            at_settings(SHORT, 13, &[3, 2, 2]),
        ],
        _ => Vec::new(),
    }
}

/// What the leaf is lent besides numbers, for the list's head line.
pub fn handed(leaf: Leaf) -> String {
    let shape = leaf.shape();
    let mut parts: Vec<String> = Vec::new();
    for (is, name) in [(shape.settings, "settings"), (shape.roots, "roots"), (shape.finality, "finality")] {
        if is {
            parts.push(name.to_string());
        }
    }
    parts.extend(shape.numbers.iter().map(|n| format!("{n:?}")));
    match shape.lent {
        Lent::Nothing => (),
        Lent::Entry => parts.push("entry".to_string()),
        Lent::Registry => parts.push("registry".to_string()),
    }
    parts.join(" ")
}
