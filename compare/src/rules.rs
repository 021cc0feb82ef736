//! Rules: a fork and the Bellatrix pair beside a record's settings. The Rust is Altair's: a Bellatrix call is judged by it with the two
//! numbers replaced, and what test 2 asks of the pair is what it asks of the two.
use reference::{
    calls::{Answer, Call, Case, Leaf, Operation, Outcome},
    judge,
    random::Random,
    record::{at, Settings, SMALL},
};

#[derive(Debug, Clone, Copy)]
pub struct Rules {
    pub fork: u64,
    pub pair: [u64; 2],
}

impl Rules {
    /// Whether test 2 passes the pair.
    pub fn good_pair(&self) -> bool {
        let [quotient, multiplier] = self.pair;
        quotient != 0 && quotient < SMALL && multiplier < SMALL
    }
}

/// Mostly fork 0 or 1. The pair is mainnet's, small, at a limit of test 2, or any.
pub fn drawn(rng: &mut Random) -> Rules {
    let fork = if rng.once_in(40) { 2 + rng.any_size() % (u64::MAX - 1) } else { rng.below(2) };
    let mut number = |mainnet: u64| match rng.below(8) {
        0 => rng.pick(&[0, SMALL - 1, SMALL, u64::MAX]),
        1 => rng.any_size(),
        2 | 3 => 1 + rng.below(100),
        _ => mainnet,
    };
    Rules { fork, pair: [number(16_777_216), number(3)] }
}

fn replaced(s: &Settings, pair: [u64; 2]) -> Settings {
    let mut s = *s;
    [s[at::PENALTY_QUOTIENT], s[at::MULTIPLIER]] = pair;
    s
}

/// What the Rust answers under rules, from what it answers with these settings: 1 for another fork; 1 and 2 by the settings as they are;
/// and else, under fork 1, with the pair in place.
fn under<T>(rules: Rules, settings: &Settings, refused: impl Fn(u64) -> T, asked: impl Fn(&Settings) -> (u64, T)) -> T {
    match (rules.fork, asked(settings)) {
        (0, (_, answer)) => answer,
        (1, (1 | 2, answer)) => answer,
        (1, _) => asked(&replaced(settings, rules.pair)).1,
        _ => refused(1),
    }
}

/// The settings that a close under these rules goes by.
pub fn settings(s: &Settings, rules: Rules) -> Settings {
    if rules.fork == 1 {
        replaced(s, rules.pair)
    } else {
        *s
    }
}

pub fn outcome(c: &Call, operation: Operation, rules: Rules) -> Outcome {
    if !matches!(operation, Operation::Close | Operation::Rewards | Operation::Slashings) {
        return judge::outcome(c, operation);
    }
    let untouched = |refusal| Outcome {
        refusal,
        finality: c.record.finality,
        raised: [0; 3],
        registry: c.closing_registry.clone(),
        slashings: c.closing_slashings.clone(),
    };
    under(rules, &c.record.settings, untouched, |settings| {
        let mut call = c.clone();
        call.record.settings = *settings;
        let out = judge::outcome(&call, operation);
        (out.refusal, out)
    })
}

pub fn answer(c: &Case, rules: Rules) -> Answer {
    if c.leaf != Leaf::GetInactivityPenaltyDeltas {
        return judge::answer(c);
    }
    let refused = |refusal| Answer { refusal, words: Vec::new() };
    under(rules, &c.settings, refused, |settings| {
        let mut case = c.clone();
        case.settings = *settings;
        let answer = judge::answer(&case);
        (answer.refusal, answer)
    })
}
