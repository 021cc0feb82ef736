//! The close as one would write it in Rust for speed alone: one pass that reads, one that writes, and nothing refused. It is for
//! records in which no arithmetic leaves 64 bits and every root is kept; the benchmark holds its result to the library's.
use crate::record::{at, of, Checkpoint, Finality, Record, Settings, FAR};
use altair_close::Amounts;

struct Totals {
    active: u64,
    count: u64,
    /// by the previous epoch's flags
    source: u64,
    target: u64,
    head: u64,
    current_target: u64,
    /// the exit queue's last epoch, and how many leave in it
    last: u64,
    leaving: u64,
    /// eligibility epoch and number of those that may be waiting for activation
    waiting: Vec<(u64, u32)>,
}

fn active(v: &[u64], epoch: u64) -> bool {
    (v[of::ACTIVATION] <= epoch) & (epoch < v[of::EXIT])
}

/// `n` where `test`, else 0, without a branch.
fn when(test: bool, n: u64) -> u64 {
    n & 0u64.wrapping_sub(test.into())
}

fn totals(s: &Settings, epoch: u64, registry: &[u64]) -> Totals {
    let mut t = Totals {
        active: 0,
        count: 0,
        source: 0,
        target: 0,
        head: 0,
        current_target: 0,
        last: epoch + 1 + s[at::LOOKAHEAD],
        leaving: 0,
        waiting: Vec::new(),
    };
    for (i, v) in registry.chunks_exact(10).enumerate() {
        let (now, before) = (active(v, epoch), active(v, epoch - 1));
        let unslashed = v[of::SLASHED] == 0;
        let effective = v[of::EFFECTIVE];
        t.active += when(now, effective);
        t.count += u64::from(now);
        t.current_target += when(now & unslashed & (v[of::CURRENT] & 2 != 0), effective);
        t.source += when(before & unslashed & (v[of::PREVIOUS] & 1 != 0), effective);
        t.target += when(before & unslashed & (v[of::PREVIOUS] & 2 != 0), effective);
        t.head += when(before & unslashed & (v[of::PREVIOUS] & 4 != 0), effective);
        let exit = v[of::EXIT];
        if exit != FAR && exit >= t.last {
            t.leaving = if exit == t.last { t.leaving + 1 } else { 1 };
            t.last = exit;
        }
        if v[of::ACTIVATION] == FAR && v[of::ELIGIBILITY] <= epoch {
            t.waiting.push((v[of::ELIGIBILITY], i as u32));
        }
    }
    for total in [&mut t.active, &mut t.source, &mut t.target, &mut t.head, &mut t.current_target] {
        *total = s[at::INCREMENT].max(*total);
    }
    t
}

fn weighed(s: &Settings, f: &Finality, epoch: u64, t: &Totals, roots: &[u8]) -> Finality {
    let checkpoint = |epoch: u64| {
        let at = 32 * (epoch * s[at::SLOTS_PER_EPOCH] % s[at::S]) as usize;
        Checkpoint { epoch, root: roots[at..at + 32].try_into().expect("32 bytes") }
    };
    let mut now = Finality { previous: f.current, bits: f.bits << 1 & 15, ..*f };
    if t.target * 3 >= t.active * 2 {
        now.current = checkpoint(epoch - 1);
        now.bits |= 2;
    }
    if t.current_target * 3 >= t.active * 2 {
        now.current = checkpoint(epoch);
        now.bits |= 1;
    }
    let rules = [(14, 3, f.previous), (6, 2, f.previous), (7, 2, f.current), (3, 1, f.current)];
    for (bits, back, old) in rules {
        if now.bits & bits == bits && old.epoch + back == epoch {
            now.finalized = old;
        }
    }
    now
}

/// What a flag pays and costs, and the weight of each is in 64ths.
#[derive(Clone, Copy)]
struct Row {
    rewards: [u64; 3],
    penalties: [u64; 3],
}

struct Shared<'a> {
    s: &'a Settings,
    epoch: u64,
    leaking: bool,
    per_increment: u64,
    participants: [u64; 3],
    active: u64,
    adjusted: u64,
    down: u64,
    up: u64,
}

impl Shared<'_> {
    fn row(&self, effective: u64) -> Row {
        let base = effective / self.s[at::INCREMENT] * self.per_increment;
        let denominator = self.active / self.s[at::INCREMENT] * 64;
        let reward = |weight: u64, k: usize| when(!self.leaking, base * weight * self.participants[k] / denominator);
        Row { rewards: [reward(14, 0), reward(26, 1), reward(14, 2)], penalties: [base * 14 / 64, base * 26 / 64, 0] }
    }

    /// Score and balance after the second and the third step, of one who is eligible, and what was booked.
    fn rewarded(&self, v: &[u64], row: &Row, participating: bool) -> (u64, u64, Amounts) {
        let s = self.s;
        let flags = when(participating, v[of::PREVIOUS]);
        let hit = flags & 2 != 0;
        let moved = if hit { v[of::SCORE].saturating_sub(1) } else { v[of::SCORE] + s[at::BIAS] };
        let score = moved.saturating_sub(when(!self.leaking, s[at::RECOVERY]));
        let mut balance = v[of::BALANCE];
        let (mut gained, mut lost) = ([0; 3], [0; 4]);
        for k in 0..3 {
            if flags >> k & 1 != 0 {
                gained[k] = row.rewards[k];
                balance += gained[k];
            } else {
                lost[k] = row.penalties[k].min(balance);
                balance -= lost[k];
            }
        }
        if !hit {
            let penalty = v[of::EFFECTIVE] * score / (s[at::BIAS] * s[at::PENALTY_QUOTIENT]);
            lost[3] = penalty.min(balance);
            balance -= lost[3];
        }
        let booked = Amounts {
            source_reward: gained[0],
            source_taken: lost[0],
            target_reward: gained[1],
            target_taken: lost[1],
            head_reward: gained[2],
            head_taken: lost[2],
            inactivity_reward: 0,
            inactivity_taken: lost[3],
            slashing_taken: 0,
        };
        (score, balance, booked)
    }
}

fn root_of(n: u64) -> u64 {
    let mut r = (n as f64).sqrt() as u64;
    while r * r > n {
        r -= 1;
    }
    while (r + 1) * (r + 1) <= n {
        r += 1;
    }
    r
}

/// Finality, and the closing buffers and the amounts written. From epoch 2 on.
pub fn close(r: &Record, closing: &mut [u64], closing_slashings: &mut [u64], amounts: &mut [Amounts]) -> Finality {
    let s = &r.settings;
    let epoch = r.finality.slot / s[at::SLOTS_PER_EPOCH];
    let mut t = totals(s, epoch, &r.registry);
    let finality = weighed(s, &r.finality, epoch, &t, &r.roots);
    let limit = s[at::MIN_CHURN].max(t.count / s[at::CHURN_QUOTIENT]);
    let slashed: u64 = r.slashings.iter().sum();
    let shared = Shared {
        s,
        epoch,
        leaking: epoch - 1 - finality.finalized.epoch > s[at::LEAK_AFTER],
        per_increment: s[at::INCREMENT] * s[at::BASE_REWARD_FACTOR] / root_of(t.active),
        participants: [t.source, t.target, t.head].map(|total| total / s[at::INCREMENT]),
        active: t.active,
        adjusted: (slashed * s[at::MULTIPLIER]).min(t.active),
        down: s[at::INCREMENT] / s[at::HYSTERESIS_QUOTIENT] * s[at::DOWNWARD],
        up: s[at::INCREMENT] / s[at::HYSTERESIS_QUOTIENT] * s[at::UPWARD],
    };
    write(&shared, &mut t, limit, &r.registry, closing, amounts);
    activate(&mut t.waiting, finality.finalized.epoch, limit, epoch + 1 + s[at::LOOKAHEAD], closing);
    closing_slashings.copy_from_slice(&r.slashings);
    closing_slashings[((epoch + 1) % s[at::L]) as usize] = 0;
    finality
}

fn write(h: &Shared, t: &mut Totals, limit: u64, opening: &[u64], closing: &mut [u64], amounts: &mut [Amounts]) {
    let s = h.s;
    let mut known = (0, h.row(0));
    for ((v, out), booked) in opening.chunks_exact(10).zip(closing.chunks_exact_mut(10)).zip(amounts) {
        let effective = v[of::EFFECTIVE];
        if known.0 != effective {
            known = (effective, h.row(effective));
        }
        let before = active(v, h.epoch - 1);
        let slashed = v[of::SLASHED] == 1;
        let (mut score, mut balance, mut given) = (v[of::SCORE], v[of::BALANCE], Amounts::default());
        if before || (slashed && h.epoch < v[of::WITHDRAWABLE]) {
            (score, balance, given) = h.rewarded(v, &known.1, before && !slashed);
        }
        let mut eligibility = v[of::ELIGIBILITY];
        if eligibility == FAR && effective == s[at::MAX_EFFECTIVE] {
            eligibility = h.epoch + 1;
        }
        let (mut exit, mut withdrawable) = (v[of::EXIT], v[of::WITHDRAWABLE]);
        if exit == FAR && effective <= s[at::EJECTION] && v[of::ACTIVATION] <= h.epoch {
            if t.leaving >= limit {
                (t.last, t.leaving) = (t.last + 1, 0);
            }
            t.leaving += 1;
            (exit, withdrawable) = (t.last, t.last + s[at::DELAY]);
        }
        if slashed && h.epoch + s[at::L] / 2 == withdrawable {
            let increments = effective / s[at::INCREMENT];
            given.slashing_taken = balance.min(increments * h.adjusted / h.active * s[at::INCREMENT]);
            balance -= given.slashing_taken;
        }
        *booked = given;
        let moves = (balance + h.down < effective) | (effective + h.up < balance);
        let rounded = if moves { (balance - balance % s[at::INCREMENT]).min(s[at::MAX_EFFECTIVE]) } else { effective };
        let after = [
            rounded,
            v[of::SLASHED],
            eligibility,
            v[of::ACTIVATION],
            exit,
            withdrawable,
            balance,
            v[of::CURRENT],
            0,
            score,
        ];
        out.copy_from_slice(&after);
    }
}

/// The first `limit` by eligibility epoch and number.
fn activate(waiting: &mut Vec<(u64, u32)>, finalized: u64, limit: u64, epoch: u64, closing: &mut [u64]) {
    waiting.retain(|w| w.0 <= finalized);
    let limit = limit as usize;
    if limit < waiting.len() {
        waiting.select_nth_unstable(limit);
        waiting.truncate(limit);
    }
    for &(_, i) in waiting.iter() {
        closing[10 * i as usize + of::ACTIVATION] = epoch;
    }
}
