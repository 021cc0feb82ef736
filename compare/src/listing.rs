//! The validators' lines of a listing and the net change, held to a model in 128 bits: the Rust has no listing.
use crate::raw::{self, ChangeAnswer, LineAnswer};
use reference::random::Random;

/// The refusal, the line's five numbers and the net change.
pub type Line = (u64, [u64; 5], i64);

/// 0 and closing minus opening, or 7.
pub fn change(opening: u64, closing: u64) -> (u64, i64) {
    i64::try_from(i128::from(closing) - i128::from(opening)).map_or((7, 0), |change| (0, change))
}

/// What is called for of one validator's ten numbers before and after.
pub fn line(index: usize, before: &[u64], after: &[u64]) -> Line {
    match change(before[6], after[6]) {
        (0, change) => (0, [index as u64, before[6], after[6], after[0], after[9]], change),
        (refusal, _) => (refusal, [0; 5], 0),
    }
}

pub fn told(opening: &[u64], closing: &[u64], index: usize) -> Line {
    let (a, n, b, m) = (opening.as_ptr(), opening.len(), closing.as_ptr(), closing.len());
    let LineAnswer {
        refusal,
        index,
        opening_balance,
        closing_balance,
        effective_balance,
        inactivity_score,
        net_change,
    } = unsafe { raw::altair_listing_line(a, n, b, m, index as u64) };
    (refusal, [index, opening_balance, closing_balance, effective_balance, inactivity_score], net_change)
}

pub fn change_told(opening: u64, closing: u64) -> (u64, i64) {
    let ChangeAnswer { refusal, value } = unsafe { raw::altair_net_change(opening, closing) };
    (refusal, value)
}

/// Two balances that are about 2^63 apart, either way round: the ends of the range and what lies beyond them.
pub fn far_apart(rng: &mut Random) -> (u64, u64) {
    let opening = match rng.index(4) {
        0 => rng.index(4) as u64,
        1 => u64::MAX - rng.index(4) as u64,
        2 => (1 << 63) - 2 + rng.index(5) as u64,
        _ => rng.next(),
    };
    (opening, opening.wrapping_add((1 << 63) - 2 + rng.index(5) as u64))
}
