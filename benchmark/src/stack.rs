//! How much stack a close takes: what lies beneath its caller is painted before it and looked at after.
use crate::{
    electra,
    measure::Buffers,
    record::{at, of, Record},
    scenarios::{Scenario, SCENARIOS},
};
use altair_close::Refusal;
use std::hint::black_box;

/// How much of the stack is looked at.
const STACK: usize = 64 * 1024;
const VALIDATORS: usize = 1_000;

/// Of every scenario one, and one for each refusal, the first two epochs, each way to the queue's cut, and nobody; and the answers.
fn records() -> Vec<(Record, Option<Refusal>)> {
    let mut all: Vec<_> = SCENARIOS.into_iter().map(|s| (s.record(VALIDATORS), s.refusal())).collect();
    let mut altered = |refusal, alter: &dyn Fn(&mut Record)| {
        let mut r = Scenario::Queue.record(VALIDATORS);
        alter(&mut r);
        all.push((r, refusal));
    };
    altered(Some(Refusal::SHAPE), &|r| r.roots.truncate(32));
    altered(Some(Refusal::Settings), &|r| r.settings[at::INCREMENT] = 0);
    altered(Some(Refusal::Record), &|r| r.finality.bits = 16);
    altered(Some(Refusal::Record), &|r| r.registry[10 * (VALIDATORS - 1) + of::SLASHED] = 2);
    altered(Some(Refusal::Root), &|r| r.finality.slot -= r.finality.slot % 32);
    altered(Some(Refusal::Overflow), &|r| r.slashings.fill(u64::MAX));
    altered(Some(Refusal::Overflow), &|r| {
        r.registry.chunks_exact_mut(10).for_each(|v| v[of::BALANCE] = u64::MAX);
    });
    for limit in [0, 1, 64, 65] {
        altered(None, &|r| r.settings[at::MIN_CHURN] = limit);
    }
    for epoch in 0..2 {
        altered(None, &|r| {
            let f = &mut r.finality;
            f.slot = 32 * epoch + 31;
            (f.previous.epoch, f.current.epoch, f.finalized.epoch) = (0, 0, 0);
        });
    }
    altered(None, &|r| r.registry.clear());
    all
}

/// The most bytes of stack that a close of one of them touched.
pub fn deepest() -> usize {
    let touched = records().into_iter().map(|(r, refusal)| {
        let mut buffers = Buffers::new(&r);
        let top = here();
        paint(top);
        let closed = black_box(buffers.closed(&r));
        let stack = painted(top);
        assert_eq!(closed.err(), refusal, "the library's answer");
        stack
    });
    touched.max().unwrap_or(0)
}

/// The same of Electra's close, with deposits and consolidations.
pub fn deepest_of_electra() -> usize {
    let touched = records().into_iter().map(|(r, _)| {
        let mut lent = electra::Lent::new(&r);
        let top = here();
        paint(top);
        black_box(lent.close()).ok();
        painted(top)
    });
    touched.max().unwrap_or(0)
}

const PAINT: u8 = 0xa5;

/// An address in the caller's frame or just beneath it.
#[inline(never)]
fn here() -> usize {
    let local = 0u8;
    black_box(&local) as *const u8 as usize
}

/// Fills what lies beneath `top`, but for the next 512 bytes, in which this function itself stands. The bytes belong to no frame.
#[inline(never)]
fn paint(top: usize) {
    for at in top - STACK..top - 512 {
        unsafe { (at as *mut u8).write_volatile(PAINT) };
    }
}

/// How far beneath `top` the deepest byte lies that is no longer as it was painted.
#[inline(never)]
fn painted(top: usize) -> usize {
    let touched = (top - STACK..top - 512).find(|&at| unsafe { (at as *const u8).read_volatile() } != PAINT);
    touched.map_or(512, |at| top - at)
}
