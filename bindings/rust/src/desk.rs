//! A close that is run one step a call, and exit orders that are taken meanwhile and carried out at its end.
use crate::calls;
use crate::close::{as_numbers, pair_of};
use crate::fault::Fault;
use crate::raw::RunningAnswer;
use crate::refusal::Refusal;
use crate::store::By;
use crate::types::{Amounts, Closed, ExitQueue, Running};
use crate::{validator, ClosedRecord, Record};
use std::error::Error;
use std::vec::Vec;
use std::{fmt, vec};

/// Why a call of a close by steps did nothing, or ended it.
#[derive(Clone, Copy, Debug, PartialEq, Eq)]
pub enum NotDone {
    /// The close had ended before the call: nothing was tested, and nothing changed.
    Ended,
    /// The call was refused. Where the close is now ended, it is refused as the whole close is; else the same call may be made again.
    Refused(Refusal),
}

impl fmt::Display for NotDone {
    fn fmt(&self, f: &mut fmt::Formatter<'_>) -> fmt::Result {
        match self {
            NotDone::Ended => write!(f, "the close has ended"),
            NotDone::Refused(refusal) => refusal.fmt(f),
        }
    }
}

impl Error for NotDone {}

/// A close between its calls, with buffers of its own; the opening, and a store by which it goes, stay lent until it has ended.
///
/// ```
/// use altair_close::{validator, Desk, Finality, NotDone, Record, Refusal, Rules, Settings};
/// let settings = Settings { slots_per_historical_root: 64, epochs_per_slashings_vector: 64, ..Settings::MAINNET };
/// let record = Record {
///     settings,
///     finality: Finality { slot: 127, ..Finality::default() },
///     registry: validator::new(32_000_000_000).repeat(3),
///     slashings: vec![0; 64],
///     roots: vec![0; 32 * 64],
///     queue: None,
/// };
/// let mut desk = Desk::new(&record, &Rules::altair(&settings), 2);
/// assert_eq!(desk.order(1, 0), Err(NotDone::Refused(Refusal::SHAPE))); // before the first step nothing runs
/// desk.step()?;
/// desk.order(1, 0)?;
/// desk.order(7, 0)?;
/// assert_eq!(desk.order(2, 0), Err(NotDone::Refused(Refusal::FullList)));
/// while desk.done() < 8 {
///     desk.step()?;
/// }
/// assert_eq!(desk.carry_out(0)?, [Ok(()), Err(Refusal::NoExit)]);
/// let closed = desk.closed().expect("it has ended, and was not refused");
/// assert_eq!((closed.registry[10 + validator::EXIT_EPOCH], closed.queue.map(|q| q.number)), (8, Some(1)));
/// assert_eq!(desk.step(), Err(NotDone::Ended));
/// # Ok::<(), NotDone>(())
/// ```
pub struct Desk<'a> {
    record: &'a Record,
    by: By<'a>,
    queue: ExitQueue,
    running: Running,
    registry: Vec<u64>,
    slashings: Vec<u64>,
    amounts: Vec<Amounts>,
    orders: Vec<u64>,
    answers: Vec<u64>,
}

impl<'a> Desk<'a> {
    /// A close that is about to begin, by what [`close`](crate::close) goes by, with room for so many orders.
    pub fn new(record: &'a Record, by: impl Into<By<'a>>, orders: usize) -> Desk<'a> {
        Desk {
            record,
            by: by.into(),
            queue: pair_of(record.queue.as_ref(), &record.registry),
            running: Running::default(),
            registry: vec![0; record.registry.len()],
            slashings: vec![0; record.slashings.len()],
            amounts: vec![Amounts::default(); record.registry.len() / validator::LENGTH],
            orders: vec![0; 2 * orders],
            answers: vec![0; orders],
        }
    }

    /// How many of the nine calls are done; 9 once the close has ended, refused or not.
    pub fn done(&self) -> u64 {
        self.running.done
    }

    fn told(&mut self, (answer, fault): (RunningAnswer, Fault)) -> Result<(), NotDone> {
        self.running = answer.running;
        if answer.ended == 1 {
            return Err(NotDone::Ended);
        }
        Refusal::or(answer.refusal, fault, || ()).map_err(NotDone::Refused)
    }

    /// The next of the eight steps.
    pub fn step(&mut self) -> Result<(), NotDone> {
        let (store, count) = self.by.lent();
        let r = self.record;
        let closing = (&mut self.registry, &mut self.slashings, as_numbers(&mut self.amounts));
        let told = calls::close_step(
            self.running.done + 1,
            &self.running,
            store,
            count,
            &r.finality,
            &self.queue,
            &r.registry,
            &r.slashings,
            &r.roots,
            closing.0,
            closing.1,
            closing.2,
        );
        self.told(told)
    }

    /// Takes an exit order, between the first step and the end.
    pub fn order(&mut self, validator: u64, start: u64) -> Result<(), NotDone> {
        let told = calls::take_order(&self.running, validator, start, &mut self.orders);
        self.told(told)
    }

    /// The orders that were taken, in order of arrival: validator and start. They stay, also after a close that was refused.
    pub fn orders(&self) -> impl Iterator<Item = (u64, u64)> + '_ {
        self.orders.chunks_exact(2).take(self.running.orders as usize).map(|order| (order[0], order[1]))
    }

    /// The ninth call: tries every order in order of arrival, and ends the close. What came of each.
    pub fn carry_out(&mut self, shard_committee_period: u64) -> Result<Vec<Result<(), Refusal>>, NotDone> {
        let tried = self.running.orders as usize;
        let (store, count) = self.by.lent();
        let (orders, answers) = (&self.orders, &mut self.answers);
        let told =
            calls::carry_out(store, count, shard_committee_period, &self.running, &mut self.registry, orders, answers);
        self.told(told)?;
        Ok(self.answers[..tried].iter().map(|&number| Refusal::or(number, Fault::UNKNOWN, || ())).collect())
    }

    /// The closed record, once the close has ended and was not refused.
    pub fn closed(&self) -> Option<ClosedRecord> {
        let Closed { finality, queue, raised, test } = self.running.closed()?;
        let record = Record {
            settings: self.record.settings,
            finality,
            registry: self.registry.clone(),
            slashings: self.slashings.clone(),
            roots: self.record.roots.clone(),
            queue: Some(queue),
        };
        Some(ClosedRecord { record, amounts: self.amounts.clone(), raised, test })
    }
}
