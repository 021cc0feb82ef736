//! What votes not yet counted can come to.
use crate::fault::Answered;
use crate::raw::VotesAnswer;

/// In how many fillings of the unknown flags a target's two-thirds test passes.
#[derive(Clone, Copy, Debug, PartialEq, Eq)]
pub enum Passes {
    InNone,
    InSome,
    InAll,
}

/// What votes not yet counted can come to, target by target.
#[derive(Clone, Copy, Debug, PartialEq, Eq)]
pub struct Votes {
    epochs: [u64; 3],
    count: usize,
    pub previous_target: Passes,
    pub current_target: Passes,
}

impl Votes {
    /// Each finalized epoch that some filling gives, rising, at most three.
    pub fn finalized_epochs(&self) -> &[u64] {
        &self.epochs[..self.count]
    }
}

impl Answered for VotesAnswer {
    type Given = Votes;

    fn refusal(&self) -> u64 {
        self.refusal
    }

    fn given(self) -> Votes {
        let passes = |number| [Passes::InNone, Passes::InSome, Passes::InAll][number as usize];
        let (previous_target, current_target) = (passes(self.previous_target), passes(self.current_target));
        Votes { epochs: self.finalized_epochs, count: self.count as usize, previous_target, current_target }
    }
}
