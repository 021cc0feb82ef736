//! What settings, rules, amounts and a running close say besides their numbers.
use crate::types::{Amounts, Bellatrix, Closed, ElectraAmounts, Rules, Running, Settings};

impl Settings {
    /// The settings of the preset `mainnet` or `minimal`.
    ///
    /// ```
    /// use altair_close::Settings;
    /// assert_eq!(Settings::preset("minimal"), Some(Settings::MINIMAL));
    /// assert_eq!(Settings::preset("Mainnet"), None);
    /// ```
    pub fn preset(name: &str) -> Option<Settings> {
        match name {
            "mainnet" => Some(Settings::MAINNET),
            "minimal" => Some(Settings::MINIMAL),
            _ => None,
        }
    }
}

impl Rules {
    pub const ALTAIR: u64 = 0;
    pub const BELLATRIX: u64 = 1;

    /// ```
    /// use altair_close::{Bellatrix, Rules, Settings};
    /// assert_eq!(Rules::from(&Settings::MAINNET), Rules::altair(&Settings::MAINNET));
    /// assert_eq!(Rules::bellatrix(&Settings::MAINNET, &Bellatrix::MAINNET).fork, Rules::BELLATRIX);
    /// ```
    pub fn altair(settings: &Settings) -> Rules {
        Rules { settings: *settings, fork: Rules::ALTAIR, bellatrix: Bellatrix::default() }
    }

    pub fn bellatrix(settings: &Settings, pair: &Bellatrix) -> Rules {
        Rules { settings: *settings, fork: Rules::BELLATRIX, bellatrix: *pair }
    }
}

impl From<&Settings> for Rules {
    fn from(settings: &Settings) -> Rules {
        Rules::altair(settings)
    }
}

impl From<&Rules> for Rules {
    fn from(rules: &Rules) -> Rules {
        *rules
    }
}

impl Amounts {
    /// Closing minus opening balance.
    ///
    /// ```
    /// use altair_close::Amounts;
    /// let booked = Amounts { source_reward: 10, inactivity_taken: 4, ..Amounts::default() };
    /// assert_eq!(booked.net(), 6);
    /// ```
    pub fn net(&self) -> i128 {
        less(
            &[self.source_reward, self.target_reward, self.head_reward, self.inactivity_reward],
            &[self.source_taken, self.target_taken, self.head_taken, self.inactivity_taken, self.slashing_taken],
        )
    }
}

fn less(given: &[u64], taken: &[u64]) -> i128 {
    let sum = |numbers: &[u64]| numbers.iter().copied().map(i128::from).sum::<i128>();
    sum(given) - sum(taken)
}

impl ElectraAmounts {
    /// Closing minus opening balance, which of one that a deposit made is 0.
    ///
    /// ```
    /// use altair_close::ElectraAmounts;
    /// let booked = ElectraAmounts { source_reward: 10, deposited: 5, consolidated_out: 7, ..ElectraAmounts::default() };
    /// assert_eq!(booked.net(), 8);
    /// ```
    pub fn net(&self) -> i128 {
        let taken = [self.source_taken, self.target_taken, self.head_taken, self.inactivity_taken, self.slashing_taken];
        less(&[self.source_reward, self.target_reward, self.head_reward, self.inactivity_reward], &taken)
            + less(&[self.deposited, self.consolidated_in], &[self.consolidated_out])
    }
}

impl Running {
    /// What the close answers, once it has ended and was not refused.
    pub fn closed(&self) -> Option<Closed> {
        (self.done == 9 && self.answer.refusal == 0).then(|| crate::fault::Answered::given(self.answer))
    }
}
