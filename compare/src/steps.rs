//! The counter's steps (document 01: steps of the meter): document 01's eight, or a pool's own (document 02, #104).

use crate::memory::{Memory, REPLICAS_START, STEPS_START, STEP_WORDS};
use crate::mistake::{Correct, Mistake, Rules};

pub const MIN_STEP: u32 = 1;
pub const MAX_STEP: u32 = 4096;
/// A fresh replica's limit where the ledger has document 01's steps.
pub const FIRST_LIMIT: u32 = Steps::DEFAULT.first();
/// The boot from which on the step stays.
pub const LAST_STEP_BOOT: u32 = STEP_WORDS as u32 - 1;

/// Eight words, one for each boot; sound steps or any other.
#[derive(Clone, Copy, PartialEq, Eq, Debug)]
pub struct Steps(pub [u32; STEP_WORDS]);

/// One place's own mistakes in testing steps.
pub struct Tester {
    takes_zero: Mistake,
    takes_past_most: Mistake,
    refuses_least: Mistake,
    refuses_most: Mistake,
    refuses_equal: Mistake,
    takes_any_order: Mistake,
    first_pair_alone: Mistake,
    last_pair_untested: Mistake,
}

pub const OPENING: Tester = Tester {
    takes_zero: Mistake::OpenStepZero,
    takes_past_most: Mistake::OpenStepPastMost,
    refuses_least: Mistake::OpenLeastStepRefused,
    refuses_most: Mistake::OpenMostStepRefused,
    refuses_equal: Mistake::OpenEqualStepsRefused,
    takes_any_order: Mistake::OpenStepsAnyOrder,
    first_pair_alone: Mistake::OpenStepsFirstPair,
    last_pair_untested: Mistake::OpenStepsLastPair,
};

pub const FORM: Tester = Tester {
    takes_zero: Mistake::FormStepZero,
    takes_past_most: Mistake::FormStepPastMost,
    refuses_least: Mistake::FormLeastStepRefused,
    refuses_most: Mistake::FormMostStepRefused,
    refuses_equal: Mistake::FormEqualStepsRefused,
    takes_any_order: Mistake::FormStepsAnyOrder,
    first_pair_alone: Mistake::FormStepsFirstPair,
    last_pair_untested: Mistake::FormStepsLastPair,
};

impl Steps {
    /// Document 01: "Steps of the meter by boot 0 to 7: 64, 64, 128, 128, 256, 256, 512, 1024".
    pub const DEFAULT: Steps = Steps([64, 64, 128, 128, 256, 256, 512, 1024]);

    /// None where there are not eight.
    pub fn from_words(words: &[u32]) -> Option<Steps> {
        words.try_into().ok().map(Steps)
    }

    /// A fresh replica's limit: "The first bound is the first step."
    pub const fn first(&self) -> u32 {
        self.0[0]
    }

    pub const fn last(&self) -> u32 {
        self.0[LAST_STEP_BOOT as usize]
    }

    /// "later boots use the last".
    pub fn of_boot(&self, boot: u32) -> u32 {
        self.0[boot.min(LAST_STEP_BOOT) as usize]
    }

    /// "Each is 1 to 4,096 and none is smaller than the one before."
    pub fn fit<R: Rules>(&self, rules: R, tester: &Tester) -> bool {
        self.in_range(rules, tester) && self.in_order(rules, tester)
    }

    pub fn are_sound(&self) -> bool {
        self.fit(Correct, &OPENING)
    }

    fn in_range<R: Rules>(&self, rules: R, tester: &Tester) -> bool {
        let least = MIN_STEP + u32::from(rules.has(tester.refuses_least)) - u32::from(rules.has(tester.takes_zero));
        let most = MAX_STEP + u32::from(rules.has(tester.takes_past_most)) - u32::from(rules.has(tester.refuses_most));
        self.0.iter().all(|step| (least..=most).contains(step))
    }

    fn in_order<R: Rules>(&self, rules: R, tester: &Tester) -> bool {
        let last_pair = STEP_WORDS - 2;
        self.0.windows(2).enumerate().all(|(place, pair)| {
            let untested = rules.has(tester.takes_any_order)
                || rules.has(tester.first_pair_alone) && place > 0
                || rules.has(tester.last_pair_untested) && place == last_pair;
            let equal = pair[0] == pair[1] && !rules.has(tester.refuses_equal);
            pair[0] < pair[1] || equal || untested
        })
    }
}

impl Memory<'_> {
    pub fn steps(&self) -> Steps {
        let mut words = [0; STEP_WORDS];
        words.copy_from_slice(&self.table[STEPS_START..REPLICAS_START]);
        Steps(words)
    }

    pub fn set_steps(&mut self, to: Steps) {
        self.table[STEPS_START..REPLICAS_START].copy_from_slice(&to.0);
    }

    /// What a limit grows by in this boot, by the table's steps. `constant` is the asking call's own mistake: it goes by
    /// document 01's.
    pub fn step<R: Rules>(&self, rules: R, boot: u32, constant: Mistake) -> u32 {
        let steps = if rules.has(constant) { Steps::DEFAULT } else { self.steps() };
        if rules.has(Mistake::StepsRunOn) {
            return self.table[STEPS_START..].get(boot as usize).copied().unwrap_or(0);
        }
        if rules.has(Mistake::StepsGoRound) {
            return steps.of_boot(boot % STEP_WORDS as u32);
        }
        let last = LAST_STEP_BOOT - u32::from(rules.has(Mistake::StepsCappedEarly));
        steps.of_boot(boot.min(last))
    }
}
