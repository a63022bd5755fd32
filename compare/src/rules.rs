//! The rules that a call, a netting or a waiting movement goes by, and the list of mistakes as a macro reads it.

use crate::mistake::Mistake;

/// The documents' rules, or the documents' with one mistake.
pub trait Rules: Copy {
    fn has(self, mistake: Mistake) -> bool;
}

/// The documents as they stand. Every question about a mistake folds away.
#[derive(Clone, Copy, Debug)]
pub struct Correct;

impl Rules for Correct {
    #[inline(always)]
    fn has(self, _: Mistake) -> bool {
        false
    }
}

impl Rules for Option<Mistake> {
    fn has(self, mistake: Mistake) -> bool {
        self == Some(mistake)
    }
}

impl Mistake {
    pub fn named(name: &str) -> Option<Mistake> {
        Mistake::ALL.iter().copied().find(|m| m.name() == name)
    }

    /// Only a netting or a list of movements that is matched can show it.
    pub fn is_of_netting(self) -> bool {
        self.name().starts_with("netting-")
    }

    /// Only a history of waiting movements can show it.
    pub fn is_of_waiting(self) -> bool {
        self.name().starts_with("waiting-")
    }

    /// Demand 3 (no two conflicting decisions, no panel that falls) is broken by some list of calls.
    pub fn breaks_agreement(self) -> bool {
        self.blind().is_empty()
    }
}

/// Makes the enum of a list of mistakes: each with its name, what it is, and why demand 3 cannot see it.
macro_rules! mistakes {
    ($($variant:ident $name:literal $what:literal $blind:literal;)*) => {
        #[derive(Clone, Copy, PartialEq, Eq, Debug)]
        pub enum Mistake { $(#[doc = $what] $variant,)* }

        impl Mistake {
            pub const ALL: &'static [Mistake] = &[$(Mistake::$variant,)*];

            pub fn name(self) -> &'static str {
                match self { $(Mistake::$variant => $name,)* }
            }

            pub fn what(self) -> &'static str {
                match self { $(Mistake::$variant => $what,)* }
            }

            /// Why demand 3 cannot see the mistake; empty if it can.
            pub fn blind(self) -> &'static str {
                match self { $(Mistake::$variant => $blind,)* }
            }
        }
    };
}

pub(crate) use mistakes;
