//! Words given to a table of two processes under the settings other than 0 and 0.

use crate::{refusal, Settings, StepAnswer};

/// Words given under these.
#[derive(Clone, Copy, Debug, Default, PartialEq, Eq)]
pub struct Under {
    /// All of them, and those that were accepted.
    pub words: u64,
    pub accepted: u64,
    /// Those that met 16, and 17.
    pub flickers: u64,
    pub goes: u64,
}

impl std::ops::AddAssign for Under {
    fn add_assign(&mut self, more: Under) {
        self.words += more.words;
        self.accepted += more.accepted;
        self.flickers += more.flickers;
        self.goes += more.goes;
    }
}

impl Under {
    /// Counts a word by its answer.
    pub fn note(&mut self, answer: StepAnswer) {
        self.words += 1;
        self.accepted += u64::from(answer.refusal == refusal::NONE);
        self.flickers += u64::from(answer.refusal == refusal::FORBIDDEN_FLICKER);
        self.goes += u64::from(answer.refusal == refusal::FORBIDDEN_GO);
    }
}

/// The settings that words are given under again; none where there are not two processes.
pub fn other_settings<const N: usize>() -> impl Iterator<Item = Settings> {
    Settings::ALL.into_iter().filter(|&settings| N == 2 && settings != Settings::SAFE)
}
