//! Sets two engines side by side on generated cases, and makes a case on which they differ small.

mod answer;
mod case;
mod counts;
mod engine;
mod lent;
#[cfg(feature = "linked")]
mod linked;
mod making;
mod passes;
mod pieces;
mod rounds;
mod settings;
mod show;
mod shrink;

pub use answer::Answer;
pub use case::{Case, Kind};
pub use counts::{Cells, Counts, CELLS};
pub use engine::{Engine, Naive, Reference, Tuned};
#[cfg(feature = "linked")]
pub use linked::Linked;
pub use making::make_case;
pub use passes::{Images, Passes};
pub use rounds::Rounds;
pub use settings::{Forbidden, Wrong};
pub use show::Hex;
pub use shrink::shrink;
