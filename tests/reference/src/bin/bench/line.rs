//! One line of the table: what is measured, on each side.

/// The work that is measured, once.
pub type Go = Box<dyn FnMut()>;

pub struct Line {
    /// What, load, words, N.
    pub name: String,
    /// What a figure is of: a word, a step or a call.
    pub unit: &'static str,
    /// How many of them one go has.
    pub units: usize,
    /// The linked library, the plain engine, and the tuned one where there is such a side.
    pub sides: Vec<Go>,
}

/// The names of the sides in their order.
pub const SIDES: [&str; 3] = ["linked", "plain", "tuned"];

/// A figure for each side; none where it is not measured.
pub type Figure = [Option<f64>; SIDES.len()];

pub const NONE: Figure = [None; SIDES.len()];
