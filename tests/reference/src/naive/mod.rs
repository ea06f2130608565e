//! A second reading of the same rules, slow and obvious: sets are arrays of bool, turn is an array of its own, every paragraph is
//! followed in its own words. It shares with the fast engine only the records that cross the C boundary. A `Fault` makes it
//! err in one place, to show that the generated cases would see that error.

mod bytes;
mod calls;
mod cells;
mod fault;
mod image;
mod passes;
mod rounds;
mod settings;
mod step;
mod system;
mod words;

pub use bytes::{c_call, print, text};
pub use calls::{census, fresh, run, step, Standing};
pub use fault::Fault;
pub use image::{read_image, write_image};
pub use rounds::rounds;
pub use words::{put_together, take_apart};
