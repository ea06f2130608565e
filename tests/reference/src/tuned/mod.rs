//! The same rules as those of the plain engine, tuned by hand for speed: checks are put together and looked at once, and
//! the word that is at fault is found in a cold path.

mod bytes;
mod census;
mod image;
mod rounds;
mod row;
mod run;
mod step;
mod text;
mod used;

pub use bytes::c_call;
pub use census::census;
pub use image::{read_into, write_image};
pub use rounds::rounds;
pub use run::run;
pub use step::step_in;
pub use text::{print_into, text};
