//! All tests of the reference, in one program.

mod allowed;
mod blind;
mod blind_settings;
mod cancel;
mod cells;
mod census;
mod example;
mod exchange;
mod exclusion;
mod lent;
mod loads;
mod manual;
mod models;
mod overtaking;
mod passes;
mod printed;
mod rounds;
mod settings;
mod walk;
mod walk_faults;
