//! Seeded random cases: tables, schedules that go deep, and every way of being refused.

pub mod inputs;
pub mod loads;
pub mod random;
pub mod rounds;
pub mod schedule;
pub mod settings;
pub mod tables;

pub use random::Random;
