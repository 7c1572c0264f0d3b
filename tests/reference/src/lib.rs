//! A separate implementation of the rules, in plain Rust: the loops of the report's figures as code that stops before each memory
//! action. Not made from the engine, so that what agrees with it is not agreeing with itself.

// the implementation
pub mod call;
pub mod desk;
pub mod figures;
pub mod frame;
pub mod index;
pub mod memory;
pub mod moving;
pub mod orders;
pub mod record;
pub mod report;
pub mod sheet;
pub mod word;

// cases, their lines, and what they must meet
pub mod case;
pub mod cases;
pub mod coverage;
pub mod outcome;
pub mod random;
pub mod sheets;
pub mod store;

// other programs beside it
pub mod compare;
