//! A second program for the rules in docs/RULES.md. It shares nothing with the proved one:
//! a station's next operation is computed from everything it has seen, and a pile is a flat list of machines.

pub mod explore;
pub mod generate;
pub mod machines;
pub mod pile;
pub mod run;
pub mod tables;
pub mod wrong;
