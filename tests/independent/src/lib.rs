//! The independent decoder. It answers the console's lines (docs/CONSOLE.md) from its own reading of the makers'
//! documents, so that a difference between the two programs means that one of them is wrong.
//!
//! `line` and `console` are the frame of it, one module for each device says what its lines answer, and `generator`
//! makes the lines on which the two are compared.

pub mod checks;
pub mod console;
pub mod examples;
pub mod fields;
pub mod generator;
pub mod line;
pub mod old58;
pub mod pace;
pub mod pathfinder;
pub mod refusal;
pub mod restore;
pub mod tongzhu;
