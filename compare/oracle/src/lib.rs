//! The original's answers as plain values, for programs that compare with them or write them down.
//! Beside them are the scope's refusals, which the original does not all know.

pub mod canvas;
pub mod colour;
pub mod decoders;
pub mod job;
pub mod random;
pub mod rules;
pub mod samples;
pub mod stops;

pub use thermal_parser;
pub use thermal_renderer;
