//! The static library's functions and structs as they are; `include/thermal.h` says what each
//! answers and writes. Structs cross by value, and a buffer as its address and its length.

mod canvas;
mod colours;
mod draw;
mod images;
mod jobs;

pub use canvas::*;
pub use colours::*;
pub use draw::*;
pub use images::*;
pub use jobs::*;
