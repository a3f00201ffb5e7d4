//! The original's parser crate: its files as they are, without the parts that drawing never calls.

#![allow(warnings)]

include!(concat!(env!("OUT_DIR"), "/modules.rs"));

/// Stands in for the code pages of text, so that `context` builds.
pub mod decoder {
    #[derive(Clone)]
    pub struct Codepage {
        pub use_utf8_table: bool,
    }

    pub fn get_codepage(_code_table: u8, _character_set: u8) -> Codepage {
        Codepage {
            use_utf8_table: false,
        }
    }
}
