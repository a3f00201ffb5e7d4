//! The text of a question: words with white space between them. Numbers are decimal, colours and
//! bytes hex, and no bytes are written as a dash.

use std::fmt::Write;
use std::str::{FromStr, SplitWhitespace};

pub struct Words<'a>(SplitWhitespace<'a>);

impl<'a> Words<'a> {
    pub fn new(text: &'a str) -> Self {
        Words(text.split_whitespace())
    }

    /// The next word, if there is one.
    pub fn more(&mut self) -> Option<&'a str> {
        self.0.next()
    }

    pub fn word(&mut self) -> Result<&'a str, String> {
        self.more().ok_or("the text ends too early".into())
    }

    /// Goes past a word that has to be there.
    pub fn past(&mut self, expected: &str) -> Result<&mut Self, String> {
        match self.word()? {
            word if word == expected => Ok(self),
            word => Err(format!("'{expected}' expected, '{word}' found")),
        }
    }

    pub fn number<T: FromStr>(&mut self) -> Result<T, String> {
        let word = self.word()?;
        word.parse().map_err(|_| format!("'{word}' is no number"))
    }

    pub fn color(&mut self) -> Result<u32, String> {
        let word = self.word()?;
        let bytes = unhex(word).and_then(|bytes| bytes.try_into().ok());
        let bytes = bytes.ok_or(format!("'{word}' is no colour"))?;
        Ok(u32::from_le_bytes(bytes))
    }

    pub fn bytes(&mut self) -> Result<Vec<u8>, String> {
        match self.word()? {
            "-" => Ok(Vec::new()),
            word => unhex(word).ok_or(format!("'{word}' are no bytes")),
        }
    }

    /// One of two words.
    pub fn either(&mut self, yes: &str, no: &str) -> Result<bool, String> {
        match self.word()? {
            word if word == yes => Ok(true),
            word if word == no => Ok(false),
            word => Err(format!("'{yes}' or '{no}' expected, '{word}' found")),
        }
    }
}

fn unhex(word: &str) -> Option<Vec<u8>> {
    let pairs = word.as_bytes().chunks_exact(2);
    if !pairs.remainder().is_empty() {
        return None;
    }
    let byte = |two| u8::from_str_radix(std::str::from_utf8(two).ok()?, 16).ok();
    pairs.map(byte).collect()
}

pub fn bytes(bytes: &[u8]) -> String {
    if bytes.is_empty() {
        return "-".into();
    }
    let mut text = String::with_capacity(2 * bytes.len());
    for byte in bytes {
        write!(text, "{byte:02x}").unwrap();
    }
    text
}
