//! Lines that were translated.

use std::fmt;
use std::str::Lines;

/// STACK lines, and the number of entries that they come from.
#[derive(Clone, Debug, Default, PartialEq, Eq)]
pub struct Text {
    text: String,
    entries: usize,
}

impl Text {
    pub(crate) fn new(text: Vec<u8>, entries: usize) -> Text {
        let text = String::from_utf8(text).expect("names, numbers and programs are ASCII");
        Text { text, entries }
    }

    /// The lines, each with a newline at its end.
    pub fn as_str(&self) -> &str {
        &self.text
    }

    /// The lines, without newlines.
    pub fn lines(&self) -> Lines<'_> {
        self.text.lines()
    }

    /// The number of entries done, skipped ones included.
    pub fn entries(&self) -> usize {
        self.entries
    }

    /// Whether there is no line.
    pub fn is_empty(&self) -> bool {
        self.text.is_empty()
    }

    /// The lines as a string of their own.
    pub fn into_string(self) -> String {
        self.text
    }
}

impl AsRef<str> for Text {
    fn as_ref(&self) -> &str {
        &self.text
    }
}

impl From<Text> for String {
    fn from(text: Text) -> String {
        text.text
    }
}

impl fmt::Display for Text {
    fn fmt(&self, f: &mut fmt::Formatter) -> fmt::Result {
        f.write_str(&self.text)
    }
}
