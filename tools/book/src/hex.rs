//! Bytes in hexadecimal, and the function that they belong to: what `book decode` is given.

use crate::line::{lines, Error, Line};

/// The bytes of a text: two digits each, with or without spaces between bytes; `#` begins a comment.
pub fn hex(text: &str) -> Result<Vec<u8>, Error> {
    let mut bytes = Vec::new();
    for line in &mut lines(text)? {
        bytes.extend(rest(line)?);
    }
    Ok(bytes)
}

/// The bytes of a command's words, each of which may have spaces between bytes.
pub fn hex_words(words: &[&str]) -> Result<Vec<u8>, Error> {
    let words: Vec<&str> = words.iter().flat_map(|word| word.split_whitespace()).collect();
    rest(&mut Line::of(&words))
}

/// A function, by the numbers that its entry has beside what the bytes say.
pub enum Function {
    /// For x64: begin, end, and the address of its info.
    X64([u32; 3]),
    /// For ARM64: address and size.
    Arm64([u32; 2]),
}

/// The function of three words: begin, end and the address of its info, or `arm64`, address and size; as numbers of the form.
pub fn function(words: [&str; 3]) -> Result<Function, Error> {
    let mut line = Line::of(&words);
    if line.take("arm64") {
        return Ok(Function::Arm64([line.number("address")?, line.number("size")?]));
    }
    Ok(Function::X64([line.number("begin")?, line.number("end")?, line.number("info")?]))
}

/// Bytes up to the end of the line.
fn rest(line: &mut Line) -> Result<Vec<u8>, Error> {
    let mut bytes = Vec::new();
    while line.has_more() {
        let word = line.word("bytes")?;
        let expected = "expected bytes of two hexadecimal digits each";
        bytes.extend(pairs(word).ok_or_else(|| line.error(&format!("{expected}, not '{word}'")))?);
    }
    Ok(bytes)
}

/// The bytes of a word, if all are whole.
fn pairs(word: &str) -> Option<Vec<u8>> {
    let digits: Option<Vec<u8>> = word.chars().map(|c| c.to_digit(16).map(|digit| digit as u8)).collect();
    let digits = digits.filter(|digits| digits.len() % 2 == 0)?;
    Some(digits.chunks_exact(2).map(|pair| pair[0] << 4 | pair[1]).collect())
}
