//! Lines of a text: their words, numbers and quoted texts, and what is wrong with them.

use std::fmt;

/// What is wrong with a text, and in which line.
#[derive(Clone, Debug, PartialEq, Eq)]
pub struct Error {
    line: usize,
    what: String,
}

impl Error {
    pub(crate) fn new(line: usize, what: &str) -> Error {
        Error { line, what: what.to_string() }
    }

    /// The number of the line, from 1.
    pub fn line(&self) -> usize {
        self.line
    }

    /// What is wrong.
    pub fn what(&self) -> &str {
        &self.what
    }
}

impl fmt::Display for Error {
    fn fmt(&self, f: &mut fmt::Formatter) -> fmt::Result {
        write!(f, "line {}: {}", self.line, self.what)
    }
}

impl std::error::Error for Error {}

enum Token<'a> {
    Word(&'a str),
    Quoted(String),
}

/// A line with at least one word, read from left to right.
pub(crate) struct Line<'a> {
    number: usize,
    tokens: Vec<Token<'a>>,
    at: usize,
}

/// The lines of a text that are not empty.
pub(crate) fn lines(text: &str) -> Result<Vec<Line<'_>>, Error> {
    let mut lines = Vec::new();
    for (i, line) in text.lines().enumerate() {
        let tokens = tokens(line).map_err(|what| Error::new(i + 1, what))?;
        if !tokens.is_empty() {
            lines.push(Line { number: i + 1, tokens, at: 0 });
        }
    }
    Ok(lines)
}

fn tokens(line: &str) -> Result<Vec<Token<'_>>, &'static str> {
    let mut tokens = Vec::new();
    let mut rest = line.trim_start();
    while !rest.is_empty() && !rest.starts_with('#') {
        if let Some(behind) = rest.strip_prefix('"') {
            let (text, length) = quoted(behind)?;
            tokens.push(Token::Quoted(text));
            rest = &behind[length..];
        } else {
            let length = rest.find(|c: char| c.is_whitespace() || c == '#').unwrap_or(rest.len());
            tokens.push(Token::Word(&rest[..length]));
            rest = &rest[length..];
        }
        rest = rest.trim_start();
    }
    Ok(tokens)
}

/// A text up to its closing quote, and the length of both as written. `\"` and `\\` stand for a quote and a backslash.
fn quoted(rest: &str) -> Result<(String, usize), &'static str> {
    let mut text = String::new();
    let mut chars = rest.char_indices();
    while let Some((at, c)) = chars.next() {
        match c {
            '"' => return Ok((text, at + 1)),
            '\\' => match chars.next() {
                Some((_, c @ ('"' | '\\'))) => text.push(c),
                _ => return Err("a backslash stands before a quote or a backslash only"),
            },
            _ => text.push(c),
        }
    }
    Err("the quoted text does not end")
}

/// A text in quotes.
pub(crate) fn quote(text: &str) -> String {
    format!("\"{}\"", text.replace('\\', "\\\\").replace('"', "\\\""))
}

impl<'a> Line<'a> {
    /// A line of these words, whatever they are.
    pub fn of(words: &[&'a str]) -> Line<'a> {
        Line { number: 1, tokens: words.iter().map(|word| Token::Word(word)).collect(), at: 0 }
    }

    pub fn error(&self, what: &str) -> Error {
        Error::new(self.number, what)
    }

    /// Whether the next word is this one.
    pub fn is(&self, word: &str) -> bool {
        matches!(self.tokens.get(self.at), Some(Token::Word(next)) if *next == word)
    }

    /// Takes the next word, if it is this one.
    pub fn take(&mut self, word: &str) -> bool {
        let is = self.is(word);
        self.at += usize::from(is);
        is
    }

    pub fn has_more(&self) -> bool {
        self.at < self.tokens.len()
    }

    pub fn word(&mut self, what: &str) -> Result<&'a str, Error> {
        match self.tokens.get(self.at) {
            Some(Token::Word(word)) => {
                self.at += 1;
                Ok(word)
            }
            _ => Err(self.error(&format!("expected {what}{}", self.instead()))),
        }
    }

    pub fn keyword(&mut self, word: &str) -> Result<(), Error> {
        if self.take(word) {
            return Ok(());
        }
        Err(self.error(&format!("expected '{word}'{}", self.instead())))
    }

    pub fn quoted(&mut self) -> Result<String, Error> {
        match self.tokens.get(self.at) {
            Some(Token::Quoted(text)) => {
                self.at += 1;
                Ok(text.clone())
            }
            _ => Err(self.error(&format!("expected a text in quotes{}", self.instead()))),
        }
    }

    /// What stands where something else is expected.
    fn instead(&self) -> String {
        match self.tokens.get(self.at) {
            Some(Token::Word(word)) => format!(", not '{word}'"),
            Some(Token::Quoted(_)) => ", not a quoted text".to_string(),
            None => " at the end of the line".to_string(),
        }
    }

    /// A number in the range of its type: decimal, or hexadecimal behind 0x.
    pub fn number<T: TryFrom<i128>>(&mut self, what: &str) -> Result<T, Error> {
        let word = self.word(what)?;
        let number = parse_number(word).ok_or_else(|| self.error(&format!("expected {what}, not '{word}'")))?;
        T::try_from(number).map_err(|_| self.error(&format!("{what} is out of its range: {word}")))
    }

    /// A word, then a number.
    pub fn field<T: TryFrom<i128>>(&mut self, name: &str) -> Result<T, Error> {
        self.keyword(name)?;
        self.number(name)
    }

    /// A thing by its name or its number.
    pub fn named<T>(
        &mut self,
        what: &str,
        by_name: fn(&str) -> Option<T>,
        by_number: fn(u32) -> Option<T>,
    ) -> Result<T, Error> {
        let word = self.word(&format!("a {what}"))?;
        let number = || parse_number(word).and_then(|number| u32::try_from(number).ok());
        by_name(word)
            .or_else(|| number().and_then(by_number))
            .ok_or_else(|| self.error(&format!("there is no {what} '{word}'")))
    }

    /// Numbers up to the end of the line.
    pub fn numbers<T: TryFrom<i128>>(&mut self, what: &str) -> Result<Vec<T>, Error> {
        let mut numbers = Vec::new();
        while self.has_more() {
            numbers.push(self.number(what)?);
        }
        Ok(numbers)
    }

    /// The end of a line for something with so many unused words: they stand behind `unused`, or are 0.
    pub fn end_with_unused(&mut self, count: usize, unused: &mut Vec<u32>) -> Result<(), Error> {
        if !self.take("unused") {
            unused.extend(vec![0; count]);
            return self.end();
        }
        let words: Vec<u32> = self.numbers("an unused word")?;
        if words.len() != count {
            return Err(self.error(&format!("the number of unused words is {count} here, not {}", words.len())));
        }
        unused.extend(words);
        Ok(())
    }

    pub fn end(&self) -> Result<(), Error> {
        if self.has_more() {
            return Err(self.error(&format!("expected the end of the line{}", self.instead())));
        }
        Ok(())
    }
}

fn parse_number(word: &str) -> Option<i128> {
    let (sign, digits) = match word.strip_prefix('-') {
        Some(digits) => (-1, digits),
        None => (1, word),
    };
    let (radix, digits) = match digits.strip_prefix("0x") {
        Some(digits) => (16, digits),
        None => (10, digits),
    };
    if !digits.chars().all(|c| c.is_digit(radix)) {
        return None;
    }
    i128::from_str_radix(digits, radix).ok().map(|number| sign * number)
}
