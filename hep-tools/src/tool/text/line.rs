//! One line of the text: its tokens, and errors at their columns.

use std::fmt;

/// What is wrong, and where; lines and columns count from 1.
#[derive(Clone, PartialEq, Eq, Debug)]
pub struct Error {
    pub line: usize,
    pub column: usize,
    /// How many letters the word has that is wrong.
    pub width: usize,
    pub reason: String,
}

impl Error {
    /// At the start of a line.
    pub fn at(line: usize, reason: impl Into<String>) -> Self {
        Error { line, column: 1, width: 1, reason: reason.into() }
    }

    /// The place as editors jump to it, the reason, and the line with a caret below the place.
    pub fn told(&self, file: &str, text: &str) -> String {
        let Error { line, column, width, reason } = self;
        let source = text.lines().nth(line - 1).unwrap_or("");
        let before = source.chars().take(column - 1);
        let blank: String = before.map(|c| if c == '\t' { '\t' } else { ' ' }).collect();
        let under = "~".repeat(width.saturating_sub(1));
        let place = format!("{file}:{line}:{column}: error: {reason}");
        format!("{place}\n{line:5} | {source}\n      | {blank}^{under}\n")
    }
}

impl fmt::Display for Error {
    fn fmt(&self, f: &mut fmt::Formatter) -> fmt::Result {
        write!(f, "line {}, column {}: {}", self.line, self.column, self.reason)
    }
}

/// A line without its comment, read from the left.
pub struct Line<'a> {
    number: usize,
    text: &'a str,
    place: usize,
}

impl<'a> Line<'a> {
    pub fn new(number: usize, text: &'a str) -> Self {
        let end = text.find(';').unwrap_or(text.len());
        Line { number, text: &text[..end], place: 0 }
    }

    pub fn number(&self) -> usize {
        self.number
    }

    /// What is left, without leading spaces.
    fn rest(&mut self) -> &'a str {
        let rest = self.text[self.place..].trim_start();
        self.place = self.text.len() - rest.len();
        rest
    }

    /// The place of the next token, for an error found after it is read.
    pub fn mark(&mut self) -> usize {
        self.rest();
        self.place
    }

    /// Reads again from a place.
    pub fn back_to(&mut self, place: usize) {
        self.place = place;
    }

    pub fn error_at(&self, place: usize, reason: impl Into<String>) -> Error {
        let column = self.text[..place].chars().count() + 1;
        let width = word_of(&self.text[place..]).len().max(1);
        Error { line: self.number, column, width, reason: reason.into() }
    }

    /// An error at the next token.
    pub fn error(&mut self, reason: impl Into<String>) -> Error {
        let place = self.mark();
        self.error_at(place, reason)
    }

    pub fn is_done(&mut self) -> bool {
        self.rest().is_empty()
    }

    /// That nothing is left.
    pub fn end(&mut self) -> Result<(), Error> {
        if self.is_done() {
            return Ok(());
        }
        Err(self.error("the line should end here"))
    }

    /// Takes the sign if it is next.
    pub fn take(&mut self, sign: char) -> bool {
        let found = self.rest().starts_with(sign);
        if found {
            self.place += sign.len_utf8();
        }
        found
    }

    pub fn expect(&mut self, sign: char) -> Result<(), Error> {
        if self.take(sign) {
            return Ok(());
        }
        Err(self.error(format!("`{sign}` is missing")))
    }

    /// The next word of letters, digits and underscores; it may be empty.
    pub fn peek(&mut self) -> &'a str {
        word_of(self.rest())
    }

    /// The next word, if it stands alone or before `at`, as the head of a section does.
    pub fn head(&mut self) -> Option<&'a str> {
        let word = self.peek();
        let behind = word_of(self.rest()[word.len()..].trim_start());
        let alone = self.rest().trim_end().len() == word.len();
        (!word.is_empty() && (alone || behind == "at")).then_some(word)
    }

    /// Whether the next word stands before a `=`.
    pub fn is_field(&mut self) -> bool {
        let word = self.peek();
        !word.is_empty() && self.rest()[word.len()..].trim_start().starts_with('=')
    }

    /// What was read since this place, with single spaces.
    pub fn since(&self, place: usize) -> String {
        self.text[place..self.place].split_whitespace().collect::<Vec<_>>().join(" ")
    }

    pub fn word(&mut self) -> &'a str {
        let word = self.peek();
        self.place += word.len();
        word
    }

    /// Takes this word if it is next, in either case.
    pub fn keyword(&mut self, keyword: &str) -> bool {
        let found = self.peek().eq_ignore_ascii_case(keyword);
        if found {
            self.place += keyword.len();
        }
        found
    }

    /// Takes a label: a word and a colon with nothing or a space behind it.
    pub fn label(&mut self) -> Option<&'a str> {
        let word = self.peek();
        let behind = self.rest()[word.len()..].strip_prefix(':')?;
        if word.is_empty() || behind.starts_with(|c: char| !c.is_whitespace()) {
            return None;
        }
        self.place += word.len() + 1;
        Some(word)
    }
}

/// The letters, digits and underscores at the front.
fn word_of(text: &str) -> &str {
    let end = text.find(|c: char| !c.is_ascii_alphanumeric() && c != '_');
    &text[..end.unwrap_or(text.len())]
}
