//! Splits a text into tokens with their places.

use super::{is_of_word, Fault};
use crate::time;

#[derive(Clone, Debug, PartialEq, Eq)]
pub enum Token {
    /// A bare word.
    Word(String),
    /// A quoted string, unescaped.
    Quoted(String),
    /// Digits, at most 2^64 - 1.
    Digits(u64),
    /// A time of ISO 8601, in seconds.
    Time(i64),
    Sign(&'static str),
    /// Something that was told as a fault already.
    Bad,
    End,
}

/// Line and column, from 1.
#[derive(Clone, Copy, Debug, PartialEq, Eq)]
pub struct Place {
    pub line: usize,
    pub column: usize,
}

impl Place {
    pub fn told(self, message: impl Into<String>) -> Fault {
        Fault { line: self.line, column: self.column, message: message.into() }
    }

    pub fn fault<T>(self, message: impl Into<String>) -> Result<T, Fault> {
        Err(self.told(message))
    }

    /// A fault that was told before, and stops what stands on it.
    pub fn silent<T>(self) -> Result<T, Fault> {
        self.fault("")
    }
}

/// Longer signs first.
const SIGNS: [&str; 22] =
    ["::", "==", "!=", "<=", ">=", "(", ")", "{", "}", "[", "]", ",", ":", ".", "/", "@", "=", "<", ">", "+", "-", "*"];

/// The tokens of a text, and what is wrong with those that are bad.
pub fn tokens(text: &str) -> (Vec<(Token, Place)>, Vec<Fault>) {
    let mut lexer = Lexer { rest: text, place: Place { line: 1, column: 1 }, faults: badly_saved(text) };
    lexer.rest = text.strip_prefix(BYTE_ORDER_MARK).unwrap_or(text);
    let mut tokens = Vec::new();
    loop {
        lexer.skip_blanks();
        let place = lexer.place;
        let behind_dot = matches!(tokens.last(), Some((Token::Sign("."), _)));
        let token = lexer.token(behind_dot).unwrap_or_else(|fault| {
            lexer.faults.push(fault);
            Token::Bad
        });
        let ended = token == Token::End;
        tokens.push((token, place));
        if ended {
            return (tokens, lexer.faults);
        }
    }
}

const BYTE_ORDER_MARK: char = '\u{feff}';

/// What an editor may have added to every line or before the first; told once.
fn badly_saved(text: &str) -> Vec<Fault> {
    let mut faults = Vec::new();
    if text.starts_with(BYTE_ORDER_MARK) {
        let message = "the text begins with a byte order mark: save it as UTF-8 without one".to_string();
        faults.push(Fault { line: 1, column: 1, message });
    }
    if let Some(at) = text.find('\r') {
        let line = text[..at].matches('\n').count() + 1;
        let column = text[..at].chars().rev().take_while(|&c| c != '\n').count() + 1;
        let message = "a carriage return, as in Windows' line ends: save the text with line feeds alone".to_string();
        faults.push(Fault { line, column, message });
    }
    faults
}

struct Lexer<'a> {
    rest: &'a str,
    place: Place,
    faults: Vec<Fault>,
}

impl Lexer<'_> {
    fn next(&mut self) -> Option<char> {
        let c = self.rest.chars().next()?;
        self.rest = &self.rest[c.len_utf8()..];
        if c == '\n' {
            self.place = Place { line: self.place.line + 1, column: 1 };
        } else {
            self.place.column += 1;
        }
        Some(c)
    }

    fn peek(&self) -> Option<char> {
        self.rest.chars().next()
    }

    /// Blanks, and comments from `#` to the end of the line.
    fn skip_blanks(&mut self) {
        while let Some(c) = self.peek() {
            if c == '#' {
                while self.peek().is_some_and(|c| c != '\n') {
                    self.next();
                }
            } else if c.is_whitespace() {
                self.next();
            } else {
                return;
            }
        }
    }

    /// The next token. Behind a dot stands a name, which may be a number or begin with a digit: `uart.0`.
    fn token(&mut self, behind_dot: bool) -> Result<Token, Fault> {
        let place = self.place;
        match self.peek() {
            None => Ok(Token::End),
            Some('"') => self.quoted(),
            Some(c) if c.is_ascii_digit() && behind_dot => Ok(Token::Word(self.take_while(is_of_word))),
            Some(c) if c.is_ascii_digit() && self.at_time() => {
                let time = self.take_while(|c| c.is_ascii_alphanumeric() || "-+:.".contains(c));
                time::seconds(&time).map(Token::Time).or_else(|why| place.fault(why))
            }
            Some(c) if c.is_ascii_digit() => {
                let digits = self.take_while(|c| c.is_ascii_digit());
                digits.parse().map(Token::Digits).or_else(|_| place.fault("this number does not fit 64 bits"))
            }
            Some(c) if is_of_word(c) => Ok(Token::Word(self.take_while(is_of_word))),
            Some(c) => match SIGNS.iter().find(|sign| self.rest.starts_with(**sign)) {
                Some(sign) => {
                    for _ in 0..sign.len() {
                        self.next();
                    }
                    Ok(Token::Sign(sign))
                }
                None => {
                    self.next();
                    place.fault(unexpected(c))
                }
            },
        }
    }

    /// Whether a date and `T` stand here: the beginning of a time.
    fn at_time(&self) -> bool {
        let start = self.rest.as_bytes();
        start.len() > 10 && start[4] == b'-' && start[7] == b'-' && start[10] == b'T'
    }

    fn take_while(&mut self, wanted: impl Fn(char) -> bool) -> String {
        let mut taken = String::new();
        while let Some(c) = self.peek().filter(|c| wanted(*c)) {
            taken.push(c);
            self.next();
        }
        taken
    }

    fn quoted(&mut self) -> Result<Token, Fault> {
        let start = self.place;
        self.next();
        let mut text = String::new();
        loop {
            let place = self.place;
            match self.next() {
                None | Some('\n') => {
                    return start.fault("this quoted text does not end on its line: a `\"` is missing")
                }
                Some('"') => return Ok(Token::Quoted(text)),
                Some('\\') => text.push(self.escape(place)?),
                Some(c) => text.push(c),
            }
        }
    }

    fn escape(&mut self, place: Place) -> Result<char, Fault> {
        match self.next() {
            Some('n') => Ok('\n'),
            Some('t') => Ok('\t'),
            Some('"') => Ok('"'),
            Some('\\') => Ok('\\'),
            Some('u') if self.peek() == Some('{') => {
                self.next();
                let digits = self.take_while(|c| c.is_ascii_hexdigit());
                let character = u32::from_str_radix(&digits, 16).ok().and_then(char::from_u32);
                match (character, self.next()) {
                    (Some(c), Some('}')) => Ok(c),
                    _ => place.fault("`\\u{..}` holds the hexadecimal number of a character"),
                }
            }
            _ => place.fault("after `\\` comes one of n t \" \\ u{..}"),
        }
    }
}

/// What to say of a character that begins nothing.
fn unexpected(c: char) -> String {
    let what = match c {
        '\'' | '\u{2018}' | '\u{2019}' | '\u{201c}' | '\u{201d}' => {
            "text stands between plain quotation marks: \"text\""
        }
        '&' | '|' => "conditions are joined by the words `and` and `or`",
        '!' => "a condition is turned round by the word `not`",
        ';' => "nothing stands between statements but a blank or a line break",
        _ if !c.is_ascii() => "names other than plain words stand in quotation marks",
        _ => "nothing in a case's text begins so; names other than plain words stand in quotation marks",
    };
    match c {
        _ if c.is_control() || !c.is_ascii() && !c.is_alphanumeric() => {
            format!("unexpected character U+{:04X}; {what}", c as u32)
        }
        _ => format!("unexpected character `{c}`; {what}"),
    }
}
