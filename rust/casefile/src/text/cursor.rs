//! The parser's way through the tokens.

use super::lexer::{Place, Token};
use super::parser::{Parsed, Parser};

/// Brackets and prefixes within each other; more than any case needs.
const MOST_NESTING: usize = 256;

impl Parser {
    pub fn token(&self) -> &Token {
        &self.tokens[self.at].0
    }

    pub fn ahead(&self, by: usize) -> &Token {
        &self.tokens[(self.at + by).min(self.tokens.len() - 1)].0
    }

    pub fn place(&self) -> Place {
        self.tokens[self.at].1
    }

    pub fn next(&mut self) -> Token {
        let token = self.token().clone();
        if token != Token::End {
            self.at += 1;
        }
        token
    }

    pub fn is_sign(&self, sign: &str) -> bool {
        matches!(self.token(), Token::Sign(s) if *s == sign)
    }

    pub fn is_word(&self, word: &str) -> bool {
        matches!(self.token(), Token::Word(w) if w == word)
    }

    /// Takes the sign if it is there.
    pub fn sign(&mut self, sign: &str) -> bool {
        let there = self.is_sign(sign);
        self.at += there as usize;
        there
    }

    /// Takes the word if it is there.
    pub fn word(&mut self, word: &str) -> bool {
        let there = self.is_word(word);
        self.at += there as usize;
        there
    }

    pub fn expect_sign(&mut self, sign: &str) -> Parsed<()> {
        if self.sign(sign) {
            return Ok(());
        }
        self.expected(&format!("`{sign}`"))
    }

    pub fn expect_word(&mut self, word: &str) -> Parsed<()> {
        if self.word(word) {
            return Ok(());
        }
        self.expected(&format!("`{word}`"))
    }

    pub fn expected<T>(&self, what: &str) -> Parsed<T> {
        let found = match self.token() {
            Token::Word(word) => format!("`{word}`"),
            Token::Quoted(text) => format!("the text {text:?}"),
            Token::Digits(number) => format!("the number {number}"),
            Token::Time(seconds) => format!("a time, {seconds} seconds"),
            Token::Sign(sign) => format!("`{sign}`"),
            Token::Bad => return self.place().silent(),
            Token::End => "the end of the text".to_string(),
        };
        self.place().fault(format!("expected {what}, found {found}"))
    }

    /// A plain word or a quoted text.
    pub fn name(&mut self, what: &str) -> Parsed<String> {
        match self.token().clone() {
            Token::Word(name) | Token::Quoted(name) => {
                self.at += 1;
                Ok(name)
            }
            _ => self.expected(what),
        }
    }

    /// A signed number that fits 64 bits.
    pub fn integer(&mut self, what: &str) -> Parsed<i64> {
        let place = self.place();
        if let Token::Time(seconds) = *self.token() {
            self.at += 1;
            return Ok(seconds);
        }
        let negative = self.sign("-");
        let Token::Digits(digits) = *self.token() else {
            return self.expected(what);
        };
        self.at += 1;
        let number = if negative { -(digits as i128) } else { digits as i128 };
        match i64::try_from(number) {
            Ok(number) => Ok(number),
            Err(_) => place.fault("this number does not fit a signed 64-bit integer"),
        }
    }

    /// Reads something that may stand within itself.
    pub fn deeper<T>(&mut self, read: impl FnOnce(&mut Parser) -> Parsed<T>) -> Parsed<T> {
        if self.nesting == MOST_NESTING {
            return self.place().fault("this nests too deeply to be read");
        }
        self.nesting += 1;
        let read = read(self);
        self.nesting -= 1;
        read
    }
}
