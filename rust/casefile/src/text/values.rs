//! Reads values.

use super::lexer::Token;
use super::parser::{Named, Parsed, Parser};
use super::plain::PlainValue;

const MOST_DEPTH: u32 = 32;

impl Parser {
    pub fn value(&mut self) -> Parsed<u32> {
        self.deeper(Parser::one_value)
    }

    fn one_value(&mut self) -> Parsed<u32> {
        let place = self.place();
        let value = match self.token().clone() {
            Token::Sign("-") | Token::Digits(_) | Token::Time(_) => PlainValue::Int(self.integer("a number")?),
            Token::Sign("@") => match self.reference()? {
                Named::Value(value) => return Ok(value),
                _ => return place.fault("this name is no value's"),
            },
            Token::Sign("[") => self.array()?,
            Token::Sign("{") => self.members()?,
            Token::Word(word) if self.ahead(1) != &Token::Sign("::") => self.word_value(&word)?,
            Token::Quoted(text) if self.ahead(1) != &Token::Sign("::") => {
                self.at += 1;
                PlainValue::Text(text)
            }
            Token::Word(_) | Token::Quoted(_) => {
                let (ty, id) = self.entity()?;
                PlainValue::Entity(ty, id)
            }
            _ => return self.expected("a value"),
        };
        let number = self.values.add(value);
        if self.values.depths[number as usize] > MOST_DEPTH {
            return place.fault(format!("values nest to at most {MOST_DEPTH}"));
        }
        Ok(number)
    }

    fn word_value(&mut self, word: &str) -> Parsed<PlainValue> {
        let value = match word {
            "null" => PlainValue::Null,
            "true" => PlainValue::Bool(true),
            "false" => PlainValue::Bool(false),
            "decimal" => {
                self.at += 1;
                return match self.token().clone() {
                    Token::Quoted(text) => {
                        self.at += 1;
                        Ok(PlainValue::Decimal(text))
                    }
                    _ => self.expected("the decimal's text in quotation marks"),
                };
            }
            _ => return self.expected("a value"),
        };
        self.at += 1;
        Ok(value)
    }

    fn array(&mut self) -> Parsed<PlainValue> {
        self.expect_sign("[")?;
        let mut items = Vec::new();
        while !self.is_sign("]") {
            items.push(self.value()?);
            if !self.sign(",") {
                break;
            }
        }
        self.expect_sign("]")?;
        Ok(PlainValue::Array(items))
    }

    fn members(&mut self) -> Parsed<PlainValue> {
        self.expect_sign("{")?;
        let mut members: Vec<(String, u32)> = Vec::new();
        while !self.is_sign("}") {
            let place = self.place();
            let name = self.name("a member's name")?;
            if members.iter().any(|(known, _)| *known == name) {
                return place.fault(format!("the name {name:?} is in this object twice"));
            }
            self.expect_sign(":")?;
            members.push((name, self.value()?));
            if !self.sign(",") {
                break;
            }
        }
        self.expect_sign("}")?;
        members.sort();
        Ok(PlainValue::Object(members))
    }

    /// `Type::"id"`, the type a quoted text or plain words with `::` between them.
    pub fn entity(&mut self) -> Parsed<(String, String)> {
        let mut ty = self.name("an entity's type")?;
        loop {
            self.expect_sign("::")?;
            match self.next() {
                Token::Quoted(id) => return Ok((ty, id)),
                Token::Word(word) => ty = format!("{ty}::{word}"),
                _ => {
                    self.at -= 1;
                    return self.expected("an entity's id in quotation marks");
                }
            }
        }
    }
}
