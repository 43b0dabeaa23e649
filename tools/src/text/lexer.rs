//! A text's lines as tokens, each with its column. Everything after # is a remark.

use super::Complaint;

#[derive(Clone, Copy, PartialEq, Eq, Debug)]
pub enum Kind {
    Name,
    Number,
    Sign,
}

#[derive(Clone, Copy, PartialEq, Eq, Debug)]
pub struct Token<'a> {
    pub text: &'a str,
    pub column: usize,
    pub kind: Kind,
}

/// A line that has a token.
pub struct Line<'a> {
    pub number: usize,
    pub tokens: Vec<Token<'a>>,
    /// The column behind its last token.
    pub end: usize,
}

const SIGNS: [&str; 6] = [":=", "->", ":", "=", ",", "*"];

/// The lines of a text that have tokens; the first error ends it.
pub struct Lines<'a> {
    rest: &'a [u8],
    number: usize,
}

impl<'a> Lines<'a> {
    pub fn new(source: &'a [u8]) -> Lines<'a> {
        Lines { rest: source, number: 0 }
    }

    /// The number of the line behind the last one.
    pub fn number(&self) -> usize {
        self.number
    }

    pub fn next(&mut self) -> Result<Option<Line<'a>>, Complaint> {
        while !self.rest.is_empty() {
            let length = self.rest.iter().position(|b| *b == b'\n').unwrap_or(self.rest.len());
            let line = &self.rest[..length];
            self.rest = self.rest.get(length + 1..).unwrap_or(&[]);
            self.number += 1;
            let line = tokens(line, self.number)?;
            if !line.tokens.is_empty() {
                return Ok(Some(line));
            }
        }
        Ok(None)
    }
}

fn tokens(line: &[u8], number: usize) -> Result<Line<'_>, Complaint> {
    let mut tokens = Vec::new();
    let (mut at, mut end) = (0, 1);
    // All bytes before `at` were ASCII, so a column is a byte.
    while let Some(byte) = line.get(at).copied() {
        let rest = &line[at..];
        let run = |inside: fn(&u8) -> bool| rest.iter().position(|b| !inside(b)).unwrap_or(rest.len());
        let (length, kind) = match byte {
            b'#' => break,
            b' ' | b'\t' | b'\r' => {
                at += 1;
                continue;
            }
            b'a'..=b'z' | b'A'..=b'Z' | b'_' => (run(|b| b.is_ascii_alphanumeric() || *b == b'_'), Kind::Name),
            b'0'..=b'9' => (run(|b| b.is_ascii_alphanumeric() || *b == b'_'), Kind::Number),
            _ => {
                let sign = SIGNS.iter().find(|sign| rest.starts_with(sign.as_bytes()));
                let Some(sign) = sign else {
                    let found = match byte {
                        0x21..=0x7e => format!("`{}`", byte as char),
                        _ => format!("a byte {byte:02X}"),
                    };
                    return Err(Complaint {
                        line: number,
                        column: at + 1,
                        words: format!("expected a name (letters, digits, _), a number or one of `:=` `->` `:` `=` `,` `*`, found {found}"),
                    });
                };
                (sign.len(), Kind::Sign)
            }
        };
        let text = std::str::from_utf8(&rest[..length]).unwrap_or("");
        if kind == Kind::Number && text.parse::<u32>().is_err() {
            let words = format!("expected a number, or a name that begins with a letter, found `{}`", shortened(text));
            return Err(Complaint { line: number, column: at + 1, words });
        }
        tokens.push(Token { text, column: at + 1, kind });
        at += length;
        end = at + 1;
    }
    Ok(Line { number, tokens, end })
}

/// For a message: no longer than a line can bear.
pub fn shortened(text: &str) -> String {
    if text.chars().count() > 40 {
        text.chars().take(37).chain("...".chars()).collect()
    } else {
        text.to_string()
    }
}

/// A walk along the tokens of a line.
pub struct Cursor<'l, 'a> {
    pub line: &'l Line<'a>,
    pub at: usize,
}

impl<'l, 'a> Cursor<'l, 'a> {
    pub fn new(line: &'l Line<'a>) -> Cursor<'l, 'a> {
        Cursor { line, at: 0 }
    }

    pub fn peek(&self) -> Option<Token<'a>> {
        self.line.tokens.get(self.at).copied()
    }

    /// Is this the text of the token so many places ahead?
    pub fn ahead(&self, places: usize, text: &str) -> bool {
        self.line.tokens.get(self.at + places).is_some_and(|token| token.text == text)
    }

    pub fn column(&self) -> usize {
        self.peek().map_or(self.line.end, |token| token.column)
    }

    pub fn complain<T>(&self, expected: &str) -> Result<T, Complaint> {
        let found =
            self.peek().map_or(String::from("the end of the line"), |token| format!("`{}`", shortened(token.text)));
        Err(Complaint {
            line: self.line.number,
            column: self.column(),
            words: format!("expected {expected}, found {found}"),
        })
    }

    /// The token just passed is wrong.
    pub fn complain_back<T>(&mut self, expected: &str) -> Result<T, Complaint> {
        self.at = self.at.saturating_sub(1);
        self.complain(expected)
    }

    /// Passes the token if it has this text.
    pub fn eat(&mut self, text: &str) -> bool {
        let is = self.ahead(0, text);
        self.at += is as usize;
        is
    }

    pub fn expect(&mut self, text: &str) -> Result<(), Complaint> {
        if self.eat(text) {
            Ok(())
        } else {
            self.complain(&format!("`{text}`"))
        }
    }

    pub fn name(&mut self, expected: &str) -> Result<Token<'a>, Complaint> {
        match self.peek() {
            Some(token) if token.kind == Kind::Name => {
                self.at += 1;
                Ok(token)
            }
            _ => self.complain(expected),
        }
    }

    pub fn number(&mut self, expected: &str) -> Result<u32, Complaint> {
        match self.peek() {
            Some(token) if token.kind == Kind::Number => {
                self.at += 1;
                Ok(token.text.parse().unwrap_or(u32::MAX))
            }
            _ => self.complain(expected),
        }
    }

    pub fn done(&self, expected: &str) -> Result<(), Complaint> {
        match self.peek() {
            None => Ok(()),
            Some(_) => self.complain(expected),
        }
    }
}
