//! The tokens of a filter's text.

use crate::route::Prefix;

/// Why a text is refused: a code, and the byte at which it stands.
#[derive(Clone, Copy, Debug, PartialEq, Eq)]
pub struct Fault {
    pub code: &'static str,
    pub at: usize,
}

#[derive(Clone, Copy, Debug, PartialEq, Eq)]
pub enum Kind {
    Int,
    Bool,
    Ip,
    Prefix,
}

#[derive(Clone, Copy, Debug, PartialEq, Eq)]
pub enum Token<'a> {
    Name(&'a [u8]),
    Number(u32),
    Address(u32),
    Prefix(Prefix),
    Quoted,
    Kind(Kind),
    Filter,
    If,
    Then,
    Else,
    Case,
    Accept,
    Reject,
    Bool(bool),
    Defined,
    Net,
    Metric,
    And,
    Or,
    NotEqual,
    NotWithin,
    LessOrEqual,
    GreaterOrEqual,
    UpTo,
    /// A punctuator of one byte.
    Sign(u8),
    End,
}

const NAME_LIMIT: usize = 64;

/// A text as far as it was read.
#[derive(Clone, Copy)]
pub struct Lexer<'a> {
    text: &'a [u8],
    at: usize,
}

fn is_name_byte(byte: u8) -> bool {
    byte.is_ascii_alphanumeric() || byte == b'_'
}

/// How many of the first bytes are decimal digits.
fn digits(text: &[u8]) -> usize {
    text.iter().take_while(|byte| byte.is_ascii_digit()).count()
}

/// The value of decimal digits. None where no `u32` holds it.
fn value(digits: &[u8]) -> Option<u32> {
    digits.iter().try_fold(0_u32, |value, digit| value.checked_mul(10)?.checked_add(u32::from(digit - b'0')))
}

/// How many bytes of an address follow the `first` digits at the front: three groups, each behind a dot.
fn groups(text: &[u8], first: usize) -> Option<usize> {
    let mut end = first;
    for _ in 0..3 {
        if text.get(end) != Some(&b'.') {
            return None;
        }
        let group = digits(&text[end + 1..]);
        if group == 0 {
            return None;
        }
        end += 1 + group;
    }
    Some(end)
}

fn word(name: &[u8]) -> Option<Token<'_>> {
    Some(match name {
        b"filter" => Token::Filter,
        b"int" => Token::Kind(Kind::Int),
        b"bool" => Token::Kind(Kind::Bool),
        b"ip" => Token::Kind(Kind::Ip),
        b"prefix" => Token::Kind(Kind::Prefix),
        b"if" => Token::If,
        b"then" => Token::Then,
        b"else" => Token::Else,
        b"case" => Token::Case,
        b"accept" => Token::Accept,
        b"reject" => Token::Reject,
        b"true" => Token::Bool(true),
        b"false" => Token::Bool(false),
        b"defined" => Token::Defined,
        b"net" => Token::Net,
        b"rip_metric" => Token::Metric,
        b"function" | b"define" | b"print" | b"printn" | b"return" | b"include" | b"string" | b"pair" | b"quad"
        | b"ec" | b"lc" | b"bgppath" | b"bgpmask" | b"clist" | b"eclist" | b"lclist" | b"set" | b"from" | b"proto"
        | b"preference" | b"source" => return None,
        _ => Token::Name(name),
    })
}

impl<'a> Lexer<'a> {
    pub fn new(text: &'a [u8]) -> Lexer<'a> {
        Lexer { text, at: 0 }
    }

    fn fault<T>(code: &'static str, at: usize) -> Result<T, Fault> {
        Err(Fault { code, at })
    }

    /// Passes white space and comments.
    fn pass_space(&mut self) -> Result<(), Fault> {
        loop {
            match self.text[self.at..] {
                [b' ' | b'\t' | b'\r' | b'\n', ..] => self.at += 1,
                [b'#', ref rest @ ..] => {
                    self.at += 1 + rest.iter().position(|byte| *byte == b'\n').unwrap_or(rest.len())
                }
                [b'/', b'*', ref rest @ ..] => match rest.windows(2).position(|pair| pair == b"*/") {
                    Some(length) => self.at += length + 4,
                    None => return Self::fault("P9", self.at),
                },
                _ => return Ok(()),
            }
        }
    }

    /// The next token, and its first byte.
    #[inline]
    pub fn next(&mut self) -> Result<(Token<'a>, usize), Fault> {
        self.pass_space()?;
        let at = self.at;
        let text = &self.text[at..];
        let Some(&first) = text.first() else { return Ok((Token::End, at)) };
        let (token, length) = match first {
            b'.' if text.get(1) == Some(&b'.') => (Token::UpTo, 2),
            b'(' | b')' | b'{' | b'}' | b'[' | b']' | b';' | b':' | b',' | b'.' | b'=' | b'~' | b'+' | b'-' | b'*'
            | b'/' => (Token::Sign(first), 1),
            b'0'..=b'9' => self.numeric(text)?,
            b'a'..=b'z' | b'A'..=b'Z' | b'_' => {
                let length = text.iter().take_while(|byte| is_name_byte(**byte)).count();
                if length > NAME_LIMIT {
                    return Self::fault("P8", at);
                }
                match word(&text[..length]) {
                    Some(token) => (token, length),
                    None => return Self::fault("P10", at),
                }
            }
            _ => self.other(text)?,
        };
        self.at = at + length;
        Ok((token, at))
    }

    /// A token that begins with a digit, and its length.
    fn numeric(&self, text: &'a [u8]) -> Result<(Token<'a>, usize), Fault> {
        if let [b'0', b'x', rest @ ..] = text {
            return self.hexadecimal(rest);
        }
        let first = digits(text);
        let Some(end) = groups(text, first) else {
            return match value(&text[..first]) {
                Some(number) => Ok((Token::Number(number), first)),
                None => Self::fault("P3", self.at),
            };
        };
        let mut address = 0;
        for group in text[..end].split(|byte| *byte == b'.') {
            match value(group).filter(|group| *group <= 255) {
                Some(group) => address = address << 8 | group,
                None => return Self::fault("P4", self.at),
            }
        }
        let length = match text[end..] {
            [b'/', ref rest @ ..] => digits(rest),
            _ => 0,
        };
        if length == 0 {
            return Ok((Token::Address(address), end));
        }
        let end = end + 1 + length;
        let prefix =
            value(&text[end - length..end]).and_then(|length| Prefix::new(address, u8::try_from(length).ok()?));
        match prefix {
            Some(prefix) => Ok((Token::Prefix(prefix), end)),
            None => Self::fault("P4", self.at),
        }
    }

    fn hexadecimal(&self, rest: &[u8]) -> Result<(Token<'a>, usize), Fault> {
        let length = rest.iter().take_while(|byte| byte.is_ascii_hexdigit()).count();
        let mut number = 0_u32;
        for byte in &rest[..length] {
            let digit = char::from(*byte).to_digit(16).unwrap_or(0);
            if number >> 28 != 0 {
                return Self::fault("P3", self.at);
            }
            number = number << 4 | digit;
        }
        match length {
            0 => Self::fault("P1", self.at),
            _ => Ok((Token::Number(number), 2 + length)),
        }
    }

    /// Any other token, and its length.
    fn other(&self, text: &'a [u8]) -> Result<(Token<'a>, usize), Fault> {
        Ok(match text {
            [b'&', b'&', ..] => (Token::And, 2),
            [b'|', b'|', ..] => (Token::Or, 2),
            [b'!', b'=', ..] => (Token::NotEqual, 2),
            [b'!', b'~', ..] => (Token::NotWithin, 2),
            [b'<', b'=', ..] => (Token::LessOrEqual, 2),
            [b'>', b'=', ..] => (Token::GreaterOrEqual, 2),
            [b'!' | b'<' | b'>', ..] => (Token::Sign(text[0]), 1),
            [b'"', rest @ ..] => match rest.iter().position(|byte| *byte == b'"' || *byte == b'\n') {
                Some(length) if rest[length] == b'"' => (Token::Quoted, length + 2),
                _ => return Self::fault("P9", self.at),
            },
            [b'\'', ..] => return Self::fault("P10", self.at),
            _ => return Self::fault("P1", self.at),
        })
    }
}
