//! The tokens of a text, one at a time from the left.

use crate::text_answer::{outside, Refused};

/// "Keywords": words that are no names.
const KEYWORDS: [&str; 13] = [
    "and", "case", "class", "default", "define", "else", "false", "if", "include", "inherits", "node", "or",
    "true",
];

/// The longer of two signs that begin alike stands first: "At each byte the
/// longest token is taken."
const SIGNS: [&str; 17] = [
    "==", "=>", "=", "{", "}", "(", ")", "[", "]", ":", ",", "+", "-", "/", ">", "!", "?",
];

/// "at most 255 bytes", of a word, a name or a string.
const LONGEST_WORD: usize = 255;

#[derive(Clone, Debug, PartialEq, Eq)]
pub enum Token<'t> {
    Name(&'t [u8]),
    Keyword(&'static str),
    /// `$x`
    Variable(&'t [u8]),
    /// `$::x`
    TopVariable(&'t [u8]),
    /// `$::a::x`
    ClassVariable(&'t [u8], &'t [u8]),
    Number(i64),
    /// A string in quotes, its escapes replaced.
    Quoted(Vec<u8>),
    Sign(&'static str),
    /// "The text's end counts as a token".
    End,
}

impl Token<'_> {
    /// "An operand may begin everywhere but behind" these: there a `-` belongs
    /// to the digits behind it.
    fn ends_operand(&self) -> bool {
        match self {
            Token::Keyword(word) => matches!(*word, "true" | "false"),
            Token::Sign(sign) => matches!(*sign, ")" | "]"),
            Token::End => false,
            _ => true,
        }
    }
}

/// A token where it stands.
#[derive(Clone, Debug)]
pub struct Lexeme<'t> {
    pub token: Token<'t>,
    /// Of its first byte.
    pub place: usize,
    /// Of its first byte: "the number of bytes 0A before it".
    pub line: usize,
}

pub struct Lexer<'t> {
    text: &'t [u8],
    at: usize,
    line: usize,
    operand_may_begin: bool,
}

/// A token or what is wrong with it, in words.
type Taken<'t> = Result<Token<'t>, &'static str>;

impl<'t> Lexer<'t> {
    pub fn new(text: &'t [u8]) -> Lexer<'t> {
        Lexer {
            text,
            at: 0,
            line: 0,
            operand_may_begin: true,
        }
    }

    /// The next token; "24 at the first byte of the first token that is
    /// malformed".
    pub fn next(&mut self) -> Result<Lexeme<'t>, Refused> {
        self.skip();
        let (place, line) = (self.at, self.line);
        let token = self.token().map_err(|why| outside(place, why))?;
        self.operand_may_begin = !token.ends_operand();
        Ok(Lexeme { token, place, line })
    }

    fn byte(&self) -> Option<u8> {
        self.text.get(self.at).copied()
    }

    fn byte_behind(&self) -> Option<u8> {
        self.text.get(self.at + 1).copied()
    }

    fn rest(&self) -> &'t [u8] {
        self.text.get(self.at..).unwrap_or(&[])
    }

    /// Moves past one byte, counting lines.
    fn step(&mut self) {
        if self.byte() == Some(b'\n') {
            self.line += 1;
        }
        self.at += 1;
    }

    /// Moves past white space and comments. A comment's line feed is white
    /// space, so it may be left for the next turn.
    fn skip(&mut self) {
        while let Some(byte) = self.byte() {
            match byte {
                b' ' | b'\t' | b'\r' | b'\n' => self.step(),
                b'#' => self.skip_while(|byte| byte != b'\n'),
                _ => return,
            }
        }
    }

    fn skip_while(&mut self, goes_on: fn(u8) -> bool) {
        while self.byte().is_some_and(goes_on) {
            self.step();
        }
    }

    /// Moves past the bytes given, if they stand here.
    fn skip_bytes(&mut self, bytes: &[u8]) -> bool {
        let stand_here = self.rest().starts_with(bytes);
        if stand_here {
            self.at += bytes.len();
        }
        stand_here
    }

    fn token(&mut self) -> Taken<'t> {
        match self.byte() {
            None => Ok(Token::End),
            Some(b'a'..=b'z') => self.word_token(),
            Some(b'0'..=b'9') => self.number(),
            Some(b'-') if self.operand_may_begin && self.digit_is_behind() => self.number(),
            Some(b'$') => self.variable(),
            Some(quote @ (b'\'' | b'"')) => self.quoted(quote),
            Some(_) => self.sign(),
        }
    }

    fn digit_is_behind(&self) -> bool {
        self.byte_behind().is_some_and(|byte| byte.is_ascii_digit())
    }

    /// A word from here on, if a letter stands here.
    fn word(&mut self) -> Option<&'t [u8]> {
        let from = self.at;
        if !self.byte()?.is_ascii_lowercase() {
            return None;
        }
        self.skip_while(|byte| matches!(byte, b'a'..=b'z' | b'0'..=b'9' | b'_'));
        self.text.get(from..self.at)
    }

    fn word_token(&mut self) -> Taken<'t> {
        let word = self.word().unwrap_or(&[]);
        if word.len() > LONGEST_WORD {
            return Err("a word over 255 bytes");
        }
        Ok(match keyword(word) {
            Some(keyword) => Token::Keyword(keyword),
            None => Token::Name(word),
        })
    }

    /// `$x`, `$::x` or `$::a::x`. `::` belongs to the variable behind `$` and
    /// behind `$::a`, and nowhere else.
    fn variable(&mut self) -> Taken<'t> {
        self.at += 1;
        if !self.skip_bytes(b"::") {
            return Ok(Token::Variable(self.name_of_variable()?));
        }
        let first = self.name_of_variable()?;
        if !self.skip_bytes(b"::") {
            return Ok(Token::TopVariable(first));
        }
        Ok(Token::ClassVariable(first, self.name_of_variable()?))
    }

    fn name_of_variable(&mut self) -> Result<&'t [u8], &'static str> {
        let name = self.word().ok_or("a variable without a name")?;
        if name.len() > LONGEST_WORD {
            return Err("a variable over 255 bytes");
        }
        match keyword(name) {
            Some(_) => Err("a variable with a keyword"),
            None => Ok(name),
        }
    }

    /// Digits, with a `-` before them where one stands here.
    fn number(&mut self) -> Taken<'t> {
        let from = self.at;
        self.skip_bytes(b"-");
        let digits_from = self.at;
        self.skip_while(|byte| byte.is_ascii_digit());
        if matches!(self.byte(), Some(b'a'..=b'z' | b'_')) {
            return Err("a letter behind digits");
        }
        if self.text[digits_from] == b'0' && self.at - digits_from > 1 {
            return Err("a zero before other digits");
        }
        decimal(&self.text[from..self.at])
            .map(Token::Number)
            .ok_or("a number outside 64 bits")
    }

    /// "every byte for itself, except the closing quote and the backslash".
    fn quoted(&mut self, quote: u8) -> Taken<'t> {
        let mut bytes = Vec::new();
        self.step();
        loop {
            let byte = self.byte().ok_or("a string never closed")?;
            self.step();
            match byte {
                _ if byte == quote => break,
                b'\\' => bytes.push(self.escaped()?),
                _ => bytes.push(byte),
            }
        }
        if bytes.len() > LONGEST_WORD {
            return Err("a string over 255 bytes");
        }
        Ok(Token::Quoted(bytes))
    }

    /// What stands behind a backslash, and the byte it means.
    fn escaped(&mut self) -> Result<u8, &'static str> {
        let byte = self.byte().ok_or("a string never closed")?;
        self.step();
        match byte {
            b'\\' | b'\'' | b'"' => Ok(byte),
            b'n' => Ok(b'\n'),
            _ => Err("a wrong escape"),
        }
    }

    fn sign(&mut self) -> Taken<'t> {
        for sign in SIGNS {
            if self.skip_bytes(sign.as_bytes()) {
                return Ok(Token::Sign(sign));
            }
        }
        Err("a byte that begins no token")
    }
}

/// The keyword of that spelling, if there is one.
pub fn keyword(word: &[u8]) -> Option<&'static str> {
    KEYWORDS.into_iter().find(|keyword| keyword.as_bytes() == word)
}

/// "A name is a word that is no keyword."
pub fn is_name(bytes: &[u8]) -> bool {
    let mut lexer = Lexer::new(bytes);
    match lexer.token() {
        Ok(Token::Name(name)) => name.len() == bytes.len(),
        _ => false,
    }
}

/// A decimal number, if 64 bits hold it. It grows on the negative side, which
/// reaches one further.
fn decimal(digits: &[u8]) -> Option<i64> {
    let (is_negative, digits) = match digits {
        [b'-', digits @ ..] => (true, digits),
        digits => (false, digits),
    };
    let mut number = 0i64;
    for digit in digits {
        number = number.checked_mul(10)?.checked_sub(i64::from(digit - b'0'))?;
    }
    if is_negative {
        Some(number)
    } else {
        number.checked_neg()
    }
}
