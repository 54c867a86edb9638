//! Bytes cut into lexemes. Whatever cannot be read is refused here, before any limit is looked at.

use crate::refusal::Refusal;

/// The most letters that a word or a quoted name may have.
const LETTERS: usize = 31;

/// What a lexeme is. Remarks and separators are not kept.
#[derive(Debug, Clone, PartialEq, Eq)]
pub enum LexemeKind<'a> {
    /// Its value; one beyond 64 bits stays at the largest, which is beyond every limit too.
    Number(u64),
    Word(&'a [u8]),
    QuotedName(&'a [u8]),
    Open,
    Close,
}

/// A lexeme and the place of its first byte.
#[derive(Debug, Clone, PartialEq, Eq)]
pub struct Lexeme<'a> {
    pub kind: LexemeKind<'a>,
    pub place: usize,
}

fn is_letter(byte: u8) -> bool {
    byte.is_ascii_lowercase() || byte == b'-'
}

/// Whether a number, a word or a quoted name may end before this byte.
fn ends_a_lexeme(byte: u8) -> bool {
    matches!(byte, b' ' | b'\n' | b'{' | b'}')
}

struct Cursor<'a> {
    text: &'a [u8],
    place: usize,
}

impl<'a> Cursor<'a> {
    fn peek(&self) -> Option<u8> {
        self.text.get(self.place).copied()
    }

    /// Takes all bytes up to the first that is not wanted.
    fn take_while(&mut self, wanted: impl Fn(u8) -> bool) -> &'a [u8] {
        let start = self.place;
        while self.peek().is_some_and(&wanted) {
            self.place += 1;
        }
        &self.text[start..self.place]
    }

    /// Refuses the next byte unless a lexeme may end before it.
    fn expect_end_of_lexeme(&self) -> Result<(), Refusal> {
        match self.peek() {
            Some(byte) if !ends_a_lexeme(byte) => Err(Refusal::Unreadable { place: self.place }),
            _ => Ok(()),
        }
    }

    fn take_number(&mut self) -> Result<u64, Refusal> {
        let digits = self.take_while(|byte| byte.is_ascii_digit());
        self.expect_end_of_lexeme()?;
        let with_digit = |value: u64, digit: &u8| value.saturating_mul(10).saturating_add(u64::from(digit - b'0'));
        Ok(digits.iter().fold(0, with_digit))
    }

    fn take_letters(&mut self) -> Result<&'a [u8], Refusal> {
        let start = self.place;
        let letters = self.take_while(is_letter);
        if letters.len() > LETTERS {
            return Err(Refusal::Unreadable { place: start + LETTERS });
        }
        self.expect_end_of_lexeme()?;
        Ok(letters)
    }

    fn take_quoted_name(&mut self) -> Result<&'a [u8], Refusal> {
        self.place += 1;
        match self.peek() {
            Some(byte) if is_letter(byte) => self.take_letters(),
            _ => Err(Refusal::Unreadable { place: self.place }),
        }
    }

    fn take_brace(&mut self, kind: LexemeKind<'a>) -> LexemeKind<'a> {
        self.place += 1;
        kind
    }

    fn skip_separators_and_remarks(&mut self) {
        loop {
            self.take_while(|byte| byte == b' ' || byte == b'\n');
            if self.peek() != Some(b'%') {
                return;
            }
            self.take_while(|byte| byte != b'\n');
        }
    }

    fn next(&mut self) -> Result<Option<Lexeme<'a>>, Refusal> {
        self.skip_separators_and_remarks();
        let place = self.place;
        let Some(first) = self.peek() else { return Ok(None) };
        let kind = match first {
            b'{' => self.take_brace(LexemeKind::Open),
            b'}' => self.take_brace(LexemeKind::Close),
            b'/' => LexemeKind::QuotedName(self.take_quoted_name()?),
            _ if first.is_ascii_digit() => LexemeKind::Number(self.take_number()?),
            _ if is_letter(first) => LexemeKind::Word(self.take_letters()?),
            _ => return Err(Refusal::Unreadable { place }),
        };
        Ok(Some(Lexeme { kind, place }))
    }
}

/// All lexemes of a text whose braces match, or the first place where it cannot be read.
pub fn lexemes(text: &[u8]) -> Result<Vec<Lexeme<'_>>, Refusal> {
    let mut cursor = Cursor { text, place: 0 };
    let mut found = Vec::new();
    let mut open_braces = 0;
    while let Some(lexeme) = cursor.next()? {
        match lexeme.kind {
            LexemeKind::Open => open_braces += 1,
            LexemeKind::Close if open_braces == 0 => return Err(Refusal::Unreadable { place: lexeme.place }),
            LexemeKind::Close => open_braces -= 1,
            _ => {}
        }
        found.push(lexeme);
    }
    if open_braces > 0 {
        return Err(Refusal::Unreadable { place: text.len() });
    }
    Ok(found)
}
