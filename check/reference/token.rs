//! Lexemes made into tokens: operators known, names numbered, bodies nested, limits of a text kept.

use crate::lexeme::{Lexeme, LexemeKind, lexemes};
use crate::refusal::Refusal;
use std::rc::Rc;

const TEXT_BYTES: usize = 1 << 24;
const TOKENS: usize = 65_536;
const NAMES: usize = 256;
const DEPTH: usize = 32;
const NUMBERS_END: u64 = 1 << 31;

/// Which operators can be done.
#[derive(Debug, Clone, Copy, PartialEq, Eq)]
pub enum Stage {
    Thin,
    Whole,
}

#[derive(Debug, Clone, Copy, PartialEq, Eq)]
pub enum Operator {
    Adds,
    Takes,
    Multiplies,
    Divides,
    IsLess,
    Copies,
    Drops,
    Swaps,
    Defines,
    Repeats,
    When,
    Moves,
    Lines,
    Fills,
    ClipsBy,
    Greys,
    Shifts,
    Scales,
    Keeps,
    Back,
    Shows,
}

impl Operator {
    /// The operator that is spelled so.
    fn from_word(word: &[u8]) -> Option<Operator> {
        Some(match word {
            b"adds" => Operator::Adds,
            b"takes" => Operator::Takes,
            b"multiplies" => Operator::Multiplies,
            b"divides" => Operator::Divides,
            b"is-less" => Operator::IsLess,
            b"copies" => Operator::Copies,
            b"drops" => Operator::Drops,
            b"swaps" => Operator::Swaps,
            b"defines" => Operator::Defines,
            b"repeats" => Operator::Repeats,
            b"when" => Operator::When,
            b"moves" => Operator::Moves,
            b"lines" => Operator::Lines,
            b"fills" => Operator::Fills,
            b"clips-by" => Operator::ClipsBy,
            b"greys" => Operator::Greys,
            b"shifts" => Operator::Shifts,
            b"scales" => Operator::Scales,
            b"keeps" => Operator::Keeps,
            b"back" => Operator::Back,
            b"shows" => Operator::Shows,
            _ => return None,
        })
    }
}

impl Stage {
    fn can_do(self, operator: Operator) -> bool {
        use Operator::{Fills, Greys, Lines, Moves, Shows};
        self == Stage::Whole || matches!(operator, Moves | Lines | Fills | Greys | Shows)
    }
}

/// The number of a name: how many other names were mentioned before its first mention.
pub type Name = usize;

/// The tokens between two braces, or of a whole job.
pub type Body = Rc<[Token]>;

#[derive(Debug, Clone, PartialEq, Eq)]
pub enum Token {
    Number(u64),
    Operator(Operator),
    Name(Name),
    QuotedName(Name),
    Body(Body),
}

/// The names of a text so far, in the order of their first mention.
#[derive(Default)]
struct Names<'a> {
    known: Vec<&'a [u8]>,
}

impl<'a> Names<'a> {
    /// The number of this name, or none if it would be one too many.
    fn number_of(&mut self, letters: &'a [u8]) -> Option<Name> {
        if let Some(number) = self.known.iter().position(|known| *known == letters) {
            return Some(number);
        }
        if self.known.len() == NAMES {
            return None;
        }
        self.known.push(letters);
        Some(self.known.len() - 1)
    }
}

/// Reads tokens one after another: the row in which the next token stands is the last one.
struct Reader<'a> {
    stage: Stage,
    names: Names<'a>,
    rows: Vec<Vec<Token>>,
}

impl<'a> Reader<'a> {
    fn open_braces(&self) -> usize {
        self.rows.len() - 1
    }

    fn push(&mut self, token: Token) {
        self.rows.last_mut().expect("the row of the job stays").push(token);
    }

    /// Takes one lexeme, or says nothing if it is beyond a limit.
    fn take(&mut self, kind: &LexemeKind<'a>) -> Option<()> {
        match *kind {
            LexemeKind::Number(value) if value < NUMBERS_END => self.push(Token::Number(value)),
            LexemeKind::Number(_) => return None,
            LexemeKind::Word(letters) => {
                let token = self.word(letters)?;
                self.push(token);
            }
            LexemeKind::QuotedName(letters) => {
                let name = self.names.number_of(letters)?;
                self.push(Token::QuotedName(name));
            }
            LexemeKind::Open if self.open_braces() < DEPTH => self.rows.push(Vec::new()),
            LexemeKind::Open => return None,
            LexemeKind::Close => {
                let body = self.rows.pop().expect("braces match");
                self.push(Token::Body(body.into()));
            }
        }
        Some(())
    }

    fn word(&mut self, letters: &'a [u8]) -> Option<Token> {
        match Operator::from_word(letters) {
            Some(operator) => self.stage.can_do(operator).then_some(Token::Operator(operator)),
            None => self.names.number_of(letters).map(Token::Name),
        }
    }
}

/// The tokens of a text, or why and where it is refused.
pub fn read(text: &[u8], stage: Stage) -> Result<Body, Refusal> {
    let found: Vec<Lexeme> = lexemes(text)?;
    if text.len() >= TEXT_BYTES {
        return Err(Refusal::BeyondLimit { place: 0 });
    }
    let mut reader = Reader { stage, names: Names::default(), rows: vec![Vec::new()] };
    for (before, lexeme) in found.iter().enumerate() {
        let refusal = Refusal::BeyondLimit { place: lexeme.place };
        if before == TOKENS {
            return Err(refusal);
        }
        reader.take(&lexeme.kind).ok_or(refusal)?;
    }
    let job = reader.rows.pop().expect("the row of the job stays");
    Ok(job.into())
}
