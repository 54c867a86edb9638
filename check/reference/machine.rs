//! The machine: operand stack, bindings, frames, graphics state, and what each token does to them.

use crate::page::{Clips, Page, Thing};
use crate::path::{Path, Point};
use crate::token::{Body, Name, Operator, Token};
use std::collections::HashMap;
use std::rc::Rc;

const STACK: usize = 256;
const FRAMES: usize = 64;
const POINTS: usize = 1_024;
const KEPT: usize = 16;
const CLIPS: usize = 1_024;
const RESULTS_END: u64 = 1 << 31;
const COORDINATES_END: u64 = 1 << 24;
const SCALES_END: u64 = 65_536;

/// The scale at which one unit is one dot.
const DOT: u64 = 16;

/// Why a job ends before its end, by the numbers of the language.
#[derive(Debug, Clone, Copy, PartialEq, Eq)]
pub enum Fault {
    TooFewOperands = 1,
    WrongKind = 2,
    OutOfRange = 3,
    UnboundName = 4,
    NoOpenSubpath = 5,
    NothingKept = 6,
    TooMuch = 7,
    StepsUsedUp = 8,
}

/// How a job ended: by itself, or by a fault.
#[derive(Debug, Clone, Copy, PartialEq, Eq)]
pub enum Ending {
    ByItself,
    Fault(Fault),
}

impl Ending {
    pub fn number(self) -> u32 {
        match self {
            Ending::ByItself => 0,
            Ending::Fault(fault) => fault as u32,
        }
    }
}

#[derive(Debug, Clone, PartialEq, Eq)]
enum Value {
    Number(u64),
    Body(Body),
    QuotedName(Name),
}

/// Tokens that are left to run, and a body that is to be run so many times after them.
struct Frame {
    tokens: Body,
    next: usize,
    body: Body,
    again: u64,
}

impl Frame {
    fn of_job(tokens: Body) -> Frame {
        Frame { tokens, next: 0, body: Rc::new([]), again: 0 }
    }

    fn of_body(body: Body, times: u64) -> Frame {
        Frame { tokens: Rc::new([]), next: 0, body, again: times }
    }
}

#[derive(Clone)]
struct GraphicsState {
    grey: u8,
    scale: u64,
    corner: Point,
    clips: Clips,
}

impl GraphicsState {
    fn at_first() -> GraphicsState {
        GraphicsState { grey: 0, scale: DOT, corner: Point { x: 0, y: 0 }, clips: Rc::new([]) }
    }

    /// Where the point a, b of a job is on the page.
    fn place(&self, a: u64, b: u64) -> Result<Point, Fault> {
        let point = Point { x: self.corner.x + a * self.scale, y: self.corner.y + b * self.scale };
        if point.x < COORDINATES_END && point.y < COORDINATES_END { Ok(point) } else { Err(Fault::OutOfRange) }
    }

    /// What the clips in force count: one for each, and one for each of their points.
    fn clip_count(&self) -> usize {
        self.clips.iter().map(|clip| 1 + clip.points()).sum()
    }
}

/// A job that ended: its pages, its ending, and how many steps it took.
pub struct Run {
    pub pages: Vec<Page>,
    pub ending: Ending,
    pub steps: u64,
}

impl Run {
    /// How many things all pages have.
    pub fn things(&self) -> usize {
        self.pages.iter().map(|page| page.things.len()).sum()
    }

    /// How many points the paths of these have, clips not counted.
    pub fn points(&self) -> usize {
        self.pages.iter().flat_map(|page| &page.things).map(|thing| thing.path.points()).sum()
    }
}

struct Machine {
    stack: Vec<Value>,
    bindings: HashMap<Name, Value>,
    path: Path,
    state: GraphicsState,
    kept: Vec<GraphicsState>,
    painted: Page,
    pages: Vec<Page>,
    frames: Vec<Frame>,
}

/// Runs a job until it ends, or until so many steps are taken.
pub fn run(job: Body, steps: u64) -> Run {
    let mut machine = Machine::at_first(job);
    let mut taken = 0;
    let ending = loop {
        if machine.frames.is_empty() {
            break Ending::ByItself;
        }
        if taken == steps {
            break Ending::Fault(Fault::StepsUsedUp);
        }
        taken += 1;
        if let Err(fault) = machine.step() {
            break Ending::Fault(fault);
        }
    };
    Run { pages: machine.pages, ending, steps: taken }
}

impl Machine {
    fn at_first(job: Body) -> Machine {
        Machine {
            stack: Vec::new(),
            bindings: HashMap::new(),
            path: Path::default(),
            state: GraphicsState::at_first(),
            kept: Vec::new(),
            painted: Page::default(),
            pages: Vec::new(),
            frames: vec![Frame::of_job(job)],
        }
    }

    /// One step of the innermost frame: a token, a new start of its body, or its end.
    fn step(&mut self) -> Result<(), Fault> {
        let frame = self.frames.last_mut().expect("a frame is left");
        if let Some(token) = frame.tokens.get(frame.next).cloned() {
            frame.next += 1;
            self.run_token(token)
        } else if frame.again > 0 {
            frame.tokens = frame.body.clone();
            frame.next = 0;
            frame.again -= 1;
            Ok(())
        } else {
            self.frames.pop();
            Ok(())
        }
    }

    fn run_token(&mut self, token: Token) -> Result<(), Fault> {
        match token {
            Token::Number(value) => self.push(Value::Number(value)),
            Token::QuotedName(name) => self.push(Value::QuotedName(name)),
            Token::Body(body) => self.push(Value::Body(body)),
            Token::Operator(operator) => self.run_operator(operator),
            Token::Name(name) => match self.bindings.get(&name).cloned() {
                None => Err(Fault::UnboundName),
                Some(Value::Body(body)) => self.enter(body, 1),
                Some(value) => self.push(value),
            },
        }
    }

    fn run_operator(&mut self, operator: Operator) -> Result<(), Fault> {
        match operator {
            Operator::Adds => self.calculate(|a, b| Some(a + b)),
            Operator::Takes => self.calculate(|a, b| a.checked_sub(b)),
            Operator::Multiplies => self.calculate(|a, b| Some(a * b)),
            Operator::Divides => self.calculate(|a, b| a.checked_div(b)),
            Operator::IsLess => self.calculate(|a, b| Some(u64::from(a < b))),
            Operator::Copies => self.copy_top(),
            Operator::Drops => self.pop().map(drop),
            Operator::Swaps => self.swap_top(),
            Operator::Defines => self.define(),
            Operator::Repeats => self.enter_body(|n| n),
            Operator::When => self.enter_body(|n| n.min(1)),
            Operator::Moves => self.move_to(),
            Operator::Lines => self.line_to(),
            Operator::Fills => self.fill(),
            Operator::ClipsBy => self.clip(),
            Operator::Greys => self.set_grey(),
            Operator::Shifts => self.shift(),
            Operator::Scales => self.scale(),
            Operator::Keeps => self.keep(),
            Operator::Back => self.bring_back(),
            Operator::Shows => self.show(),
        }
    }

    // A fault ends the job, so no one sees what a faulting operator took off the stack.

    fn push(&mut self, value: Value) -> Result<(), Fault> {
        if self.stack.len() == STACK {
            return Err(Fault::TooMuch);
        }
        self.stack.push(value);
        Ok(())
    }

    fn pop(&mut self) -> Result<Value, Fault> {
        self.stack.pop().ok_or(Fault::TooFewOperands)
    }

    fn pop_number(&mut self) -> Result<u64, Fault> {
        match self.pop()? {
            Value::Number(value) => Ok(value),
            _ => Err(Fault::WrongKind),
        }
    }

    /// The two numbers a b, of which b is on top.
    fn pop_numbers(&mut self) -> Result<(u64, u64), Fault> {
        let b = self.pop_number()?;
        let a = self.pop_number()?;
        Ok((a, b))
    }

    /// Puts a result of two numbers on the stack; it must exist and be in range.
    fn calculate(&mut self, result: impl Fn(u64, u64) -> Option<u64>) -> Result<(), Fault> {
        let (a, b) = self.pop_numbers()?;
        match result(a, b) {
            Some(value) if value < RESULTS_END => self.push(Value::Number(value)),
            _ => Err(Fault::OutOfRange),
        }
    }

    fn copy_top(&mut self) -> Result<(), Fault> {
        let top = self.stack.last().cloned().ok_or(Fault::TooFewOperands)?;
        self.push(top)
    }

    fn swap_top(&mut self) -> Result<(), Fault> {
        let top = self.pop()?;
        let under = self.pop()?;
        self.push(top)?;
        self.push(under)
    }

    /// Both operands have to be there before the kind of the lower one is looked at.
    fn define(&mut self) -> Result<(), Fault> {
        let value = self.pop()?;
        match self.pop()? {
            Value::QuotedName(name) => {
                self.bindings.insert(name, value);
                Ok(())
            }
            _ => Err(Fault::WrongKind),
        }
    }

    fn enter(&mut self, body: Body, times: u64) -> Result<(), Fault> {
        if self.frames.len() == FRAMES {
            return Err(Fault::TooMuch);
        }
        self.frames.push(Frame::of_body(body, times));
        Ok(())
    }

    /// Takes a number and a body, and runs the body as many times as the number says.
    fn enter_body(&mut self, times: impl Fn(u64) -> u64) -> Result<(), Fault> {
        let Value::Body(body) = self.pop()? else { return Err(Fault::WrongKind) };
        let n = self.pop_number()?;
        self.enter(body, times(n))
    }

    fn expect_room_for_a_point(&self) -> Result<(), Fault> {
        if self.path.points() < POINTS { Ok(()) } else { Err(Fault::TooMuch) }
    }

    fn move_to(&mut self) -> Result<(), Fault> {
        let (a, b) = self.pop_numbers()?;
        let point = self.state.place(a, b)?;
        self.expect_room_for_a_point()?;
        self.path.begin_subpath(point);
        Ok(())
    }

    fn line_to(&mut self) -> Result<(), Fault> {
        let (a, b) = self.pop_numbers()?;
        if !self.path.has_open_subpath() {
            return Err(Fault::NoOpenSubpath);
        }
        let point = self.state.place(a, b)?;
        self.expect_room_for_a_point()?;
        self.path.add_point(point);
        Ok(())
    }

    fn fill(&mut self) -> Result<(), Fault> {
        let path = std::mem::take(&mut self.path);
        self.painted.things.push(Thing { path, clips: self.state.clips.clone(), grey: self.state.grey });
        Ok(())
    }

    fn clip(&mut self) -> Result<(), Fault> {
        if self.state.clip_count() + 1 + self.path.points() > CLIPS {
            return Err(Fault::TooMuch);
        }
        let path = Rc::new(std::mem::take(&mut self.path));
        self.state.clips = self.state.clips.iter().cloned().chain([path]).collect();
        Ok(())
    }

    fn set_grey(&mut self) -> Result<(), Fault> {
        let n = self.pop_number()?;
        self.state.grey = u8::try_from(n).map_err(|_| Fault::OutOfRange)?;
        Ok(())
    }

    fn shift(&mut self) -> Result<(), Fault> {
        let (a, b) = self.pop_numbers()?;
        self.state.corner = self.state.place(a, b)?;
        Ok(())
    }

    fn scale(&mut self) -> Result<(), Fault> {
        let n = self.pop_number()?;
        let scale = self.state.scale * n / DOT;
        if scale >= SCALES_END {
            return Err(Fault::OutOfRange);
        }
        self.state.scale = scale;
        Ok(())
    }

    fn keep(&mut self) -> Result<(), Fault> {
        if self.kept.len() == KEPT {
            return Err(Fault::TooMuch);
        }
        self.kept.push(self.state.clone());
        Ok(())
    }

    fn bring_back(&mut self) -> Result<(), Fault> {
        self.state = self.kept.pop().ok_or(Fault::NothingKept)?;
        Ok(())
    }

    fn show(&mut self) -> Result<(), Fault> {
        self.path = Path::default();
        self.pages.push(std::mem::take(&mut self.painted));
        Ok(())
    }
}
