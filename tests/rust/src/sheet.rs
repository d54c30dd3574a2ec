//! "The sheet": numbers, statements, and the reader with its refusals 1 to 8.

use std::ops::Range;

#[derive(Clone, Copy, Debug, PartialEq, Eq)]
pub struct Fault {
    pub number: u32,
    pub place: usize,
}

pub type Checked<T> = Result<T, Fault>;

pub const SHORT: u32 = 1;
pub const NUMBER: u32 = 2;
pub const KIND: u32 = 3;
pub const COUNT: u32 = 4;
pub const SCOPE: u32 = 5;
pub const EMIT: u32 = 6;
pub const EXIT: u32 = 7;
pub const EXTRA: u32 = 8;
pub const INSTANT: u32 = 9;
pub const TWICE: u32 = 10;
pub const ROOM: u32 = 11;
pub const CYCLE: u32 = 12;
pub const EVENT: u32 = 13;
pub const STATE: u32 = 14;
pub const BUFFER: u32 = 15;
pub const CELL: u32 = 16;
pub const COVER: u32 = 19;
pub const ORDER: u32 = 20;

pub fn refuse<T>(number: u32, place: usize) -> Checked<T> {
    Err(Fault { number, place })
}

#[derive(Clone, Copy, Debug, PartialEq, Eq)]
pub enum Kind {
    Nothing,
    Halt(usize),
    Emit(usize),
    Sequence,
    Loop,
    Present(usize),
    Watching(usize),
    Parallel,
    Trap,
    Exit(usize),
    Signal,
}

/// A statement: its number in reading order, the halts inside, its parts from left to right.
#[derive(Debug)]
pub struct Stmt {
    pub number: usize,
    pub kind: Kind,
    pub halts: Range<usize>,
    pub parts: Vec<Stmt>,
}

#[derive(Debug)]
pub struct Sheet {
    pub inputs: usize,
    pub outputs: usize,
    pub statements: usize,
    pub halts: usize,
    /// Tick, inputs, outputs and locals.
    pub signals: usize,
    pub root: Stmt,
}

/// "A number is one byte below 128, or two bytes": its value, and the offset behind it.
pub fn number_at(bytes: &[u8], at: usize) -> Checked<(usize, usize)> {
    let Some(&low) = bytes.get(at) else {
        return refuse(SHORT, at);
    };
    if low < 128 {
        return Ok((low as usize, at + 1));
    }
    match bytes.get(at + 1) {
        None => refuse(SHORT, at),
        Some(&high) if high == 0 || high > 127 => refuse(NUMBER, at),
        Some(&high) => Ok((low as usize - 128 + 128 * high as usize, at + 2)),
    }
}

/// What a statement sees of those around it: its level, the traps around it, the locals it may name.
#[derive(Clone)]
struct Around {
    level: usize,
    traps: usize,
    locals: Vec<usize>,
}

impl Around {
    fn inside(&self) -> Around {
        Around { level: self.level + 1, ..self.clone() }
    }
}

struct Reader<'a> {
    bytes: &'a [u8],
    at: usize,
    inputs: usize,
    outputs: usize,
    statements: usize,
    halts: usize,
    signals: usize,
}

impl Reader<'_> {
    fn number(&mut self) -> Checked<usize> {
        let (value, next) = number_at(self.bytes, self.at)?;
        self.at = next;
        Ok(value)
    }

    fn signal(&mut self, around: &Around) -> Checked<usize> {
        let at = self.at;
        let s = self.number()?;
        if s <= self.inputs + self.outputs || around.locals.contains(&s) {
            return Ok(s);
        }
        refuse(SCOPE, at)
    }

    fn emitted(&mut self, around: &Around) -> Checked<usize> {
        let at = self.at;
        let s = self.signal(around)?;
        if s <= self.inputs {
            return refuse(EMIT, at);
        }
        Ok(s)
    }

    fn exit(&mut self, around: &Around) -> Checked<usize> {
        let at = self.at;
        let k = self.number()?;
        if k < 2 || k > 1 + around.traps {
            return refuse(EXIT, at);
        }
        Ok(k)
    }

    /// KIND and COUNT stand at the kind; then the operand is read.
    fn kind(&mut self, around: &Around) -> Checked<Kind> {
        let at = self.at;
        let code = self.number()?;
        let full = match code {
            1 => self.halts == 63,
            8 => around.traps == 8,
            10 => self.signals == 64,
            _ => false,
        };
        if full {
            return refuse(COUNT, at);
        }
        Ok(match code {
            0 => Kind::Nothing,
            1 => Kind::Halt(self.halts),
            2 => Kind::Emit(self.emitted(around)?),
            3 => Kind::Sequence,
            4 => Kind::Loop,
            5 => Kind::Present(self.signal(around)?),
            6 => Kind::Watching(self.signal(around)?),
            7 => Kind::Parallel,
            8 => Kind::Trap,
            9 => Kind::Exit(self.exit(around)?),
            10 => Kind::Signal,
            _ => return refuse(KIND, at),
        })
    }

    fn statement(&mut self, around: &Around) -> Checked<Stmt> {
        if self.statements == 256 || around.level > 64 {
            return refuse(COUNT, self.at);
        }
        let number = self.statements;
        self.statements += 1;
        let kind = self.kind(around)?;
        let first = self.halts;
        let mut inner = around.inside();
        let count = match kind {
            Kind::Nothing | Kind::Emit(_) | Kind::Exit(_) => 0,
            Kind::Halt(_) => {
                self.halts += 1;
                0
            }
            Kind::Sequence | Kind::Present(_) | Kind::Parallel => 2,
            Kind::Loop | Kind::Watching(_) => 1,
            Kind::Trap => {
                inner.traps += 1;
                1
            }
            Kind::Signal => {
                inner.locals.push(self.signals);
                self.signals += 1;
                1
            }
        };
        let parts = (0..count).map(|_| self.statement(&inner)).collect::<Checked<Vec<_>>>()?;
        Ok(Stmt { number, kind, halts: first..self.halts, parts })
    }
}

/// Reads a sheet, left to right; the first fault answers.
pub fn read(bytes: &[u8]) -> Checked<Sheet> {
    let (inputs, second) = number_at(bytes, 0)?;
    let (outputs, at) = number_at(bytes, second)?;
    let signals = 1 + inputs + outputs;
    if signals > 64 {
        return refuse(COUNT, second);
    }
    let mut reader = Reader { bytes, at, inputs, outputs, statements: 0, halts: 0, signals };
    let root = reader.statement(&Around { level: 1, traps: 0, locals: Vec::new() })?;
    if reader.at < bytes.len() {
        return refuse(EXTRA, reader.at);
    }
    let Reader { statements, halts, signals, .. } = reader;
    Ok(Sheet { inputs, outputs, statements, halts, signals, root })
}

fn in_order<'a>(p: &'a Stmt, list: &mut Vec<&'a Stmt>) {
    list.push(p);
    for part in &p.parts {
        in_order(part, list);
    }
}

impl Sheet {
    /// All statements, in reading order.
    pub fn in_order(&self) -> Vec<&Stmt> {
        let mut list = Vec::new();
        in_order(&self.root, &mut list);
        list
    }
}
