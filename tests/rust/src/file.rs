//! "Netlist file: I, O, cell count, then each cell's kind and operands", a gate as kind 7 with its truth table; kinds 3 to 5 are still read.

use crate::netlist::{Cell, Netlist};
use crate::sheet::{number_at, refuse, Checked, CELL, COUNT, EXTRA, KIND};

pub fn number(value: usize) -> Vec<u8> {
    if value < 128 {
        return vec![value as u8];
    }
    vec![128 + (value % 128) as u8, (value / 128) as u8]
}

/// A cell's kind and operands, a gate's as they are written now or as they were.
fn numbers(cell: &Cell, old: bool) -> Vec<usize> {
    match *cell {
        Cell::Or(x, y) if old => vec![3, x, y],
        Cell::And(x, y) if old => vec![4, x, y],
        Cell::Butnot(x, y) if old => vec![5, x, y],
        Cell::Low => vec![0],
        Cell::High => vec![1],
        Cell::Input(s) => vec![2, s],
        Cell::Or(x, y) => vec![7, 14, x, y],
        Cell::And(x, y) => vec![7, 8, x, y],
        Cell::Butnot(x, y) => vec![7, 2, x, y],
        Cell::Register(x) => vec![6, x],
    }
}

pub fn write(netlist: &Netlist) -> Vec<u8> {
    write_as(netlist, || false)
}

/// A file in which some gates are of the old kinds.
pub fn write_as(netlist: &Netlist, mut old: impl FnMut() -> bool) -> Vec<u8> {
    let head = [netlist.inputs, netlist.outputs, netlist.cells.len()];
    let all = head.into_iter().chain(netlist.cells.iter().flat_map(|cell| numbers(cell, old())));
    all.flat_map(number).collect()
}

struct Reader<'a> {
    bytes: &'a [u8],
    at: usize,
    inputs: usize,
    count: usize,
    registers: usize,
}

impl Reader<'_> {
    fn number(&mut self) -> Checked<usize> {
        let (value, next) = number_at(self.bytes, self.at)?;
        self.at = next;
        Ok(value)
    }

    /// KIND, COUNT for a 65th register, then the kind's place: all at the kind.
    fn kind(&mut self, cell: usize) -> Checked<usize> {
        let at = self.at;
        let kind = self.number()?;
        if kind > 7 {
            return refuse(KIND, at);
        }
        if kind == 6 && self.registers == 64 {
            return refuse(COUNT, at);
        }
        let right = match cell {
            0 => kind == 0,
            1 => kind == 1,
            c if c <= self.inputs + 1 => kind == 2,
            _ => kind > 2,
        };
        if !right {
            return refuse(CELL, at);
        }
        Ok(kind)
    }

    /// An operand that is a cell; for an input it is its number.
    fn operand(&mut self, right: impl Fn(usize) -> bool) -> Checked<usize> {
        let at = self.at;
        let x = self.number()?;
        if !right(x) {
            return refuse(CELL, at);
        }
        Ok(x)
    }

    fn cell(&mut self, number: usize) -> Checked<Cell> {
        let kind = self.kind(number)?;
        let count = self.count;
        let any = |x| x < count;
        Ok(match kind {
            0 => Cell::Low,
            1 => Cell::High,
            2 => Cell::Input(self.operand(|s| 1 + s == number)?),
            3 => Cell::Or(self.operand(any)?, self.operand(any)?),
            4 => Cell::And(self.operand(any)?, self.operand(any)?),
            5 => Cell::Butnot(self.operand(any)?, self.operand(any)?),
            7 => match self.operand(|t| t == 14 || t == 8 || t == 2)? {
                14 => Cell::Or(self.operand(any)?, self.operand(any)?),
                8 => Cell::And(self.operand(any)?, self.operand(any)?),
                _ => Cell::Butnot(self.operand(any)?, self.operand(any)?),
            },
            _ => {
                self.registers += 1;
                Cell::Register(self.operand(any)?)
            }
        })
    }
}

/// Reads a netlist file: header numbers one by one, each checked before the next is read, cells in order, EXTRA, CYCLE.
pub fn read(bytes: &[u8]) -> Checked<Netlist> {
    let (inputs, second) = number_at(bytes, 0)?;
    let (outputs, third) = number_at(bytes, second)?;
    if 1 + inputs + outputs > 64 {
        return refuse(COUNT, second);
    }
    let (count, at) = number_at(bytes, third)?;
    if count > 1024 {
        return refuse(COUNT, third);
    }
    if count < 2 + inputs + outputs {
        return refuse(CELL, third);
    }
    let mut reader = Reader { bytes, at, inputs, count, registers: 0 };
    let cells = (0..count).map(|c| reader.cell(c)).collect::<Checked<Vec<_>>>()?;
    if reader.at < bytes.len() {
        return refuse(EXTRA, reader.at);
    }
    let netlist = Netlist { inputs, outputs, cells };
    netlist.check()?;
    Ok(netlist)
}
