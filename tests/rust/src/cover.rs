//! A packer's cover of a netlist: whether it is right, and what it gives by its tables alone. A cover is a list of numbers, six a table.

use crate::netlist::{Cell, Netlist};
use crate::sheet::{refuse, Checked, COVER};
use crate::table::{Table, PINS};
use std::collections::{BTreeMap, BTreeSet};

/// Cell, pins, truth table.
pub const NUMBERS: usize = 1 + PINS + 1;

pub fn numbers_of(table: &Table) -> Vec<u16> {
    [&[table.cell], &table.pins[..], &[table.truth]].concat()
}

/// A table; none where its numbers are not complete.
fn table_in(numbers: &[u16]) -> Option<Table> {
    if numbers.len() < NUMBERS {
        return None;
    }
    Some(Table { cell: numbers[0], pins: numbers[1..=PINS].to_vec(), truth: numbers[NUMBERS - 1] })
}

struct Cover<'a> {
    netlist: &'a Netlist,
    tables: Vec<Option<Table>>,
    /// The tables' cells.
    cells: BTreeSet<usize>,
}

impl<'a> Cover<'a> {
    fn of(netlist: &'a Netlist, numbers: &[u16]) -> Cover<'a> {
        let tables: Vec<Option<Table>> = numbers.chunks(NUMBERS).map(table_in).collect();
        let cells = tables.iter().flatten().map(|t| t.cell as usize).collect();
        Cover { netlist, tables, cells }
    }

    /// "is a table's cell, a register, an input or a constant"
    fn carries(&self, x: usize) -> bool {
        x < self.netlist.cells.len() && (!self.netlist.is_gate(x) || self.cells.contains(&x))
    }

    /// What is "met on the way down from the operands of the table's cell, the way ending at pins".
    fn met(&self, cell: usize, pins: &[usize]) -> BTreeSet<usize> {
        let mut met = BTreeSet::new();
        let mut todo = self.netlist.operands(cell);
        while let Some(x) = todo.pop() {
            if met.insert(x) && !pins.contains(&x) {
                todo.extend(self.netlist.operands(x));
            }
        }
        met
    }

    /// "every pin but a constant is met"; "A way down that meets a register or input which isn't a pin is a fault"
    fn well_cut(&self, cell: usize, pins: &[usize]) -> bool {
        let met = self.met(cell, pins);
        let pin_met = |x: &usize| matches!(self.netlist.cells[*x], Cell::Low | Cell::High) || met.contains(x);
        let strays = |x: &usize| matches!(self.netlist.cells[*x], Cell::Register(_) | Cell::Input(_)) && !pins.contains(x);
        pins.iter().all(pin_met) && !met.iter().any(strays)
    }

    /// The value of a cell where those that are known have theirs: the pins, to begin with.
    fn value(&self, x: usize, known: &mut BTreeMap<usize, bool>) -> bool {
        if let Some(value) = known.get(&x) {
            return *value;
        }
        let value = match self.netlist.cells[x] {
            Cell::Low => false,
            Cell::High => true,
            Cell::Or(a, b) => self.value(a, known) | self.value(b, known),
            Cell::And(a, b) => self.value(a, known) & self.value(b, known),
            Cell::Butnot(a, b) => self.value(a, known) & !self.value(b, known),
            Cell::Input(_) | Cell::Register(_) => unreachable!("it is a pin"),
        };
        known.insert(x, value);
        value
    }

    /// Whether the table has the cells' value at a setting. "One pin net given twice must carry equal values to count as a setting."
    fn equal_at(&self, setting: usize, cell: usize, pins: &[usize], truth: u16) -> bool {
        let mut known = BTreeMap::new();
        for (p, x) in pins.iter().enumerate() {
            let value = setting >> p & 1 == 1;
            if *known.entry(*x).or_insert(value) != value {
                return true;
            }
        }
        self.value(cell, &mut known) == (truth >> setting & 1 == 1)
    }

    fn right(&self, k: usize) -> bool {
        let Some(t) = &self.tables[k] else {
            return false;
        };
        let (cell, pins): (usize, Vec<usize>) = (t.cell as usize, t.pins.iter().map(|x| *x as usize).collect());
        self.netlist.is_gate(cell)
            && self.tables[..k].iter().flatten().all(|earlier| earlier.cell != t.cell)
            && pins.iter().all(|x| self.carries(*x))
            && self.well_cut(cell, &pins)
            && (0..1 << PINS).all(|setting| self.equal_at(setting, cell, &pins, t.truth))
    }

    /// "every output cell and every register's operand"
    fn asked(&self) -> Vec<usize> {
        let outputs = self.netlist.output_signals().map(|s| 1 + s);
        outputs.chain(self.netlist.register_operands()).collect()
    }
}

/// COVER: the first wrong table, or the number of tables where only an output or a register's operand lacks one.
pub fn check(netlist: &Netlist, numbers: &[u16]) -> Checked<()> {
    let cover = Cover::of(netlist, numbers);
    if let Some(k) = (0..cover.tables.len()).find(|k| !cover.right(*k)) {
        return refuse(COVER, k);
    }
    if cover.asked().iter().all(|x| cover.carries(*x)) {
        return Ok(());
    }
    refuse(COVER, cover.tables.len())
}

/// What an accepted cover gives. No gate is looked at.
pub struct Given<'a> {
    netlist: &'a Netlist,
    tables: BTreeMap<usize, Table>,
}

impl<'a> Given<'a> {
    pub fn by(netlist: &'a Netlist, numbers: &[u16]) -> Given<'a> {
        let tables = numbers.chunks(NUMBERS).filter_map(table_in).map(|t| (t.cell as usize, t)).collect();
        Given { netlist, tables }
    }

    /// "the weighted pin values name the truth-table bit"
    fn value(&self, x: usize, values: &mut Vec<Option<bool>>) -> bool {
        if let Some(value) = values[x] {
            return value;
        }
        let t = &self.tables[&x];
        let bit: usize = t.pins.iter().enumerate().map(|(p, y)| (self.value(*y as usize, values) as usize) << p).sum();
        let value = t.truth >> bit & 1 == 1;
        values[x] = Some(value);
        value
    }

    /// The outputs and the next state of a clock.
    pub fn clock(&self, state: u64, event: u64) -> (u64, u64) {
        let mut registers = 0;
        let own = |cell: &Cell| match cell {
            Cell::Low => Some(false),
            Cell::High => Some(true),
            Cell::Input(s) => Some(event >> s & 1 == 1),
            Cell::Register(_) => {
                registers += 1;
                Some(state >> (registers - 1) & 1 == 1)
            }
            Cell::Or(..) | Cell::And(..) | Cell::Butnot(..) => None,
        };
        let mut values: Vec<Option<bool>> = self.netlist.cells.iter().map(own).collect();
        let outputs = self.netlist.output_signals().map(|s| (self.value(1 + s, &mut values) as u64) << s).sum();
        let next = self.netlist.register_operands().into_iter().enumerate().map(|(bit, x)| (self.value(x, &mut values) as u64) << bit).sum();
        (outputs, next)
    }
}
