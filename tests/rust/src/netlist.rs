//! "Equations": the cells of a sheet, CYCLE, and a netlist's run.

use crate::sets::Sets;
use crate::sheet::{refuse, Checked, Kind, Sheet, Stmt, CYCLE};

#[derive(Clone, Copy, Debug, PartialEq, Eq)]
pub enum Cell {
    Low,
    High,
    Input(usize),
    Or(usize, usize),
    And(usize, usize),
    Butnot(usize, usize),
    Register(usize),
}

#[derive(Clone, Debug, PartialEq, Eq)]
pub struct Netlist {
    pub inputs: usize,
    pub outputs: usize,
    pub cells: Vec<Cell>,
}

/// Codes 0 to 9: eight traps one in another, and those above 1+d are 0.
const CODES: usize = 10;

struct Nets {
    sel: usize,
    codes: [usize; CODES],
}

/// Go, resume, kill, and the traps around.
#[derive(Clone, Copy)]
struct Wires {
    g: usize,
    r: usize,
    i: usize,
    d: usize,
}

struct Builder<'a> {
    sets: &'a Sets,
    cells: Vec<Cell>,
    /// What each signal's cell will be the or of.
    lists: Vec<usize>,
}

fn only(code: usize, net: usize) -> Nets {
    let mut codes = [0; CODES];
    codes[code] = net;
    Nets { sel: 0, codes }
}

/// "cell 1+s is signal s"
fn signal_cell(s: usize) -> usize {
    1 + s
}

impl Builder<'_> {
    fn push(&mut self, cell: Cell) -> usize {
        self.cells.push(cell);
        self.cells.len() - 1
    }

    fn or(&mut self, x: usize, y: usize) -> usize {
        match (x, y) {
            (0, y) => y,
            (x, 0) => x,
            _ => self.push(Cell::Or(x, y)),
        }
    }

    fn and(&mut self, x: usize, y: usize) -> usize {
        if x == 0 || y == 0 {
            return 0;
        }
        self.push(Cell::And(x, y))
    }

    fn butnot(&mut self, x: usize, y: usize) -> usize {
        if x == 0 || y == 0 {
            return x;
        }
        self.push(Cell::Butnot(x, y))
    }

    fn statement(&mut self, p: &Stmt, w: Wires) -> Nets {
        match p.kind {
            Kind::Nothing => only(0, w.g),
            Kind::Exit(k) => only(k, w.g),
            Kind::Emit(s) => {
                self.lists[s] = self.or(self.lists[s], w.g);
                only(0, w.g)
            }
            Kind::Halt(_) => self.halt(w),
            Kind::Sequence => self.sequence(p, w),
            Kind::Loop => self.looped(p, w),
            Kind::Present(s) => self.present(p, signal_cell(s), w),
            Kind::Watching(s) => self.watching(p, signal_cell(s), w),
            Kind::Parallel => self.parallel(p, w),
            Kind::Trap => self.trap(p, w),
            Kind::Signal => self.statement(&p.parts[0], w),
        }
    }

    fn halt(&mut self, w: Wires) -> Nets {
        let h = self.push(Cell::Register(0));
        let x = self.and(w.r, h);
        let v = self.or(w.g, x);
        let last = self.butnot(v, w.i);
        self.cells[h] = Cell::Register(last);
        Nets { sel: h, ..only(1, v) }
    }

    /// "codes or'ed upward" from the one named.
    fn or_codes(&mut self, from: usize, d: usize, p: &Nets, q: &Nets) -> [usize; CODES] {
        let mut codes = q.codes;
        for j in from..=1 + d {
            codes[j] = self.or(p.codes[j], q.codes[j]);
        }
        codes
    }

    fn sequence(&mut self, p: &Stmt, w: Wires) -> Nets {
        let left = self.statement(&p.parts[0], w);
        let right = self.statement(&p.parts[1], Wires { g: left.codes[0], ..w });
        let sel = self.or(left.sel, right.sel);
        Nets { sel, codes: self.or_codes(1, w.d, &left, &right) }
    }

    fn looped(&mut self, p: &Stmt, w: Wires) -> Nets {
        let g = self.push(Cell::Or(w.g, 0));
        let mut body = self.statement(&p.parts[0], Wires { g, ..w });
        self.cells[g] = Cell::Or(w.g, body.codes[0]);
        body.codes[0] = 0;
        body
    }

    fn present(&mut self, p: &Stmt, s: usize, w: Wires) -> Nets {
        let yes = self.and(w.g, s);
        let no = self.butnot(w.g, s);
        let left = self.statement(&p.parts[0], Wires { g: yes, ..w });
        let right = self.statement(&p.parts[1], Wires { g: no, ..w });
        let sel = self.or(left.sel, right.sel);
        Nets { sel, codes: self.or_codes(0, w.d, &left, &right) }
    }

    fn watching(&mut self, p: &Stmt, s: usize, w: Wires) -> Nets {
        let a = self.butnot(w.r, s);
        let mut body = self.statement(&p.parts[0], Wires { r: a, ..w });
        let alive = self.and(w.r, body.sel);
        let over = self.and(alive, s);
        body.codes[0] = self.or(body.codes[0], over);
        body
    }

    fn parallel(&mut self, p: &Stmt, w: Wires) -> Nets {
        let kill = self.push(Cell::Or(w.i, 0));
        let left = self.statement(&p.parts[0], Wires { i: kill, ..w });
        let right = self.statement(&p.parts[1], Wires { i: kill, ..w });
        let sel = self.or(left.sel, right.sel);
        let mut codes = [0; CODES];
        let mut x = 0;
        for j in (0..=1 + w.d).rev() {
            let m = self.or(left.codes[j], right.codes[j]);
            if self.sets.k[p.number].contains(&j) || self.sets.r[p.number].contains(&j) {
                codes[j] = self.butnot(m, x);
            }
            if j > 0 {
                x = self.or(x, m);
            }
            if j == 2 {
                self.cells[kill] = Cell::Or(w.i, x);
            }
        }
        Nets { sel, codes }
    }

    fn trap(&mut self, p: &Stmt, w: Wires) -> Nets {
        let body = self.statement(&p.parts[0], Wires { d: w.d + 1, ..w });
        let mut codes = [0; CODES];
        codes[0] = self.or(body.codes[0], body.codes[2]);
        codes[1] = body.codes[1];
        for j in 2..=1 + w.d {
            codes[j] = body.codes[j + 1];
        }
        Nets { sel: body.sel, codes }
    }
}

impl Netlist {
    pub fn of(sheet: &Sheet, sets: &Sets) -> Netlist {
        let n = sheet.signals;
        let mut cells = vec![Cell::Low, Cell::High];
        cells.extend((1..=sheet.inputs).map(Cell::Input));
        cells.resize(n + 1, Cell::Or(0, 0));
        cells.push(Cell::Register(1));
        cells.push(Cell::Butnot(1, n + 1));
        let mut builder = Builder { sets, cells, lists: vec![0; n] };
        builder.statement(&sheet.root, Wires { g: n + 2, r: 1, i: 0, d: 0 });
        let Builder { mut cells, lists, .. } = builder;
        for s in 1 + sheet.inputs..n {
            cells[signal_cell(s)] = Cell::Or(lists[s], 0);
        }
        Netlist { inputs: sheet.inputs, outputs: sheet.outputs, cells }
    }

    /// Whether a number is that of a gate, "kind 3 to 5".
    pub fn is_gate(&self, cell: usize) -> bool {
        matches!(self.cells.get(cell), Some(Cell::Or(..) | Cell::And(..) | Cell::Butnot(..)))
    }

    /// The cells that a cell's value hangs on in the same clock: a register ends a way.
    pub fn operands(&self, cell: usize) -> Vec<usize> {
        match self.cells[cell] {
            Cell::Or(x, y) | Cell::And(x, y) | Cell::Butnot(x, y) => vec![x, y],
            _ => Vec::new(),
        }
    }

    fn reaches_itself(&self, cell: usize) -> bool {
        let mut seen = vec![false; self.cells.len()];
        let mut todo = self.operands(cell);
        while let Some(c) = todo.pop() {
            if !std::mem::replace(&mut seen[c], true) {
                todo.extend(self.operands(c));
            }
        }
        seen[cell]
    }

    /// Whether every cell gets its turn when a cell's turn comes as soon as its operands have had theirs.
    fn settles(&self) -> bool {
        let mut waiting: Vec<usize> = (0..self.cells.len()).map(|c| self.operands(c).len()).collect();
        let mut users = vec![Vec::new(); self.cells.len()];
        for c in 0..self.cells.len() {
            for x in self.operands(c) {
                users[x].push(c);
            }
        }
        let mut ready: Vec<usize> = (0..self.cells.len()).filter(|c| waiting[*c] == 0).collect();
        let mut done = 0;
        while let Some(c) = ready.pop() {
            done += 1;
            for &u in &users[c] {
                waiting[u] -= 1;
                if waiting[u] == 0 {
                    ready.push(u);
                }
            }
        }
        done == self.cells.len()
    }

    /// CYCLE: the lowest cell that reaches itself. Looked for only where there is one, since it takes long.
    pub fn check(&self) -> Checked<()> {
        if self.settles() {
            return Ok(());
        }
        let lowest = (0..self.cells.len()).find(|c| self.reaches_itself(*c));
        refuse(CYCLE, lowest.expect("cells that do not settle have a cycle"))
    }

    pub fn registers(&self) -> usize {
        self.cells.iter().filter(|c| matches!(c, Cell::Register(_))).count()
    }

    /// "bits past its registers"
    pub fn takes(&self, state: u64) -> bool {
        (self.registers()..64).all(|bit| state >> bit & 1 == 0)
    }

    /// The value of every cell in one clock.
    pub fn values(&self, state: u64, event: u64) -> Vec<bool> {
        let mut values = vec![None; self.cells.len()];
        let mut registers = 0;
        for (c, cell) in self.cells.iter().enumerate() {
            if let Cell::Register(_) = cell {
                values[c] = Some(state >> registers & 1 == 1);
                registers += 1;
            }
        }
        (0..self.cells.len()).map(|c| self.value(c, event, &mut values)).collect()
    }

    fn value(&self, cell: usize, event: u64, values: &mut Vec<Option<bool>>) -> bool {
        if let Some(value) = values[cell] {
            return value;
        }
        let value = match self.cells[cell] {
            Cell::Low => false,
            Cell::High => true,
            Cell::Input(s) => event >> s & 1 == 1,
            Cell::Or(x, y) => self.value(x, event, values) | self.value(y, event, values),
            Cell::And(x, y) => self.value(x, event, values) & self.value(y, event, values),
            Cell::Butnot(x, y) => self.value(x, event, values) & !self.value(y, event, values),
            Cell::Register(_) => unreachable!("a register's value is the state's"),
        };
        values[cell] = Some(value);
        value
    }

    /// The signals whose cells are high, signal s at bit s, among those named.
    pub fn present(&self, values: &[bool], signals: std::ops::Range<usize>) -> u64 {
        signals.map(|s| (values[signal_cell(s)] as u64) << s).sum()
    }

    pub fn output_signals(&self) -> std::ops::Range<usize> {
        1 + self.inputs..1 + self.inputs + self.outputs
    }

    /// The operands of the registers, in cell order.
    pub fn register_operands(&self) -> Vec<usize> {
        let operand = |cell: &Cell| match cell {
            Cell::Register(x) => Some(*x),
            _ => None,
        };
        self.cells.iter().filter_map(operand).collect()
    }

    /// "Registers in cell order are bits 0, 1, .. of the state."
    pub fn next_state(&self, values: &[bool]) -> u64 {
        self.register_operands().into_iter().enumerate().map(|(bit, x)| (values[x] as u64) << bit).sum()
    }
}
