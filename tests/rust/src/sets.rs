//! "Static sets": K, R, INSTANT, TWICE.

use crate::sheet::{refuse, Checked, Kind, Sheet, Stmt, INSTANT, TWICE};
use std::collections::BTreeSet;

pub type Codes = BTreeSet<usize>;

/// K and R of each statement, by its number.
pub struct Sets {
    pub k: Vec<Codes>,
    pub r: Vec<Codes>,
}

/// The statement around each, by its number, and which part of it that is.
type Ways<'a> = [Option<(&'a Stmt, usize)>];

/// TWICE as it was, and as request 1 has it.
#[derive(Clone, Copy, PartialEq, Eq)]
pub enum Rule {
    Base,
    Walls,
}

fn join(a: &Codes, b: &Codes) -> Codes {
    a.union(b).copied().collect()
}

/// "0 replaced by .."
fn replace_zero(a: &Codes, by: &Codes) -> Codes {
    let mut rest = a.clone();
    if rest.remove(&0) {
        return join(&rest, by);
    }
    rest
}

fn maxima(a: &Codes, b: &Codes) -> Codes {
    a.iter().flat_map(|x| b.iter().map(move |y| *x.max(y))).collect()
}

fn without_zero(a: &Codes) -> Codes {
    replace_zero(a, &Codes::new())
}

/// "code 0 or 2 becomes 0, 1 stays, larger codes fall by one"
pub fn trapped(code: usize) -> usize {
    match code {
        0 | 2 => 0,
        1 => 1,
        k => k - 1,
    }
}

fn trap_map(a: &Codes) -> Codes {
    a.iter().map(|c| trapped(*c)).collect()
}

impl Sets {
    pub fn of(sheet: &Sheet) -> Sets {
        let none = vec![Codes::new(); sheet.statements];
        let mut sets = Sets { k: none.clone(), r: none };
        sets.fill(&sheet.root);
        sets
    }

    fn fill(&mut self, p: &Stmt) {
        for part in &p.parts {
            self.fill(part);
        }
        self.k[p.number] = self.started(p);
        self.r[p.number] = if p.halts.is_empty() { Codes::new() } else { self.resumed(p) };
    }

    /// "p has 0 in K or R"
    pub fn may_end(&self, p: &Stmt) -> bool {
        self.k[p.number].contains(&0) || self.r[p.number].contains(&0)
    }

    fn started(&self, p: &Stmt) -> Codes {
        let k = |i: usize| &self.k[p.parts[i].number];
        match p.kind {
            Kind::Nothing | Kind::Emit(_) => Codes::from([0]),
            Kind::Halt(_) => Codes::from([1]),
            Kind::Exit(level) => Codes::from([level]),
            Kind::Sequence => replace_zero(k(0), k(1)),
            Kind::Loop => without_zero(k(0)),
            Kind::Present(_) => join(k(0), k(1)),
            Kind::Parallel => maxima(k(0), k(1)),
            Kind::Trap => trap_map(k(0)),
            Kind::Watching(_) | Kind::Signal => k(0).clone(),
        }
    }

    fn resumed(&self, p: &Stmt) -> Codes {
        let k = |i: usize| &self.k[p.parts[i].number];
        let r = |i: usize| &self.r[p.parts[i].number];
        match p.kind {
            Kind::Halt(_) => Codes::from([1]),
            Kind::Sequence => join(&replace_zero(r(0), k(1)), r(1)),
            Kind::Loop => replace_zero(r(0), &without_zero(k(0))),
            Kind::Present(_) => join(r(0), r(1)),
            Kind::Watching(_) => join(r(0), &Codes::from([0])),
            Kind::Parallel => join(&self.beside(r(0), &p.parts[1]), &self.beside(r(1), &p.parts[0])),
            Kind::Trap => trap_map(r(0)),
            Kind::Signal => r(0).clone(),
            Kind::Nothing | Kind::Emit(_) | Kind::Exit(_) => Codes::new(),
        }
    }

    /// Maxima with the sibling's R, and with 0 if the sibling has 0 in K or R.
    fn beside(&self, codes: &Codes, sibling: &Stmt) -> Codes {
        let both = maxima(codes, &self.r[sibling.number]);
        if self.may_end(sibling) {
            return join(&both, codes);
        }
        both
    }

    /// "starting its body may start X in the same instant: going down to X, a right side of a sequence is reached only if its left has 0 in K"
    fn may_start(&self, ways: &Ways, body: &Stmt, x: &Stmt) -> bool {
        let mut at = x;
        while at.number != body.number {
            let (around, side) = ways[at.number].expect("x lies in the body");
            if around.kind == Kind::Sequence && side == 1 && !self.k[around.parts[0].number].contains(&0) {
                return false;
            }
            at = around;
        }
        true
    }

    /// The climb from one statement through those around it: whether a loop is reached with 0 in C that is the fault. Before request 1 each such loop was.
    fn climbs_to_fault(&self, ways: &Ways, x: &Stmt, rule: Rule) -> bool {
        let mut codes = self.r[x.number].clone();
        let mut at = x;
        while let Some((around, side)) = ways[at.number] {
            codes = match around.kind {
                Kind::Sequence if side == 0 => replace_zero(&codes, &self.k[around.parts[1].number]),
                Kind::Parallel => self.beside(&codes, &around.parts[1 - side]),
                Kind::Trap => trap_map(&codes),
                Kind::Loop if codes.contains(&0) && (rule == Rule::Base || self.may_start(ways, at, x)) => return true,
                Kind::Loop => replace_zero(&codes, &self.k[at.number]),
                _ => codes,
            };
            at = around;
        }
        false
    }

    /// TWICE, at the first statement that has it.
    pub fn twice(&self, sheet: &Sheet, rule: Rule) -> Option<usize> {
        let list = sheet.in_order();
        let mut ways: Vec<Option<(&Stmt, usize)>> = vec![None; list.len()];
        for &p in &list {
            for (side, part) in p.parts.iter().enumerate() {
                ways[part.number] = Some((p, side));
            }
        }
        let fault = |p: &&&Stmt| matches!(p.kind, Kind::Parallel | Kind::Signal) && self.climbs_to_fault(&ways, p, rule);
        list.iter().find(fault).map(|p| p.number)
    }

    /// INSTANT, at the first loop that has it.
    pub fn instant(&self, sheet: &Sheet) -> Option<usize> {
        let fault = |p: &&&Stmt| p.kind == Kind::Loop && self.k[p.parts[0].number].contains(&0);
        sheet.in_order().iter().find(fault).map(|p| p.number)
    }

    /// INSTANT, then TWICE.
    pub fn check(&self, sheet: &Sheet) -> Checked<()> {
        if let Some(n) = self.instant(sheet) {
            return refuse(INSTANT, n);
        }
        match self.twice(sheet, Rule::Walls) {
            Some(n) => refuse(TWICE, n),
            None => Ok(()),
        }
    }
}
