//! Request 1, looked through: every program of up to so many statements, over one input, one output, one local signal and one trap, that TWICE turned away
//! before and does not now. In every state that fits and for every event rules and netlist must agree.

use crate::answers::{hex, Agreement, Program};
use crate::netlist::Netlist;
use crate::sets::{Rule, Sets};
use crate::sheet;

const INPUT: u8 = 1;
const OUTPUT: u8 = 2;
const LOCAL: u8 = 3;

/// Where a statement is still to be written: whether the trap or the local is around it, a loop, and the right side of a sequence in a loop.
#[derive(Clone, Copy, Default)]
struct Place {
    trap: bool,
    local: bool,
    looped: bool,
    behind: bool,
}

/// What was found among the programs that TWICE turned away before.
#[derive(Default)]
pub struct Search {
    pub agreement: Agreement,
    pub accepted: usize,
    pub cyclic: usize,
    bytes: Vec<u8>,
    declared: bool,
}

impl Search {
    /// All programs of up to so many statements.
    pub fn look_through(&mut self, most: usize) {
        for size in 1..=most {
            self.bytes = vec![1, 1];
            self.statement(size, &mut vec![Place::default()], false);
        }
    }

    /// Writes the next statement in all ways, `left` being how many are to come. Nothing is newly accepted unless a parallel or signal statement stands behind
    /// something in a loop: `found`.
    fn statement(&mut self, left: usize, open: &mut Vec<Place>, found: bool) {
        let Some(place) = open.pop() else {
            if left == 0 && found {
                self.whole();
            }
            return;
        };
        if left > open.len() {
            self.leaves(left, open, found, place);
            self.ones(left, open, found, place);
            self.twos(left, open, found, place);
        }
        open.push(place);
    }

    fn with(&mut self, bytes: &[u8], parts: &[Place], left: usize, open: &mut Vec<Place>, found: bool) {
        let (written, waiting) = (self.bytes.len(), open.len());
        self.bytes.extend(bytes);
        open.extend(parts.iter().rev());
        self.statement(left - 1, open, found);
        self.bytes.truncate(written);
        open.truncate(waiting);
    }

    fn leaves(&mut self, left: usize, open: &mut Vec<Place>, found: bool, place: Place) {
        self.with(&[0], &[], left, open, found);
        self.with(&[1], &[], left, open, found);
        self.with(&[2, OUTPUT], &[], left, open, found);
        if place.local {
            self.with(&[2, LOCAL], &[], left, open, found);
        }
        if place.trap {
            self.with(&[9, 2], &[], left, open, found);
        }
    }

    /// The signals that can be asked for.
    fn signals(place: Place) -> std::ops::RangeInclusive<u8> {
        0..=if place.local { LOCAL } else { OUTPUT }
    }

    fn ones(&mut self, left: usize, open: &mut Vec<Place>, found: bool, place: Place) {
        self.with(&[4], &[Place { looped: true, ..place }], left, open, found);
        for s in Self::signals(place) {
            self.with(&[6, s], &[place], left, open, found);
        }
        if !place.trap {
            self.with(&[8], &[Place { trap: true, ..place }], left, open, found);
        }
        if !self.declared {
            self.declared = true;
            self.with(&[10], &[Place { local: true, ..place }], left, open, found || place.behind);
            self.declared = false;
        }
    }

    fn twos(&mut self, left: usize, open: &mut Vec<Place>, found: bool, place: Place) {
        self.with(&[3], &[place, Place { behind: place.looped, ..place }], left, open, found);
        for s in Self::signals(place) {
            self.with(&[5, s], &[place, place], left, open, found);
        }
        self.with(&[7], &[place, place], left, open, found || place.behind);
    }

    fn whole(&mut self) {
        let sheet = sheet::read(&self.bytes).expect("a program");
        let sets = Sets::of(&sheet);
        let newly = sets.instant(&sheet).is_none() && sets.twice(&sheet, Rule::Walls).is_none() && sets.twice(&sheet, Rule::Base).is_some();
        if !newly {
            return;
        }
        let netlist = Netlist::of(&sheet, &sets);
        if netlist.check().is_err() {
            self.cyclic += 1;
            return;
        }
        self.accepted += 1;
        self.agrees(&Program { sheet, sets, netlist });
    }

    fn agrees(&mut self, program: &Program) {
        let known = self.agreement.wrong.len();
        for state in 0..2 << program.sheet.halts {
            for event in [0, 1 << INPUT] {
                let _ = self.agreement.react(program, state, event); // a state that does not fit is refused
            }
        }
        if self.agreement.wrong.len() > known {
            self.agreement.wrong[known] = format!("sheet {}, {}", hex(&self.bytes), self.agreement.wrong[known]);
        }
    }
}
