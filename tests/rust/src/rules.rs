//! "Reaction rules": started, resumed, which states fit, and the search for the set E that agrees with the rules.
//!
//! E is sought by asking: the rules run under a guess that knows the status of some signals only. Where they ask for another one,
//! they stop, and both answers are tried. So every set that agrees is found, and no rounds are run.

use crate::sets::{trapped, Sets};
use crate::sheet::{Kind, Sheet, Stmt};

/// What a statement yields. Emissions have signal s at bit s, halts have halt h at bit h.
#[derive(Clone, Copy, Debug, PartialEq, Eq)]
pub struct Yield {
    pub emitted: u64,
    pub code: usize,
    pub halts: u64,
}

fn code(code: usize) -> Yield {
    Yield { emitted: 0, code, halts: 0 }
}

/// The statuses that are known, and the first signal that was asked for in vain.
#[derive(Clone, Copy)]
pub struct Guess {
    known: u64,
    present: u64,
    wanted: Option<usize>,
}

impl Guess {
    pub fn whole(e: u64) -> Guess {
        Guess { known: u64::MAX, present: e, wanted: None }
    }

    fn has(&mut self, s: usize) -> Option<bool> {
        if self.known >> s & 1 == 1 {
            return Some(self.present >> s & 1 == 1);
        }
        self.wanted = Some(s);
        None
    }

    fn with(mut self, s: usize, present: bool) -> Guess {
        self.known |= 1 << s;
        self.present |= (present as u64) << s;
        self.wanted = None;
        self
    }
}

fn halts_inside(p: &Stmt, halts: u64) -> bool {
    p.halts.clone().any(|h| halts >> h & 1 == 1)
}

fn joined(first: Yield, then: Yield) -> Yield {
    Yield { emitted: first.emitted | then.emitted, ..then }
}

/// "emissions joined, the larger code, halts joined if that code is at most 1, else none"
fn beside(a: Yield, b: Yield) -> Yield {
    let code = a.code.max(b.code);
    let halts = if code <= 1 { a.halts | b.halts } else { 0 };
    Yield { emitted: a.emitted | b.emitted, code, halts }
}

pub fn start(p: &Stmt, e: &mut Guess) -> Option<Yield> {
    Some(match p.kind {
        Kind::Nothing => code(0),
        Kind::Halt(h) => Yield { emitted: 0, code: 1, halts: 1 << h },
        Kind::Emit(s) => Yield { emitted: 1 << s, code: 0, halts: 0 },
        Kind::Exit(k) => code(k),
        Kind::Sequence => match start(&p.parts[0], e)? {
            left if left.code == 0 => joined(left, start(&p.parts[1], e)?),
            left => left,
        },
        Kind::Loop | Kind::Signal | Kind::Watching(_) => start(&p.parts[0], e)?,
        Kind::Present(s) if e.has(s)? => start(&p.parts[0], e)?,
        Kind::Present(_) => start(&p.parts[1], e)?,
        Kind::Parallel => beside(start(&p.parts[0], e)?, start(&p.parts[1], e)?),
        Kind::Trap => caught(start(&p.parts[0], e)?),
    })
}

fn caught(body: Yield) -> Yield {
    Yield { code: trapped(body.code), ..body }
}

/// "only where one of the state's halts lies inside"
pub fn resume(p: &Stmt, e: &mut Guess, halts: u64) -> Option<Yield> {
    let inside = |i: usize| halts_inside(&p.parts[i], halts);
    Some(match p.kind {
        Kind::Nothing | Kind::Emit(_) | Kind::Exit(_) => unreachable!("no halt inside"),
        Kind::Halt(_) => start(p, e)?,
        Kind::Sequence if inside(0) => match resume(&p.parts[0], e, halts)? {
            left if left.code == 0 => joined(left, start(&p.parts[1], e)?),
            left => left,
        },
        Kind::Present(_) if inside(0) => resume(&p.parts[0], e, halts)?,
        Kind::Sequence | Kind::Present(_) => resume(&p.parts[1], e, halts)?,
        Kind::Loop => match resume(&p.parts[0], e, halts)? {
            body if body.code == 0 => joined(body, start(&p.parts[0], e)?),
            body => body,
        },
        Kind::Watching(s) if e.has(s)? => code(0),
        Kind::Watching(_) | Kind::Signal => resume(&p.parts[0], e, halts)?,
        Kind::Parallel => beside(side(&p.parts[0], e, halts)?, side(&p.parts[1], e, halts)?),
        Kind::Trap => caught(resume(&p.parts[0], e, halts)?),
    })
}

/// "sides with halts resumed, another side counts as 0"
fn side(p: &Stmt, e: &mut Guess, halts: u64) -> Option<Yield> {
    if halts_inside(p, halts) {
        return resume(p, e, halts);
    }
    Some(code(0))
}

/// "Boot off starts the root; boot on resumes it, or does nothing if no halt is set."
pub fn react(sheet: &Sheet, e: &mut Guess, state: u64) -> Option<Yield> {
    if state & 1 == 0 {
        return start(&sheet.root, e);
    }
    side(&sheet.root, e, state >> 1)
}

/// "The next state has boot on."
pub fn next_state(y: &Yield) -> u64 {
    1 | y.halts << 1
}

fn parts_fit(sets: &Sets, p: &Stmt, halts: u64) -> bool {
    let held: Vec<bool> = p.parts.iter().map(|part| halts_inside(part, halts)).collect();
    let here = match p.kind {
        Kind::Sequence | Kind::Present(_) => !(held[0] && held[1]),
        Kind::Parallel if held[0] != held[1] => sets.may_end(&p.parts[held[0] as usize]),
        _ => true,
    };
    here && p.parts.iter().all(|part| parts_fit(sets, part, halts))
}

/// "A state fits when .."
pub fn fits(sheet: &Sheet, sets: &Sets, state: u64) -> bool {
    if state & 1 == 0 {
        return state == 0;
    }
    let halts = state >> 1;
    halts >> sheet.halts == 0 && parts_fit(sets, &sheet.root, halts)
}

/// The yields under the sets that agree, and whether all sets were looked through.
pub struct Agreeing {
    pub found: Vec<Yield>,
    pub all: bool,
}

const MOST_TRIES: usize = 4000;

struct Search<'a> {
    sheet: &'a Sheet,
    state: u64,
    given: u64,
    tries: usize,
    found: Vec<Yield>,
}

impl Search<'_> {
    fn under(&mut self, mut guess: Guess) {
        self.tries += 1;
        if self.tries > MOST_TRIES {
            return;
        }
        match react(self.sheet, &mut guess, self.state) {
            None => {
                let s = guess.wanted.expect("a signal was asked for");
                self.under(guess.with(s, true));
                self.under(guess.with(s, false));
            }
            // What was guessed is what there is: then E is tick, the inputs and the emissions.
            Some(y) if (self.given | y.emitted) & guess.known == guess.present => self.found.push(y),
            Some(_) => {}
        }
    }
}

/// "E agrees with the rules when it holds exactly tick, the event's inputs and the emissions."
pub fn agreeing(sheet: &Sheet, state: u64, event: u64) -> Agreeing {
    let given = 1 | event;
    let known = u64::MAX >> (63 - sheet.inputs);
    let mut search = Search { sheet, state, given, tries: 0, found: Vec::new() };
    search.under(Guess { known, present: given, wanted: None });
    Agreeing { all: search.tries <= MOST_TRIES, found: search.found }
}
