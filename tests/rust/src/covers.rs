//! Covers put to the C library: the packer's, one table a gate, and damaged ones. Each answer is compared with the check in `cover`, and what an accepted cover
//! gives by its tables with the reaction of the file.

use crate::answers::{check, cover_answer, hex};
use crate::cover::{numbers_of, Given};
use crate::file;
use crate::make;
use crate::netlist::{Cell, Netlist};
use crate::packer::{self, DAMAGES, FAMILIES};
use crate::random::Random;
use crate::sheet::Checked;
use crate::table::{orders, reordered, Table, PINS};
use std::collections::BTreeMap;

const ANOTHER_COVER: &str = "the cover of another netlist";
const ANOTHER_FILE: &str = "another file";

/// A question about a netlist, and what the model answers.
struct Question {
    netlist: String,
    line: String,
    expected: String,
}

/// What was asked, and how it came out: accepted and refused, by what was tried.
#[derive(Default)]
pub struct Covers {
    pub netlists: usize,
    pub gates: usize,
    pub tables: usize,
    pub reactions: usize,
    pub compared: usize,
    pub differing: Vec<String>,
    pub tried: BTreeMap<&'static str, (usize, usize)>,
    input: Vec<String>,
    questions: Vec<Question>,
}

/// A table's order is asked of the library before its cover is.
struct Packed {
    netlist: Netlist,
    tables: Vec<Table>,
    orders: Vec<usize>,
}

/// A netlist that is accepted, of a program or one that nobody compiled.
pub fn netlist(random: &mut Random) -> Netlist {
    loop {
        let sheet = match random.below(20) {
            0..=1 => make::relay(random),
            2..=3 => make::rounds(random),
            4 => make::at_limit(random),
            5..=11 => make::program(random),
            _ => {
                if let Ok(netlist) = file::read(&make::netlist_file(random)) {
                    return netlist;
                }
                continue;
            }
        };
        if let Ok(p) = check(&sheet) {
            return p.netlist;
        }
    }
}

/// kind + 8 x + 524288 y
fn word(cell: &Cell) -> usize {
    let (kind, x, y) = match *cell {
        Cell::Low => (0, 0, 0),
        Cell::High => (1, 0, 0),
        Cell::Input(s) => (2, s, 0),
        Cell::Or(x, y) => (3, x, y),
        Cell::And(x, y) => (4, x, y),
        Cell::Butnot(x, y) => (5, x, y),
        Cell::Register(x) => (6, x, 0),
    };
    kind + 8 * x + 524288 * y
}

fn words<T: ToString>(list: impl IntoIterator<Item = T>) -> String {
    list.into_iter().map(|x| format!(" {}", x.to_string())).collect()
}

fn any_state(random: &mut Random, netlist: &Netlist) -> u64 {
    random.word() & u64::MAX.checked_shr(64 - netlist.registers() as u32).unwrap_or(0)
}

impl Covers {
    /// So many netlists. `ask` hands lines to the library.
    pub fn compare(&mut self, random: &mut Random, netlists: usize, ask: &impl Fn(&[String]) -> Vec<String>) {
        let list: Vec<Packed> = (0..netlists).map(|_| self.pack(random)).collect();
        let asked: Vec<String> = list.iter().flat_map(|p| p.tables.iter().zip(&p.orders).map(|(t, o)| format!("order {o}{}", words(numbers_of(t))))).collect();
        let mut answers = ask(&asked).into_iter();
        let mut another = Vec::new();
        for p in &list {
            let cover = self.take_orders(p, &mut answers);
            self.about(random, &p.netlist, &cover, &another);
            another = cover;
        }
        let answers = ask(&std::mem::take(&mut self.input));
        self.take_answers(&answers);
    }

    fn pack(&mut self, random: &mut Random) -> Packed {
        let netlist = netlist(random);
        let tables = packer::pack(random, &netlist);
        let orders = tables.iter().map(|_| random.below(24)).collect();
        self.netlists += 1;
        self.gates += (0..netlist.cells.len()).filter(|x| netlist.is_gate(*x)).count();
        self.tables += tables.len();
        Packed { netlist, tables, orders }
    }

    fn compare_one(&mut self, netlist: &str, line: &str, expected: &str, got: &str) {
        self.compared += 1;
        if got != expected {
            self.differing.push(format!("{line}\n    the model: {expected}\n    answered:  {got}\n    of {netlist}"));
        }
    }

    /// The cover with its tables as the library has reordered them.
    fn take_orders(&mut self, p: &Packed, answers: &mut impl Iterator<Item = String>) -> Vec<u16> {
        let all = orders(&(0..PINS).collect::<Vec<_>>());
        let mut cover = Vec::new();
        for (t, o) in p.tables.iter().zip(&p.orders) {
            let got = answers.next().unwrap_or_default();
            let expected = format!("0 0{}", words(numbers_of(&reordered(t, &all[*o]))));
            self.compare_one("a table", &format!("order {o}{}", words(numbers_of(t))), &expected, &got);
            cover.extend(got.split(' ').skip(2).filter_map(|x| x.parse::<u16>().ok()));
        }
        cover
    }

    /// Hands a netlist in: its file, and its words where it is accepted. Answers how it is named in a difference.
    fn hand_in(&mut self, bytes: &[u8], netlist: Option<&Netlist>) -> String {
        let file = format!("file {}", hex(bytes));
        self.input.push(file.clone());
        if let Some(n) = netlist {
            self.input.push(format!("words {} {}{}", n.inputs, n.outputs, words(n.cells.iter().map(word))));
        }
        file
    }

    fn ask(&mut self, netlist: &str, line: String, expected: String) {
        self.input.push(line.clone());
        self.questions.push(Question { netlist: netlist.to_string(), line, expected });
    }

    /// A cover. Whether the model accepts it.
    fn ask_cover(&mut self, what: &'static str, of: &str, netlist: &Checked<Netlist>, words_too: bool, numbers: &[u16]) -> bool {
        let once = cover_answer(netlist, numbers);
        let accepted = once.starts_with("0 ");
        let counts = self.tried.entry(what).or_default();
        *(if accepted { &mut counts.0 } else { &mut counts.1 }) += 1;
        let expected = if words_too { format!("{once} {once}") } else { once };
        self.ask(of, format!("cover{}", words(numbers)), expected);
        accepted
    }

    /// One that has to be accepted.
    fn ask_good(&mut self, what: &'static str, of: &str, netlist: &Checked<Netlist>, numbers: &[u16]) {
        if !self.ask_cover(what, of, netlist, true, numbers) {
            self.differing.push(format!("{of}: the check of the model refuses {what}: {numbers:?}"));
        }
    }

    /// One that may be refused.
    fn ask_doubtful(&mut self, random: &mut Random, what: &'static str, of: &str, netlist: &Checked<Netlist>, numbers: &[u16]) {
        if let (true, Ok(n)) = (self.ask_cover(what, of, netlist, true, numbers), netlist) {
            let state = any_state(random, n);
            self.ask_clocks(random, of, n, numbers, state, 1);
        }
    }

    /// What an accepted cover gives by its tables is what the file gives, in so many clocks from a state on.
    fn ask_clocks(&mut self, random: &mut Random, of: &str, netlist: &Netlist, numbers: &[u16], mut state: u64, clocks: usize) {
        let given = Given::by(netlist, numbers);
        for _ in 0..clocks {
            let event = random.word() & ((2u64 << netlist.inputs.min(62)) - 2);
            let (outputs, next) = given.clock(state, event);
            self.ask(of, format!("react {state:x} {event:x}"), format!("0 0 0 {} {outputs:x} {next:x}", netlist.cells.len()));
            self.reactions += 1;
            state = next;
        }
    }

    fn about(&mut self, random: &mut Random, n: &Netlist, cover: &[u16], another: &[u16]) {
        let bytes = file::write(n);
        let of = self.hand_in(&bytes, Some(n));
        let netlist = Ok(n.clone());
        self.ask_good("packed", &of, &netlist, cover);
        self.ask_clocks(random, &of, n, cover, 0, 6);
        let state = any_state(random, n);
        self.ask_clocks(random, &of, n, cover, state, 2);
        self.about_each_gate(random, &of, &netlist);
        for (what, damage) in DAMAGES {
            let mut numbers = cover.to_vec();
            damage(random, n, &mut numbers);
            self.ask_doubtful(random, what, &of, &netlist, &numbers);
        }
        self.ask_doubtful(random, ANOTHER_COVER, &of, &netlist, another);
        let bytes = make::damaged(random, &bytes);
        let of = self.hand_in(&bytes, None);
        self.ask_cover(ANOTHER_FILE, &of, &file::read(&bytes), false, cover);
    }

    /// One table for every gate, with every family of fillers where there are not many gates; and with the fillers of each table its own.
    fn about_each_gate(&mut self, random: &mut Random, of: &str, netlist: &Checked<Netlist>) {
        let Ok(n) = netlist else {
            return;
        };
        let few = n.cells.len() <= 60;
        for family in (0..FAMILIES).filter(|_| few || random.percent(15)).collect::<Vec<_>>() {
            let numbers = packer::numbers(&packer::each_gate(n, || family));
            self.ask_good("one table a gate", of, netlist, &numbers);
        }
        let numbers = packer::numbers(&packer::each_gate(n, || random.below(FAMILIES)));
        self.ask_good("one table a gate", of, netlist, &numbers);
        self.ask_clocks(random, of, n, &numbers, 0, 2);
    }

    /// What was tried and never refused, though it should be now and then.
    pub fn never_refused(&self) -> Vec<&str> {
        let damages = DAMAGES.iter().map(|(what, _)| *what);
        damages.chain([ANOTHER_COVER, ANOTHER_FILE]).filter(|what| self.tried.get(what).map_or(true, |counts| counts.1 == 0)).collect()
    }

    fn take_answers(&mut self, answers: &[String]) {
        let questions = std::mem::take(&mut self.questions);
        let none = "(no line)".to_string();
        for (i, q) in questions.iter().enumerate() {
            self.compare_one(&q.netlist, &q.line, &q.expected, answers.get(i).unwrap_or(&none));
        }
        if answers.len() > questions.len() {
            self.differing.push(format!("{} lines more than questions", answers.len() - questions.len()));
        }
    }
}
