//! Makes programs and netlist files: proper ones of all sizes, ones at a limit, damaged ones.

use crate::file::number;
use crate::netlist::Netlist;
use crate::random::Random;
use crate::sets::Sets;
use crate::sheet;

/// What a program is like.
#[derive(Clone, Copy)]
struct Taste {
    inputs: usize,
    outputs: usize,
    /// In a hundred: leaves that could be halts and are, tests that ask for a signal of the program's own, loops that end in a wait, limits that are kept,
    /// operands that are right.
    halts: usize,
    own_tests: usize,
    waits: usize,
    keeps: usize,
    right: usize,
}

struct Maker<'a> {
    random: &'a mut Random,
    taste: Taste,
    bytes: Vec<u8>,
    halts: usize,
    signals: usize,
    locals: Vec<usize>,
}

impl Maker<'_> {
    fn put(&mut self, value: usize) {
        self.bytes.extend(number(value));
    }

    /// An operand; now and then another number.
    fn put_operand(&mut self, value: usize) {
        let right = self.random.percent(self.taste.right);
        let wrong = self.random.one_of(&[0, 1, 2, 3, 4, 9, 10, 20, 63, 64, 127, 128, 300, 16383]);
        self.put(if right { value } else { wrong });
    }

    fn kept(&mut self, within: bool) -> bool {
        within || !self.random.percent(self.taste.keeps)
    }

    /// The outputs, and the locals that may be named here.
    fn own(&self) -> Vec<usize> {
        let first = 1 + self.taste.inputs;
        (first..first + self.taste.outputs).chain(self.locals.iter().copied()).collect()
    }

    fn put_test(&mut self) {
        let own = self.own();
        let s = if !own.is_empty() && self.random.percent(self.taste.own_tests) { self.random.one_of(&own) } else { self.random.below(1 + self.taste.inputs) };
        self.put_operand(s);
    }

    fn leaf(&mut self, traps: usize) {
        let own = self.own();
        match self.random.below(100) {
            0..=49 if !own.is_empty() => {
                let s = self.random.one_of(&own);
                self.put(2);
                self.put_operand(s);
            }
            50..=69 if traps > 0 => {
                let k = self.random.between(2, 1 + traps);
                self.put(9);
                self.put_operand(k);
            }
            70..=99 if self.random.percent(self.taste.halts) && self.kept_halts() => {
                self.put(1);
                self.halts += 1;
            }
            _ => self.put(0),
        }
    }

    fn kept_halts(&mut self) -> bool {
        self.kept(self.halts < 63)
    }

    /// A watching over a halt: two statements.
    fn wait(&mut self) {
        self.put(6);
        self.put_test();
        self.put(1);
        self.halts += 1;
    }

    /// A wait, or one with a leaf behind it, so that what ends and what begins meet in one instant.
    fn wait_and_more(&mut self, traps: usize) {
        let more = self.random.percent(50);
        if more {
            self.put(3);
        }
        self.wait();
        if more {
            self.leaf(traps);
        }
    }

    fn two(&mut self, kind: usize, size: usize, level: usize, traps: usize) {
        self.put(kind);
        if kind == 5 {
            self.put_test();
        }
        let left = if level > 40 { size / 2 } else { self.random.between(1, size - 2) };
        self.statement(left.max(1), level + 1, traps);
        self.statement((size - 1 - left.max(1)).max(1), level + 1, traps);
    }

    /// A loop whose body ends in a wait, or begins with one, or is anything.
    fn looped(&mut self, size: usize, level: usize, traps: usize) {
        self.put(4);
        if size < 6 || !self.kept_halts() {
            self.statement(size - 1, level + 1, traps);
        } else if self.random.percent(self.taste.waits) {
            self.put(3);
            self.statement(size - 4, level + 2, traps);
            self.wait_and_more(traps);
        } else if self.random.percent(50) {
            self.put(3);
            self.wait();
            self.statement(size - 4, level + 2, traps);
        } else {
            self.statement(size - 1, level + 1, traps);
        }
    }

    fn signal(&mut self, size: usize, level: usize, traps: usize) {
        self.put(10);
        self.locals.push(self.signals);
        self.signals += 1;
        self.statement(size - 1, level + 1, traps);
        self.locals.pop();
    }

    /// A statement of about so many statements.
    fn statement(&mut self, size: usize, level: usize, traps: usize) {
        match (size, self.random.below(14)) {
            (0 | 1, _) => self.leaf(traps),
            (2, 0..=9) if self.kept_halts() => self.wait(),
            (3.., 0..=3) => self.two(3, size, level, traps),
            (3.., 4..=5) => self.two(5, size, level, traps),
            (3.., 6..=7) => self.two(7, size, level, traps),
            (_, 8..=9) if level < 50 => self.looped(size, level, traps),
            (_, 10) if level < 50 => {
                self.put(6);
                self.put_test();
                self.statement(size - 1, level + 1, traps);
            }
            (_, 11..=12) if level < 50 && self.kept(traps < 8) => {
                self.put(8);
                self.statement(size - 1, level + 1, traps + 1);
            }
            (_, 13) if level < 50 && self.kept(self.signals < 64) => self.signal(size, level, traps),
            (2, _) => self.leaf(traps),
            _ => self.two(3, size, level, traps),
        }
    }
}

fn sheet_of(random: &mut Random, taste: Taste, body: impl FnOnce(&mut Maker)) -> Vec<u8> {
    let signals = 1 + taste.inputs + taste.outputs;
    let mut maker = Maker { random, taste, bytes: Vec::new(), halts: 0, signals, locals: Vec::new() };
    maker.put(taste.inputs);
    maker.put(taste.outputs);
    body(&mut maker);
    maker.bytes
}

fn taste(random: &mut Random) -> Taste {
    let small = random.percent(90);
    let inputs = if small { random.below(5) } else { random.below(40) };
    let outputs = if small { random.below(5) } else { random.below(63 - inputs) };
    Taste {
        inputs,
        outputs,
        halts: random.one_of(&[10, 50, 100]),
        own_tests: random.one_of(&[0, 5, 30, 60]),
        waits: random.one_of(&[100, 90, 50]),
        keeps: 100,
        right: 100,
    }
}

fn size(random: &mut Random) -> usize {
    match random.below(10) {
        0..=4 => random.between(1, 12),
        5..=7 => random.between(8, 60),
        _ => random.between(50, 250),
    }
}

/// A proper program, small, middling or large.
pub fn program(random: &mut Random) -> Vec<u8> {
    let taste = taste(random);
    let size = size(random);
    sheet_of(random, taste, |maker| maker.statement(size, 1, 0))
}

/// A program in which now and then an operand is another number, and few loops wait.
pub fn careless(random: &mut Random) -> Vec<u8> {
    let right = random.one_of(&[100, 98, 90]);
    let taste = Taste { right, waits: 20, ..taste(random) };
    let size = size(random);
    sheet_of(random, taste, |maker| maker.statement(size, 1, 0))
}

/// An arm that passes a signal on to a later one, by its presence or its absence.
fn relay_arm(maker: &mut Maker) {
    let first = 1 + maker.taste.inputs;
    let b = maker.random.between(first, maker.signals - 1);
    let a = maker.random.between(b.saturating_sub(3), b - 1);
    let arm = match maker.random.below(4) {
        0 => vec![3, 6, a, 1, 2, b],
        1 => vec![5, a, 0, 2, b],
        _ => vec![5, a, 2, b, 0],
    };
    arm.into_iter().for_each(|x| maker.put(x));
}

fn relay_arms(maker: &mut Maker, arms: usize) {
    if arms < 2 {
        return relay_arm(maker);
    }
    maker.put(7);
    relay_arms(maker, arms / 2);
    relay_arms(maker, arms - arms / 2);
}

/// Locals that hand presence on from one to the next, in any order of the arms: an interpreter that goes by rounds needs many.
pub fn relay(random: &mut Random) -> Vec<u8> {
    let (locals, arms) = (random.between(2, 30), random.between(1, 40));
    let taste = Taste { inputs: random.below(4), outputs: random.between(1, 4), halts: 50, own_tests: 0, waits: 100, keeps: 100, right: 100 };
    sheet_of(random, taste, |maker| {
        (0..locals).for_each(|_| maker.put(10));
        maker.signals += locals;
        maker.put(4);
        maker.put(3);
        relay_arms(maker, arms);
        maker.wait();
    })
}

/// A loop that waits, or does not, before a parallel or signal statement: what request 1 is about. What waits may be a parallel itself.
pub fn rounds(random: &mut Random) -> Vec<u8> {
    let taste = Taste { halts: 100, ..taste(random) };
    let (before, size) = (random.below(10), random.between(4, 20));
    sheet_of(random, taste, |maker| {
        maker.put(4);
        maker.put(3);
        match before {
            0..=6 => maker.wait(),
            7 => maker.two(7, 5, 3, 0),
            _ => maker.statement(4, 3, 0),
        }
        if maker.random.percent(70) {
            maker.two(7, size, 3, 0);
        } else {
            maker.signal(size, 3, 0);
        }
    })
}

/// So many statements of one part, each around the next, or a tree of them with so many leaves.
fn chain(maker: &mut Maker, kind: usize, length: usize, leaf: usize) {
    for _ in 0..length {
        maker.put(kind);
    }
    maker.put(leaf);
}

fn tree(maker: &mut Maker, kind: usize, leaves: usize, leaf: &[usize]) {
    if leaves < 2 {
        leaf.iter().for_each(|x| maker.put(*x));
        return;
    }
    maker.put(kind);
    tree(maker, kind, leaves / 2, leaf);
    tree(maker, kind, leaves - leaves / 2, leaf);
}

/// Eight traps around parallels of exits and waits: many codes, so many cells.
fn crowded(maker: &mut Maker) {
    let traps = maker.random.between(6, 8);
    let pairs = maker.random.between(25, 48);
    (0..traps).for_each(|_| maker.put(8));
    for i in 0..pairs {
        if i + 1 < pairs {
            maker.put(7);
        }
        let (guard, k) = (maker.random.below(1 + maker.taste.inputs), maker.random.between(2, 1 + traps));
        [3, 6, guard, 1, 9, k].iter().for_each(|x| maker.put(*x));
    }
}

fn cells(sheet: &[u8]) -> Option<usize> {
    let sheet = sheet::read(sheet).ok()?;
    Some(Netlist::of(&sheet, &Sets::of(&sheet)).cells.len())
}

/// A crowded program, with emits of one output put before it so that it has just the cells allowed, or a few more: each emit but the first is a cell.
fn near_room(random: &mut Random, taste: Taste) -> Vec<u8> {
    let want = random.between(1022, 1027);
    for _ in 0..60 {
        let base = sheet_of(random, taste, crowded);
        let missing = want - cells(&base).unwrap_or(0).min(want);
        let padding = sheet_of(random, taste, |m| {
            m.put(3);
            tree(m, 3, missing + 1, &[2, 1 + taste.inputs]);
        });
        let padded = [&padding[..], &base[2..]].concat();
        if cells(&padded) == Some(want) {
            return padded;
        }
    }
    sheet_of(random, taste, crowded)
}

/// A program at a limit or just past it.
pub fn at_limit(random: &mut Random) -> Vec<u8> {
    let past = random.below(2);
    let taste = Taste { inputs: 2, outputs: 2, halts: 50, own_tests: 5, waits: 100, keeps: 100, right: 100 };
    let locals = 59 + past;
    match random.below(10) {
        0 => sheet_of(random, taste, |m| tree(m, 7, 63 + past, &[1])),
        1 => sheet_of(random, taste, |m| tree(m, 3, 63 + past, &[1])),
        2 => sheet_of(random, taste, |m| chain(m, 4, 63 + past, 1)),
        3 => sheet_of(random, taste, |m| chain(m, 8, 8 + past, 1)),
        4 => sheet_of(random, taste, |m| chain(m, 10, locals, 0)),
        5 => sheet_of(random, taste, |m| {
            // 256 statements, or 257.
            (0..1 - past).for_each(|_| m.put(8));
            tree(m, 3, 128 + past, &[0]);
        }),
        6 => {
            let inputs = random.below(64 + past);
            let edge = Taste { inputs, outputs: 63 + past - inputs, ..taste };
            sheet_of(random, edge, |m| m.statement(30, 1, 0))
        }
        7 => sheet_of(random, Taste { keeps: 50, ..taste }, |m| m.statement(250, 1, 0)),
        8 => sheet_of(random, taste, crowded),
        _ => near_room(random, taste),
    }
}

/// A byte that a number, a kind or an operand could begin with.
fn byte(random: &mut Random) -> u8 {
    match random.below(4) {
        0 => random.below(12) as u8,
        1 => random.below(64) as u8,
        2 => 128 + random.below(4) as u8,
        _ => random.below(256) as u8,
    }
}

fn damage_once(random: &mut Random, bytes: &mut Vec<u8>) {
    let at = random.below(bytes.len() + 1);
    let new = byte(random);
    match random.below(8) {
        0..=3 if at < bytes.len() => bytes[at] = new,
        4 if at < bytes.len() => {
            bytes.remove(at);
        }
        5 => bytes.insert(at, new),
        6 => bytes.truncate(at),
        _ => bytes.push(new),
    }
}

/// The bytes with one to three of them changed, left out, put in, or cut off.
pub fn damaged(random: &mut Random, bytes: &[u8]) -> Vec<u8> {
    let mut bytes = bytes.to_vec();
    for _ in 0..random.one_of(&[1, 1, 1, 2, 3]) {
        damage_once(random, &mut bytes);
    }
    bytes
}

/// A cell of a netlist that nobody compiled: operands from below it, or from anywhere.
fn put_cell(random: &mut Random, file: &mut Vec<u8>, cell: usize, count: usize, loose: usize, registers: usize) {
    let kind = if random.percent(registers) { 6 } else { random.between(3, 5) };
    match kind {
        6 => file.push(6),
        old if random.percent(30) => file.push(old as u8),
        _ if random.percent(loose) => file.extend([7, random.below(16) as u8]),
        gate => file.extend([7, [14, 8, 2][gate - 3]]),
    }
    for _ in 0..if kind == 6 { 1 } else { 2 } {
        let any = kind == 6 || random.percent(loose);
        let x = if any { random.below(count) } else { random.below(cell) };
        file.extend(number(x));
    }
}

/// A netlist file that nobody compiled, with its cells in order or not.
pub fn netlist_file(random: &mut Random) -> Vec<u8> {
    let inputs = random.below(6);
    let outputs = random.below(6);
    let count = match random.below(20) {
        0..=14 => random.between(2 + inputs + outputs, 60),
        15..=17 => random.between(100, 400),
        18 => random.between(1000, 1024),
        _ => random.between(1024, 1026),
    };
    let loose = random.one_of(&[0, 0, 0, 1, 10]);
    let registers = random.one_of(&[5, 20, 20, 100]);
    let mut file: Vec<u8> = [inputs, outputs, count].into_iter().flat_map(number).collect();
    file.extend([0, 1]);
    for s in 1..=inputs {
        file.extend([2, s as u8]);
    }
    for cell in 2 + inputs..count {
        put_cell(random, &mut file, cell, count, loose, registers);
    }
    file
}
