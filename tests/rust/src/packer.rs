//! A small packer: covers of a netlist, and covers that one thing is wrong with.

use crate::cover::{numbers_of, NUMBERS};
use crate::netlist::{Cell, Netlist};
use crate::random::Random;
use crate::table::{Table, PINS};
use std::collections::BTreeMap;

/// Pin p at each of the settings, a bit for each.
const PIN_WORDS: [u16; PINS] = [0xaaaa, 0xcccc, 0xf0f0, 0xff00];

/// The value of a cell at all settings, with those held that have a word.
fn word(netlist: &Netlist, x: usize, words: &mut BTreeMap<usize, u16>) -> u16 {
    if let Some(word) = words.get(&x) {
        return *word;
    }
    let value = match netlist.cells[x] {
        Cell::Low => 0,
        Cell::High => u16::MAX,
        Cell::Or(a, b) => word(netlist, a, words) | word(netlist, b, words),
        Cell::And(a, b) => word(netlist, a, words) & word(netlist, b, words),
        Cell::Butnot(a, b) => word(netlist, a, words) & !word(netlist, b, words),
        Cell::Input(_) | Cell::Register(_) => unreachable!("the cone ends at it"),
    };
    words.insert(x, value);
    value
}

/// The table of a cell with these pins. Where a net that is given twice would have two values any bit will do.
fn table(random: &mut Random, netlist: &Netlist, cell: usize, pins: &[usize]) -> Table {
    let (mut words, mut counts) = (BTreeMap::new(), u16::MAX);
    for (p, x) in pins.iter().enumerate() {
        counts &= !(words.entry(*x).or_insert(PIN_WORDS[p]).to_owned() ^ PIN_WORDS[p]);
    }
    let truth = word(netlist, cell, &mut words) & counts | random.word() as u16 & !counts;
    Table { cell: cell as u16, pins: pins.iter().map(|x| *x as u16).collect(), truth }
}

fn shuffle<T>(random: &mut Random, list: &mut [T]) {
    for i in (1..list.len()).rev() {
        list.swap(i, random.below(i + 1));
    }
}

/// Puts the operands of a cell into its cone as leaves. A cell inside stays inside, and a constant needs no pin.
fn add_leaves(random: &mut Random, netlist: &Netlist, x: usize, inside: &[usize], leaves: &mut Vec<usize>) {
    let needless = random.percent(80);
    for y in netlist.operands(x) {
        if !leaves.contains(&y) && !inside.contains(&y) && !(needless && y < 2) {
            leaves.push(y);
        }
    }
}

/// The leaves of a cone over a cell, four at most: a gate among them is taken in for as long as there is room.
fn leaves(random: &mut Random, netlist: &Netlist, cell: usize) -> Vec<usize> {
    let (mut inside, mut leaves) = (vec![cell], Vec::new());
    add_leaves(random, netlist, cell, &inside, &mut leaves);
    for _ in 0..random.below(12) {
        let gates: Vec<usize> = leaves.iter().copied().filter(|x| netlist.is_gate(*x)).collect();
        if gates.is_empty() {
            break;
        }
        let taken = random.one_of(&gates);
        let mut wider: Vec<usize> = leaves.iter().copied().filter(|x| *x != taken).collect();
        inside.push(taken);
        add_leaves(random, netlist, taken, &inside, &mut wider);
        if wider.len() > PINS {
            inside.pop();
        } else {
            leaves = wider;
        }
    }
    leaves
}

/// A table over a cone; pins that are left over are at a constant or at a leaf once more.
fn cone_table(random: &mut Random, netlist: &Netlist, cell: usize) -> Table {
    let mut pins = leaves(random, netlist, cell);
    let fillers: Vec<usize> = pins.iter().copied().chain([0, 1]).collect();
    while pins.len() < PINS {
        pins.push(random.one_of(&fillers));
    }
    shuffle(random, &mut pins);
    table(random, netlist, cell, &pins)
}

/// The gates at outputs and under registers.
fn asked(netlist: &Netlist) -> Vec<usize> {
    let outputs = netlist.output_signals().map(|s| 1 + s);
    outputs.chain(netlist.register_operands()).filter(|x| netlist.is_gate(*x)).collect()
}

/// A cover: tables for what is asked for, for their pins that are gates, and now and then for another gate.
pub fn pack(random: &mut Random, netlist: &Netlist) -> Vec<Table> {
    let mut todo = asked(netlist);
    let more = random.one_of(&[0, 0, 10]);
    todo.extend((0..netlist.cells.len()).filter(|x| netlist.is_gate(*x) && random.percent(more)));
    let mut tables: BTreeMap<usize, Table> = BTreeMap::new();
    while let Some(x) = todo.pop() {
        if !tables.contains_key(&x) {
            let t = cone_table(random, netlist, x);
            todo.extend(t.pins.iter().map(|p| *p as usize).filter(|p| netlist.is_gate(*p)));
            tables.insert(x, t);
        }
    }
    let mut tables: Vec<Table> = tables.into_values().collect();
    shuffle(random, &mut tables);
    tables
}

/// The kinds of fillers: each of two pins at x, at y, at low or at high.
pub const FAMILIES: usize = 16;

/// A table for each gate: its operands, two fillers of the kinds named, and the gate's truth table repeated over them.
pub fn each_gate(netlist: &Netlist, mut family: impl FnMut() -> usize) -> Vec<Table> {
    let mut tables = Vec::new();
    for cell in 0..netlist.cells.len() {
        let (x, y, truth) = match netlist.cells[cell] {
            Cell::Or(x, y) => (x, y, 0xeeee),
            Cell::And(x, y) => (x, y, 0x8888),
            Cell::Butnot(x, y) => (x, y, 0x2222),
            _ => continue,
        };
        let (kinds, fillers) = (family(), [x, y, 0, 1]);
        let pins = [x, y, fillers[kinds % 4], fillers[kinds / 4]];
        tables.push(Table { cell: cell as u16, pins: pins.iter().map(|x| *x as u16).collect(), truth });
    }
    tables
}

/// The numbers of a cover.
pub fn numbers(tables: &[Table]) -> Vec<u16> {
    tables.iter().flat_map(numbers_of).collect()
}

/// Another number of a cell, or one that is none.
fn other_number(random: &mut Random, netlist: &Netlist) -> u16 {
    let cells = netlist.cells.len();
    match random.below(8) {
        0 => cells as u16,
        1 => random.one_of(&[1023, 1024, 1025, 32767, 32768, 65535]),
        2 => random.below(65536) as u16,
        3 => random.below(2) as u16,
        _ => random.below(cells) as u16,
    }
}

/// Where some table begins. A cover without tables gets one.
fn a_table(random: &mut Random, netlist: &Netlist, cover: &mut Vec<u16>) -> usize {
    if cover.is_empty() {
        cover.extend((0..NUMBERS).map(|_| other_number(random, netlist)));
    }
    NUMBERS * random.below(cover.len() / NUMBERS)
}

fn insert(random: &mut Random, cover: &mut Vec<u16>, table: &[u16]) {
    let to = NUMBERS * random.below(cover.len() / NUMBERS + 1);
    drop(cover.splice(to..to, table.iter().copied()));
}

/// A table that hands a net on: it is at one pin, and constants at the others.
fn handing_on(random: &mut Random, cell: u16, net: u16) -> Vec<u16> {
    let p = random.below(PINS);
    let mut pins: Vec<u16> = (0..PINS).map(|_| random.below(2) as u16).collect();
    pins[p] = net;
    numbers_of(&Table { cell, pins, truth: PIN_WORDS[p] })
}

/// The truth table that no longer hears a pin: what it gave where the pin had this value.
fn deaf(truth: u16, pin: usize, value: usize) -> u16 {
    let from = |bit: usize| bit & !(1 << pin) | value << pin;
    (0..16).map(|bit| (truth >> from(bit) & 1) << bit).sum()
}

/// Spoils one thing in a cover, which may be right still.
pub type Damage = fn(&mut Random, &Netlist, &mut Vec<u16>);

pub const DAMAGES: [(&str, Damage); 16] = [
    ("a bit of a truth table", |random, netlist, cover| {
        let at = a_table(random, netlist, cover);
        cover[at + NUMBERS - 1] ^= 1 << random.below(16);
    }),
    ("a pin exchanged", |random, netlist, cover| {
        let at = a_table(random, netlist, cover);
        cover.swap(at + 1 + random.below(PINS), at + 1 + random.below(PINS));
    }),
    ("a table dropped", |random, netlist, cover| {
        let at = a_table(random, netlist, cover);
        drop(cover.drain(at..at + NUMBERS));
    }),
    ("a table doubled", |random, netlist, cover| {
        let at = a_table(random, netlist, cover);
        let again = cover[at..at + NUMBERS].to_vec();
        insert(random, cover, &again);
    }),
    ("two tables for a cell", |random, netlist, cover| {
        let at = a_table(random, netlist, cover);
        let mut again = cover[at..at + NUMBERS].to_vec();
        again[1 + random.below(NUMBERS - 1)] = other_number(random, netlist);
        insert(random, cover, &again);
    }),
    ("two tables exchanged", |random, netlist, cover| {
        let (at, to) = (a_table(random, netlist, cover), a_table(random, netlist, cover));
        (0..NUMBERS).for_each(|i| cover.swap(at + i, to + i));
    }),
    ("a cell's number", |random, netlist, cover| {
        let at = a_table(random, netlist, cover);
        cover[at] = other_number(random, netlist);
    }),
    ("a pin's number", |random, netlist, cover| {
        let at = a_table(random, netlist, cover);
        cover[at + 1 + random.below(PINS)] = other_number(random, netlist);
    }),
    ("a truth table", |random, netlist, cover| {
        let at = a_table(random, netlist, cover);
        cover[at + NUMBERS - 1] = random.word() as u16;
    }),
    ("another length", |random, _, cover| {
        let length = random.below(cover.len() + NUMBERS);
        cover.resize(length, random.below(4) as u16);
    }),
    ("no table", |_, _, cover| cover.clear()),
    ("its own cell at a pin", |random, netlist, cover| {
        let at = a_table(random, netlist, cover);
        let table = handing_on(random, cover[at], cover[at]);
        cover[at..at + NUMBERS].copy_from_slice(&table);
    }),
    ("a ring of two", |random, netlist, cover| {
        let (at, to) = (a_table(random, netlist, cover), a_table(random, netlist, cover));
        let (one, other) = (handing_on(random, cover[at], cover[to]), handing_on(random, cover[to], cover[at]));
        cover[at..at + NUMBERS].copy_from_slice(&one);
        cover[to..to + NUMBERS].copy_from_slice(&other);
    }),
    ("a table for no gate", |random, netlist, cover| {
        let others: Vec<usize> = (2..netlist.cells.len()).filter(|x| !netlist.is_gate(*x)).collect();
        let cell = if others.is_empty() || random.percent(30) { random.below(2) } else { random.one_of(&others) };
        let table = match netlist.cells[cell] {
            Cell::Low => vec![0, 1, 1, 1, 1, 0],
            Cell::High => vec![1, 0, 0, 0, 0, u16::MAX],
            Cell::Register(x) if random.percent(50) => handing_on(random, cell as u16, x as u16),
            _ => handing_on(random, cell as u16, cell as u16),
        };
        insert(random, cover, &table);
    }),
    ("a net left out", |random, netlist, cover| {
        let at = a_table(random, netlist, cover);
        let (net, value) = (cover[at + 1 + random.below(PINS)], random.below(2));
        for p in (0..PINS).filter(|p| cover[at + 1 + p] == net).collect::<Vec<_>>() {
            cover[at + 1 + p] = value as u16;
            cover[at + NUMBERS - 1] = deaf(cover[at + NUMBERS - 1], p, value);
        }
    }),
    ("a net that is not heard", |random, netlist, cover| {
        let at = a_table(random, netlist, cover);
        let p = random.below(PINS);
        cover[at + 1 + p] = random.below(netlist.cells.len()) as u16;
        cover[at + NUMBERS - 1] = deaf(cover[at + NUMBERS - 1], p, random.below(2));
    }),
];
