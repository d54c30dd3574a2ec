//! The answer to a question, as the paper has it. On the way rules and netlist are compared (demand 3).

use crate::cover::{self, numbers_of};
use crate::file;
use crate::netlist::Netlist;
use crate::rules::{self, Guess};
use crate::sets::Sets;
use crate::sheet::{self, refuse, Checked, Fault, Sheet, BUFFER, EVENT, ROOM, STATE};
use crate::table;

/// An accepted sheet, with what was found on the way.
pub struct Program {
    pub sheet: Sheet,
    pub sets: Sets,
    pub netlist: Netlist,
}

/// Demand 3, counted: reactions in which rules and netlist were compared, those in which every set E was looked through, and what was wrong.
#[derive(Default)]
pub struct Agreement {
    pub compared: usize,
    pub searched: usize,
    pub wrong: Vec<String>,
}

/// The signals that are shown, signal s at bit s, and the next state.
pub struct Reaction {
    pub shown: u64,
    pub next: u64,
}

/// The whole check of a sheet: 1 to 12.
pub fn check(bytes: &[u8]) -> Checked<Program> {
    let sheet = sheet::read(bytes)?;
    let sets = Sets::of(&sheet);
    sets.check(&sheet)?;
    let netlist = Netlist::of(&sheet, &sets);
    if netlist.cells.len() > 1024 {
        return refuse(ROOM, 0);
    }
    netlist.check()?;
    Ok(Program { sheet, sets, netlist })
}

/// "EVENT: a bit outside 1..I"
fn event_fits(inputs: usize, event: u64) -> bool {
    (0..64).all(|bit| event >> bit & 1 == 0 || (1..=inputs).contains(&bit))
}

fn by_netlist(netlist: &Netlist, state: u64, event: u64) -> Reaction {
    let values = netlist.values(state, event);
    let shown = netlist.present(&values, netlist.output_signals());
    Reaction { shown, next: netlist.next_state(&values) }
}

impl Agreement {
    /// The rules' reaction, compared with the netlist's. Where there are too many sets to look through, the netlist proposes E.
    fn by_rules(&mut self, p: &Program, state: u64, event: u64) -> Reaction {
        let values = p.netlist.values(state, event);
        let proposed = p.netlist.present(&values, 0..p.sheet.signals);
        let y = rules::react(&p.sheet, &mut Guess::whole(proposed), state).expect("all statuses are known");
        let agreeing = rules::agreeing(&p.sheet, state, event);
        let agrees = proposed == (1 | event | y.emitted);
        let alone = !agreeing.all || agreeing.found == [y];
        let same = rules::next_state(&y) == p.netlist.next_state(&values);
        let again = rules::fits(&p.sheet, &p.sets, rules::next_state(&y));
        self.compared += 1;
        self.searched += agreeing.all as usize;
        if !(agrees && alone && same && again) {
            self.wrong.push(format!("state {state:x}, event {event:x}: agrees {agrees}, alone {alone}, same next state {same}, fits again {again}"));
        }
        let y = *agreeing.found.first().unwrap_or(&y);
        Reaction { shown: y.emitted, next: rules::next_state(&y) }
    }

    /// A reaction of an accepted sheet: EVENT, then STATE, then what the rules give.
    pub fn react(&mut self, p: &Program, state: u64, event: u64) -> Checked<Reaction> {
        if !event_fits(p.sheet.inputs, event) {
            return refuse(EVENT, 0);
        }
        if !rules::fits(&p.sheet, &p.sets, state) {
            return refuse(STATE, 0);
        }
        Ok(self.by_rules(p, state, event))
    }

    fn react_sheet(&mut self, bytes: &[u8], state: u64, event: u64) -> Checked<((usize, usize), Reaction)> {
        let p = check(bytes)?;
        let known = self.wrong.len();
        let reaction = self.react(&p, state, event)?;
        if self.wrong.len() > known {
            self.wrong[known] = format!("sheet {}, {}", hex(bytes), self.wrong[known]);
        }
        Ok(((p.sheet.statements, p.netlist.cells.len()), reaction))
    }

    /// The answer to a line.
    pub fn answer(&mut self, line: &[u8]) -> String {
        self.question(line).unwrap_or_else(|| "bad line".to_string())
    }

    fn question(&mut self, line: &[u8]) -> Option<String> {
        if line.len() > 16384 {
            return None;
        }
        let words: Vec<&[u8]> = line.split(|b| *b == b' ').collect();
        match words[..] {
            [b"rest", state] => Some(((hex_value(state)? == 1) as u32).to_string()),
            [b"read", sheet] => Some(read_line(&bytes_of(sheet)?)),
            [b"check", sheet] => Some(sheet_line(check(&bytes_of(sheet)?))),
            [b"write", sheet, length] => Some(write_line(&bytes_of(sheet)?, decimal_value(length)?)),
            [b"file", bytes] => Some(file_line(&bytes_of(bytes)?)),
            [b"fits", sheet, state] => Some(sheet_line(fits(&bytes_of(sheet)?, hex_value(state)?))),
            [b"cover", bytes, tables] => Some(cover_answer(&file::read(&bytes_of(bytes)?), &tables_of(tables)?)),
            [b"order", order, table] => table::line(order, table),
            [b"react", sheet, state, event] => {
                let (bytes, state, event) = (bytes_of(sheet)?, hex_value(state)?, hex_value(event)?);
                Some(reaction_line(self.react_sheet(&bytes, state, event), state))
            }
            [b"reactfile", bytes, state, event] => {
                let (bytes, state, event) = (bytes_of(bytes)?, hex_value(state)?, hex_value(event)?);
                Some(reaction_line(react_file(&bytes, state, event), state))
            }
            _ => None,
        }
    }
}

fn fits(bytes: &[u8], state: u64) -> Checked<Program> {
    let p = check(bytes)?;
    if !rules::fits(&p.sheet, &p.sets, state) {
        return refuse(STATE, 0);
    }
    Ok(p)
}

fn react_file(bytes: &[u8], state: u64, event: u64) -> Checked<((usize, usize), Reaction)> {
    let netlist = file::read(bytes)?;
    if !event_fits(netlist.inputs, event) {
        return refuse(EVENT, 0);
    }
    if !netlist.takes(state) {
        return refuse(STATE, 0);
    }
    Ok(((0, netlist.cells.len()), by_netlist(&netlist, state, event)))
}

fn write_line(bytes: &[u8], length: usize) -> String {
    let written = check(bytes).and_then(|p| {
        let file = file::write(&p.netlist);
        if file.len() > length {
            return refuse(BUFFER, file.len());
        }
        Ok((p, file))
    });
    match written {
        Ok((p, file)) => format!("{} {}", sheet_line(Ok(p)), hex(&file)),
        Err(fault) => format!("{} -", sheet_line(Err(fault))),
    }
}

fn refusal(fault: Fault) -> String {
    format!("{} {} 0 0", fault.number, fault.place)
}

fn sheet_line(answer: Checked<Program>) -> String {
    match answer {
        Ok(p) => format!("0 0 {} {}", p.sheet.statements, p.netlist.cells.len()),
        Err(fault) => refusal(fault),
    }
}

fn file_line(bytes: &[u8]) -> String {
    match file::read(bytes) {
        Ok(netlist) => format!("0 0 0 {}", netlist.cells.len()),
        Err(fault) => refusal(fault),
    }
}

/// The tables' numbers one after another: a comma between two tables, or `-` for none.
fn tables_of(text: &[u8]) -> Option<Vec<u16>> {
    if text == b"-" {
        return Some(Vec::new());
    }
    let tables: Option<Vec<_>> = text.split(|b| *b == b',').map(table::table_of).collect();
    Some(tables?.iter().flat_map(numbers_of).collect())
}

/// The answer to a cover of a netlist, or of what was wrong with it.
pub fn cover_answer(netlist: &Checked<Netlist>, cover: &[u16]) -> String {
    let checked = netlist.as_ref().map_err(Fault::clone).and_then(|n| cover::check(n, cover).map(|_| n.cells.len()));
    match checked {
        Ok(cells) => format!("0 0 0 {cells}"),
        Err(fault) => refusal(fault),
    }
}

fn read_line(bytes: &[u8]) -> String {
    match sheet::read(bytes) {
        Ok(s) => format!("0 0 {} {} {}", s.statements, s.halts, s.signals),
        Err(fault) => format!("{} 0", refusal(fault)),
    }
}

fn reaction_line(answer: Checked<((usize, usize), Reaction)>, state: u64) -> String {
    match answer {
        Ok(((statements, cells), r)) => format!("0 0 {statements} {cells} {:x} {:x}", r.shown, r.next),
        Err(fault) => format!("{} 0 {state:x}", refusal(fault)),
    }
}

pub fn hex(bytes: &[u8]) -> String {
    bytes.iter().map(|b| format!("{b:02x}")).collect()
}

fn digits(text: &[u8], base: u32, most: usize) -> Option<Vec<u32>> {
    if text.is_empty() || text.len() > most {
        return None;
    }
    text.iter().map(|b| (*b as char).to_digit(base)).collect()
}

/// "an even count of hex digits of either case, or `-` for no bytes"
pub fn bytes_of(text: &[u8]) -> Option<Vec<u8>> {
    if text == b"-" {
        return Some(Vec::new());
    }
    let digits = digits(text, 16, 16384)?;
    if digits.len() % 2 == 1 {
        return None;
    }
    Some(digits.chunks(2).map(|pair| (16 * pair[0] + pair[1]) as u8).collect())
}

pub fn hex_value(text: &[u8]) -> Option<u64> {
    Some(digits(text, 16, 16)?.into_iter().fold(0, |value, d| 16 * value + d as u64))
}

/// A number of at most so many decimal digits.
pub fn decimal(text: &[u8], most: usize) -> Option<u128> {
    Some(digits(text, 10, most)?.into_iter().fold(0, |value, d| 10 * value + d as u128))
}

/// A length; 8,192 where it is more.
fn decimal_value(text: &[u8]) -> Option<usize> {
    Some(decimal(text, 20)?.min(8192) as usize)
}
