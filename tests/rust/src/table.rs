//! A packer's table, and the same with its pins in another order.

use crate::answers::decimal;
use crate::sheet::ORDER;

pub const PINS: usize = 4;

#[derive(Clone, Debug)]
pub struct Table {
    pub cell: u16,
    pub pins: Vec<u16>,
    pub truth: u16,
}

/// Five decimal numbers of 1 to 5 digits and 1 to 4 hex digits, a colon between two.
pub fn table_of(text: &[u8]) -> Option<Table> {
    let parts: Vec<&[u8]> = text.split(|b| *b == b':').collect();
    let (truth, cells) = parts.split_last()?;
    let cells: Option<Vec<u16>> = cells.iter().map(|part| u16::try_from(decimal(part, 5)?).ok()).collect();
    let (cell, pins) = cells.as_ref()?.split_first()?;
    if pins.len() != PINS || truth.is_empty() || truth.len() > 4 || !truth.iter().all(u8::is_ascii_hexdigit) {
        return None;
    }
    let truth = u16::from_str_radix(std::str::from_utf8(truth).ok()?, 16).ok()?;
    Some(Table { cell: *cell, pins: pins.to_vec(), truth })
}

/// Every list of these pins, in dictionary order.
pub fn orders(pins: &[usize]) -> Vec<Vec<usize>> {
    if pins.is_empty() {
        return vec![Vec::new()];
    }
    let mut all = Vec::new();
    for first in pins {
        let others: Vec<usize> = pins.iter().copied().filter(|p| p != first).collect();
        all.extend(orders(&others).into_iter().map(|rest| [&[*first][..], &rest[..]].concat()));
    }
    all
}

/// The new bit at a setting of the new pins is the old bit where each old pin has the value of the new pin that carries it.
pub fn reordered(table: &Table, carried: &[usize]) -> Table {
    let old = |setting: usize| -> usize { (0..PINS).map(|q| (setting >> q & 1) << carried[q]).sum() };
    let truth = (0..1 << PINS).map(|setting| (table.truth >> old(setting) & 1) << setting).sum();
    Table { cell: table.cell, pins: carried.iter().map(|p| table.pins[*p]).collect(), truth }
}

/// order N TABLE
pub fn line(order: &[u8], table: &[u8]) -> Option<String> {
    let order = u64::try_from(decimal(order, 20)?).ok()?;
    let table = table_of(table)?;
    let all: Vec<usize> = (0..PINS).collect();
    let (number, t) = match orders(&all).get(order.min(99) as usize) {
        Some(carried) => (0, reordered(&table, carried)),
        None => (ORDER, table),
    };
    let pins: Vec<String> = t.pins.iter().map(u16::to_string).collect();
    Some(format!("{number} 0 {}:{}:{:x}", t.cell, pins.join(":"), t.truth))
}
