//! "Trace program": what it prints for an input, and inputs to try.

use crate::answers::{bytes_of, check, hex, hex_value, Agreement, Program};
use crate::make;
use crate::random::Random;

fn lines(input: &[u8]) -> Vec<&[u8]> {
    let input = input.strip_suffix(b"\n").unwrap_or(input);
    input.split(|b| *b == b'\n').collect()
}

/// "a sheet line has an even count of digits" and up to 2,048; a line without any is a sheet of no bytes.
fn sheet_of(line: &[u8]) -> Option<Vec<u8>> {
    match line.len() {
        0 => Some(Vec::new()),
        1..=2048 if line != b"-" => bytes_of(line),
        _ => None,
    }
}

/// All that the trace program prints.
pub fn printed(input: &[u8], agreement: &mut Agreement) -> String {
    if input.is_empty() {
        return String::new();
    }
    let lines = lines(input);
    match sheet_of(lines[0]).map(|sheet| check(&sheet)) {
        None => "bad line\n".to_string(),
        Some(Err(fault)) => format!("no {} {}\n", fault.number, fault.place),
        Some(Ok(p)) => {
            let head = format!("ok {} {}\n", p.sheet.statements, p.netlist.cells.len());
            head + &instants(&p, &lines[1..], agreement)
        }
    }
}

fn instants(p: &Program, events: &[&[u8]], agreement: &mut Agreement) -> String {
    let outputs: u64 = p.netlist.output_signals().map(|s| 1 << s).sum();
    let (mut state, mut instant, mut text) = (0, 1, String::new());
    for line in events {
        let Some(event) = hex_value(line) else {
            return text + "bad line\n";
        };
        match agreement.react(p, state, event) {
            Err(fault) => text += &format!("no {} {}\n", fault.number, fault.place),
            Ok(reaction) => {
                state = reaction.next;
                let rest = if state == 1 { 'R' } else { '-' };
                text += &format!("{instant} {:x} {state:x} {rest}\n", reaction.shown & outputs);
                instant += 1;
            }
        }
    }
    text
}

fn sheet(random: &mut Random) -> Vec<u8> {
    match random.below(10) {
        0 => make::at_limit(random),
        1 => make::relay(random),
        2 => make::careless(random),
        3 => {
            let sheet = make::program(random);
            make::damaged(random, &sheet)
        }
        _ => (0..20).map(|_| make::program(random)).find(|sheet| check(sheet).is_ok()).unwrap_or_default(),
    }
}

/// An input: a sheet and events, now and then with a line that is wrong, and without its last newline.
pub fn input(random: &mut Random) -> Vec<u8> {
    let sheet = sheet(random);
    let inputs = sheet.first().map_or(0, |i| (*i as usize).min(62));
    let mut lines = vec![hex(&sheet)];
    for _ in 0..random.below(20) {
        let event = random.word() & ((2u64 << inputs) - 2);
        let event = if random.percent(4) { event ^ random.word() } else { event };
        lines.push(if random.percent(10) { format!("{event:016X}") } else { format!("{event:x}") });
    }
    if random.percent(15) {
        let at = random.below(lines.len());
        let long = "0".repeat(random.one_of(&[1, 2, 17, 2048]));
        lines[at] += random.one_of(&["", " ", "\r", "g", "-", "0", "00", "\n", &long]);
    }
    let end = if random.percent(80) { "\n" } else { "" };
    (lines.join("\n") + end).into_bytes()
}
