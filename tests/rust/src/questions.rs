//! Makes questions: about programs, files, states and events, good and damaged, and lines that are no questions.

use crate::answers::{check, hex, Program};
use crate::cover::NUMBERS;
use crate::covers;
use crate::file;
use crate::make;
use crate::netlist::Netlist;
use crate::packer::{self, DAMAGES};
use crate::random::Random;
use crate::rules::{self, Guess};

pub struct Questions {
    pub random: Random,
    pub lines: Vec<Vec<u8>>,
}

impl Questions {
    /// At least so many questions.
    pub fn make(&mut self, count: usize) {
        while self.lines.len() < count {
            match self.random.below(22) {
                0..=10 => self.about_program(),
                11 => self.about_table(),
                12..=13 => self.about_damaged_program(),
                14..=15 => self.about_limit(),
                16..=18 => self.about_file(),
                19..=20 => self.about_cover(),
                _ => self.about_text(),
            }
        }
        self.lines.truncate(count);
    }

    fn ask(&mut self, words: &[&str]) {
        self.lines.push(words.join(" ").into_bytes());
    }

    /// Bytes in hex, of either case.
    fn hex(&mut self, bytes: &[u8]) -> String {
        match (bytes.is_empty(), self.random.below(10)) {
            (true, _) => "-".to_string(),
            (_, 0) => hex(bytes).to_uppercase(),
            _ => hex(bytes),
        }
    }

    /// A word in hex, now and then with zeros in front or in capitals.
    fn word(&mut self, value: u64) -> String {
        match self.random.below(12) {
            0 if self.random.percent(5) => format!("{value:017x}"),
            0 => format!("{value:016x}"),
            1 => format!("{value:X}"),
            2 => format!("{value:08x}"),
            _ => format!("{value:x}"),
        }
    }

    /// Mostly a set of inputs.
    fn event(&mut self, inputs: usize) -> u64 {
        let good = self.random.word() & ((2u64 << inputs.min(62)) - 2);
        match self.random.below(12) {
            0 => good | 1 << self.random.below(64),
            1 => self.random.word(),
            2..=3 => 0,
            _ => good,
        }
    }

    /// A state near one that was reached, or any.
    fn state(&mut self, reached: u64, bits: usize) -> u64 {
        let within = u64::MAX >> (64 - bits.clamp(1, 64));
        match self.random.below(8) {
            0 => self.random.word(),
            1 => self.random.word() & within,
            2 => 1 | self.random.word() & self.random.word() & self.random.word() & within,
            3..=4 => reached ^ 1 << self.random.below(bits.clamp(1, 64)),
            5 => reached ^ 1 << self.random.below(64),
            6 => 1 | self.random.word() & reached,
            _ => reached,
        }
    }

    /// A sheet that is accepted, if one comes up soon.
    fn accepted(&mut self) -> Option<(Vec<u8>, Program)> {
        for _ in 0..10 {
            let sheet = match self.random.below(20) {
                0..=2 => make::relay(&mut self.random),
                3..=4 => make::rounds(&mut self.random),
                _ => make::program(&mut self.random),
            };
            if let Ok(p) = check(&sheet) {
                return Some((sheet, p));
            }
        }
        None
    }

    fn about_program(&mut self) {
        let Some((sheet, p)) = self.accepted() else {
            return;
        };
        self.about_sheet(&sheet, file::write(&p.netlist).len());
        let old = [0, 0, 30, 100][self.random.below(4)];
        let file = file::write_as(&p.netlist, || self.random.percent(old));
        let (sheet_hex, file_hex) = (self.hex(&sheet), self.hex(&file));
        let mut state = 0;
        for _ in 0..self.random.between(2, 10) {
            let event = self.event(p.sheet.inputs);
            self.about_instant(&sheet_hex, &file_hex, state, event);
            let odd = self.state(state, 1 + p.sheet.halts);
            if self.random.percent(60) {
                let event = self.event(p.sheet.inputs);
                self.about_instant(&sheet_hex, &file_hex, odd, event);
            }
            state = reached(&p, state, event);
        }
        for _ in 0..self.random.below(3) {
            let bytes = make::damaged(&mut self.random, &file);
            self.about_bytes_of_file(&bytes, p.sheet.inputs);
        }
    }

    /// Read, check, write: a sheet's own questions.
    fn about_sheet(&mut self, sheet: &[u8], length: usize) {
        let sheet_hex = self.hex(sheet);
        if self.random.percent(50) {
            self.ask(&["read", &sheet_hex]);
        }
        self.ask(&["check", &sheet_hex]);
        let length = match self.random.below(8) {
            0 => length.saturating_sub(1),
            1 => self.random.below(length + 1),
            2 => self.random.below(10000),
            3 => 0,
            _ => length,
        };
        let length = match self.random.below(10) {
            0 => format!("{length:020}"),
            1 => format!("{}", self.random.word()),
            _ => length.to_string(),
        };
        self.ask(&["write", &sheet_hex, &length]);
    }

    fn about_instant(&mut self, sheet: &str, file: &str, state: u64, event: u64) {
        let state = self.word(state);
        let event = self.word(event);
        self.ask(&["react", sheet, &state, &event]);
        self.ask(&["reactfile", file, &state, &event]);
        if self.random.percent(50) {
            self.ask(&["fits", sheet, &state]);
        }
        if self.random.percent(5) {
            self.ask(&["rest", &state]);
        }
    }

    /// All that is asked of a sheet that may be refused.
    fn about_doubtful(&mut self, sheet: &[u8]) {
        self.about_sheet(sheet, 100);
        let sheet_hex = self.hex(sheet);
        let near = self.random.below(16) as u64;
        let (state, event) = (self.state(near, 4), self.event(2));
        let (state, event) = (self.word(state), self.word(event));
        match self.random.below(4) {
            0 => self.ask(&["fits", &sheet_hex, &state]),
            1 => self.ask(&["file", &sheet_hex]),
            _ => self.ask(&["react", &sheet_hex, &state, &event]),
        }
    }

    fn about_damaged_program(&mut self) {
        let sheet = make::careless(&mut self.random);
        self.about_doubtful(&sheet);
        let sheet = make::rounds(&mut self.random);
        self.about_doubtful(&sheet);
        let sheet = make::program(&mut self.random);
        self.about_doubtful(&sheet);
        for _ in 0..3 {
            let bytes = make::damaged(&mut self.random, &sheet);
            self.about_doubtful(&bytes);
        }
    }

    fn about_limit(&mut self) {
        let sheet = make::at_limit(&mut self.random);
        self.about_doubtful(&sheet);
        if let Ok(p) = check(&sheet) {
            let file = hex(&file::write(&p.netlist));
            let event = self.event(p.sheet.inputs);
            self.about_instant(&hex(&sheet), &file, 0, event);
            let state = reached(&p, 0, 0);
            self.about_instant(&hex(&sheet), &file, state, event);
        }
    }

    fn about_file(&mut self) {
        let file = make::netlist_file(&mut self.random);
        self.about_bytes_of_file(&file, file[0] as usize);
        for _ in 0..self.random.below(4) {
            let bytes = make::damaged(&mut self.random, &file);
            self.about_bytes_of_file(&bytes, file[0] as usize);
        }
    }

    fn about_bytes_of_file(&mut self, bytes: &[u8], inputs: usize) {
        let file_hex = self.hex(bytes);
        self.ask(&["file", &file_hex]);
        let registers = file::read(bytes).map_or(4, |n: Netlist| n.registers());
        for _ in 0..self.random.below(4) {
            let near = self.random.word() & u64::MAX.checked_shr(64 - registers as u32).unwrap_or(0);
            let state = if self.random.percent(60) { near } else { self.state(near, registers) };
            let event = self.event(inputs);
            let (state, event) = (self.word(state), self.word(event));
            self.ask(&["reactfile", &file_hex, &state, &event]);
        }
    }

    /// A table in each order, and in one that there is not.
    fn about_table(&mut self) {
        let few = self.random.percent(30);
        let cells: Vec<String> = (0..5).map(|_| self.random.below(if few { 6 } else { 65536 }).to_string()).collect();
        let truth = self.random.below(65536);
        let table = match self.random.below(6) {
            0 => format!("{}:{truth:04X}", cells.join(":0")),
            1 => format!("{}:{:x}", cells.join(":"), 1 << self.random.below(16)),
            _ => format!("{}:{truth:x}", cells.join(":")),
        };
        for order in 0..24 {
            self.ask(&["order", &order.to_string(), &table]);
        }
        let order = match self.random.below(6) {
            0 => self.random.between(24, 300).to_string(),
            1 => format!("{:020}", self.random.below(24)),
            2 => format!("{}", u64::MAX as u128 + self.random.below(3) as u128),
            3 => format!("{}", u64::MAX as u128 * self.random.between(2, 9) as u128),
            _ => self.random.word().to_string(),
        };
        self.ask(&["order", &order, &table]);
    }

    /// The tables of a cover in a word; what is left behind them is no table.
    fn tables(&mut self, cover: &[u16]) -> String {
        let tables: Vec<String> = cover.chunks_exact(NUMBERS).map(|t| self.table(t)).collect();
        if tables.is_empty() {
            return "-".to_string();
        }
        tables.join(",")
    }

    fn table(&mut self, numbers: &[u16]) -> String {
        let (truth, cells) = numbers.split_last().expect("a table has numbers");
        let cells: Vec<String> = cells.iter().map(u16::to_string).collect();
        match self.random.below(20) {
            0 => format!("0{}:{truth:04X}", cells.join(":0")),
            _ => format!("{}:{truth:x}", cells.join(":")),
        }
    }

    /// A cover of a netlist, the same damaged, and that of a damaged netlist.
    fn about_cover(&mut self) {
        let netlist = covers::netlist(&mut self.random);
        let file = file::write(&netlist);
        let cover = packer::numbers(&packer::pack(&mut self.random, &netlist));
        let mut questions = vec![(file.clone(), cover.clone())];
        for _ in 0..6 {
            let (_, damage) = self.random.one_of(&DAMAGES);
            let mut damaged = cover.clone();
            damage(&mut self.random, &netlist, &mut damaged);
            questions.push((file.clone(), damaged));
        }
        questions.push((make::damaged(&mut self.random, &file), cover));
        for (file, cover) in questions {
            let (file, tables) = (self.hex(&file), self.tables(&cover));
            self.ask(&["cover", &file, &tables]);
        }
    }

    /// A line as it was asked before, spoilt as a text; or the longest line, and one longer.
    fn about_text(&mut self) {
        if self.lines.is_empty() || self.random.percent(4) {
            let word = self.random.one_of(&["read ", "check "]);
            let line = word.to_string() + &"01".repeat(9000);
            let length = self.random.between(16383, 16386);
            self.lines.push(line.as_bytes()[..length].to_vec());
            return;
        }
        for _ in 0..4 {
            let at = self.random.below(self.lines.len());
            let line = self.lines[at].clone();
            let line = self.spoilt(line);
            self.lines.push(line);
        }
        let state = self.random.word() >> self.random.below(64);
        let state = self.word(state);
        self.ask(&["rest", &state]);
    }

    fn spoilt(&mut self, mut line: Vec<u8>) -> Vec<u8> {
        let at = self.random.below(line.len() + 1);
        let odd = self.random.one_of(b" \t\r-gG0fx:,@`/\0\x80\xff");
        match self.random.below(9) {
            0 => line.truncate(at),
            1 => line.insert(0, b' '),
            2 => line.push(b' '),
            3 => line.extend(b" 0"),
            4 => line.extend(b"00000000000000000"),
            5 => line.make_ascii_uppercase(),
            6 if at < line.len() => {
                line.remove(at);
            }
            7 if at < line.len() => line[at] = odd,
            _ => line.insert(at, odd),
        }
        line
    }
}

/// The state after an event, as the netlist has it; the same state where the event is refused.
fn reached(p: &Program, state: u64, event: u64) -> u64 {
    let inside = (2u64 << p.sheet.inputs.min(62)) - 2;
    if event & !inside != 0 {
        return state;
    }
    let values = p.netlist.values(state, event);
    let present = p.netlist.present(&values, 0..p.sheet.signals);
    let y = rules::react(&p.sheet, &mut Guess::whole(present), state).expect("all statuses are known");
    rules::next_state(&y)
}
