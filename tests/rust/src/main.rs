//! An independent check of the program `answers`: the paper implemented once more, plainly, and asked the same questions.
//!
//!     cargo run --release -- ANSWERS [COUNT] [SEED]          ANSWERS is a command that answers the questions it reads
//!     cargo run --release -- trace TRACE [COUNT] [SEED]      the same of the trace program: TRACE is run once for each input
//!     cargo run --release -- covers LIBRARY [COUNT] [SEED]   covers of so many netlists: LIBRARY is a command that puts questions to the C library
//!     cargo run --release -- vectors QUESTIONS ANSWERS       the model alone against answers that are stored
//!     cargo run --release -- search SIZE                     the model alone: demand 3 of all programs of up to SIZE statements that request 1 newly accepts

mod answers;
mod cover;
mod covers;
mod file;
mod make;
mod netlist;
mod packer;
mod questions;
mod random;
mod rules;
mod search;
mod sets;
mod sheet;
mod table;
mod trace;

use answers::Agreement;
use covers::Covers;
use questions::Questions;
use random::Random;
use search::Search;
use sheet::{COVER, ORDER};
use std::collections::BTreeMap;
use std::fs::{self, File};
use std::process::{exit, Command};
use std::time::{SystemTime, UNIX_EPOCH};

const SHOWN: usize = 10;

/// A text's lines; the last one may lack its newline.
fn lines(text: &[u8]) -> Vec<Vec<u8>> {
    let text = text.strip_suffix(b"\n").unwrap_or(text);
    text.split(|b| *b == b'\n').map(|line| line.to_vec()).collect()
}

fn readable(line: &[u8]) -> String {
    let text = String::from_utf8_lossy(line);
    let cut: String = text.chars().take(400).collect();
    if cut.len() < text.len() {
        return format!("{cut}.. ({} bytes)", line.len());
    }
    cut
}

/// Prints the first lines that differ, and answers how many do.
fn differences(questions: &[Vec<u8>], expected: &[String], got: &[Vec<u8>]) -> usize {
    let none = b"(no line)".to_vec();
    let differ = |i: &usize| got.get(*i).unwrap_or(&none) != expected[*i].as_bytes();
    let all: Vec<usize> = (0..questions.len()).filter(differ).collect();
    for &i in all.iter().take(SHOWN) {
        println!("question {i}: {}", readable(&questions[i]));
        println!("    the model: {}", readable(expected[i].as_bytes()));
        println!("    answered:  {}", readable(got.get(i).unwrap_or(&none)));
    }
    all.len() + got.len().saturating_sub(questions.len())
}

/// What a command of sh writes for an input. Both stay beside this program, for whoever wants to look.
fn run(command: &str, input: &[u8]) -> Vec<u8> {
    let folder = std::env::current_exe().expect("this program's path").parent().expect("its folder").to_path_buf();
    let (asked, answered) = (folder.join("asked"), folder.join("answered"));
    fs::write(&asked, input).expect("the questions are written");
    let input = File::open(&asked).expect("the questions are read");
    let output = File::create(&answered).expect("the answers are written");
    let ended = Command::new("sh").arg("-c").arg(command).stdin(input).stdout(output).status().expect("sh runs");
    if !ended.success() {
        println!("{command}: {ended}");
        exit(1);
    }
    fs::read(&answered).expect("the answers are read")
}

/// Counts by the question's word and by the number that answers.
fn counts(questions: &[Vec<u8>], expected: &[String]) -> (BTreeMap<String, usize>, BTreeMap<u32, usize>) {
    let (mut words, mut numbers) = (BTreeMap::new(), BTreeMap::new());
    for (question, answer) in questions.iter().zip(expected) {
        let word = question.split(|b| *b == b' ').next().unwrap_or(b"");
        let word = if answer == "bad line" { "bad line".into() } else { String::from_utf8_lossy(word).into_owned() };
        if word != "bad line" && word != "rest" {
            let number = answer.split(' ').next().and_then(|n| n.parse().ok()).expect("a number");
            *numbers.entry(number).or_insert(0) += 1;
        }
        *words.entry(word).or_insert(0) += 1;
    }
    (words, numbers)
}

/// Prints what was asked, and answers which numbers of 0 to 16, 19 and 20 no answer has.
fn report(questions: &[Vec<u8>], expected: &[String]) -> Vec<u32> {
    let (words, numbers) = counts(questions, expected);
    let list = |items: Vec<String>| items.join(", ");
    println!("questions: {}", list(words.iter().map(|(word, n)| format!("{word} {n}")).collect()));
    println!("numbers:   {}", list(numbers.iter().map(|(number, n)| format!("{number}: {n}")).collect()));
    (0..=16).chain([COVER, ORDER]).filter(|number| !numbers.contains_key(number)).collect()
}

/// Whether rules and netlist agree in the model itself.
fn report_agreement(agreement: &Agreement) -> bool {
    println!("demand 3:  {} reactions by rules and netlist, {} of them with every set E looked through", agreement.compared, agreement.searched);
    for wrong in agreement.wrong.iter().take(SHOWN) {
        println!("rules and netlist of the model differ: {wrong}");
    }
    agreement.wrong.is_empty()
}

fn vectors(questions: &str, answers: &str) -> bool {
    let asked = lines(&fs::read(questions).expect("the questions are read"));
    let got = lines(&fs::read(answers).expect("the answers are read"));
    let mut agreement = Agreement::default();
    let expected: Vec<String> = asked.iter().map(|line| agreement.answer(line)).collect();
    let differing = differences(&asked, &expected, &got);
    report(&asked, &expected);
    println!("{} stored answers, {differing} differ from the model", got.len());
    report_agreement(&agreement) && differing == 0
}

fn search(size: usize) -> bool {
    let mut search = Search::default();
    search.look_through(size);
    println!("of all programs of up to {size} statements {} are newly accepted; {} more are CYCLE now and were TWICE", search.accepted, search.cyclic);
    report_agreement(&search.agreement)
}

fn independent(command: &str, count: usize, seed: u64) -> bool {
    println!("seed {seed}, {count} questions");
    let mut questions = Questions { random: Random(seed), lines: Vec::new() };
    questions.make(count);
    let mut agreement = Agreement::default();
    let expected: Vec<String> = questions.lines.iter().map(|line| agreement.answer(line)).collect();
    let input = [&questions.lines.join(&b'\n')[..], b"\n"].concat();
    let differing = differences(&questions.lines, &expected, &lines(&run(command, &input)));
    let missing = report(&questions.lines, &expected);
    let agreed = report_agreement(&agreement);
    println!("{count} answers compared, {differing} differ (seed {seed})");
    if count >= 20000 && !missing.is_empty() {
        println!("no answer has number {missing:?}");
        return false;
    }
    agreed && differing == 0
}

fn traces(command: &str, count: usize, seed: u64) -> bool {
    println!("seed {seed}, {count} inputs of the trace program");
    let (mut random, mut agreement) = (Random(seed), Agreement::default());
    let inputs: Vec<Vec<u8>> = (0..count).map(|_| trace::input(&mut random)).collect();
    let expected: Vec<String> = inputs.iter().map(|input| trace::printed(input, &mut agreement)).collect();
    let got: Vec<Vec<u8>> = inputs.iter().map(|input| run(command, input)).collect();
    let differing = differences(&inputs, &expected, &got);
    let printed: usize = expected.iter().map(|text| text.lines().count()).sum();
    println!("{printed} lines of {count} traces compared, {differing} traces differ (seed {seed})");
    report_agreement(&agreement) && differing == 0
}

/// Covers of so many netlists, some at a time.
fn covers(command: &str, count: usize, seed: u64) -> bool {
    println!("seed {seed}, covers of {count} netlists");
    let (mut random, mut covers) = (Random(seed), Covers::default());
    let ask = |asked: &[String]| {
        let input: String = asked.iter().map(|line| format!("{line}\n")).collect();
        let text = run(command, input.as_bytes());
        String::from_utf8_lossy(&text).lines().map(str::to_string).collect::<Vec<_>>()
    };
    while covers.netlists < count {
        covers.compare(&mut random, 100.min(count - covers.netlists), &ask);
    }
    for (what, (accepted, refused)) in &covers.tried {
        println!("    {what}: {accepted} accepted, {refused} refused");
    }
    for wrong in covers.differing.iter().take(SHOWN) {
        wrong.lines().for_each(|line| println!("{}", readable(line.as_bytes())));
    }
    let Covers { netlists, gates, tables, compared, reactions, .. } = covers;
    println!("{tables} tables for {gates} gates of {netlists} netlists");
    println!("{compared} answers compared, of them {reactions} clocks by tables and by cells, {} differ (seed {seed})", covers.differing.len());
    if count >= 1000 && !covers.never_refused().is_empty() {
        println!("never refused: {:?}", covers.never_refused());
        return false;
    }
    covers.differing.is_empty()
}

fn main() {
    let words: Vec<String> = std::env::args().skip(1).collect();
    let number = |i: usize, other: u64| words.get(i).map_or(Some(other), |text| text.parse().ok());
    let now = SystemTime::now().duration_since(UNIX_EPOCH).map_or(1, |time| time.as_nanos() as u64);
    let good = match &words[..] {
        [word, questions, answers] if word == "vectors" => Some(vectors(questions, answers)),
        [word, size] if word == "search" => size.parse().ok().map(search),
        [word, command, ..] if word == "trace" => number(2, 1000).zip(number(3, now)).map(|(count, seed)| traces(command, count as usize, seed)),
        [word, command, ..] if word == "covers" => number(2, 1000).zip(number(3, now)).map(|(count, seed)| covers(command, count as usize, seed)),
        [command, ..] => number(1, 100_000).zip(number(2, now)).map(|(count, seed)| independent(command, count as usize, seed)),
        [] => None,
    };
    match good {
        Some(good) => exit(!good as i32),
        None => {
            println!("usage: cargo run --release -- ANSWERS [COUNT] [SEED], or trace TRACE [COUNT] [SEED], or covers LIBRARY [COUNT] [SEED], or vectors QUESTIONS ANSWERS, or search SIZE");
            exit(2);
        }
    }
}
