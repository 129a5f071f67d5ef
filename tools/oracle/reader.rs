// Writes lists of blobs for test_reader, and predicts its output for them, by a model of documents 01 and 02.
mod blobs;
mod reading;
mod shared;

use shared::{check, meant, number, put};
use std::collections::BTreeMap;
use std::fmt::Write as _;
use std::io::{self, Read, Write};
use std::process::exit;

const USAGE: &str = "usage: reader gen SEED [BYTES]   a random list of about BYTES bytes (default: 1000000)
       reader gen examples       a fixed list with every cause of a refusal and every corner
       reader gen cut            every front of some small blobs, with and without sizes that fit
       reader gen bytes PART     every alteration of one byte of a small blob, in parts from 0 on; nothing past the last
       reader gen words PART     every structure of up to six words of a small set, in parts as well
       reader expect [COUNTS]    reads a list, writes what test_reader must write for it,
                                 and writes to the file COUNTS how often each number was given, and for which cause";

// The array that blobs stand in, and the longest list of numbers.
const ARRAY: usize = 65_600;
const NUMBERS: usize = 65_536;
// Every number of the list before a call.
const MARK: u32 = 0xeeee_eeee;

// How often each number was given, apart where words 4 come before the fault: in all, and for each cause and at each
// corner.
type Counts = BTreeMap<(u32, bool, &'static str), u64>;

// What test_reader holds.
struct State {
    array: Vec<u8>,
    lent: usize,
    list: Vec<u32>,
    counts: Counts,
}

impl State {
    fn new() -> State {
        State { array: vec![0; ARRAY], lent: 0, list: Vec::new(), counts: Counts::new() }
    }

    // Reads what is lent into a list of so many numbers, and reports.
    fn read(&mut self, room: u64, out: &mut String) {
        self.list = vec![MARK; room.min(NUMBERS as u64) as usize];
        let found = reading::read(&self.array[..self.lent], &mut self.list);
        for cause in [""].iter().chain(&found.causes) {
            *self.counts.entry((found.number, found.after_4, cause)).or_default() += 1;
        }
        let [boot, reservations, entries] = found.values;
        let sum = check(self.list.iter().flat_map(|n| n.to_be_bytes()));
        writeln!(out, "{} {boot} {reservations} {entries} {} {sum}", found.number, found.place).unwrap();
    }

    // The numbers of the list from an index up to another, as far as it goes.
    fn listed(&self, from: u64, to: u64) -> String {
        let chosen = self.list.iter().skip(from as usize).take(to.saturating_sub(from) as usize);
        chosen.map(u32::to_string).collect::<Vec<_>>().join(" ")
    }

    // Runs a line of a list.
    fn line(&mut self, line: &str, out: &mut String) -> Result<(), String> {
        let words: Vec<&str> = line.split(' ').collect();
        let at = |k: usize| words.get(k).copied().unwrap_or("");
        match at(0) {
            "put" => put(&mut self.array, number(at(1))?, &meant(at(2))?),
            "lend" => self.lent = number(at(1))?.min(ARRAY as u64) as usize,
            "read" => self.read(number(at(1))?, out),
            "list" => writeln!(out, "{}", self.listed(number(at(1))?, number(at(2))?)).unwrap(),
            _ => writeln!(out, "{line}").unwrap(),
        }
        Ok(())
    }
}

// A line of the file of counts.
fn counted(&(number, after_4, cause): &(u32, bool, &str), n: u64) -> String {
    let apart = if after_4 { " after 4" } else { "" };
    format!("{number}{apart}\t{cause}\t{n}\n")
}

fn expect(counts_file: Option<&String>) -> Result<(), String> {
    let (mut text, mut out, mut state) = (String::new(), String::new(), State::new());
    io::stdin().read_to_string(&mut text).map_err(|e| format!("the list cannot be read: {e}"))?;
    for (k, line) in text.lines().enumerate() {
        state.line(line, &mut out).map_err(|e| format!("line {}: {line:.200}: {e}", k + 1))?;
    }
    let told: String = state.counts.iter().map(|(key, n)| counted(key, *n)).collect();
    if let Some(file) = counts_file {
        std::fs::write(file, told).map_err(|e| format!("{file}: {e}"))?;
    }
    io::stdout().write_all(out.as_bytes()).map_err(|e| e.to_string())
}

fn generate(words: &[String]) -> Option<String> {
    let words: Vec<&str> = words.iter().map(String::as_str).collect();
    match words[..] {
        ["examples"] => Some(blobs::examples()),
        ["cut"] => Some(blobs::cut()),
        ["bytes", part] => Some(blobs::bytes(part.parse().ok()?)),
        ["words", part] => Some(blobs::words(part.parse().ok()?)),
        [seed] => Some(blobs::random(seed.parse().ok()?, 1_000_000)),
        [seed, bytes] => Some(blobs::random(seed.parse().ok()?, bytes.parse().ok()?)),
        _ => None,
    }
}

fn main() {
    let words: Vec<String> = std::env::args().skip(1).collect();
    let done = match words.first().map(String::as_str) {
        Some("-h" | "--help") => {
            println!("{USAGE}");
            Ok(())
        }
        Some("gen") => match generate(&words[1..]) {
            Some(list) => io::stdout().write_all(list.as_bytes()).map_err(|e| e.to_string()),
            None => usage(),
        },
        Some("expect") if words.len() <= 2 => expect(words.get(1)),
        _ => usage(),
    };
    if let Err(e) = done {
        eprintln!("reader: {e}");
        exit(1);
    }
}

// Says how it is used.
fn usage() -> ! {
    eprintln!("{USAGE}");
    exit(2)
}
