// Writes lists of cases for test_leaves, and predicts its output for them, by a model of document 01.
mod cases;
mod finding;
#[allow(dead_code)] // this judge needs only some of it
mod shared;

use finding::Outcome;
use shared::meant;
use std::collections::BTreeMap;
use std::fmt::Write as _;
use std::io::{self, Read, Write};
use std::process::exit;

const USAGE: &str = "usage: search gen SEED           a random list
       search gen corners PART   every name of up to three bytes of a small set in all strings of up to six of them,
                                 in parts from 0 on; nothing past the last
       search gen borders PART   such names in four bytes around the border of two blocks of 32 places, in parts as well
       search gen places PART    a name at every place, after different entries
       search gen alike PART     names among entries that are almost the name
       search gen names PART     the name tests, for names of up to 70 bytes, with every byte
       search expect [COUNTS]    reads a list, writes what test_leaves must write for it,
                                 and writes to the file COUNTS how often each answer was given, and for which cause";

// The longest list and the longest word that test_leaves reads.
const LIST: usize = 65_536;
const WORD: usize = 4_096;

// How often each leaf gave each answer: in all, and for each cause and at each corner.
type Counts = BTreeMap<(String, &'static str), u64>;

// The answer to a case.
fn answered(line: &str) -> Result<Outcome, String> {
    let words: Vec<&str> = line.split(' ').collect();
    let held = |k: usize| {
        let mut bytes = meant(words.get(k).copied().unwrap_or(""))?;
        bytes.truncate(WORD);
        Ok::<_, String>(bytes)
    };
    match words[0] {
        "find" => Ok(finding::find(&held(3)?, &held(1)?)),
        "node" => Ok(finding::node(&held(1)?)),
        "property" => Ok(finding::property(&held(1)?)),
        "zero" => Ok(finding::zero(&held(1)?)),
        _ => Err("no case of the search or of a name test".to_string()),
    }
}

// Counts an answer, by the leaf's word and its own first word, with its causes.
fn count(counts: &mut Counts, line: &str, outcome: &Outcome) {
    let first = |text: &str| text.split(' ').next().unwrap_or("").to_string();
    let answer = first(line) + " " + &first(&outcome.answer);
    for cause in [""].iter().chain(&outcome.causes) {
        *counts.entry((answer.clone(), cause)).or_default() += 1;
    }
}

// Reads a list, and writes what the program must write for it, and the counts.
fn expect(counts_file: Option<&String>) -> Result<(), String> {
    let (mut text, mut out, mut counts) = (String::new(), String::new(), Counts::new());
    io::stdin().read_to_string(&mut text).map_err(|e| format!("the list cannot be read: {e}"))?;
    if text.len() > LIST {
        return Err(format!("the list has {} bytes, and test_leaves reads {LIST}", text.len()));
    }
    for (k, line) in text.lines().enumerate() {
        let outcome = answered(line).map_err(|e| format!("line {}: {line:.200}: {e}", k + 1))?;
        count(&mut counts, line, &outcome);
        writeln!(out, "{line}: {}", outcome.answer).unwrap();
    }
    let told: String = counts.iter().map(|((answer, cause), n)| format!("{answer}\t{cause}\t{n}\n")).collect();
    if let Some(file) = counts_file {
        std::fs::write(file, told).map_err(|e| format!("{file}: {e}"))?;
    }
    io::stdout().write_all(out.as_bytes()).map_err(|e| e.to_string())
}

// The list that the words name, if they name one.
fn generate(words: &[String]) -> Option<String> {
    let words: Vec<&str> = words.iter().map(String::as_str).collect();
    match words[..] {
        ["corners", part] => Some(cases::part(cases::corners, part.parse().ok()?)),
        ["borders", part] => Some(cases::part(cases::borders, part.parse().ok()?)),
        ["places", part] => Some(cases::part(cases::places, part.parse().ok()?)),
        ["alike", part] => Some(cases::part(cases::alike, part.parse().ok()?)),
        ["names", part] => Some(cases::part(cases::names, part.parse().ok()?)),
        [seed] => Some(cases::random(seed.parse().ok()?)),
        _ => None,
    }
}

// Runs what the words ask for.
fn main() {
    let words: Vec<String> = std::env::args().skip(1).collect();
    let done = match words.first().map(String::as_str) {
        Some("-h" | "--help") => {
            println!("{USAGE}");
            Ok(())
        }
        Some("gen") => match generate(&words[1..]) {
            Some(list) => io::stdout().write_all(list.as_bytes()).map_err(|e| e.to_string()),
            None => usage(),
        },
        Some("expect") if words.len() <= 2 => expect(words.get(1)),
        _ => usage(),
    };
    if let Err(e) = done {
        eprintln!("search: {e}");
        exit(1);
    }
}

// Says how it is used.
fn usage() -> ! {
    eprintln!("{USAGE}");
    exit(2)
}
