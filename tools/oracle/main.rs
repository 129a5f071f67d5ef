// Writes call lists for test_replay, and predicts its output for them, by a model of documents 01 and 02 that is compared
// with the crate.
mod beside;
mod gen;
mod history;
mod list;
mod model;
mod shared;
mod told;

use list::Step;
use std::collections::BTreeMap;
use std::io::{self, Read, Write};
use std::process::exit;

const USAGE: &str = "usage: oracle gen SEED [BYTES]   a random list of about BYTES bytes (default: 1000000)
       oracle gen names          every short name over a small alphabet, as a node name and as a property name
       oracle gen calls PART     every sequence of five calls from a small set, in parts from 0 on; nothing past the last
       oracle gen corners        a fixed list of buffers that are just full, records with one fault, and names twice
       oracle expect [COUNTS]    reads a list, writes what test_replay must write for it in quiet mode,
                                 and writes to the file COUNTS how often each call gave each answer";

// How often each call had each answer, and for which cause.
type Counts = BTreeMap<(String, String, String), u64>;

fn count(counts: &mut Counts, call: &str, answer: &str, cause: &str) {
    *counts.entry((call.into(), answer.into(), cause.into())).or_default() += 1;
}

// Runs a list on the model, with the crate beside it.
fn predict(text: &str, out: &mut String, counts: &mut Counts) -> Result<(), String> {
    let (mut m, mut crate_side) = (model::Model::new(), beside::Beside::new());
    for (k, line) in text.lines().enumerate() {
        let at = |e: String| format!("line {}: {line:.200}: {e}", k + 1);
        match list::parse(line).map_err(at)? {
            Step::Make(call) => {
                crate_side.before(&m);
                let bound = m.record.bound();
                let found = m.call(&call);
                crate_side.call(&call, found, &m).map_err(at)?;
                let [b, s, p] = m.lent;
                let lent = told::Lent { blob: &m.blob[..b], strings: &m.strings[..s], phandles: &m.phandles[..p] };
                told::report(out, [found.number as u64, found.handle], m.record.apart(), lent);
                let name = list::name(&call);
                count(counts, name, &found.number.to_string(), found.cause);
                let bound = if found.number == 0 && call.lent_a_record_and_the_blob() { bound } else { "" };
                let corners = [bound, found.look].into_iter().chain(crate_side.corners.iter().copied());
                corners.filter(|corner| !corner.is_empty()).for_each(|corner| count(counts, name, "", corner));
            }
            Step::Show => {
                let (part, cause) = m.show();
                told::shown(out, part);
                count(counts, "show", "", cause);
            }
            step => {
                list::prepare(&mut m, &step);
                if !matches!(step, Step::Quiet | Step::Remark(_) | Step::Lend(_)) {
                    crate_side.changed();
                }
            }
        }
    }
    counts.insert(("crate".into(), "".into(), "".into()), crate_side.asked);
    Ok(())
}

fn expect(counts_file: Option<&String>) -> Result<(), String> {
    let (mut text, mut out, mut counts) = (String::new(), String::new(), Counts::new());
    io::stdin().read_to_string(&mut text).map_err(|e| format!("the list cannot be read: {e}"))?;
    predict(&text, &mut out, &mut counts)?;
    let told: String =
        counts.iter().map(|((call, answer, cause), n)| format!("{call}\t{answer}\t{cause}\t{n}\n")).collect();
    if let Some(file) = counts_file {
        std::fs::write(file, told).map_err(|e| format!("{file}: {e}"))?;
    }
    io::stdout().write_all(out.as_bytes()).map_err(|e| e.to_string())
}

fn generate(words: &[String]) -> Option<String> {
    let words: Vec<&str> = words.iter().map(String::as_str).collect();
    match words[..] {
        ["names"] => Some(gen::names()),
        ["corners"] => Some(gen::corners()),
        ["calls", part] => Some(gen::calls(part.parse().ok()?)),
        [seed] => Some(gen::random(seed.parse().ok()?, 1_000_000)),
        [seed, bytes] => Some(gen::random(seed.parse().ok()?, bytes.parse().ok()?)),
        _ => None,
    }
}

fn main() {
    let words: Vec<String> = std::env::args().skip(1).collect();
    let done = match words.first().map(String::as_str) {
        Some("-h" | "--help") => {
            println!("{USAGE}");
            Ok(())
        }
        Some("gen") => match generate(&words[1..]) {
            Some(list) => io::stdout().write_all(list.as_bytes()).map_err(|e| e.to_string()),
            None => usage(),
        },
        Some("expect") if words.len() <= 2 => expect(words.get(1)),
        _ => usage(),
    };
    if let Err(e) = done {
        eprintln!("oracle: {e}");
        exit(1);
    }
}

// Says how it is used.
fn usage() -> ! {
    eprintln!("{USAGE}");
    exit(2)
}
