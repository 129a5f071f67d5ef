// Runs a list of calls on the exported functions of the writer, as test_replay does on the writer itself: docs/REPLAY.md.
mod exported;
mod face_desk;
mod face_wrong;
mod fenced;
#[allow(dead_code)] // a list is only read here
mod list;
#[allow(dead_code)] // only the calls, their values and the sizes are used: the judge makes the calls on the model
mod model;
#[allow(dead_code)]
mod shared;
mod told;

use face_desk::Desk;
use face_wrong::{fault, Fault, FAULTS};
use list::Step;
use model::{Call, Value, FIELDS};
use shared::{spelled, LONGEST};
use std::fmt::Write as _;
use std::io::{self, Read, Write};
use std::process::exit;

const USAGE: &str =
    "usage: face [--wrong FAULT]   reads a list of calls, makes them on the exported functions, and writes what
                              test_replay must write for it; with a fault, every call has it
       face faults            writes the names of the faults

Exit status: 0 the list was run; 1 a line cannot be run, or a call changed what it may not write; 2 bad usage.";

// The desk, whether lines are written again, and what is written so far.
struct Replay {
    desk: Desk,
    aloud: bool,
    out: String,
}

// A number as docs/REPLAY.md has it: decimal, or hexadecimal after 0x, of at most 64 bits; any other word is 0.
fn loose(word: &str) -> Result<u64, String> {
    let (digits, radix) = word.strip_prefix("0x").map_or((word, 10), |digits| (digits, 16));
    let all = digits.chars().all(|c| c.is_digit(radix));
    Ok(u64::from_str_radix(digits, radix).ok().filter(|_| all).unwrap_or(0))
}

// Leaves out what test_replay has no room for.
fn cut(call: &mut Call) {
    match call {
        Call::NewWithMemReserv(numbers) => numbers.truncate(136),
        Call::BeginNode(name) => name.truncate(4_096),
        Call::Property(name, value) => {
            name.truncate(4_096);
            cut_value(value);
        }
        Call::New | Call::SetBootCpuidPhys(_) | Call::EndNode(_) | Call::PropertyPhandle(_) | Call::Finish => {}
    }
}

// The same for a value.
fn cut_value(value: &mut Value) {
    match value {
        Value::Bytes(bytes) | Value::Text(bytes) => bytes.truncate(65_536),
        Value::Texts(bytes, lengths) => {
            bytes.truncate(65_536);
            lengths.truncate(64);
        }
        Value::U32s(numbers) => numbers.truncate(1_024),
        Value::U64s(numbers) => numbers.truncate(1_024),
        Value::Null | Value::U32(_) | Value::U64(_) => {}
    }
}

// Bytes in two digits each, as words of four.
fn words(bytes: &[u8]) -> String {
    let word = |part: &[u8]| part.iter().map(|b| format!("{b:02x}")).collect::<String>();
    bytes.chunks(4).map(word).collect::<Vec<_>>().join(" ")
}

// A part of what is lent.
fn part<T>(lent: &[T], from: u64, to: u64) -> &[T] {
    let to = to.min(lent.len() as u64) as usize;
    lent[..to].get(from.min(usize::MAX as u64) as usize..).unwrap_or(&[])
}

impl Replay {
    // Runs a line, and writes its output.
    fn line(&mut self, line: &str) -> Result<(), String> {
        match line.split(' ').next().unwrap_or("") {
            "aloud" => self.aloud = true,
            "quiet" => self.aloud = false,
            "record" | "fields" | "blob" | "strings" | "phandles" => self.look(line),
            _ => match list::parse_by(line, loose)? {
                Step::Make(call) => self.call(line, call)?,
                Step::Show => self.show(line)?,
                step => self.prepare(line, &step),
            },
        }
        Ok(())
    }

    // Makes a call, and writes its answer or its report.
    fn call(&mut self, line: &str, mut call: Call) -> Result<(), String> {
        cut(&mut call);
        let (number, handle) = self.desk.call(&call)?;
        if !self.aloud {
            let fields = self.desk.writer.inside()[0].apart();
            told::report(&mut self.out, [number as u64, handle as u64], fields, self.desk.lent());
            return Ok(());
        }
        let given = if matches!(call, Call::BeginNode(_)) { format!(" handle {handle}") } else { String::new() };
        writeln!(self.out, "{line}: {number}{given}").unwrap();
        Ok(())
    }

    // Writes the shown part of the blob.
    fn show(&mut self, line: &str) -> Result<(), String> {
        let shown = self.desk.shown()?;
        if !self.aloud {
            told::shown(&mut self.out, shown);
            return Ok(());
        }
        let gap = if shown.is_empty() { "" } else { " " };
        writeln!(self.out, "{line}: length {}:{gap}{}", shown.len(), words(shown)).unwrap();
        Ok(())
    }

    // Changes what the next calls are given.
    fn prepare(&mut self, line: &str, step: &Step) {
        self.desk.prepare(step);
        if self.aloud {
            writeln!(self.out, "{line}").unwrap();
        }
    }

    // Writes what a line asks to see.
    fn look(&mut self, line: &str) {
        let mut asked = line.split(' ');
        let verb = asked.next().unwrap_or("");
        let mut number = || asked.next().map_or(0, |word| loose(word).unwrap_or(0));
        let (from, to, lent) = (number(), number(), self.desk.lent());
        let fields = self.desk.writer.inside()[0].apart();
        let seen = match verb {
            "record" => FIELDS.iter().zip(fields).map(|(name, n)| format!("{name} {n}")).collect::<Vec<_>>().join(" "),
            "fields" => FIELDS.join(" "),
            "blob" => words(part(lent.blob, from, to)),
            "strings" => spelled(part(lent.strings, from, to)),
            _ => part(lent.phandles, from, to).iter().map(u32::to_string).collect::<Vec<_>>().join(" "),
        };
        let again = if self.aloud { format!("{line}:") } else { String::new() };
        let gap = if self.aloud && !seen.is_empty() { " " } else { "" };
        writeln!(self.out, "{again}{gap}{seen}").unwrap();
    }
}

// Runs a list: what is written for it.
fn run(text: &str, fault: Option<Fault>) -> Result<String, String> {
    if text.len() > LONGEST {
        return Ok(format!("the list is longer than {LONGEST} bytes: nothing was run\n"));
    }
    let mut replay = Replay { desk: Desk::closed(fault)?, aloud: true, out: String::new() };
    for (k, line) in text.lines().enumerate() {
        replay.line(line).map_err(|e| format!("line {}: {line:.200}: {e}", k + 1))?;
    }
    Ok(replay.out)
}

// Reads a list and runs it.
fn replayed(fault: Option<Fault>) -> Result<String, String> {
    let mut text = String::new();
    io::stdin().read_to_string(&mut text).map_err(|e| format!("the list cannot be read: {e}"))?;
    run(&text, fault)
}

// Runs what the words ask for.
fn main() {
    let words: Vec<String> = std::env::args().skip(1).collect();
    let words: Vec<&str> = words.iter().map(String::as_str).collect();
    let done = match words[..] {
        ["-h" | "--help"] => Ok(format!("{USAGE}\n")),
        ["faults"] => Ok(FAULTS.iter().map(|(name, _)| format!("{name}\n")).collect()),
        [] => replayed(None),
        ["--wrong", name] => replayed(Some(fault(name).unwrap_or_else(|| usage()))),
        _ => usage(),
    };
    if let Err(e) = done.and_then(|text| io::stdout().write_all(text.as_bytes()).map_err(|e| e.to_string())) {
        eprintln!("face: {e}");
        exit(1);
    }
}

// Says how it is used.
fn usage() -> ! {
    eprintln!("{USAGE}");
    exit(2)
}
