// Call lists as docs/REPLAY.md has them: lines to steps, and steps to lines.
use crate::model::{Call, Model, Value, BLOB, PHANDLES, STRINGS};
use crate::shared::{meant, number, put, spelled};

// What a word means as a number.
type Number = fn(&str) -> Result<u64, String>;

// A line of a list.
#[derive(Clone, PartialEq, Eq, Debug)]
pub enum Step {
    Make(Call),
    Show,
    Buffers([u64; 3]),
    Lend([u64; 3]),
    PutBlob(u64, Vec<u8>),
    PutStrings(u64, Vec<u8>),
    PutPhandles(u64, Vec<u32>),
    Set(String, u64),
    Quiet,
    Remark(String),
}

// The name of a call, as a list and the counts have it.
pub fn name(call: &Call) -> &'static str {
    match call {
        Call::New => "new",
        Call::NewWithMemReserv(_) => "new_with_mem_reserv",
        Call::SetBootCpuidPhys(_) => "set_boot_cpuid_phys",
        Call::BeginNode(_) => "begin_node",
        Call::EndNode(_) => "end_node",
        Call::Property(_, Value::Bytes(_)) => "property",
        Call::Property(_, Value::Null) => "property_null",
        Call::Property(_, Value::Text(_)) => "property_string",
        Call::Property(_, Value::Texts(..)) => "property_string_list",
        Call::Property(_, Value::U32(_)) => "property_u32",
        Call::Property(_, Value::U64(_)) => "property_u64",
        Call::Property(_, Value::U32s(_)) => "property_array_u32",
        Call::Property(_, Value::U64s(_)) => "property_array_u64",
        Call::PropertyPhandle(_) => "property_phandle",
        Call::Finish => "finish",
    }
}

fn numbers(words: &[&str], number: Number) -> Result<Vec<u64>, String> {
    words.iter().map(|w| number(w)).collect()
}

fn cells(words: &[&str], number: Number) -> Result<Vec<u32>, String> {
    Ok(numbers(words, number)?.into_iter().map(|n| n as u32).collect())
}

fn three(words: &[&str], number: Number) -> Result<[u64; 3], String> {
    numbers(words, number)?.try_into().map_err(|_| "three lengths are needed".to_string())
}

// What a property call's line gives it.
fn property(words: &[&str], number: Number) -> Result<Call, String> {
    let at = |k: usize| words.get(k).copied().unwrap_or("");
    let rest = |k: usize| words.get(k..).unwrap_or(&[]);
    let value = match at(0) {
        "property" => Value::Bytes(meant(at(2))?),
        "property_null" => Value::Null,
        "property_string" => Value::Text(meant(at(2))?),
        "property_string_list" => Value::Texts(meant(at(2))?, numbers(rest(3), number)?),
        "property_u32" => Value::U32(number(at(2))? as u32),
        "property_u64" => Value::U64(number(at(2))?),
        "property_array_u32" => Value::U32s(cells(rest(2), number)?),
        _ => Value::U64s(numbers(rest(2), number)?),
    };
    Ok(Call::Property(meant(at(1))?, value))
}

// A line as a step, with decimal numbers alone.
pub fn parse(line: &str) -> Result<Step, String> {
    parse_by(line, number)
}

// A line as a step, with numbers as given.
pub fn parse_by(line: &str, number: Number) -> Result<Step, String> {
    let words: Vec<&str> = line.split(' ').collect();
    let at = |k: usize| words.get(k).copied().unwrap_or("");
    Ok(match words[0] {
        "new" => Step::Make(Call::New),
        "new_with_mem_reserv" => Step::Make(Call::NewWithMemReserv(numbers(&words[1..], number)?)),
        "set_boot_cpuid_phys" => Step::Make(Call::SetBootCpuidPhys(number(at(1))? as u32)),
        "begin_node" => Step::Make(Call::BeginNode(meant(at(1))?)),
        "end_node" => Step::Make(Call::EndNode(number(at(1))?)),
        "property"
        | "property_null"
        | "property_string"
        | "property_string_list"
        | "property_u32"
        | "property_u64"
        | "property_array_u32"
        | "property_array_u64" => Step::Make(property(&words, number)?),
        "property_phandle" => Step::Make(Call::PropertyPhandle(number(at(1))? as u32)),
        "finish" => Step::Make(Call::Finish),
        "show" => Step::Show,
        "buffers" => Step::Buffers(three(&words[1..], number)?),
        "lend" => Step::Lend(three(&words[1..], number)?),
        "put_blob" => Step::PutBlob(number(at(1))?, meant(at(2))?),
        "put_strings" => Step::PutStrings(number(at(1))?, meant(at(2))?),
        "put_phandles" => Step::PutPhandles(number(at(1))?, cells(words.get(2..).unwrap_or(&[]), number)?),
        "set" => Step::Set(at(1).to_string(), number(at(2))?),
        "quiet" => Step::Quiet,
        "aloud" | "record" | "blob" | "strings" | "phandles" | "fields" => {
            return Err(format!("not foretold: {}", words[0]))
        }
        _ => Step::Remark(line.to_string()),
    })
}

fn joined<T: ToString>(first: String, rest: &[T]) -> String {
    rest.iter().fold(first, |line, n| line + " " + &n.to_string())
}

fn call_line(call: &Call) -> String {
    let verb = name(call);
    match call {
        Call::New | Call::Finish => verb.to_string(),
        Call::NewWithMemReserv(ns) => joined(verb.to_string(), ns),
        Call::SetBootCpuidPhys(n) | Call::PropertyPhandle(n) => format!("{verb} {n}"),
        Call::BeginNode(name) => format!("{verb} {}", spelled(name)),
        Call::EndNode(n) => format!("{verb} {n}"),
        Call::Property(name, value) => {
            let front = format!("{verb} {}", spelled(name));
            match value {
                Value::Bytes(b) | Value::Text(b) => format!("{front} {}", spelled(b)),
                Value::Null => front,
                Value::Texts(b, lengths) => joined(format!("{front} {}", spelled(b)), lengths),
                Value::U32(n) => format!("{front} {n}"),
                Value::U64(n) => format!("{front} {n}"),
                Value::U32s(ns) => joined(front, ns),
                Value::U64s(ns) => joined(front, ns),
            }
        }
    }
}

// A step as a line.
pub fn line(step: &Step) -> String {
    match step {
        Step::Make(call) => call_line(call),
        Step::Show => "show".to_string(),
        Step::Buffers([b, s, p]) => format!("buffers {b} {s} {p}"),
        Step::Lend([b, s, p]) => format!("lend {b} {s} {p}"),
        Step::PutBlob(at, bytes) => format!("put_blob {at} {}", spelled(bytes)),
        Step::PutStrings(at, bytes) => format!("put_strings {at} {}", spelled(bytes)),
        Step::PutPhandles(at, ns) => joined(format!("put_phandles {at}"), ns),
        Step::Set(field, n) => format!("set {field} {n}"),
        Step::Quiet => "quiet".to_string(),
        Step::Remark(text) => text.clone(),
    }
}

// The buffers that a list is run over, and how much of each is lent.
pub struct Buffers<'a> {
    pub blob: &'a mut [u8],
    pub strings: &'a mut [u8],
    pub phandles: &'a mut [u32],
    pub lent: &'a mut [usize; 3],
}

// Changes the buffers, where the step does that.
pub fn lay(to: Buffers, step: &Step) {
    let cut = |n: &[u64; 3]| {
        [n[0].min(BLOB as u64) as usize, n[1].min(STRINGS as u64) as usize, n[2].min(PHANDLES as u64) as usize]
    };
    match step {
        Step::Buffers(n) => {
            *to.lent = cut(n);
            to.blob.fill(0xee);
            to.strings.fill(0xee);
            to.phandles.fill(0xeeee_eeee);
        }
        Step::Lend(n) => *to.lent = cut(n),
        Step::PutBlob(at, bytes) => put(to.blob, *at, bytes),
        Step::PutStrings(at, bytes) => put(to.strings, *at, bytes),
        Step::PutPhandles(at, ns) => put(to.phandles, *at, ns),
        Step::Set(..) | Step::Make(_) | Step::Show | Step::Quiet | Step::Remark(_) => {}
    }
}

// Changes what the next call is given, where the step does that.
pub fn prepare(model: &mut Model, step: &Step) {
    if let Step::Set(field, n) = step {
        model.record.set(field, *n);
    }
    let Model { blob, strings, phandles, lent, .. } = model;
    lay(Buffers { blob, strings, phandles, lent }, step);
}
