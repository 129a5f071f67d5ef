// The unchanged crate, run beside the model: wherever it can make a call, its answer and its private state are held to the model's.
use crate::history::{property_of, History};
use crate::model::{value_bytes, Call, Model, Outcome, Value};
use std::fmt::Write;
use vm_fdt::{Error, FdtReserveEntry, FdtWriter, FdtWriterNode, FdtWriterResult};

// Document 01's number of the crate's errors.
fn number(e: &Error) -> u32 {
    match e {
        Error::PropertyBeforeBeginNode => 1,
        Error::PropertyAfterEndNode => 2,
        Error::PropertyValueTooLarge => 3,
        Error::TotalSizeTooLarge => 4,
        Error::InvalidString => 5,
        Error::OutOfOrderEndNode => 6,
        Error::UnclosedNode => 7,
        Error::InvalidMemoryReservation => 8,
        Error::OverlappingMemoryReservations => 9,
        Error::InvalidNodeName => 10,
        Error::InvalidPropertyName => 11,
        Error::NodeDepthTooLarge => 12,
        Error::DuplicatePhandle => 13,
    }
}

fn answer<T>(r: &FdtWriterResult<T>) -> u32 {
    r.as_ref().err().map_or(0, number)
}

// A handle of any depth of 1 to 64: what a scratch writer hands out at that depth.
fn handle(depth: u64) -> FdtWriterNode {
    let mut scratch = FdtWriter::new().unwrap();
    (1..depth).for_each(|_| drop(scratch.begin_node("").unwrap()));
    scratch.begin_node("").unwrap()
}

// The number in a handle, from its Debug text.
fn depth_of(node: &FdtWriterNode) -> u64 {
    format!("{node:?}").chars().filter(char::is_ascii_digit).collect::<String>().parse().unwrap()
}

fn open(numbers: &[u64]) -> FdtWriterResult<FdtWriter> {
    let entries: FdtWriterResult<Vec<_>> = numbers.chunks(2).map(|p| FdtReserveEntry::new(p[0], p[1])).collect();
    FdtWriter::new_with_mem_reserv(&entries?)
}

// Bytes that are no text are handed in with a stand-in for each part that is not UTF-8; no name has either.
fn text(bytes: &[u8]) -> String {
    String::from_utf8_lossy(bytes).into_owned()
}

// A list's strings as texts, if they are.
fn texts(bytes: &[u8], lengths: &[u64]) -> Option<Vec<String>> {
    let mut rest = bytes;
    lengths
        .iter()
        .map(|&n| {
            let (one, others) = rest.split_at(n as usize);
            rest = others;
            String::from_utf8(one.to_vec()).ok()
        })
        .collect()
}

fn property(w: &mut FdtWriter, name: &str, value: &Value) -> FdtWriterResult<()> {
    match value {
        Value::Bytes(b) => w.property(name, b),
        Value::Null => w.property_null(name),
        Value::U32(n) => w.property_u32(name, *n),
        Value::U64(n) => w.property_u64(name, *n),
        Value::U32s(ns) => w.property_array_u32(name, ns),
        Value::U64s(ns) => w.property_array_u64(name, ns),
        // strings that are not UTF-8 cannot be passed: their bytes are, as the plain property that they become
        Value::Text(b) => match std::str::from_utf8(b) {
            Ok(t) => w.property_string(name, t),
            Err(_) if b.contains(&0) => Err(Error::InvalidString),
            Err(_) => w.property(name, &value_bytes(value)),
        },
        Value::Texts(b, lengths) => match texts(b, lengths) {
            Some(all) => w.property_string_list(name, all),
            None if b.contains(&0) => Err(Error::InvalidString),
            None => w.property(name, &value_bytes(value)),
        },
    }
}

// Makes a call that leaves the writer there: the answer and the handle.
fn make(w: &mut FdtWriter, call: &Call) -> (u32, u64) {
    match call {
        Call::SetBootCpuidPhys(n) => {
            w.set_boot_cpuid_phys(*n);
            (0, 0)
        }
        Call::BeginNode(name) => match w.begin_node(&text(name)) {
            Ok(node) => (0, depth_of(&node)),
            Err(e) => (number(&e), 0),
        },
        Call::EndNode(n) => (answer(&w.end_node(handle(*n))), 0),
        Call::Property(name, value) => (answer(&property(w, &text(name), value)), 0),
        Call::PropertyPhandle(n) => (answer(&w.property_phandle(*n)), 0),
        Call::New | Call::NewWithMemReserv(_) | Call::Finish => unreachable!("{call:?}"),
    }
}

// What the crate's Debug text tells of a writer.
#[derive(Default, PartialEq, Eq, Debug)]
struct State {
    data: Vec<u8>,
    strings: Vec<u8>,
    reserved_at: u64,
    structure_at: u64,
    depth: u64,
    ended: bool,
    boot: u32,
    phandles: Vec<u32>,
}

// The numbers of a list of the text, from a place on up to the closing mark.
fn list<T: TryFrom<u64>>(s: &str, from: &str, close: u8) -> Vec<T> {
    let (b, mut at, mut all, mut n) = (s.as_bytes(), s.find(from).expect(from) + from.len(), Vec::new(), None);
    loop {
        match b[at] {
            d @ b'0'..=b'9' => n = Some(n.unwrap_or(0) * 10 + (d - b'0') as u64),
            _ => {
                all.extend(n.take().map(|n| T::try_from(n).ok().expect(from)));
                if b[at] == close {
                    return all;
                }
            }
        }
        at += 1;
    }
}

fn word<'a>(s: &'a str, from: &str) -> &'a str {
    let at = s.find(from).expect(from) + from.len();
    &s[at..at + s[at..].find(',').expect(from)]
}

// The private state of a writer, from its Debug text.
fn state(w: &FdtWriter, room: &mut String) -> State {
    room.clear();
    write!(room, "{w:?}").unwrap();
    // what follows the strings: `data` and `strings` are told first, and no name holds a space or a bracket
    let after = &room[room.find("string_offsets: ").unwrap()..];
    let mut phandles: Vec<u32> = list(after, "phandles: {", b'}');
    phandles.sort_unstable();
    State {
        data: list(room, "data: [", b']'),
        strings: list(room, " strings: [", b']'),
        reserved_at: word(room, "off_mem_rsvmap: ").parse().unwrap(),
        structure_at: word(room, "off_dt_struct: ").parse().unwrap(),
        depth: word(after, "node_depth: ").parse().unwrap(),
        ended: word(after, "node_ended: ").parse().unwrap(),
        boot: word(after, "boot_cpuid_phys: ").parse().unwrap(),
        phandles,
    }
}

// Whether the crate's state is the model's, and the history's place where the open node's properties start is.
fn same(s: &State, h: &History, m: &Model) -> bool {
    let r = &m.record;
    let fits = r.blob_used as usize <= m.blob.len()
        && r.strings_used as usize <= m.strings.len()
        && r.phandles_used as usize <= m.phandles.len();
    if !fits || r.finished || s.data.len() as u64 != r.blob_used {
        return false;
    }
    let mut phandles = m.phandles[..r.phandles_used as usize].to_vec();
    phandles.sort_unstable();
    s.data == m.blob[..r.blob_used as usize]
        && s.strings == m.used_strings()
        && s.phandles == phandles
        && s.reserved_at == 40
        && s.structure_at as u128 == 56 + 16 * r.reservations as u128
        && s.depth == r.node_depth
        && s.ended == r.node_ended
        && s.boot == r.boot_cpuid_phys
        && h.start == r.node_start
}

// A writer of the crate, and the calls that brought it where it is.
pub struct Beside {
    writer: Option<FdtWriter>,
    opening: Vec<u64>,
    calls: Vec<Call>,
    history: History,
    changed: bool,
    in_step: bool,
    room: String,
    // how many calls were made on the crate
    pub asked: u64,
    // what the history says of the last call
    pub corners: Vec<&'static str>,
}

impl Beside {
    pub fn new() -> Beside {
        Beside {
            writer: None,
            opening: Vec::new(),
            calls: Vec::new(),
            history: History::new(0),
            changed: false,
            in_step: false,
            room: String::new(),
            asked: 0,
            corners: Vec::new(),
        }
    }

    // The record or the buffers were changed from outside: whether the crate is in step is to be looked at again.
    pub fn changed(&mut self) {
        self.changed = true;
    }

    // Looks whether the writer stands where the model does, before a call.
    pub fn before(&mut self, model: &Model) {
        if self.changed {
            self.changed = false;
            self.in_step = self.writer.as_ref().is_some_and(|w| same(&state(w, &mut self.room), &self.history, model));
        }
    }

    // A second writer, brought to the same place by the same calls.
    fn again(&self) -> FdtWriter {
        let mut w = open(&self.opening).unwrap();
        for call in &self.calls {
            make(&mut w, call);
        }
        w
    }

    // Makes the call that the model answered, where the crate can make it.
    pub fn call(&mut self, call: &Call, found: Outcome, model: &Model) -> Result<(), String> {
        self.corners.clear();
        match call {
            Call::New => self.opened(&[], found, model),
            Call::NewWithMemReserv(numbers) => self.opened(numbers, found, model),
            _ if !self.in_step => Ok(()),
            Call::Finish => self.finished(found, model),
            _ => {
                self.told(call, found)?;
                self.history.call(call, found.number, model.record.blob_used);
                self.made(call, found, model)
            }
        }
    }

    // 20 is given exactly for the names that the open node has by the calls so far; what else the history says is kept.
    fn told(&mut self, call: &Call, found: Outcome) -> Result<(), String> {
        let (Some(name), 0 | 14 | 15 | 20) = (property_of(call), found.number) else { return Ok(()) };
        let has = self.history.has(name);
        if has != (found.number == 20) {
            return Err(format!("the open node has the name: {has}, and the model answers {}", found.number));
        }
        if found.number == 0 {
            self.corners = self.history.corners(name);
        }
        Ok(())
    }

    fn agree(&self, what: &str, crate_says: u32, found: Outcome) -> Result<(), String> {
        if crate_says == found.number {
            Ok(())
        } else {
            Err(format!("{what}: the crate answers {crate_says}, the model {}", found.number))
        }
    }

    // The crate's state is the model's after a call.
    fn same_state(&mut self, model: &Model) -> Result<(), String> {
        let found = state(self.writer.as_ref().unwrap(), &mut self.room);
        if same(&found, &self.history, model) {
            Ok(())
        } else {
            Err(format!("the states differ: the crate has {found:?}, the model {:?}", model.record))
        }
    }

    fn opened(&mut self, numbers: &[u64], found: Outcome, model: &Model) -> Result<(), String> {
        self.writer = None;
        self.in_step = false;
        self.changed = false;
        if found.number == 17 || found.number == 19 {
            return Ok(());
        }
        self.asked += 1;
        let opened = open(numbers);
        if found.number == 14 {
            // the crate knows no room, and takes it
            return self.agree("opening without a limit", answer(&opened), Outcome { number: 0, ..found });
        }
        self.agree("opening", answer(&opened), found)?;
        if let Ok(w) = opened {
            self.writer = Some(w);
            self.opening = numbers.to_vec();
            self.calls.clear();
            self.history = History::new(model.record.blob_used);
            self.in_step = true;
            self.same_state(model)?;
        }
        Ok(())
    }

    fn finished(&mut self, found: Outcome, model: &Model) -> Result<(), String> {
        match found.number {
            17 => return Ok(()),
            // the crate knows no room, and a second writer takes it
            14 => {
                self.asked += 1;
                return self.agree(
                    "finish without a limit",
                    answer(&self.again().finish()),
                    Outcome { number: 0, ..found },
                );
            }
            _ => {}
        }
        self.asked += 1;
        let ended = self.writer.take().unwrap().finish();
        self.agree("finish", answer(&ended), found)?;
        match ended {
            Ok(blob) => {
                self.in_step = false;
                let ours = model.show().0;
                if blob == ours {
                    Ok(())
                } else {
                    Err(format!("the blobs differ: the crate has {blob:?}, the model {ours:?}"))
                }
            }
            Err(_) => {
                // the crate's writer is gone: a second one stands in
                self.writer = Some(self.again());
                self.same_state(model)
            }
        }
    }

    fn made(&mut self, call: &Call, found: Outcome, model: &Model) -> Result<(), String> {
        match found.number {
            // the crate has no lengths that could not fit, and no table that could be full
            16 | 17 => return self.same_state(model),
            14 | 15 | 20 => {
                self.asked += 1;
                let taken = make(&mut self.again(), call).0;
                self.agree("without a limit, and with a name twice", taken, Outcome { number: 0, ..found })?;
                if found.number == 20 {
                    self.corners.push("crate-takes-20");
                }
                if let Call::PropertyPhandle(_) = call {
                    // its value is recorded and its property refused: so it is before any node, and the order of phandles is not kept
                    self.calls.insert(0, call.clone());
                    self.writer = Some(self.again());
                }
                return self.same_state(model);
            }
            _ => {}
        }
        if let Call::EndNode(n) = call {
            if !(1..=64).contains(n) {
                // no such handle can be had
                return self.agree("a handle that the crate never gives", 6, found);
            }
        }
        self.asked += 1;
        let (said, handle) = make(self.writer.as_mut().unwrap(), call);
        self.agree("the call", said, found)?;
        if handle != found.handle {
            return Err(format!("the crate gives handle {handle}, the model {}", found.handle));
        }
        if said == 0 || matches!(call, Call::PropertyPhandle(_)) {
            self.calls.push(call.clone());
        }
        self.same_state(model)
    }
}
