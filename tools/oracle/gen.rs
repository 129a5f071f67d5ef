// Call lists: random ones from a seed, in blocks of several kinds, and every short input of a small set.
// The model is run along, so that a block knows where it stands: few calls go to closed writers, and rooms are met exactly.
use crate::list::{line, prepare, Step};
use crate::model::{Call, Model, Record, Value};
use crate::shared::{Rng, LONGEST};

// A list so far, and where the model stands after it.
struct Lines {
    text: String,
    m: Model,
}

impl Lines {
    fn new() -> Lines {
        let mut l = Lines { text: String::new(), m: Model::new() };
        l.step(Step::Quiet);
        l
    }

    fn step(&mut self, step: Step) {
        self.text.push_str(&line(&step));
        self.text.push('\n');
        prepare(&mut self.m, &step);
    }

    // Makes a call, and tells its answer.
    fn call(&mut self, call: Call) -> u32 {
        let number = self.m.call(&call).number;
        self.step(Step::Make(call));
        number
    }

    fn set(&mut self, field: &str, n: u64) {
        self.step(Step::Set(field.to_string(), n));
    }

    fn lend(&mut self, lent: [usize; 3]) {
        self.step(Step::Lend(lent.map(|n| n as u64)));
    }

    // Ends every node, finishes and shows.
    fn close(&mut self) {
        while self.m.record.node_depth > 0 && self.call(Call::EndNode(self.m.record.node_depth)) == 0 {}
        self.call(Call::Finish);
        self.step(Step::Show);
    }
}

// ---- names and values

const NODE_CLASS: &[u8] = b"abcxyzABCXYZ0189,._+-";
const PROPERTY_CLASS: &[u8] = b"abcxyzABCXYZ0189,._+?#-";
// Bytes beside the classes, and those that the format spells in its own way.
const EDGES: &[u8] = &[
    0, 1, b' ', b'!', b'"', b'$', b'*', b'/', b':', b';', b'<', b'>', b'?', b'#', b'@', b'[', b'\\', b']', b'^', b'`',
    b'{', b'|', b'}', b'~', 0x7f, 0x80, 0xc3, 0xff,
];
const NAMES: &[&str] = &[
    "reg",
    "#size-cells",
    "size-cells",
    "cells",
    "s",
    "compatible",
    "phandle",
    "status",
    "#address-cells",
    "address-cells",
    "device_type",
    "model",
    "ranges",
    "interrupts",
    "phandl",
    "handle",
    "a",
    "b",
    "?",
    "0",
];

fn some(r: &mut Rng, class: &[u8], n: u64) -> Vec<u8> {
    (0..n).map(|_| r.of(class)).collect()
}

// A name with one byte put in or changed to one beside the classes.
fn spoiled(r: &mut Rng, mut name: Vec<u8>) -> Vec<u8> {
    let at = r.below(name.len() as u64 + 1) as usize;
    let b = if r.once_in(4) { 0 } else { r.of(EDGES) };
    if at == name.len() || r.once_in(2) {
        name.insert(at, b)
    } else {
        name[at] = b
    }
    name
}

fn good_node_name(r: &mut Rng) -> Vec<u8> {
    match r.below(6) {
        0 => Vec::new(),
        1 => format!("cpu@{:x}", r.below(300)).into_bytes(),
        _ => {
            let n = r.below(6);
            [vec![r.of(b"anzAZ")], some(r, NODE_CLASS, n)].concat()
        }
    }
}

fn node_name(r: &mut Rng) -> Vec<u8> {
    match r.below(40) {
        0 | 1 => {
            let n = r.of(&[29, 30, 31, 32]);
            [vec![r.of(b"azAZ")], some(r, NODE_CLASS, n)].concat()
        }
        2 | 3 => {
            let (n, unit) = (r.of(&[0, 1, 28, 29, 30, 31]), r.of(&[0, 1, 2, 30, 31, 40, 40, 200]));
            [vec![r.of(b"azAZ")], some(r, NODE_CLASS, n), b"@".to_vec(), some(r, NODE_CLASS, unit)].concat()
        }
        4 => {
            let n = r.below(4);
            [some(r, b"0189,._+-@", 1), some(r, NODE_CLASS, n)].concat()
        }
        5 => r.of(&["a@1@2", "a@@", "@", "a@1@", "1a", "@1", "a@", "a\0", "A@-", "a@?", "a#"]).into(),
        6 => r.of(&["é", "aé", "a@é", "é@1", "ab\u{0}c", "Ⅷ", "a²"]).as_bytes().to_vec(),
        7 => {
            let n = r.below(5);
            (0..n).map(|_| r.next() as u8).collect()
        }
        8 | 9 => {
            let name = good_node_name(r);
            spoiled(r, name)
        }
        _ => good_node_name(r),
    }
}

fn good_property_name(r: &mut Rng) -> Vec<u8> {
    if r.once_in(4) {
        let n = 1 + r.below(4);
        some(r, PROPERTY_CLASS, n)
    } else {
        r.of(NAMES).into()
    }
}

fn property_name(r: &mut Rng) -> Vec<u8> {
    match r.below(40) {
        0 | 1 => {
            let n = r.of(&[29, 30, 31, 32, 33]);
            some(r, PROPERTY_CLASS, n)
        }
        2 => Vec::new(),
        3 => r.of(&["a@", "a b", "é", "aé", "a/b", "@", "a\0", "\0", "²"]).into(),
        4 => {
            let n = r.below(5);
            (0..n).map(|_| r.next() as u8).collect()
        }
        5 | 6 => {
            let name = good_property_name(r);
            spoiled(r, name)
        }
        _ => good_property_name(r),
    }
}

// A number at a corner, or any.
fn number(r: &mut Rng) -> u64 {
    match r.below(4) {
        0 => r.of(&[0, 1, 255, 256, 1 << 31, (1 << 32) - 1, 1 << 32, (1 << 32) + 7, 1 << 63, u64::MAX]),
        1 => r.next() >> r.below(64),
        _ => r.below(100),
    }
}

fn length(r: &mut Rng) -> u64 {
    match r.below(200) {
        0 => r.of(&[255, 256, 257, 400]),
        1..=9 => r.below(64),
        _ => r.below(10),
    }
}

// Bytes of a value: mostly such as stand for themselves in a list.
fn bytes(r: &mut Rng, n: u64) -> Vec<u8> {
    (0..n).map(|_| if r.once_in(8) { r.next() as u8 } else { r.of(b"abc019-\0") }).collect()
}

// Bytes of a string: no 0 but sometimes, and sometimes none that is text.
fn string(r: &mut Rng, n: u64) -> Vec<u8> {
    let mut s = some(r, b"abcdefg 0123=/", n);
    match r.below(16) {
        0 => s.insert(r.below(n + 1) as usize, 0),
        1 => s.insert(r.below(n + 1) as usize, r.of(&[0x80, 0xff, 0xc3])),
        2 => s.extend("é".bytes()),
        _ => {}
    }
    s
}

fn strings(r: &mut Rng) -> Value {
    let count = if r.once_in(60) { r.of(&[20, 60]) } else { r.below(5) };
    let parts: Vec<Vec<u8>> = (0..count)
        .map(|_| {
            let n = r.below(4) * r.below(4);
            string(r, n)
        })
        .collect();
    let mut lengths: Vec<u64> = parts.iter().map(|p| p.len() as u64).collect();
    match r.below(24) {
        0 => lengths.push(r.of(&[1, 1 << 32, u64::MAX])),
        1 => {
            lengths.pop();
        }
        2 => lengths.extend([1 << 63, 1 << 63]),
        3 => lengths.extend([u64::MAX, 1]),
        4 => {
            if let Some(n) = lengths.first_mut() {
                *n = n.wrapping_sub(1)
            }
        }
        _ => {}
    }
    Value::Texts(parts.concat(), lengths)
}

// ---- calls

// What a call can be, so that each can be asked for.
const KINDS: u64 = 13;
const BEGIN: u64 = 0;
const END: u64 = 1;
const FINISH: u64 = 2;
const BOOT: u64 = 3;
const PHANDLE: u64 = 4;

fn value(r: &mut Rng, kind: u64) -> Value {
    match kind {
        5 => {
            let n = length(r);
            Value::Bytes(bytes(r, n))
        }
        6 => Value::Null,
        7 => {
            let n = length(r);
            Value::Text(string(r, n))
        }
        8 => strings(r),
        9 => Value::U32(number(r) as u32),
        10 => Value::U64(number(r)),
        11 => Value::U32s((0..r.below(4) * r.below(3)).map(|_| number(r) as u32).collect()),
        _ => Value::U64s((0..r.below(4) * r.below(3)).map(|_| number(r)).collect()),
    }
}

fn handle(r: &mut Rng, depth: u64) -> u64 {
    match r.below(24) {
        0 => 0,
        1 => depth + 1,
        2 => depth.wrapping_sub(1),
        3 => 1 + r.below(64),
        4 => r.of(&[64, 65, 256 + depth, (1 << 32) + depth, (1 << 63) + depth, u64::MAX]),
        _ => depth,
    }
}

// A call of a kind, mostly one that would be taken.
fn call_of(r: &mut Rng, kind: u64, depth: u64) -> Call {
    match kind {
        BEGIN => Call::BeginNode(node_name(r)),
        END => Call::EndNode(handle(r, depth)),
        FINISH => Call::Finish,
        BOOT => Call::SetBootCpuidPhys(number(r) as u32),
        PHANDLE => Call::PropertyPhandle(if r.once_in(20) { number(r) as u32 } else { r.below(60) as u32 }),
        _ => Call::Property(property_name(r), value(r, kind)),
    }
}

// A call as it comes in a run: more properties than nodes, few that end it.
fn any_call(r: &mut Rng, m: &Model) -> Call {
    let (depth, ended) = (m.record.node_depth, m.record.node_ended);
    let kind = match r.below(100) {
        0 => BOOT,
        1..=2 => {
            if depth == 0 && !r.once_in(8) {
                BEGIN
            } else {
                FINISH
            }
        }
        3..=7 => PHANDLE,
        8..=16 => BEGIN,
        17..=25 => {
            if depth == 0 && !r.once_in(6) {
                BEGIN
            } else {
                END
            }
        }
        _ if (depth == 0 || ended) && !r.once_in(5) => r.of(&[BEGIN, BEGIN, BEGIN, END]),
        _ => 5 + r.below(KINDS - 5),
    };
    call_of(r, kind, depth)
}

// Reservations that are apart from each other, in any order.
fn apart(r: &mut Rng, n: u64) -> Vec<(u64, u64)> {
    let mut at = r.of(&[0, 1, 4096, 1 << 40, u64::MAX - 2 * n - 2]);
    let wide = at < 1 << 62;
    let mut all: Vec<_> = (0..n)
        .map(|_| {
            let size = if wide { 1 + r.below(3) * r.below(9000) } else { 1 };
            let start = at;
            at += size + if wide { r.below(2) * r.below(5000) } else { r.below(2) };
            (start, size)
        })
        .collect();
    for i in (1..all.len()).rev() {
        if !r.once_in(3) {
            all.swap(i, r.below(i as u64 + 1) as usize)
        }
    }
    all
}

// A reservation like one of those that are there: equal, nested, touching, or over its edge.
fn near(r: &mut Rng, of: (u64, u64)) -> (u64, u64) {
    let (a, s) = of;
    r.of(&[
        (a, s),
        (a, 1),
        (a.wrapping_add(s), 1),
        (a.wrapping_add(s).wrapping_sub(1), 1),
        (a.wrapping_sub(1), 1),
        (a.wrapping_sub(1), 2),
        (a.wrapping_sub(1), s.wrapping_add(2)),
        (a / 2, a - a / 2),
        (a / 2, a - a / 2 + 1),
        (a, 0),
        (a, u64::MAX - a),
        (a, (u64::MAX - a).wrapping_add(1)),
        (u64::MAX, 1),
        (u64::MAX - 1, 1),
        (u64::MAX, u64::MAX),
        (0, u64::MAX),
        (1, u64::MAX),
    ])
}

fn opening(r: &mut Rng) -> Call {
    if r.once_in(3) {
        return Call::New;
    }
    let n = match r.below(40) {
        0 => r.of(&[63, 64, 65, 66]),
        1 => r.below(30),
        _ => r.below(4),
    };
    let mut all = apart(r, n);
    if n > 0 && r.once_in(4) {
        let (one, at) = (r.of(&all), r.below(n) as usize);
        let other = near(r, one);
        if r.once_in(3) {
            all[at] = other
        } else {
            all.insert(at, other)
        }
    }
    let mut numbers: Vec<u64> = all.into_iter().flat_map(|(a, s)| [a, s]).collect();
    if r.once_in(40) {
        numbers.push(r.below(3))
    }
    Call::NewWithMemReserv(numbers)
}

// ---- blocks

// Marked buffers and an opening; whether it was taken.
fn opened(r: &mut Rng, l: &mut Lines, lent: [u64; 3], call: Call) -> bool {
    l.step(Step::Buffers(lent));
    let taken = l.call(call) == 0;
    if !taken && r.once_in(4) {
        let kind = r.below(KINDS);
        l.call(call_of(r, kind, 0));
    }
    taken
}

// The end of a block: closed and shown, sometimes with a call after it, and a look past what was lent.
fn ending(r: &mut Rng, l: &mut Lines) {
    if r.once_in(5) {
        l.step(Step::Show)
    }
    if !r.once_in(6) {
        l.close()
    }
    if l.m.record.finished && r.once_in(3) {
        let kind = r.below(KINDS);
        l.call(call_of(r, kind, 0));
    }
    if r.once_in(3) {
        l.lend(l.m.lent.map(|n| n + 64));
        l.call(Call::SetBootCpuidPhys(7));
        l.step(Step::Show);
    }
}

// A run with room enough.
fn plain(r: &mut Rng, l: &mut Lines) {
    let lent = [300 + r.below(1500), 60 + r.below(300), 1 + r.below(40)];
    let open = opening(r);
    if !opened(r, l, lent, open) {
        return;
    }
    for _ in 0..r.below(90) {
        if l.m.record.finished {
            break;
        }
        let call = any_call(r, &l.m);
        l.call(call);
    }
    ending(r, l);
}

// Down to depth 64 and beyond, and up again.
fn deep(r: &mut Rng, l: &mut Lines) {
    if !opened(r, l, [1400, 100, 8], Call::New) {
        return;
    }
    let goal = r.of(&[62, 63, 64, 64, 64]);
    while l.m.record.node_depth < goal {
        let name = r.of(&["", "a", "n@1"]);
        l.call(Call::BeginNode(name.into()));
    }
    for _ in 0..12 {
        let kind = r.of(&[BEGIN, BEGIN, BEGIN, END, 6, 9, FINISH]);
        let depth = l.m.record.node_depth;
        l.call(call_of(r, kind, depth));
    }
    ending(r, l);
}

// Brings a run to where a call of a kind would be taken.
fn ready(m: &mut Model, calls: &mut Vec<Call>, kind: u64) {
    let mut make = |m: &mut Model, call: Call| {
        m.call(&call);
        calls.push(call);
    };
    if kind == FINISH {
        while m.record.node_depth > 0 {
            let depth = m.record.node_depth;
            make(m, Call::EndNode(depth))
        }
    } else if kind >= PHANDLE && (m.record.node_depth == 0 || m.record.node_ended)
        || kind == END && m.record.node_depth == 0
    {
        make(m, Call::BeginNode(b"a".to_vec()));
    }
}

// A call of a kind that is taken, if a few tries find one.
fn taken(r: &mut Rng, m: &Model, kind: u64) -> Option<(Call, Model)> {
    (0..6).find_map(|_| {
        let (call, mut after) = (call_of(r, kind, m.record.node_depth), m.clone());
        (after.call(&call).number == 0).then_some((call, after))
    })
}

// A run whose buffers are just filled by its last call, or too short for it by a little.
fn tight(r: &mut Rng, l: &mut Lines) {
    let mut m = Model::new();
    m.lent = [65_536, 8_192, 256];
    let open = opening(r);
    let mut calls = Vec::new();
    if m.call(&open).number == 0 && !r.once_in(12) {
        let kind = r.of(&[BEGIN, END, FINISH, PHANDLE, 5, 6, 7, 8, 9, 10, 11, 12]);
        for _ in 0..r.below(12) {
            let call = any_call(r, &m);
            if call != Call::Finish {
                m.call(&call);
                calls.push(call)
            }
        }
        ready(&mut m, &mut calls, kind);
        let before = m.record;
        let Some((call, after)) = taken(r, &m, kind) else { return };
        calls.push(call);
        m = after;
        if m.record.strings_used > before.strings_used && r.once_in(2) {
            let lent = [
                m.record.blob_used + r.below(60),
                m.record.strings_used - r.of(&[0, 0, 1, 1, 1, 2, 4]),
                8 + r.below(8),
            ];
            return filled(r, l, lent, open, calls);
        }
    } else if m.record.finished {
        m.record.blob_used = 56
    }
    let short = r.of(&[0, 0, 0, 1, 1, 1, 2, 3, 4, 8]);
    let lent = [m.record.blob_used - short, m.record.strings_used + r.below(20), m.record.phandles_used + r.below(2)];
    filled(r, l, lent, open, calls);
}

// Runs such calls over such buffers, and goes on a little.
fn filled(r: &mut Rng, l: &mut Lines, lent: [u64; 3], open: Call, calls: Vec<Call>) {
    if !opened(r, l, lent, open) {
        return;
    }
    for call in calls {
        l.call(call);
    }
    for _ in 0..r.below(6) {
        if l.m.record.finished {
            break;
        }
        let call = any_call(r, &l.m);
        l.call(call);
    }
    ending(r, l);
}

// A place for the open node's properties: no multiple of 4, below the structure, above the used length, or one that fits
// and where others stand or none.
fn place_of_start(r: &mut Rng, rec: &Record, kind: u64) -> u64 {
    let (structure, used) = (rec.structure() as u64, rec.blob_used);
    match kind {
        0 => rec.node_start + r.of(&[1, 2, 3]),
        1 => r.of(&[structure - 4, structure - 16, 40, 0]),
        2 => r.of(&[used + 4, rec.blob_room / 4 * 4, 1 << 32, u64::MAX - 3]),
        _ => r.of(&[structure, used, structure + (used - structure) / 8 * 4]),
    }
}

// Too many reservations, but so few that the structure still could begin behind them.
fn few_too_many(r: &mut Rng, l: &mut Lines) {
    l.set("reservations", r.of(&[65, 66]));
    if l.m.record.blob_room >= 1112 {
        l.set("blob_used", 1112);
        l.set("node_start", 1112)
    }
}

// One reason for a misfit, brought about in a run that goes well.
fn break_one(r: &mut Rng, l: &mut Lines) {
    let (rec, lent) = (l.m.record, l.m.lent);
    let above = |usable: u64, extra: u64| usable.div_ceil(4) * 4 + 4 * extra;
    match r.below(17) {
        0 => l.set("node_depth", r.of(&[65, 66, 128, 1 << 32, (1 << 32) + 3, u64::MAX])),
        1 => few_too_many(r, l),
        2 => l.set("reservations", r.of(&[65, 1 << 60, (1 << 60) + 1, u64::MAX])),
        3 => l.lend([r.of(&[lent[0] + 1, lent[0] + 4, lent[0] - 1, rec.blob_used as usize, 0]), lent[1], lent[2]]),
        4 => l.set(
            "blob_used",
            r.of(&[above(rec.blob_room, 0).max(rec.blob_room + 1), above(rec.blob_room, 1), 1 << 32, u64::MAX - 3]),
        ),
        5 => l.set("blob_used", rec.blob_used - r.of(&[1, 2, 3])),
        6 => l.set("blob_used", r.of(&[52 + 16 * rec.reservations, 0, 40])),
        7 => l.lend([lent[0], r.of(&[lent[1] + 1, lent[1] - 1, rec.strings_used as usize, lent[1] + 7]), lent[2]]),
        8 => l.set("strings_used", r.of(&[rec.strings_room + 1, rec.strings_room + 9, 1 << 32, u64::MAX])),
        9 if rec.strings_used > 0 => l.step(Step::PutStrings(rec.strings_used - 1, vec![r.of(&[1, b'a', 0xff])])),
        10 => l.lend([lent[0], lent[1], r.of(&[lent[2] + 1, lent[2] - 1, 0])]),
        11 => l.set("phandles_used", r.of(&[rec.phandles_room + 1, rec.phandles_room + 2, 1 << 32, u64::MAX])),
        // two reasons, or one in a place that the call is not lent
        12 => {
            l.set("blob_room", rec.blob_room + 1);
            if r.once_in(2) {
                l.set("strings_room", rec.strings_room - 1)
            }
        }
        kind @ 13..=16 => l.set("node_start", place_of_start(r, &rec, kind - 13)),
        _ => l.set("strings_used", rec.strings_used + 1),
    }
    if r.once_in(10) {
        l.set("finished", 1)
    }
}

// Gives back the record and the buffers as they were.
fn mend(l: &mut Lines, was: &Model) {
    for (k, field) in crate::model::FIELDS.iter().enumerate() {
        if l.m.record.apart()[k] != was.record.apart()[k] {
            l.set(field, was.record.apart()[k])
        }
    }
    if l.m.lent != was.lent {
        l.lend(was.lent)
    }
    for (at, &b) in was.strings.iter().enumerate() {
        if l.m.strings[at] != b {
            l.step(Step::PutStrings(at as u64, vec![b]))
        }
    }
}

// A run in which the record and what is lent are broken in one place before a call, and mended after it.
fn broken(r: &mut Rng, l: &mut Lines) {
    let lent = if r.once_in(3) {
        [1200 + r.below(200), 80 + r.below(50), 2 + r.below(9)]
    } else {
        [300 + r.below(300), 60 + r.below(50), 2 + r.below(9)]
    };
    let open = if r.once_in(2) { Call::New } else { Call::NewWithMemReserv(vec![4096, 1, 0, 1]) };
    if !opened(r, l, lent, open) {
        return;
    }
    l.call(Call::BeginNode(b"a".to_vec()));
    l.call(Call::Property(b"reg".to_vec(), Value::U32(1)));
    for _ in 0..14 {
        let was = l.m.clone();
        break_one(r, l);
        let (kind, depth) = (r.below(KINDS), l.m.record.node_depth);
        let before = l.m.clone();
        l.call(call_of(r, kind, depth));
        if r.once_in(8) {
            l.step(Step::Show)
        }
        // where the call was taken all the same, the block ends: its bytes are written
        if l.m.blob != before.blob || l.m.phandles != before.phandles || l.m.strings != before.strings {
            break;
        }
        mend(l, &was);
        if r.once_in(4) {
            let call = any_call(r, &l.m);
            if call != Call::Finish {
                l.call(call);
            }
        }
    }
    ending(r, l);
}

// A number for a field: near what would fit, or any.
fn field(r: &mut Rng, fits: u64) -> u64 {
    match r.below(10) {
        0 => number(r),
        1 => fits.wrapping_add(r.below(5)).wrapping_sub(2),
        2 => fits.wrapping_add(4),
        3 => r.of(&[0, 1, 56, 60, 64, 65, 72, 1 << 32, 1 << 60, u64::MAX - 3]),
        _ => fits,
    }
}

// Strings as someone else might have left them: entries twice, empty, unended, tails of others.
fn foreign_strings(r: &mut Rng) -> Vec<u8> {
    let mut all = Vec::new();
    for _ in 0..r.below(6) {
        all.extend(
            r.of(&["reg", "reg", "cells", "#size-cells", "size-cells", "", "phandle", "xphandle", "s", "status", "é"])
                .as_bytes(),
        );
        if !r.once_in(12) {
            all.push(0)
        }
    }
    all
}

// A call of any kind; a property's name is often one that such strings have.
fn foreign_call(r: &mut Rng, m: &Model) -> Call {
    let kind = r.below(KINDS);
    match call_of(r, kind, m.record.node_depth) {
        Call::Property(_, value) if r.once_in(2) => {
            Call::Property(r.of(&["reg", "cells", "size-cells", "s"]).into(), value)
        }
        call => call,
    }
}

// Puts such strings, some bytes of a blob and a table into the buffers: how many bytes of strings and how many
// phandles there are.
fn foreign_buffers(r: &mut Rng, l: &mut Lines) -> [u64; 2] {
    let strings = foreign_strings(r);
    let used = strings.len() as u64;
    l.step(Step::PutStrings(0, strings));
    if r.once_in(2) {
        let n = r.below(40);
        let b = bytes(r, n);
        l.step(Step::PutBlob(r.below(100), b))
    }
    let table = (0..r.below(5)).map(|_| r.below(8) as u32).collect::<Vec<_>>();
    let count = table.len() as u64;
    l.step(Step::PutPhandles(0, table));
    [used, count]
}

// Sets every field of the record: all fit, or all but one, or any may not.
fn foreign_record(r: &mut Rng, l: &mut Lines, [used, count]: [u64; 2]) {
    let (usable, n) = ([0, 1, 2].map(|k| l.m.usable(k)), r.of(&[0, 0, 0, 1, 2]));
    let room = r
        .of(&[56 + 16 * n, 60 + 16 * n, 100, usable[0] / 4 * 4, usable[0].saturating_sub(16) / 4 * 4])
        .min(usable[0] / 4 * 4);
    let start = r.of(&[56 + 16 * n, room, 60 + 16 * n, 56 + 16 * n + room.saturating_sub(56 + 16 * n) / 8 * 4]);
    let rooms = [usable[0], room, usable[1], used.min(usable[1]), usable[2], count.min(usable[2])];
    let fits = [&rooms[..], &[n, r.below(66), start, 5]].concat();
    let (spoiled, one) = (r.below(4), r.below(10) as usize);
    for (k, name) in crate::model::FIELDS.iter().take(10).enumerate() {
        let n = if spoiled == 0 || spoiled == 1 && k == one { field(r, fits[k]) } else { fits[k] };
        l.set(name, n);
    }
    l.set("node_ended", r.below(4) / 3);
    l.set("finished", r.below(12) / 11);
}

// A record and buffers of any kind, and a few calls.
fn foreign(r: &mut Rng, l: &mut Lines) {
    let mut lent = [r.of(&[60, 64, 72, 100, 128, 160, 300, 300, 1]) + r.below(3), 20 + r.below(50), r.below(6)];
    if r.once_in(12) {
        // none at all, or more than there is
        lent[r.below(3) as usize] = r.of(&[0, 0, 0, u64::MAX]);
    }
    l.step(Step::Buffers(lent));
    for _ in 0..1 + r.below(3) {
        let used = foreign_buffers(r, l);
        foreign_record(r, l, used);
        for _ in 0..1 + r.below(6) {
            let call = foreign_call(r, &l.m);
            l.call(call);
            if r.once_in(4) {
                l.step(Step::Show)
            }
        }
    }
    if r.once_in(3) {
        l.lend([400, 100, 20]);
        l.call(Call::Finish);
        l.step(Step::Show);
    }
}

// Entries past the used strings and past the count of phandles, and calls that must not find them.
fn beyond(r: &mut Rng, l: &mut Lines) {
    l.step(Step::Buffers([200 + r.below(60), 30 + r.below(10), 5 + r.below(4)]));
    l.call(Call::New);
    l.call(Call::BeginNode(Vec::new()));
    l.step(Step::PutStrings(0, b"reg\0cells\0s\0reg\0size-cells\0".to_vec()));
    l.step(Step::PutPhandles(0, vec![1, 2, 3, 4, 5]));
    l.set("strings_used", r.of(&[0, 4, 10, 12, 16]));
    l.set("phandles_used", r.below(6));
    for _ in 0..6 {
        if r.once_in(2) {
            l.call(Call::BeginNode(Vec::new()));
        }
        if r.once_in(2) {
            let value = r.of(&[1, 2, 3, 4, 5, 0xeeee_eeee]);
            l.call(Call::PropertyPhandle(value));
        } else {
            let name = r.of(&["reg", "cells", "s", "size-cells"]);
            l.call(Call::Property(name.into(), Value::Null));
        }
    }
    ending(r, l);
}

// A property of a kind; the phandle's name is its own.
fn property_of(r: &mut Rng, kind: u64, name: &str) -> Call {
    match kind {
        PHANDLE => Call::PropertyPhandle(r.below(1_000) as u32),
        _ => Call::Property(name.into(), value(r, kind)),
    }
}

// A few names in nodes, children and siblings, each of them again and again, some after an attempt that is refused; with
// enough room, or with strings and a blob that are soon full.
fn repeated(r: &mut Rng, l: &mut Lines) {
    let names = ["phandle", r.of(&["reg", "cells", "s"]), "status"];
    let bytes: u64 = names.iter().map(|name| name.len() as u64 + 1).sum();
    let lent = [100 + r.below(300), bytes + r.of(&[0, 0, 1, 30]), 4 + r.below(12)];
    let open = r.of(&[Call::New, Call::NewWithMemReserv(vec![4096, 1, 0, 1])]);
    if !opened(r, l, lent, open) {
        return;
    }
    l.call(Call::BeginNode(Vec::new()));
    for _ in 0..10 + r.below(16) {
        let (name, kind, depth) = (r.of(&names), PHANDLE + r.below(KINDS - PHANDLE), l.m.record.node_depth);
        let call = match r.below(10) {
            0 | 1 => Call::BeginNode(Vec::new()),
            2 if depth > 0 => Call::EndNode(depth),
            3 => Call::Property(name.into(), Value::Text(vec![0])),
            _ => property_of(r, kind, name),
        };
        l.call(call);
    }
    ending(r, l);
}

// Entries twice, tails of others, an empty one, and one that is no property's name.
const LOOKED: &[u8] = b"reg\0#reg\0phandle\0reg\0a@\0\0cells\0xphandle\0phandle\0";

// The offset that the next new name gets.
const NEXT: u32 = LOOKED.len() as u32;

// Numbers as the 4 bytes of each.
fn words(all: &[u32]) -> Vec<u8> {
    all.iter().flat_map(|n| n.to_be_bytes()).collect()
}

// What can stand where a look back goes: a whole property, one whose length is another, and words that are none.
fn piece(r: &mut Rng) -> Vec<u8> {
    let offset = r.of(&[0, 0, 4, 5, 9, 9, 17, 21, 21, 24, 25, 31, 32, 40, NEXT, NEXT, u32::MAX]);
    match r.below(14) {
        0 => words(&[4]),
        1 => words(&[r.of(&[0, 1, 2, 5, 9, 0x0300_0000, 0x0100_0003])]),
        2 => words(&[3, u32::MAX - r.of(&[0, 1, 2, 3, 7, 11, 15]), offset]),
        3 => words(&[3, r.below(60) as u32, offset]),
        4 => words(&[3, offset]),
        _ => {
            let n = r.of(&[0, 0, 0, 1, 3, 4, 5, 8]);
            [words(&[3, n, offset]), bytes(r, n.div_ceil(4) as u64 * 4)].concat()
        }
    }
}

// A record and a blob in which other properties stand than were written, whole ones and others, and calls that look back.
fn looked(r: &mut Rng, l: &mut Lines) {
    l.step(Step::Buffers([400 + r.below(60), LOOKED.len() as u64 + r.of(&[0, 1, 9]), 40]));
    l.call(r.of(&[Call::New, Call::NewWithMemReserv(vec![4096, 1, 0, 1])]));
    l.call(Call::BeginNode(b"a".to_vec()));
    l.step(Step::PutStrings(0, LOOKED.to_vec()));
    l.set("strings_used", LOOKED.len() as u64);
    let start = l.m.record.node_start;
    for _ in 0..4 {
        let all: Vec<u8> = (0..1 + r.below(5)).flat_map(|_| piece(r)).collect();
        // the last may be cut, and what is cut off still stands there
        let used = all.len() as u64 - 4 * r.of(&[0, 0, 0, 1, 2, 3]).min(all.len() as u64 / 4);
        l.step(Step::PutBlob(start, all));
        l.set("blob_used", start + used);
        l.set("node_start", if r.once_in(8) { start - r.of(&[4, 8]) } else { start });
        l.set("node_depth", r.of(&[1, 1, 1, 1, 64, 0]));
        l.set("node_ended", r.below(8) / 7);
        for _ in 0..1 + r.below(3) {
            let kind = PHANDLE + r.below(KINDS - PHANDLE);
            let name = r.of(&["reg", "reg", "cells", "phandle", "a@", "a@", "", "new", "new"]);
            let call = property_of(r, kind, name);
            l.call(call);
        }
    }
    ending(r, l);
}

// What a look back for `phandle` (offset 9) meets, and how many bytes of it are used: stops before the property, cut ones,
// other entries of the name, and two that it passes.
fn scenes() -> Vec<(Vec<u8>, u64)> {
    let behind = |front: &[u32]| [words(front), words(&[3, 0, 9])].concat();
    let whole = |bytes: Vec<u8>| (bytes.len() as u64, bytes);
    let all = [
        whole(behind(&[4])),
        whole(behind(&[2])),
        (4, behind(&[])),
        (8, behind(&[])),
        (12, words(&[3, 4, 9, 0])),
        whole(behind(&[3, u32::MAX, 0])),
        whole(words(&[3, 0, 40])),
        whole(words(&[3, 0, 32])),
        whole(behind(&[3, 0, u32::MAX])),
        whole(behind(&[3, 1, 0, 0x61ff_ffff])),
    ];
    all.into_iter().map(|(used, bytes)| (bytes, used)).collect()
}

// A property of a kind, after an opening and a begin, with such bytes where its look back goes.
fn scene(r: &mut Rng, l: &mut Lines, bytes: &[u8], used: u64, call: (u64, &str), state: Option<&str>) {
    l.step(Step::Buffers([500, LOOKED.len() as u64, 4]));
    l.call(Call::New);
    l.call(Call::BeginNode(Vec::new()));
    l.step(Step::PutStrings(0, LOOKED.to_vec()));
    l.set("strings_used", LOOKED.len() as u64);
    l.step(Step::PutBlob(64, bytes.to_vec()));
    l.set("blob_used", 64 + used);
    match state {
        Some("node_depth") => l.set("node_depth", 0),
        Some(flag) => l.set(flag, 1),
        None => {}
    }
    let call = property_of(r, call.0, call.1);
    l.call(call);
}

// Every kind of property in every such scene; and where 1, 2 or 11 comes before 20.
fn looks(r: &mut Rng, l: &mut Lines) {
    for kind in PHANDLE..KINDS {
        for (bytes, used) in scenes() {
            scene(r, l, &bytes, used, (kind, "phandle"), None);
        }
        for state in ["node_depth", "node_ended"] {
            scene(r, l, &words(&[3, 0, 9]), 12, (kind, "phandle"), Some(state));
        }
        // the phandle's name is its own
        if kind != PHANDLE {
            scene(r, l, &words(&[3, 0, 21]), 12, (kind, "a@"), None);
        }
    }
}

// A value of a few hundred bytes: of a kind, or plain bytes where none of the kind is so long.
fn long_value(kind: u64) -> Value {
    match kind {
        7 => Value::Text(vec![b'a'; 300]),
        8 => Value::Texts(vec![b'a'; 300], vec![300]),
        11 => Value::U32s(vec![1; 75]),
        12 => Value::U64s(vec![1; 38]),
        _ => Value::Bytes(vec![b'a'; 300]),
    }
}

// A property of every kind, after one that is refused 14: of a name that is new, and of one that the node around has.
fn after_no_room(r: &mut Rng, l: &mut Lines) {
    for (kind, around) in (PHANDLE..KINDS).flat_map(|kind| [(kind, false), (kind, true)]) {
        l.step(Step::Buffers([300, 16, 4]));
        l.call(Call::New);
        l.call(Call::BeginNode(Vec::new()));
        if around {
            l.call(Call::Property(b"phandle".to_vec(), Value::Null));
            l.call(Call::BeginNode(Vec::new()));
        }
        l.call(Call::Property(b"phandle".to_vec(), long_value(kind)));
        while l.call(property_of(r, kind, "phandle")) != 0 {}
    }
}

// Nodes with ever more properties, with names far into the strings; in each then its first, middle and last name again.
fn long_nodes(l: &mut Lines) {
    let name = |k: usize| format!("station,prop-{k:03}").into_bytes();
    l.step(Step::Buffers([65_536, 8_192, 4]));
    l.call(Call::New);
    l.call(Call::BeginNode(Vec::new()));
    for many in (1..=24).chain([40, 64]) {
        l.call(Call::BeginNode(Vec::new()));
        for k in 0..many {
            l.call(Call::Property(name(k), Value::Bytes(vec![3; k % 9])));
        }
        for k in [0, many / 2, many - 1] {
            l.call(Call::Property(name(k), Value::Null));
        }
        l.call(Call::EndNode(2));
    }
}

// Every call that is lent a record and the blob, with the open node's properties at the structure's start and at the end.
fn bounds(r: &mut Rng, l: &mut Lines) {
    for (kind, at_the_end) in (0..KINDS).filter(|&kind| kind != BOOT).flat_map(|kind| [(kind, false), (kind, true)]) {
        l.step(Step::Buffers([200, 40, 4]));
        l.call(Call::New);
        l.call(Call::BeginNode(b"a".to_vec()));
        l.call(Call::Property(b"reg".to_vec(), Value::U32(1)));
        if kind == FINISH {
            l.call(Call::EndNode(1));
        }
        l.set("node_start", if at_the_end { l.m.record.blob_used } else { 56 });
        let call = match kind {
            BEGIN => Call::BeginNode(b"b".to_vec()),
            END => Call::EndNode(1),
            FINISH => Call::Finish,
            _ => property_of(r, kind, "reg"),
        };
        l.call(call);
    }
}

// Names that fill the strings at their ceiling, or one byte short of it.
fn many_names(r: &mut Rng, l: &mut Lines) {
    let lent = [6_000, r.of(&[8_191, 8_192, 8_193, 8_256]), 4];
    if !opened(r, l, lent, Call::New) {
        return;
    }
    l.call(Call::BeginNode(Vec::new()));
    for k in 0..258 {
        l.call(Call::Property(format!("{:-<31}", format!("n{k}")).into_bytes(), Value::Null));
    }
    l.call(Call::Property(b"n0".to_vec(), Value::Null));
    ending(r, l);
}

// Phandles that fill the table at its ceiling, or one entry short of it.
fn many_phandles(r: &mut Rng, l: &mut Lines) {
    let lent = [7_500, 16, r.of(&[255, 256, 257, 320])];
    if !opened(r, l, lent, Call::New) {
        return;
    }
    l.call(Call::BeginNode(Vec::new()));
    for k in 0..258 {
        l.call(Call::BeginNode(Vec::new()));
        l.call(Call::PropertyPhandle(k));
        l.call(Call::EndNode(2));
    }
    l.call(Call::BeginNode(Vec::new()));
    l.call(Call::PropertyPhandle(3));
    ending(r, l);
}

// Long values, up to the blob's ceiling and a few bytes around it.
fn long_values(r: &mut Rng, l: &mut Lines) {
    let lent = [r.of(&[65_535, 65_536, 65_537, 65_540, 65_600]), 64, 4];
    if !opened(r, l, lent, Call::New) {
        return;
    }
    l.call(Call::BeginNode(Vec::new()));
    let n = 1000 + r.below(3000);
    let long = bytes(r, n);
    l.call(Call::Property(b"long".to_vec(), Value::Bytes(long)));
    let n = 1000 + r.below(2000);
    let long = some(r, b"abc", n);
    l.call(Call::Property(b"text".to_vec(), Value::Text(long)));
    while l.m.record.blob_used + 8_400 < 65_536 {
        l.call(Call::BeginNode(Vec::new()));
        let ns: Vec<u64> = (0..1_024).map(|_| r.below(10)).collect();
        let value = if r.once_in(3) { Value::U32s(ns.iter().map(|&n| n as u32).collect()) } else { Value::U64s(ns) };
        l.call(Call::Property(b"cells".to_vec(), value));
    }
    // the ends of the nodes, the last word and three names have to fit as well
    l.call(Call::BeginNode(Vec::new()));
    let left = 65_536 - l.m.record.blob_used - 12 - 4 * l.m.record.node_depth - 4 - l.m.record.strings_used;
    let n = left + r.of(&[0, 0, 1, 4, 12, 16, 32]) - 8 * (left / 8);
    l.call(Call::Property(b"cells".to_vec(), Value::U64s(vec![0; (left / 8) as usize - 2])));
    l.call(Call::Property(b"text".to_vec(), Value::Bytes(vec![b'x'; n as usize])));
    ending(r, l);
}

// A random list of about so many bytes: large blocks first, then small ones of every kind.
pub fn random(seed: u64, bytes: usize) -> String {
    let (mut r, mut l) = (Rng(seed), Lines::new());
    if bytes >= 500_000 {
        many_names(&mut r, &mut l);
        many_phandles(&mut r, &mut l);
        long_values(&mut r, &mut l);
    }
    while l.text.len() < bytes.min(LONGEST - 40_000) {
        match r.below(46) {
            0 => deep(&mut r, &mut l),
            1..=14 => plain(&mut r, &mut l),
            15..=24 => tight(&mut r, &mut l),
            25..=32 => broken(&mut r, &mut l),
            33..=35 => repeated(&mut r, &mut l),
            36..=38 => looked(&mut r, &mut l),
            _ => foreign(&mut r, &mut l),
        }
    }
    (0..20).for_each(|_| beyond(&mut r, &mut l));
    l.text
}

// A fixed list of the blocks that meet rooms exactly, break records in one place and repeat names, so that every run has
// all corners.
pub fn corners() -> String {
    let (mut r, mut l) = (Rng(0), Lines::new());
    many_phandles(&mut r, &mut l);
    long_nodes(&mut l);
    for _ in 0..4 {
        bounds(&mut r, &mut l);
        looks(&mut r, &mut l);
        after_no_room(&mut r, &mut l);
    }
    while l.text.len() < 900_000 {
        match r.below(48) {
            0 => deep(&mut r, &mut l),
            1..=3 => plain(&mut r, &mut l),
            4..=23 => tight(&mut r, &mut l),
            24..=37 => broken(&mut r, &mut l),
            38..=41 => repeated(&mut r, &mut l),
            42..=45 => looked(&mut r, &mut l),
            _ => foreign(&mut r, &mut l),
        }
    }
    (0..40).for_each(|_| beyond(&mut r, &mut l));
    l.text
}

// ---- every short input

// Every name of up to so many bytes.
fn all_names(alphabet: &[u8], most: usize) -> Vec<Vec<u8>> {
    let (mut all, mut last) = (vec![Vec::new()], vec![Vec::new()]);
    for _ in 0..most {
        last = last.iter().flat_map(|n: &Vec<u8>| alphabet.iter().map(move |&b| [&n[..], &[b]].concat())).collect();
        all.extend(last.clone());
    }
    all
}

// Every byte alone, every name of up to 2 bytes over a small alphabet and of up to 4 over a smaller one:
// begun and ended, and as a property.
pub fn names() -> String {
    let mut l = Lines::new();
    let mut all: Vec<_> = (0..=255).map(|b| vec![b]).collect();
    all.extend(all_names(b"\0az AZ09,._+-?#@/:[`{!~\\\x7f\x80\xc3\xa9\xff", 2));
    all.extend(all_names(b"a0@-\0?", 4));
    for some in all.chunks(40) {
        l.step(Step::Buffers([2_000, 400, 1]));
        l.call(Call::New);
        for name in some {
            if l.call(Call::BeginNode(name.clone())) == 0 {
                l.call(Call::EndNode(1));
            }
        }
        l.call(Call::BeginNode(Vec::new()));
        for name in some {
            l.call(Call::Property(name.clone(), Value::Null));
        }
        l.close();
    }
    l.text
}

// The small set: with it every state of depth 0 to 5, ended or not, is reached from every other.
fn small_set() -> Vec<Call> {
    vec![
        Call::BeginNode(b"a".to_vec()),
        Call::EndNode(1),
        Call::EndNode(2),
        Call::Property(b"p".to_vec(), Value::Null),
        Call::PropertyPhandle(7),
        Call::Finish,
        Call::PropertyPhandle(8),
    ]
}

// A row of five calls of the set, by its number, up to the first that a closed writer refuses;
// nothing where a row of a lower number is then the same.
fn row(set: &[Call], mut left: u64, lent: [usize; 3]) -> Vec<Call> {
    let (mut m, mut calls) = (Model::new(), Vec::new());
    m.lent = lent;
    m.call(&Call::New);
    for _ in 0..5 {
        calls.push(set[(left % set.len() as u64) as usize].clone());
        left /= set.len() as u64;
        if m.call(&calls[calls.len() - 1]).number == 18 {
            return if left == 0 { calls } else { Vec::new() };
        }
    }
    calls
}

// Every row of five calls of the set after an opening, in lists of so many rows; with room enough, and then with little.
// A shorter row is the front of a longer one, and every call is answered, so shorter rows are there too.
pub fn calls(part: u64) -> String {
    const ROWS: u64 = 8_000;
    let set = small_set();
    let few = [&set[..2], &set[3..6]].concat();
    let (many, all) = (7u64.pow(5), 7u64.pow(5) + 5u64.pow(5));
    let mut l = Lines::new();
    for k in (part * ROWS)..((part + 1) * ROWS).min(all) {
        let (set, number, lent) = if k < many { (&set, k, [200, 32, 4]) } else { (&few, k - many, [88, 9, 1]) };
        let calls = row(set, number, lent);
        if !calls.is_empty() {
            l.step(Step::Buffers(lent.map(|n| n as u64)));
            l.call(Call::New);
            calls.into_iter().for_each(|call| {
                l.call(call);
            });
        }
    }
    if part * ROWS < all {
        l.text
    } else {
        String::new()
    }
}
