// A model of the writer, written from documents 01 and 02 alone: the record, the buffers, every answer and every byte.
// Sums are formed in 128 bits, so none wraps.

// The buffers that a list is run over, and how much of each is usable at most.
pub const BLOB: usize = 65_600;
pub const STRINGS: usize = 8_256;
pub const PHANDLES: usize = 320;
const CEILINGS: [u64; 3] = [65_536, 8_192, 256];
const MOST_RESERVATIONS: u64 = 64;
const MOST_DEPTH: u64 = 64;

// The record's fields, in the order of a report.
pub const FIELDS: [&str; 12] = [
    "blob_room",
    "blob_used",
    "strings_room",
    "strings_used",
    "phandles_room",
    "phandles_used",
    "reservations",
    "node_depth",
    "node_start",
    "boot_cpuid_phys",
    "node_ended",
    "finished",
];

#[derive(Clone, Copy, PartialEq, Eq, Debug)]
pub struct Record {
    pub blob_room: u64,
    pub blob_used: u64,
    pub strings_room: u64,
    pub strings_used: u64,
    pub phandles_room: u64,
    pub phandles_used: u64,
    pub reservations: u64,
    pub node_depth: u64,
    pub node_start: u64,
    pub boot_cpuid_phys: u32,
    pub node_ended: bool,
    pub finished: bool,
}

impl Record {
    // 0 everywhere, and marked finished.
    pub const CLOSED: Record = Record {
        blob_room: 0,
        blob_used: 0,
        strings_room: 0,
        strings_used: 0,
        phandles_room: 0,
        phandles_used: 0,
        reservations: 0,
        node_depth: 0,
        node_start: 0,
        boot_cpuid_phys: 0,
        node_ended: false,
        finished: true,
    };

    // The fields as numbers, in their order.
    pub fn apart(&self) -> [u64; 12] {
        [
            self.blob_room,
            self.blob_used,
            self.strings_room,
            self.strings_used,
            self.phandles_room,
            self.phandles_used,
            self.reservations,
            self.node_depth,
            self.node_start,
            self.boot_cpuid_phys as u64,
            self.node_ended as u64,
            self.finished as u64,
        ]
    }

    // Gives the field of a name a number; another name changes nothing.
    pub fn set(&mut self, field: &str, n: u64) {
        match field {
            "blob_room" => self.blob_room = n,
            "blob_used" => self.blob_used = n,
            "strings_room" => self.strings_room = n,
            "strings_used" => self.strings_used = n,
            "phandles_room" => self.phandles_room = n,
            "phandles_used" => self.phandles_used = n,
            "reservations" => self.reservations = n,
            "node_depth" => self.node_depth = n,
            "node_start" => self.node_start = n,
            "boot_cpuid_phys" => self.boot_cpuid_phys = n as u32,
            "node_ended" => self.node_ended = n != 0,
            "finished" => self.finished = n != 0,
            _ => {}
        }
    }

    // Where the structure starts.
    pub fn structure(&self) -> u128 {
        56 + 16 * self.reservations as u128
    }

    // At which bound alone the open node's properties start, if they do: of the structure's start and the used length.
    pub fn bound(&self) -> &'static str {
        let at = self.node_start as u128;
        match (at == self.structure(), self.node_start == self.blob_used) {
            (true, false) => "at-structure",
            (false, true) => "at-end",
            _ => "",
        }
    }
}

// A property's value, by the call that takes it.
#[derive(Clone, PartialEq, Eq, Debug)]
pub enum Value {
    Bytes(Vec<u8>),
    Null,
    Text(Vec<u8>),
    Texts(Vec<u8>, Vec<u64>),
    U32(u32),
    U64(u64),
    U32s(Vec<u32>),
    U64s(Vec<u64>),
}

// A public call, with all that it is given but the record and the buffers.
#[derive(Clone, PartialEq, Eq, Debug)]
pub enum Call {
    New,
    NewWithMemReserv(Vec<u64>),
    SetBootCpuidPhys(u32),
    BeginNode(Vec<u8>),
    EndNode(u64),
    Property(Vec<u8>, Value),
    PropertyPhandle(u32),
    Finish,
}

impl Call {
    // Whether it is lent a record and the blob.
    pub fn lent_a_record_and_the_blob(&self) -> bool {
        !matches!(self, Call::New | Call::NewWithMemReserv(_) | Call::SetBootCpuidPhys(_))
    }
}

// What a call answers. The cause says which of several reasons a refusal had, or which corner was met. The look says how
// the look back for an accepted property ended, if its name was stored.
#[derive(Clone, Copy, PartialEq, Eq, Debug)]
pub struct Outcome {
    pub number: u32,
    pub handle: u64,
    pub cause: &'static str,
    pub look: &'static str,
}

fn accepted(cause: &'static str) -> Outcome {
    Outcome { number: 0, handle: 0, cause, look: "" }
}

fn refused(number: u32, cause: &'static str) -> Outcome {
    Outcome { number, handle: 0, cause, look: "" }
}

// A refusal as the other side of a test.
type Tested<T> = Result<T, Outcome>;

fn refuse_if(condition: bool, number: u32, cause: &'static str) -> Tested<()> {
    if condition {
        Err(refused(number, cause))
    } else {
        Ok(())
    }
}

fn round_up(n: u128) -> u128 {
    n.div_ceil(4) * 4
}

// The bytes that a property of this value holds; strings each get their 0.
pub fn value_bytes(value: &Value) -> Vec<u8> {
    match value {
        Value::Bytes(b) => b.clone(),
        Value::Null => Vec::new(),
        Value::Text(b) => [b, &[0][..]].concat(),
        Value::Texts(b, lengths) => {
            let (mut out, mut at) = (Vec::new(), 0);
            for &n in lengths {
                out.extend_from_slice(&b[at..at + n as usize]);
                out.push(0);
                at += n as usize;
            }
            out
        }
        Value::U32(n) => n.to_be_bytes().to_vec(),
        Value::U64(n) => n.to_be_bytes().to_vec(),
        Value::U32s(ns) => ns.iter().flat_map(|n| n.to_be_bytes()).collect(),
        Value::U64s(ns) => ns.iter().flat_map(|n| n.to_be_bytes()).collect(),
    }
}

fn in_node_name(b: u8) -> bool {
    b.is_ascii_alphanumeric() || b",._+-".contains(&b)
}

// Empty, or a letter, then at most 30 of the class, then optionally one `@` and any number of the class.
pub fn node_name(name: &[u8]) -> bool {
    let Some(first) = name.first() else { return true };
    let base = name.iter().position(|&b| b == b'@').unwrap_or(name.len());
    let unit = name.get(base + 1..).unwrap_or(&[]);
    let class = |part: &[u8]| part.iter().all(|&b| in_node_name(b));
    first.is_ascii_alphabetic() && base <= 31 && class(&name[..base]) && class(unit)
}

// 1 to 31 bytes of the class.
pub fn property_name(name: &[u8]) -> bool {
    (1..=31).contains(&name.len()) && name.iter().all(|&b| b.is_ascii_alphanumeric() || b",._+?#-".contains(&b))
}

// Whether some address lies in two of the reservations.
fn overlapping(pairs: &[(u64, u64)]) -> bool {
    let end = |p: &(u64, u64)| p.0 as u128 + p.1 as u128;
    pairs.iter().enumerate().any(|(i, p)| pairs[i + 1..].iter().any(|q| (p.0.max(q.0) as u128) < end(p).min(end(q))))
}

// Which buffers a call is lent beside the record.
#[derive(Clone, Copy, PartialEq)]
enum Lent {
    None,
    Blob,
    BlobAndStrings,
    All,
}

// The record and the three buffers that a list is run over, and how much of each is lent.
#[derive(Clone)]
pub struct Model {
    pub record: Record,
    pub blob: Vec<u8>,
    pub strings: Vec<u8>,
    pub phandles: Vec<u32>,
    pub lent: [usize; 3],
}

impl Model {
    pub fn new() -> Model {
        Model {
            record: Record::CLOSED,
            blob: vec![0xee; BLOB],
            strings: vec![0xee; STRINGS],
            phandles: vec![0xeeee_eeee; PHANDLES],
            lent: [0; 3],
        }
    }

    // How much of the blob, the strings or the phandles is usable.
    pub fn usable(&self, buffer: usize) -> u64 {
        CEILINGS[buffer].min(self.lent[buffer] as u64)
    }

    pub fn used_strings(&self) -> &[u8] {
        &self.strings[..self.record.strings_used as usize]
    }

    // All reasons for a misfit of the record with the buffers that are lent.
    fn misfits(&self, lent: Lent) -> Vec<&'static str> {
        let (r, mut all) = (&self.record, Vec::new());
        let mut tell = |condition: bool, cause| {
            if condition {
                all.push(cause)
            }
        };
        tell(r.node_depth > MOST_DEPTH, "depth");
        tell(r.reservations > MOST_RESERVATIONS, "reservations");
        if lent != Lent::None {
            let usable = self.usable(0);
            tell(usable != r.blob_room, "blob-length");
            tell(r.blob_used > usable, "blob-used-above");
            tell(r.blob_used % 4 != 0, "blob-used-odd");
            let below = (r.blob_used as u128) < r.structure();
            tell(below, "blob-used-below");
            tell(r.node_start % 4 != 0, "node-start-odd");
            // no place lies between the structure's start and a used length below it
            tell(!below && (r.node_start as u128) < r.structure(), "node-start-below");
            tell(!below && r.node_start > r.blob_used, "node-start-above");
        }
        if lent == Lent::BlobAndStrings || lent == Lent::All {
            let (usable, used) = (self.usable(1), r.strings_used);
            tell(usable != r.strings_room, "strings-length");
            tell(used > usable, "strings-used-above");
            tell(0 < used && used <= usable && self.strings[used as usize - 1] != 0, "strings-last-byte");
        }
        if lent == Lent::All {
            tell(self.usable(2) != r.phandles_room, "phandles-length");
            tell(r.phandles_used > self.usable(2), "phandles-used-above");
        }
        all
    }

    // 18, then 17. Where several reasons hold, none is told, so that each is counted where it alone counts.
    fn open_and_fit(&self, lent: Lent) -> Tested<()> {
        refuse_if(self.record.finished, 18, "")?;
        match self.misfits(lent)[..] {
            [] => Ok(()),
            [cause] => Err(refused(17, cause)),
            _ => Err(refused(17, "several")),
        }
    }

    // 14 where so many bytes more do not fit; otherwise whether they fill the blob.
    fn room(&self, bytes: u128) -> Tested<&'static str> {
        let (needed, usable) = (self.record.blob_used as u128 + bytes, self.usable(0) as u128);
        refuse_if(needed > usable, 14, if needed == usable + 1 { "one-short" } else { "" })?;
        Ok(if needed == usable { "full" } else { "" })
    }

    // Writes bytes at the end of the used blob, and zeros up to a multiple of 4.
    fn append(&mut self, bytes: &[u8]) {
        let (at, to) = (self.record.blob_used as usize, round_up(bytes.len() as u128) as usize);
        self.blob[at..at + to].fill(0);
        self.blob[at..at + bytes.len()].copy_from_slice(bytes);
        self.record.blob_used += to as u64;
    }

    // The offset of the first whole entry of the used strings that is the name.
    fn find(&self, name: &[u8]) -> Option<usize> {
        let mut at = 0;
        for entry in self.used_strings().split_inclusive(|&b| b == 0) {
            if entry.last() == Some(&0) && &entry[..entry.len() - 1] == name {
                return Some(at);
            }
            at += entry.len();
        }
        None
    }

    // The number of 4 bytes at a place of the used blob, if they are inside.
    fn word(&self, at: u128) -> Option<u32> {
        let used = &self.blob[..self.record.blob_used as usize];
        let at = usize::try_from(at).ok()?;
        used.get(at..at.checked_add(4)?).map(|b| u32::from_be_bytes(b.try_into().unwrap()))
    }

    // The whole property at a place of the used blob, as its name's offset and where it ends; or what stands there.
    fn whole_property(&self, at: u128) -> Result<(u32, u128), &'static str> {
        match self.word(at) {
            None => return Err("to-the-end"),
            Some(3) => {}
            Some(4) => return Err("word-4"),
            Some(_) => return Err("other-word"),
        }
        let (Some(length), Some(offset)) = (self.word(at + 4), self.word(at + 8)) else {
            return Err("cut-head");
        };
        let size = 12 + round_up(length as u128);
        if at + size <= self.record.blob_used as u128 {
            Ok((offset, at + size))
        } else if size < 1 << 32 {
            Err("cut-value")
        } else {
            Err("huge-length")
        }
    }

    // Whether the open node has a property whose name has this offset: nothing where it has, and otherwise how the look
    // back ended.
    fn look_back(&self, name: &[u8], offset: u32) -> Option<&'static str> {
        let (mut at, mut alike) = (self.record.node_start as u128, false);
        loop {
            match self.whole_property(at) {
                Ok((found, _)) if found == offset => return None,
                Ok((found, end)) => {
                    alike |= self.named_at(name, found);
                    at = end;
                }
                Err(_) if alike => return Some("other-offset"),
                Err(stopped) => return Some(stopped),
            }
        }
    }

    // Whether the name and its 0 stand at an offset of the used strings.
    fn named_at(&self, name: &[u8], offset: u32) -> bool {
        let rest = self.used_strings().get(offset as usize..).unwrap_or(&[]);
        rest.strip_prefix(name).is_some_and(|after| after.first() == Some(&0))
    }

    // 20 where the open node has the property; otherwise how the look back ended, if the name is stored. A refusal's cause
    // is what a later test would refuse.
    fn distinct(&self, name: &[u8], bytes: u128) -> Tested<&'static str> {
        let Some(offset) = self.find(name) else { return Ok("") };
        let full = self.record.strings_used == self.usable(1);
        let cause = match self.room(bytes) {
            Err(_) => "no-room",
            Ok(_) if full => "strings-full",
            Ok(_) => "",
        };
        self.look_back(name, offset as u32).ok_or(refused(20, cause))
    }

    // Makes a call: its answer, and all that it changes.
    pub fn call(&mut self, call: &Call) -> Outcome {
        let answered = match call {
            Call::New => self.open(&[]),
            Call::NewWithMemReserv(numbers) => self.open(numbers),
            Call::SetBootCpuidPhys(n) => self.boot(*n),
            Call::BeginNode(name) => self.begin(name),
            Call::EndNode(handle) => self.end(*handle),
            Call::Property(name, value) => self.property(name, value),
            Call::PropertyPhandle(n) => self.phandle(*n),
            Call::Finish => self.finish(),
        };
        answered.unwrap_or_else(|refusal| refusal)
    }

    fn open(&mut self, numbers: &[u64]) -> Tested<Outcome> {
        self.record = Record::CLOSED;
        let pairs: Vec<_> = numbers.chunks_exact(2).map(|p| (p[0], p[1])).collect();
        let past = |p: &(u64, u64)| p.0 as u128 + p.1 as u128 >= 1 << 64;
        refuse_if(numbers.len() % 2 != 0, 17, "odd-count")?;
        refuse_if(pairs.len() as u64 > MOST_RESERVATIONS, 19, "")?;
        let cause = if pairs.iter().any(past) { "past-the-end" } else { "size-0" };
        refuse_if(pairs.iter().any(|p| p.1 == 0 || past(p)), 8, cause)?;
        refuse_if(overlapping(&pairs), 9, "")?;
        let cause = self.room(56 + 16 * pairs.len() as u128)?;
        let mut bytes = vec![0; 40];
        pairs.iter().for_each(|p| bytes.extend([p.0.to_be_bytes(), p.1.to_be_bytes()].concat()));
        bytes.extend([0; 16]);
        self.append(&bytes);
        self.record.reservations = pairs.len() as u64;
        self.record.node_start = self.record.blob_used;
        self.record.blob_room = self.usable(0);
        self.record.strings_room = self.usable(1);
        self.record.phandles_room = self.usable(2);
        self.record.finished = false;
        Ok(accepted(cause))
    }

    fn boot(&mut self, n: u32) -> Tested<Outcome> {
        self.open_and_fit(Lent::None)?;
        self.record.boot_cpuid_phys = n;
        Ok(accepted(""))
    }

    fn begin(&mut self, name: &[u8]) -> Tested<Outcome> {
        self.open_and_fit(Lent::Blob)?;
        refuse_if(self.record.node_depth == MOST_DEPTH, 12, "")?;
        refuse_if(name.contains(&0), 5, "name")?;
        refuse_if(!node_name(name), 10, "")?;
        let cause = self.room(4 + round_up(name.len() as u128 + 1))?;
        self.append(&[&[0, 0, 0, 1], name, &[0]].concat());
        self.record.node_depth += 1;
        self.record.node_ended = false;
        self.record.node_start = self.record.blob_used;
        Ok(Outcome { handle: self.record.node_depth, ..accepted(cause) })
    }

    fn end(&mut self, handle: u64) -> Tested<Outcome> {
        self.open_and_fit(Lent::Blob)?;
        refuse_if(self.record.node_depth == 0, 6, "depth-0")?;
        refuse_if(handle != self.record.node_depth, 6, "handle-differs")?;
        let cause = self.room(4)?;
        self.append(&[0, 0, 0, 2]);
        self.record.node_depth -= 1;
        self.record.node_ended = true;
        Ok(accepted(cause))
    }

    fn property(&mut self, name: &[u8], value: &Value) -> Tested<Outcome> {
        self.open_and_fit(Lent::BlobAndStrings)?;
        if let Value::Texts(bytes, lengths) = value {
            let sum: u128 = lengths.iter().map(|&n| n as u128).sum();
            refuse_if(sum != bytes.len() as u128, 17, "lengths")?;
        }
        if let Value::Text(bytes) | Value::Texts(bytes, _) = value {
            refuse_if(bytes.contains(&0), 5, "value")?;
        }
        self.write_property(name, &value_bytes(value))
    }

    // From test 2 on: the same for every kind.
    fn write_property(&mut self, name: &[u8], value: &[u8]) -> Tested<Outcome> {
        let bytes = 12 + round_up(value.len() as u128);
        let distinct = self.distinct(name, bytes);
        let twice = if distinct.is_err() { "twice" } else { "" };
        refuse_if(self.record.node_ended, 2, twice)?;
        refuse_if(self.record.node_depth == 0, 1, twice)?;
        refuse_if(name.contains(&0), 5, "name")?;
        refuse_if(!property_name(name), 11, twice)?;
        let look = distinct?;
        let (found, used) = (self.find(name), self.record.strings_used as usize);
        let (needed, usable) = (used + name.len() + 1, self.usable(1) as usize);
        refuse_if(found.is_none() && needed > usable, 15, if needed == usable + 1 { "one-short" } else { "" })?;
        let cause = self.room(bytes)?;
        if found.is_none() {
            self.strings[used..needed - 1].copy_from_slice(name);
            self.strings[needed - 1] = 0;
            self.record.strings_used = needed as u64;
        }
        let offset = found.unwrap_or(used) as u32;
        self.append(&[&[0, 0, 0, 3], &(value.len() as u32).to_be_bytes()[..], &offset.to_be_bytes(), value].concat());
        let cause = if found.is_none() && needed == usable { "strings-full" } else { cause };
        Ok(Outcome { look, ..accepted(cause) })
    }

    fn phandle(&mut self, n: u32) -> Tested<Outcome> {
        self.open_and_fit(Lent::All)?;
        let count = self.record.phandles_used as usize;
        refuse_if(
            self.phandles[..count].contains(&n),
            13,
            if count as u64 == self.usable(2) { "table-full" } else { "" },
        )?;
        refuse_if(count as u64 == self.usable(2), 16, "")?;
        self.phandles[count] = n;
        self.record.phandles_used += 1;
        self.write_property(b"phandle", &n.to_be_bytes())
    }

    fn finish(&mut self) -> Tested<Outcome> {
        self.open_and_fit(Lent::BlobAndStrings)?;
        refuse_if(self.record.node_depth > 0, 7, "")?;
        let strings = self.used_strings().to_vec();
        let cause = self.room(4 + strings.len() as u128)?;
        self.append(&[0, 0, 0, 9]);
        let (start, end) = (56 + 16 * self.record.reservations, self.record.blob_used);
        let total = end as usize + strings.len();
        self.blob[end as usize..total].copy_from_slice(&strings);
        let words = [
            0xd00d_feed,
            total as u32,
            start as u32,
            end as u32,
            40,
            17,
            16,
            self.record.boot_cpuid_phys,
            strings.len() as u32,
            (end - start) as u32,
        ];
        for (k, word) in words.iter().enumerate() {
            self.blob[4 * k..4 * k + 4].copy_from_slice(&word.to_be_bytes());
        }
        self.record.blob_used = total as u64;
        self.record.finished = true;
        Ok(accepted(cause))
    }

    // The shown part, and why it is empty where it is.
    pub fn show(&self) -> (&[u8], &'static str) {
        let (r, usable) = (&self.record, self.usable(0));
        if !r.finished {
            (&[], "open")
        } else if usable != r.blob_room {
            (&[], "blob-length")
        } else if r.blob_used > usable {
            (&[], "blob-used-above")
        } else if r.blob_used == 0 {
            (&[], "nothing")
        } else {
            (&self.blob[..r.blob_used as usize], "shown")
        }
    }
}
