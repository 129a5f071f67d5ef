// A model of the reader, written from documents 01 and 02 alone: a node reads its properties and then its children,
// and each child is a node again. Each leads on to the next token, past the words 4 before it. Words have 32 bits and
// sums of them are formed in 64, so none wraps.
use std::collections::BTreeSet;

// The deepest that a node may lie.
const MOST_DEPTH: u64 = 64;
// Sums that do not fit in a word wrap where a program forms them in 32 bits.
const WRAPS: u64 = 1 << 32;
const BEGIN: u64 = 1;
const END: u64 = 2;
const PROPERTY: u64 = 3;
const NO_OPERATION: u64 = 4;
const FINAL: u64 = 9;

// What the reader must answer: number, values and place of the fault; and what is counted: whether words 4 come
// before the fault, the causes and the corners.
pub struct Outcome {
    pub number: u32,
    pub values: [u64; 3],
    pub place: u64,
    pub after_4: bool,
    pub causes: Vec<&'static str>,
}

// A refusal: its number, the place of the fault, whether words 4 come before it, and its causes.
struct Fault {
    number: u32,
    place: u64,
    after_4: bool,
    causes: Vec<&'static str>,
}

type Tested<T> = Result<T, Fault>;

// A refusal for reasons of which there is at least one. Each is counted where it alone counts.
fn refused<T>(number: u32, place: u64, reasons: &[&'static str], corners: &[&'static str]) -> Tested<T> {
    let cause = if let [one] = reasons { one } else { "several" };
    Err(Fault { number, place, after_4: false, causes: [&[cause], corners].concat() })
}

// The texts whose conditions hold.
fn those(all: &[(bool, &'static str)]) -> Vec<&'static str> {
    all.iter().filter(|one| one.0).map(|one| one.1).collect()
}

// The word at a place, if it lies inside.
fn word(bytes: &[u8], at: u64) -> Option<u64> {
    let four = bytes.get(usize::try_from(at).ok()?..)?.get(..4)?;
    Some(u64::from(u32::from_be_bytes(four.try_into().ok()?)))
}

fn round_up(n: u64) -> u64 {
    n.div_ceil(4) * 4
}

// ---- the header and the reservations

// A part of the blob.
#[derive(Clone, Copy)]
struct Area {
    start: u64,
    end: u64,
}

impl Area {
    fn meets(self, other: Area) -> bool {
        self.start.max(other.start) < self.end.min(other.end)
    }
}

#[derive(Clone, Copy)]
struct Header {
    reservations: u64,
    boot: u64,
    structure: Area,
    strings: Area,
}

// The ten words of a header; a byte that is not there counts as 0.
fn header_words(blob: &[u8]) -> [u64; 10] {
    let front = [&blob[..blob.len().min(40)], &[0; 40]].concat();
    std::array::from_fn(|k| word(&front, 4 * k as u64).unwrap_or(0))
}

// The header's areas, which may lie outside.
fn header_of(w: &[u64; 10]) -> Header {
    let area = |start, size| Area { start, end: start + size };
    Header { reservations: w[4], boot: w[7], structure: area(w[2], w[9]), strings: area(w[3], w[8]) }
}

// What is wrong with a header, apart from a blob that is too short for one.
fn header_reasons(w: &[u64; 10], length: u64) -> Vec<&'static str> {
    those(&[
        (w[0] != 0xd00d_feed, "magic"),
        (w[1] != length, "total-size"),
        (w[5] != 17, "version"),
        (w[6] != 16, "compatible"),
        (w[4] % 8 != 0, "reservations-alignment"),
        (w[2] % 4 != 0, "structure-alignment"),
        (header_of(w).structure.end > length, "structure-outside"),
        (header_of(w).strings.end > length, "strings-outside"),
    ])
}

// The corners of a header that is wrong for some reasons.
fn header_corners(w: &[u64; 10], length: u64, reasons: &[&str]) -> Vec<&'static str> {
    let (alone, h) = (|reason| reasons == [reason], header_of(w));
    those(&[
        (alone("total-size") && w[1] + 1 == length, "one-byte-more"),
        (alone("total-size") && w[1] == length + 1, "one-byte-less"),
        (alone("reservations-alignment") && w[4] % 4 == 0, "reservations-at-4"),
        (alone("structure-alignment") && w[2] % 2 == 0, "structure-at-2"),
        (alone("structure-outside") && h.structure.end == length + 1, "structure-one-over"),
        (alone("structure-outside") && h.structure.end >= WRAPS, "structure-wraps"),
        (alone("strings-outside") && h.strings.end == length + 1, "strings-one-over"),
        (alone("strings-outside") && h.strings.end >= WRAPS, "strings-wraps"),
    ])
}

// The header of a blob that has a good one.
fn header(blob: &[u8]) -> Tested<Header> {
    let (w, length) = (header_words(blob), blob.len() as u64);
    let reasons = header_reasons(&w, length);
    if length < 40 {
        return refused(21, 0, &["below-40"], &those(&[(reasons.is_empty(), "else-good")]));
    }
    if !reasons.is_empty() {
        let both = those(&[(reservations(blob, w[4]).is_err(), "and-22")]);
        return refused(21, 0, &reasons, &[header_corners(&w, length, &reasons), both].concat());
    }
    Ok(header_of(&w))
}

// How many pairs stand before the first all-zero one.
fn reservations(blob: &[u8], start: u64) -> Tested<u64> {
    let Some(rest) = usize::try_from(start).ok().and_then(|start| blob.get(start..)) else {
        return refused(22, start, &["outside"], &[]);
    };
    let (pairs, cut) = (rest.chunks_exact(16), rest.chunks_exact(16).remainder());
    match pairs.into_iter().position(|pair| pair.iter().all(|&b| b == 0)) {
        Some(count) => Ok(count as u64),
        None if cut.iter().any(|&b| b != 0) => refused(22, start, &["no-pair"], &[]),
        None if cut.is_empty() => refused(22, start, &["no-pair"], &["to-the-end"]),
        None => refused(22, start, &["cut-pair"], &if cut.len() == 15 { vec!["one-short"] } else { vec![] }),
    }
}

// ---- the structure

// A walk over the structure, with what it has met.
struct Walk<'a> {
    blob: &'a [u8],
    header: Header,
    // whether name offsets and the depth are judged
    judged: bool,
    // where the last words 4 that it skipped end
    skipped: Option<u64>,
    entries: Vec<[u64; 4]>,
    corners: BTreeSet<&'static str>,
}

impl Walk<'_> {
    fn new(blob: &[u8], header: Header, judged: bool) -> Walk<'_> {
        Walk { blob, header, judged, skipped: None, entries: Vec::new(), corners: BTreeSet::new() }
    }

    fn end(&self) -> u64 {
        self.header.structure.end
    }

    // The word at a place of the structure, if it lies inside.
    fn word(&self, at: u64) -> Option<u64> {
        word(&self.blob[..self.end() as usize], at)
    }

    fn note(&mut self, condition: bool, corner: &'static str) {
        if condition {
            self.corners.insert(corner);
        }
    }

    // Notes padding that is not 0.
    fn note_padding(&mut self, from: u64, to: u64) {
        self.note(self.blob[from as usize..to as usize].iter().any(|&b| b != 0), "padding-not-0");
    }

    // Notes a value that has a word 4.
    fn note_value(&mut self, from: u64, to: u64) {
        let mut words = self.blob[from as usize..to as usize].chunks_exact(4);
        self.note(words.any(|word| word == [0, 0, 0, 4]), "4-in-a-value");
    }

    // Whether words 4 come just before a token.
    fn after_4(&self, at: u64) -> bool {
        self.skipped == Some(at)
    }

    // The place of the next token: here, or after the words 4 that are here.
    fn next(&mut self, at: u64) -> u64 {
        if self.word(at) != Some(NO_OPERATION) {
            return at;
        }
        self.note(self.after_4(at), "several-4s");
        self.skipped = Some(at + 4);
        self.next(at + 4)
    }

    // Reports a token, and notes what it is where words 4 come before it.
    fn report(&mut self, entry: [u64; 4], corner: &'static str) {
        self.note(self.after_4(entry[1]), corner);
        self.entries.push(entry);
    }

    // Reads any number of nodes, and then the final word, which must end the structure.
    fn whole(&mut self) -> Tested<()> {
        let (mut at, mut tops) = (self.next(self.header.structure.start), 0);
        while self.word(at) == Some(BEGIN) {
            at = self.node(at, 1)?;
            tops += 1;
        }
        self.note(tops == 0, "no-node");
        self.note(tops > 1, "several-tops");
        self.note(self.after_4(at), "4-before-final");
        match self.word(at) {
            Some(FINAL) if at + 4 == self.end() => Ok(()),
            Some(FINAL) => refused(23, at, &["final-early"], &[]),
            Some(END) => refused(23, at, &["end-without-node"], &[]),
            Some(PROPERTY) => self.property(at, &["property-outside-nodes"]).map(|_| ()),
            _ => self.no_token(at),
        }
    }

    // Reads a node that would lie so deep, with its properties and its children: the next token.
    fn node(&mut self, at: u64, depth: u64) -> Tested<u64> {
        let mut at = self.begin(at, depth)?;
        while self.word(at) == Some(PROPERTY) {
            at = self.property(at, &[])?;
        }
        while self.word(at) == Some(BEGIN) {
            at = self.node(at, depth + 1)?;
        }
        match self.word(at) {
            Some(END) => {
                self.report([END, at, 0, 0], "4-before-end");
                Ok(self.next(at + 4))
            }
            Some(PROPERTY) => self.property(at, &["property-after-child"]),
            Some(FINAL) if at + 4 == self.end() => refused(23, at, &["final-inside-node"], &[]),
            Some(FINAL) => refused(23, at, &["final-inside-node", "final-early"], &[]),
            _ => self.no_token(at),
        }
    }

    // The fault of a place where no token is.
    fn no_token<T>(&self, at: u64) -> Tested<T> {
        let (only, cut) = (self.entries.is_empty() && self.after_4(at), word(self.blob, at) == Some(NO_OPERATION));
        match self.word(at) {
            None if at == self.end() => refused(23, at, &["no-word"], &those(&[(only, "only-4s")])),
            None => refused(23, at, &["cut-word"], &those(&[(cut, "cut-4")])),
            Some(0) => refused(23, at, &["token-0"], &[]),
            Some(_) => refused(23, at, &["unknown-token"], &[]),
        }
    }

    // The corner of a begin after words 4, by the depth of its node.
    fn begin_corner(&self, depth: u64) -> &'static str {
        match depth {
            1 if self.entries.is_empty() => "4-before-first-top",
            1 => "4-before-later-top",
            _ => "4-before-child",
        }
    }

    // Reads a begin with its name: the next token.
    fn begin(&mut self, at: u64, depth: u64) -> Tested<u64> {
        let (name, too_deep) = (at + 4, depth > MOST_DEPTH);
        let both = those(&[(too_deep, "and-25")]);
        let rest = &self.blob[name as usize..self.end() as usize];
        let Some(length) = rest.iter().position(|&b| b == 0) else {
            return refused(23, at, &["name-outside"], &both);
        };
        let (past, next) = (name + length as u64 + 1, round_up(name + length as u64 + 1));
        if next > self.end() {
            return refused(23, at, &["name-padding-outside"], &both);
        }
        if too_deep && self.judged {
            return refused(25, at, &["depth-65"], &[]);
        }
        self.note(depth == MOST_DEPTH, "depth-64");
        self.note(depth == 1 && length > 0, "named-top");
        self.note(depth > 1 && length == 0, "empty-name-below");
        self.note_padding(past, next);
        self.report([BEGIN, at, name, 0], self.begin_corner(depth));
        Ok(self.next(next))
    }

    // Reads a property, which may stand where none is allowed: the next token.
    fn property(&mut self, at: u64, reasons: &[&'static str]) -> Tested<u64> {
        let (Some(length), Some(offset)) = (self.word(at + 4), self.word(at + 8)) else {
            return refused(23, at, &[reasons, &["property-head-outside"]].concat(), &[]);
        };
        let (past, next) = (at + 12 + length, at + 12 + round_up(length));
        let more = those(&[
            (past > self.end(), "value-outside"),
            (past <= self.end() && next > self.end(), "value-padding-outside"),
        ]);
        let no_name = self.no_name(offset);
        if !reasons.is_empty() || !more.is_empty() {
            let corners = those(&[
                (no_name.is_some(), "and-24"),
                (past == self.end() + 1, "value-one-over"),
                (next >= WRAPS, "value-wraps"),
            ]);
            return refused(23, at, &[reasons, &more].concat(), &corners);
        }
        if let (Some(reason), true) = (no_name, self.judged) {
            return refused(24, at, &[reason], &self.name_corners(offset));
        }
        self.note_name(offset);
        self.note(length == 0, "empty-value");
        self.note_value(at + 12, past);
        self.note_padding(past, next);
        self.report([PROPERTY, at, self.header.strings.start + offset, length], "4-before-property");
        Ok(self.next(next))
    }

    fn strings(&self) -> &[u8] {
        &self.blob[self.header.strings.start as usize..self.header.strings.end as usize]
    }

    // Why a name offset meets no 0 inside the strings, where it meets none.
    fn no_name(&self, offset: u64) -> Option<&'static str> {
        match self.strings().get(offset as usize..) {
            None => Some("offset-past-the-strings"),
            Some([]) => Some("offset-at-the-end"),
            Some(rest) if !rest.contains(&0) => Some("no-0"),
            Some(_) => None,
        }
    }

    // The corners of a name that meets no 0 in the strings.
    fn name_corners(&self, offset: u64) -> Vec<&'static str> {
        let at = self.header.strings.start + offset;
        let behind = usize::try_from(at).ok().and_then(|at| self.blob.get(at..));
        those(&[(at >= WRAPS, "offset-wraps"), (behind.is_some_and(|rest| rest.contains(&0)), "0-behind-the-strings")])
    }

    // Notes the corners of a name that meets a 0.
    fn note_name(&mut self, offset: u64) {
        let (at, all) = (offset as usize, self.strings());
        let length = all.iter().skip(at).position(|&b| b == 0);
        let tail = length.is_some() && at > 0 && all[at - 1] != 0;
        let last = length.is_some_and(|n| at + n + 1 == all.len());
        self.note(length == Some(0), "empty-property-name");
        self.note(tail, "tail-of-a-name");
        self.note(last, "name-to-the-last-0");
    }
}

// ---- the whole

// A blob that has no fault.
struct Found {
    boot: u64,
    reservations: u64,
    entries: Vec<[u64; 4]>,
    corners: Vec<&'static str>,
}

// The corners of where the areas lie.
fn areas(blob: &[u8], h: Header, pairs: u64) -> Vec<&'static str> {
    let (length, head) = (blob.len() as u64, Area { start: 0, end: 40 });
    let reserved = Area { start: h.reservations, end: h.reservations + 16 * (pairs + 1) };
    let all = [reserved, h.structure, h.strings];
    those(&[
        (reserved.meets(h.structure), "reservations-over-structure"),
        (reserved.meets(h.strings), "reservations-over-strings"),
        (h.structure.meets(h.strings), "strings-over-structure"),
        (all.iter().any(|a| a.meets(head)), "area-over-header"),
        (h.strings.end <= h.structure.start, "strings-in-front"),
        (h.structure.end <= reserved.start, "reservations-last"),
        (reserved.end == length, "reservations-to-the-end"),
        (h.structure.end == length, "structure-to-the-end"),
        (h.strings.end == length, "strings-to-the-end"),
        (all.iter().all(|a| a.end < length), "bytes-behind"),
        (h.strings.start == h.strings.end, "no-strings"),
        (h.strings.start == length, "strings-at-the-end"),
        (pairs > 0, "reservations"),
        (h.boot != 0, "boot-number"),
    ])
}

// Reads a blob for a list of so many numbers, of which only the corners of a refusal tell.
fn survey(blob: &[u8], room: usize) -> Tested<Found> {
    let h = header(blob)?;
    let mut walk = Walk::new(blob, h, true);
    let walked = walk.whole();
    let pairs = reservations(blob, h.reservations).map_err(|mut fault| {
        fault.causes.extend(those(&[(walked.is_err(), "and-structure")]));
        fault
    })?;
    walked.map_err(|mut fault| {
        let later = fault.number != 23 && Walk::new(blob, h, false).whole().is_err();
        fault.after_4 = walk.after_4(fault.place);
        fault.causes.extend(those(&[(later, "then-23"), (room / 4 < walk.entries.len(), "and-short")]));
        fault
    })?;
    let corners = walk.corners.into_iter().chain(areas(blob, h, pairs)).collect();
    Ok(Found { boot: h.boot, reservations: pairs, entries: walk.entries, corners })
}

// Reads a blob into a list, which changes only where the blob is accepted.
pub fn read(blob: &[u8], list: &mut [u32]) -> Outcome {
    let refusal = |number, place, after_4, causes| Outcome { number, values: [0; 3], place, after_4, causes };
    let room = list.len();
    let found = match survey(blob, room) {
        Ok(found) => found,
        Err(fault) => return refusal(fault.number, fault.place, fault.after_4, fault.causes),
    };
    let (count, needed) = (found.entries.len(), 4 * found.entries.len());
    if room / 4 < count {
        let cause = if room / 4 + 1 == count { "one-entry-short" } else { "entries-short" };
        let corners = those(&[(room + 1 == needed, "one-number-short"), (room == 0, "no-list")]);
        return refusal(30, 0, false, [&[cause], &corners[..]].concat());
    }
    for (place, number) in list.iter_mut().zip(found.entries.iter().flatten()) {
        *place = *number as u32;
    }
    let mut causes = found.corners;
    causes.extend(those(&[
        (room == needed, "list-full"),
        (room > needed && room / 4 == count, "list-rest-below-4"),
        (room / 4 > count, "list-rest"),
    ]));
    Outcome { number: 0, values: [found.boot, found.reservations, count as u64], place: 0, after_4: false, causes }
}
