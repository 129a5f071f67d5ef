// Lists of blobs for test_reader: examples by hand; every front, every changed byte and every short structure; and
// random ones from a seed. A blob is put over the one before it, so that a list has only what changes.
use crate::reading;
use crate::shared::{put, spelled, Rng, LONGEST};
use crate::{ARRAY, NUMBERS};
use std::fmt::Write as _;

// ---- lists

// A list so far, with what the program's array then holds and how much of it is lent.
struct Lines {
    text: String,
    array: Vec<u8>,
    lent: usize,
}

impl Lines {
    fn new() -> Lines {
        Lines { text: String::new(), array: vec![0; ARRAY], lent: 0 }
    }

    // Where the run of changed bytes that begins at an index ends; it goes on over a few equal ones.
    fn changed(&self, blob: &[u8], from: usize) -> usize {
        let (mut end, mut at) = (from, from);
        while at < blob.len() && at < end + 8 {
            if blob[at] != self.array[at] {
                end = at + 1
            }
            at += 1
        }
        end
    }

    // Lends a blob: puts what is not yet in the array.
    fn lend(&mut self, blob: &[u8]) {
        let mut at = 0;
        while at < blob.len() {
            let end = self.changed(blob, at).max(at + 1);
            if blob[at] != self.array[at] {
                writeln!(self.text, "put {at} {}", spelled(&blob[at..end])).unwrap();
                put(&mut self.array, at as u64, &blob[at..end]);
                at = end
            } else {
                at += 1
            }
        }
        if self.lent != blob.len() {
            self.lent = blob.len();
            writeln!(self.text, "lend {}", self.lent).unwrap();
        }
    }

    // Reads a blob with a list of so many numbers.
    fn read(&mut self, blob: &[u8], room: usize) {
        self.lend(blob);
        writeln!(self.text, "read {room}").unwrap();
    }

    // Reads a blob under a heading, and shows the list.
    fn case(&mut self, heading: &str, blob: &[u8], room: usize) {
        writeln!(self.text, "# {heading}").unwrap();
        self.read(blob, room);
        writeln!(self.text, "list 0 {}", room.min(48)).unwrap();
    }
}

// ---- blobs

fn words_of(all: &[u32]) -> Vec<u8> {
    all.iter().flat_map(|w| w.to_be_bytes()).collect()
}

// A blob with one word changed.
fn with(blob: &[u8], at: usize, word: u32) -> Vec<u8> {
    let mut blob = blob.to_vec();
    put(&mut blob, at as u64, &word.to_be_bytes());
    blob
}

fn word(blob: &[u8], at: usize) -> u32 {
    u32::from_be_bytes(blob[at..at + 4].try_into().unwrap())
}

// Where the header's words stand.
const TOTAL: usize = 4;
const STRUCTURE: usize = 8;
const STRINGS: usize = 12;
const RESERVATIONS: usize = 16;
const BOOT: usize = 28;
const STRINGS_SIZE: usize = 32;
const STRUCTURE_SIZE: usize = 36;

// Document 01's blob of 60 bytes: no node.
fn sixty() -> Vec<u8> {
    words_of(&[0xd00d_feed, 0x3c, 0x38, 0x3c, 0x28, 0x11, 0x10, 0, 0, 4, 0, 0, 0, 0, 9])
}

// Document 01's blob of 92 bytes: one node with `reg`.
fn ninety_two() -> Vec<u8> {
    let words = [0xd00d_feed, 0x5c, 0x38, 0x58, 0x28, 0x11, 0x10, 0, 4, 0x20, 0, 0, 0, 0, 1, 0, 3, 4, 0, 1, 2, 9];
    [words_of(&words), b"reg\0".to_vec()].concat()
}

// The bytes of a structure, with the byte that pads it and how many words 4 come before each token.
#[derive(Clone)]
struct Body {
    bytes: Vec<u8>,
    pad: u8,
    nops: usize,
}

impl Body {
    fn new() -> Body {
        Body::padded(0)
    }

    fn padded(pad: u8) -> Body {
        Body { bytes: Vec::new(), pad, nops: 0 }
    }

    // From here on, so many words 4 come before each token.
    fn nops(mut self, nops: usize) -> Body {
        self.nops = nops;
        self
    }

    fn word(mut self, word: u32) -> Body {
        self.bytes.extend(word.to_be_bytes());
        self
    }

    fn token(self, token: u32) -> Body {
        (0..self.nops).fold(self, |body, _| body.word(4)).word(token)
    }

    // Adds bytes and their padding.
    fn raw(mut self, bytes: &[u8]) -> Body {
        self.bytes.extend(bytes);
        self.bytes.resize(self.bytes.len().next_multiple_of(4), self.pad);
        self
    }

    fn begin(self, name: &[u8]) -> Body {
        self.token(1).raw(&[name, &[0]].concat())
    }

    fn property(self, offset: u32, value: &[u8]) -> Body {
        self.token(3).word(value.len() as u32).word(offset).raw(value)
    }

    fn end(self) -> Body {
        self.token(2)
    }

    fn last(self) -> Body {
        self.token(9)
    }
}

// The parts of a blob and how they lie: the order of reservations (0), structure (1) and strings (2), and how many
// bytes stand in front of each and after the last.
#[derive(Clone)]
struct Parts {
    boot: u32,
    reserved: Vec<u64>,
    structure: Vec<u8>,
    strings: Vec<u8>,
    order: [usize; 3],
    gaps: [usize; 4],
}

// Every order of the three areas.
const ORDERS: [[usize; 3]; 6] = [[0, 1, 2], [0, 2, 1], [1, 0, 2], [1, 2, 0], [2, 0, 1], [2, 1, 0]];

// The parts of a blob as the writer lays them.
fn parts(structure: Body, strings: &[u8]) -> Parts {
    let (structure, strings) = (structure.bytes, strings.to_vec());
    Parts { boot: 0, reserved: Vec::new(), structure, strings, order: [0, 1, 2], gaps: [0; 4] }
}

impl Parts {
    fn blob(&self) -> Vec<u8> {
        let reserved: Vec<u8> = self.reserved.iter().chain(&[0, 0]).flat_map(|n| n.to_be_bytes()).collect();
        let areas = [&reserved, &self.structure, &self.strings];
        let (mut blob, mut starts) = (vec![0; 40], [0; 3]);
        for (k, &area) in self.order.iter().enumerate() {
            let start = (blob.len() + self.gaps[k]).next_multiple_of([8, 4, 1][area]);
            blob.resize(start, 0xaa);
            blob.extend(areas[area]);
            starts[area] = start as u32;
        }
        blob.resize(blob.len() + self.gaps[3], 0xaa);
        let [reserved, structure, strings] = starts;
        let (total, sizes) = (blob.len() as u32, [self.strings.len() as u32, self.structure.len() as u32]);
        let words = [0xd00d_feed, total, structure, strings, reserved, 17, 16, self.boot, sizes[0], sizes[1]];
        blob[..40].copy_from_slice(&words_of(&words));
        blob
    }
}

// So many nodes that have begun, each inside the one before.
fn nested(depth: usize, body: Body) -> Body {
    (0..depth).fold(body, |body, _| body.begin(b""))
}

// Nodes inside each other, so many, around some tokens, with as many words 4 before each as those tokens have.
fn chain(depth: usize, inner: Body) -> Body {
    let begun = nested(depth, Body::new().nops(inner.nops));
    (0..depth).fold(begun.raw(&inner.bytes), |body, _| body.end())
}

// How many numbers the list of a good blob needs; 0 for one that is refused.
fn needed(blob: &[u8]) -> usize {
    4 * reading::read(blob, &mut vec![0; NUMBERS]).values[2] as usize
}

// ---- examples

// A blob as the writer lays it, with the strings `reg` and `a`.
fn plain(body: Body) -> Vec<u8> {
    parts(body, b"reg\0a\0").blob()
}

// Tokens without their last bytes.
fn less(mut body: Body, bytes: usize) -> Body {
    body.bytes.truncate(body.bytes.len() - bytes);
    body
}

// A node without a name that has begun.
fn begun() -> Body {
    Body::new().begin(b"")
}

// The examples of documents 01 and 02 and of the table of the reader.
fn of_the_documents(l: &mut Lines) {
    let b = ninety_two();
    let endless = with(&b, RESERVATIONS, 80);
    l.case("document 01's blob of 60 bytes", &sixty(), 0);
    for room in [12, 15, 11, 13, 14, 16, 400, 8, 7, 4, 1, 0] {
        l.case(&format!("document 01's blob of 92 bytes, a list of {room} numbers"), &b, room);
    }
    l.case("depth 64", &plain(chain(64, Body::new()).last()), 512);
    l.case("depth 65", &plain(chain(65, Body::new()).last()), 520);
    l.case("a bad header and endless reservations", &with(&endless, 20, 16), 12);
    l.case("endless reservations and a bad structure", &with(&endless, 84, 4), 12);
    l.case("a value outside and a bad name offset", &with(&with(&b, 68, 100), 72, 100), 12);
    l.case("a name outside at depth 64", &plain(nested(64, Body::new()).word(1).raw(b"abcd")), 512);
    let late = begun().begin(b"a").end().property(77, b"").end().last();
    l.case("a property after an end, and a bad name offset", &plain(late), 20);
    l.case("a bad name offset and disorder later", &plain(begun().property(77, b"").last()), 20);
    l.case("too deep and disorder later", &plain(chain(65, Body::new()).end().last()), 520);
    l.case("disorder and a short list", &plain(begun().property(0, b"").begin(b"").last()), 8);
    l.case("a bad name offset and a short list", &plain(begun().property(77, b"").end().last()), 0);
    l.case("too deep and a short list", &plain(chain(65, Body::new()).last()), 255);
    let mut two = parts(begun().end().last(), b"");
    (two.boot, two.reserved) = (3, vec![4096, 16, 1 << 40, 1]);
    l.case("boot number 3 and two reservations", &two.blob(), 8);
}

// Words that make document 01's blob of 92 bytes one with a bad header.
const WRONG_WORDS: [(usize, u32); 23] = [
    (0, 0xd00d_feee),
    (0, 0xedfe_0dd0),
    (TOTAL, 93),
    (TOTAL, 91),
    (TOTAL, 0xffff_ffff),
    (20, 16),
    (20, 18),
    (24, 15),
    (24, 17),
    (RESERVATIONS, 44),
    (RESERVATIONS, 41),
    (STRUCTURE, 58),
    (STRUCTURE, 57),
    (STRUCTURE, 64),
    (STRUCTURE, 92),
    (STRUCTURE, 0xffff_fffc),
    (STRUCTURE_SIZE, 37),
    (STRUCTURE_SIZE, 0xffff_ffff),
    (STRINGS, 89),
    (STRINGS, 92),
    (STRINGS, 0xffff_ffff),
    (STRINGS_SIZE, 5),
    (STRINGS_SIZE, 0xffff_ffff),
];

// Headers with one fault, and with several.
fn headers(l: &mut Lines) {
    let b = ninety_two();
    for n in [0, 1, 3, 39, 40, 91] {
        l.case("a front of the blob", &b[..n], 12);
    }
    let empty = with(&with(&sixty(), STRUCTURE, 0), STRINGS, 0);
    for n in [28, 32, 36, 39, 40] {
        l.case("a header that is cut", &with(&with(&empty, STRUCTURE_SIZE, 0), TOTAL, n)[..n as usize], 12);
    }
    l.case("one byte more", &[&b[..], &[0]].concat(), 12);
    for (at, word) in WRONG_WORDS {
        l.case("a header word", &with(&b, at, word), 12);
    }
    l.case("an empty area past the end", &with(&with(&b, STRINGS, 93), STRINGS_SIZE, 0), 12);
    l.case("two faults", &with(&with(&b, 20, 16), 24, 15), 12);
    l.case("a structure that goes round", &with(&b, STRUCTURE_SIZE, 0xffff_ffe8), 12);
    l.case("strings that go round", &with(&b, STRINGS_SIZE, 0xffff_ffac), 12);
}

// Reservations that do not end inside.
fn endless(l: &mut Lines) {
    let b = ninety_two();
    for at in [48, 56, 64, 72, 80, 88, 96, 0, 8, 1 << 31, 0xffff_fff0, 0xffff_fff8] {
        l.case("another reservations offset", &with(&b, RESERVATIONS, at), 12);
    }
    let mut last = parts(begun().end().last(), b"a\0");
    last.order = [1, 2, 0];
    last.reserved = vec![1, 2];
    let whole = last.blob();
    for n in [0, 1, 8, 15, 16] {
        let cut = &whole[..whole.len() - n];
        l.case("a last pair that is cut", &with(cut, TOTAL, cut.len() as u32), 8);
    }
    l.case("offset at the end", &with(&with(&sixty(), RESERVATIONS, 64), TOTAL, 60), 8);
    let longer = [&sixty()[..], &[0; 4]].concat();
    l.case("offset at the end", &with(&with(&longer, RESERVATIONS, 64), TOTAL, 64), 8);
}

// Tokens at places where they may not come, and words that are none.
fn disorder(l: &mut Lines, b: impl Fn() -> Body, after: &str) {
    let open = || b().begin(b"");
    for (heading, body) in [
        ("a cut word", less(open().end().last(), 1)),
        ("a cut word inside a node", less(open().end(), 3)),
        ("token 0", open().token(0).end().last()),
        ("token 5", open().end().token(5).last()),
        ("token 0x01000000", b().token(1 << 24).last()),
        ("token 0x04000000", open().token(4 << 24).end().last()),
        ("an end alone", b().end().last()),
        ("an end too many", open().end().end().last()),
        ("a final word inside", open().last()),
        ("a final word inside and early", open().last().end().last()),
        ("words after the final one", open().end().last().word(0)),
        ("two final words", b().last().last()),
        ("a property first", b().property(0, b"").last()),
        ("a property first with no name", b().property(9, b"").last()),
        ("a property after a top node", open().end().property(0, b"").last()),
        ("a property after a child", open().begin(b"a").end().property(0, b"x").end().last()),
        ("such a property with its value outside", open().begin(b"a").end().token(3).word(9).word(0)),
    ] {
        l.case(&format!("{heading}{after}"), &plain(body), 16);
    }
}

// Tokens that do not end inside the structure.
fn outside(l: &mut Lines, b: impl Fn() -> Body, after: &str) {
    let open = || b().begin(b"");
    let filled = || open().property(0, b"abcde");
    for (heading, body) in [
        ("a property of one word", open().token(3)),
        ("a property of two words", open().token(3).word(0)),
        ("a name outside", b().token(1).raw(b"abcd")),
        ("a begin alone", b().token(1)),
        ("a name's padding outside", less(open(), 3)),
        ("a name's padding outside", less(b().begin(b"ab"), 1)),
        ("a name's padding outside at depth 64", less(nested(65, b()), 1)),
        ("a value outside", open().token(3).word(1).word(0)),
        ("a value outside by one byte", open().token(3).word(5).word(0).word(7)),
        ("a value of 4 GB", open().token(3).word(0xffff_ffff).word(0).end().last()),
        ("a value that goes round", open().token(3).word(0xffff_fff0).word(0).end().last()),
        ("a value that pads to 4 GB", open().token(3).word(0xffff_fffd).word(0).end().last()),
        ("a value's padding outside", less(filled(), 3)),
        ("a value's padding outside", less(filled(), 1)),
        ("a value up to the end", filled()),
    ] {
        l.case(&format!("{heading}{after}"), &plain(body), 16);
    }
}

// Name offsets that meet no 0 inside the strings.
fn no_names(l: &mut Lines, b: impl Fn() -> Body, after: &str) {
    let open = b().begin(b"").token(3).word(4);
    let at = 56 + open.bytes.len();
    let blob = parts(open.word(0).word(1).end().last(), b"reg\0").blob();
    let start = word(&blob, STRINGS);
    for offset in [3, 4, 5, start, start + 4, 0x7fff_ffff, !start, start.wrapping_neg(), 0xffff_ffff] {
        l.case(&format!("another name offset{after}"), &with(&blob, at, offset), 12);
    }
    l.case(&format!("strings without a 0{after}"), &with(&blob, STRINGS_SIZE, 3), 12);
    l.case(&format!("no strings{after}"), &with(&blob, STRINGS_SIZE, 0), 12);
    let mut first = parts(b().begin(b"").property(0, b"").property(2, b"").end().last(), b"a\0bc");
    first.order = [2, 0, 1];
    l.case(&format!("strings in front, whose last name goes on{after}"), &first.blob(), 16);
}

// Structures that have a fault.
fn faults(l: &mut Lines) {
    let (b, open) = (Body::new, begun);
    l.case("no word at all", &plain(b()), 16);
    l.case("no final word", &plain(open().end()), 16);
    l.case("no final word inside a node", &plain(open()), 16);
    disorder(l, b, "");
    outside(l, b, "");
    for size in [1, 5, 8, 9, 11, 19, 21, 25, 26, 27, 31, 33, 35, 36] {
        l.case("a structure of another size", &with(&ninety_two(), STRUCTURE_SIZE, size), 16);
    }
    no_names(l, b, "");
}

// Structures whose fault comes after a word 4, or is a word 4 that is cut.
fn faults_after_4(l: &mut Lines) {
    let (b, open) = (|| Body::new().nops(1), begun);
    for (heading, body) in [
        ("a word 4 alone", Body::new().word(4)),
        ("three words 4 alone", Body::new().word(4).word(4).word(4)),
        ("a word 4 last", open().end().word(4)),
        ("two words 4 last inside a node", open().word(4).word(4)),
        ("a word 4 after the final one", open().end().last().word(4)),
    ] {
        l.case(heading, &plain(body), 16);
    }
    for body in [open().end().word(4), open().word(4).word(4)] {
        let blob = plain(body);
        l.case("a cut word 4", &with(&blob, STRUCTURE_SIZE, word(&blob, STRUCTURE_SIZE) - 1), 16);
    }
    let after = ", after a word 4";
    disorder(l, b, after);
    outside(l, b, after);
    no_names(l, b, after);
    l.case("depth 65, with words 4", &plain(chain(65, b()).last()), 520);
    l.case("a word 4 and then depth 65", &plain(chain(64, Body::new().word(4).begin(b"").end()).last()), 520);
    l.case("too deep and disorder later, with words 4", &plain(chain(65, b()).end().last()), 520);
    l.case("too deep and a short list, with words 4", &plain(chain(65, b()).last()), 255);
    l.case("a name outside at depth 64, after a word 4", &plain(nested(64, b()).token(1).raw(b"abcd")), 512);
    let late = |offset| b().begin(b"").property(offset, b"").last();
    l.case("a bad name offset and disorder later, after a word 4", &plain(late(77)), 20);
    l.case("a bad name offset and a short list, after a word 4", &plain(late(77)), 0);
    l.case("disorder and a short list, after a word 4", &plain(late(0)), 4);
}

// Words 4 that are skipped, and others that belong to a name, a value or a property's head.
fn words_4(l: &mut Lines) {
    let (b, open, nop) = (Body::new, begun, |body: Body| body.word(4));
    for (heading, body) in [
        ("a word 4 before the first node", nop(b()).begin(b"").end().last()),
        ("a word 4 before a property", nop(open()).property(0, b"x").end().last()),
        ("a word 4 between properties", nop(open().property(0, b"x")).property(4, b"").end().last()),
        ("a word 4 before a child", nop(open()).begin(b"a").end().end().last()),
        ("a word 4 between children", nop(open().begin(b"a").end()).begin(b"b").end().end().last()),
        ("a word 4 before an end", nop(open()).end().last()),
        ("a word 4 before the end after a child", nop(open().begin(b"a").end()).end().last()),
        ("a word 4 before another top node", nop(open().end()).begin(b"").end().last()),
        ("a word 4 before the final word", nop(open().end()).last()),
        ("a word 4 before the final word, and no node", nop(b()).last()),
        ("two words 4", nop(nop(open())).property(0, b"x").end().last()),
        ("a word 4 as padding of a name", b().word(1).word(4).end().last()),
        ("a word 4 as a name", open().begin(b"\x04").end().end().last()),
        ("words 4 as a value", open().property(0, b"\0\0\0\x04\0\0\0\x04").end().last()),
        ("words 4 as a property's head", open().property(4, b"1234").end().last()),
    ] {
        l.case(heading, &plain(body), 24);
    }
    for count in [1, 2, 3, 40] {
        let tree = b().nops(count).begin(b"").property(0, b"x").property(4, b"").begin(b"a").property(0, b"").end();
        let tops = tree.begin(b"").end().end().begin(b"").end();
        l.case(&format!("words 4 before every token: {count}"), &plain(tops.last()), 48);
    }
    l.case("depth 64, with words 4", &plain(chain(64, b().nops(1)).last()), 512);
    l.case("a short list, with words 4", &plain(b().nops(9).begin(b"").end().last()), 7);
}

// Blobs that are read, at the corners of the rules.
fn accepted(l: &mut Lines) {
    let tree = begun().property(1, b"").begin(b"").property(3, b"x").begin(b"a@1").end().end().end();
    let two = tree.clone().begin(b"name").property(4, b"\0\0\0\0").property(4, b"yes").end().last();
    let mut p = parts(two, b"reg\0a\0");
    for order in ORDERS {
        for gaps in [[0; 4], [0, 3, 5, 9]] {
            (p.order, p.gaps, p.boot, p.reserved) = (order, gaps, 0xffff_ffff, vec![0, 1, 1, 0]);
            l.case("areas in another order", &p.blob(), 48);
        }
    }
    let padded = Body::padded(0xff).begin(b"").property(0, b"x").begin(b"ab").end().end().last();
    l.case("padding that is not 0", &plain(padded), 20);
    let in_header = with(&with(&with(&sixty(), BOOT, 9), STRUCTURE, 28), TOTAL, 56);
    l.case("the structure is the boot number", &with(&in_header, STRINGS, 56)[..56], 0);
    let (zeros, whole) = (plain(begun().property(0, &[0; 20]).end().last()), ninety_two());
    l.case("reservations inside a value", &with(&zeros, RESERVATIONS, 80), 12);
    let all = with(&with(&whole, STRINGS, 0), STRINGS_SIZE, 92);
    for offset in [0, 4, 40, 88, 91] {
        l.case("the strings are the whole blob", &with(&all, 72, offset), 12);
    }
    l.case("strings over the reservations", &with(&with(&whole, STRINGS, 40), STRINGS_SIZE, 16), 12);
    l.case("no strings, at the end", &with(&sixty(), STRINGS, 60), 0);
    l.case(
        "nodes with no name to depth 64, and a property",
        &plain(chain(64, Body::new().property(5, b"")).last()),
        516,
    );
}

// The largest blob and the longest list, and lines that ask for more than there is.
fn largest(l: &mut Lines) {
    let length = ARRAY - 76 - 8 - 4;
    let body = begun().property(0, &l.array[76..76 + length]).end().last();
    let blob = parts(body, b"reg\0").blob();
    l.case("a blob as long as the array", &blob, NUMBERS);
    l.text
        .push_str("put 65598 g~more\nput 65600 x\nput 99999999999 x\nlend 99999999999\nread 99999999999\nlist 10 14\n");
    l.text.push_str("list 65534 65540\nlist 65536 65540\nlist 5 3\nlist 5 5\nread 13\nlist 11 99\n\n# the end\n");
}

// A fixed list: what the documents name, every cause and every corner.
pub fn examples() -> String {
    let mut l = Lines::new();
    for some in [of_the_documents, headers, endless, faults, accepted, words_4, faults_after_4, largest] {
        some(&mut l);
    }
    l.text
}

// ---- every front, every changed byte, every short structure

// Small blobs of different kinds.
fn small() -> Vec<Vec<u8>> {
    let mut usual =
        parts(begun().property(0, b"\0\0\0\x02").begin(b"a@1").property(4, b"").end().end().last(), b"reg\0on\0");
    (usual.boot, usual.reserved) = (3, vec![4096, 16, 1 << 40, 1]);
    let names = begun().property(0, b"").property(1, b"x").begin(b"b").property(6, b"yes\0").property(11, b"12345");
    let mut tails = parts(names.end().end().last(), b"#size-cells\0");
    tails.order = [2, 0, 1];
    let padded = Body::padded(0xa5).nops(1).begin(b"one").property(0, b"x").end().begin(b"").begin(b"ab");
    let mut tops = parts(padded.end().end().last(), b"p\0");
    (tops.order, tops.gaps, tops.reserved) = ([1, 2, 0], [4, 2, 1, 3], vec![0, 1]);
    let values = (1..6).fold(begun(), |body, n| body.property(2, &b"\x01\x02\x03\x04\x09"[..n]));
    let values = parts(values.end().last(), b"\0\0\0");
    let mut front = parts(begun().begin(b"c").property(0, b"abc").end().begin(b"").end().end().last(), b"ab");
    (front.order, front.strings) = ([0, 2, 1], b"a\0\0\0b".to_vec());
    let inside = plain(begun().property(0, &[0; 20]).end().last());
    let whole = with(&with(&ninety_two(), STRINGS, 0), STRINGS_SIZE, 92);
    vec![
        usual.blob(),
        tails.blob(),
        tops.blob(),
        front.blob(),
        with(&inside, RESERVATIONS, 80),
        with(&whole, 72, 41),
        ninety_two(),
        values.blob(),
        sixty(),
        plain(chain(9, Body::new().property(0, b"")).last()),
    ]
}

// The front of a blob, with its total size and, in the second, its areas cut to what is there.
fn fitted(blob: &[u8], length: usize) -> [Vec<u8>; 2] {
    let cut = with(&blob[..length], TOTAL, length as u32);
    let left = |start: usize, size: usize| word(blob, size).min((length as u32).saturating_sub(word(blob, start)));
    let sized = with(&cut, STRUCTURE_SIZE, left(STRUCTURE, STRUCTURE_SIZE));
    let sized = with(&sized, STRINGS_SIZE, left(STRINGS, STRINGS_SIZE));
    [cut, sized]
}

// Every front of the small blobs, as it is and with sizes that fit.
pub fn cut() -> String {
    let mut l = Lines::new();
    for blob in small() {
        let room = needed(&blob);
        for length in 0..=blob.len() {
            l.read(&blob[..length], room);
        }
        for length in 8..blob.len() {
            fitted(&blob, length).iter().for_each(|cut| l.read(cut, room));
        }
    }
    l.text
}

// Every alteration of one byte of a small blob; nothing where there is no such blob.
pub fn bytes(part: usize) -> String {
    let (mut l, all) = (Lines::new(), small());
    let Some(blob) = all.get(part).filter(|_| part < 7) else { return l.text };
    let room = needed(blob);
    for at in 0..blob.len() {
        for byte in (0..=255).filter(|&byte| byte != blob[at]) {
            let mut other = blob.clone();
            other[at] = byte;
            l.read(&other, room);
        }
    }
    l.text
}

// The words of short structures.
const SET: [u32; 7] = [0, 1, 2, 3, 4, 9, 0x6100_0000];

// A structure of so many words of the set, by its number, after some words and in front of others.
fn short(front: &[u32], length: u32, number: usize, after: &[u32]) -> Body {
    let inner = (0..length).rev().map(|k| SET[number / 7usize.pow(k) % 7]);
    Body::new().raw(&words_of(&front.iter().copied().chain(inner).chain(after.iter().copied()).collect::<Vec<_>>()))
}

// Every structure of up to six words of the set, alone and then inside a node, in lists of so many.
pub fn words(part: usize) -> String {
    const BLOBS: usize = 35_000;
    let (mut l, mut k) = (Lines::new(), 0);
    for (front, after, room) in [(&[][..], &[][..], 8), (&[1, 0], &[2, 9], 16)] {
        for length in 0..=6 {
            for number in 0..7usize.pow(length) {
                if k / BLOBS == part {
                    let mut parts = parts(short(front, length, number, after), b"a\0b");
                    parts.order = [0, 2, 1];
                    l.read(&parts.blob(), room);
                }
                k += 1;
            }
        }
    }
    l.text
}

// ---- random blobs, good and damaged

const NAMES: &[&str] = &["reg", "#size-cells", "cells", "", "s", "compatible", "phandle", "é", "a b"];

// Names with their 0; the last sometimes lacks it.
fn strings(r: &mut Rng) -> Vec<u8> {
    let mut all: Vec<u8> = (0..r.below(5)).flat_map(|_| [r.of(NAMES).as_bytes(), &[0]].concat()).collect();
    if r.once_in(4) {
        all.extend(r.of(NAMES).bytes())
    }
    all
}

// An offset that meets a 0, if there is one.
fn offset(r: &mut Rng, strings: &[u8]) -> Option<u32> {
    let last = strings.iter().rposition(|&b| b == 0)?;
    Some(r.below(last as u64 + 1) as u32)
}

// Bytes of a value: many are such as tokens have, and some are words 4.
fn value(r: &mut Rng) -> Vec<u8> {
    if r.once_in(20) {
        return words_of(&vec![4; 1 + r.below(3) as usize]);
    }
    let length = if r.once_in(30) { r.below(80) } else { r.below(9) };
    (0..length).map(|_| if r.once_in(8) { r.next() as u8 } else { r.of(b"\0\0\0\x01\x02\x03\x09ab") }).collect()
}

// A name of any bytes but 0.
fn node_name(r: &mut Rng) -> Vec<u8> {
    let length = if r.once_in(20) { r.below(40) } else { r.below(6) };
    (0..length).map(|_| if r.once_in(8) { 1 + r.below(255) as u8 } else { r.of(b"ab@1") }).collect()
}

// How many words 4 come before the next token: at most so many, and none where that is 0.
fn nops(r: &mut Rng, body: Body, most: u64) -> Body {
    let count = if r.once_in(2) { 0 } else { r.below(most + 1) };
    body.nops(count as usize)
}

// A node that lies so deep, with its properties and children, and at most so many words 4 before each token.
fn node(r: &mut Rng, body: Body, depth: u64, strings: &[u8], most: u64) -> Body {
    let mut body = nops(r, body, most).begin(&node_name(r));
    for _ in 0..r.below(4) {
        if let Some(offset) = offset(r, strings) {
            body = nops(r, body, most).property(offset, &value(r))
        }
    }
    for _ in 0..r.below(3) {
        if depth < 1 + r.below(5) {
            body = node(r, body, depth + 1, strings, most)
        }
    }
    nops(r, body, most).end()
}

// Reservations, of which one number may be 0.
fn reserved(r: &mut Rng) -> Vec<u64> {
    let count = if r.once_in(2) { 0 } else { r.below(4) };
    (0..count).flat_map(|_| r.of(&[[0, 1], [1, 0], [4096, 16], [1 << 40, 1 << 32], [u64::MAX, u64::MAX]])).collect()
}

// Lays parts in any order, with bytes between them; mostly as the writer does.
fn laid(r: &mut Rng, mut p: Parts) -> Parts {
    p.boot = if r.once_in(3) { r.next() as u32 } else { 0 };
    p.reserved = reserved(r);
    if r.once_in(2) {
        p.order = r.of(&ORDERS)
    }
    if r.once_in(4) {
        p.gaps = [0; 4].map(|_: usize| r.below(10) as usize)
    }
    p
}

// The parts of a good blob: half of them may have words 4.
fn good(r: &mut Rng) -> Parts {
    let (all, most) = (strings(r), r.of(&[0, 0, 0, 1, 2, 9]));
    let mut body = Body::padded(r.of(&[0, 0, 0, 0xff, 1]));
    for _ in 0..r.of(&[1, 1, 1, 1, 0, 2, 3]) {
        body = node(r, body, 1, &all, most)
    }
    let body = nops(r, body, most).last();
    laid(r, parts(body, &all))
}

// A number near another, or one at a corner, or any.
fn near(r: &mut Rng, n: u32, length: u32) -> u32 {
    let step = r.of(&[1, 1, 2, 3, 4, 4, 8, 16]);
    match r.below(10) {
        0 => r.next() as u32,
        1 => r.of(&[0, 1, 2, 3, 4, 8, 9, 16, 17, 40, 56, 1 << 24, 1 << 31]),
        2 => u32::MAX - r.below(20) as u32,
        3 => length.wrapping_add(step),
        4 => length.wrapping_sub(step),
        5 => length.wrapping_sub(n),
        6 => length,
        7 => n.wrapping_sub(step),
        _ => n.wrapping_add(step),
    }
}

// A good blob with its tokens, to be damaged.
struct Base {
    parts: Parts,
    blob: Vec<u8>,
    entries: Vec<[u32; 4]>,
}

impl Base {
    fn of(parts: Parts) -> Base {
        let (blob, mut list) = (parts.blob(), vec![0; NUMBERS]);
        let count = reading::read(&blob, &mut list).values[2] as usize;
        let entries = list.chunks_exact(4).take(count).map(|e| e.try_into().unwrap()).collect();
        Base { parts, blob, entries }
    }

    // How many numbers a list has: just enough, a little more or less, or any.
    fn room(&self, r: &mut Rng) -> usize {
        let full = 4 * self.entries.len();
        match r.below(10) {
            0 => r.below(2 + 2 * full as u64) as usize,
            1 => full.saturating_sub(r.of(&[1, 1, 2, 3, 4, 5, 8])),
            2 => full + r.of(&[1, 2, 3, 4, 5, 8]),
            3 if r.once_in(100) => NUMBERS,
            _ => full,
        }
    }
}

// Where a word stands that says something: a token, or a property's length or name offset.
fn spot(r: &mut Rng, b: &Base) -> usize {
    if b.entries.is_empty() || r.once_in(8) {
        return word(&b.blob, STRUCTURE) as usize + 4 * r.below(1 + b.parts.structure.len() as u64 / 4) as usize;
    }
    let entry = r.of(&b.entries);
    entry[1] as usize + if entry[0] == 3 { r.of(&[0, 4, 4, 8, 8, 8]) } else { 0 }
}

// Changes a word of the structure: to another token, or near what the structure or the strings allow.
fn change_structure(r: &mut Rng, b: &Base, blob: &mut Vec<u8>) {
    let at = spot(r, b);
    if at + 4 > blob.len() {
        return;
    }
    let end = word(blob, STRUCTURE).wrapping_add(word(blob, STRUCTURE_SIZE));
    let limit = r.of(&[end.wrapping_sub(at as u32 + 8), word(blob, STRINGS_SIZE)]);
    let other = if r.once_in(2) { r.of(&SET) } else { near(r, word(blob, at), limit) };
    *blob = with(blob, at, other);
}

// Changes the tokens themselves: takes words out, doubles some, or puts another in.
fn change_tokens(r: &mut Rng, b: &Base) -> Vec<u8> {
    let (mut parts, count) = (b.parts.clone(), b.parts.structure.len() / 4);
    let (at, n) = (4 * r.below(count as u64) as usize, 4 * r.of(&[1, 1, 2, 3]));
    let end = (at + n).min(4 * count);
    match r.below(3) {
        0 => drop(parts.structure.drain(at..end)),
        1 => drop(parts.structure.splice(at..at, parts.structure[at..end].to_vec())),
        _ => drop(parts.structure.splice(at..at, r.of(&SET).to_be_bytes())),
    }
    parts.blob()
}

// Changes a word of the header to one near it, or near the blob's length.
fn change_header(r: &mut Rng, blob: &mut Vec<u8>) {
    let at = r.of(&[0, TOTAL, STRUCTURE, STRINGS, RESERVATIONS, 20, 24, BOOT, STRINGS_SIZE, STRUCTURE_SIZE]);
    let at = if r.once_in(2) { r.of(&[STRUCTURE, STRINGS, RESERVATIONS, STRINGS_SIZE, STRUCTURE_SIZE]) } else { at };
    let length = blob.len() as u32;
    let other = near(r, word(blob, at), length);
    let aligned = if r.once_in(2) { other & !7 } else { other };
    *blob = with(blob, at, if at == RESERVATIONS { aligned } else { other });
}

// Fills the all-zero pair that ends the reservations, so that they run on.
fn run_on(r: &mut Rng, b: &Base, blob: &mut [u8]) {
    let at = word(&b.blob, RESERVATIONS) as usize + 8 * b.parts.reserved.len() + r.below(16) as usize;
    blob[at] = 1 + r.below(255) as u8;
}

// Damages a blob in one place.
fn damage(r: &mut Rng, b: &Base, blob: &mut Vec<u8>) {
    match r.below(16) {
        0..=7 => change_structure(r, b, blob),
        8..=10 => change_header(r, blob),
        11 => run_on(r, b, blob),
        12 => {
            let at = r.below(blob.len() as u64) as usize;
            blob[at] = r.next() as u8
        }
        13 => {
            let size = word(blob, STRUCTURE_SIZE).wrapping_sub(r.of(&[1, 2, 3, 4, 5, 6, 7, 8]));
            *blob = with(blob, STRUCTURE_SIZE, size)
        }
        _ => {
            // a string loses its 0
            let start = word(&b.blob, STRINGS) as usize;
            b.parts.strings.iter().rposition(|&x| x == 0).into_iter().for_each(|at| blob[start + at] = b'x')
        }
    }
}

// A blob that is not quite the good one.
fn damaged(r: &mut Rng, b: &Base) -> Vec<u8> {
    if b.blob.len() < 1_000 && r.once_in(16) {
        return change_tokens(r, b);
    }
    if r.once_in(20) {
        let length = 40 + r.below(b.blob.len() as u64 - 40) as usize;
        return if r.once_in(4) { b.blob[..length].to_vec() } else { r.of(&fitted(&b.blob, length)) };
    }
    let mut blob = b.blob.clone();
    for _ in 0..r.of(&[1, 1, 1, 1, 2, 3]) {
        damage(r, b, &mut blob)
    }
    blob
}

// Reads a good blob with some lists, and so many damaged ones.
fn read_some(r: &mut Rng, l: &mut Lines, parts: Parts, count: u64) {
    let base = Base::of(parts);
    for _ in 0..1 + r.below(4) {
        l.read(&base.blob, base.room(r));
    }
    for _ in 0..count {
        let (blob, room) = (damaged(r, &base), base.room(r));
        l.read(&blob, room);
    }
}

// Nodes inside each other, about as deep as they may be, with some tokens at the bottom and some words 4.
fn deep(r: &mut Rng, l: &mut Lines) {
    let b = Body::new().nops(r.of(&[0, 0, 0, 1, 2]));
    let inner = r.of(&[
        b.clone(),
        b.clone().property(0, b"x"),
        b.clone().begin(b"").end(),
        b.clone().begin(b"").end().begin(b"a").end(),
        b.clone().property(3, b"").begin(b"").begin(b"").end().end(),
        b.clone().begin(b"").end().property(0, b""),
        b.clone().property(4, b"").begin(b""),
        b.clone().token(1).raw(b"abcdefgh"),
        b.last(),
    ]);
    let body = chain(r.of(&[60, 62, 63, 64, 65, 66]), inner).last();
    let p = laid(r, parts(body, b"reg\0"));
    let blob = p.blob();
    l.read(&blob, 4 * (128 + r.below(8) as usize));
    read_some(r, l, p, 12);
}

// A value as long as the array allows, over what stands in it.
fn long(r: &mut Rng, l: &mut Lines) {
    let length = r.of(&[65_480, 65_440, 40_000, 5_000]) + r.below(17) as usize;
    let body = begun().property(0, &l.array[76..76 + length]).begin(b"a").end().end().last();
    let p = parts(body, b"reg\0");
    read_some(r, l, p, 20);
}

// Many words 4 in a row, up to what the array holds.
fn skipped(r: &mut Rng, l: &mut Lines) {
    let body = begun().nops(r.of(&[16_000, 4_000, 500])).property(0, b"x").nops(1).end().last();
    read_some(r, l, parts(body, b"reg\0"), 20);
}

// Many nodes, up to what the array holds.
fn wide(r: &mut Rng, l: &mut Lines, most: u64) {
    let count = most / (1 + r.below(4));
    let nodes = (0..count)
        .fold(begun(), |body, k| if k % 50 == 0 { body.begin(b"").property(0, b"") } else { body.begin(b"") }.end());
    let p = parts(nodes.end().last(), b"reg\0");
    read_some(r, l, p, 40);
}

// A random list of about so many bytes.
pub fn random(seed: u64, bytes: usize) -> String {
    let (mut r, mut l) = (Rng(seed), Lines::new());
    if bytes >= 500_000 {
        wide(&mut r, &mut l, 5_300);
        long(&mut r, &mut l);
        skipped(&mut r, &mut l);
    }
    while l.text.len() < bytes.min(LONGEST - 20_000) {
        match r.below(40) {
            0 => deep(&mut r, &mut l),
            1 => wide(&mut r, &mut l, 40),
            _ => {
                let (p, count) = (good(&mut r), 16 + r.below(40));
                read_some(&mut r, &mut l, p, count)
            }
        }
    }
    l.text
}
