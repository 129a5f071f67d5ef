// Lists of cases for test_leaves: every short name in short strings, alone and around the border of two blocks of 32
// places; a name at every place; entries that are almost the name; the name tests; and random cases from a seed.
use crate::shared::{spelled, Rng};
use crate::{LIST, WORD};

// ---- lists

// The name tests.
const LEAVES: [&str; 3] = ["node", "property", "zero"];

// One part of a list; a part is at most as long as the program reads.
pub struct Lines {
    wanted: usize,
    part: usize,
    bytes: usize,
    text: String,
}

impl Lines {
    // The part of this number, without lines so far.
    fn new(wanted: usize) -> Lines {
        Lines { wanted, part: 0, bytes: 0, text: String::new() }
    }

    // Adds a line to the list, and to the text if it is in the part.
    fn line(&mut self, line: &str) {
        if self.bytes + line.len() >= LIST {
            self.part += 1;
            self.bytes = 0;
        }
        self.bytes += line.len() + 1;
        if self.part == self.wanted {
            self.text.push_str(line);
            self.text.push('\n');
        }
    }

    // Whether the part has all its lines.
    fn full(&self) -> bool {
        self.part > self.wanted
    }

    // Looks for a name in strings.
    fn find(&mut self, name: &[u8], strings: &[u8]) {
        if !self.full() {
            self.line(&format!("find {} in {}", word(name), word(strings)));
        }
    }

    // Tests a name as a node name, as a property name, or for a 0.
    fn test(&mut self, leaf: &str, name: &[u8]) {
        if !self.full() {
            self.line(&format!("{leaf} {}", word(name)));
        }
    }

    // Makes all three tests.
    fn tests(&mut self, name: &[u8]) {
        LEAVES.iter().for_each(|leaf| self.test(leaf, name));
    }
}

// A byte string as a word. A bar would end the case, so it is spelled.
fn word(bytes: &[u8]) -> String {
    spelled(bytes).replace('|', "\\x7c")
}

// A part of a list; it is empty past the last.
pub fn part(list: fn(&mut Lines), wanted: usize) -> String {
    let mut lines = Lines::new(wanted);
    list(&mut lines);
    lines.text
}

// ---- short names in short strings

// The bytes of short names and short strings.
const SET: &[u8] = b"\0ab";

// Every byte string of so many bytes of a set.
fn every(set: &[u8], length: usize) -> Vec<Vec<u8>> {
    let longer = |all: Vec<Vec<u8>>| all.iter().flat_map(|one| set.iter().map(|&b| [one, &[b][..]].concat())).collect();
    (0..length).fold(vec![Vec::new()], |all, _| longer(all))
}

// Every byte string of up to so many bytes of a set.
fn every_to(set: &[u8], most: usize) -> Vec<Vec<u8>> {
    (0..=most).flat_map(|length| every(set, length)).collect()
}

// Every name of up to three bytes of a set in all strings of up to so many.
fn every_name_in(l: &mut Lines, set: &[u8], most: usize) {
    let names = every_to(set, 3);
    for strings in every_to(set, most) {
        names.iter().for_each(|name| l.find(name, &strings));
    }
}

// Every name of up to three bytes in all strings of up to six, and of up to four with bytes that differ by 128.
pub fn corners(l: &mut Lines) {
    every_name_in(l, SET, 6);
    every_name_in(l, b"\0\x7f\xff", 4);
}

// Strings with four bytes of the set around the border of two blocks. The entry before the four ends or goes on, and
// the strings end or go on after them.
fn around_the_border() -> impl Iterator<Item = Vec<u8>> {
    let fronts = (29..=32).flat_map(|length| [filled(b"x\0", length), filled(b"x", length)]);
    let longer = fronts.flat_map(|front| every(SET, 4).into_iter().map(move |four| [&front[..], &four].concat()));
    longer.flat_map(|one| [&b""[..], MORE].map(|after| [&one, after].concat()))
}

// Names of up to three bytes in strings with four bytes of the set around the border of two blocks.
pub fn borders(l: &mut Lines) {
    let with_a_zero = [b"a\0b", b"\0ab", b"ab\0"].map(|name| name.to_vec());
    let names = [&every_to(SET, 2)[..], &every(b"ab", 3), &with_a_zero].concat();
    for strings in around_the_border() {
        names.iter().for_each(|name| l.find(name, &strings));
    }
}

// ---- a name at every place

// Names of 1, 2, 3, 16 and 31 bytes.
const NAMES: [&[u8]; 5] = [b"q", b"qz", b"reg", b"interrupt-parent", b"interrupt-controller-of-station"];

// A last entry that is longer than a block.
const MORE: &[u8] = b"another-entry-and-then-40-bytes-are-full\0";

// So many bytes, the last of a pattern that is repeated.
fn filled(pattern: &[u8], length: usize) -> Vec<u8> {
    let whole = pattern.repeat(length / pattern.len() + 1);
    whole[whole.len() - length..].to_vec()
}

// A name with another byte at a place.
fn changed(name: &[u8], at: usize) -> Vec<u8> {
    let mut other = name.to_vec();
    other[at] ^= 1;
    other
}

// Entries before a name: one that is long, empty ones, short ones; some with the name's last bytes, with its first
// bytes, and with one other byte.
fn patterns(name: &[u8]) -> [Vec<u8>; 6] {
    let end = &name[name.len().saturating_sub(2)..];
    let (first, last) = (changed(name, 0), changed(name, name.len() - 1));
    [
        [&[b'x'; 100][..], &[0]].concat(),
        b"\0".to_vec(),
        b"a\0bc\0def\0\0".to_vec(),
        [b"-", end, b"\0x-", end, b"\0"].concat(),
        [name, b"s\0"].concat(),
        [&first[..], b"\0", &last, b"\0"].concat(),
    ]
}

// Looks for a name after some entries: where it is an entry, where another is, and where it has no 0.
fn after(l: &mut Lines, front: &[u8], name: &[u8]) {
    let entry = [front, name, &[0]].concat();
    for after in [&b""[..], MORE, &[name, &[0]].concat(), name] {
        l.find(name, &[&entry, after].concat());
    }
    l.find(&changed(name, 0), &entry);
    l.find(name, &[front, name].concat());
}

// Strings about as long as one, two and three blocks, with the name first, last, without its 0, and nowhere.
fn lengths(l: &mut Lines, name: &[u8], pattern: &[u8]) {
    let entry = [name, &[0]].concat();
    for length in (30..=36).chain(62..=68).chain(94..=100).filter(|&length| length > name.len()) {
        let (less, rest) = (filled(pattern, length - entry.len()), filled(pattern, length - name.len()));
        l.find(name, &[&entry[..], &less].concat());
        l.find(name, &[&less[..], &entry].concat());
        l.find(name, &[&rest[..], name].concat());
        l.find(name, &filled(pattern, length));
        l.find(b"", &filled(pattern, length));
    }
}

// Looks for a name at every distance from an entry that is almost the name, last and with another entry after it.
fn at_every_distance(l: &mut Lines, name: &[u8], one: &[u8]) {
    for distance in 0..=100 {
        let strings = [one, b"\0", &filled(&patterns(name)[0], distance), name, b"\0"].concat();
        l.find(name, &strings);
        l.find(name, &[&strings, MORE].concat());
    }
}

// The longest strings that the program holds, and a byte more.
fn longest(l: &mut Lines, name: &[u8]) {
    for length in [WORD, WORD + 1] {
        let front = filled(&[&changed(name, 0)[..], &[0]].concat(), length - name.len() - 1);
        l.find(name, &[&front, name, &[0]].concat());
        l.find(&filled(name, length - 1), &[&filled(name, length - 1)[..], &[0]].concat());
    }
}

// A name at every place after a pattern, and in strings of the lengths around the blocks.
fn at_every_place(l: &mut Lines, name: &[u8], pattern: &[u8]) {
    (0..=100).for_each(|at| after(l, &filled(pattern, at), name));
    lengths(l, name, pattern);
}

// Each name at every place and every distance, and in the longest strings.
pub fn places(l: &mut Lines) {
    for name in NAMES {
        patterns(name).iter().for_each(|pattern| at_every_place(l, name, pattern));
        [changed(name, 0), [b"x", name].concat()].iter().for_each(|one| at_every_distance(l, name, one));
        longest(l, name);
    }
}

// ---- entries that are almost the name

// Looks for a name after entries that differ from it in one byte each; and where only they are.
fn one_byte_differs(l: &mut Lines, name: &[u8]) {
    for (first, second) in (0..name.len()).flat_map(|first| (0..name.len()).map(move |second| (first, second))) {
        let two = [&changed(name, first)[..], &[0], &changed(name, second), &[0]].concat();
        let many = two.repeat(64usize.div_ceil(two.len()));
        l.find(name, &[&many[..], name, &[0]].concat());
        l.find(name, &many);
    }
}

// Entries that are almost a name of three bytes or more: with another byte, longer, shorter, or only its last bytes.
fn almost(name: &[u8]) -> Vec<Vec<u8>> {
    let n = name.len();
    let others = [0, n / 2, n - 3, n - 2, n - 1].map(|at| changed(name, at));
    let longer = [[b"x", name].concat(), [name, b"x"].concat()];
    [&others[..], &longer, &[name[1..].to_vec(), name[..n - 1].to_vec(), name[n - 2..].to_vec()]].concat()
}

// Looks for a name after any three entries that are almost the name.
fn after_three(l: &mut Lines, name: &[u8]) {
    let ended: Vec<Vec<u8>> = almost(name).iter().map(|one| [one, &[0][..]].concat()).collect();
    let count = ended.len();
    for k in 0..count.pow(3) {
        let three = [k / count / count, k / count % count, k % count].map(|k| &ended[k][..]).concat();
        l.find(name, &[&three, name, b"\0", MORE].concat());
    }
}

// Families of names: with the same end, the same front, and both; of different lengths; and tails and fronts of others.
const FAMILIES: [fn(usize) -> String; 6] = [
    |k| format!("{k:03}-cells"),
    |k| format!("cells-{k:03}"),
    |k| format!("c-{k:03}-cells"),
    |k| format!("{}-cells", k * k * k),
    |k| "ab".repeat(k),
    |k| format!("{k:b}"),
];

// Looks for some names of a family in strings with so many of them, forwards and backwards.
fn in_a_family(l: &mut Lines, family: fn(usize) -> String, count: usize, wanted: &[usize]) {
    let mut all: Vec<String> = (0..count).map(|k| family(k) + "\0").collect();
    for _ in 0..2 {
        wanted.iter().for_each(|&k| l.find(family(k).as_bytes(), all.concat().as_bytes()));
        all.reverse();
    }
}

// Names among entries that are almost the name.
pub fn alike(l: &mut Lines) {
    let more: [&[u8]; 5] = [b"cell", b"cells", b"#cells", b"reg-names", b"interrupt-controller-of-the-station"];
    more.iter().chain(&NAMES[2..]).for_each(|name| after_three(l, name));
    more[..4].iter().chain(&NAMES).for_each(|name| one_byte_differs(l, name));
    let some: Vec<usize> = (0..28).collect();
    FAMILIES.iter().for_each(|family| in_a_family(l, *family, 24, &some));
    FAMILIES[..3].iter().for_each(|family| in_a_family(l, *family, 320, &[0, 1, 160, 318, 319, 320]));
}

// ---- the name tests

// A good node name of so many bytes, as far as its base may go; up to 31 bytes also a good property name.
fn good(length: usize) -> Vec<u8> {
    b"sTation.09,aZ_z+A-".iter().copied().cycle().take(length).collect()
}

// A name with a byte at a place.
fn with(mut name: Vec<u8>, at: usize, byte: u8) -> Vec<u8> {
    name[at] = byte;
    name
}

// Names of a length: good, and with another byte at each place; with an `@` there, with an `@` elsewhere, and with one
// 0 or two.
fn tests_of_length(l: &mut Lines, length: usize, byte: &mut u8) {
    l.tests(&good(length));
    for at in 0..length {
        let addressed = with(good(length), (1 + at % 31).min(length - 1), b'@');
        l.tests(&with(good(length), at, *byte));
        l.test("node", &with(good(length), at, b'@'));
        l.test("node", &with(addressed, length - 1 - at, *byte));
        l.test("zero", &with(good(length), at, 0));
        l.test("zero", &with(with(good(length), at, 0), length / 2, 0));
        *byte = byte.wrapping_add(97);
    }
}

// Every byte at the first place, in the middle and at the last place of a name.
fn every_byte(l: &mut Lines, name: &[u8]) {
    for at in [0, name.len() / 2, name.len() - 1] {
        (0..=255).for_each(|byte| l.tests(&with(name.to_vec(), at, byte)));
    }
}

// The name tests, for names of up to 70 bytes.
pub fn names(l: &mut Lines) {
    let mut byte = 0;
    (0..=70).for_each(|length| tests_of_length(l, length, &mut byte));
    for name in [good(2), good(31), b"a@1".to_vec(), with(good(51), 20, b'@')] {
        every_byte(l, &name);
    }
}

// ---- random cases

// The bytes of random names: few, so that entries are alike; some above 127.
const SETS: [&[u8]; 4] = [b"ab", b"cells-#012", b"az\x01\x7f\x80\xff", b"abcdefghijklmnopqrstuvwxyz0123456789,._+?#-@"];

// A name without a 0.
fn some_name(r: &mut Rng) -> Vec<u8> {
    let (set, most) = (r.of(&SETS), r.of(&[2, 3, 4, 6, 8, 12, 20, 36]));
    (0..r.below(most)).map(|_| if r.once_in(30) { 1 + r.below(255) as u8 } else { r.of(set) }).collect()
}

// A name that is almost another: with a byte changed, put in or taken out; its front or its tail.
fn near(r: &mut Rng, name: &[u8]) -> Vec<u8> {
    let (front, back) = name.split_at(r.below(name.len() as u64 + 1) as usize);
    let (byte, rest) = (r.of(b"abcelsx-0\x80\xff"), back.get(1..).unwrap_or_default());
    match r.below(8) {
        0 => back.to_vec(),
        1 => front.to_vec(),
        2 => [front, &[byte], back].concat(),
        3 => [front, rest].concat(),
        _ => [front, &[byte], rest].concat(),
    }
}

// Strings with entries of which many are almost a name, and once in so many the name itself; sometimes bytes follow the
// last 0.
fn some_strings(r: &mut Rng, name: &[u8]) -> Vec<u8> {
    let length = r.of(&[0, 16, 30, 34, 60, 66, 92, 98, 130, 200, 400]) + r.below(9) as usize;
    let (length, seldom) = (if r.once_in(40) { length * 8 } else { length }, r.of(&[4, 8, 40, 1000]));
    let mut all = Vec::new();
    while all.len() < length {
        let other = if r.once_in(6) { some_name(r) } else { near(r, name) };
        if other != name || r.once_in(seldom) {
            all.extend([&other[..], &[0]].concat());
        }
    }
    if r.once_in(3) {
        all.truncate(length);
    }
    all
}

// A name to look for in strings whose entries are almost one.
fn sought(r: &mut Rng, name: &[u8], strings: &[u8]) -> Vec<u8> {
    let pieces: Vec<&[u8]> = strings.split(|&b| b == 0).collect();
    let (one, other) = (r.of(&pieces), r.of(&pieces));
    match r.below(10) {
        0..=4 => name.to_vec(),
        5 | 6 => one.to_vec(),
        7 => near(r, one),
        8 => [one, &[0], other].concat(),
        _ => some_name(r),
    }
}

// A name to be tested: good, except for up to three bytes.
fn some_tested(r: &mut Rng) -> Vec<u8> {
    let most = r.of(&[4, 33, 33, 71]);
    let mut name = good(r.below(most) as usize);
    for _ in 0..r.of(&[0, 1, 1, 2, 3]).min(name.len()) {
        let byte = if r.once_in(2) { r.of(b"\0@") } else { r.next() as u8 };
        name = with(name.clone(), r.below(name.len() as u64) as usize, byte);
    }
    name
}

// A random list.
pub fn random(seed: u64) -> String {
    let (mut r, mut l) = (Rng(seed), Lines::new(0));
    while !l.full() {
        let name = some_name(&mut r);
        let strings = some_strings(&mut r, &name);
        for _ in 0..1 + r.below(4) {
            l.find(&sought(&mut r, &name, &strings), &strings);
        }
        let leaf = r.of(&LEAVES);
        l.test(leaf, &some_tested(&mut r));
    }
    l.text
}
