// A model of the search in the strings and of the name tests, written from document 01 alone. Strings are cut at each
// 0: the bytes before a 0 are an entry, and those after the last 0 are none. It also names the causes and corners.

// The longest node name without its unit address, and the longest property name.
const MOST: usize = 31;
// What names may have besides letters and digits.
const NODE_MARKS: &[u8] = b",._+-";
const PROPERTY_MARKS: &[u8] = b",._+?#-";
// How many places of the strings are a block. Only the corners use it.
const BLOCK: usize = 32;

// What a leaf must answer, and the causes and corners that are counted.
pub struct Outcome {
    pub answer: String,
    pub causes: Vec<&'static str>,
}

// The texts whose conditions hold.
fn those(all: &[(bool, &'static str)]) -> Vec<&'static str> {
    all.iter().filter(|one| one.0).map(|one| one.1).collect()
}

// ---- the search

// An entry of the strings: where it begins, and its bytes without the 0.
struct Entry<'a> {
    at: usize,
    bytes: &'a [u8],
}

// The entries of the strings, and the bytes after the last 0.
fn entries(strings: &[u8]) -> (Vec<Entry<'_>>, &[u8]) {
    let (mut all, mut at) = (Vec::new(), 0);
    let mut pieces: Vec<&[u8]> = strings.split(|&b| b == 0).collect();
    let rest = pieces.pop().unwrap_or_default();
    for bytes in pieces {
        all.push(Entry { at, bytes });
        at += bytes.len() + 1;
    }
    (all, rest)
}

// Finds the first entry that is the name.
pub fn find(strings: &[u8], name: &[u8]) -> Outcome {
    let (all, rest) = entries(strings);
    let common = [of_name(name), of_length(strings, name)].concat();
    match all.iter().position(|entry| entry.bytes == name) {
        Some(k) => {
            let passed = of_passed(&all[..k], name);
            let there = of_found(strings, name, all[k].at);
            let again = those(&[
                (k == 0, "first-entry"),
                (k > 0, "later-entry"),
                (all[k + 1..].iter().any(|entry| entry.bytes == name), "twice"),
                (!name.is_empty() && rest == name, "again-unended"),
            ]);
            Outcome { answer: format!("at {}", all[k].at), causes: [common, passed, there, again].concat() }
        }
        None => {
            let causes = [common, of_passed(&all, name), of_missing(strings, name, rest)].concat();
            Outcome { answer: "nothing".to_string(), causes }
        }
    }
}

// The corners of a name that is looked for.
fn of_name(name: &[u8]) -> Vec<&'static str> {
    those(&[
        (name.is_empty(), "empty-name"),
        (name.len() == 1, "one-byte"),
        (name.len() == 2, "two-bytes"),
        (name.len() == 3, "three-bytes"),
        (name.len() >= BLOCK, "32-bytes-and-more"),
        (name.iter().any(|&b| b > 127), "above-127"),
    ])
}

// How many places there are where the name and its 0 fit, in blocks.
fn of_length(strings: &[u8], name: &[u8]) -> Vec<&'static str> {
    let places = strings.len().saturating_sub(name.len());
    those(&[
        (places == 0, "no-place"),
        (0 < places && places < BLOCK, "short-strings"),
        (places / BLOCK == 1, "blocks-1"),
        (places / BLOCK == 2, "blocks-2"),
        (places / BLOCK >= 3, "blocks-3-and-more"),
        (places > 0 && places % BLOCK == 0, "blocks-full"),
        (places > 1 && places % BLOCK == 1, "one-place-more"),
        (places % BLOCK == BLOCK - 1, "one-place-less"),
    ])
}

// The corners of the entries before the one that is found, or of all of them.
fn of_passed(passed: &[Entry], name: &[u8]) -> Vec<&'static str> {
    let one = |test: &dyn Fn(&[u8]) -> bool| passed.iter().any(|entry| test(entry.bytes));
    let longer = |bytes: &[u8]| !name.is_empty() && bytes.len() > name.len();
    let shorter = |bytes: &[u8]| !bytes.is_empty() && bytes.len() < name.len();
    those(&[
        (one(&|bytes| bytes.is_empty()), "empty-entry"),
        (one(&|bytes| longer(bytes) && bytes.ends_with(name)), "tail"),
        (one(&|bytes| longer(bytes) && bytes.starts_with(name)), "front"),
        (one(&|bytes| shorter(bytes) && name.ends_with(bytes)), "tail-of-the-name"),
        (one(&|bytes| shorter(bytes) && name.starts_with(bytes)), "front-of-the-name"),
        (one(&|bytes| same_end(bytes, name)), "same-end"),
        (one(&|bytes| differences(bytes, name).is_some_and(|places| places.len() == 1)), "one-byte-differs"),
        (differs_elsewhere(passed, name), "differs-elsewhere"),
    ])
}

// Whether an entry has the last two bytes of the name and is another.
fn same_end(bytes: &[u8], name: &[u8]) -> bool {
    name.len() >= 2 && bytes != name && bytes.ends_with(&name[name.len() - 2..])
}

// The places at which an entry of the name's length differs from it.
fn differences(bytes: &[u8], name: &[u8]) -> Option<Vec<usize>> {
    let places = || (0..name.len()).filter(|&k| bytes[k] != name[k]).collect();
    (bytes.len() == name.len()).then(places)
}

// Whether, of two successive entries with the name's length and end, the second differs from it only where the first
// does not.
fn differs_elsewhere(passed: &[Entry], name: &[u8]) -> bool {
    let ends = passed.iter().filter(|entry| same_end(entry.bytes, name));
    let alike: Vec<Vec<usize>> = ends.filter_map(|entry| differences(entry.bytes, name)).collect();
    alike.windows(2).any(|two| two[1].iter().all(|place| !two[0].contains(place)))
}

// The corners of where a name is found.
fn of_found(strings: &[u8], name: &[u8], at: usize) -> Vec<&'static str> {
    let (end, places) = (at + name.len(), strings.len() - name.len());
    let blocks = places / BLOCK * BLOCK;
    those(&[
        (at / BLOCK < end / BLOCK, "border"),
        (at % BLOCK == BLOCK - 1, "last-of-a-block"),
        (at > 0 && at % BLOCK == 0, "first-of-a-block"),
        (at < blocks, "in-a-block"),
        (0 < blocks && blocks <= at, "after-the-blocks"),
        (at + 1 == places, "last-place"),
    ])
}

// The corners of strings in which a name is not found.
fn of_missing(strings: &[u8], name: &[u8], rest: &[u8]) -> Vec<&'static str> {
    let ended = [name, &[0]].concat();
    let across = |at: usize| (at == 0 || strings[at - 1] == 0) && strings[at..].starts_with(&ended);
    those(&[
        (strings.is_empty(), "no-strings"),
        (!strings.is_empty() && !strings.contains(&0), "no-entry"),
        (strings.len() < name.len(), "shorter"),
        (name.contains(&0), "zero-in-name"),
        ((0..strings.len()).any(across), "zero-in-name-between-entries"),
        (!name.is_empty() && rest == name, "unended"),
        (!name.is_empty() && rest.len() > name.len() && rest.ends_with(name), "unended-tail"),
    ])
}

// ---- the name tests

// The answer of a test: 0, or the refusal if there are reasons. A reason is counted if it is the only one.
fn tested(refusal: u32, reasons: &[&'static str], bad: &[&'static str], good: &[&'static str]) -> Outcome {
    match reasons {
        [] => Outcome { answer: "0".to_string(), causes: good.to_vec() },
        [one] => Outcome { answer: refusal.to_string(), causes: [&[*one], bad].concat() },
        _ => Outcome { answer: refusal.to_string(), causes: vec!["several"] },
    }
}

// The corners of the place of a name's only bad byte.
fn of_bad_place(bad: &[usize], name: &[u8]) -> Vec<&'static str> {
    let &[at] = bad else { return Vec::new() };
    those(&[(at == 0, "bad-first"), (at > 0 && at + 1 == name.len(), "bad-last"), (at >= BLOCK, "bad-past-32")])
}

// The corners of a name's only bad byte, with those of its place.
fn of_bad(bad: &[usize], name: &[u8]) -> Vec<&'static str> {
    let &[at] = bad else { return Vec::new() };
    let byte = name[at];
    let corners = those(&[
        (byte == 0, "byte-0"),
        ((1..=32).contains(&byte), "byte-1-to-32"),
        ((33..=126).contains(&byte), "byte-33-to-126"),
        (byte >= 127, "byte-127-to-255"),
        (b"/:@[`{".contains(&byte), "byte-beside-a-range"),
        (byte > 127 && name_byte(byte - 128, NODE_MARKS), "byte-good-without-128"),
    ]);
    [corners, of_bad_place(bad, name)].concat()
}

// Whether a byte is a letter, a digit or one of the marks.
fn name_byte(b: u8, marks: &[u8]) -> bool {
    b.is_ascii_alphabetic() || b.is_ascii_digit() || marks.contains(&b)
}

// Tests a node name: empty, or a letter, then at most 30 name bytes, then optionally one `@` and any number of them.
pub fn node(name: &[u8]) -> Outcome {
    let base = name.iter().position(|&b| b == b'@').unwrap_or(name.len());
    let first = |k: usize| k == 0 && name[k].is_ascii_alphabetic();
    let later = |k: usize| k > 0 && (k == base || name_byte(name[k], NODE_MARKS));
    let bad: Vec<usize> = (0..name.len()).filter(|&k| !first(k) && !later(k)).collect();
    let reasons = those(&[
        (bad.contains(&0), "first-byte"),
        (bad.iter().any(|&k| 0 < k && k < base), "base-byte"),
        (base > MOST, "base-above-31"),
        (bad.iter().any(|&k| base < k && name[k] == b'@'), "second-at"),
        (bad.iter().any(|&k| base < k && name[k] != b'@'), "address-byte"),
    ]);
    let corners = those(&[
        (name.is_empty(), "empty"),
        (name.len() == 1, "one-byte"),
        (base == MOST, "base-31"),
        (base < name.len(), "address"),
        (base + 1 == name.len(), "empty-address"),
        (name.len() > MOST, "above-31-with-address"),
    ]);
    tested(10, &reasons, &of_bad(&bad, name), &corners)
}

// Tests a property name: 1 to 31 name bytes.
pub fn property(name: &[u8]) -> Outcome {
    let bad: Vec<usize> = (0..name.len()).filter(|&k| !name_byte(name[k], PROPERTY_MARKS)).collect();
    let reasons =
        those(&[(name.is_empty(), "empty"), (name.len() > MOST, "above-31"), (!bad.is_empty(), "property-byte")]);
    let corners = those(&[
        (name.len() == 1, "one-byte"),
        (name.len() == MOST, "31-bytes"),
        (!name.iter().all(|&b| name_byte(b, NODE_MARKS)), "property-mark"),
        (!name.first().is_some_and(|b| b.is_ascii_alphabetic()), "first-no-letter"),
    ]);
    tested(11, &reasons, &of_bad(&bad, name), &corners)
}

// Tests a name for a byte 0.
pub fn zero(name: &[u8]) -> Outcome {
    let bad: Vec<usize> = (0..name.len()).filter(|&k| name[k] == 0).collect();
    let reasons = those(&[(bad.len() == 1, "one-0"), (bad.len() > 1, "several-0s")]);
    let corners = those(&[(name.is_empty(), "empty"), (name.len() > BLOCK, "above-32-bytes")]);
    tested(5, &reasons, &of_bad_place(&bad, name), &corners)
}
