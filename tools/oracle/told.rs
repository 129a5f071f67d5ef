// The lines that test_replay writes in quiet mode.
use crate::shared::check;
use std::fmt::Write;

// The lent part of each buffer.
pub struct Lent<'a> {
    pub blob: &'a [u8],
    pub strings: &'a [u8],
    pub phandles: &'a [u32],
}

// Writes numbers with a space between two.
pub fn numbers(out: &mut String, all: &[u64]) {
    for (k, n) in all.iter().enumerate() {
        write!(out, "{}{n}", if k == 0 { "" } else { " " }).unwrap();
    }
}

// A report line: the answer and the handle, the fields of the record, and the check values of what is lent.
pub fn report(out: &mut String, answer: [u64; 2], fields: [u64; 12], lent: Lent) {
    let sums = [
        check(lent.blob.iter().copied()),
        check(lent.strings.iter().copied()),
        check(lent.phandles.iter().flat_map(|n| n.to_be_bytes())),
    ];
    numbers(out, &[&answer[..], &fields[..], &sums[..]].concat());
    out.push('\n');
}

// The line of a shown part.
pub fn shown(out: &mut String, part: &[u8]) {
    write!(out, "{}", part.len()).unwrap();
    if !part.is_empty() {
        out.push(' ');
    }
    part.iter().for_each(|b| write!(out, "{b:02x}").unwrap());
    out.push('\n');
}
