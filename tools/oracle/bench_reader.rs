// Times our reader and libfdt's fdt_check_full on the same blobs: both must accept a blob first, then interleaved rounds.
mod bench_time;

use bench_time::{best, in_turn, line, rounds};
use std::hint::black_box;

extern "C" {
    // Ours: reads a blob into a list; and the first fault alone.
    fn read_blob(blob: *const u8, length: usize, list: *mut u32, numbers: usize, values: *mut [usize; 3]) -> u32;
    fn blob_fault(blob: *const u8, length: usize, place: *mut usize) -> u32;
    fn fdt_check_full(blob: *const u8, length: usize) -> i32;
}

// The boot number of every blob.
const BOOT: usize = 3;

// A blob that is being made, with its entries counted.
struct Maker {
    reservations: usize,
    structure: Vec<u8>,
    strings: Vec<u8>,
    entries: usize,
}

impl Maker {
    // A blob whose strings are so many names of properties, with so many reservations. Its root is open.
    fn new(reservations: usize, names: &[String]) -> Maker {
        let strings = names.iter().flat_map(|n| [n.as_bytes(), b"\0"].concat()).collect();
        let mut m = Maker { reservations, structure: Vec::new(), strings, entries: 0 };
        m.begin("");
        m
    }

    fn words(&mut self, words: &[usize]) {
        words.iter().for_each(|&w| self.structure.extend((w as u32).to_be_bytes()));
    }

    // Bytes, and zeros up to the next multiple of 4.
    fn padded(&mut self, bytes: &[u8]) {
        self.structure.extend(bytes);
        self.structure.resize(self.structure.len().next_multiple_of(4), 0);
    }

    fn begin(&mut self, name: &str) {
        self.words(&[1]);
        self.padded(&[name.as_bytes(), b"\0"].concat());
        self.entries += 1;
    }

    fn end(&mut self) {
        self.words(&[2]);
        self.entries += 1;
    }

    // A property of so many bytes, by the offset of its name.
    fn property(&mut self, name: usize, bytes: usize) {
        self.words(&[3, bytes, name]);
        self.padded(&vec![0x5a; bytes]);
        self.entries += 1;
    }

    // A node with four properties of 4 to 16 bytes, by its number; it stays open. Each name is 17 bytes, with its 0.
    fn node(&mut self, number: usize) {
        self.begin(&format!("sensor@{number:x}"));
        for k in number * 4..number * 4 + 4 {
            self.property(k % 40 * 17, (k % 4 + 1) * 4);
        }
    }

    // How long the finished blob would be if the root ended here.
    fn len(&self) -> usize {
        40 + 16 * (self.reservations + 1) + self.structure.len() + 8 + self.strings.len()
    }

    // Ends the root, and puts the areas together.
    fn finished(mut self) -> Load {
        self.end();
        self.words(&[9]);
        let (structure, sizes) = (40 + 16 * (self.reservations + 1), [self.strings.len(), self.structure.len()]);
        let strings = structure + sizes[1];
        let header = [0xd00d_feed, strings + sizes[0], structure, strings, 40, 17, 16, BOOT, sizes[0], sizes[1]];
        let mut blob: Vec<u8> = header.iter().flat_map(|&w| (w as u32).to_be_bytes()).collect();
        for k in 1..=self.reservations as u64 {
            blob.extend([(k << 12).to_be_bytes(), 4096u64.to_be_bytes()].concat());
        }
        blob.extend([0; 16]);
        blob.extend(self.structure);
        blob.extend(self.strings);
        Load { blob, reservations: self.reservations, entries: self.entries }
    }
}

// A blob to be read, and what is to be found in it.
struct Load {
    blob: Vec<u8>,
    reservations: usize,
    entries: usize,
}

// The 40 names of properties.
fn names() -> Vec<String> {
    (0..40).map(|k| format!("station,prop-{k:03}")).collect()
}

// Nodes with four properties each, in chains of so many nodes, each inside the one before, up to so many bytes.
fn chains(levels: usize, bytes: usize) -> Load {
    let (mut m, mut number) = (Maker::new(0, &names()), 0);
    while m.len() + levels * 120 <= bytes {
        (0..levels).for_each(|k| m.node(number + k));
        (0..levels).for_each(|_| m.end());
        number += levels;
    }
    m.finished()
}

// A typical blob: nodes with four properties each, in groups of nine: a node with eight others in it.
fn typical(bytes: usize) -> Load {
    let (mut m, mut number) = (Maker::new(2, &names()), 0);
    while m.len() + 9 * 120 <= bytes {
        m.node(number);
        for k in 1..9 {
            m.node(number + k);
            m.end();
        }
        m.end();
        number += 9;
    }
    m.finished()
}

// One half properties of 4 bytes, all in one node, and one half a single name, which all of them have.
fn long_name(bytes: usize) -> Load {
    let mut m = Maker::new(0, &["n".repeat(bytes / 2 - 1)]);
    while m.len() + 16 <= bytes {
        m.property(0, 4);
    }
    m.finished()
}

// Nodes without properties, in groups of nine.
fn bare(bytes: usize) -> Load {
    let (mut m, mut number) = (Maker::new(0, &[]), 0);
    while m.len() + 9 * 20 <= bytes {
        m.begin(&format!("bus@{number:x}"));
        for k in 1..9 {
            m.begin(&format!("sensor@{:x}", number + k));
            m.end();
        }
        m.end();
        number += 9;
    }
    m.finished()
}

// Reservations, and a root with one node.
fn reserved(bytes: usize) -> Load {
    let mut m = Maker::new(bytes / 16 - 60, &names());
    m.node(0);
    m.end();
    m.finished()
}

// A root with nothing but words 4 in it.
fn skipped(bytes: usize) -> Load {
    let mut m = Maker::new(0, &[]);
    while m.len() + 4 <= bytes {
        m.words(&[4]);
    }
    m.finished()
}

// What libfdt answers.
fn checked(load: &Load) -> i32 {
    unsafe { fdt_check_full(load.blob.as_ptr(), load.blob.len()) }
}

// What ours answers, with the values.
fn read(load: &Load, list: &mut [u32]) -> (u32, [usize; 3]) {
    let mut values = [0; 3];
    let number = unsafe { read_blob(load.blob.as_ptr(), load.blob.len(), list.as_mut_ptr(), list.len(), &mut values) };
    (number, values)
}

// What our survey answers, with the place of the fault.
fn surveyed(load: &Load) -> (u32, usize) {
    let mut place = 0;
    let number = unsafe { blob_fault(load.blob.as_ptr(), load.blob.len(), &mut place) };
    (number, place)
}

// Both must accept the blob, and ours must count right. Then they are timed in turn: one line of the report.
fn measure(name: &str, load: &Load, rounds: usize) {
    let mut list = vec![0; load.entries * 4];
    assert_eq!(checked(load), 0, "{name}: libfdt");
    assert_eq!(read(load, &mut list), (0, [BOOT, load.reservations, load.entries]), "{name}: ours");
    assert_eq!(surveyed(load), (0, 0), "{name}: our survey");
    let mut check = || {
        black_box(checked(black_box(load)));
    };
    let mut fill = || {
        black_box(read(black_box(load), &mut list));
    };
    let mut survey = || {
        black_box(surveyed(black_box(load)));
    };
    let [theirs, ours, surveys] = in_turn(rounds, [&mut check, &mut fill, &mut survey]);
    println!("{}, survey alone {:>8.0} ns", line(name, load.blob.len(), "libfdt", &theirs, &ours), best(&surveys));
}

fn main() {
    let (rounds, kib) = (rounds(), 1024);
    for size in [64, 1024] {
        measure(&format!("typical, {size} KiB"), &typical(size * kib), rounds);
    }
    for size in [64, 256, 1024] {
        measure(&format!("one long name, {size} KiB"), &long_name(size * kib), rounds);
    }
    for size in [64, 1024] {
        measure(&format!("words 4, {size} KiB"), &skipped(size * kib), rounds);
    }
    measure("64 levels, 64 KiB", &chains(63, 64 * kib), rounds);
    measure("nodes without properties, 64 KiB", &bare(64 * kib), rounds);
    measure("reservations, 64 KiB", &reserved(64 * kib), rounds);
    println!("\nas the blob grows (typical):");
    for size in [128, 256, 512] {
        measure(&format!("{size} KiB"), &typical(size * kib), rounds);
    }
}
