// Times the original and ours on the same calls: bytes compared first, then interleaved rounds.
mod bench_time;
#[path = "../../rust/geirovund.rs"]
mod geirovund;

use bench_time::{in_turn, line, rounds};
use std::collections::HashSet;
use std::hint::black_box;
use vm_fdt::FdtWriter;

extern "C" {
    // Ours: opens a writer, makes the calls, and tells how long the shown blob is.
    fn export_bench(
        calls: *const usize,
        calls_len: usize,
        text: *const u8,
        text_len: usize,
        blob: *mut u8,
        blob_len: usize,
        strings: *mut u8,
        strings_len: usize,
    ) -> usize;
}

// A call: 1 begins a node, 2 ends the last one, 3 writes a property, 9 finishes; where its name and its value stand in the text.
type Call = [usize; 5];

struct Work {
    calls: Vec<Call>,
    text: String,
}

// How the names of a load are alike.
#[derive(Clone, Copy)]
enum Names {
    Front,
    End,
    Both,
    Mixed,
    Tails,
    Usual,
}

// The kinds of names beside the usual ones and those with the same front.
const KINDS: [(Names, &str); 4] = [
    (Names::End, "same end"),
    (Names::Both, "same front and end"),
    (Names::Mixed, "mixed lengths"),
    (Names::Tails, "tails of others"),
];

// Names that many devicetrees have.
const USUAL: &str = "compatible reg #address-cells #size-cells status interrupts interrupt-parent clocks clock-names \
    phandle ranges model label gpios interrupt-names reg-names #clock-cells #gpio-cells #interrupt-cells \
    gpio-controller interrupt-controller reg-shift reg-io-width clock-frequency current-speed dma-names dmas \
    assigned-clocks vdd-supply vin-supply pinctrl-names pinctrl-0 bus-width max-frequency device_type dma-coherent \
    resets reset-names phys phy-names";

// So many letters, from the given one on, each so many after the one before.
fn letters(many: usize, from: usize, step: usize) -> String {
    (0..many).map(|i| (b'a' + ((from + i * step) % 26) as u8) as char).collect()
}

// The name of a kind with the given number. Of the tails, each is the end of the one before, 31 in a row.
fn name(kind: Names, k: usize) -> String {
    match kind {
        Names::Front => format!("station,prop-{k:03}"),
        Names::End => format!("{k:03}-cells"),
        Names::Both => format!("station,{k:03}-cells"),
        Names::Mixed => format!("{}{}", letters(k * 11 % 28 + 1, k, k / 26 + 3), letters(2, k / 26, k)),
        Names::Tails => letters(31, k / 31, 1)[k % 31..].to_string(),
        Names::Usual => USUAL.split(' ').nth(k).unwrap().to_string(),
    }
}

impl Work {
    fn call(&mut self, kind: usize, name: &str, value: &str) {
        let at = self.text.len();
        self.text.push_str(name);
        self.text.push_str(value);
        self.calls.push([kind, at, at + name.len(), at + name.len(), self.text.len()]);
    }

    // So many nodes under a root, four properties each, of so many distinct names, with values of 1 to 4 times so many bytes.
    fn new(nodes: usize, kind: Names, many: usize, bytes: usize) -> Work {
        Work::with(nodes, 4, kind, many, bytes)
    }

    // The same with so many properties each; no node has a name twice.
    fn with(nodes: usize, each: usize, kind: Names, many: usize, bytes: usize) -> Work {
        assert!(each <= many, "a node of a load has a name twice");
        let names: Vec<String> = (0..many).map(|k| name(kind, k)).collect();
        assert!(names.iter().collect::<HashSet<_>>().len() == many, "two names of a load are the same");
        let mut w = Work { calls: Vec::new(), text: String::new() };
        w.call(1, "", "");
        for i in 0..nodes {
            w.call(1, &format!("sensor@{i:x}"), "");
            for k in i * each..(i + 1) * each {
                let value: String = (0..(k % 4 + 1) * bytes).map(|b| ((k * 7 + b) % 127) as u8 as char).collect();
                w.call(3, &names[k % many], &value);
            }
            w.call(2, "", "");
        }
        w.call(2, "", "");
        w.call(9, "", "");
        w
    }
}

fn original(w: &Work) -> Vec<u8> {
    let (mut f, mut open) = (FdtWriter::new().unwrap(), Vec::new());
    for &[kind, a, b, c, d] in &w.calls {
        match kind {
            1 => open.push(f.begin_node(&w.text[a..b]).unwrap()),
            2 => f.end_node(open.pop().unwrap()).unwrap(),
            3 => f.property(&w.text[a..b], &w.text.as_bytes()[c..d]).unwrap(),
            _ => break,
        }
    }
    f.finish().unwrap()
}

// The buffers that ours is lent.
struct Lent {
    blob: Vec<u8>,
    strings: Vec<u8>,
}

fn ours(w: &Work, lent: &mut Lent) -> usize {
    // five numbers stand in a row in every call, so the list is one list of numbers
    let numbers = w.calls.as_flattened();
    unsafe {
        export_bench(
            numbers.as_ptr(),
            numbers.len(),
            w.text.as_ptr(),
            w.text.len(),
            lent.blob.as_mut_ptr(),
            lent.blob.len(),
            lent.strings.as_mut_ptr(),
            lent.strings.len(),
        )
    }
}

// The same calls one by one, through the module for Rust and the exported functions.
fn in_place(w: &Work, lent: &mut Lent) -> usize {
    let buffers = geirovund::Buffers { blob: &mut lent.blob, strings: &mut lent.strings, phandles: &mut [] };
    let (mut f, mut open) = (geirovund::FdtWriter::new(buffers).unwrap(), Vec::new());
    for &[kind, a, b, c, d] in &w.calls {
        match kind {
            1 => open.push(f.begin_node(&w.text[a..b]).unwrap()),
            2 => f.end_node(open.pop().unwrap()).unwrap(),
            3 => f.property(&w.text[a..b], &w.text.as_bytes()[c..d]).unwrap(),
            _ => break,
        }
    }
    f.finish().unwrap().len()
}

// Compares the bytes, then times both in turn: one line of the report.
fn measure(name: &str, w: &Work, rounds: usize) {
    measure_as(ours, name, w, rounds);
}

// The same with one of the two ways to call ours.
fn measure_as(ours: fn(&Work, &mut Lent) -> usize, name: &str, w: &Work, rounds: usize) {
    let mut lent = Lent { blob: vec![0xee; 65_536], strings: vec![0xee; 8_192] };
    let (theirs, n) = (original(w), ours(w, &mut lent));
    assert!(theirs == lent.blob[..n], "{name}: the blobs differ: {} bytes and {n}", theirs.len());
    let mut build_original = || drop(black_box(original(black_box(w))));
    let mut build_ours = || {
        black_box(ours(black_box(w), &mut lent));
    };
    let [a, b] = in_turn(rounds, [&mut build_original, &mut build_ours]);
    println!("{}", line(name, theirs.len(), "original", &a, &b));
}

fn main() {
    let rounds = rounds();
    measure("500 nodes, 40 names", &Work::new(500, Names::Front, 40, 4), rounds);
    println!("\na call at a time, through the module for Rust (40 names):");
    for nodes in [31, 500] {
        measure_as(in_place, &format!("{nodes} nodes"), &Work::new(nodes, Names::Front, 40, 4), rounds);
    }
    println!("\nas the nodes grow (40 names):");
    for nodes in [31, 62, 125, 250, 500] {
        measure(&format!("{nodes} nodes"), &Work::new(nodes, Names::Front, 40, 4), rounds);
    }
    println!("\nas the names grow (400 nodes):");
    for names in [5, 10, 20, 40, 80, 160, 320] {
        measure(&format!("{names} names"), &Work::new(400, Names::Front, names, 4), rounds);
    }
    println!("\nby the kind of names (400 nodes):");
    measure("40 usual names", &Work::new(400, Names::Usual, 40, 4), rounds);
    for (kind, alike) in KINDS {
        for many in [40, 320] {
            measure(&format!("{many} names, {alike}"), &Work::new(400, kind, many, 4), rounds);
        }
    }
    println!("\nas the properties of a node grow (1,984 properties, 64 names):");
    for (nodes, each) in [(496, 4), (248, 8), (124, 16), (62, 32), (31, 64)] {
        measure(
            &format!("{nodes} nodes, {each} properties each"),
            &Work::with(nodes, each, Names::Front, 64, 4),
            rounds,
        );
    }
    println!("\nas the values grow (40 nodes, 40 names):");
    for bytes in [4, 8, 16, 32, 64, 128] {
        measure(&format!("values of {bytes} to {} bytes", 4 * bytes), &Work::new(40, Names::Front, 40, bytes), rounds);
    }
}
