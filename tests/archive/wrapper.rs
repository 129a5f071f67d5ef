// Checks of geirovund.rs: programs for the original crate, vm-fdt, give the same bytes and refusals through it. Each is
// written once, as a macro for a writer of either crate. With `--cfg original` the original runs too; without it, only
// the length of the first example, the names of the refusals and the order of reservations are compared.
use geirovund::{Buffers, Error, FdtReserveEntry, FdtWriter};
use std::cmp::Ordering;
use std::fmt::Debug;
use std::process::ExitCode;

// The first example of the crate's documentation.
macro_rules! first_example {
    ($fdt:ident) => {{
        let root = $fdt.begin_node("root")?;
        $fdt.property_string("compatible", "linux,dummy-virt")?;
        $fdt.property_u32("#address-cells", 2)?;
        $fdt.property_u32("#size-cells", 2)?;
        let chosen = $fdt.begin_node("chosen")?;
        $fdt.property_u32("linux,pci-probe-only", 1)?;
        $fdt.property_string("bootargs", "panic=-1 console=hvc0")?;
        $fdt.end_node(chosen)?;
        let memory = $fdt.begin_node("memory")?;
        $fdt.property_string("device_type", "memory")?;
        $fdt.end_node(memory)?;
        $fdt.end_node(root)?;
        $fdt.finish()
    }};
}

// Every call.
macro_rules! every_call {
    ($fdt:ident) => {{
        $fdt.set_boot_cpuid_phys(0x12345678);
        let root = $fdt.begin_node("")?;
        $fdt.property("bytes", &[1, 2, 3])?;
        $fdt.property_null("null")?;
        $fdt.property_string("string", "äöü")?;
        $fdt.property_string_list("strings", vec![String::from("a"), String::new(), String::from("bcd")])?;
        $fdt.property_string_list("no-strings", Vec::<String>::new())?;
        $fdt.property_u32("u32", 0xfffefdfc)?;
        $fdt.property_u64("u64", 0xfffefdfcfbfaf9f8)?;
        $fdt.property_array_u32("u32s", &[1, 2, 3])?;
        $fdt.property_array_u64("u64s", &[1, 2, u64::MAX])?;
        let node = $fdt.begin_node("node@1")?;
        $fdt.property_phandle(7)?;
        $fdt.end_node(node)?;
        $fdt.end_node(root)?;
        $fdt.finish()
    }};
}

// What refused calls say. Those of the writer come last, since a node is left open.
macro_rules! refusals {
    ($entry:ident, $fdt:ident) => {{
        let mut said = vec![told($entry::new(0, 0)), told($entry::new(u64::MAX, 1)), told($fdt.property_null("a"))];
        let root = $fdt.begin_node("").unwrap();
        said.extend([told($fdt.begin_node("1")), told($fdt.begin_node("a\0")), told($fdt.property_u32("a@", 1))]);
        said.extend([
            told($fdt.property_string("a", "\0")),
            told($fdt.property_string_list("a", vec!["\0".to_string()])),
        ]);
        $fdt.property_phandle(1).unwrap();
        let node = $fdt.begin_node("a").unwrap();
        said.extend([told($fdt.property_phandle(1)), told($fdt.end_node(root))]);
        $fdt.end_node(node).unwrap();
        said.push(told($fdt.property_null("a")));
        for _ in 1..64 {
            $fdt.begin_node("a").unwrap();
        }
        said.extend([told($fdt.begin_node("a\0")), told($fdt.finish())]);
        said
    }};
}

// How a reservation is ordered beside a longer one at its address, and beside a shorter one after it.
macro_rules! orders {
    ($entry:ident) => {{
        let entry = |address, size| $entry::new(address, size).unwrap();
        [entry(1, 2).cmp(&entry(1, 9)), entry(1, 2).cmp(&entry(5, 1))]
    }};
}

const REFUSALS: [&str; 13] = [
    "InvalidMemoryReservation",
    "InvalidMemoryReservation",
    "PropertyBeforeBeginNode",
    "InvalidNodeName",
    "InvalidString",
    "InvalidPropertyName",
    "InvalidString",
    "InvalidString",
    "DuplicatePhandle",
    "OutOfOrderEndNode",
    "PropertyAfterEndNode",
    "NodeDepthTooLarge",
    "UnclosedNode",
];

// The name of a refusal.
fn told<T, E: Debug>(result: Result<T, E>) -> String {
    result.err().map_or("nothing".to_string(), |error| format!("{error:?}"))
}

// The refusal of an opening.
fn opened(lent: Buffers, entries: &[FdtReserveEntry]) -> Option<Error> {
    FdtWriter::new_with_mem_reserv(lent, entries).err()
}

// Buffers to lend.
struct Lent<const B: usize, const S: usize, const P: usize>([u8; B], [u8; S], [u32; P]);

impl<const B: usize, const S: usize, const P: usize> Lent<B, S, P> {
    // Buffers that hold anything.
    fn new() -> Self {
        Lent([0xa5; B], [0xa5; S], [0xa5; P])
    }

    // Lends them.
    fn lend(&mut self) -> Buffers<'_> {
        Buffers { blob: &mut self.0, strings: &mut self.1, phandles: &mut self.2 }
    }
}

// The programs through geirovund.rs.
mod ours {
    use super::*;

    pub fn first(lent: Buffers<'_>) -> geirovund::Result<&[u8]> {
        let mut fdt = FdtWriter::new(lent)?;
        first_example!(fdt)
    }

    pub fn every(lent: Buffers<'_>) -> geirovund::FdtWriterResult<&[u8]> {
        let reserved = [FdtReserveEntry::new(4096, 4096)?, FdtReserveEntry::new(0, 4096)?];
        let mut fdt = FdtWriter::new_with_mem_reserv(lent, &reserved)?;
        every_call!(fdt)
    }

    pub fn refused(lent: Buffers<'_>) -> Vec<String> {
        let mut fdt = FdtWriter::new(lent).unwrap();
        refusals!(FdtReserveEntry, fdt)
    }

    pub fn ordered() -> [Ordering; 2] {
        orders!(FdtReserveEntry)
    }
}

// The programs through the original.
#[cfg(original)]
mod theirs {
    use super::{told, Ordering};
    use vm_fdt::{FdtReserveEntry, FdtWriter, FdtWriterResult};

    pub fn first() -> FdtWriterResult<Vec<u8>> {
        let mut fdt = FdtWriter::new()?;
        first_example!(fdt)
    }

    pub fn every() -> FdtWriterResult<Vec<u8>> {
        let reserved = [FdtReserveEntry::new(4096, 4096)?, FdtReserveEntry::new(0, 4096)?];
        let mut fdt = FdtWriter::new_with_mem_reserv(&reserved)?;
        every_call!(fdt)
    }

    pub fn refused() -> Vec<String> {
        let mut fdt = FdtWriter::new().unwrap();
        refusals!(FdtReserveEntry, fdt)
    }

    pub fn ordered() -> [Ordering; 2] {
        orders!(FdtReserveEntry)
    }
}

// A count of checks, and of those that failed.
struct Checks(u32, u32);

impl Checks {
    // A check that two values are the same; says what is not.
    fn same<T: Debug + PartialEq<U>, U: Debug>(&mut self, what: &str, expected: T, found: U) {
        self.0 += 1;
        if expected != found {
            self.1 += 1;
            println!("{what}: expected {expected:?}, found {found:?}");
        }
    }

    // A check that two blobs are the same; says where they differ.
    #[cfg(original)]
    fn same_bytes(&mut self, what: &str, expected: &[u8], found: &[u8]) {
        let first = expected.iter().zip(found).position(|(one, other)| one != other);
        self.same(what, (expected.len(), None), (found.len(), first));
    }

    // The programs for the crate.
    fn programs(&mut self) {
        let (mut one, mut two, mut three) =
            (Lent::<4096, 512, 16>::new(), Lent::<512, 128, 1>::new(), Lent::<2048, 64, 2>::new());
        let (first, every, refused) = (ours::first(one.lend()), ours::every(two.lend()), ours::refused(three.lend()));
        self.same("the first example's length", Ok(324), first.map(|blob| blob.len()));
        self.same("what refused calls say", &REFUSALS[..], &refused[..]);
        self.same("every call is accepted", true, every.is_ok());
        self.same("the order of reservations", [Ordering::Equal, Ordering::Less], ours::ordered());
        #[cfg(original)]
        {
            self.same_bytes(
                "the first example: length and first difference",
                &theirs::first().unwrap(),
                first.unwrap(),
            );
            self.same_bytes("every call: length and first difference", &theirs::every().unwrap(), every.unwrap());
            self.same("what the original says", &REFUSALS[..], &theirs::refused()[..]);
            self.same("the order of reservations in the original", theirs::ordered(), ours::ordered());
        }
    }

    // What the crate does not refuse, or cannot.
    fn added(&mut self) -> geirovund::Result<()> {
        let mut lent = Lent::<96, 10, 1>::new();
        let entries: Vec<_> = (0..65).map(|i| FdtReserveEntry::new(i, 1).unwrap()).collect();
        let twice = [entries[0].clone(), entries[0].clone()];
        self.same("65 reservations", Some(Error::TooManyReservations), opened(lent.lend(), &entries));
        self.same("an overlap", Some(Error::OverlappingMemoryReservations), opened(lent.lend(), &twice));
        self.same("too many for the blob", Some(Error::BlobRoom), opened(lent.lend(), &entries[..3]));
        let mut fdt = FdtWriter::new(lent.lend())?;
        let root = fdt.begin_node("")?;
        self.same("a long name", Err(Error::StringRoom), fdt.property_null("ten-bytes-"));
        self.same("a long value", Err(Error::BlobRoom), fdt.property("a", &[0; 99]));
        fdt.property_phandle(1)?;
        self.same("a name twice", Err(Error::DuplicateProperty), fdt.property_null("phandle"));
        self.same("a full table", Err(Error::PhandleRoom), fdt.property_phandle(2));
        fdt.end_node(root)?;
        self.same("a finished blob", Ok(96), fdt.finish().map(|blob| blob.len()));
        Ok(())
    }

    // Lists of strings: each kind that is taken, and what is too long to be joined.
    fn lists(&mut self) -> geirovund::Result<()> {
        let mut lent = Lent::<4096, 64, 0>::new();
        let mut fdt = FdtWriter::new(lent.lend())?;
        let root = fdt.begin_node("")?;
        let long = "x".repeat(geirovund::STRING_LIST_BYTES);
        let slice: &[&str] = &["a", "b"];
        fdt.property_string_list("a", slice)?;
        fdt.property_string_list("b", &vec![String::from("a")])?;
        fdt.property_string_list("c", [&long])?;
        self.same("1025 bytes", Err(Error::StringListTooLong), fdt.property_string_list("d", [&long[..], "y"]));
        fdt.property_string_list("d", vec![""; geirovund::STRING_LIST_STRINGS])?;
        self.same("65 strings", Err(Error::StringListTooLong), fdt.property_string_list("e", [""; 65]));
        fdt.end_node(root)?;
        let blob = fdt.finish()?;
        self.same("two strings joined", &b"a\0b\0"[..], &blob[56 + 8 + 12..][..4]);
        self.same("a message", "nodes can be nested at most 64 deep", Error::NodeDepthTooLarge.to_string().as_str());
        Ok(())
    }
}

fn main() -> ExitCode {
    let mut checks = Checks(0, 0);
    checks.programs();
    let added = checks.added();
    checks.same("calls with little room", Ok(()), added);
    let lists = checks.lists();
    checks.same("lists of strings", Ok(()), lists);
    println!("{} checks, {} failed", checks.0, checks.1);
    ExitCode::from(u8::from(checks.1 != 0))
}
