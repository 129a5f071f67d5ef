//! A devicetree writer with the interface of the crate vm-fdt 0.3.0, over the proved functions of `libgeirovund.a`.
//!
//! It uses `core` alone and no heap. It is a module of a program, or a crate of its own:
//!
//! ```sh
//! rustc --edition 2021 --crate-type rlib -L native=build build/geirovund.rs
//! ```
//!
//! On a target without `std` it must be a module, of a crate that begins with these lines:
//!
//! ```text
//! #![no_std]
//! mod geirovund;
//! ```
//!
//! It needs Rust 1.82 or newer and x86-64. A program for vm-fdt changes its `use` line and its buffers:
//!
//! ```ignore
//! let (mut blob, mut strings, mut phandles) = ([0; 4096], [0; 512], [0; 16]);
//! let lent = Buffers { blob: &mut blob, strings: &mut strings, phandles: &mut phandles };
//! let mut fdt = FdtWriter::new(lent)?;
//! let root = fdt.begin_node("")?;
//! fdt.property_u32("reg", 1)?;
//! fdt.end_node(root)?;
//! let dtb: &[u8] = fdt.finish()?;
//! ```
//!
//! What differs from the crate:
//!
//! - `new` and `new_with_mem_reserv` take the buffers that the writer works in. Whatever is lent, at most 65,536 bytes
//!   of blob, 8,192 bytes of strings and 256 phandles are used.
//! - `FdtWriter` has a lifetime, that of the buffers: a struct that holds one needs a lifetime too.
//! - `finish` returns the blob as the front of the lent buffer, not as a `Vec<u8>`.
//! - A second property of one name in a node is refused (`DuplicateProperty`), and so are more than 64 reservations
//!   (`TooManyReservations`). `BlobRoom`, `StringRoom` and `PhandleRoom` say which buffer is too short.
//! - `property_string_list` takes a `Vec<String>`, a `&[&str]` or another list of strings, with at most 64 strings and
//!   1,024 bytes. The types of the list and of its strings must be known: write `Vec::<String>::new()`,
//!   `collect::<Vec<String>>()` and `String::from("a")`, not an empty `vec![]`, `collect()` and `"a".into()`.
//! - `Error` has more variants, so a `match` over all of them needs more arms. Its texts are different.
//!
//! What is as in the crate: a refused call changes nothing, except that a refused `property_phandle` may have recorded
//! its value; a refused `finish` consumes the writer; and `set_boot_cpuid_phys` returns nothing (it would panic if it
//! were refused).
#![allow(dead_code)] // A program that takes this file as a module need not use all of it.

use core::cmp::Ordering;
use core::fmt;

/// The most bytes in the strings of a list together. They are joined on the stack: raise it if yours has room.
pub const STRING_LIST_BYTES: usize = 1024;

/// The most strings in a list.
pub const STRING_LIST_STRINGS: usize = 64;

/// Why a call is refused. The first thirteen are the crate's.
#[derive(Clone, Copy, Debug, Eq, PartialEq)]
pub enum Error {
    /// No node is open, and none was ended last.
    PropertyBeforeBeginNode,
    /// A node was ended last: a node's properties come before its children.
    PropertyAfterEndNode,
    /// Never returned: the buffers are too short for such a value.
    PropertyValueTooLarge,
    /// Never returned: the buffers are too short for such a blob.
    TotalSizeTooLarge,
    /// A name or a string value has a byte 0.
    InvalidString,
    /// The node's handle differs from the number of open nodes, or none is open.
    OutOfOrderEndNode,
    /// A node is still open.
    UnclosedNode,
    /// The size of a reservation is 0, or its address + size is 2^64 or more.
    InvalidMemoryReservation,
    /// Some address lies in two reservations.
    OverlappingMemoryReservations,
    /// Not a node name. An empty name is valid.
    InvalidNodeName,
    /// Not a property name.
    InvalidPropertyName,
    /// 64 nodes are open.
    NodeDepthTooLarge,
    /// Another node has this phandle, or a refused call recorded it.
    DuplicatePhandle,
    /// The blob has no room.
    BlobRoom,
    /// The strings have no room for a new property name.
    StringRoom,
    /// The table has no room for another phandle.
    PhandleRoom,
    /// Never returned: a writer keeps the buffers of its opening.
    Misfit,
    /// Never returned: `finish` consumes the writer.
    Finished,
    /// There are more than 64 reservations.
    TooManyReservations,
    /// The open node already has a property of this name.
    DuplicateProperty,
    /// The list has more than `STRING_LIST_STRINGS` strings or `STRING_LIST_BYTES` bytes.
    StringListTooLong,
}

/// The refusals of the archive, from number 1 on.
const REFUSALS: [Error; 20] = [
    Error::PropertyBeforeBeginNode,
    Error::PropertyAfterEndNode,
    Error::PropertyValueTooLarge,
    Error::TotalSizeTooLarge,
    Error::InvalidString,
    Error::OutOfOrderEndNode,
    Error::UnclosedNode,
    Error::InvalidMemoryReservation,
    Error::OverlappingMemoryReservations,
    Error::InvalidNodeName,
    Error::InvalidPropertyName,
    Error::NodeDepthTooLarge,
    Error::DuplicatePhandle,
    Error::BlobRoom,
    Error::StringRoom,
    Error::PhandleRoom,
    Error::Misfit,
    Error::Finished,
    Error::TooManyReservations,
    Error::DuplicateProperty,
];

impl fmt::Display for Error {
    fn fmt(&self, f: &mut fmt::Formatter) -> fmt::Result {
        f.write_str(match self {
            Error::PropertyBeforeBeginNode => "a property needs an open node: begin one first",
            Error::PropertyAfterEndNode => "a node was ended last: write the properties of a node before its children",
            Error::PropertyValueTooLarge => "the value is too large",
            Error::TotalSizeTooLarge => "the blob is too large",
            Error::InvalidString => "a name or a string has a byte 0",
            Error::OutOfOrderEndNode => "this is not the node to end: end the open one that was begun last",
            Error::UnclosedNode => "a node is still open: end every node before finish",
            Error::InvalidMemoryReservation => "a reservation has size 0, or reaches 2^64",
            Error::OverlappingMemoryReservations => "two reservations overlap",
            Error::InvalidNodeName => {
                "not a node name: a letter, at most 30 of A-Z a-z 0-9 , . _ + - and optionally @ and an address; an \
                 empty name is valid too"
            }
            Error::InvalidPropertyName => "not a property name: 1 to 31 of A-Z a-z 0-9 , . _ + ? # -",
            Error::NodeDepthTooLarge => "nodes can be nested at most 64 deep",
            Error::DuplicatePhandle => "this phandle is already used",
            Error::BlobRoom => "no room left in the blob: lend a longer buffer, of at most 65536 bytes",
            Error::StringRoom => "no room left for a new name: lend a longer strings buffer, of at most 8192 bytes",
            Error::PhandleRoom => "no room left for another phandle: lend a longer table, of at most 256 entries",
            Error::Misfit => "the writer does not fit its buffers",
            Error::Finished => "the blob is already finished",
            Error::TooManyReservations => "there can be at most 64 reservations",
            Error::DuplicateProperty => "the open node already has a property of this name",
            Error::StringListTooLong => "the list is too long: write it with property, with a 0 after each string",
        })
    }
}

impl core::error::Error for Error {}

/// What a call returns.
pub type Result<T> = core::result::Result<T, Error>;

/// The crate's other name for it.
pub type FdtWriterResult<T> = Result<T>;

// The writer as the archive has it, with GEIROVUND_WRITER_INIT and the functions of geirovund.h.
mod archive {
    // Nine sizes, the boot number, and whether a node was ended last and whether the blob is finished.
    #[repr(C)]
    #[derive(Debug)]
    pub struct Writer {
        sizes: [usize; 9],
        boot_cpuid_phys: u32,
        flags: [bool; 2],
    }

    const _: () = assert!(size_of::<Writer>() == 80, "geirovund.rs is for 64-bit processors");

    pub const CLOSED: Writer = Writer { sizes: [0; 9], boot_cpuid_phys: 0, flags: [false, true] };

    #[rustfmt::skip]
    #[link(name = "geirovund", kind = "static")]
    unsafe extern "C" {
        pub fn geirovund_writer_size() -> usize;
        pub fn geirovund_new_with_mem_reserv(
            w: *mut Writer, blob: *mut u8, blob_length: usize, strings: *const u8, strings_length: usize,
            phandles: *const u32, phandles_length: usize, mem_reservations: *const u64, mem_reservations_length: usize,
        ) -> u32;
        pub fn geirovund_set_boot_cpuid_phys(w: *mut Writer, boot_cpuid_phys: u32) -> u32;
        pub fn geirovund_begin_node(
            w: *mut Writer, blob: *mut u8, blob_length: usize, name: *const u8, name_length: usize, node: *mut usize,
        ) -> u32;
        pub fn geirovund_end_node(w: *mut Writer, blob: *mut u8, blob_length: usize, node: usize) -> u32;
        pub fn geirovund_property(
            w: *mut Writer, blob: *mut u8, blob_length: usize, strings: *mut u8, strings_length: usize,
            name: *const u8, name_length: usize, val: *const u8, val_length: usize,
        ) -> u32;
        pub fn geirovund_property_null(
            w: *mut Writer, blob: *mut u8, blob_length: usize, strings: *mut u8, strings_length: usize,
            name: *const u8, name_length: usize,
        ) -> u32;
        pub fn geirovund_property_string(
            w: *mut Writer, blob: *mut u8, blob_length: usize, strings: *mut u8, strings_length: usize,
            name: *const u8, name_length: usize, val: *const u8, val_length: usize,
        ) -> u32;
        pub fn geirovund_property_string_list(
            w: *mut Writer, blob: *mut u8, blob_length: usize, strings: *mut u8, strings_length: usize,
            name: *const u8, name_length: usize, values: *const u8, values_length: usize,
            lengths: *const usize, lengths_length: usize,
        ) -> u32;
        pub fn geirovund_property_u32(
            w: *mut Writer, blob: *mut u8, blob_length: usize, strings: *mut u8, strings_length: usize,
            name: *const u8, name_length: usize, val: u32,
        ) -> u32;
        pub fn geirovund_property_u64(
            w: *mut Writer, blob: *mut u8, blob_length: usize, strings: *mut u8, strings_length: usize,
            name: *const u8, name_length: usize, val: u64,
        ) -> u32;
        pub fn geirovund_property_array_u32(
            w: *mut Writer, blob: *mut u8, blob_length: usize, strings: *mut u8, strings_length: usize,
            name: *const u8, name_length: usize, numbers: *const u32, numbers_length: usize,
        ) -> u32;
        pub fn geirovund_property_array_u64(
            w: *mut Writer, blob: *mut u8, blob_length: usize, strings: *mut u8, strings_length: usize,
            name: *const u8, name_length: usize, numbers: *const u64, numbers_length: usize,
        ) -> u32;
        pub fn geirovund_property_phandle(
            w: *mut Writer, blob: *mut u8, blob_length: usize, strings: *mut u8, strings_length: usize,
            phandles: *mut u32, phandles_length: usize, val: u32,
        ) -> u32;
        pub fn geirovund_finish(
            w: *mut Writer, blob: *mut u8, blob_length: usize, strings: *const u8, strings_length: usize,
        ) -> u32;
        pub fn geirovund_show(w: *const Writer, blob: *const u8, blob_length: usize) -> usize;
    }
}

// Calls a function of the archive. All unsafe code is here. The arguments are bound before the unsafe block: each step
// binds one, and its `next` is a new variable.
//
// SAFETY: geirovund.h lists what a caller promises, and every use of `call` in this file keeps it. A pointer and the
// length after it are always those of one slice, and every other pointer is a reference: so none is null, and each is
// aligned and valid for the call. What the archive may write is borrowed by `&mut`, so it overlaps with nothing, and
// nothing else uses it during the call. A `Writer` begins as `CLOSED`, and only the archive writes to it; its flags are
// of type bool, so they are 0 or 1. `opened` compares its size with that in the archive before any other call.
macro_rules! call {
    ($function:ident($($argument:expr),*)) => {
        call!(bound $function() $($argument),*)
    };
    (bound $function:ident($($bound:ident),*) $argument:expr $(, $more:expr)*) => {{
        let next = $argument;
        call!(bound $function($($bound,)* next) $($more),*)
    }};
    (bound $function:ident($($bound:ident),*)) => {
        unsafe { archive::$function($($bound),*) }
    };
}

// Calls a function that is lent the writer, the blob and the strings, and then the other arguments.
macro_rules! call_lent {
    ($self:ident.$function:ident($($argument:expr),*)) => {{
        let (blob, strings) = (&mut *$self.lent.blob, &mut *$self.lent.strings);
        answer(call!($function(
            &mut $self.writer, blob.as_mut_ptr(), blob.len(), strings.as_mut_ptr(), strings.len() $(, $argument)*
        )))
    }};
}

// The number that the archive returns, as a result.
fn answer(number: u32) -> Result<()> {
    match (number as usize).checked_sub(1) {
        None => Ok(()),
        Some(i) => Err(*REFUSALS.get(i).expect("libgeirovund.a is not of the same release as geirovund.rs")),
    }
}

// Opens a writer over buffers.
fn opened(lent: &mut Buffers, mem_reservations: &[FdtReserveEntry]) -> Result<archive::Writer> {
    let size = call!(geirovund_writer_size());
    assert_eq!(size, size_of::<archive::Writer>(), "libgeirovund.a is not of the same release as geirovund.rs");
    let mut writer = archive::CLOSED;
    let Buffers { blob, strings, phandles } = lent;
    // An entry is two numbers, one after the other.
    let (numbers, count) = (mem_reservations.as_ptr().cast(), 2 * mem_reservations.len());
    #[rustfmt::skip]
    answer(call!(geirovund_new_with_mem_reserv(
        &mut writer, blob.as_mut_ptr(), blob.len(), strings.as_ptr(), strings.len(), phandles.as_ptr(), phandles.len(),
        numbers, count
    )))?;
    Ok(writer)
}

/// The buffers that a writer works in.
#[derive(Debug)]
pub struct Buffers<'a> {
    /// The blob is built here, from the front.
    pub blob: &'a mut [u8],
    /// Keeps each property name once.
    pub strings: &'a mut [u8],
    /// Keeps the values of `property_phandle`.
    pub phandles: &'a mut [u32],
}

/// A range of memory that the operating system leaves alone.
#[repr(C)]
#[derive(Clone, Debug, Eq, PartialEq)]
pub struct FdtReserveEntry {
    address: u64,
    size: u64,
}

/// The order of the addresses, as in the crate: the size does not count.
impl Ord for FdtReserveEntry {
    fn cmp(&self, than: &FdtReserveEntry) -> Ordering {
        u64::cmp(&self.address, &than.address)
    }
}

impl PartialOrd for FdtReserveEntry {
    fn partial_cmp(&self, than: &FdtReserveEntry) -> Option<Ordering> {
        Some(Ord::cmp(self, than))
    }
}

impl FdtReserveEntry {
    /// A reservation of `size` bytes from `address` on.
    pub fn new(address: u64, size: u64) -> Result<Self> {
        let entry = FdtReserveEntry { address, size };
        // The archive makes the test, on a blob with room for this one.
        let mut lent = Buffers { blob: &mut [0; 72], strings: &mut [], phandles: &mut [] };
        opened(&mut lent, core::slice::from_ref(&entry))?;
        Ok(entry)
    }
}

/// An open node. It can be neither copied nor ended twice.
#[derive(Debug)]
pub struct FdtWriterNode {
    handle: usize,
}

/// A writer over lent buffers.
#[derive(Debug)]
pub struct FdtWriter<'a> {
    writer: archive::Writer,
    lent: Buffers<'a>,
}

impl<'a> FdtWriter<'a> {
    /// Opens a writer with no memory reservations.
    pub fn new(lent: Buffers<'a>) -> Result<Self> {
        FdtWriter::new_with_mem_reserv(lent, &[])
    }

    /// Opens a writer with memory reservations, which are written in this order.
    pub fn new_with_mem_reserv(mut lent: Buffers<'a>, mem_reservations: &[FdtReserveEntry]) -> Result<Self> {
        let writer = opened(&mut lent, mem_reservations)?;
        Ok(FdtWriter { writer, lent })
    }

    /// Sets the boot processor's number in the header. It returns nothing, as in the crate: the archive refuses it only
    /// after `finish`, which consumes the writer. It panics if it is refused anyway.
    pub fn set_boot_cpuid_phys(&mut self, boot_cpuid_phys: u32) {
        let number = call!(geirovund_set_boot_cpuid_phys(&mut self.writer, boot_cpuid_phys));
        answer(number).expect("an open writer takes the boot number");
    }

    /// Begins a node inside the open one.
    pub fn begin_node(&mut self, name: &str) -> Result<FdtWriterNode> {
        let blob = &mut *self.lent.blob;
        let (at, length, mut handle) = (blob.as_mut_ptr(), blob.len(), 0);
        answer(call!(geirovund_begin_node(&mut self.writer, at, length, name.as_ptr(), name.len(), &mut handle)))?;
        Ok(FdtWriterNode { handle })
    }

    /// Ends the open node. Its handle is the number of open nodes just after it began, and only this is tested: so the
    /// handle that another writer gave is accepted at the same depth.
    pub fn end_node(&mut self, node: FdtWriterNode) -> Result<()> {
        let blob = &mut *self.lent.blob;
        answer(call!(geirovund_end_node(&mut self.writer, blob.as_mut_ptr(), blob.len(), node.handle)))
    }

    /// Writes a property with a value of any bytes.
    pub fn property(&mut self, name: &str, val: &[u8]) -> Result<()> {
        call_lent!(self.geirovund_property(name.as_ptr(), name.len(), val.as_ptr(), val.len()))
    }

    /// Writes a property with an empty value.
    pub fn property_null(&mut self, name: &str) -> Result<()> {
        call_lent!(self.geirovund_property_null(name.as_ptr(), name.len()))
    }

    /// Writes a property of one string.
    pub fn property_string(&mut self, name: &str, val: &str) -> Result<()> {
        call_lent!(self.geirovund_property_string(name.as_ptr(), name.len(), val.as_ptr(), val.len()))
    }

    /// Writes a property of several strings: a `Vec<String>` as in the crate, or an array or a slice of `&str`.
    ///
    /// The archive takes the strings joined, and there is no heap to join them in. So they are joined in an array on
    /// the stack, and a list that is too long for it is refused (`StringListTooLong`) before any other test. `property`
    /// takes a list of any length: pass it the bytes of the strings, with a 0 after each.
    pub fn property_string_list<S: AsRef<str>>(&mut self, name: &str, values: impl AsRef<[S]>) -> Result<()> {
        let (mut joined, mut lengths) = ([0; STRING_LIST_BYTES], [0; STRING_LIST_STRINGS]);
        let values = values.as_ref();
        let lengths = lengths.get_mut(..values.len()).ok_or(Error::StringListTooLong)?;
        let mut used = 0;
        for (value, length) in values.iter().zip(lengths.iter_mut()) {
            let value = value.as_ref().as_bytes();
            let place = joined[used..].get_mut(..value.len()).ok_or(Error::StringListTooLong)?;
            place.copy_from_slice(value);
            *length = value.len();
            used += value.len();
        }
        let (list, count) = (&joined[..used], lengths.len());
        let (list, bytes) = (list.as_ptr(), list.len());
        call_lent!(self.geirovund_property_string_list(name.as_ptr(), name.len(), list, bytes, lengths.as_ptr(), count))
    }

    /// Writes a property of one number of 4 bytes.
    pub fn property_u32(&mut self, name: &str, val: u32) -> Result<()> {
        call_lent!(self.geirovund_property_u32(name.as_ptr(), name.len(), val))
    }

    /// Writes a property of one number of 8 bytes.
    pub fn property_u64(&mut self, name: &str, val: u64) -> Result<()> {
        call_lent!(self.geirovund_property_u64(name.as_ptr(), name.len(), val))
    }

    /// Writes a property of numbers of 4 bytes.
    pub fn property_array_u32(&mut self, name: &str, cells: &[u32]) -> Result<()> {
        call_lent!(self.geirovund_property_array_u32(name.as_ptr(), name.len(), cells.as_ptr(), cells.len()))
    }

    /// Writes a property of numbers of 8 bytes.
    pub fn property_array_u64(&mut self, name: &str, cells: &[u64]) -> Result<()> {
        call_lent!(self.geirovund_property_array_u64(name.as_ptr(), name.len(), cells.as_ptr(), cells.len()))
    }

    /// Writes the phandle of the open node, which no other node may have. A refused call may have recorded the value.
    pub fn property_phandle(&mut self, val: u32) -> Result<()> {
        let phandles = &mut *self.lent.phandles;
        call_lent!(self.geirovund_property_phandle(phandles.as_mut_ptr(), phandles.len(), val))
    }

    /// Finishes the blob, and returns it as the front of the lent buffer. A refused finish consumes the writer too.
    pub fn finish(mut self) -> Result<&'a [u8]> {
        call_lent!(self.geirovund_finish())?;
        let blob: &'a [u8] = self.lent.blob;
        let length = call!(geirovund_show(&self.writer, blob.as_ptr(), blob.len()));
        Ok(&blob[..length])
    }
}
