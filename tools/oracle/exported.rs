// The exported functions of the writer, as crates/export_writer declares them.
use crate::model::FIELDS;

// A writer: the fields of the record in their order, and the padding, so that each byte belongs to a field. Flags are
// bytes here, because every byte can be read as one.
#[repr(C)]
#[derive(Clone, Copy, PartialEq, Eq)]
pub struct Writer {
    pub numbers: [usize; 9],
    pub boot_cpuid_phys: u32,
    pub node_ended: u8,
    pub finished: u8,
    pub padding: [u8; 2],
}

// The functions. A slice is passed as a pointer and its length.
extern "C" {
    pub fn geirovund_writer_size() -> usize;
    pub fn geirovund_new(
        w: *mut Writer,
        blob: *mut u8,
        blob_len: usize,
        strings: *const u8,
        strings_len: usize,
        phandles: *const u32,
        phandles_len: usize,
    ) -> u32;
    pub fn geirovund_new_with_mem_reserv(
        w: *mut Writer,
        blob: *mut u8,
        blob_len: usize,
        strings: *const u8,
        strings_len: usize,
        phandles: *const u32,
        phandles_len: usize,
        mem_reservations: *const u64,
        mem_reservations_len: usize,
    ) -> u32;
    pub fn geirovund_set_boot_cpuid_phys(w: *mut Writer, boot_cpuid_phys: u32) -> u32;
    pub fn geirovund_begin_node(
        w: *mut Writer,
        blob: *mut u8,
        blob_len: usize,
        name: *const u8,
        name_len: usize,
        node: *mut usize,
    ) -> u32;
    pub fn geirovund_end_node(w: *mut Writer, blob: *mut u8, blob_len: usize, node: usize) -> u32;
    pub fn geirovund_property(
        w: *mut Writer,
        blob: *mut u8,
        blob_len: usize,
        strings: *mut u8,
        strings_len: usize,
        name: *const u8,
        name_len: usize,
        val: *const u8,
        val_len: usize,
    ) -> u32;
    pub fn geirovund_property_null(
        w: *mut Writer,
        blob: *mut u8,
        blob_len: usize,
        strings: *mut u8,
        strings_len: usize,
        name: *const u8,
        name_len: usize,
    ) -> u32;
    pub fn geirovund_property_string(
        w: *mut Writer,
        blob: *mut u8,
        blob_len: usize,
        strings: *mut u8,
        strings_len: usize,
        name: *const u8,
        name_len: usize,
        val: *const u8,
        val_len: usize,
    ) -> u32;
    pub fn geirovund_property_string_list(
        w: *mut Writer,
        blob: *mut u8,
        blob_len: usize,
        strings: *mut u8,
        strings_len: usize,
        name: *const u8,
        name_len: usize,
        values: *const u8,
        values_len: usize,
        lengths: *const usize,
        lengths_len: usize,
    ) -> u32;
    pub fn geirovund_property_u32(
        w: *mut Writer,
        blob: *mut u8,
        blob_len: usize,
        strings: *mut u8,
        strings_len: usize,
        name: *const u8,
        name_len: usize,
        val: u32,
    ) -> u32;
    pub fn geirovund_property_u64(
        w: *mut Writer,
        blob: *mut u8,
        blob_len: usize,
        strings: *mut u8,
        strings_len: usize,
        name: *const u8,
        name_len: usize,
        val: u64,
    ) -> u32;
    pub fn geirovund_property_array_u32(
        w: *mut Writer,
        blob: *mut u8,
        blob_len: usize,
        strings: *mut u8,
        strings_len: usize,
        name: *const u8,
        name_len: usize,
        numbers: *const u32,
        numbers_len: usize,
    ) -> u32;
    pub fn geirovund_property_array_u64(
        w: *mut Writer,
        blob: *mut u8,
        blob_len: usize,
        strings: *mut u8,
        strings_len: usize,
        name: *const u8,
        name_len: usize,
        numbers: *const u64,
        numbers_len: usize,
    ) -> u32;
    pub fn geirovund_property_phandle(
        w: *mut Writer,
        blob: *mut u8,
        blob_len: usize,
        strings: *mut u8,
        strings_len: usize,
        phandles: *mut u32,
        phandles_len: usize,
        val: u32,
    ) -> u32;
    pub fn geirovund_finish(
        w: *mut Writer,
        blob: *mut u8,
        blob_len: usize,
        strings: *const u8,
        strings_len: usize,
    ) -> u32;
    pub fn geirovund_show(w: *const Writer, blob: *const u8, blob_len: usize) -> usize;
}

impl Writer {
    // The fields as numbers, in their order.
    pub fn apart(&self) -> [u64; 12] {
        let last = [self.boot_cpuid_phys as u64, self.node_ended as u64, self.finished as u64];
        std::array::from_fn(|k| if k < 9 { self.numbers[k] as u64 } else { last[k - 9] })
    }

    // Gives the field of a name a number; a flag is set by any number except 0, and another name changes nothing.
    pub fn set(&mut self, field: &str, n: u64) {
        match FIELDS.iter().position(|name| *name == field) {
            Some(9) => self.boot_cpuid_phys = n as u32,
            Some(10) => self.node_ended = u8::from(n != 0),
            Some(11) => self.finished = u8::from(n != 0),
            Some(k) => self.numbers[k] = n as usize,
            None => {}
        }
    }
}
