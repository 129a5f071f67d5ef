// The exported functions, and what they are lent: one writer for the whole list, a handle, the buffers, and the arguments of
// a call. After each call, what it may not write must be as it was.
use crate::exported::*;
use crate::face_wrong::{Event, Fault, Made};
use crate::fenced::Fenced;
use crate::list::{lay, Buffers, Step};
use crate::model::{Call, Value, BLOB, PHANDLES, STRINGS};
use crate::told::Lent;

// What the handle is before each begin: no begin gives it.
const NO_HANDLE: usize = usize::MAX;
// A writer that no call left, for the fences and the first opening: its numbers do not matter, and its flags are flags.
const NO_WRITER: Writer = Writer {
    numbers: [0xa5a5_a5a5_a5a5_a5a5; 9],
    boot_cpuid_phys: 0xa5a5_a5a5,
    node_ended: 1,
    finished: 0,
    padding: [0xa5; 2],
};

// The arguments of a call that are lent: a name, bytes, and numbers of 4 and of 8 bytes; each is empty if the call has none.
pub struct Arguments {
    pub name: Fenced<u8>,
    pub bytes: Fenced<u8>,
    pub cells: Fenced<u32>,
    pub wides: Fenced<u64>,
}

impl Arguments {
    // Each argument between its own fences.
    fn new(name: &[u8], bytes: &[u8], cells: &[u32], wides: &[u64]) -> Arguments {
        Arguments {
            name: Fenced::new(name, 0xa5),
            bytes: Fenced::new(bytes, 0xa5),
            cells: Fenced::new(cells, 0xa5a5_a5a5),
            wides: Fenced::new(wides, 0xa5a5_a5a5_a5a5_a5a5),
        }
    }

    // The arguments of a function that has none.
    pub fn none() -> Arguments {
        Arguments::new(&[], &[], &[], &[])
    }

    // The arguments of a call.
    fn of(call: &Call) -> Arguments {
        match call {
            Call::NewWithMemReserv(numbers) => Arguments::new(&[], &[], &[], numbers),
            Call::BeginNode(name) => Arguments::new(name, &[], &[], &[]),
            Call::Property(name, Value::Bytes(b) | Value::Text(b)) => Arguments::new(name, b, &[], &[]),
            Call::Property(name, Value::Texts(b, lengths)) => Arguments::new(name, b, &[], lengths),
            Call::Property(name, Value::U32s(numbers)) => Arguments::new(name, &[], numbers, &[]),
            Call::Property(name, Value::U64s(numbers)) => Arguments::new(name, &[], &[], numbers),
            Call::Property(name, Value::Null | Value::U32(_) | Value::U64(_)) => Arguments::new(name, &[], &[], &[]),
            Call::New | Call::SetBootCpuidPhys(_) | Call::EndNode(_) | Call::PropertyPhandle(_) | Call::Finish => {
                Arguments::none()
            }
        }
    }
}

// The writer, the handle and the buffers; how much of each buffer is lent; and the fault that every call is given, if any.
pub struct Desk {
    pub writer: Fenced<Writer>,
    pub handle: Fenced<usize>,
    pub blob: Fenced<u8>,
    pub strings: Fenced<u8>,
    pub phandles: Fenced<u32>,
    pub lent: [usize; 3],
    fault: Option<Fault>,
}

impl Desk {
    // Nothing lent, and the closed writer, which an opening without room leaves.
    pub fn closed(fault: Option<Fault>) -> Result<Desk, String> {
        let mut d = Desk {
            writer: Fenced::new(&[NO_WRITER], NO_WRITER),
            handle: Fenced::new(&[NO_HANDLE], 0xa5a5_a5a5_a5a5_a5a5),
            blob: Fenced::new(&vec![0xee; BLOB], 0xa5),
            strings: Fenced::new(&vec![0xee; STRINGS], 0xa5),
            phandles: Fenced::new(&vec![0xeeee_eeee; PHANDLES], 0xa5a5_a5a5),
            lent: [0; 3],
            fault: None,
        };
        d.call(&Call::New)?;
        d.fault = fault;
        let (size, own) = (d.done(Event::Size, Arguments::none())?, std::mem::size_of::<Writer>());
        if size != own {
            return Err(format!("geirovund_writer_size returns {size}, and a writer has {own} bytes"));
        }
        Ok(d)
    }

    // Makes a call: its number, and the handle if it begins a node, otherwise 0.
    pub fn call(&mut self, call: &Call) -> Result<(u32, usize), String> {
        self.handle.inside_mut()[0] = NO_HANDLE;
        let number = self.done(Event::Call(call), Arguments::of(call))? as u32;
        Ok((number, if matches!(call, Call::BeginNode(_)) { self.handle.inside()[0] } else { 0 }))
    }

    // The part of the lent blob that is shown.
    pub fn shown(&mut self) -> Result<&[u8], String> {
        let (length, lent) = (self.done(Event::Show, Arguments::none())?, self.lent[0]);
        let part = self.blob.inside()[..lent].get(..length);
        part.ok_or(format!("geirovund_show returns {length}, and {lent} bytes are lent"))
    }

    // The lent part of each buffer.
    pub fn lent(&self) -> Lent<'_> {
        let [b, s, p] = self.lent;
        Lent {
            blob: &self.blob.inside()[..b],
            strings: &self.strings.inside()[..s],
            phandles: &self.phandles.inside()[..p],
        }
    }

    // Changes what the next call is given, where the step does that.
    pub fn prepare(&mut self, step: &Step) {
        if let Step::Set(field, n) = step {
            self.writer.inside_mut()[0].set(field, *n);
        }
        let [blob, strings] = [&mut self.blob, &mut self.strings].map(Fenced::inside_mut);
        lay(Buffers { blob, strings, phandles: self.phandles.inside_mut(), lent: &mut self.lent }, step);
    }

    // Runs a function, and the fault after it: the answer, if everything else is as it was.
    fn done(&mut self, event: Event, arguments: Arguments) -> Result<usize, String> {
        self.keep();
        let mut made = Made { event, arguments, answer: 0 };
        made.answer = match event {
            Event::Size => unsafe { geirovund_writer_size() },
            Event::Call(call) => self.made(call, &mut made.arguments) as usize,
            Event::Show => unsafe { geirovund_show(self.writer.start(), self.blob.start(), self.lent[0]) },
        };
        if let Some(fault) = self.fault {
            fault(self, &mut made);
        }
        self.unharmed(&made)?;
        Ok(made.answer)
    }

    // Remembers everything as it is.
    fn keep(&mut self) {
        self.writer.keep();
        self.handle.keep();
        self.blob.keep();
        self.strings.keep();
        self.phandles.keep();
    }

    // Everything that the function may not write is as it was.
    fn unharmed(&self, made: &Made) -> Result<(), String> {
        let [writer, handle, blob, strings, phandles] = self.written(made.event);
        let arguments = &made.arguments;
        let places = [
            ("the writer", self.writer.changed_outside(writer)),
            ("the handle", self.handle.changed_outside(handle)),
            ("the blob", self.blob.changed_outside(blob)),
            ("the strings", self.strings.changed_outside(strings)),
            ("the phandles", self.phandles.changed_outside(phandles)),
            ("the name", arguments.name.changed_outside(0)),
            ("the value's bytes", arguments.bytes.changed_outside(0)),
            ("the numbers of 4 bytes", arguments.cells.changed_outside(0)),
            ("the numbers of 8 bytes", arguments.wides.changed_outside(0)),
        ];
        match places.iter().find_map(|(what, place)| place.map(|at| (what, at))) {
            Some((what, at)) => Err(format!("index {at} of {what} changed, and the call may not write there")),
            None => Ok(()),
        }
    }

    // How many elements a function may write: of the writer, the handle, the blob, the strings and the phandles.
    fn written(&self, event: Event) -> [usize; 5] {
        let [b, s, p] = self.lent;
        match event {
            Event::Size | Event::Show => [0; 5],
            Event::Call(Call::SetBootCpuidPhys(_)) => [1, 0, 0, 0, 0],
            Event::Call(Call::New | Call::NewWithMemReserv(_) | Call::EndNode(_) | Call::Finish) => [1, 0, b, 0, 0],
            Event::Call(Call::BeginNode(_)) => [1, 1, b, 0, 0],
            Event::Call(Call::Property(..)) => [1, 0, b, s, 0],
            Event::Call(Call::PropertyPhandle(_)) => [1, 0, b, s, p],
        }
    }

    // Makes a call on the exported function: its number.
    fn made(&mut self, call: &Call, a: &mut Arguments) -> u32 {
        let (w, [bl, sl, pl]) = (self.writer.start(), self.lent);
        let (b, s, p) = (self.blob.start(), self.strings.start(), self.phandles.start());
        let ((n, nl), (v, vl)) = ((a.name.start(), a.name.len()), (a.wides.start(), a.wides.len()));
        unsafe {
            match call {
                Call::New => geirovund_new(w, b, bl, s, sl, p, pl),
                Call::NewWithMemReserv(_) => geirovund_new_with_mem_reserv(w, b, bl, s, sl, p, pl, v, vl),
                Call::SetBootCpuidPhys(n) => geirovund_set_boot_cpuid_phys(w, *n),
                Call::BeginNode(_) => geirovund_begin_node(w, b, bl, n, nl, self.handle.start()),
                Call::EndNode(node) => geirovund_end_node(w, b, bl, *node as usize),
                Call::Property(_, value) => self.property(value, a),
                Call::PropertyPhandle(v) => geirovund_property_phandle(w, b, bl, s, sl, p, pl, *v),
                Call::Finish => geirovund_finish(w, b, bl, s, sl),
            }
        }
    }

    // Writes a property by the exported function of its kind: the number.
    fn property(&mut self, value: &Value, a: &mut Arguments) -> u32 {
        let (w, [bl, sl, _]) = (self.writer.start(), self.lent);
        let (b, s) = (self.blob.start(), self.strings.start());
        let ((n, nl), (v, vl)) = ((a.name.start(), a.name.len()), (a.bytes.start(), a.bytes.len()));
        let ((c, cl), (x, xl)) = ((a.cells.start(), a.cells.len()), (a.wides.start(), a.wides.len()));
        unsafe {
            match value {
                Value::Bytes(_) => geirovund_property(w, b, bl, s, sl, n, nl, v, vl),
                Value::Null => geirovund_property_null(w, b, bl, s, sl, n, nl),
                Value::Text(_) => geirovund_property_string(w, b, bl, s, sl, n, nl, v, vl),
                Value::Texts(..) => geirovund_property_string_list(w, b, bl, s, sl, n, nl, v, vl, x.cast(), xl),
                Value::U32(v) => geirovund_property_u32(w, b, bl, s, sl, n, nl, *v),
                Value::U64(v) => geirovund_property_u64(w, b, bl, s, sl, n, nl, *v),
                Value::U32s(_) => geirovund_property_array_u32(w, b, bl, s, sl, n, nl, c, cl),
                Value::U64s(_) => geirovund_property_array_u64(w, b, bl, s, sl, n, nl, x, xl),
            }
        }
    }
}
