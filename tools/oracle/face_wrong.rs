// Faults that a call through the exported functions could have, to show that the comparison notices each.
use crate::exported::Writer;
use crate::face_desk::{Arguments, Desk};
use crate::fenced::Fenced;
use crate::model::Call;

// What was run: the size of a writer, a call, or the showing.
#[derive(Clone, Copy)]
pub enum Event<'a> {
    Size,
    Call(&'a Call),
    Show,
}

// What was run, with its arguments and its answer.
pub struct Made<'a> {
    pub event: Event<'a>,
    pub arguments: Arguments,
    pub answer: usize,
}

impl Made<'_> {
    // The call, if it was one.
    fn call(&self) -> Option<&Call> {
        match self.event {
            Event::Call(call) => Some(call),
            Event::Size | Event::Show => None,
        }
    }

    // Whether it was a call that was refused.
    fn refused(&self) -> bool {
        self.call().is_some() && self.answer != 0
    }

    // Whether it was an opening.
    fn opens(&self) -> bool {
        matches!(self.call(), Some(Call::New | Call::NewWithMemReserv(_)))
    }
}

// What a fault changes after a function ran.
pub type Fault = fn(&mut Desk, &mut Made);

// The fault of a name.
pub fn fault(name: &str) -> Option<Fault> {
    FAULTS.iter().find(|(other, _)| *other == name).map(|(_, fault)| *fault)
}

// The faults by name.
pub const FAULTS: &[(&str, Fault)] = &[
    ("record-not-stored", |d, _| d.writer.back()),
    ("stored-only-where-accepted", |d, m| back_if(d, m.refused())),
    ("refused-opening-not-stored", |d, m| back_if(d, m.refused() && m.opens())),
    ("refused-phandle-not-stored", |d, m| {
        back_if(d, m.refused() && matches!(m.call(), Some(Call::PropertyPhandle(_))))
    }),
    ("first-72-bytes-stored", |d, _| {
        let numbers = d.writer.inside()[0].numbers;
        d.writer.inside_mut()[0] = Writer { numbers, ..d.writer.kept()[0] };
    }),
    ("handle-of-before", |d, _| d.handle.back()),
    ("handle-stored-only-where-accepted", |d, m| {
        if m.refused() {
            d.handle.back();
        }
    }),
    ("blob-of-before", |d, _| d.blob.back()),
    ("strings-of-before", |d, _| d.strings.back()),
    ("phandles-of-before", |d, _| d.phandles.back()),
    ("answer-dropped", |_, m| m.answer = if m.call().is_some() { 0 } else { m.answer }),
    ("byte-before-the-writer", |d, m| {
        if m.call().is_some() {
            d.writer.spoil(-1, |w| Writer { padding: [w.padding[0], !w.padding[1]], ..w });
        }
    }),
    ("number-past-the-handle", |d, m| {
        if matches!(m.call(), Some(Call::BeginNode(_))) {
            d.handle.spoil(1, |n| !n);
        }
    }),
    ("byte-past-the-blob", |d, m| {
        if m.call().is_some() {
            d.blob.spoil(d.lent[0] as isize, |b| !b);
        }
    }),
    ("byte-before-the-strings", |d, m| {
        if m.call().is_some() {
            d.strings.spoil(-1, |b| !b);
        }
    }),
    ("entry-past-the-phandles", |d, m| {
        if m.call().is_some() {
            d.phandles.spoil(d.lent[2] as isize, |n| !n);
        }
    }),
    ("shared-strings-written", |d, m| {
        if matches!(m.call(), Some(Call::Finish)) && d.lent[1] > 0 {
            d.strings.spoil(0, |b| !b);
        }
    }),
    ("shared-phandles-written", |d, m| {
        if m.opens() && d.lent[2] > 0 {
            d.phandles.spoil(0, |n| !n);
        }
    }),
    ("name-written", |_, m| spoil_first(&mut m.arguments.name, |b| !b)),
    ("value-written", |_, m| spoil_first(&mut m.arguments.bytes, |b| !b)),
    ("numbers-of-4-bytes-written", |_, m| spoil_first(&mut m.arguments.cells, |n| !n)),
    ("numbers-of-8-bytes-written", |_, m| spoil_first(&mut m.arguments.wides, |n| !n)),
    ("writer-written-by-show", |d, m| {
        if matches!(m.event, Event::Show) {
            d.writer.spoil(0, |w| Writer { finished: w.finished ^ 1, ..w });
        }
    }),
    ("shown-one-byte-short", |_, m| m.answer -= usize::from(matches!(m.event, Event::Show) && m.answer > 0)),
    ("another-size", |_, m| m.answer -= if matches!(m.event, Event::Size) { 8 } else { 0 }),
];

// Puts the writer back as it was, under a condition.
fn back_if(d: &mut Desk, condition: bool) {
    if condition {
        d.writer.back();
    }
}

// Changes the first element, if there is one.
fn spoil_first<T: Copy + PartialEq>(elements: &mut Fenced<T>, change: fn(T) -> T) {
    if elements.len() > 0 {
        elements.spoil(0, change);
    }
}
