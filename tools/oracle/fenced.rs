// Memory that is lent to the exported functions, between two fences: what a call may not write is compared afterwards.

// How many elements a fence has: an odd number, so that bytes lie at an odd address.
const FENCE: usize = 65;

// Elements between two fences, and all of it as it was before the call.
pub struct Fenced<T> {
    all: Vec<T>,
    before: Vec<T>,
}

impl<T: Copy + PartialEq> Fenced<T> {
    // The given elements, between fences of one value.
    pub fn new(inside: &[T], fence: T) -> Fenced<T> {
        let all = [&[fence; FENCE], inside, &[fence; FENCE]].concat();
        Fenced { before: all.clone(), all }
    }

    // How many elements there are.
    pub fn len(&self) -> usize {
        self.all.len() - 2 * FENCE
    }

    // The elements.
    pub fn inside(&self) -> &[T] {
        &self.all[FENCE..self.all.len() - FENCE]
    }

    // The elements, to be changed between two calls.
    pub fn inside_mut(&mut self) -> &mut [T] {
        let end = self.all.len() - FENCE;
        &mut self.all[FENCE..end]
    }

    // Where the elements start, for a function that is lent them.
    pub fn start(&mut self) -> *mut T {
        self.all[FENCE..].as_mut_ptr()
    }

    // Remembers everything as it is now.
    pub fn keep(&mut self) {
        self.before.copy_from_slice(&self.all);
    }

    // The elements as they were.
    pub fn kept(&self) -> &[T] {
        &self.before[FENCE..self.all.len() - FENCE]
    }

    // Makes everything as it was.
    pub fn back(&mut self) {
        self.all.copy_from_slice(&self.before);
    }

    // The first index that is not as it was, past so many elements or in the fence before them, where it is negative.
    pub fn changed_outside(&self, may: usize) -> Option<isize> {
        let same = |from: usize, to: usize| self.all[from..to] == self.before[from..to];
        let (may_end, end) = (FENCE + may, self.all.len());
        if same(0, FENCE) && same(may_end, end) {
            return None;
        }
        let differs = |&at: &usize| self.all[at] != self.before[at];
        (0..FENCE).chain(may_end..end).find(differs).map(|at| at as isize - FENCE as isize)
    }

    // Changes an element, or one of a fence.
    pub fn spoil(&mut self, at: isize, change: fn(T) -> T) {
        let at = (at + FENCE as isize) as usize;
        self.all[at] = change(self.all[at]);
    }
}
