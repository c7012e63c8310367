//! Lent memory between guards, of bytes or of larger things.

/// A lent part between guards. The guards' lengths differ, so that lent bytes begin at any alignment; what is larger than
/// a byte is aligned as C has it.
#[derive(Clone, PartialEq, Eq)]
pub struct Lent<T> {
    whole: Vec<T>,
    start: usize,
    len: usize,
}

const GUARD: usize = 24;

impl<T: Clone + PartialEq> Lent<T> {
    /// Lends these between guards of the two things given; the mark decides on the guard's length.
    pub fn between(lent: &[T], guards: [T; 2], mark: u64) -> Lent<T> {
        let start = GUARD + (mark % 16) as usize;
        let [before, after] = guards;
        let mut whole = vec![before; start];
        whole.extend_from_slice(lent);
        whole.resize(start + lent.len() + GUARD, after);
        Lent { whole, start, len: lent.len() }
    }

    pub fn none() -> Lent<T> {
        Lent { whole: Vec::new(), start: 0, len: 0 }
    }

    pub fn len(&self) -> usize {
        self.len
    }

    /// The lent part.
    pub fn part(&self) -> &[T] {
        &self.whole[self.start..self.start + self.len]
    }

    /// The lent part with its guards.
    pub fn whole(&self) -> &[T] {
        &self.whole
    }

    /// Is all as before but the first few of the lent part?
    pub fn same_past(&self, before: &Lent<T>, few: usize) -> bool {
        let from = self.start + few.min(self.len);
        self.whole[..self.start] == before.whole[..self.start] && self.whole[from..] == before.whole[from..]
    }

    /// With length 0 the pointer is null as often as not: such a pointer is never looked at.
    fn is_null(&self) -> bool {
        self.len == 0 && self.start & 1 == 0
    }

    /// Where the lent part begins.
    pub fn pointer(&self) -> *const T {
        if self.is_null() {
            return std::ptr::null();
        }
        self.whole[self.start..].as_ptr()
    }

    pub fn pointer_mut(&mut self) -> *mut T {
        if self.is_null() {
            return std::ptr::null_mut();
        }
        self.whole[self.start..].as_mut_ptr()
    }
}

impl Lent<u8> {
    /// Lends these bytes; the mark decides on the guards.
    pub fn new(bytes: &[u8], mark: u64) -> Lent<u8> {
        Lent::between(bytes, [(mark >> 8) as u8, (mark >> 16) as u8], mark)
    }
}
