//! The engine by its C functions (desk/desk.h), and the memory that is lent to it, with guards around.

extern "C" {
    fn desk_check(file: *const u8, length: usize) -> u32;
    fn desk_text(text: *const u8, length: usize, records: *mut u8, room: usize, place: *mut usize) -> u32;
    fn desk_bound(file: *const u8, length: usize) -> u64;
    fn desk_run(file: *const u8, length: usize, limit: u32, journal: *mut u8, room: usize) -> u64;
    fn desk_open(file: *const u8, length: usize, run: *mut u64, words: usize) -> u32;
    fn desk_move(
        file: *const u8,
        length: usize,
        run: *mut u64,
        words: usize,
        limit: u32,
        journal: *mut u8,
        room: usize,
    ) -> u64;
}

const GUARD: usize = 64;

/// So many elements lent, with a guard before and behind; whatever isn't set is `fill`.
pub struct Lent<T> {
    memory: Vec<T>,
    from: usize,
    size: usize,
    fill: T,
}

impl<T: Copy + PartialEq> Lent<T> {
    pub fn new(fill: T) -> Lent<T> {
        Lent { memory: Vec::new(), from: 0, size: 0, fill }
    }

    /// Room for `size`, all `fill`; `shift` moves it on a little, so that it stands at any address.
    pub fn empty(&mut self, size: usize, shift: usize, fill: T) {
        self.from = GUARD + shift;
        self.size = size;
        self.fill = fill;
        self.memory.clear();
        self.memory.resize(self.from + size + GUARD, fill);
    }

    pub fn set(&mut self, content: &[T], shift: usize, fill: T) {
        self.empty(content.len(), shift, fill);
        self.content_mut().copy_from_slice(content);
    }

    pub fn content(&self) -> &[T] {
        &self.memory[self.from..self.from + self.size]
    }

    pub fn content_mut(&mut self) -> &mut [T] {
        &mut self.memory[self.from..self.from + self.size]
    }

    /// Whether the whole memory is `first` where the content begins and `fill` everywhere else; the first place that isn't.
    pub fn is(&self, first: &[T]) -> Result<(), isize> {
        let end = self.from + first.len();
        let place = |at: usize| at as isize - self.from as isize;
        let filled = |part: &[T]| part.iter().position(|x| *x != self.fill);
        if let Some(at) = filled(&self.memory[..self.from]) {
            return Err(place(at));
        }
        if self.memory[self.from..end] != *first {
            let there = &self.memory[self.from..end];
            let at = (0..first.len()).find(|i| there[*i] != first[*i]);
            return Err(at.unwrap_or(0) as isize);
        }
        filled(&self.memory[end..]).map_or(Ok(()), |at| Err(place(end + at)))
    }
}

// SAFETY, of all calls: each pointer and length are those of one slice that lives through the call, lent to be written where
// the C function writes.

pub fn check(file: &[u8]) -> u32 {
    unsafe { desk_check(file.as_ptr(), file.len()) }
}

/// The number, 0 for a text that is read, and the place, or how many bytes were written.
pub fn text(text: &[u8], records: &mut [u8]) -> (u32, usize) {
    let mut place = usize::MAX;
    let number = unsafe { desk_text(text.as_ptr(), text.len(), records.as_mut_ptr(), records.len(), &mut place) };
    (number, place)
}

pub fn bound(file: &[u8]) -> u64 {
    unsafe { desk_bound(file.as_ptr(), file.len()) }
}

pub fn run(file: &[u8], limit: u32, journal: &mut [u8]) -> u64 {
    unsafe { desk_run(file.as_ptr(), file.len(), limit, journal.as_mut_ptr(), journal.len()) }
}

pub fn open(file: &[u8], row: &mut [u64]) -> u32 {
    unsafe { desk_open(file.as_ptr(), file.len(), row.as_mut_ptr(), row.len()) }
}

pub fn move_on(file: &[u8], row: &mut [u64], limit: u32, journal: &mut [u8]) -> u64 {
    unsafe { desk_move(file.as_ptr(), file.len(), row.as_mut_ptr(), row.len(), limit, journal.as_mut_ptr(), journal.len()) }
}
