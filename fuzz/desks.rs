//! Those who are judged: the library desk, on a machine that it is compiled for, and its source as Rust.

pub struct Desk {
    pub name: &'static str,
    pub check: fn(&[u8]) -> u32,
    pub text: fn(&[u8], &mut [u8], &mut usize) -> u32,
    pub bound: fn(&[u8]) -> u64,
    pub run: fn(&[u8], u32, &mut [u8]) -> u64,
    pub open: fn(&[u8], &mut [u64]) -> u32,
    pub move_on: fn(&[u8], &mut [u64], u32, &mut [u8]) -> u64,
}

pub const DESKS: &[Desk] = &[
    #[cfg(target_arch = "x86_64")]
    Desk {
        name: "the library",
        check: library::check,
        text: library::text,
        bound: library::bound,
        run: library::run,
        open: library::open,
        move_on: library::move_on,
    },
    Desk {
        name: "its source as Rust",
        check: engine::desk_c::desk_check,
        text: engine::desk_c::desk_text,
        bound: engine::desk_c::desk_bound,
        run: engine::desk_c::desk_run,
        open: engine::desk_c::desk_open,
        move_on: engine::desk_c::desk_move,
    },
];

/// The functions of desk/desk.h, on slices.
#[cfg(target_arch = "x86_64")]
mod library {
    extern "C" {
        fn desk_check(file: *const u8, length: usize) -> u32;
        fn desk_text(
            text: *const u8,
            length: usize,
            records: *mut u8,
            room: usize,
            place: *mut usize,
        ) -> u32;
        fn desk_bound(file: *const u8, length: usize) -> u64;
        fn desk_run(
            file: *const u8,
            length: usize,
            limit: u32,
            journal: *mut u8,
            room: usize,
        ) -> u64;
        fn desk_open(file: *const u8, length: usize, run: *mut u64, words: usize) -> u32;
        fn desk_move(
            file: *const u8,
            length: usize,
            run: *mut u64,
            words: usize,
            limit: u32,
            journal: *mut u8,
            room: usize,
        ) -> u64;
    }

    // SAFETY, six times: a slice is its pointer and its length, which is what the header asks for.

    pub fn check(file: &[u8]) -> u32 {
        unsafe { desk_check(file.as_ptr(), file.len()) }
    }

    pub fn text(text: &[u8], records: &mut [u8], place: &mut usize) -> u32 {
        let (lent, room) = (records.as_mut_ptr(), records.len());
        unsafe { desk_text(text.as_ptr(), text.len(), lent, room, place) }
    }

    pub fn bound(file: &[u8]) -> u64 {
        unsafe { desk_bound(file.as_ptr(), file.len()) }
    }

    pub fn run(file: &[u8], limit: u32, journal: &mut [u8]) -> u64 {
        let (lines, room) = (journal.as_mut_ptr(), journal.len());
        unsafe { desk_run(file.as_ptr(), file.len(), limit, lines, room) }
    }

    pub fn open(file: &[u8], run: &mut [u64]) -> u32 {
        unsafe { desk_open(file.as_ptr(), file.len(), run.as_mut_ptr(), run.len()) }
    }

    pub fn move_on(file: &[u8], run: &mut [u64], limit: u32, journal: &mut [u8]) -> u64 {
        let (row, words) = (run.as_mut_ptr(), run.len());
        let (lines, room) = (journal.as_mut_ptr(), journal.len());
        unsafe { desk_move(file.as_ptr(), file.len(), row, words, limit, lines, room) }
    }
}
