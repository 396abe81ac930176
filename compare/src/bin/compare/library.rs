//! The proved library behind its C interface.
//!
//! Every buffer handed over ends where readable memory ends, so a read or write past it stops the
//! program; bytes in front of it and bytes of inputs are looked at after each call.

use std::ffi::c_void;

#[path = "c.rs"]
mod c;

extern "C" {
    fn mmap(at: *mut c_void, length: usize, access: i32, flags: i32, file: i32, offset: i64) -> *mut c_void;
    fn mprotect(at: *mut c_void, length: usize, access: i32) -> i32;
}

const PAGE: usize = 4096;
const CANARY: [u8; 16] = [0xA5; 16];

/// Memory whose last byte is the last that can be read.
struct Guarded {
    start: *mut u8,
    size: usize,
}

impl Guarded {
    fn new(capacity: usize) -> Guarded {
        let size = (capacity + CANARY.len()).next_multiple_of(PAGE);
        let (none, read_write, private_anonymous) = (0, 3, 0x22);
        // SAFETY: a new mapping that nothing else uses; its last page is made unreadable.
        unsafe {
            let start = mmap(std::ptr::null_mut(), size + PAGE, read_write, private_anonymous, -1, 0);
            assert!(start as isize != -1, "no memory");
            assert_eq!(mprotect(start.add(size), PAGE, none), 0);
            Guarded { start: start.cast(), size }
        }
    }

    /// Copies bytes to the end, canary before them.
    fn put(&mut self, bytes: &[u8]) -> *mut u8 {
        assert!(bytes.len() + CANARY.len() <= self.size);
        // SAFETY: both copies stay within the mapping, by the line above.
        unsafe {
            let at = self.start.add(self.size - bytes.len());
            at.sub(CANARY.len()).copy_from_nonoverlapping(CANARY.as_ptr(), CANARY.len());
            at.copy_from_nonoverlapping(bytes.as_ptr(), bytes.len());
            at
        }
    }

    /// The last n bytes, after the canary in front of them was found as it was.
    fn get(&self, n: usize) -> &[u8] {
        // SAFETY: `put` has written these bytes.
        let all = unsafe { std::slice::from_raw_parts(self.start.add(self.size - n - 16), n + 16) };
        assert!(all[..16] == CANARY, "the library wrote in front of a buffer");
        &all[16..]
    }

    /// That an input is as it was put.
    fn unchanged(&self, bytes: &[u8]) {
        assert!(self.get(bytes.len()) == bytes, "the library wrote to an input");
    }
}

/// The library with the memory that its buffers are put in.
pub struct Library {
    first: Guarded,
    second: Guarded,
    out: Guarded,
}

/// The least buffer of a page.
pub use second::page::LONGEST as PAGE_BUFFER;
const INPUT: usize = 1 << 17;

impl Library {
    pub fn new() -> Library {
        Library {
            first: Guarded::new(INPUT),
            second: Guarded::new(INPUT),
            out: Guarded::new(PAGE_BUFFER + PAGE),
        }
    }

    pub fn identifier(&mut self, identifier: &[u8]) -> u8 {
        // SAFETY: here and below, pointers are of guarded buffers that hold as many bytes as is said.
        let number = unsafe { c::rakhvide_identifier(self.first.put(identifier), identifier.len()) };
        self.first.unchanged(identifier);
        number
    }

    pub fn book(&mut self, book: &[u8]) -> u8 {
        let number = unsafe { c::rakhvide_book(self.first.put(book), book.len()) };
        self.first.unchanged(book);
        number
    }

    /// The number, and what `bits` holds after the call.
    pub fn term(&mut self, term: &[u8], before: u64) -> (u8, u64) {
        let mut bits = before;
        let number = unsafe { c::rakhvide_term(self.first.put(term), term.len(), &mut bits) };
        self.first.unchanged(term);
        (number, bits)
    }

    pub fn price_zero(&mut self, periods: u8, payments: u8, ytm: f64) -> u64 {
        unsafe { c::rakhvide_price_zero(periods, payments, ytm) }
    }

    pub fn price_fixed(&mut self, periods: u8, payments: u8, coupon: f64, ytm: f64) -> u64 {
        unsafe { c::rakhvide_price_fixed(periods, payments, coupon, ytm) }
    }

    /// The answer, the length, and the buffer after the call.
    pub fn page(&mut self, book: &[u8], events: &[u8], buffer: &[u8]) -> (bool, usize, &[u8]) {
        let mut length = usize::MAX;
        let (at, list) = (self.first.put(book), self.second.put(events));
        let out = self.out.put(buffer);
        let written =
            unsafe { c::rakhvide_page(at, book.len(), list, events.len(), out, buffer.len(), &mut length) };
        self.first.unchanged(book);
        self.second.unchanged(events);
        (written, length, self.out.get(buffer.len()))
    }

    /// The number; `buffer` becomes what the buffer holds after the call.
    pub fn add(&mut self, buffer: &mut [u8], count: usize, identifier: &[u8], terms: &[u8]) -> u8 {
        let (name, term) = (self.first.put(identifier), self.second.put(terms));
        let out = self.out.put(buffer);
        let number =
            unsafe { c::rakhvide_add(out, buffer.len(), count, name, identifier.len(), term, terms.len()) };
        self.first.unchanged(identifier);
        self.second.unchanged(terms);
        buffer.copy_from_slice(self.out.get(buffer.len()));
        number
    }

    /// The number; `table` becomes what the buffer holds after the call.
    pub fn open(&mut self, book: &[u8], table: &mut [u8]) -> u8 {
        let (at, out) = (self.first.put(book), self.out.put(table));
        let number = unsafe { c::rakhvide_open(at, book.len(), out, table.len()) };
        self.first.unchanged(book);
        table.copy_from_slice(self.out.get(table.len()));
        number
    }

    pub fn check(&mut self, table: &[u8]) -> u8 {
        let number = unsafe { c::rakhvide_check(self.first.put(table), table.len()) };
        self.first.unchanged(table);
        number
    }

    /// How many jobs are open.
    pub fn open_jobs(&mut self, table: &[u8]) -> u8 {
        let open = unsafe { c::rakhvide_open_jobs(self.first.put(table), table.len()) };
        self.first.unchanged(table);
        open
    }

    /// The number; `table` becomes what the buffer holds after the call.
    pub fn step(&mut self, table: &mut [u8], event: &[u8]) -> u8 {
        let (out, at) = (self.out.put(table), self.second.put(event));
        let number = unsafe { c::rakhvide_step(out, table.len(), at, event.len()) };
        self.second.unchanged(event);
        table.copy_from_slice(self.out.get(table.len()));
        number
    }
}
