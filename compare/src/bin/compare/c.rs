//! The functions of include/rakhvide.h, as Rust declares them: for the comparison, the fuzzer and the times.

extern "C" {
    pub fn rakhvide_identifier(s: *const u8, n: usize) -> u8;
    pub fn rakhvide_book(book: *const u8, n: usize) -> u8;
    pub fn rakhvide_term(term: *const u8, n: usize, bits: *mut u64) -> u8;
    pub fn rakhvide_price_zero(periods: u8, payments: u8, ytm: f64) -> u64;
    pub fn rakhvide_price_fixed(periods: u8, payments: u8, coupon: f64, ytm: f64) -> u64;
    pub fn rakhvide_page(
        book: *const u8,
        nb: usize,
        events: *const u8,
        ne: usize,
        out: *mut u8,
        no: usize,
        length: *mut usize,
    ) -> bool;
    pub fn rakhvide_add(
        buffer: *mut u8,
        n: usize,
        count: usize,
        identifier: *const u8,
        ni: usize,
        terms: *const u8,
        nt: usize,
    ) -> u8;
    pub fn rakhvide_open(book: *const u8, nb: usize, table: *mut u8, nt: usize) -> u8;
    pub fn rakhvide_check(table: *const u8, nt: usize) -> u8;
    pub fn rakhvide_open_jobs(table: *const u8, nt: usize) -> u8;
    pub fn rakhvide_step(table: *mut u8, nt: usize, event: *const u8, ne: usize) -> u8;
}
