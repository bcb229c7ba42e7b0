//! The proved calls compared with the second program. The tests are in `tests/`, programs for callgrind in `src/bin/`.

/// What `crates/printed_c` exports, for tests and for counting instructions alone.
pub mod printed {
    extern "C" {
        fn bailcurlew_number(v: i64, decimals: usize, out: *mut u8, length: usize);
        fn bailcurlew_picture(v: i64, picture: *const u8, length: usize, out: *mut u8, room: usize);
        fn bailcurlew_page_line(page: u32, line: u64, out: *mut u8);
    }

    /// Prints a number over all of `out`, unless it is to have more than 4 decimals.
    pub fn number(v: i64, decimals: usize, out: &mut [u8]) {
        unsafe { bailcurlew_number(v, decimals, out.as_mut_ptr(), out.len()) }
    }

    /// Prints a number through a picture over the first bytes of `out`, unless the picture is too long.
    pub fn picture(v: i64, picture: &[u8], out: &mut [u8]) {
        unsafe { bailcurlew_picture(v, picture.as_ptr(), picture.len(), out.as_mut_ptr(), out.len()) }
    }

    /// The page and the line that a printed record begins with.
    pub fn page_line(page: u32, line: u64) -> [u8; 9] {
        let mut out = [0; 9];
        unsafe { bailcurlew_page_line(page, line, out.as_mut_ptr()) };
        out
    }
}
