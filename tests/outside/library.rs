//! The static library under test, by its functions for C (include/demborugy.h), each in a safe wrapper.

mod c {
    extern "C" {
        pub fn demborugy_take_line(
            line: *const u8,
            line_length: usize,
            store: *mut u8,
            store_length: usize,
        ) -> u64;
        pub fn demborugy_refusal_place(
            line: *const u8,
            line_length: usize,
            store: *const u8,
            store_length: usize,
        ) -> u64;
        pub fn demborugy_take_lines(
            lines: *const u8,
            lines_length: usize,
            store: *mut u8,
            store_length: usize,
            lost: *mut u64,
            full: *mut u64,
        ) -> u64;
        pub fn demborugy_lines_refusal_place(
            lines: *const u8,
            lines_length: usize,
            store: *const u8,
            store_length: usize,
        ) -> u64;
        pub fn demborugy_row(
            store: *const u8,
            store_length: usize,
            page: u64,
            row: u64,
            place: *mut usize,
        ) -> usize;
        pub fn demborugy_version(store: *const u8, store_length: usize, page: u64) -> u64;
    }
}

pub fn take_line(line: &[u8], store: &mut [u8]) -> u64 {
    unsafe { c::demborugy_take_line(line.as_ptr(), line.len(), store.as_mut_ptr(), store.len()) }
}

/// How many lines of a batch were lost, and for how many there was no room.
#[derive(Clone, Copy, PartialEq, Debug, Default)]
pub struct Counts {
    pub lost: u64,
    pub full: u64,
}

/// Lines laid end to end: 0, or 2 + n if the batch is turned away with number n.
pub fn take_lines(lines: &[u8], store: &mut [u8], counts: &mut Counts) -> u64 {
    unsafe {
        c::demborugy_take_lines(
            lines.as_ptr(),
            lines.len(),
            store.as_mut_ptr(),
            store.len(),
            &mut counts.lost,
            &mut counts.full,
        )
    }
}

/// The place of a refusal of many lines.
pub fn lines_refusal_place(lines: &[u8], store: &[u8]) -> Option<u64> {
    let place = unsafe {
        c::demborugy_lines_refusal_place(lines.as_ptr(), lines.len(), store.as_ptr(), store.len())
    };
    (place != u64::MAX).then_some(place)
}

pub fn refusal_place(line: &[u8], store: &[u8]) -> Option<u64> {
    let place = unsafe {
        c::demborugy_refusal_place(line.as_ptr(), line.len(), store.as_ptr(), store.len())
    };
    (place != u64::MAX).then_some(place)
}

/// The place and the length of a row; nothing if both are 0. A length without a place, or the other way round, is kept as it is.
pub fn row(store: &[u8], page: u64, row: u64) -> Option<(usize, usize)> {
    let mut place = usize::MAX;
    let length = unsafe { c::demborugy_row(store.as_ptr(), store.len(), page, row, &mut place) };
    (place != 0 || length != 0).then_some((place, length))
}

pub fn version(store: &[u8], page: u64) -> Option<u64> {
    let version = unsafe { c::demborugy_version(store.as_ptr(), store.len(), page) };
    (version != 256).then_some(version)
}
