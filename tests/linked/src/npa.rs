//! The module's functions, as include/npa.h declares them.

extern "C" {
    fn npa_open(block: *const u8, block_len: usize, ledger: *mut u8, ledger_len: usize) -> u32;
    fn npa_settle(
        ledger: *mut u8,
        ledger_len: usize,
        file: *const u8,
        file_len: usize,
        result: *mut u8,
        result_len: usize,
    ) -> u32;
    fn npa_event(
        ledger: *mut u8,
        ledger_len: usize,
        files: *const u8,
        files_len: usize,
        result: *mut u8,
        result_len: usize,
        count: *mut u8,
        count_len: usize,
    ) -> u32;
}

/// Opens a ledger; answers 0 or the ground of refusal.
pub fn open(block: &[u8], ledger: &mut [u8]) -> u32 {
    // SAFETY: slices have true lengths and do not overlap, and their pointers are not null.
    unsafe {
        npa_open(
            block.as_ptr(),
            block.len(),
            ledger.as_mut_ptr(),
            ledger.len(),
        )
    }
}

/// Settles an interval file; answers 0 or the ground of refusal.
pub fn settle(ledger: &mut [u8], file: &[u8], result: &mut [u8]) -> u32 {
    // SAFETY: slices have true lengths and do not overlap, and their pointers are not null.
    unsafe {
        npa_settle(
            ledger.as_mut_ptr(),
            ledger.len(),
            file.as_ptr(),
            file.len(),
            result.as_mut_ptr(),
            result.len(),
        )
    }
}

/// Settles the files of an event; answers 0 or the ground of the first refusal.
pub fn event(ledger: &mut [u8], files: &[u8], result: &mut [u8], count: &mut [u8]) -> u32 {
    // SAFETY: slices have true lengths and do not overlap, and their pointers are not null.
    unsafe {
        npa_event(
            ledger.as_mut_ptr(),
            ledger.len(),
            files.as_ptr(),
            files.len(),
            result.as_mut_ptr(),
            result.len(),
            count.as_mut_ptr(),
            count.len(),
        )
    }
}
