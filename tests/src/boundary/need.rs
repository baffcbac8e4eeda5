//! The verified library's answer to what a press needs.

#[link(name = "exports", kind = "static")]
extern "C" {
    fn access_need(
        file: *const u8,
        len: usize,
        cells: *const u8,
        c: usize,
        buffer: *mut u8,
        n: usize,
        steps: *mut u64,
    ) -> u8;
}

pub fn need(file: &[u8], cells: &[u8], buffer: &mut [u8]) -> (u8, u64) {
    // No true answer, so that a number not written is seen.
    let mut steps = u64::MAX;
    // SAFETY: pointers and lengths are those of slices; only the buffer, lent
    // for writing, is written.
    let code = unsafe {
        access_need(
            file.as_ptr(),
            file.len(),
            cells.as_ptr(),
            cells.len(),
            buffer.as_mut_ptr(),
            buffer.len(),
            &mut steps,
        )
    };
    (code, steps)
}
