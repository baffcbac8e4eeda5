//! The verified library's answer to a sheet of questions.

#[link(name = "exports", kind = "static")]
extern "C" {
    fn access_sheet(
        file: *const u8,
        len: usize,
        entries: *mut u8,
        e: usize,
        buffer: *mut u8,
        n: usize,
    ) -> u8;
}

pub fn sheet(file: &[u8], entries: &mut [u8], buffer: &mut [u8]) -> u8 {
    // SAFETY: pointers and lengths are those of slices; only entries and buffer,
    // lent for writing, are written.
    unsafe {
        access_sheet(
            file.as_ptr(),
            file.len(),
            entries.as_mut_ptr(),
            entries.len(),
            buffer.as_mut_ptr(),
            buffer.len(),
        )
    }
}
