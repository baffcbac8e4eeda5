//! The verified library's replay.

#[link(name = "exports", kind = "static")]
extern "C" {
    fn access_replay(
        file: *const u8,
        len: usize,
        trace: *const u8,
        n: usize,
        right: u8,
        step: *mut u64,
    ) -> u8;
}

pub fn replay(file: &[u8], trace: &[u8], right: u8) -> (u8, u64) {
    // No true answer, so that a number not written is seen.
    let mut step = u64::MAX;
    // SAFETY: pointers and lengths are those of slices, which are only read.
    let code = unsafe {
        access_replay(
            file.as_ptr(),
            file.len(),
            trace.as_ptr(),
            trace.len(),
            right,
            &mut step,
        )
    };
    (code, step)
}
