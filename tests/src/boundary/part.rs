//! The verified library's judge of the part that stays without trusted names.

#[link(name = "exports", kind = "static")]
extern "C" {
    fn access_judge_part(
        file: *const u8,
        len: usize,
        right: u8,
        trusted: *const u8,
        t: usize,
        buffer: *mut u8,
        n: usize,
        steps: *mut u64,
    ) -> u8;
}

pub fn judge_part(file: &[u8], right: u8, trusted: &[u8], buffer: &mut [u8]) -> (u8, u64) {
    // No true answer, so that a number not written is seen.
    let mut steps = u64::MAX;
    // SAFETY: pointers and lengths are those of slices; only the buffer, lent
    // for writing, is written.
    let code = unsafe {
        access_judge_part(
            file.as_ptr(),
            file.len(),
            right,
            trusted.as_ptr(),
            trusted.len(),
            buffer.as_mut_ptr(),
            buffer.len(),
            &mut steps,
        )
    };
    (code, steps)
}
