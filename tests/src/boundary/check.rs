//! The verified library's reader.

#[link(name = "exports", kind = "static")]
extern "C" {
    fn access_check(file: *const u8, len: usize) -> u8;
}

pub fn check(file: &[u8]) -> u8 {
    // SAFETY: pointer and length are those of a slice, which is only read.
    unsafe { access_check(file.as_ptr(), file.len()) }
}
