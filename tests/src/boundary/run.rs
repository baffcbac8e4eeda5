//! The verified library's rule run on a lent file.

#[link(name = "exports", kind = "static")]
extern "C" {
    fn access_run(file: *mut u8, len: usize, rule: u8, a0: u8, a1: u8, a2: u8, a3: u8) -> u8;
}

pub fn run(file: &mut [u8], rule: u8, actuals: [u8; 4]) -> u8 {
    let [a0, a1, a2, a3] = actuals;
    // SAFETY: pointer and length are those of a slice lent for writing.
    unsafe { access_run(file.as_mut_ptr(), file.len(), rule, a0, a1, a2, a3) }
}
