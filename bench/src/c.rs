//! The C loop of `count.c`.

extern "C" {
    fn count_c(input: *const u8, size: usize, counts: *mut [u64; 9]);
}

pub fn count(input: &[u8]) -> [u64; 9] {
    let mut counts = [0; 9];
    unsafe { count_c(input.as_ptr(), input.len(), &mut counts) };
    counts
}
