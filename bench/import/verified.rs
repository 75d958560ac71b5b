// The verified import: the exported function of the crate `trial_import`, which gives the whole answer.
extern "C" {
    fn trial_import(text: *const u8, text_len: usize, day: u32, out: *mut u8, out_len: usize, answer: *mut u32, answer_len: usize);
}

// Number and place of the refusal, or 0, 0, the stops, rows and classes, and the bytes written.
pub fn import(text: &[u8], day: u32, out: &mut [u8]) -> [u32; 6] {
    let mut answer = [0u32; 6];
    unsafe { trial_import(text.as_ptr(), text.len(), day, out.as_mut_ptr(), out.len(), answer.as_mut_ptr(), 6) };
    answer
}
