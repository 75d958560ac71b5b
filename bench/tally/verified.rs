// The verified tally: the exported functions of the crate `trial_tally`, which give whole answers.
use crate::side::{Answer, Landing, Shares, Side, Tally};

extern "C" {
    fn trial_tally(planned: u32, actual: u32, tally: *mut u32, answer: *mut u32, answer_len: usize);
    fn trial_table(tally: *const u32, shares: *mut u32, answer: *mut u32, answer_len: usize);
}

pub struct Verified;

impl Side for Verified {
    fn tally(landing: Landing, tally: &mut Tally, answer: &mut Answer) {
        let Landing { planned, actual } = landing;
        unsafe { trial_tally(planned, actual, tally.as_mut_ptr(), answer.as_mut_ptr(), answer.len()) };
    }

    fn table(tally: &Tally, shares: &mut Shares, answer: &mut Answer) {
        unsafe { trial_table(tally.as_ptr(), shares.as_mut_ptr(), answer.as_mut_ptr(), answer.len()) };
    }
}
