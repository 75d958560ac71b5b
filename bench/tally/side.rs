// The two calls that both sides have, and the numbers that are lent to them.

// Landings 0, 1, .. 120 minutes late, and behind them those over 120.
pub const COUNTS: usize = 122;

pub const APART: usize = COUNTS - 1;

pub const SHARES: usize = 121;

pub const MOST: u32 = 1_000_000;

pub const LAST_MINUTE: u32 = 10_079;

pub type Tally = [u32; COUNTS];

pub type Shares = [u32; SHARES];

// Number and place of the refusal, or 0, 0 and the values.
pub type Answer = [u32; 6];

#[derive(Clone, Copy, Debug)]
pub struct Landing {
    pub planned: u32,
    pub actual: u32,
}

pub trait Side {
    fn tally(landing: Landing, tally: &mut Tally, answer: &mut Answer);
    fn table(tally: &Tally, shares: &mut Shares, answer: &mut Answer);
}

#[derive(Clone, Debug, PartialEq)]
pub struct Lent {
    pub tally: Tally,
    pub shares: Shares,
    pub answer: Answer,
}
