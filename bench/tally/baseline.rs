// A well-written Rust program for the same two calls.
use crate::side::{Answer, Landing, Shares, Side, Tally, APART, LAST_MINUTE, MOST};

const TOTAL: u64 = 4_096;

// Number of the refusal; its place is 0.
type Refusal = u32;

struct Table {
    delay: u32,
    landings: u32,
    apart: u32,
}

// The greatest count is found without a branch, several counts at a time, which is much quicker than to end at the first above the limit.
fn within_limits(tally: &Tally) -> bool {
    tally.iter().fold(0, |most, count| most.max(*count)) <= MOST
}

fn count(landing: Landing, tally: &mut Tally) -> Result<(), Refusal> {
    let Landing { planned, actual } = landing;
    if planned > LAST_MINUTE || actual > LAST_MINUTE {
        return Err(14);
    }
    if !within_limits(tally) {
        return Err(15);
    }
    let late = actual.saturating_sub(planned) as usize;
    let count = &mut tally[late.min(APART)];
    if *count == MOST {
        return Err(15);
    }
    *count += 1;
    Ok(())
}

// The sum of counts within limits is at most 121,000,000; only 4,096 times as many take 64 bits.
fn make(tally: &Tally, shares: &mut Shares) -> Result<Table, Refusal> {
    if !within_limits(tally) {
        return Err(15);
    }
    let [counts @ .., apart] = tally;
    let landings = counts.iter().sum();
    if landings == 0 {
        return Err(16);
    }
    let delay = counts.iter().rposition(|count| *count > 0).unwrap_or(0);
    let (mut late, mut ahead) = (0, 0);
    for (share, count) in shares.iter_mut().zip(&counts[..=delay]) {
        late += u64::from(*count);
        let cumulative = TOTAL * late / u64::from(landings);
        *share = (cumulative - ahead) as u32;
        ahead = cumulative;
    }
    Ok(Table { delay: delay as u32, landings, apart: *apart })
}

pub struct Baseline;

impl Side for Baseline {
    #[inline(never)]
    fn tally(landing: Landing, tally: &mut Tally, answer: &mut Answer) {
        *answer = match count(landing, tally) {
            Ok(()) => [0; 6],
            Err(number) => [number, 0, 0, 0, 0, 0],
        };
    }

    #[inline(never)]
    fn table(tally: &Tally, shares: &mut Shares, answer: &mut Answer) {
        *answer = match make(tally, shares) {
            Ok(Table { delay, landings, apart }) => [0, 0, delay, landings, apart, 0],
            Err(number) => [number, 0, 0, 0, 0, 0],
        };
    }
}
