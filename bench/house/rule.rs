// A well-written Rust program for one share of a house table, by document 01's rule, in two kinds: one works the share out from its pair,
// the other carries all 575, which the compiler works out.
pub const PAIRS: [(u8, u8); 8] = [(2, 10), (5, 30), (5, 60), (10, 30), (10, 60), (10, 110), (15, 90), (20, 100)];

const TOTAL: u32 = 4_096;

const SHARES: usize = 575;

// Refusal 6; its place is 0.
pub struct Outside;

const fn cumulative(change: u32, parameter: u32, late: u32) -> u32 {
    if late == change + parameter {
        return TOTAL;
    }
    if late <= change {
        return TOTAL * 2 * late / (6 * change - 3 * late);
    }
    let over = late - change;
    TOTAL * (31 * over + 2 * parameter) / (30 * over + 3 * parameter)
}

pub fn worked_out(pair: u32, minute: u32) -> Result<u32, Outside> {
    let (change, parameter) = *PAIRS.get(pair as usize).ok_or(Outside)?;
    let (change, parameter) = (u32::from(change), u32::from(parameter));
    if minute > change + parameter {
        return Err(Outside);
    }
    Ok(cumulative(change, parameter, minute))
}

// Where each table starts, and behind the last where it ends.
static STARTS: [u16; PAIRS.len() + 1] = {
    let mut starts = [0; PAIRS.len() + 1];
    let mut pair = 0;
    while pair < PAIRS.len() {
        starts[pair + 1] = starts[pair] + PAIRS[pair].0 as u16 + PAIRS[pair].1 as u16 + 1;
        pair += 1;
    }
    starts
};

static CARRIED: [u16; SHARES] = {
    let mut shares = [0; SHARES];
    let (mut pair, mut place) = (0, 0);
    while pair < PAIRS.len() {
        let (change, parameter) = (PAIRS[pair].0 as u32, PAIRS[pair].1 as u32);
        let mut late = 0;
        while late <= change + parameter {
            shares[place] = cumulative(change, parameter, late) as u16;
            place += 1;
            late += 1;
        }
        pair += 1;
    }
    shares
};

pub fn carried(pair: u32, minute: u32) -> Result<u32, Outside> {
    let starts = STARTS.get(pair as usize..).ok_or(Outside)?;
    let &[start, end, ..] = starts else { return Err(Outside) };
    let table = &CARRIED[usize::from(start)..usize::from(end)];
    table.get(minute as usize).map(|share| u32::from(*share)).ok_or(Outside)
}
