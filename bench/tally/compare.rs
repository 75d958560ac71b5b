// Calls with and without faults: the verified tally and the Rust program give the same answer and leave the same numbers.
use crate::baseline::Baseline;
use crate::planner::{self, Trips};
use crate::sailing::{Dice, Timetable};
use crate::shapes::Shape;
use crate::side::{Landing, Lent, Side, Tally, APART, COUNTS, LAST_MINUTE, MOST, SHARES};
use crate::verified::Verified;

const DIRT: u32 = 0xa5a5_a5a5;

#[derive(Clone, Copy, Debug)]
enum Call {
    Landing(Landing),
    Table,
}

impl Call {
    fn on<S: Side>(self, lent: &mut Lent) {
        let Lent { tally, shares, answer } = lent;
        match self {
            Call::Landing(landing) => S::tally(landing, tally, answer),
            Call::Table => S::table(tally, shares, answer),
        }
    }
}

// What both sides leave. After a refusal that is what they were lent, and an answer of its number alone.
fn agreed(call: Call, tally: &Tally) -> Lent {
    let given = Lent { tally: *tally, shares: [DIRT; SHARES], answer: [DIRT; 6] };
    let (mut ours, mut theirs) = (given.clone(), given.clone());
    call.on::<Verified>(&mut ours);
    call.on::<Baseline>(&mut theirs);
    assert_eq!(ours, theirs, "{call:?} of {tally:?}");
    let number = ours.answer[0];
    assert!(number == 0 || ours == Lent { answer: [number, 0, 0, 0, 0, 0], ..given }, "{call:?} of {tally:?}");
    ours
}

// The number answered; the landing is counted in the tally.
fn landed(landing: Landing, tally: &mut Tally) -> u32 {
    let left = agreed(Call::Landing(landing), tally);
    *tally = left.tally;
    left.answer[0]
}

// The number answered. A table that was made passes the check of the Rust planner; numbers that are not of it stay as they were.
fn tabled(tally: &Tally) -> u32 {
    let left = agreed(Call::Table, tally);
    assert_eq!(left.tally, *tally);
    let [number, _, delay, ..] = left.answer;
    if number == 0 {
        let (shares, rest) = left.shares.split_at(delay as usize + 1);
        let shares = shares.iter().map(|share| u16::try_from(*share).expect("a share of a file")).collect();
        let file = Timetable { stops: 2, rows: Vec::new(), tables: vec![shares] }.bytes(false);
        assert!(planner::check(&file, Trips::LookBack).is_ok(), "{tally:?}");
        assert!(rest.iter().all(|share| *share == DIRT), "{tally:?}");
    }
    number
}

pub fn shape(s: &Shape) {
    let mut tally = s.tally;
    for landing in &s.log {
        assert_eq!(landed(*landing, &mut tally), s.number, "{}", s.name);
    }
    if s.tables > 0 {
        assert_eq!(tabled(&tally), s.number, "{}", s.name);
    }
}

fn one_count(place: usize, count: u32) -> Tally {
    let mut tally = [0; COUNTS];
    tally[place] = count;
    tally
}

// Tallies of one count, and landings, on both sides of each limit.
pub fn limits() {
    let number = |place, count, planned, actual| landed(Landing { planned, actual }, &mut one_count(place, count));
    let late = |place| [0, 119, 120, 121, 122].map(|late| number(place, MOST, 9_000, 9_000 + late));
    assert_eq!(late(120), [0, 0, 15, 0, 0]);
    assert_eq!(late(APART), [0, 0, 0, 15, 15]);
    assert_eq!([0, 99, 100, 101].map(|actual| number(0, MOST, 100, actual)), [15, 15, 15, 0]);
    assert_eq!([MOST - 1, MOST, MOST + 1, u32::MAX].map(|count| number(7, count, 1, 8)), [0, 15, 15, 15]);
    assert_eq!([MOST - 1, MOST, MOST + 1, u32::MAX].map(|count| number(7, count, 1, 1)), [0, 0, 15, 15]);
    for minute in &MINUTES[2..] {
        assert_eq!([MOST, MOST + 1].map(|count| number(7, count, *minute, 1)), [14, 14]);
        assert_eq!([MOST, MOST + 1].map(|count| number(7, count, 1, *minute)), [14, 14]);
    }
    assert_eq!(number(7, 1, LAST_MINUTE, LAST_MINUTE), 0);
    let made = |place| [0, 1, MOST, MOST + 1].map(|count| tabled(&one_count(place, count)));
    assert_eq!([made(0), made(120), made(APART)], [[16, 0, 0, 15], [16, 0, 0, 15], [16, 16, 16, 15]]);
}

// Numbers on both sides of a limit, and some that a number of 16 or of 31 bits takes for small ones.
const MOSTS: [u32; 6] = [0, MOST - 1, MOST, MOST + 1, 1 << 31, u32::MAX];

const MINUTES: [u32; 6] = [0, LAST_MINUTE, LAST_MINUTE + 1, 65_537, 1 << 31, u32::MAX];

// What the counts of a tally lie in.
const SIZES: [(u64, u64); 6] = [(0, 1), (1, 2), (1, 30), (0, 100_000), (0, 1_000_001), (999_990, 1_000_001)];

fn one_of<T: Copy>(dice: &mut Dice, them: &[T]) -> T {
    them[dice.from(0, them.len() as u64) as usize]
}

// All or some counts up to a lateness, and sometimes one at a limit.
fn some_tally(dice: &mut Dice) -> Tally {
    let mut tally = one_count(APART, dice.from(0, 100) as u32);
    let (low, high) = one_of(dice, &SIZES);
    let one_in = one_of(dice, &[1, 1, 3, 30]);
    let end = dice.from(0, COUNTS as u64) as usize;
    for count in &mut tally[..end] {
        if dice.from(0, one_in) == 0 {
            *count = dice.from(low, high) as u32;
        }
    }
    if dice.from(0, 4) == 0 {
        tally[dice.from(0, COUNTS as u64) as usize] = one_of(dice, &MOSTS);
    }
    tally
}

// From 30 minutes early to 150 late, and sometimes with a minute at a limit.
fn some_landing(dice: &mut Dice) -> Landing {
    let planned = dice.from(30, 9_930) as u32;
    let mut landing = Landing { planned, actual: planned - 30 + dice.from(0, 181) as u32 };
    match dice.from(0, 16) {
        0 => landing.planned = one_of(dice, &MINUTES),
        1 => landing.actual = one_of(dice, &MINUTES),
        _ => {}
    }
    landing
}

// How often each number was answered on about this many calls: for each tally its table, three landings, and its table again.
pub fn random(calls: u64) -> [u64; 17] {
    let mut dice = Dice(4);
    let mut answered = [0; 17];
    for _ in 0..calls.div_ceil(5) {
        let mut tally = some_tally(&mut dice);
        answered[tabled(&tally) as usize] += 1;
        for _ in 0..3 {
            answered[landed(some_landing(&mut dice), &mut tally) as usize] += 1;
        }
        answered[tabled(&tally) as usize] += 1;
    }
    answered
}
