// What both sides are timed on.
use crate::baseline::Baseline;
use crate::sailing::Dice;
use crate::side::{Landing, Side, Tally, APART, COUNTS, MOST};

pub struct Shape {
    pub name: &'static str,
    // before the first landing
    pub tally: Tally,
    pub log: Vec<Landing>,
    // how often the table is made, behind the log
    pub tables: usize,
    // what each call is answered
    pub number: u32,
}

impl Shape {
    pub fn calls(&self) -> usize {
        self.log.len() + self.tables
    }
}

// Of calls that are too short to be timed alone.
const BATCH: usize = 1_000;

const EMPTY: Tally = [0; COUNTS];

// A week by planned minutes: of a hundred landings about twenty early, seventy at most 19 minutes late, one over 120.
fn log(dice: &mut Dice, landings: usize) -> Vec<Landing> {
    let landing = |k| {
        let planned = 10 + 9_850 * k as u64 / landings as u64;
        let actual = match dice.from(0, 100) {
            0..=19 => planned - dice.from(1, 11),
            20..=89 => planned + dice.from(0, 20),
            90..=98 => planned + dice.from(20, 121),
            _ => planned + dice.from(121, 221),
        };
        Landing { planned: planned as u32, actual: actual as u32 }
    };
    (0..landings).map(landing).collect()
}

fn tally_of(log: &[Landing]) -> Tally {
    let mut tally = EMPTY;
    log.iter().for_each(|landing| Baseline::tally(*landing, &mut tally, &mut [0; 6]));
    tally
}

fn with(mut tally: Tally, counts: &[(usize, u32)]) -> Tally {
    counts.iter().for_each(|(place, count)| tally[*place] = *count);
    tally
}

fn logged(name: &'static str, tally: Tally, log: &[Landing], number: u32) -> Shape {
    Shape { name, tally, log: log.to_vec(), tables: 0, number }
}

fn tabled(name: &'static str, tally: Tally, number: u32) -> Shape {
    Shape { name, tally, log: Vec::new(), tables: BATCH, number }
}

pub fn all() -> Vec<Shape> {
    let mut dice = Dice(1);
    let long = log(&mut dice, 10_000);
    let week = log(&mut dice, 2_000);
    let counts = tally_of(&long);
    let dense = EMPTY.map(|_| dice.from(1, 2_000) as u32);
    vec![
        logged("a log from an empty tally", EMPTY, &long, 0),
        logged("a log that fills its counts to the limit", counts.map(|count| MOST - count), &long, 0),
        logged("a landing refused by the last count", with(counts, &[(APART, MOST + 1)]), &long[..BATCH], 15),
        tabled("a table of a dense tally, M 120", dense, 0),
        tabled("a table of a sparse tally, M 5", with(EMPTY, &[(0, 61), (2, 9), (5, 1), (APART, 3)]), 0),
        tabled("a table refused, all apart", with(EMPTY, &[(APART, 12)]), 16),
        tabled("a table of a million of each", [MOST; COUNTS], 0),
        Shape { name: "a week's log and its table", tally: EMPTY, log: week, tables: 1, number: 0 },
    ]
}
