// Times one share of a house table against a well-written Rust program, in one run, interleaved.
mod rule;
#[path = "../rounds.rs"]
mod rounds;
#[allow(dead_code)]
#[path = "../sailing.rs"]
mod sailing;

use rounds::{mean, raced};
use rule::{carried, worked_out, Outside, PAIRS};
use sailing::Dice;
use std::hint::black_box;

const ROUNDS: usize = 1001;

// Number and place of the refusal, or 0, 0 and the share.
type Answer = [u32; 6];

// All sides are asked by the same kind of call, which leaves alone an answer that has no room for six numbers.
type Call = unsafe extern "C" fn(pair: u32, minute: u32, answer: *mut u32, answer_len: usize);

extern "C" {
    fn trial_house(pair: u32, minute: u32, answer: *mut u32, answer_len: usize);
    #[cfg(against)]
    fn before_house(pair: u32, minute: u32, answer: *mut u32, answer_len: usize);
}

unsafe extern "C" fn rust_house(pair: u32, minute: u32, answer: *mut u32, answer_len: usize) {
    put(worked_out(pair, minute), std::slice::from_raw_parts_mut(answer, answer_len));
}

unsafe extern "C" fn carried_house(pair: u32, minute: u32, answer: *mut u32, answer_len: usize) {
    put(carried(pair, minute), std::slice::from_raw_parts_mut(answer, answer_len));
}

fn put(share: Result<u32, Outside>, answer: &mut [u32]) {
    let Some(answer) = answer.first_chunk_mut() else { return };
    *answer = match share {
        Ok(share) => [0, 0, share, 0, 0, 0],
        Err(Outside) => [6, 0, 0, 0, 0, 0],
    };
}

// This commit's call, Rust that works the share out, Rust that carries all, and another commit's call if it was given.
const SIDES: &[(&str, Call)] = &[
    ("ours", trial_house),
    ("Rust", rust_house),
    ("carried", carried_house),
    #[cfg(against)]
    ("before", before_house),
];

fn ask(call: Call, pair: u32, minute: u32, answer: &mut Answer) {
    unsafe { call(pair, minute, answer.as_mut_ptr(), answer.len()) };
}

struct Shape {
    name: &'static str,
    asked: Vec<(u32, u32)>,
}

fn minutes(pair: usize) -> impl Iterator<Item = (u32, u32)> {
    let (change, parameter) = PAIRS[pair];
    (0..=u32::from(change) + u32::from(parameter)).map(move |minute| (pair as u32, minute))
}

fn shapes() -> Vec<Shape> {
    let all: Vec<_> = (0..PAIRS.len()).flat_map(minutes).collect();
    let mut dice = Dice(5);
    let drawn = (0..all.len()).map(|_| all[dice.from(0, all.len() as u64) as usize]).collect();
    let changed = |(pair, minute): &(u32, u32)| *minute > u32::from(PAIRS[*pair as usize].0);
    let (past, up): (Vec<_>, Vec<_>) = all.iter().copied().partition(changed);
    vec![
        Shape { name: "all shares, table after table", asked: all.clone() },
        Shape { name: "drawn at random", asked: drawn },
        Shape { name: "up to the change time", asked: up },
        Shape { name: "past the change time", asked: past },
        Shape { name: "one table, 5 30", asked: minutes(1).collect() },
        Shape { name: "minute refused", asked: (0..8).map(|pair| (pair, 121)).collect() },
        Shape { name: "pair refused", asked: (8..16).map(|pair| (pair, 0)).collect() },
    ]
}

// The number that all sides answer.
fn agreed(pair: u32, minute: u32) -> u32 {
    let answered = |(_, call): &(&str, Call)| {
        let mut answer = [u32::MAX; 6];
        ask(*call, pair, minute, &mut answer);
        answer
    };
    let answers: Vec<Answer> = SIDES.iter().map(answered).collect();
    assert!(answers.iter().all(|answer| *answer == answers[0]), "{pair} {minute}: {answers:?}");
    answers[0][0]
}

// How many shares and how many refusals all sides agree on: every pair and minute below 320, and some far beyond.
fn compare() -> (usize, usize) {
    let numbers: Vec<u32> = (0..320).chain([65_535, 65_536, 65_537, 1 << 31, u32::MAX]).collect();
    let calls = numbers.iter().flat_map(|pair| numbers.iter().map(|minute| (*pair, *minute)));
    let refused = calls.map(|(pair, minute)| agreed(pair, minute)).filter(|number| *number == 6).count();
    (numbers.len() * numbers.len() - refused, refused)
}

// The times of a call by each side, in nanoseconds. All write to the same place, so that none has the better one.
fn time_shape(s: &Shape) -> Vec<f64> {
    let answer = std::cell::RefCell::new([0; 6]);
    let asking = |call: Call| {
        let answer = &answer;
        move || {
            let answer = &mut *answer.borrow_mut();
            for (pair, minute) in &s.asked {
                ask(call, *pair, *minute, black_box(answer));
            }
            black_box(answer);
        }
    };
    let mut jobs: Vec<_> = SIDES.iter().map(|(_, call)| asking(*call)).collect();
    let mut jobs: Vec<&mut dyn FnMut()> = jobs.iter_mut().map(|job| job as &mut dyn FnMut()).collect();
    raced(ROUNDS, &mut jobs).iter().map(|time| time * 1e3 / s.asked.len() as f64).collect()
}

fn main() {
    let (shares, refused) = compare();
    println!("{shares} shares and {refused} refusals agree\n");
    let mut heads = format!("{:32}", "house share, nanoseconds a call");
    SIDES.iter().for_each(|(name, _)| heads += &format!(" {name:>8}"));
    SIDES[1..].iter().for_each(|(name, _)| heads += &format!(" {:>12}", format!("to {name}")));
    println!("{heads}");
    let mut ratios = vec![Vec::new(); SIDES.len() - 1];
    for s in shapes() {
        let times = time_shape(&s);
        let mut line = format!("{:32}", s.name);
        times.iter().for_each(|time| line += &format!(" {time:8.2}"));
        for (k, time) in times[1..].iter().enumerate() {
            ratios[k].push(times[0] / time);
            line += &format!(" {:12.2}", times[0] / time);
        }
        println!("{line}");
    }
    let means: String = ratios.iter().map(|r| format!(" {:12.2}", mean(r))).collect();
    println!("{:32}{}{means}", "geometric mean", " ".repeat(9 * SIDES.len()));
}
