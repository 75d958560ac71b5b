// Times the verified tally of landings and its tables against a well-written Rust program, in one run, interleaved.
mod baseline;
mod compare;
#[allow(dead_code)]
#[path = "../baseline.rs"]
mod planner;
#[path = "../rounds.rs"]
mod rounds;
#[allow(dead_code)]
#[path = "../sailing.rs"]
mod sailing;
mod shapes;
mod side;
mod verified;

use baseline::Baseline;
use rounds::{mean, raced};
use shapes::Shape;
use side::{Lent, Side, COUNTS, SHARES};
use std::cell::RefCell;
use std::hint::black_box;
use verified::Verified;

const ROUNDS: usize = 1001;

// All calls of a shape.
fn calling<'a, S: Side + 'a>(s: &'a Shape, lent: &'a RefCell<Lent>) -> impl FnMut() + 'a {
    move || {
        let lent = &mut *lent.borrow_mut();
        lent.tally = s.tally;
        for landing in &s.log {
            let Lent { tally, answer, .. } = black_box(&mut *lent);
            S::tally(*landing, tally, answer);
        }
        for _ in 0..s.tables {
            let Lent { tally, shares, answer } = black_box(&mut *lent);
            S::table(tally, shares, answer);
        }
        black_box(lent);
    }
}

// The ratio of our time to Rust's. Both sides write to the same place, so that none has the better one.
fn time_shape(s: &Shape) -> f64 {
    let lent = RefCell::new(Lent { tally: [0; COUNTS], shares: [0; SHARES], answer: [0; 6] });
    let mut ours = calling::<Verified>(s, &lent);
    let mut theirs = calling::<Baseline>(s, &lent);
    let r = raced(ROUNDS, &mut [&mut ours, &mut theirs]);
    let ratio = r[0] / r[1];
    let per_call = 1e3 / s.calls() as f64;
    println!("{:40} {:6} {:8.1} {:8.1} {ratio:6.2}", s.name, s.calls(), r[0] * per_call, r[1] * per_call);
    ratio
}

fn main() {
    let calls = std::env::args().nth(1).map_or(100_000, |x| x.parse().expect("a count of calls"));
    let only = std::env::args().nth(2).unwrap_or_default();
    let shapes: Vec<_> = shapes::all().into_iter().filter(|s| s.name.contains(&only)).collect();
    shapes.iter().for_each(compare::shape);
    compare::limits();
    let answered = compare::random(calls);
    println!("{} random calls agree, {} of them not refused", answered.iter().sum::<u64>(), answered[0]);
    for (number, count) in answered.iter().enumerate().skip(1).filter(|(_, count)| **count > 0) {
        println!("{count:8} refused with {number}");
    }
    println!();
    println!("{:40} {:>6} {:>8} {:>8} {:>6}", "tally, nanoseconds a call", "calls", "ours", "Rust", "ratio");
    let ratios: Vec<_> = shapes.iter().map(time_shape).collect();
    println!("{:40} {:>31.2}", "geometric mean", mean(&ratios));
}
