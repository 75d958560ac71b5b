// Times the verified import of a partner's stop times against a well-written Rust program, in one run, interleaved.
mod baseline;
mod compare;
#[allow(dead_code)]
#[path = "../baseline.rs"]
mod planner;
#[path = "../rounds.rs"]
mod rounds;
#[allow(dead_code)]
#[path = "../sailing.rs"]
mod sailing;
mod shapes;
mod verified;

use rounds::{mean, raced};
use shapes::Shape;
use std::cell::RefCell;
use std::hint::black_box;

const ROUNDS: usize = 1001;

// Few, since here the largest text takes as many turns in a round as the smallest.
const GROWTH_ROUNDS: usize = 201;

// The service day that all shapes are sound on.
const DAY: u32 = 1;

fn importing<'a>(s: &'a Shape, lent: &'a RefCell<Vec<u8>>) -> impl FnMut() + 'a {
    move || {
        black_box(verified::import(black_box(&s.text), DAY, &mut lent.borrow_mut()));
    }
}

// The ratio of our time to Rust's. Both sides write to the same place, so that none has the better one.
fn time_shape(s: &Shape) -> f64 {
    let lent = RefCell::new(vec![0u8; compare::ROOM]);
    let mut ours = importing(s, &lent);
    let mut theirs = || {
        black_box(baseline::import(black_box(&s.text), DAY, &mut lent.borrow_mut()).is_ok());
    };
    let r = raced(ROUNDS, &mut [&mut ours, &mut theirs]);
    let ratio = r[0] / r[1];
    println!("{:40} {:7} {:6} {:5} {:8.1} {:8.1} {ratio:6.2}", s.name, s.text.len(), s.lines, s.rows, r[0], r[1]);
    ratio
}

fn time_shapes(shapes: &[Shape]) {
    println!("{:40} {:>7} {:>6} {:>5} {:>8} {:>8} {:>6}", "import, microseconds", "bytes", "lines", "rows", "ours", "Rust", "ratio");
    let ratios: Vec<_> = shapes.iter().map(time_shape).collect();
    println!("{:40} {:>45.2}\n", "geometric mean", mean(&ratios));
}

// Our time on shapes that are doubled from line to line, and its ratio to the line before.
fn time_growth(ids: &str, shapes: &[Shape]) {
    println!("{:40} {:>7} {:>6} {:>5} {:>8} {:>8}", format!("ours as a text grows, {ids}"), "bytes", "lines", "rows", "ours", "growth");
    let lent = RefCell::new(vec![0u8; compare::ROOM]);
    let mut jobs: Vec<_> = shapes.iter().map(|s| importing(s, &lent)).collect();
    let mut jobs: Vec<&mut dyn FnMut()> = jobs.iter_mut().map(|job| job as _).collect();
    let times = raced(GROWTH_ROUNDS, &mut jobs);
    for (k, s) in shapes.iter().enumerate() {
        print!("{:40} {:7} {:6} {:5} {:8.1}", s.name, s.text.len(), s.lines, s.rows, times[k]);
        println!("{}", if k == 0 { String::new() } else { format!(" {:8.2}", times[k] / times[k - 1]) });
    }
    println!();
}

fn main() {
    let texts = std::env::args().nth(1).map_or(20_000, |x| x.parse().expect("a count of texts"));
    let only = std::env::args().nth(2).unwrap_or_default();
    let shapes: Vec<_> = shapes::all().into_iter().filter(|s| s.name.contains(&only)).collect();
    let growths = shapes::growths();
    shapes.iter().chain(growths.iter().flat_map(|(_, shapes)| shapes)).for_each(compare::shape);
    compare::limits();
    let counts = compare::damaged(texts);
    println!("{texts} damaged texts agree, {} of them sound", counts[0]);
    for (number, count) in counts.iter().enumerate().skip(1).filter(|(_, count)| **count > 0) {
        println!("{count:8} refused with {number}");
    }
    println!();
    time_shapes(&shapes);
    growths.iter().for_each(|(ids, shapes)| time_growth(ids, shapes));
}
