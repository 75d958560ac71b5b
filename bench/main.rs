// Times the verified planner against a well-written Rust program, and against its own earlier build if one is given, in one run,
// interleaved.
mod baseline;
mod compare;
mod definitions;
mod rounds;
mod sailing;
mod shapes;
mod verified;

use baseline::Trips;
use rounds::{mean, raced};
use shapes::Shape;
use std::cell::RefCell;
use std::hint::black_box;
use verified::{Planner, NOW};

// Many rounds for plans, whose ratio to another build is wanted to the hundredth; few for checks, since looking back takes long.
const PLAN_ROUNDS: usize = 1001;

const CHECK_ROUNDS: usize = 101;

// The slices that are lent to every build alike, so that none has the better places.
struct Lent {
    work: Vec<u32>,
    rides: Vec<u32>,
}

// All queries of a shape, planned by one build.
fn planning<'a>(planner: &'a Planner, s: &'a Shape, lent: &'a RefCell<Lent>) -> impl FnMut() + 'a {
    move || {
        let Lent { work, rides } = &mut *lent.borrow_mut();
        for q in &s.queries {
            black_box(planner.plan(black_box(&s.file), *q, work, rides));
        }
    }
}

// The other build, if there is one that takes the shape's queries.
fn before(s: &Shape) -> Option<&'static Planner> {
    verified::before().filter(|planner| s.queries.iter().all(|q| planner.takes(q)))
}

// How many rides the shape's plans have; all sides answer alike.
fn agreed(s: &Shape, lent: &mut Lent) -> usize {
    let Lent { work, rides } = lent;
    let mut count = 0;
    for q in &s.queries {
        let ours = NOW.answer(&s.file, *q, work, rides);
        assert_eq!(ours, baseline::answer(&s.file, *q), "{}", s.name);
        if let Some(before) = before(s) {
            assert_eq!(ours, before.answer(&s.file, *q, work, rides), "{}", s.name);
        }
        if let sailing::Answer::Plan { rides, .. } = ours {
            count += rides.len();
        }
    }
    count
}

// The ratios of our time to Rust's and, if there is one, to the other build's.
fn plan_shape(s: &Shape) -> (f64, Option<f64>) {
    let mut lent = Lent { work: vec![0u32; 10_500], rides: vec![0u32; 6_000] };
    let count = agreed(s, &mut lent);
    let lent = RefCell::new(lent);
    let mut ours = planning(&NOW, s, &lent);
    let mut theirs = || {
        for q in &s.queries {
            black_box(baseline::plan(black_box(&s.file), *q).is_ok());
        }
    };
    let mut before = before(s).map(|planner| planning(planner, s, &lent));
    let mut jobs: Vec<&mut dyn FnMut()> = vec![&mut ours, &mut theirs];
    if let Some(job) = &mut before {
        jobs.push(job);
    }
    let r = raced(PLAN_ROUNDS, &mut jobs);
    let per = s.queries.len() as f64;
    print!("{:32} {:8.1} {:8.1} {:6.2} {:6}", s.name, r[0] / per, r[1] / per, r[0] / r[1], count);
    let earlier = r.get(2).map(|time| r[0] / time);
    println!("{}", earlier.map_or(String::new(), |ratio| format!(" {:8.1} {:6.3}", r[2] / per, ratio)));
    (r[0] / r[1], earlier)
}

fn check_shape(s: &Shape) {
    let refusal = baseline::check(&s.file, Trips::LookBack).map_or_else(|refusal| refusal.0 as usize, |_| 0);
    assert_eq!(NOW.check(&s.file), refusal, "{}", s.name);
    let mut ours = || {
        black_box(NOW.check(black_box(&s.file)));
    };
    let mut looks = || {
        black_box(baseline::check(black_box(&s.file), Trips::LookBack).is_ok());
    };
    let mut table = || {
        black_box(baseline::check(black_box(&s.file), Trips::LastRows).is_ok());
    };
    let mut before = verified::before().map(|planner| || {
        black_box(planner.check(black_box(&s.file)));
    });
    let mut jobs: Vec<&mut dyn FnMut()> = vec![&mut ours, &mut looks, &mut table];
    if let Some(job) = &mut before {
        jobs.push(job);
    }
    let r = raced(CHECK_ROUNDS, &mut jobs);
    print!("{:32} {:8.1} {:8.1} {:6.2} {:8.1} {:6.2}", s.name, r[0], r[1], r[0] / r[1], r[2], r[0] / r[2]);
    println!("{}", r.get(3).map_or(String::new(), |time| format!(" {:8.1} {:6.3}", time, r[0] / time)));
}

// The columns of the other build, if it is timed.
fn earlier(before: Option<&Planner>) -> &'static str {
    before.map_or("", |_| "   before  ratio")
}

fn plan_shapes(title: &str, shapes: &[Shape]) {
    let earlier = earlier(shapes.first().and_then(before));
    println!("{title:32} {:>8} {:>8} {:>6} {:>6}{earlier}", "ours", "Rust", "ratio", "rides");
    let ratios: Vec<_> = shapes.iter().map(plan_shape).collect();
    let to_rust: Vec<f64> = ratios.iter().map(|r| r.0).collect();
    let to_before: Vec<f64> = ratios.iter().filter_map(|r| r.1).collect();
    println!("{:32} {:>24.2}", "geometric mean", mean(&to_rust));
    if !to_before.is_empty() {
        let most = to_before.iter().cloned().fold(0.0, f64::max);
        println!("{:32} mean {:.3}, largest {:.3}", "now to before", mean(&to_before), most);
    }
    println!();
}

fn main() {
    let files = std::env::args().nth(1).map_or(2_000, |x| x.parse().expect("a count of files"));
    let only = std::env::args().nth(2).unwrap_or_default();
    let chosen = |shapes: Vec<Shape>| -> Vec<Shape> { shapes.into_iter().filter(|s| s.name.contains(&only)).collect() };
    let (asked, plans) = compare::compare(files, 60);
    println!("{asked} queries on small files agree, {plans} with a plan\n");
    let shapes = chosen(shapes::all());
    plan_shapes("plan, microseconds a query", &shapes);
    let with_margin: Vec<_> = shapes.into_iter().map(|s| s.with_margin(256)).collect();
    plan_shapes("with margin 256", &with_margin);
    let with_gate: Vec<_> = chosen(shapes::all()).into_iter().map(|s| s.with_gate(5)).collect();
    plan_shapes("with gate time 5", &with_gate);
    let earlier = earlier(verified::before());
    println!("{:32} {:>8} {:>8} {:>6} {:>8} {:>6}{earlier}", "check, microseconds", "ours", "looks", "ratio", "table", "ratio");
    chosen(shapes::checks()).iter().for_each(check_shape);
}
