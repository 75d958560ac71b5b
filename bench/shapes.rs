// The files that both sides are timed on.
use crate::sailing::{Dice, Query, Row, Timetable};

pub struct Shape {
    pub name: &'static str,
    pub file: Vec<u8>,
    pub queries: Vec<Query>,
}

fn ask(source: u32, target: u32, minute: u32, code: u32) -> Query {
    Query { source, target, minute, code, margin: None, gate: None }
}

fn shape(name: &'static str, stops: u16, mut rows: Vec<Row>, tables: Vec<Vec<u16>>, queries: Vec<Query>) -> Shape {
    rows.sort_by_key(|r| r.departure);
    rows.truncate(2000);
    let t = Timetable { stops, rows, tables };
    assert_eq!(crate::definitions::row_fault(&t), None, "{name}");
    Shape { name, file: t.bytes(false), queries }
}

fn tables(dice: &mut Dice, longest: &[usize]) -> Vec<Vec<u16>> {
    longest.iter().map(|m| dice.shares(*m)).collect()
}

// Seven islands in a ring with a hub: lines of one to three hops, some eight sailings a day each, seven days.
fn islands() -> Shape {
    let mut dice = Dice(1);
    let tables = tables(&mut dice, &[12, 35, 65, 40, 70, 120, 105, 120]);
    let lines: [&[u16]; 12] = [
        &[0, 1, 2], &[2, 1, 0], &[0, 3], &[3, 0], &[0, 4, 5], &[5, 4, 0], &[0, 6], &[6, 0],
        &[1, 3, 5], &[5, 3, 1], &[2, 6, 4], &[4, 6, 2],
    ];
    let mut rows = Vec::new();
    let mut trip = 0;
    for day in 0..7u64 {
        for (l, line) in lines.iter().enumerate() {
            let mut minute = 330 + dice.from(0, 60);
            for _ in 0..11 {
                let mut at = day * 1440 + minute;
                for (h, hop) in line.windows(2).enumerate() {
                    let arrival = at + 25 + 10 * (l as u64 % 5) + 5 * h as u64;
                    if arrival > 10_079 {
                        break;
                    }
                    rows.push(Row {
                        board: hop[0],
                        land: hop[1],
                        departure: at as u16,
                        arrival: arrival as u16,
                        trip,
                        class: (l % 8) as u16,
                    });
                    at = arrival + 5;
                }
                trip += 1;
                minute += 70 + dice.from(0, 40);
            }
        }
    }
    let queries = vec![ask(2, 5, 400, 0), ask(5, 2, 400, 8), ask(1, 6, 2000, 0), ask(6, 3, 5000, 6)];
    shape("seven islands, a week", 7, rows, tables, queries)
}

// Trips of some hops between stops drawn at random.
fn spread(name: &'static str, stops: u64, seed: u64) -> Shape {
    let mut dice = Dice(seed);
    let tables = tables(&mut dice, &[10, 30, 60, 120]);
    let mut rows = Vec::new();
    for trip in 0..500 {
        let mut at = dice.from(0, stops);
        let mut minute = dice.from(0, 9500);
        for _ in 0..4 {
            let land = (at + dice.from(1, stops)) % stops;
            let arrival = minute + dice.from(5, 60);
            rows.push(Row {
                board: at as u16,
                land: land as u16,
                departure: minute as u16,
                arrival: arrival as u16,
                trip: trip * 3,
                class: dice.from(0, 4) as u16,
            });
            at = land;
            minute = arrival + dice.from(0, 10);
        }
    }
    let queries = vec![ask(0, 1, 0, 0), ask(1, 2, 0, 16), ask(2, 3, 100, 0), ask(3, 0, 3000, 0)];
    shape(name, stops as u16, rows, tables, queries)
}

// Stop 1 has 1,000 chosen rows to the target; 1,000 rides land there, early ones deep in its list.
fn deep() -> Shape {
    let mut dice = Dice(5);
    let tables = tables(&mut dice, &[0, 30]);
    let mut rows = Vec::new();
    for k in 0..1000u64 {
        let departure = 1000 + 9 * k;
        rows.push(Row { board: 1, land: 2, departure: departure as u16, arrival: (departure + 20) as u16, trip: k as u16, class: 0 });
    }
    for k in 0..1000u64 {
        let departure = 5 + k / 2;
        let arrival = dice.from(1000, 9900);
        rows.push(Row { board: 0, land: 1, departure: departure as u16, arrival: arrival as u16, trip: 1000 + k as u16, class: 1 });
    }
    shape("one stop, 1,000 chosen, deep", 3, rows, tables, vec![ask(0, 2, 0, 0)])
}

// Rows leave stop 1 for the target every minute, and rides land there all along: each sum has 121 runs.
fn every_minute() -> Shape {
    let mut dice = Dice(6);
    let tables = tables(&mut dice, &[0, 120]);
    let mut rows = Vec::new();
    for k in 0..1000u64 {
        rows.push(Row { board: 1, land: 2, departure: (200 + k) as u16, arrival: (230 + k) as u16, trip: k as u16, class: 0 });
        rows.push(Row { board: 0, land: 1, departure: k as u16, arrival: (k + 60) as u16, trip: (1000 + k) as u16, class: 1 });
    }
    shape("a chosen row every minute", 3, rows, tables, vec![ask(0, 2, 0, 0), ask(0, 2, 300, 0)])
}

// 2,000 trips of one row each among 20 stops.
fn single_rows() -> Shape {
    let mut dice = Dice(7);
    let tables = tables(&mut dice, &[10, 30, 60, 120]);
    let mut rows = Vec::new();
    for trip in 0..2000u64 {
        let board = dice.from(0, 20);
        let departure = dice.from(0, 9900);
        rows.push(Row {
            board: board as u16,
            land: ((board + dice.from(1, 20)) % 20) as u16,
            departure: departure as u16,
            arrival: (departure + dice.from(5, 120)) as u16,
            trip: trip as u16,
            class: dice.from(0, 4) as u16,
        });
    }
    shape("2,000 trips of one row", 20, rows, tables, vec![ask(0, 1, 0, 0), ask(4, 9, 2000, 12)])
}

// The last row of the file breaks its own rule.
fn refused() -> Shape {
    let mut s = spread("refused at the last row", 20, 8);
    let rows = u16::from_le_bytes([s.file[s.file.len() - 12], s.file[s.file.len() - 11]]) as usize;
    let at = 12 * (rows - 1);
    s.file[at] = 250;
    s
}

// Five stops in line, a row from each to the next every minute, every maximum 120: of 2,000 rows 1,358 have a sum of
// 121 runs, and nearly all are chosen, in the plan, and want 121 others.
fn worst() -> Shape {
    let mut dice = Dice(9);
    let tables = tables(&mut dice, &[120]);
    let mut rows = Vec::new();
    for stop in 0..5u64 {
        for k in 0..158 + 121 * stop {
            let departure = k + stop;
            rows.push(Row {
                board: stop as u16,
                land: stop as u16 + 1,
                departure: departure as u16,
                arrival: departure as u16 + 1,
                trip: rows.len() as u16,
                class: 0,
            });
        }
    }
    shape("worst: every sum of 121 runs", 6, rows, tables, vec![ask(0, 5, 0, 0)])
}

// A query that has no safe journey.
fn no_journey() -> Shape {
    let mut s = spread("no safe journey", 20, 10);
    s.queries = vec![ask(0, 1, 9900, 0)];
    s
}

impl Shape {
    // The same file and queries, with a gate time.
    pub fn with_gate(mut self, gate: u32) -> Shape {
        for q in &mut self.queries {
            q.gate = Some(gate);
        }
        self
    }

    // The same file and queries, with a margin.
    pub fn with_margin(mut self, margin: u32) -> Shape {
        for q in &mut self.queries {
            q.margin = Some(margin);
        }
        self
    }
}

pub fn all() -> Vec<Shape> {
    vec![
        islands(),
        spread("200 stops spread", 200, 2),
        spread("20 stops spread", 20, 3),
        spread("4 stops spread", 4, 4),
        deep(),
        every_minute(),
        single_rows(),
        refused(),
        no_journey(),
        worst(),
    ]
}

// 2,000 rows on trips of `hops` rows each, the trip's rows `apart` rows from each other.
fn trips_of(name: &'static str, hops: u64, apart: u64) -> Shape {
    let mut dice = Dice(11);
    let tables = tables(&mut dice, &[10, 30, 60, 120]);
    let mut rows = vec![];
    for i in 0..2000u64 {
        let (trip, hop) = if apart == 1 { (i / hops, i % hops) } else { (i % apart, i / apart) };
        rows.push(Row {
            board: (hop % 20) as u16,
            land: ((hop + 1) % 20) as u16,
            departure: (5 * i) as u16,
            arrival: (5 * i + 5) as u16,
            trip: trip as u16,
            class: (i % 4) as u16,
        });
    }
    shape(name, 20, rows, tables, vec![])
}

pub fn checks() -> Vec<Shape> {
    let mut last = trips_of("(d) refused at its last row", 50, 1);
    last.file[12 * 1999] = 250;
    vec![
        trips_of("(a) 2,000 trips of one row", 1, 2000),
        trips_of("(b) 40 trips of 50 rows", 50, 40),
        trips_of("(c) two rows a trip, far apart", 2, 1000),
        last,
    ]
}
