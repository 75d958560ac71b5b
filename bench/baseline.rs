// A well-written Rust program for the same job, checking included: rows parsed to a Vec, a Vec of
// chosen rows for each stop, searched by halves, sums by runs of delays with cumulative shares.
use crate::sailing::{Answer, Query, Row};

pub struct Table {
    longest: u32,
    expected: u32,
    cumulative: Vec<u32>,
}

pub struct Sailings {
    stops: usize,
    rows: Vec<Row>,
    tables: Vec<Table>,
}

// How the trip's last row is found.
#[derive(Clone, Copy, PartialEq)]
pub enum Trips {
    LookBack,
    LastRows,
}

type Refusal = (u32, u32);

fn u16_at(file: &[u8], at: usize) -> u16 {
    u16::from_le_bytes([file[at], file[at + 1]])
}

fn u32_at(file: &[u8], at: usize) -> u32 {
    u32::from_le_bytes(file[at..at + 4].try_into().unwrap())
}

fn table_at(body: &[u8], at: usize, class: u32) -> Result<(Table, usize), Refusal> {
    let longest = u16::from_le_bytes(body.get(at..at + 2).ok_or((2, 0))?.try_into().unwrap()) as usize;
    if longest > 120 {
        return Err((3, class));
    }
    let end = at + 4 + 2 * longest;
    let shares = body.get(at + 2..end).ok_or((2, 0))?;
    let mut cumulative = Vec::with_capacity(longest + 1);
    let (mut total, mut late) = (0u32, 0u32);
    for (minute, pair) in shares.chunks_exact(2).enumerate() {
        let share = u16::from_le_bytes([pair[0], pair[1]]) as u32;
        total += share;
        late += share * minute as u32;
        cumulative.push(total);
    }
    if total != 4096 || u16_at(body, end - 2) == 0 {
        return Err((3, class));
    }
    Ok((Table { longest: longest as u32, expected: late.div_ceil(16), cumulative }, end))
}

fn rows_of(bytes: &[u8], stops: u16, classes: u16, trips: Trips) -> Result<Vec<Row>, Refusal> {
    let mut rows: Vec<Row> = Vec::with_capacity(bytes.len() / 12);
    let mut last = if trips == Trips::LastRows { vec![u16::MAX; 2000] } else { Vec::new() };
    for (i, b) in bytes.chunks_exact(12).enumerate() {
        let row = Row {
            board: u16_at(b, 0),
            land: u16_at(b, 2),
            departure: u16_at(b, 4),
            arrival: u16_at(b, 6),
            trip: u16_at(b, 8),
            class: u16_at(b, 10),
        };
        let own = row.board < stops
            && row.land < stops
            && row.board != row.land
            && row.departure < row.arrival
            && row.arrival <= 10079
            && row.trip < 2000
            && row.class < classes;
        if !own {
            return Err((4, i as u32));
        }
        if rows.last().is_some_and(|p| row.departure < p.departure) {
            return Err((5, i as u32));
        }
        let back = match trips {
            Trips::LookBack => rows.iter().rev().find(|p| p.trip == row.trip),
            Trips::LastRows => rows.get(last[row.trip as usize] as usize),
        };
        if back.is_some_and(|p| p.land != row.board || row.departure < p.arrival) {
            return Err((5, i as u32));
        }
        if trips == Trips::LastRows {
            last[row.trip as usize] = i as u16;
        }
        rows.push(row);
    }
    Ok(rows)
}

pub fn check(file: &[u8], trips: Trips) -> Result<Sailings, Refusal> {
    if file.len() < 20 || file.len() > 27_920 {
        return Err((1, 0));
    }
    let end = file.len() - 16;
    let (body, trailer) = file.split_at(end);
    let (stops, n, classes) = (u16_at(trailer, 2), u16_at(trailer, 4), u16_at(trailer, 6));
    let in_range = u16_at(trailer, 0) == 1
        && (2..=200).contains(&stops)
        && n <= 2000
        && (1..=16).contains(&classes);
    if !in_range {
        return Err((1, 0));
    }
    let (row_start, table_start) = (u32_at(trailer, 8) as usize, u32_at(trailer, 12) as usize);
    let mut tables = Vec::with_capacity(classes as usize);
    let mut at = table_start;
    for class in 0..classes {
        let (table, next) = table_at(body, at, class as u32)?;
        tables.push(table);
        at = next;
    }
    let row_end = row_start + 12 * n as usize;
    let joined = (row_start == 0 && table_start == row_end && at == end)
        || (table_start == 0 && row_start == at && row_end == end);
    if !joined {
        return Err((2, 0));
    }
    let rows = rows_of(&body[row_start..row_end], stops, classes, trips)?;
    Ok(Sailings { stops: stops as usize, rows, tables })
}

fn earliest_arrival(s: &Sailings, rows: &[Row], q: Query) -> Option<u32> {
    let mut there = vec![u32::MAX; s.stops];
    let mut aboard = vec![false; 2000];
    let (target, gate) = (q.target as usize, q.gate_time());
    there[q.source as usize] = q.minute;
    for row in rows {
        if there[target] <= row.departure as u32 {
            break;
        }
        let trip = &mut aboard[row.trip as usize];
        if *trip || there[row.board as usize].saturating_add(gate) <= row.departure as u32 {
            *trip = true;
            let landing = row.arrival as u32 + s.tables[row.class as usize].longest;
            let land = &mut there[row.land as usize];
            *land = landing.min(*land);
        }
    }
    (there[target] != u32::MAX).then_some(there[target])
}

#[derive(Clone, Copy)]
struct Chosen {
    departure: u32,
    row: u32,
    worth: u32,
}

// The chosen rows from the first that departs at or after `minute` on: the latest departure stands first.
fn first_caught(stack: &[Chosen], minute: u32) -> usize {
    stack.partition_point(|c| minute <= c.departure)
}

fn change_worth(stack: &[Chosen], soon: u32, table: &Table) -> Option<u32> {
    let last = soon + table.longest;
    if stack.first()?.departure < last {
        return None;
    }
    let (mut sum, mut done) = (0u64, 0u32);
    for c in stack[..first_caught(stack, soon)].iter().rev() {
        if c.departure >= last {
            sum += (4096 - done) as u64 * c.worth as u64;
            break;
        }
        let share = table.cumulative[(c.departure - soon) as usize];
        sum += (share - done) as u64 * c.worth as u64;
        done = share;
    }
    Some(sum.div_ceil(4096) as u32)
}

pub struct Planned {
    pub expected: u32,
    pub latest: u32,
    pub bound: u32,
    pub rides: Vec<[u32; 3]>,
}

pub fn plan(file: &[u8], q: Query) -> Result<Planned, Refusal> {
    let s = check(file, Trips::LastRows)?;
    let (source, target) = (q.source as usize, q.target as usize);
    let code_fits = q.code == 0 || (4..=16).contains(&q.code);
    let margin = q.ticks_to_gain();
    let behind_fits = (1..=2_560).contains(&margin) && q.gate_time() <= 30;
    if source >= s.stops || target >= s.stops || source == target || q.minute > 10_079 || !code_fits || !behind_fits {
        return Err((6, 0));
    }
    let first = s.rows.partition_point(|r| (r.departure as u32) < q.ready(q.minute));
    let e = earliest_arrival(&s, &s.rows[first..], q).ok_or((8, 0))?;
    let bound = if q.code == 0 { 0 } else { q.minute + q.code * (e - q.minute) / 4 };
    let end = match bound {
        0 => s.rows.len(),
        _ => s.rows.partition_point(|r| (r.departure as u32) < bound),
    };
    let mut worths: Vec<(u32, u32)> = vec![(u32::MAX, 0); s.rows.len()];
    let mut next = vec![u16::MAX; 2000];
    let mut stacks: Vec<Vec<Chosen>> = vec![Vec::new(); s.stops];
    for i in (first..end).rev() {
        let row = s.rows[i];
        let table = &s.tables[row.class as usize];
        let arrival = row.arrival as u32;
        let off = if row.land as usize == target {
            (bound == 0 || arrival + table.longest <= bound).then(|| 256 * arrival + table.expected)
        } else {
            change_worth(&stacks[row.land as usize], q.ready(arrival), table)
        };
        let on = worths.get(next[row.trip as usize] as usize).copied().unwrap_or((u32::MAX, 0));
        let best = match off {
            Some(off) if off < on.0 => (off, i as u32),
            _ => on,
        };
        worths[i] = best;
        next[row.trip as usize] = i as u16;
        if best.0 == u32::MAX || row.board as usize == target {
            continue;
        }
        let stack = &mut stacks[row.board as usize];
        let entry = Chosen { departure: row.departure as u32, row: i as u32, worth: best.0 };
        match stack.last_mut() {
            Some(top) if top.worth < entry.worth + margin => {}
            Some(top) if top.departure == entry.departure => *top = entry,
            _ => stack.push(entry),
        }
    }
    let head = *stacks[source].last().ok_or((8, 0))?;
    let mut wanted = vec![false; end];
    wanted[head.row as usize] = true;
    let mut rides = Vec::new();
    let mut latest = 0;
    for i in head.row as usize..end {
        if !wanted[i] {
            continue;
        }
        let (worth, leave) = worths[i];
        let row = s.rows[leave as usize];
        let arrival = row.arrival as u32;
        let landing = arrival + s.tables[row.class as usize].longest;
        rides.push([i as u32, leave, worth]);
        latest = latest.max(landing);
        if row.land as usize != target {
            let stack = &stacks[row.land as usize];
            for c in stack[..first_caught(stack, q.ready(arrival))].iter().rev() {
                wanted[c.row as usize] = true;
                if c.departure >= q.ready(landing) {
                    break;
                }
            }
        }
    }
    Ok(Planned { expected: head.worth, latest, bound, rides })
}

pub fn answer(file: &[u8], q: Query) -> Answer {
    match plan(file, q) {
        Ok(p) => Answer::Plan { expected: p.expected, latest: p.latest, bound: p.bound, rides: p.rides },
        Err((number, place)) => Answer::Refused { number, place },
    }
}
