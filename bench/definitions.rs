// The definitions of crates/plans/specs, transcribed: slow, and only there to be compared with.
use crate::sailing::{Answer, Query, Row, Timetable};

#[derive(Clone, Debug)]
struct Ride {
    board: usize,
    leave: usize,
    from: u16,
    departs: u64,
    to: u16,
    arrives: u64,
    shares: Vec<u16>,
}

#[derive(Clone, Debug)]
struct Valued {
    ride: Ride,
    worth: u64,
}

impl Ride {
    fn latest(&self) -> u64 {
        self.arrives + (self.shares.len() as u64 - 1)
    }

    fn boards(&self, stop: u16, minute: u64) -> bool {
        self.from == stop && minute <= self.departs
    }
}

fn first_open(rides: &[Valued], stop: u16, minute: u64) -> Option<&Valued> {
    rides.iter().find(|v| v.ride.boards(stop, minute))
}

fn ready(q: Query, minute: u64) -> u64 {
    minute + q.gate_time() as u64
}

fn up(d: u64, n: u64) -> u64 {
    (n + d - 1) / d
}

fn in_ticks(q: Query, bound: u64, r: &Ride, behind: &[Valued]) -> Option<u64> {
    let shares = || r.shares.iter().enumerate().map(|(v, p)| (v as u64, *p as u64));
    if r.to == q.target as u16 {
        if bound != 0 && r.latest() > bound {
            return None;
        }
        return Some(256 * r.arrives + up(16, shares().map(|(v, p)| v * p).sum()));
    }
    first_open(behind, r.to, ready(q, r.latest()))?;
    let caught = |m| first_open(behind, r.to, ready(q, m)).map_or(0, |v| v.worth);
    Some(up(4096, shares().map(|(v, p)| p * caught(r.arrives + v)).sum()))
}

fn in_minutes(q: Query, r: &Ride, behind: &[Valued]) -> Option<u64> {
    if r.to == q.target as u16 {
        return Some(r.latest());
    }
    first_open(behind, r.to, ready(q, r.latest())).map(|v| v.worth)
}

fn chosen(t: &Timetable, target: u16, margin: u64, off: &dyn Fn(&Ride, &[Valued]) -> Option<u64>) -> Vec<Valued> {
    let mut weighed: Vec<(u16, Option<Valued>)> = Vec::new();
    let mut chosen: Vec<Valued> = Vec::new();
    for (i, r) in t.rows.iter().enumerate().rev() {
        let ride = Ride {
            board: i,
            leave: i,
            from: r.board,
            departs: r.departure as u64,
            to: r.land,
            arrives: r.arrival as u64,
            shares: t.tables[r.class as usize].clone(),
        };
        let get_off = off(&ride, &chosen).map(|worth| Valued { ride: ride.clone(), worth });
        let next = weighed.iter().rev().find(|w| w.0 == r.trip).and_then(|w| w.1.clone());
        let stay_on = next.map(|v| Valued {
            ride: Ride { board: i, from: r.board, departs: r.departure as u64, ..v.ride },
            worth: v.worth,
        });
        let best = match (get_off, stay_on) {
            (None, on) => on,
            (off, None) => off,
            (Some(off), Some(on)) => Some(if off.worth < on.worth { off } else { on }),
        };
        weighed.push((r.trip, best.clone()));
        if let Some(v) = best {
            let first = chosen.iter().find(|c| c.ride.from == r.board);
            if r.board != target && first.map_or(true, |f| v.worth + margin <= f.worth) {
                chosen.retain(|c| !(c.ride.from == r.board && c.ride.departs == v.ride.departs));
                chosen.insert(0, v);
            }
        }
    }
    chosen
}

pub fn earliest(t: &Timetable, q: Query) -> Option<u32> {
    let target = q.target as u16;
    let rides = chosen(t, target, 1, &|r, behind| in_minutes(q, r, behind));
    first_open(&rides, q.source as u16, ready(q, q.minute as u64)).map(|v| v.worth as u32)
}

pub fn planned(t: &Timetable, q: Query) -> Answer {
    let refused = Answer::Refused { number: 8, place: 0 };
    let target = q.target as u16;
    let Some(end) = earliest(t, q) else { return refused };
    let bound = if q.code == 0 { 0 } else { q.minute + q.code * (end - q.minute) / 4 };
    let all = chosen(t, target, q.ticks_to_gain() as u64, &|r, behind| in_ticks(q, bound as u64, r, behind));
    let start = ready(q, q.minute as u64);
    let Some(first) = first_open(&all, q.source as u16, start) else { return refused };
    let mut windows = vec![(q.source as u16, start, first.ride.departs)];
    let mut rides = Vec::new();
    let mut latest = 0;
    for (i, v) in all.iter().enumerate() {
        let r = &v.ride;
        if !windows.iter().any(|w| r.boards(w.0, w.1) && r.departs <= w.2) {
            continue;
        }
        rides.push([r.board as u32, r.leave as u32, v.worth as u32]);
        latest = latest.max(r.latest() as u32);
        if r.to != target {
            if let Some(safe) = first_open(&all[i + 1..], r.to, ready(q, r.latest())) {
                windows.push((r.to, ready(q, r.arrives), safe.ride.departs));
            }
        }
    }
    Answer::Plan { expected: first.worth as u32, latest, bound, rides }
}

// Document 01's rules of rows, by looking back: the first row that breaks one, with its number.
pub fn row_fault(t: &Timetable) -> Option<(u32, u32)> {
    for (i, r) in t.rows.iter().enumerate() {
        let own = r.board < t.stops
            && r.land < t.stops
            && r.board != r.land
            && r.departure < r.arrival
            && r.departure <= 10079
            && r.arrival <= 10079
            && r.trip < 2000
            && (r.class as usize) < t.tables.len();
        if !own {
            return Some((4, i as u32));
        }
        let back: &[Row] = &t.rows[..i];
        let falls = back.last().map_or(false, |p| r.departure < p.departure);
        let breaks = back
            .iter()
            .rev()
            .find(|p| p.trip == r.trip)
            .map_or(false, |p| p.land != r.board || r.departure < p.arrival);
        if falls || breaks {
            return Some((5, i as u32));
        }
    }
    None
}
