// Many small files: the verified planner, the Rust program and the transcribed definitions agree, and
// every lent slice holds afterwards what document 01 says.
use crate::sailing::{Answer, Dice, Query, Row, Timetable};
use crate::verified::NOW;
use crate::{baseline, definitions};

const DIRT: u32 = 0xdead_beef;

// None, and both sides of the range.
const GATES: [Option<u32>; 9] = [None, None, None, Some(0), Some(1), Some(3), Some(8), Some(30), Some(31)];

const MARGINS: [Option<u32>; 9] = [None, None, Some(0), Some(1), Some(2), Some(40), Some(256), Some(2_560), Some(2_561)];

// Few trips most of the time; now and then many, so that lists of chosen rows grow long.
fn timetable(dice: &mut Dice) -> Timetable {
    let stops = dice.from(2, 7) as u16;
    let most = [12, 12, 12, 150][dice.from(0, 4) as usize];
    let trips = dice.from(1, most);
    let days = dice.from(20, 200);
    let classes = dice.from(1, 4);
    let tables = (0..classes).map(|_| {
        let longest = dice.from(0, 12) as usize;
        dice.shares(longest)
    });
    let tables: Vec<_> = tables.collect();
    let mut rows = Vec::new();
    for trip in 0..trips {
        let mut at = dice.from(0, stops as u64) as u16;
        let mut minute = dice.from(0, days);
        for _ in 0..dice.from(1, 5) {
            let land = (at + dice.from(1, stops as u64) as u16) % stops;
            let arrival = minute + dice.from(1, 20);
            rows.push(Row {
                board: at,
                land,
                departure: minute as u16,
                arrival: arrival as u16,
                trip: trip as u16 * 7,
                class: dice.from(0, classes) as u16,
            });
            at = land;
            minute = arrival + dice.from(0, 6);
        }
    }
    rows.sort_by_key(|r| r.departure);
    Timetable { stops, rows, tables }
}

fn judged(t: &Timetable, q: Query) -> Answer {
    if let Some((number, place)) = definitions::row_fault(t) {
        return Answer::Refused { number, place };
    }
    let in_range = q.source < t.stops as u32
        && q.target < t.stops as u32
        && q.source != q.target
        && q.minute <= 10_079
        && (q.code == 0 || (4..=16).contains(&q.code))
        && (1..=2_560).contains(&q.ticks_to_gain())
        && q.gate_time() <= 30;
    if !in_range {
        return Answer::Refused { number: 6, place: 0 };
    }
    definitions::planned(t, q)
}

// What is left in a slice of `DIRT` whose first `room` numbers were cleared, or not.
fn left_clean(work: &[u32], room: usize, cleared: bool) -> bool {
    work[..room].iter().all(|x| *x == if cleared { 0 } else { DIRT }) && work[room..].iter().all(|x| *x == DIRT)
}

pub fn compare(files: u64, seed: u64) -> (u64, u64) {
    let mut dice = Dice(seed);
    let (mut asked, mut plans) = (0, 0);
    for _ in 0..files {
        let mut t = timetable(&mut dice);
        if dice.from(0, 8) == 0 && !t.rows.is_empty() {
            let i = dice.from(0, t.rows.len() as u64) as usize;
            let x = dice.from(0, 30) as u16;
            match dice.from(0, 6) {
                0 => t.rows[i].board = x,
                1 => t.rows[i].land = x,
                2 => t.rows[i].departure = x,
                3 => t.rows[i].arrival = x,
                4 => t.rows[i].trip = x,
                _ => t.rows[i].class = x,
            }
        }
        let file = t.bytes(dice.from(0, 2) == 0);
        for _ in 0..6 {
            let q = Query {
                source: dice.from(0, t.stops as u64 + 1).min(t.stops as u64) as u32,
                target: dice.from(0, t.stops as u64) as u32,
                minute: dice.from(0, 60) as u32,
                code: [0, 0, 4, 5, 7, 16, 3, 17][dice.from(0, 8) as usize],
                margin: MARGINS[dice.from(0, 9) as usize],
                gate: GATES[dice.from(0, 9) as usize],
            };
            let n = t.rows.len();
            let room = 4 * n + 2500;
            let mut work = vec![DIRT; room + dice.from(0, 3) as usize];
            let mut rides = vec![DIRT; 3 * n + dice.from(0, 3) as usize];
            let ours = NOW.answer(&file, q, &mut work, &mut rides);
            let wanted = judged(&t, q);
            assert_eq!(ours, wanted, "{t:?} {q:?}");
            assert_eq!(baseline::answer(&file, q), wanted, "{t:?} {q:?}");
            let (count, cleared) = match &wanted {
                Answer::Plan { rides, .. } => (rides.len(), true),
                Answer::Refused { number, .. } => (0, *number == 8),
            };
            assert!(left_clean(&work, room, cleared) && rides[3 * count..].iter().all(|x| *x == DIRT));
            let short = work.len().min(room - 1);
            let mut work = vec![DIRT; room];
            let refused = match &wanted {
                Answer::Refused { number, place } if *number < 7 => [*number, *place],
                _ => [7, 0],
            };
            let a = NOW.plan(&file, q, &mut work[..short], &mut rides);
            assert_eq!([a[0], a[1]], refused);
            if n > 0 {
                let a = NOW.plan(&file, q, &mut work, &mut rides[..3 * n - 1]);
                assert_eq!([a[0], a[1]], refused);
            }
            assert!(left_clean(&work, room, false));
            if let Answer::Plan { .. } | Answer::Refused { number: 8, .. } = wanted {
                let e = definitions::earliest(&t, q).map_or([8, 0, 0], |e| [0, 0, e]);
                assert_eq!(NOW.earliest(&file, q, &mut work), e, "{t:?} {q:?}");
                assert!(left_clean(&work, room, true));
            }
            asked += 1;
            plans += matches!(wanted, Answer::Plan { .. }) as u64;
        }
    }
    (asked, plans)
}
