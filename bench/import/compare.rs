// Texts with and without faults: the verified import and the Rust program give the same answer and leave the same bytes.
use crate::planner::Trips;
use crate::sailing::Dice;
use crate::shapes::{self, Ids, Shape, OURS};
use crate::{baseline, planner, verified};

const DIRT: u8 = 0xa5;

pub const ROOM: usize = 27_920;

// The answer of both sides. A file that was written passes the check of the Rust planner; bytes that are not of it stay as they were, after
// a refusal all of them.
pub fn agreed(text: &[u8], day: u32, room: usize) -> [u32; 6] {
    let (mut ours, mut theirs) = (vec![DIRT; room], vec![DIRT; room]);
    let answer = verified::import(text, day, &mut ours);
    let wanted = match baseline::import(text, day, &mut theirs) {
        Ok(written) => [0, 0, written.stops, written.rows, 1, written.bytes],
        Err((number, place)) => [number, place, 0, 0, 0, 0],
    };
    let said = || format!("day {day}, room {room}:\n{}", String::from_utf8_lossy(text));
    assert_eq!(answer, wanted, "{}", said());
    assert!(ours == theirs, "{}", said());
    let (file, rest) = ours.split_at(answer[5] as usize);
    assert!(answer[0] != 0 || planner::check(file, Trips::LookBack).is_ok(), "{}", said());
    assert!(rest.iter().all(|b| *b == DIRT), "{}", said());
    answer
}

// The shape as it is, with each end of its lines, on days and in rooms on both sides of a limit, and with single damages.
pub fn shape(s: &Shape) {
    let answer = agreed(&s.text, 1, ROOM);
    assert_eq!(answer, [0, 0, s.stops as u32, s.rows as u32, 1, 12 * s.rows as u32 + 20], "{}", s.name);
    let both = ended_by_both(&s.text);
    assert_eq!(agreed(&both, 1, ROOM), answer, "{}", s.name);
    assert_eq!(agreed(&s.text[..s.text.len() - 1], 1, ROOM), answer, "{}", s.name);
    // a CR that no LF follows
    agreed(&both[..both.len() - 1], 1, ROOM);
    for day in [0, 2, 7, 8, u32::MAX] {
        agreed(&s.text, day, ROOM);
    }
    for room in [0, ROOM - 1, ROOM + 1] {
        agreed(&s.text, 1, room);
    }
    let mut dice = Dice(5);
    for _ in 0..50 {
        let mut text = s.text.clone();
        damage(&mut dice, &mut text);
        agreed(&text, 1, ROOM);
    }
}

// CR LF for every LF.
fn ended_by_both(text: &[u8]) -> Vec<u8> {
    text.split(|b| *b == b'\n').collect::<Vec<_>>().join(&b"\r\n"[..])
}

// Trips, calls of each and stops, at a limit of the file and one past it.
const LIMITS: [(usize, usize, usize); 6] = [(20, 10, 200), (21, 10, 201), (2_000, 1, 20), (2_001, 1, 20), (500, 5, 20), (667, 4, 20)];

// The texts that are just within a limit and just past it, and those that have no call.
pub fn limits() {
    let mut dice = Dice(3);
    let ids = Ids::usual();
    let numbers = LIMITS.map(|(trips, calls, stops)| {
        let mut calls = shapes::trips(&mut dice, trips, calls, stops);
        calls.iter_mut().enumerate().for_each(|(k, call)| call.stop = k % stops);
        agreed(&shapes::text(&OURS, &calls, &ids), 1, ROOM)[0]
    });
    assert_eq!(numbers, [0, 9, 0, 9, 0, 9]);
    let header = shapes::text(&OURS, &[], &ids);
    let without_calls = [&b""[..], b"\n", b"\n\n", &header[..header.len() - 1], &header];
    assert_eq!(without_calls.map(|text| agreed(text, 1, ROOM)[0]), [11, 11, 11, 1, 1]);
}

// Fields on both sides of a rule, and some that a number of 16, 32 or 64 bits takes for small ones.
const FIELDS: [&str; 28] = [
    "",
    "1-WD-100",
    "an id of 16 byte",
    "an id of 17 bytes",
    "\"p_103\"",
    "0",
    "65535",
    "65536",
    "0000000000000000000001",
    "65543",
    "4294967303",
    "18446744073709551623",
    "+1",
    "1.0",
    "7:05:00",
    "0000000000000000000007:05:00",
    "16391:05:00",
    "1073741831:05:00",
    "4294967303:05:00",
    "18446744073709551623:05:00",
    "167:59:00",
    "168:00:00",
    "12:60:00",
    "12:00:01",
    "12:0:00",
    ":00:00",
    "12:00",
    "stop_id",
];

const BYTES: &[u8] = b"\r\n,\":0159a\0\xff";

// Another field in the place of the one that has or ends at this byte.
fn change_field(dice: &mut Dice, text: &mut Vec<u8>, at: usize) {
    let ends = |b: &u8| b",\r\n".contains(b);
    let from = text[..at].iter().rposition(ends).map_or(0, |end| end + 1);
    let to = text[at..].iter().position(ends).map_or(text.len(), |length| at + length);
    let field = FIELDS[dice.from(0, FIELDS.len() as u64) as usize];
    text.splice(from..to, field.bytes());
}

fn damage(dice: &mut Dice, text: &mut Vec<u8>) {
    let at = dice.from(0, text.len() as u64) as usize;
    let byte = BYTES[dice.from(0, BYTES.len() as u64) as usize];
    match dice.from(0, 16) {
        0 => text[at] = byte,
        1 => text.insert(at, byte),
        2 => text.truncate(at + 1),
        3 if text.len() > 1 => {
            text.remove(at);
        }
        _ => change_field(dice, text, at),
    }
}

// Few trips, sometimes with a call at another minute or another stop; our columns in some order, with another one or one of them twice.
fn small(dice: &mut Dice, ids: &Ids) -> Vec<u8> {
    let (trips, calls, stops) = (dice.from(1, 5) as usize, dice.from(1, 6) as usize, dice.from(2, 7) as usize);
    let mut calls = shapes::trips(dice, trips, calls, stops);
    let k = dice.from(0, calls.len() as u64) as usize;
    match dice.from(0, 4) {
        0 => calls[k].stop = dice.from(0, stops as u64) as usize,
        1 => {
            let later = dice.from(0, 40);
            calls[k].arrival = calls[k].arrival + later - 20;
            calls[k].departure = calls[k].departure + later - 20;
        }
        _ => {}
    }
    if dice.from(0, 2) == 0 {
        calls.sort_by_key(|call| call.arrival);
    }
    let mut columns = OURS.to_vec();
    columns.rotate_left(dice.from(0, 5) as usize);
    columns.insert(dice.from(0, 6) as usize, ["timepoint", "stop_headsign", "stop_id", "arrival_time"][dice.from(0, 4) as usize]);
    shapes::text(&columns, &calls, ids)
}

// Day 1 half of the time.
const DAYS: [u32; 16] = [1, 1, 1, 1, 1, 1, 1, 1, 2, 3, 4, 5, 6, 7, 0, 8];

// How often each number was answered on this many small texts, each with up to three damages, on some day.
pub fn damaged(texts: u64) -> [u64; 14] {
    let mut dice = Dice(4);
    let ids = Ids::usual();
    let mut counts = [0; 14];
    for _ in 0..texts {
        let mut text = small(&mut dice, &ids);
        if dice.from(0, 4) == 0 {
            text = ended_by_both(&text);
        }
        for _ in 0..dice.from(0, 4) {
            damage(&mut dice, &mut text);
        }
        let day = DAYS[dice.from(0, DAYS.len() as u64) as usize];
        let room = ROOM - (dice.from(0, 16) == 0) as usize;
        counts[agreed(&text, day, room)[0] as usize] += 1;
    }
    counts
}
