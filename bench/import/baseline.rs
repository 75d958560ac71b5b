// A well-written Rust program for the same job: one pass over the lines, a HashMap of the ids of each kind, the rows in a Vec that is
// sorted, checked and written.
use crate::sailing::Row;
use std::collections::HashMap;

// Number and place.
pub type Refusal = (u32, u32);

pub struct Written {
    pub stops: u32,
    pub rows: u32,
    pub bytes: u32,
}

const ROOM: usize = 27_920;

const STOPS: usize = 200;

const TRIPS: usize = 2_000;

const ROWS: usize = 2_000;

const LAST_MINUTE: u64 = 10_079;

const LONGEST_ID: usize = 16;

// Where the columns stand.
struct Columns {
    trip: usize,
    arrival: usize,
    departure: usize,
    stop: usize,
    sequence: usize,
}

impl Columns {
    fn of(header: &[u8]) -> Option<Columns> {
        if header.contains(&b'"') {
            return None;
        }
        let place = |name: &[u8]| header.split(|b| *b == b',').position(|column| column == name);
        Some(Columns {
            trip: place(b"trip_id")?,
            arrival: place(b"arrival_time")?,
            departure: place(b"departure_time")?,
            stop: place(b"stop_id")?,
            sequence: place(b"stop_sequence")?,
        })
    }
}

// The fields of a line, in a Vec that is kept from line to line.
struct Fields<'a>(Vec<&'a [u8]>);

impl<'a> Fields<'a> {
    fn read(&mut self, line: &'a [u8]) {
        self.0.clear();
        self.0.extend(line.split(|b| *b == b','));
    }

    fn at(&self, place: usize) -> Option<&'a [u8]> {
        self.0.get(place).copied().filter(|field| !field.is_empty())
    }

    fn id_at(&self, place: usize) -> Option<&'a [u8]> {
        self.at(place).filter(|id| id.len() <= LONGEST_ID)
    }
}

fn whole(digits: &[u8]) -> Option<u32> {
    if digits.is_empty() {
        return None;
    }
    digits.iter().try_fold(0u32, |sum, digit| match digit {
        b'0'..=b'9' => sum.checked_mul(10)?.checked_add(u32::from(digit - b'0')),
        _ => None,
    })
}

fn minute(time: &[u8], midnight: u32) -> Option<u16> {
    let [hours @ .., b':', tens @ b'0'..=b'5', ones @ b'0'..=b'9', b':', b'0', b'0'] = time else { return None };
    let minutes = u32::from(tens - b'0') * 10 + u32::from(ones - b'0');
    let minute = u64::from(midnight + minutes) + 60 * u64::from(whole(hours)?);
    (minute <= LAST_MINUTE).then_some(minute as u16)
}

// The number of an id: the next one if the id is new.
fn number_of<'a>(numbers: &mut HashMap<&'a [u8], usize>, id: &'a [u8]) -> usize {
    let next = numbers.len();
    *numbers.entry(id).or_insert(next)
}

#[derive(Clone, Copy)]
struct Call {
    stop: u16,
    departure: u16,
    sequence: u16,
}

struct Reading<'a> {
    stops: HashMap<&'a [u8], usize>,
    trips: HashMap<&'a [u8], usize>,
    // of each trip
    last_calls: Vec<Call>,
    rows: Vec<Row>,
}

impl<'a> Reading<'a> {
    fn new() -> Self {
        Reading {
            stops: HashMap::with_capacity(STOPS),
            trips: HashMap::with_capacity(TRIPS),
            last_calls: Vec::with_capacity(TRIPS),
            rows: Vec::with_capacity(ROWS),
        }
    }

    // Takes the call of one line, or says the number of its fault.
    fn take(&mut self, fields: &Fields<'a>, columns: &Columns, midnight: u32) -> Result<(), u32> {
        let trip = fields.id_at(columns.trip).ok_or(11u32)?;
        let arrival = fields.at(columns.arrival).ok_or(11u32)?;
        let departure = fields.at(columns.departure).ok_or(11u32)?;
        let stop = fields.id_at(columns.stop).ok_or(11u32)?;
        let sequence = fields.at(columns.sequence).ok_or(11u32)?;

        let arrival = minute(arrival, midnight).ok_or(12u32)?;
        let departure = minute(departure, midnight).filter(|departure| *departure >= arrival).ok_or(12u32)?;

        let sequence = whole(sequence).and_then(|number| u16::try_from(number).ok()).ok_or(13u32)?;
        let trip = number_of(&mut self.trips, trip);
        let last = self.last_calls.get(trip).copied();
        if last.is_some_and(|last| sequence <= last.sequence) {
            return Err(13);
        }

        let stop = number_of(&mut self.stops, stop);
        if stop == STOPS || trip == TRIPS || (last.is_some() && self.rows.len() == ROWS) {
            return Err(9);
        }
        let call = Call { stop: stop as u16, departure, sequence };
        match last {
            None => self.last_calls.push(call),
            Some(Call { stop: board, departure, .. }) => {
                self.rows.push(Row { board, land: call.stop, departure, arrival, trip: trip as u16, class: 0 });
                self.last_calls[trip] = call;
            }
        }
        Ok(())
    }
}

// A line without its end. The end of the file ends one too, and a CR belongs to an LF alone.
fn without_end(line: &[u8]) -> &[u8] {
    match line.strip_suffix(b"\n") {
        Some(line) => line.strip_suffix(b"\r").unwrap_or(line),
        None => line,
    }
}

fn read(text: &[u8], midnight: u32) -> Result<Reading<'_>, u32> {
    let mut lines = text.split_inclusive(|b| *b == b'\n').map(without_end);
    let columns = lines.next().and_then(Columns::of).ok_or(11u32)?;
    let mut reading = Reading::new();
    let mut fields = Fields(Vec::new());
    for line in lines {
        if line.contains(&b'"') {
            return Err(11);
        }
        fields.read(line);
        reading.take(&fields, &columns, midnight)?;
    }
    Ok(reading)
}

// What document 01's check can find in such a file: too few stops, or a row that breaks a rule.
fn check(rows: &[Row], stops: usize, trips: usize) -> Result<(), Refusal> {
    if stops < 2 {
        return Err((1, 0));
    }
    let mut last: Vec<Option<&Row>> = vec![None; trips];
    for (i, row) in rows.iter().enumerate() {
        if row.board == row.land || row.departure >= row.arrival {
            return Err((4, i as u32));
        }
        let back = last[row.trip as usize].replace(row);
        if back.is_some_and(|back| back.land != row.board || row.departure < back.arrival) {
            return Err((5, i as u32));
        }
    }
    Ok(())
}

fn put(bytes: &mut [u8], numbers: &[u16]) {
    for (pair, number) in bytes.chunks_exact_mut(2).zip(numbers) {
        pair.copy_from_slice(&number.to_le_bytes());
    }
}

// The rows, the class block and the trailer, whose offsets are below 65,536: their upper halves are 0.
fn write(rows: &[Row], stops: u32, out: &mut [u8]) -> usize {
    let (row_bytes, rest) = out.split_at_mut(12 * rows.len());
    for (bytes, row) in row_bytes.chunks_exact_mut(12).zip(rows) {
        put(bytes, &[row.board, row.land, row.departure, row.arrival, row.trip, row.class]);
    }
    let end = [0, 4096, 1, stops as u16, rows.len() as u16, 1, 0, 0, row_bytes.len() as u16, 0];
    put(rest, &end);
    row_bytes.len() + 2 * end.len()
}

pub fn import(text: &[u8], day: u32, out: &mut [u8]) -> Result<Written, Refusal> {
    if !(1..=7).contains(&day) {
        return Err((6, 0));
    }
    if out.len() < ROOM {
        return Err((7, 0));
    }
    let mut reading = read(text, 1440 * (day - 1)).map_err(|number| (number, 0))?;
    reading.rows.sort_by_key(|row| (row.departure, row.trip));
    check(&reading.rows, reading.stops.len(), reading.trips.len())?;
    let stops = reading.stops.len() as u32;
    let bytes = write(&reading.rows, stops, out) as u32;
    Ok(Written { stops, rows: reading.rows.len() as u32, bytes })
}
