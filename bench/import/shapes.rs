// The texts that both sides are timed on: all are sound on day 1.
use crate::sailing::Dice;

pub struct Shape {
    pub name: String,
    pub text: Vec<u8>,
    pub lines: usize,
    pub stops: usize,
    pub rows: usize,
}

// One line of a text; times are minutes of the service day.
#[derive(Clone, Copy)]
pub struct Call {
    pub trip: usize,
    pub stop: usize,
    pub arrival: u64,
    pub departure: u64,
    pub sequence: usize,
}

// How trips and stops are called, by their numbers.
pub struct Ids {
    trips: Vec<Vec<u8>>,
    stops: Vec<Vec<u8>>,
}

impl Ids {
    // Ids as partners have them, of 5 to 11 bytes: one more of each kind than a file can have.
    pub fn usual() -> Ids {
        let trip = |k: usize| format!("{}-{}-{}", 1 + k % 40, ["WD", "SUM", "N"][k % 3], 100 + k).into_bytes();
        let stop = |k: usize| format!("{}_{}", ["pier", "quay", "landing", "p"][k % 4], 100 + k).into_bytes();
        Ids { trips: (0..2_001).map(trip).collect(), stops: (0..201).map(stop).collect() }
    }

    // Ids of 16 bytes, all but the last of them the same.
    fn alike() -> Ids {
        let last_bytes = || (0..=255u8).filter(|b| !b"\",\r\n".contains(b));
        let ids = |same: &[u8; 15]| last_bytes().map(|last| [&same[..], &[last]].concat()).collect();
        Ids { trips: ids(b"weekday-summer-"), stops: ids(b"harbour-street-") }
    }
}

pub const OURS: [&str; 5] = ["trip_id", "arrival_time", "departure_time", "stop_id", "stop_sequence"];

const OTHERS: [&str; 7] =
    ["stop_headsign", "pickup_type", "drop_off_type", "continuous_pickup", "continuous_drop_off", "shape_dist_traveled", "timepoint"];

fn clock(minute: u64) -> Vec<u8> {
    format!("{:02}:{:02}:00", minute / 60, minute % 60).into_bytes()
}

fn field(column: &str, call: &Call, ids: &Ids) -> Vec<u8> {
    match column {
        "trip_id" => ids.trips[call.trip].clone(),
        "arrival_time" => clock(call.arrival),
        "departure_time" => clock(call.departure),
        "stop_id" => ids.stops[call.stop].clone(),
        "stop_sequence" => call.sequence.to_string().into_bytes(),
        "stop_headsign" => b"Old Harbour via Market".to_vec(),
        "shape_dist_traveled" => format!("{}.{}", 731 * call.sequence, call.stop).into_bytes(),
        _ => b"0".to_vec(),
    }
}

pub fn text(columns: &[&str], calls: &[Call], ids: &Ids) -> Vec<u8> {
    let mut text = columns.join(",").into_bytes();
    text.push(b'\n');
    for call in calls {
        let fields: Vec<_> = columns.iter().map(|column| field(column, call, ids)).collect();
        text.extend(fields.join(&b','));
        text.push(b'\n');
    }
    text
}

// Trips one after the other, each from a minute after 5:00 to one up to 28:00.
pub fn trips(dice: &mut Dice, trips: usize, calls: usize, stops: usize) -> Vec<Call> {
    let mut all = Vec::new();
    for trip in 0..trips {
        let mut stop = dice.from(0, stops as u64) as usize;
        let mut arrival = dice.from(300, 1681 - 9 * calls as u64);
        for k in 0..calls {
            let departure = arrival + dice.from(0, 3);
            all.push(Call { trip, stop, arrival, departure, sequence: k + 1 });
            stop = (stop + dice.from(1, stops as u64) as usize) % stops;
            arrival = departure + dice.from(1, 8);
        }
    }
    all
}

fn shape(name: &str, columns: &[&str], calls: &[Call], ids: &Ids) -> Shape {
    let count = |of: fn(&Call) -> usize| calls.iter().map(of).max().map_or(0, |last| last + 1);
    let (trips, stops) = (count(|call| call.trip), count(|call| call.stop));
    Shape { name: name.to_string(), text: text(columns, calls, ids), lines: calls.len() + 1, stops, rows: calls.len() - trips }
}

pub fn all() -> Vec<Shape> {
    let mut dice = Dice(1);
    let usual = Ids::usual();
    let mut by_time = trips(&mut dice, 100, 21, 120);
    by_time.sort_by_key(|call| call.arrival);
    let ours_last = [&OTHERS[..], &OURS].concat();
    vec![
        shape("40 trips of 50 calls", &OURS, &trips(&mut dice, 40, 50, 150), &usual),
        shape("1,000 trips of 3 calls", &OURS, &trips(&mut dice, 1_000, 3, 200), &usual),
        shape("all trips interleaved by time", &OURS, &by_time, &usual),
        shape("ids of 16 bytes that differ in the last", &OURS, &trips(&mut dice, 200, 11, 200), &Ids::alike()),
        shape("12 columns with ours last", &ours_last, &trips(&mut dice, 100, 21, 150), &usual),
    ]
}

// Lines, rows, trips and stops doubled from each shape to the next.
fn doubled(ids: &Ids) -> Vec<Shape> {
    let mut dice = Dice(2);
    let sizes = [(125, 25), (250, 50), (500, 100), (1_000, 200)];
    sizes.map(|(count, stops)| shape(&format!("{count} trips, {stops} stops"), &OURS, &trips(&mut dice, count, 3, stops), ids)).into()
}

// Shapes that show how the time grows, by what their ids are like: ids that are the hardest to find again belong here too.
pub fn growths() -> Vec<(&'static str, Vec<Shape>)> {
    vec![("usual ids", doubled(&Ids::usual()))]
}
