// A timetable as the bench builds it, its bytes, and what both sides answer.

#[derive(Clone, Copy, Debug, PartialEq)]
pub struct Row {
    pub board: u16,
    pub land: u16,
    pub departure: u16,
    pub arrival: u16,
    pub trip: u16,
    pub class: u16,
}

#[derive(Clone, Debug)]
pub struct Timetable {
    pub stops: u16,
    pub rows: Vec<Row>,
    pub tables: Vec<Vec<u16>>,
}

#[derive(Clone, Copy, Debug)]
pub struct Query {
    pub source: u32,
    pub target: u32,
    pub minute: u32,
    pub code: u32,
    // none for the call that has no margin, which means 1
    pub margin: Option<u32>,
    // none for the calls that have no gate time, which means 0
    pub gate: Option<u32>,
}

impl Query {
    pub fn ticks_to_gain(&self) -> u32 {
        self.margin.unwrap_or(1)
    }

    pub fn gate_time(&self) -> u32 {
        self.gate.unwrap_or(0)
    }

    // When one who is at a stop from a minute on is ready to board there.
    pub fn ready(&self, minute: u32) -> u32 {
        minute + self.gate_time()
    }
}

#[derive(Clone, Debug, PartialEq)]
pub enum Answer {
    Plan { expected: u32, latest: u32, bound: u32, rides: Vec<[u32; 3]> },
    Refused { number: u32, place: u32 },
}

impl Timetable {
    pub fn bytes(&self, tables_first: bool) -> Vec<u8> {
        let mut rows = Vec::new();
        for r in &self.rows {
            for x in [r.board, r.land, r.departure, r.arrival, r.trip, r.class] {
                rows.extend(x.to_le_bytes());
            }
        }
        let mut tables = Vec::new();
        for shares in &self.tables {
            tables.extend((shares.len() as u16 - 1).to_le_bytes());
            for share in shares {
                tables.extend(share.to_le_bytes());
            }
        }
        let (mut file, row_offset, table_offset) = if tables_first {
            let at = tables.len();
            tables.extend(rows);
            (tables, at, 0)
        } else {
            let at = rows.len();
            rows.extend(tables);
            (rows, 0, at)
        };
        file.extend(1u16.to_le_bytes());
        file.extend(self.stops.to_le_bytes());
        file.extend((self.rows.len() as u16).to_le_bytes());
        file.extend((self.tables.len() as u16).to_le_bytes());
        file.extend((row_offset as u32).to_le_bytes());
        file.extend((table_offset as u32).to_le_bytes());
        file
    }
}

// A small generator of numbers, so that every run sees the same files.
pub struct Dice(pub u64);

impl Dice {
    pub fn roll(&mut self) -> u64 {
        self.0 = self.0.wrapping_add(0x9e37_79b9_7f4a_7c15);
        let mut z = self.0;
        z = (z ^ (z >> 30)).wrapping_mul(0xbf58_476d_1ce4_e5b9);
        z = (z ^ (z >> 27)).wrapping_mul(0x94d0_49bb_1331_11eb);
        z ^ (z >> 31)
    }

    // a number from `low` to before `high`
    pub fn from(&mut self, low: u64, high: u64) -> u64 {
        low + self.roll() % (high - low)
    }

    // a delay table with this maximum
    pub fn shares(&mut self, longest: usize) -> Vec<u16> {
        let mut shares = vec![0u16; longest + 1];
        shares[longest] = 1;
        let mut left = 4095u16;
        while left > 0 {
            let share = (self.from(1, 400) as u16).min(left);
            shares[self.from(0, longest as u64 + 1) as usize] += share;
            left -= share;
        }
        shares
    }
}
