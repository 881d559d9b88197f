//! Opening blocks, ledgers and interval files as fields, and their bytes.
//!
//! Counts, offsets and lengths are fields of their own, so that a test can set
//! them against what is really there. What does not fit is not written.
//! Sizes and limits stand here once; the reference has its own.

/// The bytes of an opening block before any ids, without and with a year, of a point and of a schedule.
pub const OPENING_BYTES: usize = 20;
pub const YEAR_OPENING_BYTES: usize = 24;
pub const POINT_BYTES: usize = 8;
pub const SCHEDULE_BYTES: usize = 12;

/// The longest opening block and the longest file of either format.
pub const BLOCK_MOST: usize = 4096;
pub const FILE_MOST: usize = Format::Two.most();

/// The most ids of a block; rows, points and schedules of a file; points of a curve; and schedules of a row.
pub const IDS_MOST: usize = 512;
pub const ROWS_MOST: usize = 512;
pub const POINTS_MOST: usize = 2048;
pub const SCHEDULES_MOST: usize = 1024;
pub const CURVE_POINTS_MOST: usize = 10;
pub const ROW_SCHEDULES_MOST: usize = 4;

/// The kinds of a schedule.
pub const MARKET: u32 = 1;
pub const PLS: u32 = 2;
pub const COST: u32 = 3;

/// The largest Net CONE, in cents per MW-day.
pub const NET_CONE_MOST: u32 = 200_000;

/// The largest kW of a row, price and imports; where signed, also the least with its sign turned.
pub const KW_MOST: u32 = 4_000_000;
pub const PRICE_MOST: i32 = 1_000_000;
pub const IMPORTS_MOST: i32 = 40_000_000;

/// The largest pool and the largest credited sum of an account, in cents.
pub const POOL_MOST: u64 = 1_099_511_627_775;
pub const CREDITED_MOST: u64 = 224_870_400_000_000;

/// The intervals of a day.
pub const DAY_INTERVALS: u32 = 288;

/// The formats of an opening block, without and with a year.
pub const PLAIN_FORMAT: u32 = 1;
pub const YEAR_FORMAT: u32 = 2;

/// The year that is charged half, and all years that a block can name.
pub const HALVED_YEAR: u32 = 2016;
pub const YEARS: [u32; 7] = [HALVED_YEAR, 2018, 2019, 2020, 2021, 2022, 2023];

/// The ledger bytes of so many accounts.
pub fn ledger_bytes(accounts: usize) -> usize {
    64 + 32 * accounts
}

/// The result bytes of so many rows.
pub fn result_bytes(rows: usize) -> usize {
    64 + 64 * rows
}

/// The terms of a delivery year, and the calendar year in which it starts, 0 where none is named.
#[derive(Clone, Copy, Debug, Default, PartialEq)]
pub struct Terms {
    pub net_cone: u64,
    pub days: u64,
    pub year: u64,
}

impl Terms {
    /// Those of an opening block, if it has its words.
    pub fn of_opening(block: &[u8]) -> Option<Self> {
        let word = |index: usize| word_at(block, 4 * index).map(u64::from);
        Some(Terms {
            net_cone: word(1)?,
            days: word(2)?,
            year: match word_at(block, 0)? {
                YEAR_FORMAT => word(5)?,
                _ => 0,
            },
        })
    }

    /// Those of a ledger, if it has its words.
    pub fn of_ledger(ledger: &[u8]) -> Option<Self> {
        Some(Terms {
            net_cone: long_at(ledger, 1)?,
            days: long_at(ledger, 2)?,
            year: long_at(ledger, 7)?,
        })
    }

    /// How much less is charged, and may be, than in other years.
    fn part(&self) -> u64 {
        1 + u64::from(self.year == u64::from(HALVED_YEAR))
    }

    /// What kW times Net CONE times days is divided by for a charge in cents.
    pub fn charge_divisor(&self) -> u64 {
        360_000 * self.part()
    }

    /// So many kW times Net CONE times days.
    fn parts(&self, kw: u64) -> u128 {
        u128::from(self.net_cone) * u128::from(self.days) * u128::from(kw)
    }

    /// The most cents that an account may be charged for a commitment.
    pub fn limit(&self, commitment: u64) -> u64 {
        (3 * self.parts(commitment) / u128::from(2_000 * self.part())) as u64
    }

    /// The cents of a shortfall before any limit: the nearest, the upper ones at half a cent.
    pub fn full_charge(&self, shortfall: u64) -> u64 {
        let divisor = u128::from(self.charge_divisor());
        ((2 * self.parts(shortfall) + divisor) / (2 * divisor)) as u64
    }
}

/// Writes bytes at an offset, as far as the buffer reaches.
fn put(buffer: &mut [u8], at: usize, bytes: &[u8]) {
    for (index, byte) in bytes.iter().enumerate() {
        if let Some(place) = buffer.get_mut(at + index) {
            *place = *byte;
        }
    }
}

/// Writes 32-bit words at an offset.
pub fn put_words(buffer: &mut [u8], at: usize, words: &[u32]) {
    for (index, word) in words.iter().enumerate() {
        put(buffer, at + 4 * index, &word.to_le_bytes());
    }
}

/// Writes 64-bit words at an offset.
pub fn put_longs(buffer: &mut [u8], at: usize, words: &[u64]) {
    for (index, word) in words.iter().enumerate() {
        put(buffer, at + 8 * index, &word.to_le_bytes());
    }
}

/// The 32-bit word at an offset, if it is wholly there.
pub fn word_at(buffer: &[u8], at: usize) -> Option<u32> {
    let bytes = buffer.get(at..at.checked_add(4)?)?;
    Some(u32::from_le_bytes(bytes.try_into().ok()?))
}

/// The 64-bit word with this number, if it is wholly there.
pub fn long_at(buffer: &[u8], word: usize) -> Option<u64> {
    let bytes = buffer.get(8 * word..8 * word + 8)?;
    Some(u64::from_le_bytes(bytes.try_into().ok()?))
}

/// Two digits for each byte.
pub fn hex<'a>(bytes: impl IntoIterator<Item = &'a u8>) -> String {
    let digits = |byte| format!("{byte:02x}");
    bytes.into_iter().map(digits).collect()
}

/// An opening block.
#[derive(Clone, Debug)]
pub struct Opening {
    pub words: [u32; 5],
    /// Word 5, if there is one.
    pub year: Option<u32>,
    pub ids: Vec<u32>,
    pub ids_at: usize,
    pub length: usize,
}

impl Opening {
    /// A block without a year, with the ids right behind the first words.
    pub fn new(net_cone: u32, days: u32, ids: &[u32]) -> Self {
        let mut opening = Opening {
            words: [PLAIN_FORMAT, net_cone, days, ids.len() as u32, 0],
            year: None,
            ids: ids.to_vec(),
            ids_at: 0,
            length: 0,
        };
        opening.place(opening.front(), 0);
        opening
    }

    /// A block with this year, and the ids right behind it.
    pub fn of_year(year: u32, net_cone: u32, days: u32, ids: &[u32]) -> Self {
        let mut opening = Opening::new(net_cone, days, ids);
        opening.name_year(year);
        opening.place(opening.front(), 0);
        opening
    }

    /// Names a year, wherever the ids are.
    pub fn name_year(&mut self, year: u32) {
        self.words[0] = YEAR_FORMAT;
        self.year = Some(year);
    }

    /// The bytes of the first words.
    pub fn front(&self) -> usize {
        match self.year {
            None => OPENING_BYTES,
            Some(_) => YEAR_OPENING_BYTES,
        }
    }

    /// Puts the ids at an offset and leaves a gap behind them.
    pub fn place(&mut self, ids_at: usize, gap: usize) {
        self.ids_at = ids_at;
        self.words[4] = ids_at as u32;
        self.length = ids_at + 4 * self.ids.len() + gap;
    }

    /// The block, with zeros in its gaps.
    pub fn bytes(&self) -> Vec<u8> {
        self.over(vec![0; self.length])
    }

    /// The block, with gaps as they are in the buffer.
    pub fn over(&self, mut buffer: Vec<u8>) -> Vec<u8> {
        put_words(&mut buffer, self.ids_at, &self.ids);
        put_words(&mut buffer, 0, &self.words);
        put_words(&mut buffer, OPENING_BYTES, self.year.as_slice());
        buffer
    }
}

/// A ledger; an account is id, largest commitment, charged, credited.
#[derive(Clone, Debug)]
pub struct Ledger {
    pub words: [u64; 8],
    pub accounts: Vec<[u64; 4]>,
    pub length: usize,
}

impl Ledger {
    /// A ledger as opening leaves it, without a year.
    pub fn new(net_cone: u32, days: u32, ids: &[u32]) -> Self {
        let count = ids.len() as u64;
        Ledger {
            words: [1, net_cone.into(), days.into(), 0, 0, count, 8, 0],
            accounts: ids.iter().map(|id| [u64::from(*id), 0, 0, 0]).collect(),
            length: ledger_bytes(ids.len()),
        }
    }

    /// The terms that its words give.
    pub fn terms(&self) -> Terms {
        let [_, net_cone, days, .., year] = self.words;
        Terms {
            net_cone,
            days,
            year,
        }
    }

    /// The ledger, with zeros behind the accounts.
    pub fn bytes(&self) -> Vec<u8> {
        self.over(vec![0; self.length])
    }

    /// The ledger over a buffer, whose bytes stay behind the accounts.
    pub fn over(&self, mut buffer: Vec<u8>) -> Vec<u8> {
        put_longs(&mut buffer, 0, &self.words);
        for (index, account) in self.accounts.iter().enumerate() {
            put_longs(&mut buffer, ledger_bytes(index), account);
        }
        buffer
    }
}

/// How the bytes of an interval file are laid out.
#[derive(Clone, Copy, Debug, PartialEq)]
pub enum Format {
    One,
    Two,
}

impl Format {
    pub const BOTH: [Format; 2] = [Format::One, Format::Two];

    /// The layout by which a file is read: that of its first word, 1 where there is no such format.
    pub fn of(file: &[u8]) -> Self {
        match word_at(file, 0) {
            Some(2) => Format::Two,
            _ => Format::One,
        }
    }

    /// Word 0 of a file.
    pub const fn word(self) -> u32 {
        match self {
            Format::One => 1,
            Format::Two => 2,
        }
    }

    /// The words of a header.
    const fn header_words(self) -> usize {
        match self {
            Format::One => 10,
            Format::Two => 12,
        }
    }

    /// The words of a row.
    const fn row_words(self) -> usize {
        match self {
            Format::One => 14,
            Format::Two => 15,
        }
    }

    /// The tables of a file: rows and points, and schedules.
    pub const fn tables(self) -> usize {
        match self {
            Format::One => 2,
            Format::Two => 3,
        }
    }

    /// The bytes of a header, which are the least of a file.
    pub const fn header_bytes(self) -> usize {
        4 * self.header_words()
    }

    /// The bytes of a row.
    pub const fn row_bytes(self) -> usize {
        4 * self.row_words()
    }

    /// The most bytes of a file.
    pub const fn most(self) -> usize {
        match self {
            Format::One => 49_152,
            Format::Two => 61_440,
        }
    }
}

/// One row of an interval file, by names.
#[derive(Clone, Copy, Debug, Default)]
pub struct Row {
    pub id: u32,
    pub kind: u32,
    pub committed: u32,
    pub owned: u32,
    pub metered: i32,
    pub adjustment: i32,
    pub planned: u32,
    pub forced: u32,
    pub maximum: u32,
    pub minimum: u32,
    pub online: u32,
    pub lmp: i32,
    /// Of points in format 1, of schedules in format 2.
    pub first: u32,
    pub count: u32,
    /// Of format 2 alone.
    pub dispatched: u32,
}

/// The words of a row; format 1 has no use for the last.
pub type RowWords = [u32; 15];

impl Row {
    /// The words of the row.
    pub fn words(&self) -> RowWords {
        [
            self.id,
            self.kind,
            self.committed,
            self.owned,
            self.metered as u32,
            self.adjustment as u32,
            self.planned,
            self.forced,
            self.maximum,
            self.minimum,
            self.online,
            self.lmp as u32,
            self.first,
            self.count,
            self.dispatched,
        ]
    }
}

/// The two words of a point.
pub fn point(price: i32, kw: u32) -> [u32; 2] {
    [price as u32, kw]
}

/// An interval file.
#[derive(Clone, Debug)]
pub struct IntervalFile {
    /// How its bytes are laid out, whatever word 0 says.
    pub format: Format,
    /// Format 1 has no use for the last two words.
    pub head: [u32; 12],
    pub rows: Vec<RowWords>,
    pub points: Vec<[u32; 2]>,
    /// Kind, first point and number of points; written in format 2 alone.
    pub schedules: Vec<[u32; 3]>,
    pub rows_at: usize,
    pub points_at: usize,
    pub schedules_at: usize,
    pub length: usize,
}

impl IntervalFile {
    /// A file of format 1 without region-wide event, its tables behind the header, each behind the one before.
    pub fn new(
        net_cone: u32,
        days: u32,
        interval: u32,
        rows: Vec<RowWords>,
        points: Vec<[u32; 2]>,
    ) -> Self {
        let mut file = IntervalFile {
            format: Format::One,
            head: [1, interval, net_cone, days, 0, 0, 0, 0, 0, 0, 0, 0],
            rows,
            points,
            schedules: Vec::new(),
            rows_at: 0,
            points_at: 0,
            schedules_at: 0,
            length: 0,
        };
        file.place_plainly();
        file
    }

    /// The same rows and points in format 2, the rows' words as they are, with these schedules.
    pub fn with_schedules(mut self, schedules: Vec<[u32; 3]>) -> Self {
        (self.format, self.head[0]) = (Format::Two, Format::Two.word());
        self.schedules = schedules;
        self.place_plainly();
        self
    }

    /// The file of format 1 in format 2: each row with points has a market schedule, on which it was dispatched.
    pub fn in_format_2(mut self) -> Self {
        let mut schedules = Vec::new();
        for row in self.rows.iter_mut().filter(|row| row[13] > 0) {
            schedules.push([MARKET, row[12], row[13]]);
            (row[12], row[13]) = (schedules.len() as u32 - 1, 1);
        }
        self.with_schedules(schedules)
    }

    /// The bytes of the rows.
    pub fn row_bytes(&self) -> usize {
        self.format.row_bytes() * self.rows.len()
    }

    /// The bytes of the points.
    pub fn point_bytes(&self) -> usize {
        POINT_BYTES * self.points.len()
    }

    /// The bytes of the schedules; format 1 has none.
    pub fn schedule_bytes(&self) -> usize {
        match self.format {
            Format::One => 0,
            Format::Two => SCHEDULE_BYTES * self.schedules.len(),
        }
    }

    /// The bytes of rows, points and schedules.
    pub fn table_bytes(&self) -> [usize; 3] {
        [self.row_bytes(), self.point_bytes(), self.schedule_bytes()]
    }

    /// Puts the rows behind the header, the points behind the rows and the schedules behind the points.
    pub fn place_plainly(&mut self) {
        self.place_from(self.format.header_bytes());
    }

    /// Puts rows, points and schedules behind each other from an offset on.
    pub fn place_from(&mut self, rows_at: usize) {
        let [rows, points, schedules] = self.table_bytes();
        let points_at = rows_at + rows;
        let schedules_at = points_at + points;
        self.place_three([rows_at, points_at, schedules_at], schedules_at + schedules);
    }

    /// Puts rows, points and schedules at offsets and says so in the header.
    pub fn place_three(&mut self, [rows_at, points_at, schedules_at]: [usize; 3], length: usize) {
        self.place(rows_at, points_at, length);
        self.schedules_at = schedules_at;
        self.head[10] = self.schedules.len() as u32;
        self.head[11] = schedules_at as u32;
    }

    /// Puts rows and points at offsets and says so in the header.
    pub fn place(&mut self, rows_at: usize, points_at: usize, length: usize) {
        self.rows_at = rows_at;
        self.points_at = points_at;
        self.length = length;
        self.head[6] = self.rows.len() as u32;
        self.head[7] = rows_at as u32;
        self.head[8] = self.points.len() as u32;
        self.head[9] = points_at as u32;
    }

    /// The file, with zeros in its gaps.
    pub fn bytes(&self) -> Vec<u8> {
        self.over(vec![0; self.length])
    }

    /// The file, with gaps as they are in the buffer.
    pub fn over(&self, mut buffer: Vec<u8>) -> Vec<u8> {
        let format = self.format;
        if format == Format::Two {
            put_entries(
                &mut buffer,
                self.schedules_at,
                SCHEDULE_BYTES,
                &self.schedules,
            );
        }
        put_entries(&mut buffer, self.points_at, POINT_BYTES, &self.points);
        let rows: Vec<&[u32]> = self
            .rows
            .iter()
            .map(|row| &row[..format.row_words()])
            .collect();
        put_entries(&mut buffer, self.rows_at, format.row_bytes(), &rows);
        put_words(&mut buffer, 0, &self.head[..format.header_words()]);
        buffer
    }
}

/// Where the row with this number begins in a file, by its format and header.
pub fn row_at(file: &[u8], number: usize) -> usize {
    let rows_at = word_at(file, 28).unwrap_or(0) as usize;
    rows_at + Format::of(file).row_bytes() * number
}

/// Writes the entries of a table, each of so many bytes.
fn put_entries(buffer: &mut [u8], at: usize, bytes: usize, entries: &[impl AsRef<[u32]>]) {
    for (index, entry) in entries.iter().enumerate() {
        put_words(buffer, at + bytes * index, entry.as_ref());
    }
}

/// Adds a block to a stream, behind its length.
pub fn push_block(stream: &mut Vec<u8>, block: &[u8]) {
    stream.extend((block.len() as u32).to_le_bytes());
    stream.extend(block);
}

/// A stream of blocks, each behind its length.
pub fn stream_of(blocks: &[&[u8]]) -> Vec<u8> {
    let mut stream = Vec::new();
    for block in blocks {
        push_block(&mut stream, block);
    }
    stream
}
