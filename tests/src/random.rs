//! Random opening blocks, ledgers, interval files and result buffers.
//!
//! A valid case is made first (`world`); damage then sets single fields on either
//! side of a boundary, so that a damaged case may still be one to accept.

mod damage;
mod event;
mod event_calls;
mod offers;
mod world;
mod years;

pub use self::event::{event_file, four_schedules};
pub use self::event_calls::{
    accepted_event, event_call, event_of_one, refused_alone, refused_event, small_event,
};
pub use self::world::{rising, some_of, valid_open, valid_settle, World};
pub use self::years::{stream, year, RunningYear, Year};

pub(crate) use self::damage::{damage_settle, damaged_open};

use self::damage::{damage_open, damaged_settle};
use self::world::pool_at_limit;
use crate::layout::{
    long_at, row_at, word_at, Format, IntervalFile, Ledger, Opening, BLOCK_MOST, CURVE_POINTS_MOST,
    FILE_MOST, IDS_MOST, ROWS_MOST, SCHEDULE_BYTES,
};
use crate::reference;

// ---------------------------------------------------------------- numbers

/// A small generator (splitmix64); the same seed gives the same numbers.
#[derive(Clone)]
pub struct Rng(u64);

impl Rng {
    pub fn new(seed: u64) -> Self {
        Rng(seed)
    }

    /// The numbers of one case or year in a run with this seed.
    pub fn of(seed: u64, number: u64) -> Self {
        Rng(Rng(seed).draw().wrapping_add(number))
    }

    /// Any 64 bits.
    fn draw(&mut self) -> u64 {
        self.0 = self.0.wrapping_add(0x9e37_79b9_7f4a_7c15);
        let mut z = self.0;
        z = (z ^ (z >> 30)).wrapping_mul(0xbf58_476d_1ce4_e5b9);
        z = (z ^ (z >> 27)).wrapping_mul(0x94d0_49bb_1331_11eb);
        z ^ (z >> 31)
    }

    /// A number below `n`, which is at least 1.
    pub fn below(&mut self, n: u64) -> u64 {
        self.draw() % n
    }

    /// A number from `low` to `high`.
    fn between(&mut self, low: i64, high: i64) -> i64 {
        low + self.below((high - low) as u64 + 1) as i64
    }

    /// True once in `n`.
    pub fn one_in(&mut self, n: u64) -> bool {
        self.below(n) == 0
    }

    /// One of the values.
    pub fn pick<T: Copy>(&mut self, values: &[T]) -> T {
        values[self.index(values.len())]
    }

    /// One of the bounds, or up to 2 off.
    pub fn near(&mut self, bounds: &[u32]) -> u32 {
        let off = self.between(-2, 2) as u32;
        self.pick(bounds).wrapping_add(off)
    }

    /// A place in a list of this length.
    pub fn index(&mut self, length: usize) -> usize {
        self.below(length as u64) as usize
    }

    /// From 1 to `most`, small numbers and `most` itself more often.
    pub fn up_to(&mut self, most: usize) -> usize {
        let few = most.min(6);
        let bound = self.pick(&[most, most / 8, few]).max(few);
        if self.one_in(6) {
            bound
        } else {
            1 + self.index(bound)
        }
    }

    /// Any bytes.
    pub fn bytes(&mut self, length: usize) -> Vec<u8> {
        (0..length).map(|_| self.draw() as u8).collect()
    }
}

/// Attempts after which a maker of cases is taken to be broken.
const ATTEMPTS: usize = 1_000;

/// What the first attempt that succeeds gives; it panics if too many fail.
pub fn first_made<T>(what: &str, mut attempt: impl FnMut() -> Option<T>) -> T {
    (0..ATTEMPTS)
        .find_map(|_| attempt())
        .unwrap_or_else(|| panic!("{what}: none in {ATTEMPTS} attempts"))
}

// ---------------------------------------------------------------- sizes

/// How large cases may get.
#[derive(Clone, Copy, Debug)]
pub struct Size {
    /// Most ids of a year, at least 6.
    ids: usize,
    /// Most rows of a file.
    rows: usize,
    /// Most points of a curve.
    row_points: usize,
    /// Most curves of a file, and most groups of schedules.
    curves: usize,
    /// Most bytes of one gap.
    gap: usize,
    /// Largest number in a damaged count word.
    count: u32,
    /// Whether lengths at the limits of a block or file are made.
    long: bool,
}

/// For evaluators that are slow.
pub const SMALL: Size = Size {
    ids: 6,
    rows: 5,
    row_points: 4,
    curves: 5,
    gap: 12,
    count: 600,
    long: false,
};

/// A few dozen rows.
pub const MIDDLE: Size = Size {
    ids: 40,
    rows: 30,
    row_points: 10,
    curves: 30,
    gap: 60,
    count: u32::MAX,
    long: false,
};

/// Up to every limit of the layouts.
pub const FULL: Size = Size {
    ids: IDS_MOST,
    rows: ROWS_MOST,
    row_points: CURVE_POINTS_MOST,
    curves: 400,
    gap: 400,
    count: u32::MAX,
    long: true,
};

impl Size {
    /// One of the counts, none of them above the largest allowed.
    fn pick_count(&self, rng: &mut Rng, counts: &[u32]) -> u32 {
        let allowed: Vec<u32> = counts
            .iter()
            .copied()
            .filter(|c| *c <= self.count)
            .collect();
        rng.pick(&allowed)
    }

    /// Any count that is not too large.
    fn any_count(&self, rng: &mut Rng) -> u32 {
        rng.below(u64::from(self.count) + 1) as u32
    }

    /// The bytes of one gap, often none.
    fn pick_gap(&self, rng: &mut Rng) -> usize {
        if rng.one_in(2) {
            0
        } else {
            rng.index(self.gap + 1)
        }
    }
}

// ---------------------------------------------------------------- cases

/// The buffers of one call to opening.
#[derive(Clone, Debug)]
pub struct OpenCall {
    pub block: Vec<u8>,
    pub ledger: Vec<u8>,
}

/// The buffers of one call to settling.
#[derive(Clone, Debug)]
pub struct SettleCall {
    pub ledger: Vec<u8>,
    pub file: Vec<u8>,
    pub result: Vec<u8>,
}

/// The buffers of one call on an event.
#[derive(Clone, Debug)]
pub struct EventCall {
    pub ledger: Vec<u8>,
    /// Each file after its length.
    pub files: Vec<u8>,
    pub result: Vec<u8>,
    pub count: Vec<u8>,
}

/// An opening as fields, before it becomes bytes.
#[derive(Clone, Debug)]
pub struct OpenCase {
    pub opening: Opening,
    pub ledger_length: usize,
}

/// A settling as fields, before it becomes bytes.
#[derive(Clone, Debug)]
pub struct SettleCase {
    pub ledger: Ledger,
    pub file: IntervalFile,
    pub result_length: usize,
}

impl OpenCase {
    /// The buffers; gaps and the ledger hold any bytes.
    pub fn call(&self, rng: &mut Rng) -> OpenCall {
        let filler = rng.bytes(self.opening.length);
        OpenCall {
            block: self.opening.over(filler),
            ledger: rng.bytes(self.ledger_length),
        }
    }
}

impl SettleCase {
    /// The buffers; gaps, tails and the result hold any bytes.
    pub fn call(&self, rng: &mut Rng) -> SettleCall {
        let ledger_filler = rng.bytes(self.ledger.length);
        let file_filler = rng.bytes(self.file.length);
        SettleCall {
            ledger: self.ledger.over(ledger_filler),
            file: self.file.over(file_filler),
            result: rng.bytes(self.result_length),
        }
    }
}

// ---------------------------------------------------------------- any case

/// The grounds of opening and of settling, in checking order.
pub const OPENING_GROUNDS: [u32; 6] = [1, 2, 23, 3, 4, 5];
pub const SETTLING_GROUNDS: [u32; 12] = [6, 7, 8, 9, 10, 11, 12, 13, 18, 14, 15, 16];

/// An opening with faults of two grounds, to test the order.
fn doubly_damaged_open(rng: &mut Rng, size: &Size) -> OpenCase {
    let (first, second) = two_grounds(rng, &OPENING_GROUNDS);
    let case = valid_open(rng, size);
    let case = refused_open(rng, size, case, second);
    refused_open(rng, size, case, first)
}

/// A settling with faults of two grounds, to test the order.
fn doubly_damaged_settle(rng: &mut Rng, size: &Size) -> SettleCase {
    let (first, second) = two_grounds(rng, &SETTLING_GROUNDS);
    let case = valid_settle(rng, size);
    let case = refused_settle(rng, size, case, second);
    refused_settle(rng, size, case, first)
}

/// Two of the grounds in checking order, often neighbours.
fn two_grounds(rng: &mut Rng, grounds: &[u32]) -> (u32, u32) {
    let first = rng.index(grounds.len() - 1);
    let later = &grounds[first + 1..];
    let second = rng.pick(later);
    (grounds[first], rng.pick(&[later[0], second]))
}

/// Damages an opening until this ground is answered, or gives up.
fn refused_open(rng: &mut Rng, size: &Size, case: OpenCase, ground: u32) -> OpenCase {
    for _ in 0..20 {
        let mut damaged = case.clone();
        damage_open(rng, size, ground, &mut damaged);
        let mut call = damaged.call(rng);
        if reference::open(&call.block, &mut call.ledger) == ground {
            return damaged;
        }
    }
    case
}

/// Damages a settling until this ground is answered, or gives up.
fn refused_settle(rng: &mut Rng, size: &Size, case: SettleCase, ground: u32) -> SettleCase {
    for _ in 0..20 {
        let mut damaged = case.clone();
        damage_settle(rng, size, ground, &mut damaged);
        let mut call = damaged.call(rng);
        if reference::settle(&mut call.ledger, &call.file, &mut call.result) == ground {
            return damaged;
        }
    }
    case
}

/// Changes one to three bytes, if there are any.
pub fn flip(rng: &mut Rng, buffer: &mut [u8]) {
    for _ in 0..1 + rng.below(3) {
        if !buffer.is_empty() {
            let index = rng.index(buffer.len());
            buffer[index] ^= 1 << rng.below(8);
        }
    }
}

/// Cuts a buffer anywhere.
pub fn cut(rng: &mut Rng, buffer: &mut Vec<u8>) {
    let length = rng.index(buffer.len() + 1);
    buffer.truncate(length);
}

/// Puts any bytes into the buffer from some place on.
pub fn scramble(rng: &mut Rng, buffer: &mut [u8]) {
    let from = rng.index(buffer.len() + 1);
    for byte in &mut buffer[from..] {
        *byte = rng.draw() as u8;
    }
}

/// A call to opening of any sort, from valid to random bytes.
pub fn open_call(rng: &mut Rng, size: &Size) -> OpenCall {
    let ground = rng.pick(&OPENING_GROUNDS);
    open_call_for(rng, size, ground)
}

/// A call to opening of any sort; a single damage is for this ground.
pub fn open_call_for(rng: &mut Rng, size: &Size, ground: u32) -> OpenCall {
    first_made("an opening with small counts", || {
        let mut call = match rng.below(20) {
            0..=7 => valid_open(rng, size).call(rng),
            8..=16 => damaged_open(rng, size, ground).call(rng),
            _ => doubly_damaged_open(rng, size).call(rng),
        };
        match rng.below(40) {
            0 => flip(rng, &mut call.block),
            1 => cut(rng, &mut call.block),
            2 => scramble(rng, &mut call.block),
            _ => (),
        }
        open_counts_fit(&call, size).then_some(call)
    })
}

/// A call to settling of any sort, from valid to random bytes.
pub fn settle_call(rng: &mut Rng, size: &Size) -> SettleCall {
    let ground = rng.pick(&SETTLING_GROUNDS);
    settle_call_for(rng, size, ground)
}

/// A call to settling of any sort; a single damage is for this ground.
pub fn settle_call_for(rng: &mut Rng, size: &Size, ground: u32) -> SettleCall {
    first_made("a settling with small counts", || {
        let mut call = match rng.below(20) {
            0..=7 => valid_settle(rng, size).call(rng),
            8..=15 => damaged_settle(rng, size, ground).call(rng),
            16..=18 => doubly_damaged_settle(rng, size).call(rng),
            _ => pool_at_limit(rng, size).call(rng),
        };
        match rng.below(60) {
            0 | 1 => flip(rng, &mut call.file),
            2 => flip(rng, &mut call.ledger),
            3 => cut(rng, &mut call.file),
            4 => cut(rng, &mut call.ledger),
            5 => scramble(rng, &mut call.file),
            6 => scramble(rng, &mut call.ledger),
            _ => (),
        }
        settle_counts_fit(&call, size).then_some(call)
    })
}

/// A block at the length limit, ids somewhere in it.
pub fn long_open(rng: &mut Rng, size: &Size) -> OpenCall {
    let mut case = valid_open(rng, size);
    case.opening.length = rng.pick(&[BLOCK_MOST, BLOCK_MOST + 1]);
    case.call(rng)
}

/// A file at the length limit of its format or of both, tables somewhere in it.
pub fn long_settle(rng: &mut Rng, size: &Size) -> SettleCall {
    let mut case = valid_settle(rng, size);
    let own = case.file.format.most();
    case.file.length = rng.pick(&[own, own, own + 1, FILE_MOST, FILE_MOST + 1]);
    case.call(rng)
}

/// A settling into a ledger of a year that there is not.
pub fn settle_in_no_year(rng: &mut Rng, size: &Size) -> SettleCall {
    let mut case = valid_settle(rng, size);
    case.ledger.words[7] = rng.pick(&[1, 2015, 2017, 2024, 2016 << 32]);
    case.call(rng)
}

/// No count word of the block is larger than allowed.
fn open_counts_fit(call: &OpenCall, size: &Size) -> bool {
    word_at(&call.block, 12).unwrap_or(0) <= size.count
}

/// No count word of ledger, header, rows or schedules is larger than allowed.
fn settle_counts_fit(call: &SettleCall, size: &Size) -> bool {
    if size.count == u32::MAX {
        return true;
    }
    let word = |at| word_at(&call.file, at).unwrap_or(0);
    let fits = |at| word(at) <= size.count;
    let schedules = match Format::of(&call.file) {
        Format::One => 0,
        Format::Two => word(40),
    };
    let schedule_at = |number| word(44) as usize + SCHEDULE_BYTES * number;
    long_at(&call.ledger, 5).unwrap_or(0) <= size.count.into()
        && [24, 32].into_iter().all(fits)
        && schedules <= size.count
        && (0..word(24) as usize).all(|number| fits(row_at(&call.file, number) + 52))
        && (0..schedules as usize).all(|number| fits(schedule_at(number) + 8))
}
