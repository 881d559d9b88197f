//! Years of calls, and streams of them.

use super::{cut, damage_settle, first_made, open_call, settle_counts_fit};
use super::{EventCall, Rng, SettleCall, SettleCase, Size, World, SETTLING_GROUNDS};
use crate::layout::{
    ledger_bytes, long_at, push_block, result_bytes, IntervalFile, BLOCK_MOST, FILE_MOST,
};
use crate::reference;

/// A delivery year under way: its ledger is what the calls so far left.
#[derive(Clone, Debug)]
pub struct RunningYear {
    world: World,
    pub block: Vec<u8>,
    /// The ledger buffer before its opening.
    pub unopened: Vec<u8>,
    ledger: Vec<u8>,
    /// A file that comes back in later intervals, so that sums grow to the limits.
    usual: IntervalFile,
    last_file: Vec<u8>,
}

impl RunningYear {
    /// Opens a year.
    pub fn open(rng: &mut Rng, size: &Size) -> Self {
        let world = World::any(rng, size);
        let filler = rng.index(size.gap + 1);
        let unopened = rng.bytes(ledger_bytes(world.ids.len()) + filler);
        let opening = world.opening(rng, size);
        let gaps = rng.bytes(opening.length);
        let block = opening.over(gaps);
        let mut ledger = unopened.clone();
        reference::open(&block, &mut ledger);
        RunningYear {
            usual: world.file(rng, size, 0),
            world,
            block,
            unopened,
            ledger,
            last_file: Vec::new(),
        }
    }

    /// The next call, with the ledger as it was before; the year moves on.
    pub fn next_call(&mut self, rng: &mut Rng, size: &Size) -> SettleCall {
        let call = self.small_call(rng, size);
        self.last_file.clone_from(&call.file);
        let mut result = call.result.clone();
        reference::settle(&mut self.ledger, &call.file, &mut result);
        call
    }

    /// The next event, with the ledger as it was before; the year moves on as far as files are settled.
    ///
    /// In one half of the events every file is one to accept, unless the room ends. In the other half
    /// there are refused ones; a file behind them would be accepted if they were passed over.
    pub fn next_event(&mut self, rng: &mut Rng, size: &Size, most: usize) -> EventCall {
        let before = self.ledger.clone();
        let accepted_alone = rng.one_in(2);
        let (mut files, mut room) = (Vec::new(), 0);
        for _ in 0..rng.index(most + 1) {
            let call = self.small_call(rng, size);
            let mut result = call.result.clone();
            let answer = reference::settle(&mut self.ledger, &call.file, &mut result);
            if answer == 0 || !accepted_alone {
                push_block(&mut files, &call.file);
                room += call.result.len();
                self.last_file.clone_from(&call.file);
            }
        }
        let call = EventCall {
            ledger: before,
            files,
            result: some_room(rng, room),
            count: some_count(rng),
        };
        let mut left = call.clone();
        reference::event(
            &mut left.ledger,
            &left.files,
            &mut left.result,
            &mut left.count,
        );
        self.ledger = left.ledger;
        call
    }

    /// A call whose counts are not too large for this size.
    fn small_call(&self, rng: &mut Rng, size: &Size) -> SettleCall {
        first_made("a call with small counts", || {
            let call = self.some_call(rng, size);
            settle_counts_fit(&call, size).then_some(call)
        })
    }

    /// Whether no interval is left to settle.
    pub fn is_over(&self) -> bool {
        long_at(&self.ledger, 3) == Some(self.world.intervals().into())
    }

    /// A new file, the usual one, the last one again, or a damaged one.
    fn some_call(&self, rng: &mut Rng, size: &Size) -> SettleCall {
        let interval = self.next_interval(rng);
        let mut file = self.usual.clone();
        file.head[1] = interval;
        if rng.one_in(2) {
            file = self.world.file(rng, size, interval);
        }
        let mut case = SettleCase {
            ledger: self.world.opened(),
            result_length: result_bytes(file.rows.len()) + size.pick_gap(rng),
            file,
        };
        let kind = rng.below(20);
        if kind < 3 {
            // 6 and 16 are the ledger's.
            let ground = rng.pick(&SETTLING_GROUNDS[1..SETTLING_GROUNDS.len() - 1]);
            damage_settle(rng, size, ground, &mut case);
            if case.file.head[1] < self.world.intervals() {
                case.file.head[1] = interval; // no leap to the year's end
            }
        }
        let mut call = case.call(rng);
        if kind == 3 && !self.last_file.is_empty() {
            call.file.clone_from(&self.last_file);
        }
        call.ledger.clone_from(&self.ledger);
        call
    }

    /// The earliest interval or one soon after it; seldom one near the year's end.
    fn next_interval(&self, rng: &mut Rng) -> u32 {
        let last = self.world.intervals() - 1;
        let earliest = long_at(&self.ledger, 3).unwrap_or(0) as u32;
        if rng.one_in(5_000) {
            return last - rng.below(3) as u32;
        }
        (earliest + rng.pick(&[0, 0, 1, 2, 5])).min(last)
    }
}

/// A result buffer for an event that needs up to so many bytes, seldom a shorter one.
fn some_room(rng: &mut Rng, needed: usize) -> Vec<u8> {
    let length = if rng.one_in(8) {
        rng.index(needed + 1)
    } else {
        needed
    };
    rng.bytes(length)
}

/// A count buffer, seldom too short.
fn some_count(rng: &mut Rng) -> Vec<u8> {
    let length = if rng.one_in(24) {
        rng.index(8)
    } else {
        rng.pick(&[8, 8, 8, 9, 16])
    };
    rng.bytes(length)
}

/// A whole year: the opened ledger and the calls that follow.
#[derive(Clone, Debug)]
pub struct Year {
    pub block: Vec<u8>,
    pub ledger: Vec<u8>,
    /// File and result buffer of each call.
    pub calls: Vec<(Vec<u8>, Vec<u8>)>,
}

/// A year of so many calls, accepted and refused.
pub fn year(rng: &mut Rng, size: &Size, calls: usize) -> Year {
    let mut running = RunningYear::open(rng, size);
    let (block, ledger) = (running.block.clone(), running.ledger.clone());
    let calls = (0..calls)
        .map(|_| running.next_call(rng, size))
        .map(|call| (call.file, call.result))
        .collect();
    Year {
        block,
        ledger,
        calls,
    }
}

/// A stream for the listing program, whole, refused or cut.
pub fn stream(rng: &mut Rng, size: &Size, calls: usize) -> Vec<u8> {
    let year = year(rng, size, calls);
    let mut stream = Vec::new();
    if rng.one_in(6) {
        push_block(&mut stream, &open_call(rng, size).block);
    } else {
        push_block(&mut stream, &year.block);
    }
    for (file, _) in &year.calls {
        if rng.one_in(12) {
            push_block(&mut stream, &[]);
        }
        push_block(&mut stream, file);
    }
    match rng.below(8) {
        0 | 1 => cut(rng, &mut stream),
        2 => {
            let length: u32 =
                rng.pick(&[FILE_MOST as u32, FILE_MOST as u32 + 1, 1 << 31, u32::MAX]);
            stream.extend(length.to_le_bytes());
            let some = rng.index(100);
            stream.extend(rng.bytes(some));
        }
        3 => {
            let some = 1 + rng.index(3);
            stream.extend(rng.bytes(some));
        }
        4 => {
            let length: u32 = rng.pick(&[
                BLOCK_MOST as u32,
                BLOCK_MOST as u32 + 1,
                FILE_MOST as u32,
                u32::MAX,
            ]);
            stream.splice(..4, length.to_le_bytes());
        }
        _ => (),
    }
    stream
}
