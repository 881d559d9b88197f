//! Delivery years, and what is valid in them: openings, ledgers, files, and settlings to accept.

use super::offers::{Offer, Offers, Stretch};
use super::{first_made, OpenCase, Rng, SettleCase, Size};
use crate::layout::{
    self, ledger_bytes, long_at, result_bytes, Format, IntervalFile, Ledger, Opening, Row, Terms,
    DAY_INTERVALS, HALVED_YEAR, IDS_MOST, IMPORTS_MOST, KW_MOST, POINTS_MOST, POOL_MOST, YEARS,
};
use crate::reference;

/// The bound of prices, for sums with it.
const PRICE_MOST: i64 = layout::PRICE_MOST as i64;

/// What the valid cases of one delivery year have in common.
#[derive(Clone, Debug)]
pub struct World {
    pub net_cone: u32,
    pub days: u32,
    /// The calendar year in which it starts; 0 if the opening does not name it.
    pub year: u32,
    pub ids: Vec<u32>,
    /// The kW that figures of this year usually stay below.
    scale: u32,
    /// Whether most plants deliver nothing.
    short: bool,
}

impl World {
    /// Any year.
    pub(crate) fn any(rng: &mut Rng, size: &Size) -> Self {
        let tiny = 1 + rng.below(100) as u32;
        let usual = 20_000 + rng.below(20_000) as u32;
        let free = 1 + rng.below(200_000) as u32;
        let count = rng.up_to(size.ids);
        let (year, days) = year_and_days(rng);
        World {
            net_cone: rng.pick(&[1, tiny, usual, usual, free, 200_000]),
            days,
            year,
            ids: rising_ids(rng, count),
            scale: rng.pick(&[3, 50, 5_000, 200_000, KW_MOST]),
            short: rng.one_in(4),
        }
    }

    /// A year whose pool can reach its limit.
    pub(super) fn heavy(rng: &mut Rng, size: &Size) -> Self {
        let (year, days) = year_and_days(rng);
        let least = heavy_accounts(year);
        let count = least + rng.index(size.ids.min(8) - least + 1);
        World {
            net_cone: rng.between(170_000, 200_000) as u32,
            days,
            year,
            ids: rising_ids(rng, count),
            scale: KW_MOST,
            short: true,
        }
    }

    /// A year with as many plants as there may be.
    pub fn full() -> Self {
        World {
            net_cone: 30_000,
            days: 365,
            year: 0,
            ids: rising(IDS_MOST),
            scale: 200_000,
            short: false,
        }
    }

    /// The number of intervals.
    pub(super) fn intervals(&self) -> u32 {
        DAY_INTERVALS * self.days
    }

    /// The terms that limits and charges go by.
    fn terms(&self) -> Terms {
        Terms {
            net_cone: self.net_cone.into(),
            days: self.days.into(),
            year: self.year.into(),
        }
    }

    /// Some kW, often 0 or the scale.
    fn kw(&self, rng: &mut Rng) -> u32 {
        match rng.below(8) {
            0 => 0,
            1 => self.scale,
            _ => rng.below(u64::from(self.scale) + 1) as u32,
        }
    }

    /// Some kW with either sign.
    fn signed_kw(&self, rng: &mut Rng) -> i32 {
        self.kw(rng) as i32 * rng.pick(&[1, -1])
    }

    /// The kW at which a charge reaches one cent more, or one kW less; where some kW are exactly half a cent above
    /// whole ones, often these.
    fn edge_kw(&self, rng: &mut Rng) -> u32 {
        let cents = u64::from(self.net_cone) * u64::from(self.days);
        let divisor = self.terms().charge_divisor();
        let half = divisor / 2;
        let exact = half / common_divisor(cents, half);
        let edge = if exact * cents % divisor == half && rng.one_in(2) {
            exact * (1 + 2 * rng.below(3))
        } else {
            let steps = 1 + rng.below(5);
            ((2 * steps - 1) * half).div_ceil(cents)
        };
        (edge - rng.below(2)).min(u64::from(KW_MOST)) as u32
    }

    /// An opening block with the ids right behind its first words.
    pub(crate) fn block(&self) -> Opening {
        match self.year {
            0 => Opening::new(self.net_cone, self.days, &self.ids),
            year => Opening::of_year(year, self.net_cone, self.days, &self.ids),
        }
    }

    /// An opening block with the ids anywhere in it.
    pub(crate) fn opening(&self, rng: &mut Rng, size: &Size) -> Opening {
        let mut opening = self.block();
        let before = size.pick_gap(rng);
        let behind = size.pick_gap(rng);
        opening.place(opening.front() + before, behind);
        opening
    }

    /// A ledger as opening leaves it.
    pub(crate) fn opened(&self) -> Ledger {
        let mut ledger = Ledger::new(self.net_cone, self.days, &self.ids);
        ledger.words[7] = self.year.into();
        ledger
    }

    /// A ledger as opened, or with sums of a year so far.
    fn ledger(&self, rng: &mut Rng, size: &Size) -> Ledger {
        let mut ledger = self.opened();
        ledger.length += size.pick_gap(rng);
        if !rng.one_in(4) {
            let last = u64::from(self.intervals()) - 1;
            ledger.words[3] = match rng.below(6) {
                0 => last,
                1 => 0,
                _ => rng.below(last + 1),
            };
            self.put_sums(rng, &mut ledger);
        }
        ledger
    }

    /// Commitments, charged sums up to the limits, and credits that balance.
    fn put_sums(&self, rng: &mut Rng, ledger: &mut Ledger) {
        let mut total = 0;
        for account in &mut ledger.accounts {
            account[1] = self.kw(rng).into();
            let limit = self.terms().limit(account[1]);
            account[2] = match rng.below(6) {
                0 => 0,
                1 => limit,
                2 => limit - rng.below(limit.min(40) + 1),
                3 | 4 => limit - rng.below(limit / 400 + 1),
                _ => rng.below(limit + 1),
            };
            total += account[2];
        }
        let most = total.min(POOL_MOST);
        ledger.words[4] = match rng.below(4) {
            0 => 0,
            1 => most,
            _ => rng.below(most + 1),
        };
        let credited = total - ledger.words[4];
        spread_credits(rng, ledger, credited);
    }

    /// A ledger with this many cents carried, by accounts near their limits.
    pub(super) fn heavy_ledger(&self, rng: &mut Rng, carried: u64) -> Ledger {
        let mut ledger = self.opened();
        let limit = self.terms().limit(KW_MOST.into());
        for account in &mut ledger.accounts[..heavy_accounts(self.year)] {
            account[1] = KW_MOST.into();
            account[2] = limit - rng.below(1_000_000_000);
        }
        ledger.words[4] = carried;
        let total: u64 = ledger.accounts.iter().map(|account| account[2]).sum();
        spread_credits(rng, &mut ledger, total - carried);
        ledger
    }

    /// A valid file for an interval, of either format.
    pub(crate) fn file(&self, rng: &mut Rng, size: &Size, interval: u32) -> IntervalFile {
        let most = self.ids.len().min(size.rows);
        let count = if rng.one_in(2) { most } else { rng.up_to(most) };
        let ids = some_of(rng, &self.ids, count);
        let kinds: &[u32] = rng.pick(&[
            &[0, 1, 2, 3, 4, 5][..],
            &[0, 1, 2, 3, 4, 5],
            &[0, 0, 1, 2, 3],
            &[0, 0, 0, 1, 4],
            &[0, 0, 0, 2, 5],
            &[0, 4],
            &[1, 2, 3, 4],
            &[0, 3],
            &[1, 5],
        ]);
        let offers = Offers::any(rng, size, count, self);
        let rows = ids
            .iter()
            .map(|id| {
                let offer = offers.some(rng);
                self.row(rng, *id, kinds, &offer)
            })
            .collect();
        let mut file = offers.file(self, interval, rows);
        file.head[4] = rng.below(2) as u32;
        file.head[5] = self.imports(rng, count) as u32;
        if file.format == Format::Two && rng.one_in(3) {
            // Much is expected, so that schedules decide what is excused.
            (file.head[4], file.head[5]) = (1, IMPORTS_MOST as u32);
        }
        lay_out(rng, size, &mut file);
        file
    }

    /// A valid file of format 1 with a row for every id, each with a curve of its own of so many points.
    pub(crate) fn full_file(
        &self,
        rng: &mut Rng,
        interval: u32,
        row_points: usize,
    ) -> IntervalFile {
        let (mut rows, mut points) = (Vec::new(), Vec::new());
        for id in &self.ids {
            let first = points.len();
            points.extend(self.curve(rng, row_points));
            let offer = Offer {
                first,
                count: row_points,
                dispatched: 0,
                several: false,
                curve: &points[first..],
            };
            rows.push(
                self.row(rng, *id, &[0, 0, 0, 1, 2, 3, 4, 5], &offer)
                    .words(),
            );
        }
        IntervalFile::new(self.net_cone, self.days, interval, rows, points)
    }

    /// Net imports, of either sign.
    fn imports(&self, rng: &mut Rng, rows: usize) -> i32 {
        let span = i64::from(self.scale)
            .saturating_mul(rows as i64)
            .min(IMPORTS_MOST.into());
        match rng.below(6) {
            0 => 0,
            1 => rng.pick(&[IMPORTS_MOST, -IMPORTS_MOST, 1, -1]),
            2 => rng.between(-span, span) as i32,
            _ => rng.between(-span / 4, span / 4) as i32,
        }
    }

    /// A table of points and the stretches in it that are curves.
    pub(super) fn points(
        &self,
        rng: &mut Rng,
        size: &Size,
        rows: usize,
    ) -> (Vec<[u32; 2]>, Vec<Stretch>) {
        let mut points = Vec::new();
        let mut curves = Vec::new();
        let most = size.curves.min(rows + 1);
        let wanted = if rng.one_in(6) {
            0
        } else {
            1 + rng.index(most)
        };
        for _ in 0..wanted {
            if rng.one_in(5) {
                points.push([rng.draw() as u32, rng.draw() as u32]);
            }
            let count = 1 + rng.index(size.row_points);
            let curve = self.curve(rng, count);
            if points.len() + curve.len() > POINTS_MOST {
                break;
            }
            curves.push((points.len(), curve.len()));
            points.extend(curve);
        }
        points.truncate(POINTS_MOST);
        (points, curves)
    }

    /// A curve of so many points, with equal prices and equal kW among them.
    fn curve(&self, rng: &mut Rng, count: usize) -> Vec<[u32; 2]> {
        let span = rng.pick(&[1, 3, 40, 5_000, 300_000]);
        let start = rng.pick(&[-PRICE_MOST, -span, 0, 1_000, PRICE_MOST - span]);
        let mut price = rng.between(start.max(-PRICE_MOST), start + span);
        let step = (u64::from(self.scale) / count as u64).max(1);
        let mut kw = u64::from(if rng.one_in(2) { 0 } else { self.kw(rng) });
        let mut curve = Vec::new();
        for _ in 0..count {
            curve.push([price as i32 as u32, kw as u32]);
            if !rng.one_in(4) {
                price = rng.between(price, price + span).min(PRICE_MOST);
            }
            if !rng.one_in(4) {
                kw = (kw + rng.below(step + 1)).min(KW_MOST.into());
            }
        }
        if rng.one_in(12) {
            curve[count - 1] = [PRICE_MOST as u32, KW_MOST];
        }
        curve
    }

    /// A valid row.
    fn row(&self, rng: &mut Rng, id: u32, kinds: &[u32], offer: &Offer) -> Row {
        let kind = rng.pick(kinds);
        let mut row = Row {
            id,
            kind,
            first: offer.first as u32,
            count: offer.count as u32,
            dispatched: offer.dispatched as u32,
            lmp: lmp_near(rng, offer.curve),
            online: u32::from(!rng.one_in(3)),
            ..Row::default()
        };
        row.committed = if kind >= 4 { 0 } else { self.kw(rng) };
        row.metered = self.metered(rng, row.committed);
        if rng.one_in(4) {
            row.adjustment = self.signed_kw(rng);
        }
        if self.short && !rng.one_in(3) {
            (row.metered, row.adjustment) = (0, 0);
        }
        if (kind == 1 || kind == 2) && rng.one_in(4) {
            (row.committed, row.metered, row.adjustment) = (self.edge_kw(rng), 0, 0);
        }
        row.owned = self.owned(rng, row.committed);
        row.planned = if rng.one_in(3) { self.kw(rng) } else { 0 };
        row.forced = if rng.one_in(3) { self.kw(rng) } else { 0 };
        (row.minimum, row.maximum) = self.range(rng, offer.curve);
        if offer.count == 0 && rng.one_in(2) {
            row.first = rng.draw() as u32;
        }
        if kind == 0 && offer.several && rng.one_in(2) {
            self.hold_back(rng, &mut row, offer.curve);
        }
        row
    }

    /// Makes a row one that could give more than it does, at a price where the curve begins, so that its schedules decide
    /// what is excused.
    fn hold_back(&self, rng: &mut Rng, row: &mut Row, curve: &[[u32; 2]]) {
        let first = i64::from(curve[0][0] as i32);
        row.lmp = (first - rng.between(0, 1)).max(-PRICE_MOST) as i32;
        row.committed = 1 + self.kw(rng).min(KW_MOST - 1);
        (row.owned, row.maximum, row.minimum) = (KW_MOST, KW_MOST, 0);
        (row.planned, row.forced, row.adjustment) = (0, 0, 0);
        row.metered = self.kw(rng).min(row.committed / 4) as i32;
    }

    /// A meter reading near the commitment, at 0, at the limits or anywhere.
    fn metered(&self, rng: &mut Rng, committed: u32) -> i32 {
        let most = KW_MOST as i32;
        let committed = committed as i32;
        match rng.below(12) {
            0 => 0,
            1 => (committed + rng.between(-2, 2) as i32).min(most),
            2 => self.signed_kw(rng),
            3 if rng.one_in(4) => rng.pick(&[most, -most]),
            4 => (committed + self.kw(rng) as i32).min(most),
            5..=9 => committed - committed.min(self.kw(rng) as i32),
            _ => self.kw(rng) as i32,
        }
    }

    /// Owned kW, often a little more than the commitment.
    fn owned(&self, rng: &mut Rng, committed: u32) -> u32 {
        match rng.below(6) {
            0 => committed,
            1 => self.kw(rng),
            2 => rng.pick(&[0, KW_MOST]),
            _ => (committed + self.kw(rng)).min(KW_MOST),
        }
    }

    /// Economic minimum and emergency maximum.
    fn range(&self, rng: &mut Rng, curve: &[[u32; 2]]) -> (u32, u32) {
        let (a, b) = (self.kw(rng), self.kw(rng));
        match (rng.below(6), curve) {
            (0, _) => (0, KW_MOST),
            (1 | 2, [first, .., last]) => (first[1], last[1]),
            (3, _) => (a, a),
            (4, _) => (0, a),
            _ => (a.min(b), a.max(b)),
        }
    }
}

/// A year, by thirds none, 2016 or any, and a number of days that it may have.
fn year_and_days(rng: &mut Rng) -> (u32, u32) {
    let any = rng.pick(&YEARS);
    let year = rng.pick(&[0, HALVED_YEAR, any]);
    let days = match year {
        HALVED_YEAR => 365,
        _ => rng.pick(&[365, 366]),
    };
    (year, days)
}

/// The accounts whose limits together are above the largest pool.
fn heavy_accounts(year: u32) -> usize {
    match year {
        HALVED_YEAR => 6,
        _ => 3,
    }
}

/// The greatest number that divides both.
fn common_divisor(a: u64, b: u64) -> u64 {
    match b {
        0 => a,
        _ => common_divisor(b, a % b),
    }
}

/// So many ids, 7 apart.
pub fn rising(count: usize) -> Vec<u32> {
    (1..=count as u32).map(|index| 7 * index).collect()
}

/// Ids that rise, near each other or far apart, up to the largest word.
fn rising_ids(rng: &mut Rng, count: usize) -> Vec<u32> {
    let room = u64::from(u32::MAX) / count as u64;
    let step = rng.pick(&[1, 3, 1_000, room]).min(room);
    let mut ids = Vec::new();
    let mut id = 0u64;
    if step < room && rng.one_in(3) {
        let spare = u64::from(u32::MAX) - step * count as u64;
        id = rng.pick(&[spare, spare / 2]);
    }
    for _ in 0..count {
        id += 1 + rng.below(step);
        ids.push(id as u32);
    }
    if rng.one_in(8) {
        ids[count - 1] = u32::MAX;
    }
    ids
}

/// So many of the ids, in order.
pub fn some_of(rng: &mut Rng, ids: &[u32], count: usize) -> Vec<u32> {
    let mut chosen = Vec::new();
    for (index, id) in ids.iter().enumerate() {
        let left = (ids.len() - index) as u64;
        if rng.below(left) < (count - chosen.len()) as u64 {
            chosen.push(*id);
        }
    }
    chosen
}

/// Splits a sum among the credited words.
pub(super) fn spread_credits(rng: &mut Rng, ledger: &mut Ledger, sum: u64) {
    let mut rest = sum;
    for account in &mut ledger.accounts {
        account[3] = if rng.one_in(2) {
            0
        } else {
            rng.below(rest + 1)
        };
        rest -= account[3];
    }
    let index = rng.index(ledger.accounts.len());
    ledger.accounts[index][3] += rest;
}

/// An LMP at or next to a point, on the curve, at the limits or anywhere.
fn lmp_near(rng: &mut Rng, curve: &[[u32; 2]]) -> i32 {
    let price = |point: &[u32; 2]| i64::from(point[0] as i32);
    let lmp = match (rng.below(8), curve) {
        (0..=2, [_, ..]) => price(&rng.pick(curve)) + rng.between(-1, 1),
        (3..=5, [first, .., last]) => rng.between(price(first), price(last)),
        (6, _) => rng.pick(&[-PRICE_MOST, PRICE_MOST, 0]),
        _ => rng.between(-PRICE_MOST, PRICE_MOST),
    };
    lmp.clamp(-PRICE_MOST, PRICE_MOST) as i32
}

/// Places the tables in any order with gaps; empty ones go anywhere.
pub(super) fn lay_out(rng: &mut Rng, size: &Size, file: &mut IntervalFile) {
    let header = file.format.header_bytes();
    let sizes = file.table_bytes();
    let (mut at, mut end) = ([0; 3], header);
    for table in any_order(rng) {
        if sizes[table] > 0 {
            at[table] = end + size.pick_gap(rng);
            end = at[table] + sizes[table];
        }
    }
    let length = end + size.pick_gap(rng);
    for table in (0..3).filter(|table| sizes[*table] == 0) {
        let free = header + rng.index(length - header + 1);
        at[table] = rng.pick(&[header, length, free]);
    }
    file.place_three(at, length);
}

/// The numbers of three tables in any order.
fn any_order(rng: &mut Rng) -> [usize; 3] {
    let mut order = [0, 1, 2];
    order.swap(2, rng.index(3));
    order.swap(1, rng.index(2));
    order
}

// ---------------------------------------------------------------- valid cases

/// An opening to accept.
pub fn valid_open(rng: &mut Rng, size: &Size) -> OpenCase {
    let world = World::any(rng, size);
    OpenCase {
        opening: world.opening(rng, size),
        ledger_length: ledger_bytes(world.ids.len()) + size.pick_gap(rng),
    }
}

/// A settling to accept, unless its pool grows too large.
pub fn valid_settle(rng: &mut Rng, size: &Size) -> SettleCase {
    let world = World::any(rng, size);
    let ledger = world.ledger(rng, size);
    let earliest = ledger.words[3] as i64;
    let last = i64::from(world.intervals()) - 1;
    let interval = match rng.below(4) {
        0 => earliest,
        1 => last,
        _ => rng.between(earliest, last),
    };
    let file = world.file(rng, size, interval as u32);
    let result_length = result_bytes(file.rows.len()) + size.pick_gap(rng);
    SettleCase {
        ledger,
        file,
        result_length,
    }
}

/// A settling whose pool ends at its limit, one cent below or one above.
pub(super) fn pool_at_limit(rng: &mut Rng, size: &Size) -> SettleCase {
    let (mut case, charges) = first_made("a settling with charges", || {
        let world = World::heavy(rng, size);
        let interval = rng.below(world.intervals().into()) as u32;
        let file = world.file(rng, size, interval);
        let case = SettleCase {
            ledger: world.heavy_ledger(rng, 0),
            result_length: result_bytes(file.rows.len()),
            file,
        };
        let charges = charges_of(rng, &case);
        (charges > 1).then_some((case, charges))
    });
    let carried = POOL_MOST - charges + rng.pick(&[0, 1, 2, 2]) - 1;
    let total: u64 = case.ledger.accounts.iter().map(|a| a[2]).sum();
    case.ledger.words[4] = carried;
    spread_credits(rng, &mut case.ledger, total - carried);
    case
}

/// The charges of an accepted case, else 0.
fn charges_of(rng: &mut Rng, case: &SettleCase) -> u64 {
    let mut call = case.call(rng);
    match reference::settle(&mut call.ledger, &call.file, &mut call.result) {
        0 => long_at(&call.result, 1).unwrap_or(0),
        _ => 0,
    }
}
