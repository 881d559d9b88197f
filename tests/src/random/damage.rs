//! Damage: one field set to one side or the other of a ground's boundary.

use super::world::{lay_out, pool_at_limit, spread_credits, valid_open, valid_settle, World};
use super::{OpenCase, Rng, SettleCase, Size};
use crate::layout::{
    ledger_bytes, result_bytes, Format, IntervalFile, Ledger, Opening, BLOCK_MOST, CREDITED_MOST,
    CURVE_POINTS_MOST, DAY_INTERVALS, HALVED_YEAR, IDS_MOST, IMPORTS_MOST, KW_MOST, MARKET,
    POINTS_MOST, POOL_MOST, PRICE_MOST, ROWS_MOST, ROW_SCHEDULES_MOST, SCHEDULES_MOST,
};

/// The lowest bit of a word's upper half.
const HIGH: u64 = 1 << 32;

// ---------------------------------------------------------------- openings

/// An opening with one field damaged for this ground.
pub(crate) fn damaged_open(rng: &mut Rng, size: &Size, ground: u32) -> OpenCase {
    let mut case = valid_open(rng, size);
    damage_open(rng, size, ground, &mut case);
    case
}

/// Sets a field of an opening to one side or the other of a ground's boundary.
pub(super) fn damage_open(rng: &mut Rng, size: &Size, ground: u32, case: &mut OpenCase) {
    match ground {
        1 => {
            let opening = &mut case.opening;
            damage_whole(
                rng,
                size,
                (opening.front(), BLOCK_MOST),
                &mut opening.length,
                &mut opening.words[0],
            );
        }
        2 => damage_opening_terms(rng, &mut case.opening),
        23 => damage_opening_year(rng, &mut case.opening),
        3 => damage_id_table(rng, size, case),
        4 => damage_ids(rng, &mut case.opening.ids),
        _ => damage_room(
            rng,
            ledger_bytes(case.opening.ids.len()),
            &mut case.ledger_length,
        ),
    }
}

/// Grounds 1 and 7: a length around the least and the most, or another format.
fn damage_whole(
    rng: &mut Rng,
    size: &Size,
    (least, most): (usize, usize),
    length: &mut usize,
    format: &mut u32,
) {
    if size.long && rng.one_in(3) {
        *length = rng.pick(&[most, most + 1]);
    } else if rng.one_in(2) {
        *length = rng.pick(&[0, 4, 20, least - 1, least]);
    } else {
        *format = rng.pick(&[0, 1, 2, 3, 257, 258, 0x0100_0001, 0x0100_0002, u32::MAX]);
    }
}

/// Ground 2: Net CONE and days.
fn damage_opening_terms(rng: &mut Rng, opening: &mut Opening) {
    if rng.one_in(2) {
        opening.words[1] = rng.pick(&[0, 1, 200_000, 200_001, 1 << 31, u32::MAX]);
    } else {
        opening.words[2] = rng.pick(&[0, 364, 365, 366, 367, 365 + 65_536, u32::MAX]);
    }
}

/// Ground 23: a year next to those that can be named, alike in some of its bytes, or 2016 with 366 days.
fn damage_opening_year(rng: &mut Rng, opening: &mut Opening) {
    let near = rng.pick(&[2015, 2016, 2017, 2018, 2023, 2024]);
    let alike = rng.pick(&[65_536, 1 << 24, 1 << 31]) + near;
    let far = rng.pick(&[0, 1, 16, 2016 - 256, u32::MAX]);
    if rng.one_in(5) {
        opening.words[2] = 366;
        opening.name_year(HALVED_YEAR);
    } else {
        opening.name_year(rng.pick(&[near, near, near, alike, far]));
    }
}

/// Ground 3: number and place of the ids.
fn damage_id_table(rng: &mut Rng, size: &Size, case: &mut OpenCase) {
    let opening = &mut case.opening;
    let count = opening.ids.len() as u32;
    let bytes = 4 * count;
    let end = opening.length as u32;
    let front = opening.front();
    match rng.below(6) {
        0 if size.long => {
            opening.ids = (1..=IDS_MOST as u32 + rng.below(2) as u32).collect();
            opening.words[3] = opening.ids.len() as u32;
            opening.place(front, 0);
            case.ledger_length = ledger_bytes(opening.ids.len());
        }
        0 | 1 => {
            let wrapping = (1 << 30) + count;
            let counts = [0, count - 1, count + 1, 512, 513, wrapping, u32::MAX];
            opening.words[3] = size.pick_count(rng, &counts);
        }
        2 => {
            let last = end.saturating_sub(bytes);
            opening.words[4] = rng.pick(&[0, 19, 20, 23, 24, last, last + 1, end]);
        }
        3 => {
            let wrap = 0u32.wrapping_sub(bytes);
            let offsets = [
                wrap,
                wrap.wrapping_add(front as u32),
                wrap.wrapping_add(end),
            ];
            let far = rng.pick(&[u32::MAX, 1 << 31]);
            opening.words[4] = rng.pick(&[far, offsets[0], offsets[1], offsets[2]]);
        }
        4 => opening.place(rng.pick(&[20, front - 1, front, front + 1]), 0),
        _ => {
            opening.place(front, 0);
            opening.length -= rng.index(2);
        }
    }
}

/// Ground 4: an id of 0, or one that does not rise.
fn damage_ids(rng: &mut Rng, ids: &mut [u32]) {
    let index = rng.index(ids.len());
    if index == 0 || rng.one_in(5) {
        ids[index] = 0;
        return;
    }
    let before = ids[index - 1];
    match rng.below(4) {
        0 => ids[index] = before,
        1 => ids[index] = before - 1,
        2 => ids[index] = before.saturating_add(1),
        _ => ids.swap(index - 1, index),
    }
}

/// Grounds 5, 6 and 15: the length of a buffer that is written.
fn damage_room(rng: &mut Rng, needed: usize, length: &mut usize) {
    let far = rng.pick(&[0, 63, 64, needed - 32]);
    let short = needed - 1;
    *length = rng.pick(&[far, short, short, short, needed, needed + 1]);
}

// ---------------------------------------------------------------- settlings

/// A settling with one field damaged for this ground.
pub(super) fn damaged_settle(rng: &mut Rng, size: &Size, ground: u32) -> SettleCase {
    let mut case = valid_settle(rng, size);
    damage_settle(rng, size, ground, &mut case);
    case
}

/// Sets a field of a settling to one side or the other of a ground's boundary.
pub(crate) fn damage_settle(rng: &mut Rng, size: &Size, ground: u32, case: &mut SettleCase) {
    match ground {
        6 => damage_ledger(rng, size, case),
        7 => {
            let file = &mut case.file;
            let bounds = (file.format.header_bytes(), file.format.most());
            damage_whole(rng, size, bounds, &mut file.length, &mut file.head[0]);
        }
        8 => damage_file_terms(rng, &mut case.file),
        9 => damage_event(rng, &mut case.file),
        10 => damage_order(rng, case),
        11 => damage_tables(rng, size, &mut case.file),
        12 => damage_row_ids(rng, case),
        13 => damage_row(rng, &mut case.file),
        18 => damage_schedules(rng, size, &mut case.file),
        14 => damage_points(rng, size, &mut case.file),
        15 => damage_room(
            rng,
            result_bytes(case.file.rows.len()),
            &mut case.result_length,
        ),
        _ => *case = pool_at_limit(rng, size),
    }
}

/// Ground 6: any part of the ledger.
fn damage_ledger(rng: &mut Rng, size: &Size, case: &mut SettleCase) {
    match rng.below(13) {
        0 => {
            let needed = ledger_bytes(case.ledger.accounts.len());
            damage_room(rng, needed, &mut case.ledger.length);
        }
        1..=3 => damage_ledger_words(rng, size, &mut case.ledger),
        4 => damage_ledger_ids(rng, &mut case.ledger),
        5 | 6 => damage_charged(rng, &mut case.ledger),
        7 => damage_credited(rng, &mut case.ledger),
        8 | 9 => damage_balance(rng, &mut case.ledger),
        10 => {
            let most = u64::from(KW_MOST);
            let index = rng.index(case.ledger.accounts.len());
            case.ledger.accounts[index][1] = rng.pick(&[most, most + 1, HIGH, HIGH + 5, u64::MAX]);
        }
        11 => damage_ledger_year(rng, &mut case.ledger),
        _ => {
            let world = World::heavy(rng, size);
            let carried = POOL_MOST + rng.below(2);
            case.ledger = world.heavy_ledger(rng, carried);
            let interval = rng.below(world.intervals().into()) as u32;
            case.file = world.file(rng, size, interval);
            case.result_length = result_bytes(case.file.rows.len());
        }
    }
}

/// The first words of a ledger, also with bits above the lower 32.
fn damage_ledger_words(rng: &mut Rng, size: &Size, ledger: &mut Ledger) {
    let [_, net_cone, days, ..] = ledger.words;
    let last = u64::from(DAY_INTERVALS) * days;
    match rng.below(7) {
        0 => ledger.words[0] = rng.pick(&[0, 2, HIGH + 1, u64::MAX]),
        1 => ledger.words[1] = rng.pick(&[0, 200_001, HIGH + net_cone, 1 << 63]),
        2 => ledger.words[2] = rng.pick(&[0, 364, 367, HIGH + days, 1 << 63]),
        3 => ledger.words[3] = rng.pick(&[last, last + 1, HIGH, u64::MAX]),
        4 => damage_account_count(rng, size, ledger),
        5 => ledger.words[6] = rng.pick(&[0, 7, 9, 64, HIGH + 8]),
        _ => damage_ledger_year(rng, ledger),
    }
}

/// The year of a ledger next to those that it can have, also with bits above the lower 32, or 2016 with 366 days.
/// A sum that is charged by one year's limit may be above another's.
fn damage_ledger_year(rng: &mut Rng, ledger: &mut Ledger) {
    let near = rng.pick(&[0, 1, 2015, 2016, 2017, 2018, 2023, 2024]);
    let high = rng.pick(&[HIGH, 1 << 63]);
    ledger.words[7] = rng.pick(&[near, near, high + near, high + ledger.words[7]]);
    if rng.one_in(6) {
        (ledger.words[2], ledger.words[7]) = (366, HALVED_YEAR.into());
    }
}

/// The number of accounts; 512 and 513 of them may really be there.
fn damage_account_count(rng: &mut Rng, size: &Size, ledger: &mut Ledger) {
    let count = ledger.words[5];
    if size.long && rng.one_in(2) {
        let last = ledger.accounts[ledger.accounts.len() - 1][0];
        let wanted = IDS_MOST as u64 + rng.below(2);
        for index in count..wanted {
            ledger.accounts.push([last + 1 + index, 0, 0, 0]);
        }
        ledger.words[5] = wanted;
        ledger.length = ledger_bytes(wanted as usize);
    } else if size.count == u32::MAX && rng.one_in(2) {
        ledger.words[5] = rng.pick(&[HIGH + count, (1 << 59) + count, u64::MAX]);
    } else {
        ledger.words[5] = rng.pick(&[0, count + 1, count - 1, 512, 513]);
    }
}

/// The ids of a ledger, also with bits above the lower 32.
fn damage_ledger_ids(rng: &mut Rng, ledger: &mut Ledger) {
    let index = rng.index(ledger.accounts.len());
    if index == 0 || rng.one_in(5) {
        ledger.accounts[index][0] = rng.pick(&[0, HIGH]);
        return;
    }
    let before = ledger.accounts[index - 1][0];
    match rng.below(4) {
        0 => ledger.accounts[index][0] = before,
        1 => ledger.accounts[index][0] = before - 1,
        2 => ledger.accounts[index - 1][0] += HIGH,
        _ => {
            let high = HIGH + rng.below(before + 1);
            ledger.accounts[index][0] = high;
        }
    }
}

/// A charged sum at its limit or one above, with sums that balance.
fn damage_charged(rng: &mut Rng, ledger: &mut Ledger) {
    let terms = ledger.terms();
    let index = rng.index(ledger.accounts.len());
    let account = &mut ledger.accounts[index];
    let limit = terms.limit(account[1].min(KW_MOST.into()));
    account[2] = limit + rng.below(2);
    rebalance(rng, ledger);
}

/// Makes the credited sums fit the charged sums and the carried cents.
fn rebalance(rng: &mut Rng, ledger: &mut Ledger) {
    let total: u64 = ledger.accounts.iter().map(|account| account[2]).sum();
    ledger.words[4] = ledger.words[4].min(total).min(POOL_MOST);
    let credited = total - ledger.words[4];
    spread_credits(rng, ledger, credited);
}

/// A credited sum at its bound, or two that balance only if they wrap.
fn damage_credited(rng: &mut Rng, ledger: &mut Ledger) {
    let index = rng.index(ledger.accounts.len());
    if index > 0 && rng.one_in(2) {
        let half = 1 << 63;
        ledger.accounts[index - 1][3] = ledger.accounts[index - 1][3].wrapping_add(half);
        ledger.accounts[index][3] = ledger.accounts[index][3].wrapping_add(half);
    } else {
        ledger.accounts[index][3] = rng.pick(&[CREDITED_MOST, CREDITED_MOST + 1, u64::MAX]);
    }
}

/// One of the sums off by one, or by a multiple of 2^32.
fn damage_balance(rng: &mut Rng, ledger: &mut Ledger) {
    let index = rng.index(ledger.accounts.len());
    let account = &mut ledger.accounts[index];
    match rng.below(6) {
        0 => account[2] = account[2].saturating_sub(1),
        1 => account[3] += 1,
        2 => account[3] = account[3].saturating_sub(1),
        3 => ledger.words[4] += 1,
        4 => ledger.words[4] = ledger.words[4].saturating_sub(1),
        _ => account[3] += HIGH,
    }
}

/// Ground 8: terms other than the ledger's.
fn damage_file_terms(rng: &mut Rng, file: &mut IntervalFile) {
    if rng.one_in(2) {
        let value = file.head[2];
        file.head[2] = rng.pick(&[value - 1, value + 1, value ^ (1 << 31), 0, value]);
    } else {
        file.head[3] = rng.pick(&[0, 364, 365, 366, 367, file.head[3] + 65_536]);
    }
}

/// Ground 9: interval, region-wide and imports.
fn damage_event(rng: &mut Rng, file: &mut IntervalFile) {
    let end = DAY_INTERVALS.wrapping_mul(file.head[3]);
    match rng.below(4) {
        0 | 1 => file.head[1] = rng.pick(&[end.wrapping_sub(1), end, end, u32::MAX, 1 << 31]),
        2 => file.head[4] = rng.pick(&[0, 1, 2, 256, u32::MAX]),
        _ => {
            let most = IMPORTS_MOST;
            let values = [most, most + 1, -most, -most - 1, i32::MIN, i32::MAX];
            file.head[5] = rng.pick(&values) as u32;
        }
    }
}

/// Ground 10: the interval next to the earliest one, or a year that is over.
fn damage_order(rng: &mut Rng, case: &mut SettleCase) {
    let interval = u64::from(case.file.head[1]);
    case.ledger.words[3] = match rng.below(6) {
        0 => interval,
        1 => u64::from(DAY_INTERVALS) * case.ledger.words[2],
        _ => interval + 1,
    };
}

/// Ground 11: number and place of the tables.
fn damage_tables(rng: &mut Rng, size: &Size, file: &mut IntervalFile) {
    let table = rng.index(file.format.tables());
    match rng.below(10) {
        0 | 1 => file.head[6 + 2 * table] = damaged_count(rng, size, file, table),
        2 | 3 => file.head[7 + 2 * table] = edge_offset(rng, file, table),
        4 => file.place_from(file.format.header_bytes() - 1 + rng.index(3)),
        5 => clear_tables(rng, file),
        6 => {
            lay_out(rng, &Size { gap: 0, ..*size }, file);
            file.length -= rng.index(2);
        }
        7 if size.long => fill_table(rng, size, file, table),
        _ => overlap(rng, file, table),
    }
}

/// A number of rows, points or schedules: next to what is there, at its bound, or one whose bytes fit only if a product
/// wraps.
fn damaged_count(rng: &mut Rng, size: &Size, file: &IntervalFile, table: usize) -> u32 {
    let counts =
        [file.rows.len(), file.points.len(), file.schedules.len()].map(|count| count as u32);
    let most = [ROWS_MOST, POINTS_MOST, SCHEDULES_MOST][table] as u32;
    let count = counts[table];
    let near = [
        count.saturating_sub(1),
        count + 1,
        0,
        512,
        513,
        600,
        most,
        most + 1,
    ];
    let far = [
        1 << 26,
        1 << 29,
        (1 << 29) + count,
        (1 << 30) + count,
        u32::MAX,
    ];
    size.pick_count(rng, &[&near[..], &far].concat())
}

/// As many rows, points or schedules as are allowed, or one more, all really there.
fn fill_table(rng: &mut Rng, size: &Size, file: &mut IntervalFile, table: usize) {
    let more = rng.index(2);
    match table {
        0 => {
            let last = file.rows[file.rows.len() - 1];
            file.rows.resize(ROWS_MOST + more, last);
        }
        1 => file.points.resize(POINTS_MOST + more, [0, 0]),
        _ => file.schedules.resize(SCHEDULES_MOST + more, [0; 3]),
    }
    lay_out(rng, size, file);
}

/// An offset at an end of the file, or one that fits only if it wraps.
fn edge_offset(rng: &mut Rng, file: &IntervalFile, table: usize) -> u32 {
    let [header, bytes, end] = [
        file.format.header_bytes(),
        file.table_bytes()[table],
        file.length,
    ]
    .map(|bytes| bytes as u32);
    let near = end.saturating_sub(bytes);
    let wrap = 0u32.wrapping_sub(bytes);
    match rng.below(3) {
        0 => rng.pick(&[0, 40, header - 1, header, near, near + 1]),
        1 => rng.pick(&[end, end + 1, 1 << 31, u32::MAX]),
        _ => rng.pick(&[wrap, wrap.wrapping_add(header), wrap.wrapping_add(end)]),
    }
}

/// No points, no schedules or neither, with the offset of an empty table in and around the file.
fn clear_tables(rng: &mut Rng, file: &mut IntervalFile) {
    let table = rng.index(file.format.tables() - 1) + 1;
    if table == 1 || rng.one_in(2) {
        file.points.clear();
    }
    file.schedules.clear();
    for row in &mut file.rows {
        (row[13], row[14]) = (0, 0);
    }
    file.place_from(file.rows_at);
    file.length += rng.index(3);
    let inside = file.rows_at as u32 + 1;
    let [header, length] = [file.format.header_bytes(), file.length].map(|bytes| bytes as u32);
    file.head[7 + 2 * table] =
        rng.pick(&[0, header - 1, header, inside, length, length + 1, u32::MAX]);
}

/// Two tables that touch or share one byte, or start together; none is empty.
fn overlap(rng: &mut Rng, file: &mut IntervalFile, first: usize) {
    if file.points.is_empty() {
        file.points.push([0, 0]);
    }
    if file.schedules.is_empty() {
        file.schedules.push([MARKET, 0, 1]);
    }
    let sizes = file.table_bytes();
    let tables = file.format.tables();
    let second = (first + 1 + rng.index(tables - 1)) % tables;
    let (start, shared) = (file.format.header_bytes() + rng.index(3), rng.index(2));
    let mut at = [start; 3];
    at[second] = match rng.below(5) {
        0 => start + 8 * shared,
        _ => start + sizes[first] - shared,
    };
    let end = (start + sizes[first]).max(at[second] + sizes[second]);
    let third = 3 - first - second;
    at[third] = end;
    file.place_three(at, end + sizes[third]);
}

/// Ground 12: row ids that do not rise or have no account.
fn damage_row_ids(rng: &mut Rng, case: &mut SettleCase) {
    let rows = &mut case.file.rows;
    let index = rng.index(rows.len());
    let id = rows[index][0];
    match rng.below(7) {
        0 => rows[index][0] = id.wrapping_add(1),
        1 => rows[index][0] = id.wrapping_sub(1),
        2 => rows[index][0] = rng.pick(&[0, u32::MAX]),
        3 if index > 0 => rows[index][0] = rows[index - 1][0],
        4 if index > 0 => {
            rows[index][0] = rows[index - 1][0];
            rows[index - 1][0] = id;
        }
        3..=5 => {
            let account = case
                .ledger
                .accounts
                .iter_mut()
                .find(|a| a[0] == u64::from(id));
            if let Some(account) = account {
                account[0] += HIGH;
            }
        }
        _ => {
            let last = case.ledger.accounts.len() - 1;
            case.ledger.accounts[last][0] |= HIGH;
        }
    }
}

/// Ground 13: one word of a row at or beyond its bound.
fn damage_row(rng: &mut Rng, file: &mut IntervalFile) {
    let most = KW_MOST as i32;
    let price = PRICE_MOST;
    let index = rng.index(file.rows.len());
    let row = &mut file.rows[index];
    let word = rng.pick(&[1, 2, 3, 4, 5, 6, 7, 8, 9, 9, 10, 11, 11, 14]);
    match word {
        1 => row[1] = rng.pick(&[3, 4, 5, 6, 255, 256, u32::MAX]),
        4 | 5 => {
            let values = [most, most + 1, -most, -most - 1, i32::MIN, i32::MAX];
            row[word] = rng.pick(&values) as u32;
        }
        9 if rng.one_in(2) => row[9] = row[8] + rng.below(2) as u32,
        10 => row[10] = rng.pick(&[0, 1, 2, 256, u32::MAX]),
        11 => {
            let values = [price, price + 1, -price, -price - 1, i32::MIN, i32::MAX];
            row[11] = rng.pick(&values) as u32;
        }
        14 => (row[1], row[2]) = (rng.pick(&[4, 5]), rng.below(2) as u32),
        _ => {
            row[word] = rng.pick(&[KW_MOST, KW_MOST + 1, 1 << 31, u32::MAX]);
            if word == 9 && rng.one_in(2) {
                row[8] = rng.pick(&[row[9], KW_MOST]);
            }
        }
    }
}

/// Ground 18: number, place and kind of a row's schedules, and the one dispatched on.
fn damage_schedules(rng: &mut Rng, size: &Size, file: &mut IntervalFile) {
    if file.format == Format::One {
        *file = file.clone().in_format_2();
    }
    let row = rng.index(file.rows.len());
    if file.rows[row][13] == 0 || rng.one_in(4) {
        let count = rng.pick(&[1, 2, ROW_SCHEDULES_MOST, ROW_SCHEDULES_MOST + 1]);
        append_schedules(rng, size, file, row, count);
    }
    let count = file.rows[row][13];
    match rng.below(5) {
        0 => {
            file.rows[row][13] =
                size.pick_count(rng, &[3, 4, 5, 6, 255, 256, 260, 1 << 31, u32::MAX])
        }
        1 => {
            let schedules = file.schedules.len() as u32;
            file.rows[row][12] = damaged_first(rng, file.rows[row][12], count, schedules);
        }
        2 => {
            let named = file.rows[row][12] as usize + rng.index(count as usize);
            file.schedules[named][0] = rng.pick(&[0, 1, 2, 3, 4, 255, 257, 1 << 31, u32::MAX]);
        }
        3 => {
            file.rows[row][14] = rng.pick(&[count - 1, count, count + 1, 4, 256, 1 << 31, u32::MAX])
        }
        _ => {
            let first = rng.pick(&[0, 1, 1 << 31, u32::MAX]);
            let dispatched = rng.pick(&[0, 1, 2, 256, u32::MAX]);
            file.rows[row][12..].copy_from_slice(&[first, 0, dispatched]);
        }
    }
}

/// Gives a row fresh schedules at the table's end, as long as there is room; each has the first point.
fn append_schedules(rng: &mut Rng, size: &Size, file: &mut IntervalFile, row: usize, count: usize) {
    let first = (SCHEDULES_MOST - count).min(file.schedules.len());
    file.schedules.truncate(first);
    if file.points.is_empty() {
        file.points.push([0, 0]);
    }
    for index in 0..count as u32 {
        file.schedules.push([MARKET + index % 3, 0, 1]);
    }
    let dispatched = rng.index(count) as u32;
    file.rows[row][12..].copy_from_slice(&[first as u32, count as u32, dispatched]);
    lay_out(rng, size, file);
}

/// A first entry at the table's end, behind it, or in it only if it wraps.
fn damaged_first(rng: &mut Rng, first: u32, count: u32, entries: u32) -> u32 {
    let near = entries.saturating_sub(count);
    let wrap = 0u32.wrapping_sub(count);
    let high = first.wrapping_add(rng.pick(&[1 << 29, 1 << 31]));
    rng.pick(&[near, near + 1, entries, wrap, u32::MAX, high])
}

/// What names a curve: a row of format 1, or a schedule.
#[derive(Clone, Copy)]
enum Namer {
    Row(usize),
    Schedule(usize),
}

/// First point and number of points.
fn curve_words(file: &mut IntervalFile, namer: Namer) -> &mut [u32] {
    match namer {
        Namer::Row(row) => &mut file.rows[row][12..14],
        Namer::Schedule(schedule) => &mut file.schedules[schedule][1..],
    }
}

/// What names a curve of some row; one of format 2 without schedules gets one.
fn some_namer(rng: &mut Rng, size: &Size, file: &mut IntervalFile) -> Namer {
    let row = rng.index(file.rows.len());
    if file.format == Format::One {
        return Namer::Row(row);
    }
    if file.rows[row][13] == 0 {
        append_schedules(rng, size, file, row, 1);
    }
    let [first, count] = [12, 13].map(|word| file.rows[row][word] as usize);
    Namer::Schedule(first + rng.index(count))
}

/// Ground 14: number, place and values of the points of a row or schedule.
fn damage_points(rng: &mut Rng, size: &Size, file: &mut IntervalFile) {
    let namer = some_namer(rng, size, file);
    match rng.below(8) {
        0 => {
            let count = CURVE_POINTS_MOST + rng.index(2);
            append_curve(rng, size, file, namer, count);
        }
        1 => curve_words(file, namer).copy_from_slice(&[rng.pick(&[0, 1, 1 << 31, u32::MAX]), 0]),
        2 => {
            let count = size.pick_count(rng, &[10, 11, 12, 255, 256, 600, 1 << 31, u32::MAX]);
            curve_words(file, namer)[1] = count;
        }
        3 | 4 => {
            let points = file.points.len() as u32;
            let words = curve_words(file, namer);
            words[1] = words[1].max(1);
            words[0] = damaged_first(rng, words[0], words[1], points);
        }
        _ => {
            let count = 1 + rng.index(4);
            append_curve(rng, size, file, namer, count);
            damage_curve(rng, file, namer);
        }
    }
}

/// Names a fresh curve at the table's end.
fn append_curve(rng: &mut Rng, size: &Size, file: &mut IntervalFile, namer: Namer, count: usize) {
    if file.points.len() + count > POINTS_MOST {
        return;
    }
    let first = file.points.len() as u32;
    for step in 0..count as i64 {
        let price = -2_000 + 500 * step + rng.between(0, 499);
        let kw = (1_000 * step) as u64 + rng.below(1_000);
        file.points.push([price as i32 as u32, kw as u32]);
    }
    curve_words(file, namer).copy_from_slice(&[first, count as u32]);
    lay_out(rng, size, file);
}

/// One word of a curve at or beyond its bound, level with the one before or below it.
fn damage_curve(rng: &mut Rng, file: &mut IntervalFile, namer: Namer) {
    let price = PRICE_MOST;
    let words = curve_words(file, namer);
    let (first, count) = (words[0] as usize, words[1] as usize);
    let points = file.points.get_mut(first..first + count);
    let Some(points) = points.filter(|points| !points.is_empty()) else {
        return;
    };
    let index = rng.index(count);
    match rng.below(6) {
        0 => points[0][0] = rng.pick(&[-price, -price - 1, i32::MIN]) as u32,
        1 => points[count - 1][0] = rng.pick(&[price, price + 1, i32::MAX]) as u32,
        2 => points[count - 1][1] = rng.pick(&[KW_MOST, KW_MOST + 1, 1 << 31, u32::MAX]),
        3 if index > 0 => {
            points[index][0] = points[index - 1][0].wrapping_sub(rng.below(2) as u32);
        }
        4 if index > 0 => {
            points[index][1] = points[index - 1][1].saturating_sub(rng.below(2) as u32);
        }
        3 | 4 => points[0][1] = 0,
        _ => {
            let word = rng.index(2);
            points[index][word] = rng.draw() as u32;
        }
    }
}
