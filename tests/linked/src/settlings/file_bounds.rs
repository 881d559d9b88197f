//! Grounds 7, 8, 9, 11 and 15: files of both formats and result buffers on both sides of every bound.

use super::{in_format_2, listing, listings, plain, short_row, with};
use npa_tests::layout::{
    point, result_bytes, Format, IntervalFile, FILE_MOST, IMPORTS_MOST, MARKET, ROWS_MOST,
};
use npa_tests::random::{rising, SettleCase};

const TOP: u32 = 1 << 31;

pub fn cases() -> Vec<SettleCase> {
    let mut cases = lengths();
    cases.extend(header_words());
    cases.extend(imports());
    cases.extend(year_ends());
    cases.extend(counts());
    cases.extend(full_tables());
    cases.extend(full_schedules());
    cases.extend(first_bytes());
    cases.extend(offsets());
    cases.extend(empty_tables());
    cases.extend(shared_bytes());
    cases.extend(nested_tables());
    cases.extend(nested_schedules());
    cases.extend(rooms());
    cases
}

/// The numbers of the tables of a format, in every order.
fn orders(format: Format) -> Vec<Vec<usize>> {
    match format {
        Format::One => vec![vec![0, 1], vec![1, 0]],
        Format::Two => [
            [0, 1, 2],
            [0, 2, 1],
            [1, 0, 2],
            [1, 2, 0],
            [2, 0, 1],
            [2, 1, 0],
        ]
        .map(Vec::from)
        .to_vec(),
    }
}

/// Puts the tables into this order from an offset on, with a gap behind each and bytes behind the last gap.
fn place_in(file: &mut IntervalFile, order: &[usize], start: usize, gap: usize, tail: usize) {
    let sizes = file.table_bytes();
    let (mut at, mut end) = ([start; 3], start);
    for table in order {
        at[*table] = end;
        end += sizes[*table] + gap;
    }
    file.place_three(at, end - gap + tail);
}

/// The listing's file cut at every length, and stretched to every one near the bounds.
fn lengths() -> Vec<SettleCase> {
    let mut cases = Vec::new();
    for base in listings() {
        let lengths = (0..=base.file.length + 1)
            .chain(49_148..=49_156)
            .chain(61_436..=61_444);
        cases.extend(lengths.map(|length| with(&base, |case| case.file.length = length)));
    }
    cases
}

/// The first five words at their bounds, and right only in some of their bytes.
fn header_words() -> Vec<SettleCase> {
    let last = 288 * 365;
    let values: [&[u32]; 5] = [
        &[0, 1, 2, 3, 255, 256, 257, 258, 65_537, TOP + 1, TOP + 2],
        &[0, 1, 999, 1_000, 1_001, last - 2, last - 1, last, last + 1],
        &[0, 1, 29_999, 30_000, 30_001, 30_256, 200_001],
        &[0, 109, 364, 365, 366, 367, 621, 65_901],
        &[0, 1, 2, 3, 255, 256, 257, 65_536],
    ];
    let mut cases = Vec::new();
    for base in listings() {
        for (word, values) in values.iter().enumerate() {
            let right = base.file.head[word];
            let high = [1 << 16, 1 << 24, TOP].map(|high| right + high);
            for value in values.iter().copied().chain(high).chain([u32::MAX]) {
                cases.push(with(&base, |case| case.file.head[word] = value));
            }
        }
    }
    cases
}

/// Imports at their bounds and around 0, region-wide and not.
fn imports() -> Vec<SettleCase> {
    let most = IMPORTS_MOST;
    let far = [i32::MIN, i32::MIN + 1, i32::MAX];
    let near = (-2..=2)
        .chain(most - 2..=most + 2)
        .chain(-most - 2..=-most + 2);
    let mut cases = Vec::new();
    for kw in near.chain(far).chain([50_000, -50_000]) {
        for region_wide in 0..=2 {
            cases.push(with(&listing(), |case| {
                case.file.head[4] = region_wide;
                case.file.head[5] = kw as u32;
            }));
        }
    }
    cases
}

/// The last intervals of both kinds of year.
fn year_ends() -> Vec<SettleCase> {
    let mut cases = Vec::new();
    for days in [365, 366] {
        for interval in [288 * 365 - 1, 288 * 365, 288 * 366 - 1, 288 * 366] {
            cases.push(with(&listing(), |case| {
                case.ledger.words[2] = days.into();
                case.file.head[3] = days;
                case.file.head[1] = interval;
            }));
        }
    }
    cases
}

/// Count words at their bounds, and those whose bytes fit only if a product of 32 bits wraps.
fn counts() -> Vec<SettleCase> {
    let near: [&[u32]; 3] = [
        &[0, 1, 2, 3, 4, 5, 255, 256, 260, 511, 512, 513],
        &[0, 1, 5, 6, 7, 255, 256, 262, 2_047, 2_048, 2_049],
        &[0, 1, 2, 3, 4, 255, 256, 259, 1_023, 1_024, 1_025],
    ];
    let wide = [1 << 16, 1 << 26, 1 << 28, 1 << 29, 1 << 30, TOP];
    let mut cases = Vec::new();
    for base in listings() {
        for (table, near) in near[..base.file.format.tables()].iter().enumerate() {
            let word = 6 + 2 * table;
            let right = base.file.head[word];
            let far = wide.iter().flat_map(|high| [*high, high + right]);
            for count in near.iter().copied().chain(far).chain([u32::MAX]) {
                let case = with(&base, |case| case.file.head[word] = count);
                // Room for all that a count may claim.
                cases.push(with(&case, |case| {
                    case.file.length = case.file.format.most();
                    case.result_length = result_bytes(ROWS_MOST + 1);
                }));
                cases.push(case);
            }
        }
    }
    cases
}

/// As many rows and points as there may be, and one more, all really there.
fn full_tables() -> Vec<SettleCase> {
    let mut cases = Vec::new();
    for rows in [1, 511, 512, 513] {
        for points in [0, 1, 2_047, 2_048, 2_049] {
            let mut case = plain(512, rows);
            case.file.points = vec![point(0, 5); points];
            for order in orders(Format::One) {
                place_in(&mut case.file, &order, 40, 0, 0);
                cases.push(case.clone());
            }
        }
    }
    cases
}

/// As many schedules as there may be, and one more, beside few and many rows and points, all really there. The last
/// row names the last schedule.
fn full_schedules() -> Vec<SettleCase> {
    let mut cases = Vec::new();
    for (rows, points) in [
        (1, 1),
        (2, 2_048),
        (512, 1),
        (512, 2_048),
        (513, 2_048),
        (512, 2_049),
    ] {
        for schedules in [1, 2, 1_023, 1_024, 1_025] {
            let mut case = in_format_2(&plain(512, rows));
            case.file.points = vec![point(0, 5); points];
            case.file.schedules = vec![[MARKET, points as u32 - 1, 1]; schedules];
            case.file.rows[rows - 1][12..].copy_from_slice(&[schedules as u32 - 1, 1, 0]);
            for order in orders(Format::Two) {
                place_in(&mut case.file, &order, 48, 0, 0);
                cases.push(case.clone());
            }
            place_in(&mut case.file, &[2, 1, 0], 49, 0, 0);
            case.file.length = FILE_MOST;
            cases.push(case);
        }
    }
    cases
}

/// Tables around the header's end, in every order, the bytes moved with them.
fn first_bytes() -> Vec<SettleCase> {
    let mut cases = Vec::new();
    for base in listings() {
        let header = base.file.format.header_bytes();
        for order in orders(base.file.format) {
            for start in header - 4..=header + 8 {
                for (gap, tail) in [(0, 0), (0, 1), (1, 0), (1, 2), (2, 1), (3, 2)] {
                    cases.push(with(&base, |case| {
                        place_in(&mut case.file, &order, start, gap, tail)
                    }));
                }
            }
        }
    }
    cases
}

/// Offset words at both ends of the file, and those that fit only if a sum of 32 bits wraps.
fn offsets() -> Vec<SettleCase> {
    let mut cases = Vec::new();
    for base in listings() {
        let case = with(&base, |case| {
            let header = case.file.format.header_bytes();
            place_in(&mut case.file, &[0, 1, 2], header + 7, 18, 18);
        });
        let end = case.file.length as u32;
        for table in 0..case.file.format.tables() {
            let bytes = case.file.table_bytes()[table] as u32;
            let last = end - bytes;
            let wrapping = (0..=60).chain(end - 2..=end + 2);
            let offsets = (0..=60)
                .chain(last - 3..=last + 3)
                .chain(end - 3..=end + 3)
                .chain([TOP, TOP + 47])
                .chain(u32::MAX - 15..=u32::MAX)
                .chain(wrapping.map(|sum| sum.wrapping_sub(bytes)));
            for offset in offsets {
                cases.push(with(&case, |case| case.file.head[7 + 2 * table] = offset));
            }
        }
    }
    cases
}

/// An empty table of points or of schedules at every place in and around the file, beside one that is empty or not.
fn empty_tables() -> Vec<SettleCase> {
    let mut bases = vec![(plain(4, 2), 9)];
    let two = in_format_2(&plain(4, 2));
    bases.extend([(two.clone(), 9), (two.clone(), 11)]);
    bases.push((
        with(&two, |case| case.file.points = vec![point(0, 5); 3]),
        11,
    ));
    bases.push((
        with(&two, |case| case.file.schedules = vec![[u32::MAX; 3]; 3]),
        9,
    ));
    let mut cases = Vec::new();
    for (base, word) in bases {
        let header = base.file.format.header_bytes();
        for (rows_at, tail) in [(header, 0), (header, 5), (header + 3, 0), (header + 3, 5)] {
            let case = with(&base, |case| {
                place_in(&mut case.file, &[0, 1, 2], rows_at, 0, tail)
            });
            let [header, rows_at, end] = [header, rows_at, case.file.length].map(|at| at as u32);
            let far = [
                0,
                1,
                39,
                40,
                header - 1,
                header,
                header + 1,
                TOP,
                TOP + header,
                u32::MAX,
            ];
            for offset in (rows_at..=rows_at + 64).chain(end - 2..=end + 2).chain(far) {
                cases.push(with(&case, |case| case.file.head[word] = offset));
            }
        }
    }
    cases
}

/// Two tables that are apart, touch or share some bytes, in either order; a third lies behind them.
fn shared_bytes() -> Vec<SettleCase> {
    let mut cases = Vec::new();
    for base in listings() {
        let sizes = base.file.table_bytes();
        for order in orders(base.file.format) {
            let (first, second) = (order[0], order[1]);
            for shared in (0..=10).chain([sizes[second], sizes[second] + 1]) {
                for start in [0, 2].map(|gap| base.file.format.header_bytes() + gap) {
                    let behind = start + sizes[first] + 2 - shared.min(sizes[first] + 2);
                    let end = behind + sizes.iter().sum::<usize>();
                    let mut at = [end - sizes[2]; 3];
                    (at[first], at[second]) = (start, behind);
                    if let Some(third) = order.get(2) {
                        at[*third] = end;
                    }
                    cases.push(with(&base, |case| {
                        case.file.place_three(at, end + sizes[0])
                    }));
                }
            }
        }
    }
    cases
}

/// One table inside the other.
fn nested_tables() -> Vec<SettleCase> {
    let mut cases = Vec::new();
    for at in 40..=170 {
        // Two rows of 112 bytes and one point; then one row in 20 points of 160 bytes.
        let mut case = plain(4, 2);
        case.file.points = vec![point(0, 5)];
        case.file.place(48, at, 200);
        cases.push(case.clone());
        case.file.rows = vec![short_row(rising(1)[0])];
        case.file.points = vec![point(0, 5); 20];
        case.result_length = result_bytes(1);
        case.file.place(at, 48, 260);
        cases.push(case);
    }
    cases
}

/// A table of format 2 inside another, in every pair.
fn nested_schedules() -> Vec<SettleCase> {
    let mut cases = Vec::new();
    let base = |rows, points, schedules| {
        let mut case = in_format_2(&plain(4, rows));
        case.file.points = vec![point(0, 5); points];
        case.file.schedules = vec![[MARKET, 0, 1]; schedules];
        case
    };
    for at in 48..=190 {
        // Two rows of 120 bytes, 15 points of 120 bytes and 10 schedules of 120 bytes, each at byte 60.
        let [rows, points, schedules] = [base(2, 1, 1), base(1, 15, 1), base(1, 1, 10)];
        for (case, tables) in [
            (&rows, [60, at, 200]),
            (&rows, [60, 200, at]),
            (&points, [at, 60, 260]),
            (&points, [260, 60, at]),
            (&schedules, [at, 260, 60]),
            (&schedules, [260, at, 60]),
        ] {
            cases.push(with(case, |case| case.file.place_three(tables, 330)));
        }
    }
    cases
}

/// Result buffers of every length around the one needed, and far from it.
fn rooms() -> Vec<SettleCase> {
    let mut cases = Vec::new();
    for rows in [1, 2, 4, 511, 512] {
        let case = plain(512, rows);
        let needed = result_bytes(rows);
        let lengths = (0..=65).chain(needed - 65..=needed + 65);
        for length in lengths.chain([needed + 4_096]) {
            cases.push(with(&case, |case| case.result_length = length));
        }
    }
    cases
}

#[cfg(test)]
mod tests {
    use super::super::answer;
    use super::*;

    /// The answers to some cases.
    fn answers(cases: &[SettleCase]) -> Vec<u32> {
        cases.iter().map(answer).collect()
    }

    #[test]
    fn both_sides_are_there() {
        for (cases, ground) in [
            (lengths(), 7),
            (header_words(), 8),
            (imports(), 9),
            (year_ends(), 9),
            (counts(), 11),
            (full_tables(), 11),
            (full_schedules(), 11),
            (first_bytes(), 11),
            (offsets(), 11),
            (empty_tables(), 11),
            (shared_bytes(), 11),
            (nested_tables(), 11),
            (nested_schedules(), 11),
            (rooms(), 15),
        ] {
            let answers = answers(&cases);
            assert!(
                answers.contains(&0) && answers.contains(&ground),
                "{ground}"
            );
        }
    }

    #[test]
    fn year_ends_are_where_they_should_be() {
        assert_eq!(answers(&year_ends()), [0, 9, 9, 9, 0, 0, 0, 9]);
    }

    #[test]
    fn full_tables_are_accepted() {
        let accepted = |cases: &[SettleCase]| answers(cases).iter().filter(|a| **a == 0).count();
        assert_eq!(accepted(&full_tables()), 2 * 3 * 4);
        assert_eq!(accepted(&full_schedules()), 7 * 4 * 4);
    }
}
