//! The figures the trade gave, each through opening, settling or listing.

use npa_tests::layout::{
    ledger_bytes, long_at, point, result_bytes, stream_of, Format, IntervalFile, Ledger, Opening,
    Row, COST, FILE_MOST, MARKET, PLS,
};
use npa_tests::listing::{self, curve_a, DAYS, IDS, NET_CONE};
use npa_tests::reference::{npalist, open, settle, HEADING};
use npa_tests::streams::document;

/// Settles one file into a ledger; the answer, the row words and the interval words.
fn settled(ledger: &Ledger, file: &IntervalFile) -> (u32, Vec<[u64; 8]>, [u64; 8]) {
    let mut ledger = ledger.bytes();
    let mut result = vec![0xaa; result_bytes(file.rows.len())];
    let ground = settle(&mut ledger, &file.bytes(), &mut result);
    let words = |group: usize| std::array::from_fn(|i| long_at(&result, 8 * group + i).unwrap());
    let rows = (1..=file.rows.len()).map(words).collect();
    (ground, rows, words(0))
}

/// The words of an accepted file of one row, in a new ledger.
fn one_row(net_cone: u32, row: Row, points: &[[u32; 2]]) -> [u64; 8] {
    let ledger = Ledger::new(net_cone, DAYS, &[row.id]);
    let file = IntervalFile::new(net_cone, DAYS, 0, vec![row.words()], points.to_vec());
    let (ground, rows, _) = settled(&ledger, &file);
    assert_eq!(ground, 0);
    rows[0]
}

/// The scheduled kW, seen as the bonus of an energy-only plant that gives all it can.
fn scheduled(points: &[[u32; 2]], range: (u32, u32), online: u32, lmp: i32) -> u64 {
    let row = Row {
        id: 1,
        kind: 4,
        metered: 4_000_000,
        minimum: range.0,
        maximum: range.1,
        online,
        lmp,
        count: points.len() as u32,
        ..Row::default()
    };
    one_row(NET_CONE, row, points)[5]
}

#[test]
fn schedule_on_curve_a() {
    let range = (20_000, 110_000);
    let cases = [
        (999, 20_000),
        (3_001, 60_020),
        (5_000, 100_000),
        (5_001, 110_000),
    ];
    for (lmp, kw) in cases {
        assert_eq!(scheduled(&curve_a(), range, 1, lmp), kw, "LMP {lmp}");
    }
    assert_eq!(scheduled(&curve_a(), range, 0, 999), 0);
}

#[test]
fn schedule_at_negative_prices() {
    let points = [point(-300, 0), point(-293, 10)];
    for online in [0, 1] {
        assert_eq!(scheduled(&points, (0, 10), online, -299), 1);
    }
}

#[test]
fn prd_is_considered_from_a_point_with_kw() {
    let points = [point(500, 0), point(2_000, 3_000)];
    let row = Row {
        id: 1,
        kind: 3,
        committed: 7,
        metered: 9,
        lmp: 1_999,
        count: 2,
        ..Row::default()
    };
    assert_eq!(one_row(NET_CONE, row, &points), [0; 8]);
    let reached = Row { lmp: 2_000, ..row };
    assert_eq!(
        one_row(NET_CONE, reached, &points),
        [7, 9, 0, 0, 0, 2, 0, 0]
    );
}

#[test]
fn a_charge_is_rounded_to_the_nearest_cent() {
    for (net_cone, short, cents) in [
        (1, 493, 0),
        (1, 494, 1),
        (1, 986, 1),
        (1, 1_479, 1),
        (1, 1_480, 2),
        (36, 999, 36),
        (36, 1_000, 37), // 36.5
        (36, 1_001, 37),
        (36, 3_000, 110), // 109.5
    ] {
        let row = Row {
            id: 1,
            kind: 1,
            committed: short,
            ..Row::default()
        };
        assert_eq!(
            one_row(net_cone, row, &[]),
            [short.into(), 0, 0, 0, short.into(), 0, cents, 0],
            "{short} kW at {net_cone}"
        );
    }
}

/// A ledger with one account of 1 kW and so many cents charged, all carried.
fn charged_ledger(charged: u64) -> Ledger {
    let mut ledger = Ledger::new(NET_CONE, DAYS, &[1]);
    ledger.accounts[0] = [1, 1, charged, 0];
    ledger.words[4] = charged;
    ledger
}

#[test]
fn a_rounded_charge_is_cut_to_the_limit() {
    let row = Row {
        id: 1,
        kind: 1,
        committed: 1,
        ..Row::default()
    };
    let file = IntervalFile::new(NET_CONE, DAYS, 0, vec![row.words()], vec![]);
    for (charged, charge) in [(0, 30), (16_395, 30), (16_400, 25), (16_425, 0)] {
        let (ground, rows, interval) = settled(&charged_ledger(charged), &file);
        assert_eq!(ground, 0);
        assert_eq!(rows[0][6], charge);
        assert_eq!(interval[3], charged + charge);
    }
    assert_eq!(settled(&charged_ledger(16_426), &file).0, 6);
}

#[test]
fn limits_and_credits_are_rounded_down() {
    // 1 kW at Net CONE 1 has a limit of 0.5475 cents, so nothing is ever charged for it.
    let mut ledger = Ledger::new(1, DAYS, &[1]);
    ledger.accounts[0] = [1, 1, 0, 0];
    let row = |id, committed, metered| Row {
        id,
        kind: 1,
        committed,
        metered,
        ..Row::default()
    };
    let file = IntervalFile::new(1, DAYS, 0, vec![row(1, 1, 0).words()], vec![]);
    assert_eq!(settled(&ledger, &file).0, 0);
    (ledger.accounts[0][2], ledger.words[4]) = (1, 1);
    assert_eq!(settled(&ledger, &file).0, 6);
    // 1 cent shared by two: half a cent each.
    let rows = vec![
        row(1, 494, 0).words(),
        row(2, 0, 5).words(),
        row(3, 0, 5).words(),
    ];
    let file = IntervalFile::new(1, DAYS, 0, rows, vec![]);
    let (ground, rows, interval) = settled(&Ledger::new(1, DAYS, &[1, 2, 3]), &file);
    assert_eq!((ground, rows[0][6], rows[1][7], rows[2][7]), (0, 1, 0, 0));
    assert_eq!(interval, [0, 1, 0, 1, 10, 10, 0, 3]);
}

#[test]
fn a_pool_is_shared_by_bonus() {
    let mut ledger = Ledger::new(NET_CONE, DAYS, &[1, 2, 3]);
    ledger.accounts[2] = [3, 4_000_000, 557_628, 0];
    ledger.words[4] = 557_628;
    let row = |id, metered| Row {
        id,
        kind: 1,
        metered,
        ..Row::default()
    };
    let rows = vec![row(1, 30_000).words(), row(2, 10_001).words()];
    let file = IntervalFile::new(NET_CONE, DAYS, 0, rows, vec![]);
    let (ground, rows, interval) = settled(&ledger, &file);
    assert_eq!(ground, 0);
    assert_eq!((rows[0][7], rows[1][7]), (418_210, 139_417));
    assert_eq!(interval, [0, 0, 557_627, 1, 40_001, 40_001, 0, 2]);
}

#[test]
fn expected_is_rounded_down_once() {
    let row = |id, committed, metered| Row {
        id,
        committed,
        metered,
        ..Row::default()
    };
    let rows = vec![
        row(1, 100_000, 80_000).words(),
        row(2, 50_000, 50_001).words(),
    ];
    let file = IntervalFile::new(NET_CONE, DAYS, 0, rows, vec![]);
    let (ground, rows, interval) = settled(&Ledger::new(NET_CONE, DAYS, &[1, 2]), &file);
    assert_eq!(ground, 0);
    assert_eq!(rows[0][0], 86_667);
    assert_eq!(
        (interval[0], interval[5], interval[6]),
        (866_673, 130_001, 150_000)
    );
}

/// The bonus of a row without points, alone in its file.
fn bonus_without_curve(row: Row) -> u64 {
    let words = one_row(NET_CONE, Row { id: 1, ..row }, &[]);
    assert_eq!(words[3], 0, "nothing is excused without a curve");
    words[5]
}

#[test]
fn bonus_without_a_curve_is_cut_to_what_is_available() {
    let river = Row {
        kind: 4,
        owned: 40_000,
        metered: 35_000,
        ..Row::default()
    };
    assert_eq!(bonus_without_curve(river), 35_000);
    let more = Row {
        metered: 45_000,
        ..river
    };
    assert_eq!(bonus_without_curve(more), 40_000);
    // The emergency maximum does not cut, and the economic minimum does not raise.
    let limited = Row {
        maximum: 100,
        ..river
    };
    assert_eq!(bonus_without_curve(limited), 35_000);
    for (planned, forced, bonus) in [
        (10_000, 0, 30_000),
        (0, 10_000, 30_000),
        (39_000, 0, 1_000),
        (20_000, 20_000, 0),
        (20_000, 20_001, 0),
        (4_000_000, 4_000_000, 0),
    ] {
        let out = Row {
            planned,
            forced,
            minimum: 5_000,
            maximum: 40_000,
            online: 1,
            ..river
        };
        assert_eq!(bonus_without_curve(out), bonus, "{planned} and {forced}");
    }
}

#[test]
fn bonus_without_a_curve_begins_at_the_expected() {
    // Committed to 100 of 200 kW in all, so that half of it is expected beside a plant that gives nothing.
    let bonus = |owned, forced| {
        let row = Row {
            id: 1,
            committed: 100,
            owned,
            metered: 100,
            forced,
            ..Row::default()
        };
        let idle = Row {
            id: 2,
            committed: 100,
            ..Row::default()
        };
        let rows = vec![row.words(), idle.words()];
        let file = IntervalFile::new(NET_CONE, DAYS, 0, rows, vec![]);
        let (ground, rows, _) = settled(&Ledger::new(NET_CONE, DAYS, &[1, 2]), &file);
        assert_eq!((ground, rows[0][0], rows[0][1]), (0, 50, 100));
        rows[0][5]
    };
    assert_eq!(bonus(200, 0), 50);
    assert_eq!(bonus(80, 0), 30);
    assert_eq!(bonus(80, 29), 1);
    assert_eq!(bonus(80, 30), 0);
    assert_eq!(bonus(40, 0), 0);
}

#[test]
fn one_point_is_a_curve() {
    let row = Row {
        id: 1,
        kind: 4,
        owned: 40_000,
        metered: 35_000,
        maximum: 100,
        count: 1,
        ..Row::default()
    };
    for (price, bonus) in [(-1, 100), (0, 70), (1, 0)] {
        assert_eq!(one_row(NET_CONE, row, &[point(price, 70)])[5], bonus);
    }
}

/// The words of an importer's row beside a demand resource that is 90 kW short, and those of the interval.
fn importer(region_wide: u32, row: Row) -> ([u64; 8], [u64; 8]) {
    let short = Row {
        id: 1,
        kind: 1,
        committed: 90,
        ..Row::default()
    };
    let rows = vec![
        short.words(),
        Row {
            id: 2,
            kind: 5,
            ..row
        }
        .words(),
    ];
    let mut file = IntervalFile::new(NET_CONE, DAYS, 0, rows, vec![point(0, 0)]);
    (file.head[4], file.head[5]) = (region_wide, 40);
    let (ground, rows, interval) = settled(&Ledger::new(NET_CONE, DAYS, &[1, 2]), &file);
    assert_eq!(ground, 0);
    (rows[1], interval)
}

#[test]
fn an_importer_earns_in_a_region_wide_event() {
    let row = |metered, adjustment| Row {
        metered,
        adjustment,
        ..Row::default()
    };
    let (words, interval) = importer(1, row(500, -100));
    assert_eq!(words, [0, 400, 0, 0, 0, 400, 0, 2_738]);
    // The numerator has the imports of the header alone.
    assert_eq!(interval, [0, 2_738, 2_738, 0, 400, 40, 0, 2]);
    let carried = [0, 2_738, 0, 2_738, 0, 40, 0, 2];
    for nothing in [row(0, 0), row(500, -500), row(-500, 499), row(-1, -1)] {
        assert_eq!(importer(1, nothing), ([0; 8], carried));
    }
    let without = [0, 2_738, 0, 2_738, 0, 0, 0, 2];
    assert_eq!(importer(0, row(500, -100)), ([0; 8], without));
}

#[test]
fn other_words_of_an_importer_are_not_used() {
    let plain = Row {
        metered: 400,
        ..Row::default()
    };
    let full = Row {
        owned: 7,
        planned: 300,
        forced: 200,
        maximum: 20,
        minimum: 10,
        online: 1,
        lmp: -5,
        count: 1,
        ..plain
    };
    for region_wide in [0, 1] {
        assert_eq!(importer(region_wide, full), importer(region_wide, plain));
    }
}

#[test]
fn kinds_end_at_5_and_an_importer_has_no_commitment() {
    for (kind, committed, answer) in [(5, 0, 0), (5, 1, 13), (4, 1, 13), (6, 0, 13)] {
        for region_wide in [0, 1] {
            let row = Row {
                id: 1,
                kind,
                committed,
                ..Row::default()
            };
            let mut file = IntervalFile::new(NET_CONE, DAYS, 0, vec![row.words()], vec![]);
            file.head[4] = region_wide;
            let ledger = Ledger::new(NET_CONE, DAYS, &[1]);
            assert_eq!(settled(&ledger, &file).0, answer, "kind {kind}");
        }
    }
}

// ---------------------------------------------------------------- several schedules

/// Curves of two points that give 60000, 70000 and 80000 kW at an LMP of 3000.
const CURVES: [[[u32; 2]; 2]; 3] = [
    [[1_000, 20_000], [5_000, 100_000]],
    [[1_000, 30_000], [5_000, 110_000]],
    [[1_000, 40_000], [5_000, 120_000]],
];

/// A file of one row that names a schedule for each kind and curve. So much is imported that all its kW are expected.
fn scheduled_file(row: Row, schedules: &[(u32, usize)]) -> IntervalFile {
    let named = Row {
        id: 1,
        count: schedules.len() as u32,
        ..row
    };
    let points = CURVES.concat();
    let file = IntervalFile::new(NET_CONE, DAYS, 0, vec![named.words()], points);
    let schedule = |(kind, curve): &(u32, usize)| [*kind, 2 * *curve as u32, 2];
    let mut file = file.with_schedules(schedules.iter().map(schedule).collect());
    (file.head[4], file.head[5]) = (1, 40_000_000);
    file
}

/// The words of that row.
fn scheduled_row(row: Row, schedules: &[(u32, usize)]) -> [u64; 8] {
    let file = scheduled_file(row, schedules);
    let (ground, rows, _) = settled(&Ledger::new(NET_CONE, DAYS, &[1]), &file);
    assert_eq!(ground, 0);
    rows[0]
}

/// A plant of 110000 kW that is committed to 100000 and gives 10000 at an LMP of 3000.
fn held_back() -> Row {
    Row {
        committed: 100_000,
        owned: 110_000,
        metered: 10_000,
        maximum: 110_000,
        minimum: 20_000,
        online: 1,
        lmp: 3_000,
        ..Row::default()
    }
}

/// What is excused to that plant, dispatched on one of its schedules.
fn excused(schedules: &[(u32, usize)], dispatched: u32) -> u64 {
    let row = Row {
        dispatched,
        ..held_back()
    };
    scheduled_row(row, schedules)[3]
}

#[test]
fn the_kind_of_schedule_dispatched_on_decides_which_others_count() {
    let schedules = [(MARKET, 2), (PLS, 1), (COST, 0)];
    for (dispatched, words) in [
        (0, [100_000, 10_000, 0, 20_000, 70_000, 0, 2_129_167, 0]),
        (1, [100_000, 10_000, 0, 30_000, 60_000, 0, 1_825_000, 0]),
        (2, [100_000, 10_000, 0, 40_000, 50_000, 0, 1_520_833, 0]),
    ] {
        let row = Row {
            dispatched,
            ..held_back()
        };
        assert_eq!(scheduled_row(row, &schedules), words, "{dispatched}");
    }
    // Wherever they stand.
    for (schedules, excusals) in [
        ([(COST, 0), (MARKET, 2), (PLS, 1)], [40_000, 20_000, 30_000]),
        ([(PLS, 1), (COST, 0), (MARKET, 2)], [30_000, 40_000, 20_000]),
    ] {
        assert_eq!(
            [0, 1, 2].map(|dispatched| excused(&schedules, dispatched)),
            excusals
        );
    }
}

#[test]
fn a_market_offer_above_the_cost_based_one_is_not_excused() {
    assert_eq!(excused(&[(MARKET, 0)], 0), 40_000);
    assert_eq!(excused(&[(MARKET, 0), (COST, 2)], 0), 20_000);
    assert_eq!(excused(&[(MARKET, 0), (PLS, 1)], 0), 30_000);
    assert_eq!(excused(&[(MARKET, 0), (MARKET, 2)], 0), 20_000);
    assert_eq!(excused(&[(PLS, 0), (COST, 1)], 0), 30_000);
    assert_eq!(excused(&[(PLS, 0), (PLS, 2)], 0), 20_000);
    assert_eq!(excused(&[(PLS, 0), (MARKET, 2)], 0), 40_000);
    assert_eq!(excused(&[(COST, 1), (MARKET, 2), (PLS, 2)], 0), 30_000);
}

#[test]
fn a_cost_schedule_counts_alone_even_below_another() {
    let two = [(COST, 0), (COST, 2)];
    assert_eq!(
        [0, 1].map(|dispatched| excused(&two, dispatched)),
        [40_000, 20_000]
    );
    let four = [(COST, 1), (COST, 2), (COST, 0), (MARKET, 2)];
    let excusals = [0, 1, 2, 3].map(|dispatched| excused(&four, dispatched));
    assert_eq!(excusals, [30_000, 20_000, 40_000, 20_000]);
}

#[test]
fn limits_hold_for_each_schedule_and_the_actual_for_the_highest() {
    let schedules = [(MARKET, 0), (COST, 2)];
    let economic = |row| scheduled_row(row, &schedules)[3];
    // 80000 kW of the cost schedule are cut to 65000; the market one has 60000.
    let cut = Row {
        maximum: 65_000,
        ..held_back()
    };
    assert_eq!(economic(cut), 0);
    let more = Row {
        metered: 85_000,
        ..held_back()
    };
    assert_eq!(economic(more), 15_000);
    let raised = Row {
        minimum: 90_000,
        ..held_back()
    };
    assert_eq!(economic(raised), 10_000);
    // Above the last price of both.
    assert_eq!(
        economic(Row {
            lmp: 5_001,
            ..held_back()
        }),
        0
    );
}

#[test]
fn offline_a_schedule_below_its_first_price_gives_nothing() {
    // At 999 neither curve is reached; at 1000 the first points are.
    for (online, lmp, economic) in [
        (1, 999, 80_000),
        (0, 999, 90_000),
        (0, 1_000, 60_000),
        (1, 1_000, 60_000),
    ] {
        let row = Row {
            online,
            lmp,
            ..held_back()
        };
        assert_eq!(
            scheduled_row(row, &[(MARKET, 0), (COST, 2)])[3],
            economic,
            "{online} at {lmp}"
        );
    }
    let idle = Row {
        online: 0,
        lmp: 999,
        metered: 0,
        ..held_back()
    };
    assert_eq!(scheduled_row(idle, &[(PLS, 0), (COST, 1)])[3], 100_000);
}

#[test]
fn bonus_is_cut_to_the_schedule_dispatched_on() {
    let schedules = [(MARKET, 0), (PLS, 1), (COST, 2)];
    for (dispatched, kw) in [(0, 60_000), (1, 70_000), (2, 80_000)] {
        let energy_only = Row {
            kind: 4,
            committed: 0,
            metered: 90_000,
            dispatched,
            ..held_back()
        };
        assert_eq!(
            scheduled_row(energy_only, &schedules),
            [0, 90_000, 0, 0, 0, kw, 0, 0]
        );
        let committed = Row {
            kind: 0,
            committed: 50_000,
            ..energy_only
        };
        let words = [50_000, 90_000, 0, 0, 0, kw - 50_000, 0, 0];
        assert_eq!(scheduled_row(committed, &schedules), words);
    }
    // On the first the economic rule takes 80000 kW, and the bonus stays cut to 60000.
    let above = Row {
        metered: 75_000,
        committed: 55_000,
        ..held_back()
    };
    assert_eq!(scheduled_row(above, &schedules)[5], 5_000);
}

#[test]
fn without_schedules_a_row_is_one_without_points() {
    let row = Row {
        first: u32::MAX,
        ..held_back()
    };
    assert_eq!(
        scheduled_row(row, &[]),
        [100_000, 10_000, 0, 0, 90_000, 0, 2_737_500, 0]
    );
    let river = Row {
        kind: 4,
        committed: 0,
        metered: 120_000,
        planned: 20_000,
        ..row
    };
    assert_eq!(scheduled_row(river, &[])[5], 90_000);
    let prd = Row { kind: 3, ..row };
    assert_eq!(scheduled_row(prd, &[]), [0; 8]);
}

#[test]
fn prd_has_the_schedule_dispatched_on_as_its_curve() {
    let points = vec![point(500, 0), point(2_000, 3_000), point(1_500, 1)];
    for (dispatched, lmp, considered) in [
        (0, 1_999, 0),
        (0, 2_000, 1),
        (1, 1_499, 0),
        (1, 1_500, 1),
        (1, 1_999, 1),
    ] {
        let row = Row {
            id: 1,
            kind: 3,
            committed: 7,
            metered: 9,
            lmp,
            count: 2,
            dispatched,
            ..Row::default()
        };
        let file = IntervalFile::new(NET_CONE, DAYS, 0, vec![row.words()], points.clone());
        let file = file.with_schedules(vec![[MARKET, 0, 2], [COST, 2, 1]]);
        let (ground, rows, _) = settled(&Ledger::new(NET_CONE, DAYS, &[1]), &file);
        let words = [7, 9, 0, 0, 0, 2, 0, 0].map(|word| word * considered);
        assert_eq!((ground, rows[0]), (0, words), "{dispatched} at {lmp}");
    }
}

#[test]
fn demand_efficiency_and_importers_have_no_use_for_schedules() {
    for (kind, committed) in [(1, 100_000), (2, 100_000), (5, 0)] {
        let row = Row {
            kind,
            committed,
            ..held_back()
        };
        let without = scheduled_row(row, &[]);
        for dispatched in 0..3 {
            let named = Row { dispatched, ..row };
            assert_eq!(
                scheduled_row(named, &[(MARKET, 0), (PLS, 1), (COST, 2)]),
                without
            );
        }
        let unnamed = Row {
            dispatched: 1,
            ..row
        };
        let ledger = Ledger::new(NET_CONE, DAYS, &[1]);
        assert_eq!(
            settled(&ledger, &scheduled_file(unnamed, &[(MARKET, 0)])).0,
            18
        );
        let mut empty = scheduled_file(row, &[(MARKET, 0)]);
        empty.schedules[0][2] = 0;
        assert_eq!(settled(&ledger, &empty).0, 14);
    }
}

/// The answer to a file of format 2 with a change: two plants, which name two schedules each, of which they share one;
/// nobody names the last schedule and the last point.
fn changed(change: impl FnOnce(&mut IntervalFile)) -> u32 {
    let row = |id| Row {
        id,
        first: id - 1,
        count: 2,
        dispatched: 1,
        ..held_back()
    };
    let mut points = CURVES.concat();
    points.push([u32::MAX, u32::MAX]);
    let file = IntervalFile::new(
        NET_CONE,
        DAYS,
        0,
        vec![row(1).words(), row(2).words()],
        points,
    );
    let wild = [u32::MAX, u32::MAX, 0];
    let mut file = file.with_schedules(vec![[MARKET, 0, 2], [PLS, 2, 2], [COST, 4, 2], wild]);
    change(&mut file);
    settled(&Ledger::new(NET_CONE, DAYS, &[1, 2]), &file).0
}

#[test]
fn lengths_of_both_formats() {
    assert_eq!(changed(|_| ()), 0);
    for (length, answer) in [
        (0, 7),
        (47, 7),
        (48, 11),
        (49_153, 0),
        (61_440, 0),
        (61_441, 7),
    ] {
        assert_eq!(changed(|file| file.length = length), answer, "{length}");
    }
    let ledger = Ledger::new(NET_CONE, DAYS, &IDS);
    for (length, answer) in [
        (39, 7),
        (40, 11),
        (49_152, 0),
        (49_153, 7),
        (61_440, 7),
        (61_441, 7),
    ] {
        let mut file = listing::file(1_000);
        file.length = length;
        assert_eq!(settled(&ledger, &file).0, answer, "{length}");
    }
    for (format, answer) in [(0, 7), (3, 7), (257, 7), (258, 7)] {
        assert_eq!(changed(|file| file.head[0] = format), answer, "{format}");
    }
}

#[test]
fn tables_of_format_2() {
    for (schedules, answer) in [(1_024, 0), (1_025, 11)] {
        let more = |file: &mut IntervalFile| {
            file.schedules.resize(schedules, [0; 3]);
            file.place_plainly();
        };
        assert_eq!(changed(more), answer, "{schedules}");
    }
    // Without schedules and points, whose offsets are words 9 and 11.
    for word in [9, 11] {
        for (at, answer) in [(40, 11), (47, 11), (48, 0), (60, 0), (168, 0), (169, 11)] {
            let empty = |file: &mut IntervalFile| {
                (file.points, file.schedules) = (vec![], vec![]);
                file.rows.iter_mut().for_each(|row| row[12..].fill(0));
                file.place_plainly();
                assert_eq!(file.length, 168);
                file.head[word] = at;
            };
            assert_eq!(changed(empty), answer, "word {word} is {at}");
        }
    }
    // The tables begin at 48, 168 and 224 and end at 272; each is moved by a byte towards its neighbour and its end.
    for (word, by, answer) in [
        (7, 1, 11),
        (7, -1, 11),
        (9, 1, 11),
        (9, -1, 11),
        (11, -1, 11),
        (11, 1, 11),
    ] {
        let moved = |file: &mut IntervalFile| {
            assert_eq!([file.head[7], file.head[9], file.head[11]], [48, 168, 224]);
            file.head[word] = file.head[word].wrapping_add_signed(by);
        };
        assert_eq!(changed(moved), answer, "word {word} by {by}");
    }
    assert_eq!(changed(|file| file.place_three([122, 58, 250], 300)), 0);
    assert_eq!(changed(|file| file.place_three([122, 300, 250], 360)), 0);
    assert_eq!(changed(|file| file.place_three([122, 297, 250], 360)), 11);
    assert_eq!(changed(|file| file.place_three([122, 58, 241], 300)), 11);
}

#[test]
fn schedules_of_a_row() {
    for (row, words, answer) in [
        (0, [0, 4, 3], 18), // the last is of no kind
        (0, [0, 3, 2], 0),
        (0, [0, 3, 3], 18),
        (1, [1, 2, 2], 18),
        (1, [2, 1, 0], 0),
        (1, [2, 1, 1], 18),
        (0, [2, 2, 0], 18),
        (0, [4, 1, 0], 18),
        (1, [u32::MAX, 1, 0], 18),
        (1, [u32::MAX, 2, 0], 18),
        (0, [0, u32::MAX, 0], 18),
        (0, [u32::MAX, 0, 0], 0),
        (1, [7, 0, 0], 0),
        (1, [0, 0, 1], 18),
        (0, [0, 0, u32::MAX], 18),
        (0, [0, 2, u32::MAX], 18),
    ] {
        let is = changed(|file| file.rows[row][12..].copy_from_slice(&words));
        assert_eq!(is, answer, "row {row}: {words:?}");
    }
    for (schedules, answer) in [(4, 0), (5, 18)] {
        let many = |file: &mut IntervalFile| {
            file.schedules = vec![[COST, 0, 1]; 6];
            file.rows[1][12..].copy_from_slice(&[1, schedules, 3]);
            file.place_plainly();
        };
        assert_eq!(changed(many), answer, "{schedules}");
    }
    for (schedule, kind, answer) in [
        (0, 0, 18),
        (1, 4, 18),
        (2, u32::MAX, 18),
        (3, 0, 0),
        (1, 3, 0),
        (2, 1, 0),
    ] {
        assert_eq!(
            changed(|file| file.schedules[schedule][0] = kind),
            answer,
            "{schedule}: {kind}"
        );
    }
}

#[test]
fn points_of_a_schedule() {
    for (schedule, words, answer) in [
        (0, [0, 0], 14),
        (1, [u32::MAX, 0], 14),
        (3, [0, 99], 0),
        (0, [5, 1], 0),
        (2, [6, 1], 14), // the last point, which nobody named
        (2, [7, 1], 14),
        (2, [u32::MAX, 1], 14),
        (2, [u32::MAX, 2], 14),
        (1, [2, 1], 0),
        (1, [0, 3], 14), // a price that falls
        (1, [0, 11], 14),
        (1, [0, u32::MAX], 14),
        (0, [1, 2], 14),
    ] {
        let is = changed(|file| file.schedules[schedule][1..].copy_from_slice(&words));
        assert_eq!(is, answer, "schedule {schedule}: {words:?}");
    }
    for (points, answer) in [(10, 0), (11, 14)] {
        let long = |file: &mut IntervalFile| {
            file.schedules[1] = [PLS, file.points.len() as u32, points];
            file.points.extend((0..11).map(|price| point(price, 5)));
            file.place_plainly();
        };
        assert_eq!(changed(long), answer, "{points}");
    }
}

#[test]
fn eighteen_comes_between_13_and_14_of_all_rows() {
    let faults: [(u32, fn(&mut IntervalFile)); 4] = [
        (13, |file| file.rows[1][10] = 2),
        (18, |file| file.rows[1][14] = 2),
        (18, |file| file.rows[0][13] = 5),
        (14, |file| file.points[1][1] = 1),
    ];
    for (first, one) in faults {
        assert_eq!(changed(one), first);
        for (second, other) in faults {
            let both = changed(|file| [one, other].iter().for_each(|fault| fault(file)));
            let in_order = [13, 18, 14]
                .into_iter()
                .find(|ground| [first, second].contains(ground));
            assert_eq!(Some(both), in_order);
        }
    }
}

#[test]
fn a_year_mixes_both_formats() {
    let mut ledger = example_ledger();
    let mut again = ledger.clone();
    for interval in [1_000, 1_001, 1_002] {
        let file = listing::file(interval);
        let [mut result, mut other] = [[0xaa; 320]; 2];
        let two = file.clone().in_format_2();
        assert_eq!(settle(&mut ledger, &file.bytes(), &mut result), 0);
        let file = if interval == 1_001 { file } else { two };
        assert_eq!(settle(&mut again, &file.bytes(), &mut other), 0);
        assert_eq!((&ledger, result), (&again, other));
    }
}

const EXAMPLE_LINES: &str = "\
1000,11,86667,60000,10000,26667,0,0,0,0
1000,12,43333,25000,0,0,18333,0,557629,0
1000,13,0,35000,0,0,0,30000,0,418211
1000,14,5000,15001,0,0,0,10001,0,139417
pool,1000,866673,557629,557628,1
";

/// The example's ledger as opening leaves it.
fn example_ledger() -> Vec<u8> {
    let mut ledger = vec![0xaa; ledger_bytes(4)];
    assert_eq!(open(&listing::opening().bytes(), &mut ledger), 0);
    assert_eq!(ledger, Ledger::new(NET_CONE, DAYS, &IDS).bytes());
    ledger
}

#[test]
fn the_last_interval_and_the_same_file_again() {
    let mut ledger = example_ledger();
    let mut result = [0xaa; 320];
    let after = listing::file(105_120).bytes();
    assert_eq!(settle(&mut ledger, &after, &mut result), 9);
    assert_eq!(result, [0xaa; 320]);
    let last = listing::file(105_119).bytes();
    assert_eq!(settle(&mut ledger, &last, &mut result), 0);
    assert_eq!(long_at(&ledger, 3), Some(105_120));
    let kept = (ledger.clone(), result);
    assert_eq!(settle(&mut ledger, &last, &mut result), 10);
    assert_eq!((ledger, result), kept);
}

#[test]
fn four_rows_need_320_result_bytes() {
    let file = listing::file(1_000).bytes();
    let mut ledger = example_ledger();
    assert_eq!(settle(&mut ledger, &file, &mut [0; 319]), 15);
    assert_eq!(ledger, example_ledger());
    assert_eq!(settle(&mut ledger, &file, &mut [0; 320]), 0);
    let mut long = [0xaa; 321];
    assert_eq!(settle(&mut example_ledger(), &file, &mut long), 0);
    assert_eq!(long[320], 0xaa);
}

#[test]
fn the_example_leaves_these_accounts() {
    let mut ledger = example_ledger();
    let file = listing::file(1_000).bytes();
    assert_eq!(settle(&mut ledger, &file, &mut [0; 320]), 0);
    let mut expected = Ledger::new(NET_CONE, DAYS, &IDS);
    expected.words[3] = 1_001;
    expected.words[4] = 1;
    expected.accounts = vec![
        [11, 100_000, 0, 0],
        [12, 50_000, 557_629, 0],
        [13, 0, 0, 418_211],
        [14, 5_000, 0, 139_417],
    ];
    assert_eq!(ledger, expected.bytes());
}

/// What the listing prints behind its heading.
fn listed(stream: &[u8]) -> String {
    let text = String::from_utf8(npalist(stream)).unwrap();
    text.strip_prefix(HEADING)
        .expect("the heading comes first")
        .to_string()
}

#[test]
fn the_whole_listing() {
    let heading = "interval,id,expected,actual,outage,economic,shortfall,bonus,charge,credit\n";
    let output = [heading, EXAMPLE_LINES].concat();
    assert_eq!(npalist(&document()), output.as_bytes());
}

#[test]
fn a_listing_of_any_first_part_of_a_stream() {
    let opening = stream_of(&[&listing::opening().bytes()]);
    let file = stream_of(&[&listing::file(1_000).bytes()]);
    let twice = [&opening[..], &file, &file].concat();
    for end in 0..=twice.len() {
        let first = opening.len() + file.len();
        let expected = match end {
            e if e < opening.len() => "cut,0\n".to_string(),
            e if e == opening.len() => String::new(),
            e if e < first => "cut,1\n".to_string(),
            e if e == first => EXAMPLE_LINES.to_string(),
            e if e < twice.len() => format!("{EXAMPLE_LINES}cut,2\n"),
            _ => format!("{EXAMPLE_LINES}refused,2,10\n"),
        };
        assert_eq!(listed(&twice[..end]), expected, "{end} bytes");
    }
}

#[test]
fn a_listing_goes_on_after_a_refused_interval() {
    let opening = listing::opening().bytes();
    let file = listing::file(1_000).bytes();
    let input = stream_of(&[&opening, &[], &listing::file(105_120).bytes(), &file]);
    assert_eq!(
        listed(&input),
        format!("refused,1,7\nrefused,2,9\n{EXAMPLE_LINES}")
    );
}

#[test]
fn a_listing_stops_after_a_refused_opening() {
    let file = listing::file(1_000).bytes();
    assert_eq!(listed(&stream_of(&[&[], &file])), "refused,0,1\n");
    let zero = Opening::new(0, DAYS, &[11]).bytes();
    assert_eq!(listed(&stream_of(&[&zero, &file])), "refused,0,2\n");
    let falling = Opening::new(NET_CONE, DAYS, &[12, 11]).bytes();
    assert_eq!(listed(&stream_of(&[&falling, &file])), "refused,0,4\n");
}

#[test]
fn a_listing_stops_after_a_length_over_the_limit() {
    let opening = stream_of(&[&listing::opening().bytes()]);
    let file = stream_of(&[&listing::file(1_000).bytes()]);
    for (length, line) in [(4_096u32, "cut,0\n"), (4_097, "refused,0,1\n")] {
        let input = [&length.to_le_bytes()[..], &[1; 50]].concat();
        assert_eq!(listed(&input), line);
    }
    for (length, line) in [
        (49_153, "cut,1\n"),
        (61_440u32, "cut,1\n"),
        (61_441, "refused,1,7\n"),
    ] {
        let input = [&opening[..], &length.to_le_bytes(), &file].concat();
        assert_eq!(listed(&input), line);
    }
    for format in Format::BOTH {
        let mut longest = listing::file(1_000);
        if format == Format::Two {
            longest = longest.in_format_2();
        }
        longest.length = format.most();
        let input = [&opening[..], &stream_of(&[&longest.bytes()])].concat();
        assert_eq!(listed(&input), EXAMPLE_LINES);
    }
}

#[test]
fn a_listing_goes_on_after_a_long_file_of_format_1() {
    let opening = listing::opening().bytes();
    let file = listing::file(1_000).bytes();
    for length in [49_153, FILE_MOST] {
        let mut long = listing::file(1_000);
        long.length = length;
        let input = stream_of(&[&opening, &long.bytes(), &file]);
        assert_eq!(
            listed(&input),
            format!("refused,1,7\n{EXAMPLE_LINES}"),
            "{length}"
        );
    }
}

#[test]
fn the_largest_ledger_has_the_largest_credit() {
    let ids: Vec<u32> = (1..=512).collect();
    let mut ledger = Ledger::new(200_000, 366, &ids);
    for account in &mut ledger.accounts {
        account[1] = 4_000_000;
        account[2] = 439_200_000_000;
    }
    ledger.accounts[100][3] = 224_870_400_000_000;
    let row = Row {
        id: 512,
        kind: 2,
        committed: 4_000_000,
        ..Row::default()
    };
    let file = IntervalFile::new(200_000, 366, 0, vec![row.words()], vec![]);
    let (ground, rows, _) = settled(&ledger, &file);
    assert_eq!((ground, rows[0][4], rows[0][6]), (0, 4_000_000, 0));
    ledger.accounts[100][3] += 1;
    assert_eq!(settled(&ledger, &file).0, 6);
}

// ---------------------------------------------------------------- years

/// A ledger with one account as opened, of a year with this number.
fn ledger_of(year: u64, net_cone: u32, days: u32) -> Ledger {
    let mut ledger = Ledger::new(net_cone, days, &[1]);
    ledger.words[7] = year;
    ledger
}

/// A file of a demand resource that gives nothing of this commitment.
fn short_file(net_cone: u32, days: u32, committed: u32) -> IntervalFile {
    let row = Row {
        id: 1,
        kind: 1,
        committed,
        ..Row::default()
    };
    IntervalFile::new(net_cone, days, 0, vec![row.words()], vec![])
}

/// The cents that so many kW short cost in a year.
fn cost(year: u64, net_cone: u32, days: u32, short: u32) -> u64 {
    let ledger = ledger_of(year, net_cone, days);
    let (ground, rows, _) = settled(&ledger, &short_file(net_cone, days, short));
    assert_eq!((ground, rows[0][4]), (0, short.into()));
    rows[0][6]
}

#[test]
fn a_charge_of_2016_is_half() {
    assert_eq!(cost(2016, NET_CONE, DAYS, 1_000), 15_208);
    assert_eq!(cost(2016, 1, DAYS, 986), 0);
    assert_eq!(cost(2016, 1, DAYS, 987), 1);
    // Half a cent exactly, and what halves of cents rounded before would make.
    assert_eq!(cost(2016, 36, DAYS, 2_000), 37);
    assert_eq!(cost(2016, 36, DAYS, 1_000), 18);
    assert_eq!(cost(2016, 1, DAYS, 494), 0);
    assert_eq!(cost(2016, 200_000, DAYS, 4_000_000), 405_555_556);
    for year in [0, 2018, 2019, 2020, 2021, 2022, 2023] {
        assert_eq!(cost(year, NET_CONE, DAYS, 1_000), 30_417, "{year}");
        assert_eq!(cost(year, 1, DAYS, 493), 0, "{year}");
        assert_eq!(cost(year, 1, DAYS, 494), 1, "{year}");
        assert_eq!(cost(year, 200_000, 366, 4_000_000), 813_333_333, "{year}");
    }
}

#[test]
fn a_limit_of_2016_is_half() {
    let charged = |year, days, commitment, cents| {
        let mut ledger = ledger_of(year, NET_CONE, days);
        ledger.accounts[0] = [1, commitment, cents, 0];
        ledger.words[4] = cents;
        let (ground, rows, _) = settled(&ledger, &short_file(NET_CONE, days, 1));
        (ground == 0).then(|| rows[0][6])
    };
    // 15 cents for a kW, as far as the limit leaves them.
    for (left, cents) in [(16, 15), (15, 15), (14, 14), (0, 0)] {
        assert_eq!(charged(2016, DAYS, 1_000, 8_212_500 - left), Some(cents));
    }
    assert_eq!(charged(2016, DAYS, 1_000, 8_212_501), None);
    assert_eq!(charged(2016, DAYS, 1, 8_212), Some(0));
    assert_eq!(charged(2016, DAYS, 1, 8_213), None);
    for year in [0, 2018, 2023] {
        assert_eq!(charged(year, DAYS, 1_000, 16_425_000), Some(0), "{year}");
        assert_eq!(charged(year, DAYS, 1_000, 16_425_001), None, "{year}");
        assert_eq!(charged(year, 366, 1_000, 16_470_000), Some(0), "{year}");
    }
}

#[test]
fn years_of_a_ledger() {
    let answer = |year, days| {
        let file = short_file(NET_CONE, days, 1);
        settled(&ledger_of(year, NET_CONE, days), &file).0
    };
    for days in [365, 366] {
        for year in [0, 2018, 2019, 2020, 2021, 2022, 2023] {
            assert_eq!(answer(year, days), 0, "{year}");
        }
        for year in [1, 2, 2015, 2017, 2024, u64::from(u32::MAX), 1 << 63] {
            assert_eq!(answer(year, days), 6, "{year}");
        }
        for high in [1 << 32, 1 << 63] {
            for year in [0, 2016, 2018, 2023] {
                assert_eq!(answer(high + year, days), 6, "{year}");
            }
        }
    }
    assert_eq!(answer(2016, 365), 0);
    assert_eq!(answer(2016, 366), 6);
}

#[test]
fn a_ledger_of_2016_keeps_its_bound_of_credits() {
    let ids: Vec<u32> = (1..=512).collect();
    let mut ledger = Ledger::new(200_000, DAYS, &ids);
    ledger.words[7] = 2016;
    for account in &mut ledger.accounts {
        (account[1], account[2]) = (4_000_000, 219_000_000_000);
    }
    ledger.accounts[100][3] = 512 * 219_000_000_000;
    let file = short_file(200_000, DAYS, 4_000_000);
    assert_eq!(settled(&ledger, &file).0, 0);
    ledger.accounts[100][3] += 1;
    assert_eq!(settled(&ledger, &file).0, 6);
}

/// The answer to an opening with room for the largest ledger, and word 7 of what it leaves.
fn opened(opening: &Opening) -> (u32, u64) {
    let mut ledger = vec![0xaa; ledger_bytes(512)];
    let ground = open(&opening.bytes(), &mut ledger);
    (ground, long_at(&ledger, 7).unwrap())
}

#[test]
fn years_of_an_opening() {
    let unwritten = 0xaaaa_aaaa_aaaa_aaaa;
    let of_year = |year, days| opened(&Opening::of_year(year, NET_CONE, days, &[1]));
    for days in [365, 366] {
        for year in 2018..=2023 {
            assert_eq!(of_year(year, days), (0, year.into()), "{year}");
        }
        for year in [0, 1, 2015, 2017, 2024, 65_536 + 2016, u32::MAX] {
            assert_eq!(of_year(year, days), (23, unwritten), "{year}");
        }
    }
    assert_eq!(of_year(2016, 365), (0, 2016));
    assert_eq!(of_year(2016, 366), (23, unwritten));
    assert_eq!(opened(&Opening::new(NET_CONE, DAYS, &[1])), (0, 0));
}

#[test]
fn an_opened_ledger_has_format_1_and_its_year() {
    let mut ledger = vec![0xaa; ledger_bytes(4)];
    let block = listing::opening_of(2016).bytes();
    assert_eq!(open(&block, &mut ledger), 0);
    let mut expected = Ledger::new(NET_CONE, DAYS, &IDS);
    expected.words[7] = 2016;
    assert_eq!(ledger, expected.bytes());
    assert_eq!(expected.words[0], 1);
}

#[test]
fn a_year_is_tested_between_terms_and_ids() {
    let mut opening = Opening::of_year(2017, 0, DAYS, &[1]);
    assert_eq!(opened(&opening).0, 2);
    opening.words[1] = NET_CONE;
    assert_eq!(opened(&opening).0, 23);
    opening.words[2] = 367;
    assert_eq!(opened(&opening).0, 2);
    assert_eq!(opened(&Opening::of_year(2017, NET_CONE, DAYS, &[])).0, 23);
    assert_eq!(opened(&Opening::of_year(2018, NET_CONE, DAYS, &[])).0, 3);
    let falling = |year| opened(&Opening::of_year(year, NET_CONE, DAYS, &[2, 1])).0;
    assert_eq!((falling(0), falling(2018)), (23, 4));
    for (year, ground) in [(2017, 23), (2018, 5)] {
        let block = Opening::of_year(year, NET_CONE, DAYS, &[1]).bytes();
        assert_eq!(open(&block, &mut [0; 95]), ground);
    }
}

#[test]
fn lengths_of_an_opening_with_a_year() {
    // Without ids, so that a block that is long enough is refused on 3.
    for format in [1, 2] {
        let mut opening = Opening::of_year(2016, NET_CONE, DAYS, &[]);
        opening.words[0] = format;
        for length in (0..=40).chain([4_095, 4_096, 4_097]) {
            opening.length = length;
            let least = if format == 1 { 20 } else { 24 };
            let ground = if (least..=4_096).contains(&length) {
                3
            } else {
                1
            };
            assert_eq!(
                opened(&opening).0,
                ground,
                "format {format}, {length} bytes"
            );
        }
    }
    for format in [0, 3, 257, 258, 0x0100_0002, u32::MAX] {
        let mut opening = Opening::of_year(2016, NET_CONE, DAYS, &[1]);
        opening.words[0] = format;
        assert_eq!(opened(&opening).0, 1, "format {format}");
    }
}

#[test]
fn ids_begin_behind_the_year() {
    for ids_at in 16..=28 {
        for (format, least) in [(1, 20), (2, 24)] {
            let mut opening = Opening::of_year(2016, NET_CONE, DAYS, &[1, 2]);
            opening.words[0] = format;
            opening.place(ids_at, 0);
            opening.words[4] = ids_at as u32;
            let ground = opened(&opening).0;
            match ids_at < least {
                true => assert_eq!(ground, 3, "format {format}, ids at {ids_at}"),
                false => assert_ne!(ground, 3, "format {format}, ids at {ids_at}"),
            }
        }
    }
    let mut opening = Opening::of_year(2016, NET_CONE, DAYS, &[1, 2]);
    for ids_at in 24..=28 {
        opening.place(ids_at, 0);
        assert_eq!(opened(&opening), (0, 2016), "{ids_at}");
        opening.length -= 1;
        assert_eq!(opened(&opening).0, 3, "{ids_at}, cut");
    }
    // In format 1 the same bytes are ids or a gap.
    let mut opening = Opening::new(NET_CONE, DAYS, &[2017, 2018]);
    assert_eq!(opened(&opening), (0, 0));
    opening.place(24, 0);
    opening.year = Some(2017);
    assert_eq!(opened(&opening), (0, 0));
}

#[test]
fn a_year_has_no_part_in_ground_8() {
    let file = listing::file(1_000).bytes();
    for year in [0, 2016, 2018] {
        let mut ledger = Ledger::new(NET_CONE, DAYS, &IDS);
        ledger.words[7] = year;
        let mut bytes = ledger.bytes();
        assert_eq!(settle(&mut bytes, &file, &mut [0; 320]), 0);
        assert_eq!(long_at(&bytes, 7), Some(year));
        ledger.words[2] = 366;
        let ground = if year == 2016 { 6 } else { 8 };
        assert_eq!(settle(&mut ledger.bytes(), &file, &mut [0; 320]), ground);
    }
}

#[test]
fn the_listing_of_2016() {
    let stream = stream_of(&[
        &listing::opening_of(2016).bytes(),
        &listing::file(1_000).bytes(),
    ]);
    // 18333 kW cost 278814.375 cents.
    let lines = "\
1000,11,86667,60000,10000,26667,0,0,0,0
1000,12,43333,25000,0,0,18333,0,278814,0
1000,13,0,35000,0,0,0,30000,0,209105
1000,14,5000,15001,0,0,0,10001,0,69708
pool,1000,866673,278814,278813,1
";
    assert_eq!(listed(&stream), lines);
    let later = listing::opening_of(2021).bytes();
    let stream = stream_of(&[&later, &listing::file(1_000).bytes()]);
    assert_eq!(listed(&stream), EXAMPLE_LINES);
    let none = listing::opening_of(2017).bytes();
    let stream = stream_of(&[&none, &listing::file(1_000).bytes()]);
    assert_eq!(listed(&stream), "refused,0,23\n");
}
