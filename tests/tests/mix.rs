//! Random calls: no panic, nothing written on refusal, and a wide mix.

use npa_tests::layout::{
    ledger_bytes, long_at, put_longs, put_words, result_bytes, row_at, word_at, Format, Ledger,
    Terms, HALVED_YEAR, POINTS_MOST, SCHEDULE_BYTES, YEARS, YEAR_FORMAT, YEAR_OPENING_BYTES,
};
use npa_tests::listing::{DAYS, NET_CONE};
use npa_tests::random::{
    event_file, first_made, long_open, long_settle, open_call, rising, settle_call, stream,
    valid_settle, OpenCall, Rng, RunningYear, SettleCall, Size, FULL, MIDDLE, OPENING_GROUNDS,
    SETTLING_GROUNDS, SMALL,
};
use npa_tests::reference::{npalist, open, settle, HEADING};
use npa_tests::small::{cases, events, inputs, Case, Input};
use std::collections::{BTreeMap, BTreeSet};

/// Opens and checks which bytes changed; the answer.
fn checked_open(call: &OpenCall) -> u32 {
    let mut ledger = call.ledger.clone();
    let ground = open(&call.block, &mut ledger);
    assert!(ground == 0 || OPENING_GROUNDS.contains(&ground));
    if ground == 0 {
        let end = ledger_bytes(long_at(&ledger, 5).unwrap() as usize);
        assert_eq!(ledger[end..], call.ledger[end..]);
    } else {
        assert_eq!(ledger, call.ledger);
    }
    ground
}

/// Settles and checks which bytes changed; the answer and the result.
fn checked_settle(call: &SettleCall) -> (u32, Vec<u8>) {
    let mut ledger = call.ledger.clone();
    let mut result = call.result.clone();
    let ground = settle(&mut ledger, &call.file, &mut result);
    assert!(ground == 0 || SETTLING_GROUNDS.contains(&ground));
    if ground == 0 {
        let end = ledger_bytes(long_at(&ledger, 5).unwrap() as usize);
        assert_eq!(ledger[end..], call.ledger[end..]);
        let end = result_bytes(long_at(&result, 7).unwrap() as usize);
        assert_eq!(result[end..], call.result[end..]);
    } else {
        assert_eq!((&ledger, &result), (&call.ledger, &call.result));
    }
    (ground, result)
}

/// How many cases of each ground there are among so many openings.
fn opening_grounds(rng: &mut Rng, size: &Size, calls: usize) -> BTreeMap<u32, usize> {
    let mut grounds = BTreeMap::new();
    for _ in 0..calls {
        let ground = checked_open(&open_call(rng, size));
        *grounds.entry(ground).or_default() += 1;
    }
    grounds
}

/// How many cases of each ground there are among so many settlings, of files that begin like one of each format.
fn settling_grounds(rng: &mut Rng, size: &Size, calls: usize) -> BTreeMap<(u32, u32), usize> {
    let mut grounds = BTreeMap::new();
    for _ in 0..calls {
        let call = settle_call(rng, size);
        let (ground, _) = checked_settle(&call);
        *grounds
            .entry((Format::of(&call.file).word(), ground))
            .or_default() += 1;
    }
    grounds
}

#[test]
fn every_ground_is_met_in_every_size() {
    let mut rng = Rng::new(5);
    for (size, calls) in [(SMALL, 4_000), (MIDDLE, 2_000), (FULL, 1_000)] {
        let opened = opening_grounds(&mut rng, &size, calls);
        let missing: Vec<_> = OPENING_GROUNDS
            .iter()
            .filter(|ground| !opened.contains_key(*ground))
            .collect();
        assert!(missing.is_empty(), "no {missing:?} in {size:?}");
        let settled = settling_grounds(&mut rng, &size, calls);
        for format in Format::BOTH {
            for ground in [0].into_iter().chain(SETTLING_GROUNDS) {
                let wanted = settled.contains_key(&(format.word(), ground));
                assert_ne!(
                    wanted,
                    format == Format::One && ground == 18,
                    "{format:?}, {ground} in {size:?}"
                );
            }
        }
        let accepted = [1, 2].map(|format| settled[&(format, 0)]);
        assert!(
            accepted.iter().all(|accepted| 10 * accepted > calls),
            "{accepted:?}"
        );
        let all = opened[&0] + accepted.iter().sum::<usize>();
        assert!(5 * all > 2 * 2 * calls, "enough accepted: {all}");
    }
}

/// Names of what an opening shows of years.
fn year_features(call: &OpenCall, ground: u32) -> Vec<String> {
    let word = |index: usize| word_at(&call.block, 4 * index).unwrap_or(0);
    let (days, ids_at, year) = (word(2), word(4) as usize, word(5));
    if word(0) != YEAR_FORMAT {
        return match ground {
            0 => vec!["accepted without a year".to_string()],
            _ => Vec::new(),
        };
    }
    let mut other = call.clone();
    put_words(&mut other.block, 20, &[2018]);
    let otherwise = open(&other.block, &mut other.ledger);
    match ground {
        0 => vec![format!("accepted in {year} with {days} days")],
        1 if (20..YEAR_OPENING_BYTES).contains(&call.block.len()) => {
            vec!["too short for a year".to_string()]
        }
        3 if (20..YEAR_OPENING_BYTES).contains(&ids_at) => vec!["ids in the year".to_string()],
        23 => vec![
            format!("{year} with {days} days refused"),
            format!("year before {otherwise}"),
        ],
        _ => Vec::new(),
    }
}

/// What openings must show of years.
fn wanted_of_openings() -> BTreeSet<String> {
    let texts = [
        "accepted without a year",
        "accepted in 2016 with 365 days",
        "2016 with 366 days refused",
        "too short for a year",
        "ids in the year",
        "year before 0",
        "year before 3",
        "year before 4",
        "year before 5",
    ];
    let of_days = [365, 366].into_iter().flat_map(|days| {
        let accepted = YEARS[1..].iter();
        let accepted = accepted.map(move |year| format!("accepted in {year} with {days} days"));
        let refused = [0, 2015, 2017, 2024];
        accepted.chain(refused.map(|year| format!("{year} with {days} days refused")))
    });
    texts
        .map(str::to_string)
        .into_iter()
        .chain(of_days)
        .collect()
}

#[test]
fn openings_show_every_year() {
    for (size, calls) in [(SMALL, 4_000), (MIDDLE, 4_000), (FULL, 4_000)] {
        let mut rng = Rng::new(11);
        let mut seen = BTreeSet::new();
        for _ in 0..calls {
            let call = open_call(&mut rng, &size);
            seen.extend(year_features(&call, checked_open(&call)));
        }
        let missing: Vec<_> = wanted_of_openings().difference(&seen).cloned().collect();
        assert!(missing.is_empty(), "{size:?}: no {missing:?}");
    }
}

/// The year for which a settling gets 6: without one it gets something else.
fn refused_year(call: &SettleCall, ground: u32) -> Option<u64> {
    let mut other = call.clone();
    put_longs(&mut other.ledger, 56, &[0]);
    let otherwise = settle(&mut other.ledger, &other.file, &mut other.result);
    long_at(&call.ledger, 7).filter(|_| ground == 6 && otherwise != 6)
}

#[test]
fn ledgers_show_every_year() {
    for size in [SMALL, MIDDLE] {
        let mut rng = Rng::new(12);
        let (mut accepted, mut refused) = (BTreeSet::new(), BTreeSet::new());
        let (mut by_days, mut by_limit) = (0, 0);
        for _ in 0..24_000 {
            let call = settle_call(&mut rng, &size);
            let (ground, _) = checked_settle(&call);
            if ground == 0 {
                accepted.extend(long_at(&call.ledger, 7));
            }
            match (refused_year(&call, ground), long_at(&call.ledger, 2)) {
                (Some(2016), Some(366)) => by_days += 1,
                (Some(2016), _) => by_limit += 1,
                // Whether it is one of the upper half of the bits, and the lower half.
                (Some(year), _) => _ = refused.insert((year >> 32 > 0, year as u32)),
                _ => (),
            }
        }
        assert!(accepted
            .into_iter()
            .eq([0].into_iter().chain(YEARS.map(u64::from))));
        let high = [0, 2016, 2018].map(|year| (true, year));
        let low = [1, 2015, 2017, 2024].map(|year| (false, year));
        for year in high.into_iter().chain(low) {
            assert!(refused.contains(&year), "{year:?} in {size:?}");
        }
        assert!(by_days > 0 && by_limit > 0, "{by_days}, {by_limit}");
    }
}

/// What `tests/definitions` computes has openings and ledgers with a year among it.
#[test]
fn small_calls_show_years() {
    let mut counts: BTreeMap<&str, usize> = BTreeMap::new();
    for case in cases(1, 400) {
        let name = match &case {
            Case::Open { call, ground, .. } => match (word_at(&call.block, 0), ground) {
                (Some(YEAR_FORMAT), 0) => "opened",
                (_, 23) => "year refused",
                _ => continue,
            },
            Case::Settle {
                call,
                ground,
                result,
                ..
            } => match long_at(&call.ledger, 7) {
                Some(2016) if *ground == 0 && long_at(result, 1) > Some(0) => "charged in 2016",
                Some(2018..=2023) if *ground == 0 => "settled in a later year",
                _ if refused_year(call, *ground).is_some() => "refused for its year",
                _ => continue,
            },
            Case::Event { .. } => continue,
        };
        *counts.entry(name).or_default() += 1;
    }
    assert_eq!(counts.len(), 5, "{counts:?}");
    let in_2016 = |case: &Case| match case {
        Case::Event { call, ground, .. } => *ground == 0 && long_at(&call.ledger, 7) == Some(2016),
        _ => false,
    };
    assert!(events(1, 100).iter().any(in_2016));
    let page_of_2016 = |input: &Input| {
        let opening = input.stream().get(4..).unwrap_or_default();
        let terms = Terms::of_opening(opening).unwrap_or_default();
        terms.year == 2016 && input.page.windows(6).any(|line| line == b"\nyear,")
    };
    assert!(inputs(1, 40).iter().any(page_of_2016));
}

#[test]
fn lengths_at_the_limits() {
    let mut rng = Rng::new(6);
    let opened: Vec<u32> = (0..60)
        .map(|_| checked_open(&long_open(&mut rng, &FULL)))
        .collect();
    assert!(opened.contains(&0) && opened.contains(&1));
    let settled: Vec<u32> = (0..60)
        .map(|_| checked_settle(&long_settle(&mut rng, &FULL)).0)
        .collect();
    assert!(settled.contains(&0) && settled.contains(&7));
}

#[test]
fn small_cases_stay_small() {
    let mut rng = Rng::new(7);
    let mut year = RunningYear::open(&mut rng, &SMALL);
    for index in 0..5_000 {
        let opening = open_call(&mut rng, &SMALL);
        assert!(opening.block.len() < 1_500 && opening.ledger.len() < 1_500);
        assert!(word_at(&opening.block, 12).unwrap_or(0) <= 600);
        let call = if index % 2 == 0 {
            settle_call(&mut rng, &SMALL)
        } else {
            year.next_call(&mut rng, &SMALL)
        };
        let lengths = [call.ledger.len(), call.file.len(), call.result.len()];
        assert!(lengths.iter().all(|length| *length < 1_500));
        assert!(long_at(&call.ledger, 5).unwrap_or(0) <= 600);
        assert!(word_at(&call.file, 24).unwrap_or(0) <= 600);
        assert!(word_at(&call.file, 32).unwrap_or(0) <= 600);
        let schedules = word_at(&call.file, 40).filter(|_| Format::of(&call.file) == Format::Two);
        assert!(schedules.unwrap_or(0) <= 600);
    }
}

/// Names of what the charge of a shortfall shows.
fn charge_features(terms: &Terms, shortfall: u64, charge: u64) -> Vec<&'static str> {
    let (full, divisor) = (terms.full_charge(shortfall), terms.charge_divisor());
    let rest = shortfall * terms.net_cone * terms.days % divisor;
    let (whole, half) = (charge == full, divisor / 2);
    let halved = terms.year == HALVED_YEAR.into();
    let later = terms.year > HALVED_YEAR.into();
    let notes = [
        (charge < full && charge > 0, "charge cut"),
        (charge == 0 && full > 0, "charge cut to nothing"),
        (whole && rest > 0 && rest < half, "charge rounded down"),
        (whole && rest > half, "charge rounded up"),
        (whole && rest == half, "half a cent"),
        (halved && whole && full > 0, "charge of 2016"),
        (halved && charge < full, "charge of 2016 cut"),
        (halved && whole && rest == half, "half a cent of 2016"),
        (later && charge > 0, "charge of a later year"),
        (terms.year == 0 && charge > 0, "charge of no year"),
    ];
    let there = notes.into_iter().filter(|(there, _)| *there);
    there.map(|(_, name)| name).collect()
}

/// Names of what an accepted call shows.
fn features(call: &SettleCall, result: &[u8]) -> Vec<&'static str> {
    let mut seen = Vec::new();
    let mut note = |there: bool, name| {
        if there {
            seen.push(name);
        }
    };
    let at = |offset: usize| word_at(&call.file, offset).unwrap();
    let interval = |index: usize| long_at(result, index).unwrap();
    let terms = Terms::of_ledger(&call.ledger).unwrap();
    let imports = at(20) as i32;
    note(interval(0) > 0 && interval(0) < 1_000_000, "ratio inside");
    note(interval(0) == 1_000_000, "ratio at its end");
    note(interval(6) == 0, "no denominator");
    note(at(16) == 1 && imports > 0, "imports counted");
    note(at(16) == 1 && imports < 0, "imports negative");
    note(at(16) == 0 && imports > 0, "imports not counted");
    note(interval(1) > 0 && interval(2) > 0, "charges and credits");
    note(interval(1) > 0 && interval(4) == 0, "charges all carried");
    note(interval(3) > 0 && interval(2) > 0, "a rest carried");
    let header = Format::of(&call.file).header_bytes() as u32;
    note(
        at(32) == 0 && at(36) == header,
        "no points at the header's end",
    );
    note(
        at(32) == 0 && at(36) as usize == call.file.len(),
        "no points at the end",
    );
    note(at(32) > 0 && at(36) < at(28), "points first");
    note(at(28) % 4 != 0, "unaligned rows");
    for row in 0..at(24) as usize {
        let word = |index: usize| at(row_at(&call.file, row) + 4 * index);
        let figure = |index: usize| long_at(result, 8 + 8 * row + index).unwrap();
        let (kind, count) = (word(1), word(13));
        let names = ["kind 0", "kind 1", "kind 2", "kind 3", "kind 4", "kind 5"];
        note(true, names[kind as usize]);
        let all_zero = (0..8).all(|index| figure(index) == 0);
        note(kind == 3 && !all_zero, "PRD considered");
        note(kind == 3 && all_zero && word(2) > 0, "PRD not considered");
        let (importer, given) = (
            kind == 5,
            i64::from(word(4) as i32) + i64::from(word(5) as i32),
        );
        let region_wide = at(16) == 1;
        note(
            importer && region_wide && figure(7) > 0,
            "importer credited",
        );
        note(
            importer && region_wide && given < 0 && all_zero,
            "importer that exports",
        );
        note(
            importer && !region_wide && given > 0 && all_zero,
            "importer without region-wide event",
        );
        note(kind == 0 && figure(3) > 0, "economic");
        note(kind == 0 && figure(3) > 0 && figure(4) > 0, "still short");
        note(kind == 0 && figure(2) > 0 && figure(4) > 0, "outage, short");
        note(kind == 0 && figure(5) > 0, "bonus of kind 0");
        note(kind == 4 && figure(5) > 0, "bonus of kind 4");
        note(kind == 2 && figure(5) > 0, "bonus of kind 2");
        let out = word(6) + word(7);
        let cut = u64::from(word(3).saturating_sub(out));
        let bare = count == 0 && figure(5) > 0;
        note(kind == 0 && bare, "bonus of kind 0 without a curve");
        note(kind == 4 && bare, "bonus of kind 4 without a curve");
        let is_cut = bare && figure(1) > cut && figure(0) + figure(5) == cut;
        note((kind == 0 || kind == 4) && is_cut, "cut to the available");
        let nothing = count == 0 && figure(1) > figure(0) && word(3) < out;
        note(kind == 4 && nothing, "out, no bonus");
        note(kind == 0 && figure(0) < u64::from(word(2)), "expected less");
        note(word(4) as i32 <= 0 && figure(1) == 0, "no actual");
        note(
            count == 0 && word(12) > POINTS_MOST as u32,
            "any first point or schedule",
        );
        note(word(10) == 0 && count > 0 && kind == 0, "offline");
        for name in charge_features(&terms, figure(4), figure(6)) {
            note(true, name);
        }
        for other in 0..row {
            let theirs = |index: usize| at(row_at(&call.file, other) + 4 * index);
            let same = count > 0 && theirs(13) > 0 && theirs(12) == word(12);
            note(same, "shared points or schedules");
        }
    }
    seen
}

/// The kind of the schedule on which each row of a file of format 2 was dispatched, and how many it names.
fn dispatches(file: &[u8]) -> Vec<Option<(u32, u32)>> {
    let word = |at: usize| word_at(file, at).unwrap();
    let dispatch = |row: usize| {
        let [first, count, dispatched] =
            [12, 13, 14].map(|index| word(row_at(file, row) + 4 * index));
        let at = word(44) as usize + SCHEDULE_BYTES * (first.wrapping_add(dispatched) as usize);
        (count > 0).then(|| (word(at), count))
    };
    (0..word(24) as usize).map(dispatch).collect()
}

/// The file of format 2 with no schedules but those dispatched on.
fn dispatched_alone(file: &[u8]) -> Vec<u8> {
    let mut alone = file.to_vec();
    for (row, dispatch) in dispatches(file).iter().enumerate() {
        let at = row_at(file, row) + 48;
        let [first, dispatched] = [at, at + 8].map(|at| word_at(file, at).unwrap());
        if dispatch.is_some() {
            put_words(&mut alone, at, &[first + dispatched, 1, 0]);
        }
    }
    alone
}

/// Names of what an accepted call of format 2 shows, beside one in which each row has but the schedule dispatched on.
/// Other schedules may take from the economic figure, and change no other.
fn schedule_features(call: &SettleCall, result: &[u8]) -> Vec<&'static str> {
    let alone = SettleCall {
        file: dispatched_alone(&call.file),
        ..call.clone()
    };
    let (ground, without) = checked_settle(&alone);
    let mut seen = Vec::new();
    for (row, dispatch) in dispatches(&call.file).into_iter().enumerate() {
        let at = row_at(&call.file, row);
        let kind = word_at(&call.file, at + 4).unwrap();
        let Some((schedule, count)) = dispatch else {
            seen.push("no schedules");
            continue;
        };
        let figure = |words: &[u8], index| long_at(words, 8 + 8 * row + index).unwrap();
        let same = |index| figure(result, index) == figure(&without, index);
        seen.push(
            [
                "",
                "dispatched on market",
                "dispatched on PLS",
                "dispatched on cost",
            ][schedule as usize],
        );
        seen.push(["", "one schedule", "two", "three", "four"][count as usize]);
        assert!([0, 1, 2, 5].into_iter().all(same) || ground != 0);
        if ground == 0 && !same(3) {
            assert!([0, 4].contains(&kind) && figure(result, 3) < figure(&without, 3));
            seen.push(["", "another above market", "another above PLS"][schedule as usize]);
        }
    }
    seen
}

#[test]
fn accepted_small_cases_show_every_rule() {
    let mut rng = Rng::new(8);
    let mut counts: BTreeMap<&str, usize> = BTreeMap::new();
    for _ in 0..8_000 {
        let call = settle_call(&mut rng, &SMALL);
        let (ground, result) = checked_settle(&call);
        if ground == 0 {
            let mut names = features(&call, &result);
            if Format::of(&call.file) == Format::Two {
                names.extend(schedule_features(&call, &result));
            }
            for name in names {
                *counts.entry(name).or_default() += 1;
            }
        }
    }
    assert_eq!(counts.len(), 49 + 10, "{counts:?}");
    assert!(counts.values().all(|count| *count >= 15), "{counts:?}");
}

#[test]
fn a_file_of_format_1_settles_alike_in_format_2() {
    let mut rng = Rng::new(12);
    let mut met = BTreeSet::new();
    for (size, cases) in [(SMALL, 3_000), (MIDDLE, 300), (FULL, 30)] {
        for _ in 0..cases {
            let case = valid_settle(&mut rng, &size);
            if case.file.format == Format::Two {
                continue;
            }
            let call = case.call(&mut rng);
            let again = SettleCall {
                file: case.file.in_format_2().bytes(),
                ..call.clone()
            };
            let mut left = [call, again];
            let [ground, other] = left
                .each_mut()
                .map(|call| settle(&mut call.ledger, &call.file, &mut call.result));
            let [one, two] = left;
            assert_eq!(
                (ground, &one.ledger, &one.result),
                (other, &two.ledger, &two.result)
            );
            met.insert(ground);
        }
    }
    assert!(met.contains(&0), "{met:?}");
}

#[test]
fn events_of_every_size_are_accepted_and_show_the_usual() {
    let usual = [
        "kind 0",
        "kind 1",
        "kind 2",
        "kind 3",
        "kind 4",
        "kind 5",
        "ratio inside",
        "imports counted",
        "PRD considered",
        "PRD not considered",
        "economic",
        "bonus of kind 0",
        "bonus of kind 4",
    ];
    let mut rng = Rng::new(10);
    for (rows, files) in [(1, 2_000), (8, 300), (64, 60), (512, 12)] {
        let ids = rising(rows);
        let mut ledger = Ledger::new(NET_CONE, DAYS, &ids).bytes();
        let mut seen = BTreeSet::new();
        for interval in 0..files {
            let mut call = SettleCall {
                file: event_file(&mut rng, interval, &ids, 4).bytes(),
                result: vec![0; result_bytes(rows)],
                ledger,
            };
            let (ground, result) = checked_settle(&call);
            assert_eq!(ground, 0);
            seen.extend(features(&call, &result));
            settle(&mut call.ledger, &call.file, &mut call.result);
            ledger = call.ledger;
        }
        let missing: Vec<_> = usual.iter().filter(|name| !seen.contains(*name)).collect();
        assert!(missing.is_empty(), "{rows} rows: no {missing:?}");
        let account = |index| 8 + 4 * index;
        let word = |at| long_at(&ledger, at).unwrap();
        let sum = |of: usize| {
            (0..rows)
                .map(|index| word(account(index) + of))
                .sum::<u64>()
        };
        assert!(sum(2) > 0 && sum(3) > 0, "charged and credited");
    }
}

#[test]
fn streams_are_listed_to_some_end() {
    let mut rng = Rng::new(9);
    let (mut cuts, mut refusals, mut pools) = (0, 0, 0);
    for _ in 0..600 {
        let text = String::from_utf8(npalist(&stream(&mut rng, &SMALL, 4))).unwrap();
        let lines = text.strip_prefix(HEADING).unwrap();
        cuts += lines.matches("cut,").count();
        refusals += lines.matches("refused,").count();
        pools += lines.matches("pool,").count();
    }
    assert!(cuts > 50 && refusals > 100 && pools > 500);
}

#[test]
fn small_events_are_refused_on_every_ground_and_at_each_place() {
    let (mut seen, mut short) = (BTreeSet::new(), 0);
    let mut formats = BTreeSet::new();
    for case in events(1, 100) {
        let Case::Event { call, ground, left } = case else {
            panic!("a case that is no event");
        };
        assert!(call.ledger.len() < 1_500 && call.files.len() < 4_500);
        if ground == 20 {
            assert!(call.count.len() < 8);
            short += 1;
        } else {
            let settled = long_at(&left.count, 0).unwrap();
            seen.insert((ground, settled));
            formats.insert(formats_of(&call.files, settled as usize));
        }
    }
    let anywhere = SETTLING_GROUNDS[1..11].iter().copied().chain([22]);
    let refused = anywhere.flat_map(|ground| [0, 1, 2].map(|place| (ground, place)));
    let wanted = refused.chain([(0, 0), (0, 1), (0, 2), (0, 3), (6, 0), (16, 0)]);
    let missing: Vec<_> = wanted.filter(|pair| !seen.contains(pair)).collect();
    assert!(missing.is_empty(), "no {missing:?}");
    assert!(short > 0, "no short count");
    let mixed = [vec![1, 2], vec![2, 1], vec![2, 2], vec![2]];
    assert!(
        mixed.iter().all(|order| formats.contains(order)),
        "{formats:?}"
    );
}

/// The formats of the first so many blocks, each behind its length.
fn formats_of(blocks: &[u8], count: usize) -> Vec<u32> {
    let mut rest = blocks;
    let mut formats = Vec::new();
    for _ in 0..count {
        let (block, behind) = rest[4..].split_at(word_at(rest, 0).unwrap() as usize);
        formats.push(Format::of(block).word());
        rest = behind;
    }
    formats
}

#[test]
fn small_pages_have_every_sort_of_line() {
    let (mut seen, mut ids_cut) = (BTreeSet::new(), BTreeSet::new());
    let mut formats = BTreeSet::new();
    for input in inputs(1, 40) {
        let length = input.bytes.len();
        assert!(length < 3_000);
        if length < 4 {
            ids_cut.insert(length);
            continue;
        }
        let listing = String::from_utf8(input.listing.clone()).unwrap();
        if !listing.contains("refused") && !listing.contains("cut") {
            let blocks = 1 + listing.matches("pool").count();
            formats.extend(formats_of(input.stream(), blocks).split_off(1));
        }
        let page = String::from_utf8(input.page).unwrap();
        for line in page.lines().skip(1) {
            let words: Vec<&str> = line.split(',').collect();
            seen.insert(match words[..] {
                ["refused", "0", "17"] => "not on the roster",
                ["refused", "0", _] => "opening refused",
                ["refused", ..] => "interval refused",
                ["cut", "0"] => "opening cut",
                ["cut", _] => "interval cut",
                ["year", ..] => "year",
                _ => "row",
            });
        }
    }
    assert_eq!(seen.len(), 7, "{seen:?}");
    assert_eq!(formats, BTreeSet::from([1, 2]), "formats of accepted files");
    assert_eq!(ids_cut, BTreeSet::from([0, 1, 2, 3]));
}

#[test]
#[should_panic(expected = "such a case: none in 1000 attempts")]
fn attempts_come_to_an_end() {
    first_made("such a case", || None::<u32>);
}

/// What a file is, and how a call on it ended: its format, then the ground or what it was dispatched on.
fn outcome(file: &[u8], ground: u32) -> Vec<(u32, String)> {
    let format = Format::of(file).word();
    match (format, ground) {
        (2, 0) => {
            let kinds = dispatches(file).into_iter();
            let dispatched = kinds.map(|dispatch| match dispatch {
                Some((kind, _)) => format!("dispatched on {kind}"),
                None => "no schedules".to_string(),
            });
            dispatched.map(|name| (format, name)).collect()
        }
        _ => vec![(format, format!("answer {ground}"))],
    }
}

#[test]
fn small_calls_have_files_of_both_formats_with_every_outcome() {
    let mut counts: BTreeMap<(u32, String), usize> = BTreeMap::new();
    for case in cases(1, 800) {
        if let Case::Settle { call, ground, .. } = case {
            for outcome in outcome(&call.file, ground) {
                *counts.entry(outcome).or_default() += 1;
            }
        }
    }
    let dispatched = (1..=3).map(|kind| (2, format!("dispatched on {kind}")));
    let accepted = dispatched.chain([(1, "answer 0".to_string()), (2, "no schedules".to_string())]);
    let refused = SETTLING_GROUNDS
        .iter()
        .flat_map(|ground| [1, 2].map(|format| (format, format!("answer {ground}"))));
    let wanted = accepted.chain(refused.filter(|outcome| *outcome != (1, "answer 18".to_string())));
    let missing: Vec<_> = wanted
        .filter(|outcome| !counts.contains_key(outcome))
        .collect();
    assert!(missing.is_empty(), "no {missing:?} in {counts:?}");
}
