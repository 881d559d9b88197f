//! Refusals on every ground, at the first file, one in the middle and the last, alone and two at a time.
//!
//! Ground 6 comes at the first file alone: a ledger that a settled file leaves is never refused on it.

use super::EventCase;
use crate::settlings::ledger_bounds::LARGEST;
use npa_tests::layout::{
    result_bytes, Format, IntervalFile, Ledger, Row, FILE_MOST, MARKET, POOL_MOST,
};

const IDS: [u32; 4] = [11, 12, 13, 14];

/// A fault that makes a quiet file one to refuse on this ground.
type FileFault = (u32, fn(&mut IntervalFile));

const FILE_FAULTS: [FileFault; 22] = [
    (7, |file| file.length = 0),
    (7, |file| file.length = 39),
    (7, |file| file.length = FILE_MOST + 1),
    (7, |file| file.length = file.format.most() + 1),
    (7, |file| file.head[0] = 3),
    (8, |file| file.head[2] -= 1),
    (8, |file| file.head[3] = 365),
    (9, |file| file.head[1] = 288 * 366),
    (9, |file| file.head[4] = 2),
    (9, |file| file.head[5] = 40_000_001),
    (10, |file| file.head[1] = 499),
    (11, |file| file.head[6] = 0),
    (11, |file| file.head[9] = u32::MAX),
    (12, |file| file.rows[0][0] = 10),
    (12, |file| file.rows[3][0] = 15),
    (13, |file| file.rows[3][1] = 5),
    (13, |file| file.rows[1][10] = 2),
    (18, |file| name_schedule(file, 3, [4, 0, 1], 0)),
    (18, |file| name_schedule(file, 1, [MARKET, 0, 1], 1)),
    (14, |file| name_schedule(file, 0, [MARKET, 0, 11], 0)),
    (14, |file| name_schedule(file, 2, [MARKET, 0, 0], 0)),
    (16, |file| file.rows[2][4] = 0),
];

/// Makes a quiet file one of format 2 in which this row names this schedule.
fn name_schedule(file: &mut IntervalFile, row: usize, schedule: [u32; 3], dispatched: u32) {
    file.rows[row][12..].copy_from_slice(&[0, 1, dispatched]);
    file.points = vec![[0, 0]; 20];
    *file = file.clone().with_schedules(vec![schedule]);
}

/// A fault of the whole event, which is met at the file with this number.
type EventFault = (u32, fn(&mut EventCase, usize));

const EVENT_FAULTS: [EventFault; 7] = [
    (15, |case, index| {
        case.result_length = index * result_bytes(4)
    }),
    (15, |case, index| {
        case.result_length = (index + 1) * result_bytes(4) - 1
    }),
    (22, |case, index| case.files[index].0 = u32::MAX),
    (22, |case, index| {
        case.files[index].0 = left_behind(case, index) + 1
    }),
    (22, |case, index| cut_to(case, index, 1)),
    (22, |case, index| cut_to(case, index, 3)),
    (22, |case, index| cut_to(case, index, 4 + 263)),
];

/// The bytes behind the length of a file.
fn left_behind(case: &EventCase, index: usize) -> u32 {
    let files = &case.files[index..];
    let bytes: usize = files.iter().map(|(_, file)| 4 + file.len()).sum();
    (bytes - 4) as u32
}

/// Leaves so many bytes of the file with this number and its length.
fn cut_to(case: &mut EventCase, index: usize, bytes: usize) {
    let (length, file) = case.files[index].clone();
    let whole: Vec<u8> = length.to_le_bytes().into_iter().chain(file).collect();
    case.files.truncate(index);
    case.tail = whole[..bytes].to_vec();
}

/// A file in which nobody is short and nobody has bonus; its figures are those of its number, and every second has
/// format 2.
fn quiet_file(number: u32) -> IntervalFile {
    let row = |id: u32| {
        let kw = 100 * (number + 1) + id;
        let row = Row {
            id,
            kind: 1,
            committed: kw,
            metered: kw as i32,
            ..Row::default()
        };
        row.words()
    };
    let rows = IDS.map(row).to_vec();
    let file = IntervalFile::new(LARGEST.0, LARGEST.1, 1_000 + number, rows, Vec::new());
    match Format::BOTH[number as usize % 2] {
        Format::One => file,
        Format::Two => file.in_format_2(),
    }
}

/// A ledger that carries as much as it may, so that any charge is too much; intervals up to 499 are past.
fn full_ledger() -> Ledger {
    let mut ledger = Ledger::new(LARGEST.0, LARGEST.1, &IDS);
    for account in &mut ledger.accounts {
        (account[1], account[2]) = (3_000_000, 300_000_000_000);
    }
    (ledger.words[3], ledger.words[4]) = (500, POOL_MOST);
    ledger.accounts[0][3] = 4 * 300_000_000_000 - POOL_MOST;
    ledger
}

/// So many quiet files, the one with the number of a fault changed by it.
fn quiet(count: usize, faults: &[(usize, FileFault)]) -> EventCase {
    let file = |index: usize| {
        let mut file = quiet_file(index as u32);
        for (at, (_, fault)) in faults {
            if *at == index {
                fault(&mut file);
            }
        }
        file.bytes()
    };
    EventCase::new(full_ledger(), (0..count).map(file).collect(), IDS.len())
}

/// Numbers of files, each with the first, a middle and the last place.
const PLACES: [(usize, [usize; 3]); 4] = [
    (1, [0, 0, 0]),
    (2, [0, 1, 1]),
    (3, [0, 1, 2]),
    (9, [0, 4, 8]),
];

pub fn cases() -> Vec<EventCase> {
    let mut cases: Vec<EventCase> = alone().into_iter().map(|(_, _, case)| case).collect();
    cases.extend(two_files());
    cases.extend(in_one_file());
    cases
}

/// Each fault alone, with its ground and the number of files before it.
fn alone() -> Vec<(u32, usize, EventCase)> {
    let mut cases = Vec::new();
    for (count, places) in PLACES {
        for index in places {
            for fault in FILE_FAULTS {
                cases.push((fault.0, index, quiet(count, &[(index, fault)])));
            }
            for (ground, fault) in EVENT_FAULTS {
                cases.push((
                    ground,
                    index,
                    quiet(count, &[]).with(|case| fault(case, index)),
                ));
            }
        }
        let damaged = quiet(count, &[]).with(|case| case.ledger.words[7] = 1);
        cases.push((6, 0, damaged));
    }
    cases
}

/// Faults of two files: the first file counts, whatever its ground.
fn two_files() -> Vec<EventCase> {
    let mut cases = Vec::new();
    for first in FILE_FAULTS {
        for second in FILE_FAULTS {
            cases.push(quiet(4, &[(1, first), (2, second)]));
        }
        for (_, fault) in EVENT_FAULTS {
            cases.push(quiet(4, &[(1, first)]).with(|case| fault(case, 2)));
            cases.push(quiet(4, &[(2, first)]).with(|case| fault(case, 1)));
        }
    }
    cases
}

/// A fault of the event at a file that has one itself: the first ground counts, and 22 comes before 6.
fn in_one_file() -> Vec<EventCase> {
    let mut cases = Vec::new();
    for index in 0..3 {
        for (_, fault) in EVENT_FAULTS {
            for own in FILE_FAULTS.into_iter().filter(|own| own.0 != 7) {
                let case = quiet(3, &[(index, own)]).with(|case| fault(case, index));
                cases.push(case.with(|case| case.ledger.words[7] = 1));
                cases.push(case);
            }
        }
    }
    cases
}

#[cfg(test)]
mod tests {
    use super::super::answer;
    use super::*;

    #[test]
    fn each_fault_has_its_ground_and_leaves_what_is_before_it() {
        assert_eq!(answer(&quiet(9, &[])), (0, Some(9)));
        for (ground, index, case) in alone() {
            let must_be = (ground, Some(index as u64));
            assert_eq!(answer(&case), must_be, "{} files", case.files.len());
        }
    }

    #[test]
    fn the_first_file_with_a_fault_counts() {
        for first in FILE_FAULTS {
            for second in FILE_FAULTS {
                let case = quiet(4, &[(1, first), (2, second)]);
                assert_eq!(answer(&case), (first.0, Some(1)));
            }
        }
    }
}
