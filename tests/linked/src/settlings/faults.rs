//! Faults of every ground, one and two at a time, for the order of the grounds.

use super::in_format_2;
use super::ledger_bounds::full_pool;
use npa_tests::layout::{ledger_bytes, result_bytes, Format, FILE_MOST};
use npa_tests::random::SettleCase;

/// A fault that makes a settling with a full pool one to refuse on this ground.
type Fault = (u32, fn(&mut SettleCase));

/// A word of a row.
fn row(case: &mut SettleCase, row: usize, word: usize) -> &mut u32 {
    &mut case.file.rows[row][word]
}

/// Sets a word, unless another fault has set it higher.
fn raise(word: &mut u64, value: u64) {
    *word = value.max(*word);
}

const LEDGER: [Fault; 16] = [
    (6, |case| case.ledger.length = 0),
    (6, |case| case.ledger.length = 63),
    (6, |case| case.ledger.length = ledger_bytes(4) - 1),
    (6, |case| case.ledger.words[0] = 2),
    (6, |case| case.ledger.words[1] += 1),
    (6, |case| case.ledger.words[2] += 1),
    (6, |case| case.ledger.words[3] = 288 * 366 + 1),
    (6, |case| case.ledger.words[5] = 5),
    (6, |case| case.ledger.words[6] = 9),
    (6, |case| case.ledger.words[7] = 1),
    (6, |case| case.ledger.words[7] = 2016), // with 366 days
    (6, |case| case.ledger.words[7] = 2017),
    (6, |case| case.ledger.words[7] = (1 << 32) + 2018),
    (6, |case| case.ledger.accounts[0][0] = 0),
    (6, |case| case.ledger.accounts[3][1] = 4_000_001),
    (6, |case| case.ledger.accounts[2][3] += 1),
];

const FILE: [Fault; 19] = [
    (7, |case| case.file.length = 0),
    (7, |case| case.file.length = 39),
    (7, |case| case.file.length = FILE_MOST + 1),
    (7, |case| case.file.head[0] = 3),
    (8, |case| case.file.head[2] -= 1),
    (8, |case| case.file.head[3] = 365),
    (9, |case| case.file.head[1] = 288 * 366),
    (9, |case| case.file.head[4] = 2),
    (9, |case| case.file.head[5] = 40_000_001),
    (10, |case| raise(&mut case.ledger.words[3], 1_001)),
    (10, |case| raise(&mut case.ledger.words[3], 288 * 366)),
    (11, |case| case.file.head[6] = 0),
    (11, |case| case.file.head[6] = 513),
    (11, |case| case.file.head[7] = 39),
    (11, |case| case.file.head[8] = 2_049),
    (11, |case| case.file.head[9] = 0xffff_ffd0),
    (15, |case| case.result_length = 0),
    (15, |case| case.result_length = result_bytes(4) - 1),
    (16, |case| {
        case.ledger.accounts[1][2] += 1;
        case.ledger.words[4] += 1;
    }),
];

const ROWS: [Fault; 15] = [
    (12, |case| *row(case, 0, 0) = 10),
    (12, |case| *row(case, 1, 0) = 11),
    (12, |case| *row(case, 2, 0) = 12),
    (12, |case| *row(case, 3, 0) = 15),
    (13, |case| *row(case, 0, 1) = 5),
    (13, |case| *row(case, 0, 2) = 4_000_001),
    (13, |case| *row(case, 1, 4) = 4_000_001),
    (13, |case| *row(case, 1, 9) = 25_001),
    (13, |case| *row(case, 2, 10) = 2),
    (13, |case| *row(case, 2, 2) = 1),
    (13, |case| *row(case, 3, 11) = 1_000_001),
    (13, |case| *row(case, 3, 7) = u32::MAX),
    (14, |case| case.file.points[1][0] = 999),
    (14, |case| case.file.points[3][1] = 9_999),
    (14, |case| case.file.points[5][1] = 4_000_001),
];

/// Those of format 1 alone.
const FORMAT_1: [Fault; 8] = [
    (7, |case| case.file.length = Format::One.most() + 1),
    (11, |case| case.file.head[7] = 41),
    (11, |case| case.file.head[9] = 265),
    (14, |case| *row(case, 0, 13) = 11),
    (14, |case| *row(case, 0, 12) = 5),
    (14, |case| *row(case, 1, 12) = u32::MAX),
    (14, |case| *row(case, 2, 12) = 6),
    (14, |case| *row(case, 3, 13) = 11),
];

/// Those of format 2 alone. Rows 0 to 2 name one schedule each, row 3 none; tables begin at 48, 288 and 336.
const FORMAT_2: [Fault; 18] = [
    (7, |case| case.file.length = 47),
    (11, |case| case.file.head[7] = 47),
    (11, |case| case.file.head[7] = 49),
    (11, |case| case.file.head[9] = 289),
    (11, |case| case.file.head[10] = 1_025),
    (11, |case| case.file.head[11] = 335),
    (11, |case| case.file.head[11] = 0xffff_ffdc),
    (18, |case| *row(case, 0, 13) = 5),
    (18, |case| *row(case, 0, 14) = 1),
    (18, |case| case.file.schedules[1][0] = 4),
    (18, |case| *row(case, 2, 12) = 3),
    (18, |case| *row(case, 2, 12) = u32::MAX),
    (18, |case| *row(case, 3, 14) = 1),
    (14, |case| case.file.schedules[0][2] = 0),
    (14, |case| case.file.schedules[0][2] = 11),
    (14, |case| case.file.schedules[1][1] = u32::MAX),
    (14, |case| case.file.schedules[2][1] = 5),
    (14, |case| case.file.schedules[2][2] = u32::MAX),
];

/// A settling to accept in this format, and all faults that it may have.
fn faults(format: Format) -> (SettleCase, Vec<Fault>) {
    let (base, own) = match format {
        Format::One => (full_pool(), &FORMAT_1[..]),
        Format::Two => (in_format_2(&full_pool()), &FORMAT_2[..]),
    };
    (base, [&LEDGER[..], &FILE, &ROWS, own].concat())
}

/// Every two faults together; also each of them with itself, alone.
pub fn cases() -> Vec<SettleCase> {
    let mut cases = Vec::new();
    for (base, faults) in Format::BOTH.map(faults) {
        for (_, first) in &faults {
            for (_, second) in &faults {
                let mut case = base.clone();
                first(&mut case);
                second(&mut case);
                cases.push(case);
            }
        }
    }
    cases
}

#[cfg(test)]
mod tests {
    use super::super::answer;
    use super::*;
    use npa_tests::random::SETTLING_GROUNDS;

    #[test]
    fn each_fault_has_its_ground_and_the_first_of_two_counts() {
        let cases = cases();
        let mut cases = cases.iter();
        for (base, faults) in Format::BOTH.map(faults) {
            assert_eq!(answer(&base), 0);
            for (index, (ground, fault)) in faults.iter().enumerate() {
                let mut case = base.clone();
                fault(&mut case);
                assert_eq!(answer(&case), *ground, "{index}");
            }
            for (first, one) in faults.iter().enumerate() {
                for (second, other) in faults.iter().enumerate() {
                    let case = cases.next().expect("a case for every two");
                    let in_order = SETTLING_GROUNDS
                        .into_iter()
                        .find(|ground| [one.0, other.0].contains(ground));
                    assert_eq!(Some(answer(case)), in_order, "{first} {second}");
                }
            }
        }
    }
}
