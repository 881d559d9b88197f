//! The sums of a year, as document 01 takes them from the results of accepted calls.

use crate::layout::{long_at, put_longs, result_bytes, row_at, word_at, Terms};
use std::collections::BTreeMap;

/// An accepted call: its file and the bytes around it.
pub struct Accepted<'a> {
    pub before: &'a [u8],
    pub file: &'a [u8],
    pub ledger: &'a [u8],
    pub result: &'a [u8],
}

/// An event of which so many files were settled, and the bytes around it.
pub struct SettledEvent<'a> {
    pub before: &'a [u8],
    pub files: &'a [u8],
    pub ledger: &'a [u8],
    pub result: &'a [u8],
    pub count: u64,
}

/// What an accepted call gave one row.
struct GivenRow {
    id: u32,
    committed: u32,
    shortfall: u128,
    bonus: u128,
    charge: u128,
    credit: u128,
}

/// What the accepted calls of a year gave one plant.
#[derive(Default)]
struct Plant {
    commitment: u32,
    charges: u128,
    credits: u128,
}

/// The sums of a year so far.
#[derive(Default)]
pub struct Sums {
    /// Of the opening block.
    terms: Terms,
    /// By the ids of the opening block.
    plants: BTreeMap<u32, Plant>,
    pub charges: u128,
    pub credits: u128,
    /// Charges that a limit has cut.
    pub cut_charges: u64,
}

/// A 64-bit word of a ledger or result.
fn word(bytes: &[u8], word: usize) -> u128 {
    long_at(bytes, word).expect("the word is there").into()
}

/// A 32-bit word of a block or file.
fn short_word(bytes: &[u8], at: usize) -> u32 {
    word_at(bytes, at).expect("the word is there")
}

/// Says what does not hold.
fn hold(holds: bool, what: &str) -> Result<(), String> {
    if holds {
        Ok(())
    } else {
        Err(format!("sums of the year: {what}"))
    }
}

/// The head of the ledger between two files of an event. No call shows it, so the earliest interval is
/// that of the file, and the cents carried are those of its result.
fn between_files(before: &[u8], file: &[u8], result: &[u8]) -> Vec<u8> {
    let mut ledger = before.to_vec();
    let earliest = u64::from(short_word(file, 4)) + 1;
    let carried = long_at(result, 3).expect("the word is there");
    put_longs(&mut ledger, 24, &[earliest, carried]);
    ledger
}

impl Accepted<'_> {
    /// The rows as the result gives them.
    fn rows(&self) -> Vec<GivenRow> {
        let count = short_word(self.file, 24) as usize;
        let row = |index: usize| {
            let at = row_at(self.file, index);
            let figure = |number: usize| word(self.result, 8 + 8 * index + number);
            GivenRow {
                id: short_word(self.file, at),
                committed: short_word(self.file, at + 8),
                shortfall: figure(4),
                bonus: figure(5),
                charge: figure(6),
                credit: figure(7),
            }
        };
        (0..count).map(row).collect()
    }

    /// Holds the interval's words and the cents carried to the sums over its rows.
    fn interval_holds(&self, rows: &[GivenRow]) -> Result<(), String> {
        let sum = |figure: fn(&GivenRow) -> u128| rows.iter().map(figure).sum::<u128>();
        let charges = sum(|row| row.charge);
        let credits = sum(|row| row.credit);
        let bonus = sum(|row| row.bonus);
        let with_bonus = sum(|row| u128::from(row.bonus > 0));
        let carried = word(self.ledger, 4);
        let told: [u128; 4] = std::array::from_fn(|index| word(self.result, 1 + index));
        hold(
            told == [charges, credits, carried, bonus],
            "result words 1 to 4",
        )?;
        hold(word(self.result, 7) == rows.len() as u128, "result word 7")?;
        hold(
            word(self.before, 4) + charges == credits + carried,
            "the pool",
        )?;
        hold(bonus == 0 || carried < with_bonus, "a rest that is shared")?;
        hold(bonus > 0 || credits == 0, "a credit without bonus")?;
        let next = u128::from(short_word(self.file, 4)) + 1;
        hold(word(self.ledger, 3) == next, "the earliest interval")
    }
}

impl Sums {
    /// A year without calls, for the plants of an accepted opening block.
    pub fn of(block: &[u8]) -> Self {
        let ids_at = short_word(block, 16) as usize;
        let plant = |index: usize| (short_word(block, ids_at + 4 * index), Plant::default());
        Sums {
            terms: Terms::of_opening(block).expect("the words are there"),
            plants: (0..short_word(block, 12) as usize).map(plant).collect(),
            ..Sums::default()
        }
    }

    /// Adds the rows of an accepted call; what does not hold then, if anything.
    pub fn add(&mut self, call: &Accepted) -> Result<(), String> {
        self.add_rows(call)?;
        self.check(call.ledger)
    }

    /// Adds each settled file of an event as a call of its own; what does not hold then, if anything.
    pub fn add_event(&mut self, event: &SettledEvent) -> Result<(), String> {
        let (mut files, mut result) = (event.files, event.result);
        let mut before = event.before.to_vec();
        for number in 1..=event.count {
            let (file, rest) = files[4..].split_at(short_word(files, 0) as usize);
            let ledger = if number == event.count {
                event.ledger.to_vec()
            } else {
                between_files(&before, file, result)
            };
            self.add_rows(&Accepted {
                before: &before,
                file,
                ledger: &ledger,
                result,
            })?;
            files = rest;
            result = &result[result_bytes(short_word(file, 24) as usize)..];
            before = ledger;
        }
        self.check(event.ledger)
    }

    /// Adds the rows of an accepted call, and holds its interval to them.
    fn add_rows(&mut self, call: &Accepted) -> Result<(), String> {
        let rows = call.rows();
        for row in &rows {
            self.add_row(row)?;
        }
        call.interval_holds(&rows)
    }

    /// Adds one row to its plant.
    fn add_row(&mut self, row: &GivenRow) -> Result<(), String> {
        let shortfall = row.shortfall.try_into().expect("a shortfall is one word");
        let full = u128::from(self.terms.full_charge(shortfall));
        hold(row.charge <= full, "a charge above the full one")?;
        hold(
            row.shortfall == 0 || row.bonus == 0,
            "a row with shortfall and bonus",
        )?;
        let Some(plant) = self.plants.get_mut(&row.id) else {
            return hold(false, "a row that the opening block does not have");
        };
        plant.commitment = plant.commitment.max(row.committed);
        plant.charges += row.charge;
        plant.credits += row.credit;
        let most = self.terms.limit(plant.commitment.into()).into();
        hold(plant.charges <= most, "a plant above its limit")?;
        hold(
            row.charge == full || plant.charges == most,
            "a charge cut for nothing",
        )?;
        self.cut_charges += u64::from(row.charge < full);
        self.charges += row.charge;
        self.credits += row.credit;
        Ok(())
    }

    /// Holds a ledger, as the calls so far leave it, to the sums.
    pub fn check(&self, ledger: &[u8]) -> Result<(), String> {
        let accounts = word(ledger, 5) as usize;
        hold(accounts == self.plants.len(), "the number of accounts")?;
        for (index, (id, plant)) in self.plants.iter().enumerate() {
            let account: [u128; 4] = std::array::from_fn(|i| word(ledger, 8 + 4 * index + i));
            let rows = [
                u128::from(*id),
                plant.commitment.into(),
                plant.charges,
                plant.credits,
            ];
            hold(account == rows, "an account")?;
        }
        let closes = self.charges == self.credits + word(ledger, 4);
        hold(closes, "charges and credits do not close")
    }
}
