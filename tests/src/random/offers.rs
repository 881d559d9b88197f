//! What the rows of a file name: points in format 1, schedules in format 2.

use super::{Rng, Size, World};
use crate::layout::{IntervalFile, Row, COST, MARKET, ROW_SCHEDULES_MOST, SCHEDULES_MOST};

/// Entries of a table that follow each other: the first and how many.
pub(super) type Stretch = (usize, usize);

/// What the rows of one file may name.
pub(super) struct Offers {
    points: Vec<[u32; 2]>,
    /// The stretches of points that are curves.
    curves: Vec<Stretch>,
    schedules: Vec<[u32; 3]>,
    /// In format 2, the stretches of schedules for a row.
    groups: Option<Vec<Stretch>>,
}

/// What one row names: its words 12 to 14, and a curve that its LMP and limits are near.
pub(super) struct Offer<'a> {
    pub first: usize,
    pub count: usize,
    pub dispatched: usize,
    /// Whether there are other schedules beside the one dispatched on.
    pub several: bool,
    pub curve: &'a [[u32; 2]],
}

impl Offers {
    /// Points alone, or with schedules.
    pub fn any(rng: &mut Rng, size: &Size, rows: usize, world: &World) -> Self {
        let (points, curves) = world.points(rng, size, rows);
        let mut offers = Offers {
            points,
            curves,
            schedules: Vec::new(),
            groups: None,
        };
        if rng.one_in(2) {
            offers.put_schedules(rng, size, rows);
        }
        offers
    }

    /// Schedules of all kinds, so many together for a row as it may have; some between them hold any words.
    fn put_schedules(&mut self, rng: &mut Rng, size: &Size, rows: usize) {
        let (mut schedules, mut groups) = (Vec::new(), Vec::new());
        let most = size.curves.min(rows + 1);
        let wanted = if self.curves.is_empty() || rng.one_in(12) {
            0
        } else {
            1 + rng.index(most)
        };
        for _ in 0..wanted {
            if rng.one_in(5) {
                schedules.push([rng.draw() as u32, rng.draw() as u32, size.any_count(rng)]);
            }
            let count = 1 + rng.index(ROW_SCHEDULES_MOST);
            if schedules.len() + count > SCHEDULES_MOST {
                break;
            }
            groups.push((schedules.len(), count));
            for _ in 0..count {
                let kind = rng.between(MARKET.into(), COST.into()) as u32;
                let (first, points) = part(rng, &self.curves);
                schedules.push([kind, first as u32, points as u32]);
            }
        }
        schedules.truncate(SCHEDULES_MOST);
        (self.schedules, self.groups) = (schedules, Some(groups));
    }

    /// What a row names, by chance.
    pub fn some(&self, rng: &mut Rng) -> Offer<'_> {
        let Some(groups) = &self.groups else {
            return self.one_curve(stretch(rng, &self.curves));
        };
        let (first, count) = stretch(rng, groups);
        let dispatched = rng.index(count.max(1));
        let near = match count {
            0 => (0, 0),
            _ => {
                let any = first + rng.index(count);
                let schedule = rng.pick(&[any, first + dispatched]);
                let [_, first, points] = self.schedules[schedule];
                (first as usize, points as usize)
            }
        };
        Offer {
            first,
            count,
            dispatched,
            several: count > 1,
            ..self.one_curve(near)
        }
    }

    /// A stretch of points that a row of format 1 names.
    fn one_curve(&self, (first, count): Stretch) -> Offer<'_> {
        Offer {
            first,
            count,
            dispatched: 0,
            several: false,
            curve: &self.points[first..first + count],
        }
    }

    /// The file of these rows.
    pub fn file(self, world: &World, interval: u32, rows: Vec<Row>) -> IntervalFile {
        let rows = rows.iter().map(Row::words).collect();
        let file = IntervalFile::new(world.net_cone, world.days, interval, rows, self.points);
        match self.groups {
            None => file,
            Some(_) => file.with_schedules(self.schedules),
        }
    }
}

/// One of the stretches, a part of one, or nothing.
fn stretch(rng: &mut Rng, stretches: &[Stretch]) -> Stretch {
    if stretches.is_empty() || rng.one_in(6) {
        return (0, 0);
    }
    part(rng, stretches)
}

/// One of the stretches or a part of one, of at least one entry.
fn part(rng: &mut Rng, stretches: &[Stretch]) -> Stretch {
    let (start, count) = rng.pick(stretches);
    if rng.one_in(4) {
        let skipped = rng.index(count);
        return (start + skipped, 1 + rng.index(count - skipped));
    }
    (start, count)
}
