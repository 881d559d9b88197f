//! The calls of tests/vectors, held to the reference and to the answers that stand there.

use crate::compare::{Call, Comparison, Place};
use npa_tests::vectors::{vectors, Operation};

/// A call with its answer and what it leaves in the buffers to write.
pub struct Answered<const W: usize> {
    pub call: Call<W>,
    pub ground: u32,
    pub left: [Vec<u8>; W],
}

/// Compares the vectors that are calls of this function; their number.
pub fn compare<const W: usize>(
    comparison: &mut Comparison<W>,
    seed: u64,
    answered: fn(Operation) -> Option<Answered<W>>,
) -> Result<usize, String> {
    let mut compared = 0;
    for vector in vectors()? {
        let Some(wanted) = answered(vector.operation) else {
            continue;
        };
        let place = Place {
            seed,
            year: None,
            number: compared as u64,
        };
        let answer = comparison
            .compare(&wanted.call, place)
            .map_err(|what| format!("{}: {what}", vector.name))?;
        let left = wanted.left.each_ref().map(|left| &left[..]);
        if (answer, comparison.left()) != (wanted.ground, left) {
            return Err(format!(
                "{}: answer {answer}, or other bytes than stand there",
                vector.name
            ));
        }
        compared += 1;
    }
    match compared {
        0 => Err("no vector is a call of this function".to_string()),
        _ => Ok(compared),
    }
}

#[cfg(test)]
mod tests {
    use super::*;
    use crate::compare::Pair;
    use crate::{events, openings, settlings};

    /// The reference in place of the module.
    fn reference<const W: usize>(pair: Pair<W>) -> Comparison<W> {
        Comparison::new(Pair {
            module: pair.reference,
            ..pair
        })
    }

    #[test]
    fn the_reference_gives_the_vectors() {
        let opened = compare(&mut reference(openings::PAIR), 1, openings::answered);
        let settled = compare(&mut reference(settlings::PAIR), 1, settlings::answered);
        let events = compare(&mut reference(events::PAIR), 1, events::answered);
        assert!(opened.unwrap() >= 20 && settled.unwrap() >= 160 && events.unwrap() >= 40);
    }

    #[test]
    fn an_answer_that_stands_otherwise_is_a_failure() {
        let another_ground = |operation| {
            let mut wanted = events::answered(operation)?;
            wanted.ground += 1;
            Some(wanted)
        };
        let another_byte = |operation| {
            let mut wanted = events::answered(operation)?;
            wanted.left[0][0] ^= 1;
            Some(wanted)
        };
        for answered in [another_ground, another_byte, |_| None] {
            assert!(compare(&mut reference(events::PAIR), 1, answered).is_err());
        }
    }
}
