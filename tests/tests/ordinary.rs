//! The ordinary program in docs/src beside the reference: the same answers and the same bytes.

use npa_tests::random::{
    long_open, long_settle, open_call, settle_call, year, OpenCall, Rng, SettleCall, FULL, MIDDLE,
    OPENING_GROUNDS, SETTLING_GROUNDS, SMALL,
};
use npa_tests::reference;
use std::collections::BTreeSet;

/// The answer of both to an opening.
fn opened(call: &OpenCall) -> u32 {
    let [mut is, mut must_be] = [call.ledger.clone(), call.ledger.clone()];
    let answer = reference::open(&call.block, &mut must_be);
    assert_eq!(npa_ordinary::open(&call.block, &mut is), answer);
    assert_eq!(is, must_be, "ledger after {answer}");
    answer
}

/// The answer of both to a settling, and the ledger that they leave.
fn settled(call: SettleCall) -> (u32, Vec<u8>) {
    let [mut is, mut must_be] = [call.clone(), call];
    let answer = reference::settle(&mut must_be.ledger, &must_be.file, &mut must_be.result);
    let given = npa_ordinary::settle(&mut is.ledger, &is.file, &mut is.result);
    assert_eq!(given, answer);
    assert_eq!(is.ledger, must_be.ledger, "ledger after {answer}");
    assert_eq!(is.result, must_be.result, "result after {answer}");
    (answer, is.ledger)
}

#[test]
fn calls_of_every_ground() {
    let mut rng = Rng::new(1);
    for (size, calls) in [(SMALL, 6_000), (MIDDLE, 2_000), (FULL, 1_000)] {
        let mut met = BTreeSet::new();
        for _ in 0..calls {
            met.insert(opened(&open_call(&mut rng, &size)));
            met.insert(settled(settle_call(&mut rng, &size)).0);
        }
        let answers: BTreeSet<u32> = [&[0], &OPENING_GROUNDS[..], &SETTLING_GROUNDS]
            .concat()
            .into_iter()
            .collect();
        assert_eq!(met, answers, "every answer in {size:?}");
    }
}

#[test]
fn lengths_at_the_limits() {
    let mut rng = Rng::new(2);
    let lengths = (0..60).map(|_| {
        let answer = opened(&long_open(&mut rng, &FULL));
        [answer, settled(long_settle(&mut rng, &FULL)).0]
    });
    let met: BTreeSet<u32> = lengths.flatten().collect();
    assert!([0, 1, 7].iter().all(|answer| met.contains(answer)));
}

#[test]
fn years() {
    let mut rng = Rng::new(3);
    let mut accepted = 0;
    for (size, years, calls) in [(SMALL, 40, 60), (MIDDLE, 6, 40), (FULL, 2, 10)] {
        for _ in 0..years {
            let year = year(&mut rng, &size, calls);
            let mut ledger = year.ledger;
            for (file, result) in year.calls {
                let call = SettleCall {
                    ledger,
                    file,
                    result,
                };
                let (answer, left) = settled(call);
                accepted += usize::from(answer == 0);
                ledger = left;
            }
        }
    }
    assert!(accepted > 1_000, "{accepted}");
}
