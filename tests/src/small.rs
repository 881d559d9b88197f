//! Small calls and inputs with the reference's answers, for an evaluator that is slow.

use crate::pages::small_page;
use crate::random::{
    accepted_event, event_of_one, long_open, long_settle, open_call_for, refused_alone,
    refused_event, settle_call_for, settle_in_no_year, small_event, EventCall, OpenCall, Rng,
    RunningYear, SettleCall, OPENING_GROUNDS, SETTLING_GROUNDS, SMALL,
};
use crate::reference;

/// A call of opening, of settling or on an event, with its answer and the buffers it leaves.
pub enum Case {
    Open {
        call: OpenCall,
        ground: u32,
        ledger: Vec<u8>,
    },
    Settle {
        call: SettleCall,
        ground: u32,
        ledger: Vec<u8>,
        result: Vec<u8>,
    },
    Event {
        call: EventCall,
        ground: u32,
        /// With the files as they were.
        left: EventCall,
    },
}

impl Case {
    /// The reference's answer to a call of opening.
    fn open(call: OpenCall) -> Case {
        let mut ledger = call.ledger.clone();
        let ground = reference::open(&call.block, &mut ledger);
        Case::Open {
            call,
            ground,
            ledger,
        }
    }

    /// The reference's answer to a call of settling.
    fn settle(call: SettleCall) -> Case {
        let mut ledger = call.ledger.clone();
        let mut result = call.result.clone();
        let ground = reference::settle(&mut ledger, &call.file, &mut result);
        Case::Settle {
            call,
            ground,
            ledger,
            result,
        }
    }

    /// The reference's answer to a call on an event.
    fn event(call: EventCall) -> Case {
        let mut left = call.clone();
        let (ledger, result) = (&mut left.ledger, &mut left.result);
        let ground = reference::event(ledger, &left.files, result, &mut left.count);
        Case::Event { call, ground, left }
    }

    /// The answer.
    pub fn ground(&self) -> u32 {
        match self {
            Case::Open { ground, .. }
            | Case::Settle { ground, .. }
            | Case::Event { ground, .. } => *ground,
        }
    }
}

/// The ground of the case with this number, one after another.
fn in_turn(grounds: &[u32], number: u64) -> u32 {
    grounds[number as usize % grounds.len()]
}

/// So many calls of opening and settling; every fourth opens, one in 200 has a length at a limit, and one in 400 has a
/// ledger of no year.
pub fn cases(seed: u64, count: u64) -> Vec<Case> {
    let mut rng = Rng::new(seed);
    let mut year = RunningYear::open(&mut rng, &SMALL);
    (0..count)
        .map(|index| match (index % 400, index % 4) {
            (200, _) => Case::open(long_open(&mut rng, &SMALL)),
            (399, _) => Case::settle(long_settle(&mut rng, &SMALL)),
            (101, _) => Case::settle(settle_in_no_year(&mut rng, &SMALL)),
            (_, 0) => {
                let ground = in_turn(&OPENING_GROUNDS, index / 4);
                Case::open(open_call_for(&mut rng, &SMALL, ground))
            }
            (_, 1) => {
                if rng.one_in(12) {
                    year = RunningYear::open(&mut rng, &SMALL);
                }
                Case::settle(year.next_call(&mut rng, &SMALL))
            }
            _ => {
                let ground = in_turn(&SETTLING_GROUNDS, index / 2);
                Case::settle(settle_call_for(&mut rng, &SMALL, ground))
            }
        })
        .collect()
}

/// The grounds on which a file is refused wherever it stands in an event; 16 needs a full pool, which events of one
/// file have.
const ANYWHERE: [u32; 11] = [7, 8, 9, 10, 11, 12, 13, 18, 14, 15, 22];

/// So many calls on events: by turns whole or damaged anywhere (among them accepted ones of 0 to 3
/// files), refused at each place on each ground, and of one file.
pub fn events(seed: u64, count: u64) -> Vec<Case> {
    let mut rng = Rng::new(seed);
    let call = |index: u64| {
        let number = index / 3;
        let call = match index % 3 {
            0 if number % 20 >= 16 => accepted_event(&mut rng, &SMALL, number % 4),
            0 => small_event(&mut rng, &SMALL, number % 20),
            1 => {
                let ground = in_turn(&ANYWHERE, number);
                refused_event(&mut rng, &SMALL, number as usize % 3, ground)
            }
            _ => match in_turn(&SETTLING_GROUNDS, number) {
                ground @ (6 | 16) => refused_alone(&mut rng, &SMALL, ground),
                ground => event_of_one(&mut rng, &SMALL, ground),
            },
        };
        Case::event(call)
    };
    (0..count).map(call).collect()
}

/// An input of npapage with the reference's page, and the reference's listing of its stream.
pub struct Input {
    pub bytes: Vec<u8>,
    pub page: Vec<u8>,
    pub listing: Vec<u8>,
}

impl Input {
    fn new(bytes: Vec<u8>) -> Input {
        Input {
            page: reference::npapage(&bytes),
            listing: reference::npalist(stream_in(&bytes)),
            bytes,
        }
    }

    /// The stream after the id.
    pub fn stream(&self) -> &[u8] {
        stream_in(&self.bytes)
    }
}

/// The stream after an id; none where the id is cut.
fn stream_in(input: &[u8]) -> &[u8] {
    input.get(4..).unwrap_or_default()
}

/// So many inputs.
pub fn inputs(seed: u64, count: u64) -> Vec<Input> {
    let mut rng = Rng::new(seed);
    let input = |number| Input::new(small_page(&mut rng, number).stream);
    (0..count).map(input).collect()
}
