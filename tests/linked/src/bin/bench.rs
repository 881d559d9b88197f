//! `bench` times settling by the module and by the ordinary program of docs/src, on the same files: of format 1 for
//! several numbers of rows, then full ones of each format; then an event beside the same files settled one by one, both
//! by the module.
//!
//! Each case is a stream of accepted files, settled from an opened ledger. Both leave the same
//! bytes after every file, which is checked first. Rounds of the two take turns. The time of a
//! stretch of files is the least of all rounds, so that other work on the machine hardly counts.

use npa_linked::npa;
use npa_tests::layout::{
    ledger_bytes, push_block, result_bytes, IntervalFile, Opening, IDS_MOST, ROWS_MOST,
    ROW_SCHEDULES_MOST,
};
use npa_tests::listing::{DAYS, NET_CONE};
use npa_tests::outcome::shown;
use npa_tests::random::{event_file, four_schedules, rising, some_of, Rng};
use npa_tests::streams::ROW_POINTS;
use std::process::ExitCode;
use std::time::{Duration, Instant};

const FILES: u32 = 1_000;
/// The files that are timed together.
const STRETCH: usize = 50;
/// How long the rounds of a case go on, and the least number of them.
const CASE_TIME: Duration = Duration::from_millis(1_500);
const ROUNDS_LEAST: u32 = 10;

/// The files of the event.
const EVENT_FILES: usize = 100;

type Settle = fn(&mut [u8], &[u8], &mut [u8]) -> u32;

/// Which accounts the rows of a file have.
#[derive(Clone, Copy)]
enum Among {
    /// As many accounts as rows.
    Few,
    /// Any of the most accounts that there may be, others in each file.
    Many,
    /// The last of them.
    Last,
}

/// How the rows of a file have their curves.
#[derive(Clone, Copy)]
enum Offers {
    /// In format 1.
    Points,
    /// In format 2, as one market schedule.
    OneSchedule,
    /// In format 2, as four schedules, shared as the most schedules and points of a file ask for.
    FourSchedules,
}

impl Offers {
    /// The file of format 1 with its curves so offered.
    fn of(self, rng: &mut Rng, file: IntervalFile) -> IntervalFile {
        match self {
            Offers::Points => file,
            Offers::OneSchedule => file.in_format_2(),
            Offers::FourSchedules => four_schedules(rng, file),
        }
    }

    /// What is printed in front of the times.
    fn name(self) -> String {
        match self {
            Offers::Points => format!("format 1, {ROW_POINTS} points"),
            Offers::OneSchedule => format!("format 2, 1 schedule of {ROW_POINTS} points"),
            Offers::FourSchedules => {
                format!("format 2, {ROW_SCHEDULES_MOST} schedules of {ROW_POINTS} points")
            }
        }
    }
}

struct Case {
    rows: usize,
    among: Among,
    /// The ledger as it is opened.
    ledger: Vec<u8>,
    files: Vec<Vec<u8>>,
}

impl Case {
    fn new(rows: usize, among: Among, offers: Offers) -> Self {
        let ids = match among {
            Among::Few => rising(rows),
            Among::Many | Among::Last => rising(IDS_MOST),
        };
        let mut rng = Rng::new(1);
        let mut file = |interval| {
            let ids = match among {
                Among::Few | Among::Many => some_of(&mut rng, &ids, rows),
                Among::Last => ids[ids.len() - rows..].to_vec(),
            };
            let file = event_file(&mut rng, interval, &ids, ROW_POINTS);
            // Numbers of their own, so that the plants of all formats are alike.
            offers.of(&mut Rng::new(interval.into()), file).bytes()
        };
        let files = (0..FILES).map(&mut file).collect();
        let mut ledger = vec![0; ledger_bytes(ids.len())];
        let block = Opening::new(NET_CONE, DAYS, &ids).bytes();
        assert_eq!(npa::open(&block, &mut ledger), 0);
        Case {
            rows,
            among,
            ledger,
            files,
        }
    }

    /// What is printed in front of the times.
    fn name(&self) -> String {
        let accounts = match self.among {
            Among::Few => format!("{}", self.rows),
            Among::Many => format!("{IDS_MOST}"),
            Among::Last => format!("{IDS_MOST}, its own the last"),
        };
        format!("{:>4}  {accounts:24}", self.rows)
    }

    /// Settles every file by both; what differs, if anything does.
    fn check(&self) -> Result<(), String> {
        let [mut ours, mut theirs] = [0; 2].map(|_| (self.ledger.clone(), self.result()));
        for (number, file) in self.files.iter().enumerate() {
            let is = npa::settle(&mut ours.0, file, &mut ours.1);
            let must_be = npa_ordinary::settle(&mut theirs.0, file, &mut theirs.1);
            if (is, &ours) != (must_be, &theirs) || is != 0 {
                let rows = self.rows;
                return Err(format!(
                    "{rows} rows, file {number}: {is} and {must_be}, or other bytes"
                ));
            }
        }
        Ok(())
    }

    /// A result buffer for any of the files.
    fn result(&self) -> Vec<u8> {
        vec![0; result_bytes(self.rows)]
    }

    /// Settles every file; lowers the times of the stretches to those of this round.
    fn round(&self, settle: Settle, least: &mut [Duration]) {
        let (mut ledger, mut result) = (self.ledger.clone(), self.result());
        for (files, least) in self.files.chunks(STRETCH).zip(least) {
            let start = Instant::now();
            for file in files {
                assert_eq!(settle(&mut ledger, file, &mut result), 0);
            }
            *least = start.elapsed().min(*least);
        }
    }

    /// The microseconds that each of the two takes for a file.
    fn times(&self) -> [f64; 2] {
        let stretches = self.files.len().div_ceil(STRETCH);
        let [mut module, mut ordinary] = [0; 2].map(|_| vec![Duration::MAX; stretches]);
        let start = Instant::now();
        let mut rounds = 0;
        while rounds < ROUNDS_LEAST || start.elapsed() < CASE_TIME {
            self.round(npa::settle, &mut module);
            self.round(npa_ordinary::settle, &mut ordinary);
            rounds += 1;
        }
        [module, ordinary].map(|least| {
            let all: Duration = least.iter().sum();
            1e6 * all.as_secs_f64() / f64::from(FILES)
        })
    }
}

/// An event of full files, and the buffers that both ways of settling it are lent.
struct Event {
    /// The ledger as it is opened.
    opened: Vec<u8>,
    ledger: Vec<u8>,
    files: Vec<u8>,
    /// The bytes of one file and of one result; all files have the same.
    file_length: usize,
    result_length: usize,
    result: Vec<u8>,
    count: [u8; 8],
}

impl Event {
    fn new() -> Self {
        let case = Case::new(ROWS_MOST, Among::Few, Offers::Points);
        let mut files = Vec::new();
        for file in &case.files[..EVENT_FILES] {
            push_block(&mut files, file);
        }
        let result_length = result_bytes(ROWS_MOST);
        Event {
            opened: case.ledger.clone(),
            ledger: case.ledger,
            file_length: files.len() / EVENT_FILES - 4,
            files,
            result_length,
            result: vec![0; EVENT_FILES * result_length],
            count: [0; 8],
        }
    }

    /// Settles all files in one call.
    fn at_once(&mut self) {
        let answer = npa::event(
            &mut self.ledger,
            &self.files,
            &mut self.result,
            &mut self.count,
        );
        assert_eq!(answer, 0);
    }

    /// Settles each file by a call of its own, into its own place of the same result buffer.
    fn one_by_one(&mut self) {
        let files = self.files.chunks(4 + self.file_length);
        for (file, result) in files.zip(self.result.chunks_mut(self.result_length)) {
            assert_eq!(npa::settle(&mut self.ledger, &file[4..], result), 0);
        }
    }

    /// Settles from the opened ledger; lowers the time to that of this round.
    fn round(&mut self, settle: fn(&mut Self), least: &mut Duration) {
        self.ledger.copy_from_slice(&self.opened);
        let start = Instant::now();
        settle(self);
        *least = start.elapsed().min(*least);
    }

    /// What both leave must be the same.
    fn check(&mut self) -> Result<(), String> {
        let ways: [fn(&mut Self); 2] = [Event::at_once, Event::one_by_one];
        let [at_once, one_by_one] = ways.map(|settle| {
            self.result.fill(0);
            let mut time = Duration::MAX;
            self.round(settle, &mut time);
            (self.ledger.clone(), self.result.clone())
        });
        if at_once != one_by_one || self.count != (EVENT_FILES as u64).to_le_bytes() {
            return Err("an event leaves other bytes than its files one by one".into());
        }
        Ok(())
    }

    /// The microseconds a file of both; rounds of the two take turns.
    fn times(&mut self) -> [f64; 2] {
        let [mut at_once, mut one_by_one] = [Duration::MAX; 2];
        let start = Instant::now();
        let mut rounds = 0;
        while rounds < ROUNDS_LEAST || start.elapsed() < CASE_TIME {
            self.round(Event::at_once, &mut at_once);
            self.round(Event::one_by_one, &mut one_by_one);
            rounds += 1;
        }
        [at_once, one_by_one].map(|least| 1e6 * least.as_secs_f64() / EVENT_FILES as f64)
    }
}

/// Prints the times of an event.
fn time_event() -> Result<String, String> {
    let mut event = Event::new();
    event.check()?;
    let [at_once, one_by_one] = event.times();
    let ratio = at_once / one_by_one;
    Ok(format!(
        "an event of {EVENT_FILES} files of {ROWS_MOST} rows, microseconds a file\n\
         at once  one by one  ratio\n{at_once:7.2}{one_by_one:12.2}{ratio:7.2}"
    ))
}

fn run() -> Result<String, String> {
    println!("settling {FILES} files with {ROW_POINTS} points a row, microseconds a file");
    println!("rows  accounts                  module  ordinary  ratio");
    let cases = [
        (1, Among::Few),
        (1, Among::Many),
        (1, Among::Last),
        (8, Among::Few),
        (8, Among::Many),
        (64, Among::Few),
        (64, Among::Many),
        (ROWS_MOST, Among::Few),
    ];
    for (rows, among) in cases {
        let case = Case::new(rows, among, Offers::Points);
        case.check()?;
        let [module, ordinary] = case.times();
        let ratio = module / ordinary;
        println!("{}{module:8.2}{ordinary:10.2}{ratio:7.2}", case.name());
    }
    time_formats()?;
    time_event()
}

/// Prints the times of full files in each format, and the ratio to those of format 1.
fn time_formats() -> Result<(), String> {
    println!("settling {FILES} files of {ROWS_MOST} rows, microseconds a file");
    println!(
        "curves of a row                     module  ordinary  ratio  module to format 1  ordinary"
    );
    let mut first = None;
    for offers in [Offers::Points, Offers::OneSchedule, Offers::FourSchedules] {
        let case = Case::new(ROWS_MOST, Among::Few, offers);
        case.check()?;
        let [module, ordinary] = case.times();
        let [module_1, ordinary_1] = *first.get_or_insert([module, ordinary]);
        println!(
            "{:34}{module:8.2}{ordinary:10.2}{:7.2}{:20.2}{:10.2}",
            offers.name(),
            module / ordinary,
            module / module_1,
            ordinary / ordinary_1
        );
    }
    Ok(())
}

fn main() -> ExitCode {
    shown(run())
}
