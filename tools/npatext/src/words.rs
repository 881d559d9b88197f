//! Numbers and grounds of refusal in words.

/// A number of things.
pub fn many(count: u64, thing: &str) -> String {
    let s = if count == 1 { "" } else { "s" };
    format!("{count} {thing}{s}")
}

/// What a ground says, without commas, so that it fits a field of a table.
pub fn meaning(ground: u32) -> &'static str {
    match ground {
        1 => "the opening block is too short or too long or of another format",
        2 => "Net CONE is out of range or the days are neither 365 nor 366",
        3 => "there are no ids or too many or they do not lie inside the block",
        4 => "an id is 0 or not above the one before it",
        5 => "the ledger buffer is too short",
        6 => {
            "the ledger is cut short or damaged or has an impossible year or its sums do not close"
        }
        7 => "the interval file is too short or too long or of another format",
        8 => "Net CONE or days are not the opening's",
        9 => "the interval is not in the year or region-wide or imports are out of range",
        10 => "the interval is before the earliest that is still accepted",
        11 => "rows or points or schedules are of an impossible number or leave the file or overlap",
        12 => "row ids do not rise or an id is not in the opening",
        13 => "a word of a row is out of range or contradicts another",
        14 => "the points of a row or schedule are too few or too many or misplaced or out of range or fall",
        15 => "the result buffer is too short",
        16 => "carried cents and charges together are too large",
        18 => "the schedules of a row are too many or misplaced or of no kind or none is the one dispatched on",
        23 => "the year is neither 2016 nor from 2018 to 2023 or 2016 has 366 days",
        _ => "not a ground",
    }
}
