//! `oracle run-cases SOURCE`, `oracle verdict-cases SOURCE`: the model's tables of cases.

use super::{Answer, read_text, told};
use oracle::cases;

pub fn runs(args: &[String]) -> Answer {
    told(&cases::runs::table(&read_text(args.first().ok_or("run-cases: a file is missing")?)?)?)
}

pub fn verdicts(args: &[String]) -> Answer {
    told(&cases::verdicts::table(&read_text(args.first().ok_or("verdict-cases: a file is missing")?)?)?)
}
