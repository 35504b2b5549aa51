//! The model's tables of cases, written by this implementation: runs (crates/cases_oracle/specs/RunCases.antt) and verdicts
//! (crates/cases_oracle/specs/VerdictCases.antt). The sources stand in tests/cases.

pub mod antt;
pub mod parts;
pub mod runs;
pub mod source;
pub mod verdicts;
