//! Families of messages that grow, to see how the time does.

use super::{bounds, flow, honest, sends};
use crate::system::System;

/// What grows, and a message for each size.
pub struct Family {
    pub about: &'static str,
    pub messages: Vec<(usize, Vec<u8>)>,
}

fn family(
    about: &'static str,
    sizes: [usize; 5],
    make: impl Fn(usize) -> Result<Vec<u8>, String>,
) -> Result<Family, String> {
    let made =
        sizes.into_iter().map(|size| make(size).map(|message| (size, message)).map_err(|e| format!("{about}: {e}")));
    Ok(Family { about, messages: made.collect::<Result<_, _>>()? })
}

pub fn families() -> Result<Vec<Family>, String> {
    let ceilings = |count| sends::sends(29, 24, 19, move |system: &System| bounds::narrow(system, count));
    Ok(vec![
        family(
            "honest calls (as honest-calls): rows, flow entries and ceilings grow",
            [7, 14, 28, 56, 112],
            honest::calls,
        )?,
        family("values of a name (as flow-wide): rows and flow entries grow", [30, 60, 120, 240, 480], flow::wide)?,
        family("calls in their own function (as flow-returns): states grow by their square", [1, 2, 5, 11, 22], |n| {
            flow::returns(n, bounds::one)
        })?,
        family("ceilings (as leak-alike): candidates grow by their square", [16, 32, 64, 128, 256], ceilings)?,
    ])
}
