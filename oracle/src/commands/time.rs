//! `oracle time FILE...`: how long the verifier takes.

use super::{Answer, read_message, told};
use oracle::limits::PLENTY;
use oracle::verify::verify;
use std::fmt::Write;
use std::time::Instant;

/// Each file is verified this often, or until a second is over.
const TIMES: usize = 1000;

pub fn command(args: &[String]) -> Answer {
    let mut text = String::new();
    let mut lent = vec![0; PLENTY];
    for file in args {
        let message = read_message(file)?;
        let begin = Instant::now();
        let mut times = Vec::new();
        while times.len() < TIMES && begin.elapsed().as_millis() < 1000 {
            let one = Instant::now();
            std::hint::black_box(verify(std::hint::black_box(&message), &mut lent));
            times.push(one.elapsed().as_nanos());
        }
        times.sort_unstable();
        let (least, middle) = (times[0] as f64 / 1e3, times[times.len() / 2] as f64 / 1e3);
        let _ = writeln!(text, "{least:>10.1} us least {middle:>10.1} us middle  {file}");
    }
    told(&text)
}
