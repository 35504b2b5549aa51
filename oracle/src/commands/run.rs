//! `oracle run [--station FILE] [--random N] [--seed S] FILE [NUMBERS...]`

use super::output::print;
use super::station::{self, Names};
use super::{Answer, DONE, REFUSED, number, read_message};
use oracle::run::{self, Wanted};

/// A number, or `N*K` for the same number K times.
fn repeated(text: &str) -> Result<Vec<usize>, String> {
    match text.split_once('*') {
        Some((n, times)) => Ok(vec![number(n)?; number::<usize>(times)?.min(1_000_000)]),
        None => Ok(vec![number(text)?]),
    }
}

/// Status 0 where no bad is met in the run, else 1.
pub fn command(args: &[String]) -> Answer {
    let (mut wanted, mut station, mut file) = (Wanted::default(), None, None);
    let mut args = args.iter();
    while let Some(arg) = args.next() {
        let mut value = || args.next().ok_or(format!("{arg}: what follows it is missing"));
        match arg.as_str() {
            "--station" => station = Some(value()?),
            "--random" => wanted.random = number(value()?)?,
            "--seed" => wanted.seed = number(value()?)?,
            _ if file.is_none() => file = Some(super::file(arg)?),
            _ => wanted.numbers.extend(repeated(arg)?),
        }
    }
    let file = file.ok_or("oracle run [--station FILE] [--random N] [--seed S] FILE [NUMBERS...]")?;
    let message = read_message(file)?;
    let Names { words, note } = station::names(station, file, &message)?;
    let shown = run::show(&message, words.as_ref(), &wanted)?;
    print((note + &shown.text).as_bytes())?;
    Ok(if shown.met { REFUSED } else { DONE })
}
