//! `oracle explain [--lend N] [--station FILE] FILE`

use super::output::print;
use super::station::{self, Names};
use super::{Answer, read_message, status};
use oracle::{explain, limits};

pub fn command(args: &[String]) -> Answer {
    let (mut lent, mut station, mut files) = (limits::LENT, None, Vec::new());
    let mut args = args.iter();
    while let Some(arg) = args.next() {
        match arg.as_str() {
            "--lend" => lent = super::lent(args.next())?,
            "--station" => station = Some(args.next().ok_or("--station: a file is missing")?),
            _ => files.push(super::file(arg)?),
        }
    }
    let [file] = files[..] else { return Err("oracle explain [--lend N] [--station FILE] FILE".to_string()) };
    let message = read_message(file)?;
    let Names { words, note } = station::names(station, file, &message)?;
    let (verdict, text) = explain::explain(&message, lent, words.as_ref());
    print((text + &note).as_bytes())?;
    Ok(status(verdict))
}
