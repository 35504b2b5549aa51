//! `oracle disassemble FILE`

use super::{Answer, file, read_message, told};
use oracle::text::disassemble;

pub fn command(args: &[String]) -> Answer {
    let [input] = args else { return Err("oracle disassemble FILE".to_string()) };
    told(&disassemble::disassemble(&read_message(file(input)?)?)?)
}
