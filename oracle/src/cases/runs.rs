//! The table of runs: what the machine has come to after a list of process numbers.

use super::antt::{self, INDENT};
use super::source::{Case, Section, sections};
use crate::machine::Machine;
use crate::message::{self, Message};
use crate::program::Program;
use crate::text::assemble::assemble;
use crate::{names, reader};

/// The front of the table.
const FRONT: &str = include_str!("runs_front.txt");
/// Every station needs a bad; this one says nothing, and runs do not look at it.
const NO_BAD: &str = "bad none: start holds address >= 65535.";

/// A station of the table, in the message's form and read.
struct Station {
    message: Message,
    program: Program,
}

fn station(section: &Section) -> Result<Station, String> {
    let text = format!("{}\n{NO_BAD}", section.station.join("\n"));
    let assembled = assemble(&text).map_err(|e| format!("{}: {e}", section.name))?;
    let refused = |r: crate::refusal::Refusal| format!("{}: refused {} at {}", section.name, r.number, r.position);
    let message = message::read(&assembled.message).map_err(refused)?;
    let program = reader::read(&message).map_err(refused)?;
    names::check(&program).map_err(refused)?;
    Ok(Station { message, program })
}

/// The text of the station as a comment, and its rows.
fn station_definition(section: &Section, m: &Message) -> String {
    let rows: Vec<(usize, usize)> = (0..m.program.len()).map(|i| m.program.pair(i)).collect();
    let sizes = format!("{} {} {}", m.names, m.constructors, m.functions);
    let body = [format!("station {sizes}"), antt::pairs(&rows)];
    antt::definition(&section.comment(), &section.name, "Program", &body)
}

/// `0*5 1`: process 0 five times, then process 1 once.
fn turns(given: &str) -> Result<Vec<(usize, usize)>, String> {
    let number = |text: &str| text.parse::<usize>().map_err(|_| format!("{given}: not numbers of processes"));
    let turn = |word: &str| {
        let (process, times) = word.split_once('*').unwrap_or((word, "1"));
        Ok((number(process)?, number(times)?))
    };
    given.split_whitespace().map(turn).collect()
}

fn run_case(name: &str, program: &Program, case: &Case) -> Result<String, String> {
    let turns = turns(&case.given)?;
    let mut machine = Machine::new(program);
    for &(process, times) in &turns {
        for _ in 0..times {
            let _ = machine.step(process);
        }
    }
    let processes: Vec<String> = machine.shown().iter().map(|text| format!("\"{text}\"")).collect();
    let sentence = antt::comment(&case.sentence, INDENT);
    let after = antt::line(&format!("after {name} {}", antt::pairs(&turns)));
    let expected = antt::line(&format!("{} ∷", antt::list(processes)));
    Ok(format!("{sentence}\n{after}\n{expected}\n"))
}

/// The table, from its source.
pub fn table(source: &str) -> Result<String, String> {
    let mut names = Vec::new();
    let (mut stations, mut cases) = (String::new(), String::new());
    for section in sections(source, "run ")? {
        let Station { message, program } = station(&section)?;
        stations.push_str(&station_definition(&section, &message));
        for case in &section.cases {
            cases.push_str(&run_case(&section.name, &program, case)?);
        }
        names.push(section.name);
    }
    let all = antt::definition("", "run_stations", "List Program", &[antt::list(&names)]);
    let table = format!("unfoldable pub run_cases : List RunCase\nrun_cases =\n{cases}{INDENT}[]\n\n");
    names.extend(["run_stations", "run_cases"].map(str::to_string));
    Ok(format!("{FRONT}{stations}{all}{table}{}", antt::opens("run_cases_opens", &names)))
}
