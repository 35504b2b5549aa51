//! (xi) of 02, no empty name: in no run of a program that passes the checks 1 to 5, safe or not, does a process read a
//! name that holds nothing.

use crate::machine::Machine;
use crate::program::{Branch, Head, Name, Pattern, Program, Row};
use crate::verify::{Read, inspect};

/// The names that a process at this row reads: at its head, and in the held-name patterns of its branches, taken or
/// not.
pub fn names_read(program: &Program, row: Row) -> Vec<Name> {
    match program.head(row) {
        Some(Head::GiveBack { value }) => vec![*value],
        Some(Head::Build { args, .. }) => args.clone(),
        Some(Head::Call { callee, args, .. }) => [&[*callee], args.as_slice()].concat(),
        Some(Head::Send { target, message, .. }) => vec![*target, *message],
        Some(Head::Spawn { callee, .. }) => vec![*callee],
        Some(Head::Case { value, branches }) => [vec![*value], held_in(program, branches)].concat(),
        Some(Head::Receive { branches }) => held_in(program, branches),
        Some(Head::Function { .. } | Head::SelfAddress { .. }) | None => Vec::new(),
    }
}

fn held_in(program: &Program, branches: &[Branch]) -> Vec<Name> {
    let rows = branches.iter().flat_map(|branch| branch.pattern..branch.body);
    rows.filter_map(|row| match program.pattern(row) {
        Some(Pattern::Held(name)) => Some(*name),
        _ => None,
    })
    .collect()
}

/// The first process that would read a name which holds nothing, and that name.
pub fn empty_name(machine: &Machine) -> Option<(usize, Name)> {
    let process = |number: usize| {
        let read = names_read(machine.program, machine.processes[number].location);
        read.into_iter().find(|&name| !machine.holds(number, name)).map(|name| (number, name))
    };
    (0..machine.processes.len()).find_map(process)
}

/// Runs the program of a message over a list of process numbers and looks for an empty name before each. True if the
/// program passes the checks 1 to 5, so that it was run.
pub fn check_names(message: &[u8], numbers: &[usize]) -> Result<bool, String> {
    let mut read = Read::default();
    if inspect(message, &mut read).is_err_and(|refusal| refusal.number <= 5) {
        return Ok(false);
    }
    let program = read.program.as_ref().ok_or("the program was not read")?;
    let mut machine = Machine::new(program);
    for (i, &number) in numbers.iter().enumerate() {
        if let Some((process, name)) = empty_name(&machine) {
            return Err(format!("after {i} numbers process {process} would read name {name}, which holds nothing"));
        }
        // A number that changes nothing is no fault.
        let _ = machine.step(number);
    }
    Ok(true)
}
