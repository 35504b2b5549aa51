//! Message to text, weights among it, with tables and bounds (01: ceilings) as comments.

use crate::bads::Bad;
use crate::limits::UNBOUNDED;
use crate::program::{Branch, Head, Program, Row};
use crate::symbols::Symbols;
use crate::verify::{Read, inspect};
use crate::wrap::wrapped;
use std::fmt::Write;

/// The text of a message, or a word if not even its rows can be read.
pub fn disassemble(bytes: &[u8]) -> Result<String, String> {
    let mut read = Read::default();
    let refusal = inspect(bytes, &mut read).err();
    let verdict = refusal.as_ref().map_or("safe".to_string(), |r| format!("refused {} at {}", r.number, r.position));
    let Some(program) = &read.program else { return raw(&read, &verdict) };
    let symbols = Symbols::new(program);
    let mut writer = Writer { program, symbols: &symbols, text: format!("% {verdict}\n") };
    writer.program();
    writer.bads(read.bads.as_deref().unwrap_or(&[]));
    match &read.message {
        Some(_) if read.weights.is_some() => writer.weights(&read),
        Some(m) if m.weighed => writer.line(0, "evidence weights."),
        Some(m) if m.bounds > 0 => writer.line(0, "evidence ceilings."),
        _ => {}
    }
    writer.evidence(&read);
    Ok(writer.text)
}

/// Rows that can't be read as a program, as comments; a word if not even the parts are whole.
fn raw(read: &Read, verdict: &str) -> Result<String, String> {
    let Some(m) = &read.message else {
        return Err(format!("{verdict}: the parts can't be read, so there is no text"));
    };
    let rows = (0..m.rows).map(|i| format!("%   row {i}: {:?}\n", m.program.pair(i)));
    Ok(format!("% {verdict}: the rows are no program\n{}", rows.collect::<String>()))
}

struct Writer<'a> {
    program: &'a Program,
    symbols: &'a Symbols<'a>,
    text: String,
}

impl Writer<'_> {
    fn line(&mut self, depth: usize, words: &str) {
        let _ = writeln!(self.text, "{}{words}", "    ".repeat(depth));
    }

    fn program(&mut self) {
        let arities = self.program.arities.iter().enumerate();
        let constructors: Vec<String> =
            arities.map(|(i, arity)| format!("{}/{arity}", self.symbols.constructor(i))).collect();
        if !constructors.is_empty() {
            self.line(0, &format!("constructors {}.", constructors.join(", ")));
        }
        self.names();
        let functions: Vec<_> = self.program.named().cloned().collect();
        for f in functions {
            let words = format!("\nfunction {}({}) ->", self.symbols.name(f.name), self.list(&f.params));
            self.line(0, &words);
            self.expression(f.body, 1, ".");
        }
        self.line(0, "\nstart ->");
        self.expression(self.program.start, 1, ".");
    }

    /// The order of the names, where it is not that of the rows that bind them.
    fn names(&mut self) {
        let binders = &self.program.binders;
        if binders.iter().enumerate().all(|(i, binder)| binder.name == i) {
            return;
        }
        let names: Vec<usize> = (0..self.program.names).collect();
        let words = format!("names {}.", self.list(&names));
        self.line(0, &words);
    }

    fn list(&self, names: &[usize]) -> String {
        names.iter().map(|&n| self.symbols.name(n)).collect::<Vec<_>>().join(", ")
    }

    /// An expression, one head a line; `end` closes the last.
    fn expression(&mut self, mut row: Row, depth: usize, end: &str) {
        let program = self.program;
        while let Some(head) = program.head(row) {
            let label = format!("@{} ", self.symbols.label(row));
            match self.step(row, head, depth, &label, end) {
                Some(rest) => row = rest,
                None => return,
            }
        }
    }

    /// One head; gives its rest if it has one.
    fn step(&mut self, row: Row, head: &Head, depth: usize, label: &str, end: &str) -> Option<Row> {
        match head {
            Head::GiveBack { value } => {
                self.line(depth, &format!("{label}{}{end}", self.symbols.name(*value)));
                None
            }
            Head::Function { name, rest } => {
                self.function(row, *name, depth, label);
                Some(*rest)
            }
            Head::Case { value, branches } => {
                self.line(depth, &format!("{label}case {} of", self.symbols.name(*value)));
                self.branches(branches, depth, end);
                None
            }
            Head::Receive { branches } => {
                self.line(depth, &format!("{label}receive"));
                self.branches(branches, depth, end);
                None
            }
            Head::Build { rest, .. }
            | Head::Call { rest, .. }
            | Head::Send { rest, .. }
            | Head::Spawn { rest, .. }
            | Head::SelfAddress { rest, .. } => {
                self.line(depth, &format!("{label}{},", self.symbols.head(row)));
                Some(*rest)
            }
        }
    }

    fn function(&mut self, row: Row, name: usize, depth: usize, label: &str) {
        let Some(f) = self.program.function(row) else { return };
        let words = format!("{label}{} = fun({}) ->", self.symbols.name(name), self.list(&f.params));
        self.line(depth, &words);
        self.expression(f.body, depth + 1, "");
        self.line(depth, "end,");
    }

    fn branches(&mut self, branches: &[Branch], depth: usize, end: &str) {
        for (i, branch) in branches.iter().enumerate() {
            let words = format!("{} ->", self.symbols.pattern(branch.pattern));
            self.line(depth + 1, &words);
            self.expression(branch.body, depth + 2, if i + 1 < branches.len() { ";" } else { "" });
        }
        self.line(depth, &format!("end{end}"));
    }

    fn bads(&mut self, bads: &[Bad]) {
        self.line(0, "");
        for (i, bad) in bads.iter().enumerate() {
            let items = bad.items.iter().map(|item| self.symbols.item(item));
            let words = format!("bad b{i}: {}.", items.collect::<Vec<_>>().join(" and "));
            self.line(0, &words);
        }
    }

    /// Each line of weights as the text has it.
    fn weights(&mut self, read: &Read) {
        let (Some(tables), Some(system), Some(weights)) = (&read.tables, &read.system, &read.weights) else { return };
        for line in &weights.lines {
            let held = line.iter().enumerate().filter(|&(_, &weight)| weight > 0);
            let words: Vec<String> =
                held.map(|(c, weight)| format!("{} {weight}", self.symbols.counter(tables, system, c))).collect();
            let words =
                if words.is_empty() { "weights.".to_string() } else { format!("weights {}.", words.join(", ")) };
            self.text.push_str(&wrapped("", &words));
        }
    }

    fn evidence(&mut self, read: &Read) {
        let Some(tables) = &read.tables else { return };
        self.line(0, "\n% flow: what each name may hold");
        for (name, value) in tables.flow_pairs() {
            self.line(0, &format!("%   {}: {}", self.symbols.name(name), self.symbols.value(value)));
        }
        self.line(0, "% mail: what a class's mailboxes may hold");
        for (class, value) in tables.mail_pairs(self.program) {
            self.line(0, &format!("%   {}: {}", self.symbols.class(class), self.symbols.value(value)));
        }
        self.line(0, "% states: counters 0 and up");
        for (i, &state) in tables.states.iter().enumerate() {
            self.line(0, &format!("%   {i}: {}", self.symbols.state(state)));
        }
        self.system(read);
    }

    fn system(&mut self, read: &Read) {
        let (Some(tables), Some(system)) = (&read.tables, &read.system) else { return };
        self.line(0, "% letters: the counters behind the states");
        for counter in system.states..system.counters() {
            self.line(0, &format!("%   {counter}: {}", self.symbols.counter(tables, system, counter)));
        }
        self.line(0, "% rules");
        for (i, rule) in system.rules.iter().enumerate() {
            self.line(0, &format!("%   {i}: {}", self.symbols.rule(tables, system, rule)));
        }
        let Some(bounds) = &read.bounds else { return };
        self.line(0, "% ceilings: most of each counter, 0 where none is named");
        for (i, limits) in bounds.limits.iter().enumerate() {
            let held = limits.iter().enumerate().filter(|&(_, &limit)| limit > 0);
            let words: Vec<String> = held
                .map(|(c, &limit)| format!("{}<={}", self.symbols.counter(tables, system, c), shown(limit)))
                .collect();
            self.line(0, &format!("%   {i}: {}", words.join(" ")));
        }
    }
}

fn shown(limit: u16) -> String {
    if limit == UNBOUNDED { "any".to_string() } else { limit.to_string() }
}
