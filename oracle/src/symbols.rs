//! Words for the numbers of a message: the same ones in `run`, `explain` and `disassemble`.

use crate::bads::{Item, Place};
use crate::letters::Letter;
use crate::program::{Head, Name, Node, Pattern, Program, Row, State};
use crate::system::{Effect, Rule, System};
use crate::tables::Tables;
use std::collections::BTreeMap;

/// Names for one program. Nothing of the author's own words is left in a message; the assembler
/// still has them and puts them in.
pub struct Symbols<'a> {
    program: &'a Program,
    pub names: Vec<String>,
    pub constructors: Vec<String>,
    pub labels: BTreeMap<Row, String>,
    /// The lines of heads in the author's text.
    pub lines: BTreeMap<Row, usize>,
    /// The names of the bads.
    pub bads: Vec<String>,
}

impl<'a> Symbols<'a> {
    pub fn new(program: &'a Program) -> Symbols<'a> {
        let mut names: Vec<String> = (0..program.names).map(|n| format!("N{n}")).collect();
        for (i, function) in program.named().enumerate() {
            names[function.name] = format!("f{i}");
        }
        let constructors = (0..program.arities.len()).map(|c| format!("c{c}")).collect();
        Symbols { program, names, constructors, labels: BTreeMap::new(), lines: BTreeMap::new(), bads: Vec::new() }
    }

    /// A bad by its name, or by its number where it has none.
    pub fn bad(&self, bad: usize) -> String {
        self.bads.get(bad).map_or(format!("bad {bad}"), |name| format!("bad `{name}`"))
    }

    /// An item of a bad.
    pub fn item(&self, item: &Item) -> String {
        let what = match item.place {
            Place::Head(head) => format!("at {}", self.label(head)),
            Place::Kind(kind) => format!("holds {}", self.kind(kind)),
            Place::Letter(letter) => format!("holds {}", self.letter(letter)),
        };
        format!("{} {what} >= {}", self.class(item.class), item.minimum)
    }

    pub fn name(&self, name: Name) -> &str {
        &self.names[name]
    }

    pub fn constructor(&self, constructor: usize) -> &str {
        &self.constructors[constructor]
    }

    /// The label of a head.
    pub fn label(&self, row: Row) -> String {
        self.labels.get(&row).cloned().unwrap_or_else(|| format!("r{row}"))
    }

    pub fn class(&self, class: usize) -> String {
        if class == self.program.rows { "start".to_string() } else { self.label(class) }
    }

    /// A letter: `pair(gauge,address)`, without a space so that it stays on one line; `address`.
    pub fn letter(&self, letter: Letter) -> String {
        let heads: Vec<String> = letter.heads(self.program).map(|head| self.kind(head)).collect();
        match heads.is_empty() {
            true => self.kind(letter.kind),
            false => format!("{}({})", self.kind(letter.kind), heads.join(",")),
        }
    }

    /// A constructor, or that it is a function or an address.
    pub fn kind(&self, kind: usize) -> String {
        match kind.checked_sub(self.program.arities.len()) {
            None => self.constructor(kind).to_string(),
            Some(0) => "function".to_string(),
            Some(_) => "address".to_string(),
        }
    }

    pub fn value(&self, value: usize) -> String {
        if let Some((constructor, _)) = self.program.build(value) {
            return format!("{} built at {}", self.constructor(constructor), self.label(value));
        }
        if self.program.is_class(value) {
            return format!("address of {}", self.class(value));
        }
        match (self.program.nodes.get(value), self.program.function(value)) {
            (Some(Node::Named), Some(f)) => format!("function {}", self.name(f.name)),
            _ => {
                let line = self.lines.get(&value).map_or(String::new(), |line| format!(" (line {line})"));
                format!("function made at {}{line}", self.label(value))
            }
        }
    }

    fn list(&self, names: &[Name]) -> String {
        names.iter().map(|&n| self.name(n)).collect::<Vec<_>>().join(", ")
    }

    pub fn pattern(&self, row: Row) -> String {
        match self.program.pattern(row) {
            Some(Pattern::Name(name)) => self.name(*name).to_string(),
            Some(Pattern::Held(name)) => format!("^{}", self.name(*name)),
            Some(Pattern::Constructor { constructor, parts }) if parts.is_empty() => {
                self.constructor(*constructor).to_string()
            }
            Some(Pattern::Constructor { constructor, parts }) => {
                let parts: Vec<String> = parts.iter().map(|&part| self.pattern(part)).collect();
                format!("{}({})", self.constructor(*constructor), parts.join(", "))
            }
            _ => "_".to_string(),
        }
    }

    /// One head in a few words, without its rest.
    pub fn head(&self, row: Row) -> String {
        let n = |name: &Name| self.name(*name);
        match self.program.head(row) {
            Some(Head::GiveBack { value }) => format!("give back {}", n(value)),
            Some(Head::Build { name, constructor, args, .. }) => {
                format!("{} = {}({})", n(name), self.constructor(*constructor), self.list(args))
            }
            Some(Head::Function { name, .. }) => format!("{} = fun", n(name)),
            Some(Head::Call { name, callee, args, .. }) => {
                format!("{} = {}({})", n(name), n(callee), self.list(args))
            }
            Some(Head::Send { name, target, message, .. }) => format!("{} = {} ! {}", n(name), n(target), n(message)),
            Some(Head::Spawn { name, callee, .. }) => format!("{} = spawn({})", n(name), n(callee)),
            Some(Head::SelfAddress { name, .. }) => format!("{} = self()", n(name)),
            Some(Head::Case { value, .. }) => format!("case {}", n(value)),
            Some(Head::Receive { .. }) => "receive".to_string(),
            None => "no head".to_string(),
        }
    }

    /// One head in a few words, with its line where that is known.
    pub fn line(&self, row: Row) -> String {
        match self.lines.get(&row) {
            Some(line) => format!("line {line}: {}", self.head(row)),
            None => self.head(row),
        }
    }

    /// A state; one with a call pushed tells where it returns to.
    pub fn state(&self, state: State) -> String {
        let State { class, head, back } = state;
        let returns = self.returns(back).map_or(String::new(), |call| format!(", returns to {call}"));
        format!("{} at {} [{}]{returns}", self.class(class), self.label(head), self.line(head))
    }

    /// The label of the call that a state returns to, if it has one.
    fn returns(&self, back: usize) -> Option<String> {
        (back != self.program.rows).then(|| self.label(back))
    }

    /// A counter, short: `start@r7` for a state, `start@r7>r3` for one that returns to r3, `start!c0` for a letter.
    pub fn counter(&self, tables: &Tables, system: &System, counter: usize) -> String {
        if let Some(&State { class, head, back }) = tables.states.get(counter) {
            let returns = self.returns(back).map_or(String::new(), |call| format!(">{call}"));
            return format!("{}@{}{returns}", self.class(class), self.label(head));
        }
        match system.letters.get(counter - tables.states.len()) {
            Some(&(class, letter)) => format!("{}!{}", self.class(class), self.letter(letter)),
            None => "no counter".to_string(),
        }
    }

    /// A rule in words.
    pub fn rule(&self, tables: &Tables, system: &System, rule: &Rule) -> String {
        let counter = |c: usize| self.counter(tables, system, c);
        let effect = match rule.effect {
            Effect::Nothing => String::new(),
            Effect::Read(c) => format!(", reads {}", counter(c)),
            Effect::Put(c) => format!(", puts {}", counter(c)),
            Effect::New(c) => format!(", new process {}", counter(c)),
        };
        format!("{} -> {}{effect}", counter(rule.from), counter(rule.to))
    }
}
