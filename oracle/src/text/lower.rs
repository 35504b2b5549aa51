//! Tree to rows: nested expressions become heads one after another, names become numbers.

use super::ast::{Body, Branch, Expr, Pattern, Station, Step, Term, What};
use crate::limits;
use std::collections::BTreeMap;

/// A binder by its order of making; its number is settled at the end.
type Binder = usize;
type Lowering<T> = Result<T, String>;

#[derive(Clone, Copy)]
enum Operand {
    Number(usize),
    Binder(Binder),
}

/// Rows of a program and what its text's words stand for.
#[derive(Clone, Debug, Default)]
pub struct Lowered {
    pub rows: Vec<(usize, usize)>,
    pub names: usize,
    pub bads: Vec<(usize, usize)>,
    pub warnings: Vec<String>,
    /// Labels and the rows of their heads.
    pub labels: BTreeMap<String, usize>,
    /// The author's word for each name, by its number.
    pub words: Vec<Option<String>>,
    /// The line of each head, and of each branch by the row of its pattern.
    pub lines: BTreeMap<usize, usize>,
}

struct Lower<'a> {
    constructors: BTreeMap<&'a str, (usize, usize)>,
    functions: BTreeMap<&'a str, Binder>,
    rows: Vec<(usize, Operand)>,
    /// The author's word for each binder, if any.
    words: Vec<Option<String>>,
    scope: Vec<(String, Binder)>,
    labels: BTreeMap<String, usize>,
    lines: BTreeMap<usize, usize>,
    warnings: Vec<String>,
}

/// The rows of a station, or a word on what is wrong in it.
pub fn lower(station: &Station) -> Lowering<Lowered> {
    let mut lower = Lower {
        constructors: constructors(station)?,
        functions: BTreeMap::new(),
        rows: Vec::new(),
        words: Vec::new(),
        scope: Vec::new(),
        labels: BTreeMap::new(),
        lines: BTreeMap::new(),
        warnings: Vec::new(),
    };
    lower.front(station)?;
    let start = station.start.as_ref().ok_or("the station has no `start -> ...`")?;
    lower.body(start)?;
    if lower.rows.len() > limits::ROWS.1 as usize {
        return Err(format!("{} rows, but at most {} are allowed", lower.rows.len(), limits::ROWS.1));
    }
    let numbers = lower.numbers(station)?;
    let bads = lower.bads(station)?;
    let rows = lower.rows.iter().map(|&(tag, operand)| match operand {
        Operand::Number(n) => (tag, n),
        Operand::Binder(b) => (tag, numbers[b]),
    });
    let mut words = vec![None; numbers.len()];
    numbers.iter().zip(&lower.words).for_each(|(&number, word)| words[number] = word.clone());
    Ok(Lowered {
        rows: rows.collect(),
        words,
        names: numbers.len(),
        bads,
        warnings: lower.warnings,
        labels: lower.labels,
        lines: lower.lines,
    })
}

fn constructors(station: &Station) -> Lowering<BTreeMap<&str, (usize, usize)>> {
    let mut found = BTreeMap::new();
    for (i, (name, arity)) in station.constructors.iter().enumerate() {
        if *arity > limits::ARITY {
            return Err(format!("constructor {name} has more than 8 arguments"));
        }
        if found.insert(name.as_str(), (i, *arity)).is_some() {
            return Err(format!("constructor {name} is declared twice"));
        }
    }
    Ok(found)
}

fn binds(tag: usize) -> bool {
    matches!(tag, 2..=7 | 11 | 23 | 30)
}

impl<'a> Lower<'a> {
    fn row(&mut self, tag: usize, number: usize) {
        self.rows.push((tag, Operand::Number(number)));
    }

    fn named_row(&mut self, tag: usize, binder: Binder) {
        self.rows.push((tag, Operand::Binder(binder)));
    }

    fn fresh(&mut self, word: Option<&str>) -> Binder {
        self.words.push(word.map(str::to_string));
        self.words.len() - 1
    }

    fn visible(&mut self, word: &str, binder: Binder) {
        self.scope.push((word.to_string(), binder));
    }

    fn in_scope(&self, word: &str) -> Option<Binder> {
        self.scope.iter().rev().find(|(w, _)| w == word).map(|&(_, binder)| binder)
    }

    /// The next row is a head of this line.
    fn line(&mut self, line: usize) {
        self.lines.insert(self.rows.len(), line);
    }

    fn label(&mut self, expr: &Expr) -> Lowering<()> {
        self.line(expr.line);
        let Some(label) = &expr.label else { return Ok(()) };
        match self.labels.insert(label.clone(), self.rows.len()) {
            None => Ok(()),
            Some(_) => Err(format!("line {}: label {label} is used twice", expr.line)),
        }
    }

    fn front(&mut self, station: &'a Station) -> Lowering<()> {
        for (_, arity) in &station.constructors {
            self.row(10, *arity);
        }
        for function in &station.functions {
            let word = function.name.as_str();
            if self.constructors.contains_key(word) || self.functions.contains_key(word) {
                return Err(format!("line {}: {word} is declared twice", function.line));
            }
            let binder = self.fresh(Some(word));
            self.functions.insert(word, binder);
        }
        for function in &station.functions {
            self.named_row(11, self.functions[function.name.as_str()]);
            self.body_form(&function.params, &function.body)?;
        }
        Ok(())
    }

    fn body_form(&mut self, params: &[String], body: &Body) -> Lowering<()> {
        if params.len() > limits::ARITY {
            return Err(format!("a function with {} parameters; at most 8 are allowed", params.len()));
        }
        let outside = self.scope.len();
        self.row(22, params.len());
        for param in params {
            let binder = self.fresh(Some(param));
            self.named_row(23, binder);
            self.visible(param, binder);
        }
        self.body(body)?;
        self.scope.truncate(outside);
        Ok(())
    }

    /// A body in which the last step gives back.
    fn body(&mut self, body: &[Step]) -> Lowering<()> {
        let outside = self.scope.len();
        if let Some((last, steps)) = body.split_last() {
            for step in steps {
                self.step(step)?;
            }
            self.tail(last)?;
        }
        self.scope.truncate(outside);
        Ok(())
    }

    fn step(&mut self, step: &Step) -> Lowering<Binder> {
        let binder = self.value(&step.value, step.name.as_deref())?;
        if let Some(name) = &step.name {
            self.visible(name, binder);
        }
        Ok(binder)
    }

    fn tail(&mut self, step: &Step) -> Lowering<()> {
        match &step.value.term {
            Term::Case(value, branches) if step.name.is_none() => {
                let value = self.value(value, None)?;
                self.case(&step.value, value, branches)
            }
            Term::Receive(branches) if step.name.is_none() => self.receive(&step.value, branches),
            Term::Plain(word) if self.known(word).is_some() => {
                let binder = self.plain(&step.value, word)?;
                self.label(&step.value)?;
                self.named_row(1, binder);
                Ok(())
            }
            _ => {
                let binder = self.step(step)?;
                self.line(step.value.line);
                self.named_row(1, binder);
                Ok(())
            }
        }
    }

    /// The binder of a name in scope or of a function.
    fn known(&self, word: &str) -> Option<Binder> {
        self.in_scope(word).or_else(|| self.functions.get(word).copied())
    }

    fn plain(&self, expr: &Expr, word: &str) -> Lowering<Binder> {
        self.known(word).ok_or_else(|| format!("line {}: {word} is not known here", expr.line))
    }

    /// A value by name: rows for it, unless it is a name already.
    fn value(&mut self, expr: &Expr, word: Option<&str>) -> Lowering<Binder> {
        match &expr.term {
            Term::Plain(name) if self.known(name).is_some() => match &expr.label {
                Some(label) => Err(format!("line {}: label {label} stands before a name alone", expr.line)),
                None => self.plain(expr, name),
            },
            Term::Plain(name) => self.apply(expr, word, name, &[]),
            Term::Apply(name, args) => self.apply(expr, word, name, args),
            Term::Fun(params, body) => {
                self.label(expr)?;
                let binder = self.fresh(word);
                self.named_row(3, binder);
                self.body_form(params, body)?;
                Ok(binder)
            }
            Term::Spawn(function) => {
                let function = self.value(function, None)?;
                self.head(expr, 6, word, &[function])
            }
            Term::SelfAddress => self.head(expr, 7, word, &[]),
            Term::Send(target, message) => {
                let target = self.value(target, None)?;
                let message = self.value(message, None)?;
                self.head(expr, 5, word, &[target, message])
            }
            Term::Case(value, branches) => {
                let value = self.value(value, None)?;
                self.at_once(expr.line, word, |lower| lower.case(expr, value, branches))
            }
            Term::Receive(branches) => self.at_once(expr.line, word, |lower| lower.receive(expr, branches)),
        }
    }

    /// A head with rows (21, name read) behind it.
    fn head(&mut self, expr: &Expr, tag: usize, word: Option<&str>, reads: &[Binder]) -> Lowering<Binder> {
        self.label(expr)?;
        let binder = self.fresh(word);
        self.named_row(tag, binder);
        reads.iter().for_each(|&read| self.named_row(21, read));
        Ok(binder)
    }

    fn values(&mut self, args: &[Expr]) -> Lowering<Vec<Binder>> {
        args.iter().map(|arg| self.value(arg, None)).collect()
    }

    /// A constructor or a call.
    fn apply(&mut self, expr: &Expr, word: Option<&str>, name: &str, args: &[Expr]) -> Lowering<Binder> {
        let constructor = self.constructors.get(name).copied();
        match constructor {
            Some((constructor, arity)) if arity == args.len() => {
                let args = self.values(args)?;
                let binder = self.head(expr, 2, word, &[])?;
                self.row(20, constructor);
                args.iter().for_each(|&arg| self.named_row(21, arg));
                Ok(binder)
            }
            Some((_, arity)) => Err(format!("line {}: {name} takes {arity} arguments", expr.line)),
            None if args.len() > limits::ARITY => Err(format!("line {}: more than 8 arguments", expr.line)),
            None => {
                let callee = self.plain(expr, name)?;
                let args = self.values(args)?;
                let binder = self.head(expr, 4, word, &[callee])?;
                self.row(22, args.len());
                args.iter().for_each(|&arg| self.named_row(21, arg));
                Ok(binder)
            }
        }
    }

    /// A case or receive with a rest: a function without parameters, called at once.
    fn at_once(
        &mut self,
        line: usize,
        word: Option<&str>,
        body: impl FnOnce(&mut Self) -> Lowering<()>,
    ) -> Lowering<Binder> {
        let function = self.fresh(None);
        self.line(line);
        self.named_row(3, function);
        self.row(22, 0);
        body(self)?;
        let binder = self.fresh(word);
        self.line(line);
        self.named_row(4, binder);
        self.named_row(21, function);
        self.row(22, 0);
        Ok(binder)
    }

    fn case(&mut self, expr: &Expr, value: Binder, branches: &[Branch]) -> Lowering<()> {
        self.label(expr)?;
        self.named_row(8, value);
        self.row(25, branches.len());
        self.branches(expr, branches)
    }

    fn receive(&mut self, expr: &Expr, branches: &[Branch]) -> Lowering<()> {
        self.label(expr)?;
        self.row(9, branches.len());
        self.branches(expr, branches)
    }

    fn branches(&mut self, expr: &Expr, branches: &[Branch]) -> Lowering<()> {
        if branches.len() > limits::BRANCHES.1 as usize {
            return Err(format!("line {}: more than 16 branches", expr.line));
        }
        for branch in branches {
            let outside = self.scope.len();
            self.line(branch.line);
            self.pattern(branch, &branch.pattern, 1, outside)?;
            self.body(&branch.body)?;
            self.scope.truncate(outside);
        }
        Ok(())
    }

    fn pattern(&mut self, branch: &Branch, pattern: &Pattern, level: usize, outside: usize) -> Lowering<()> {
        if level > limits::DEPTH {
            return Err(format!("line {}: a pattern deeper than 4", branch.line));
        }
        match pattern {
            Pattern::Any => self.row(32, 0),
            Pattern::Name(name) => self.pattern_name(branch, name, outside)?,
            Pattern::Held(name) => self.held_name(branch, name, outside)?,
            Pattern::Constructor(name, parts) => {
                let (constructor, arity) = self.constructors.get(name.as_str()).copied().unwrap_or((0, usize::MAX));
                if arity != parts.len() {
                    return Err(format!("line {}: no constructor {name} with {} arguments", branch.line, parts.len()));
                }
                self.row(31, constructor);
                for part in parts {
                    self.pattern(branch, part, level + 1, outside)?;
                }
            }
        }
        Ok(())
    }

    fn pattern_name(&mut self, branch: &Branch, name: &str, outside: usize) -> Lowering<()> {
        if self.scope[outside..].iter().any(|(word, _)| word == name) {
            return Err(format!("line {}: {name} twice in one pattern; each would bind afresh", branch.line));
        }
        if self.in_scope(name).is_some() {
            let warning = format!(
                "line {}: {name} binds afresh here, it is not compared with {name} above (that is ^{name})",
                branch.line
            );
            self.warnings.push(warning);
        }
        let binder = self.fresh(Some(name));
        self.named_row(30, binder);
        self.visible(name, binder);
        Ok(())
    }

    /// A name that is in scope at the case or receive, where names of the pattern are not.
    fn held_name(&mut self, branch: &Branch, name: &str, outside: usize) -> Lowering<()> {
        let held = self.scope[..outside].iter().rev().find(|(word, _)| word == name).map(|&(_, binder)| binder);
        let binder = held.or_else(|| self.functions.get(name).copied());
        let unknown = || format!("line {}: {name} is not known before this case or receive", branch.line);
        self.named_row(33, binder.ok_or_else(unknown)?);
        Ok(())
    }

    /// The number of each binder: as `names` says, or in the order of the rows that bind.
    fn numbers(&self, station: &Station) -> Lowering<Vec<usize>> {
        let mut numbers = vec![0; self.words.len()];
        let binding = self.rows.iter().filter(|(tag, _)| binds(*tag));
        let binders = binding.filter_map(|(_, operand)| match operand {
            Operand::Binder(binder) => Some(*binder),
            Operand::Number(_) => None,
        });
        let mut taken = vec![false; self.words.len()];
        for (i, binder) in binders.enumerate() {
            numbers[binder] = match &station.names {
                None => i,
                Some(names) => self.listed(names, binder)?,
            };
            if numbers[binder] >= taken.len() || std::mem::replace(&mut taken[numbers[binder]], true) {
                return Err(format!("`names` must list each of the {} names once", self.words.len()));
            }
        }
        Ok(numbers)
    }

    fn listed(&self, names: &[String], binder: Binder) -> Lowering<usize> {
        let word = self.words[binder].as_deref().unwrap_or("a name without a word");
        let found = names.iter().position(|name| name == word);
        found.ok_or_else(|| format!("{word} is bound but not listed in `names`"))
    }

    fn bads(&self, station: &Station) -> Lowering<Vec<(usize, usize)>> {
        if station.bads.is_empty() {
            return Err("the station has no bad: at least one is needed".to_string());
        }
        let mut rows = Vec::new();
        for bad in &station.bads {
            for item in &bad.items {
                rows.push((40, self.class(&item.class, item.line)?));
                match &item.what {
                    What::At(label) => rows.push((41, self.labelled(label, item.line)?)),
                    What::Holds(letter, heads) => rows.extend(self.letter(letter, heads.as_deref(), item.line)?),
                }
                if item.minimum == 0 || item.minimum > limits::UNBOUNDED as usize {
                    return Err(format!("line {}: a minimum lies from 1 to 65535", item.line));
                }
                rows.push((43, item.minimum));
            }
            rows.push((44, 0));
        }
        Ok(rows)
    }

    fn labelled(&self, label: &str, line: usize) -> Lowering<usize> {
        self.labels.get(label).copied().ok_or_else(|| format!("line {line}: no head has the label {label}"))
    }

    fn class(&self, class: &str, line: usize) -> Lowering<usize> {
        if class == "start" {
            return Ok(self.rows.len());
        }
        let row = self.labelled(class, line)?;
        match self.rows[row].0 {
            6 => Ok(row),
            _ => Err(format!("line {line}: {class} is no label of a spawn")),
        }
    }

    /// The row of a letter, and those of the heads where they are named.
    fn letter(&self, letter: &str, heads: Option<&[String]>, line: usize) -> Lowering<Vec<(usize, usize)>> {
        let mut rows = vec![(42, self.kind(letter, line)?)];
        let arity = self.constructors.get(letter).map_or(0, |&(_, arity)| arity);
        for head in heads.unwrap_or_default() {
            rows.push((45, self.kind(head, line)?));
        }
        match heads {
            Some(heads) if heads.len() != arity => {
                let stand = if heads.len() == 1 { "head stands" } else { "heads stand" };
                Err(format!("line {line}: {letter} has {arity} arguments, and {} {stand} there", heads.len()))
            }
            _ => Ok(rows),
        }
    }

    /// The number of a constructor, C for a function, C + 1 for an address.
    fn kind(&self, word: &str, line: usize) -> Lowering<usize> {
        let count = self.constructors.len();
        match word {
            "function" => Ok(count),
            "address" => Ok(count + 1),
            _ => {
                let found = self.constructors.get(word).map(|&(i, _)| i);
                found.ok_or_else(|| format!("line {line}: no constructor {word}"))
            }
        }
    }
}
