//! Reads the program's rows once, in order (refusal 3).

use crate::limits;
use crate::message::Message;
use crate::program::{Binder, Branch, Function, Head, Name, Node, Pattern, Program, Row, Use};
use crate::refusal::{self, Refusal};

struct Reader<'a> {
    tags: &'a [u16],
    numbers: &'a [u16],
    at: Row,
    program: Program,
}

/// Refusal 3, or the program.
pub fn read(message: &Message) -> Result<Program, Refusal> {
    let mut reader = Reader {
        tags: &message.program.first,
        numbers: &message.program.second,
        at: 0,
        program: Program { rows: message.rows, names: message.names, ..Program::default() },
    };
    reader.program.nodes = vec![Node::Part; message.rows];
    reader.constructors(message.constructors)?;
    reader.named_functions(message.functions)?;
    reader.program.start = reader.at;
    reader.expression()?;
    if reader.at < message.rows {
        return Err(reader.wrong("no row behind the start expression"));
    }
    reader.program.functions.sort_by_key(|f| f.row);
    Ok(reader.program)
}

impl Reader<'_> {
    fn wrong(&self, wanted: &'static str) -> Refusal {
        Refusal::wanted(refusal::ROW, 4 + self.at.min(self.program.rows), wanted)
    }

    fn tag(&self) -> Option<u16> {
        self.tags.get(self.at).copied()
    }

    /// Takes a row of this tag whose number lies in `least..=most`.
    fn take(&mut self, tag: u16, least: usize, most: usize, wanted: &'static str) -> Result<usize, Refusal> {
        let number = match self.tag() {
            Some(found) if found == tag => self.numbers[self.at] as usize,
            _ => return Err(self.wrong(wanted)),
        };
        if number < least || number > most {
            return Err(self.wrong(wanted));
        }
        self.at += 1;
        Ok(number)
    }

    fn take_name(&mut self, tag: u16, wanted: &'static str) -> Result<Name, Refusal> {
        self.take(tag, 0, self.program.names - 1, wanted)
    }

    /// A row (21, name read).
    fn take_use(&mut self, wanted: &'static str) -> Result<Name, Refusal> {
        let row = self.at;
        let name = self.take_name(21, wanted)?;
        self.program.uses.push(Use { row, name, at: row });
        Ok(name)
    }

    fn take_uses(&mut self, count: usize) -> Result<Vec<Name>, Refusal> {
        (0..count).map(|_| self.take_use("a row (21, name read) for an argument")).collect()
    }

    fn take_constructor(&mut self, tag: u16, wanted: &'static str) -> Result<usize, Refusal> {
        match self.program.arities.len() {
            0 => Err(self.wrong(wanted)),
            count => self.take(tag, 0, count - 1, wanted),
        }
    }

    /// Notes a binder; its scope is filled in when it is known. Gives its index.
    fn bind(&mut self, row: Row, name: Name) -> usize {
        self.program.binders.push(Binder { row, name, from: 0, until: 0 });
        self.program.binders.len() - 1
    }

    fn scope(&mut self, binder: usize, from: Row, until: Row) {
        self.program.binders[binder].from = from;
        self.program.binders[binder].until = until;
    }

    fn constructors(&mut self, count: usize) -> Result<(), Refusal> {
        for _ in 0..count {
            let row = self.at;
            let arity = self.take(10, 0, limits::ARITY, "a row (10, arity from 0 to 8)")?;
            self.program.arities.push(arity);
            self.program.nodes[row] = Node::Constructor(arity);
        }
        Ok(())
    }

    fn named_functions(&mut self, count: usize) -> Result<(), Refusal> {
        for _ in 0..count {
            let row = self.at;
            let name = self.take_name(11, "a row (11, name bound)")?;
            let binder = self.bind(row, name);
            self.scope(binder, 0, self.program.rows);
            self.program.nodes[row] = Node::Named;
            self.body_form(row, name)?;
        }
        Ok(())
    }

    /// (22, parameter count), a row (23, name bound) each, and an expression.
    fn body_form(&mut self, row: Row, name: Name) -> Result<(), Refusal> {
        let count = self.take(22, 0, limits::ARITY, "a row (22, parameter count from 0 to 8)")?;
        let mut params = Vec::with_capacity(count);
        let mut binders = Vec::with_capacity(count);
        for _ in 0..count {
            let at = self.at;
            let param = self.take_name(23, "a row (23, name bound) for a parameter")?;
            params.push(param);
            binders.push(self.bind(at, param));
        }
        let body = self.expression()?;
        for binder in binders {
            self.scope(binder, body, self.at);
        }
        self.program.functions.push(Function { row, name, params, body });
        Ok(())
    }

    /// Reads heads until one without a rest; gives the first head's row.
    fn expression(&mut self) -> Result<Row, Refusal> {
        let begin = self.at;
        let mut waiting = Vec::new();
        loop {
            let row = self.at;
            let (head, binder) = self.head()?;
            self.program.nodes[row] = Node::Head(head);
            match binder {
                Some(binder) => waiting.push((binder, self.at)),
                None => break,
            }
        }
        for (binder, rest) in waiting {
            self.scope(binder, rest, self.at);
        }
        Ok(begin)
    }

    /// One head with its parts, and its binder if a rest follows.
    fn head(&mut self) -> Result<(Head, Option<usize>), Refusal> {
        match self.tag() {
            Some(1) => self.give_back(),
            Some(tag @ 2..=7) => self.binding_head(tag),
            Some(8) => self.case(),
            Some(9) => self.receive(),
            _ => Err(self.wrong("the head of an expression (tag 1 to 9)")),
        }
    }

    fn give_back(&mut self) -> Result<(Head, Option<usize>), Refusal> {
        let row = self.at;
        let value = self.take_name(1, "a row (1, name read)")?;
        self.program.uses.push(Use { row, name: value, at: row });
        Ok((Head::GiveBack { value }, None))
    }

    fn binding_head(&mut self, tag: u16) -> Result<(Head, Option<usize>), Refusal> {
        let row = self.at;
        let name = self.take_name(tag, "a head with the name it binds")?;
        let binder = self.bind(row, name);
        let head = match tag {
            2 => self.build(name)?,
            3 => self.function_value(row, name)?,
            4 => self.call(name)?,
            5 => self.send(name)?,
            6 => self.spawn(row, name)?,
            _ => Head::SelfAddress { name, rest: self.at },
        };
        Ok((head, Some(binder)))
    }

    fn build(&mut self, name: Name) -> Result<Head, Refusal> {
        let constructor = self.take_constructor(20, "a row (20, constructor)")?;
        let args = self.take_uses(self.program.arities[constructor])?;
        Ok(Head::Build { name, constructor, args, rest: self.at })
    }

    fn function_value(&mut self, row: Row, name: Name) -> Result<Head, Refusal> {
        self.body_form(row, name)?;
        Ok(Head::Function { name, rest: self.at })
    }

    fn call(&mut self, name: Name) -> Result<Head, Refusal> {
        let callee = self.take_use("a row (21, function name)")?;
        let count = self.take(22, 0, limits::ARITY, "a row (22, count from 0 to 8)")?;
        let args = self.take_uses(count)?;
        Ok(Head::Call { name, callee, args, rest: self.at })
    }

    fn send(&mut self, name: Name) -> Result<Head, Refusal> {
        let target = self.take_use("a row (21, target)")?;
        let message = self.take_use("a row (21, message)")?;
        Ok(Head::Send { name, target, message, rest: self.at })
    }

    fn spawn(&mut self, row: Row, name: Name) -> Result<Head, Refusal> {
        let callee = self.take_use("a row (21, function name)")?;
        self.program.spawns.push(row);
        Ok(Head::Spawn { name, callee, rest: self.at })
    }

    fn case(&mut self) -> Result<(Head, Option<usize>), Refusal> {
        let row = self.at;
        let value = self.take_name(8, "a row (8, name read)")?;
        self.program.uses.push(Use { row, name: value, at: row });
        let (least, most) = limits::BRANCHES;
        let count = self.take(25, least as usize, most as usize, "a row (25, branch count from 1 to 16)")?;
        let branches = self.branches(row, count)?;
        Ok((Head::Case { value, branches }, None))
    }

    fn receive(&mut self) -> Result<(Head, Option<usize>), Refusal> {
        let row = self.at;
        let (least, most) = limits::BRANCHES;
        let count = self.take(9, least as usize, most as usize, "a row (9, branch count from 1 to 16)")?;
        let branches = self.branches(row, count)?;
        Ok((Head::Receive { branches }, None))
    }

    /// The branches of the case or receive at `head`.
    fn branches(&mut self, head: Row, count: usize) -> Result<Vec<Branch>, Refusal> {
        (0..count).map(|_| self.branch(head)).collect()
    }

    fn branch(&mut self, head: Row) -> Result<Branch, Refusal> {
        let first = self.program.binders.len();
        let pattern = self.pattern(head, 1)?;
        let bound = first..self.program.binders.len();
        let body = self.expression()?;
        for binder in bound {
            self.scope(binder, body, self.at);
        }
        Ok(Branch { pattern, body })
    }

    fn pattern(&mut self, head: Row, level: usize) -> Result<Row, Refusal> {
        if level > limits::DEPTH {
            return Err(self.wrong("no pattern deeper than level 4"));
        }
        let row = self.at;
        let pattern = match self.tag() {
            Some(30) => self.name_pattern()?,
            Some(31) => self.constructor_pattern(head, level)?,
            Some(32) => self.any_pattern()?,
            Some(33) => self.held_pattern(head)?,
            _ => return Err(self.wrong("a pattern (tag 30 to 33)")),
        };
        self.program.nodes[row] = Node::Pattern(pattern);
        Ok(row)
    }

    fn name_pattern(&mut self) -> Result<Pattern, Refusal> {
        let row = self.at;
        let name = self.take_name(30, "a row (30, name bound)")?;
        self.bind(row, name);
        Ok(Pattern::Name(name))
    }

    fn any_pattern(&mut self) -> Result<Pattern, Refusal> {
        self.take(32, 0, 0, "a row (32, 0)")?;
        Ok(Pattern::Any)
    }

    fn held_pattern(&mut self, head: Row) -> Result<Pattern, Refusal> {
        let row = self.at;
        let name = self.take_name(33, "a row (33, name read)")?;
        self.program.uses.push(Use { row, name, at: head });
        Ok(Pattern::Held(name))
    }

    fn constructor_pattern(&mut self, head: Row, level: usize) -> Result<Pattern, Refusal> {
        let constructor = self.take_constructor(31, "a row (31, constructor)")?;
        let arity = self.program.arities[constructor];
        let parts = (0..arity).map(|_| self.pattern(head, level + 1)).collect::<Result<_, _>>()?;
        Ok(Pattern::Constructor { constructor, parts })
    }
}
