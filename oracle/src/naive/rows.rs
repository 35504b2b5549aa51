//! Rows by a stack of what is still to come (refusals 3, 4, 5): each row is asked for by the top.

use super::Refused;
use crate::message::Message;

#[derive(Clone, Copy)]
enum Coming {
    Constructor,
    Named,
    Params,
    Param,
    Expression,
    BuildOf,
    Use,
    CallCount,
    BranchCount,
    Pattern(usize),
    /// These take no row: names seen so far are remembered, forgotten, or one more is seen.
    Open,
    Close,
    Seen(usize),
}

struct Walk<'a> {
    m: &'a Message,
    arities: Vec<usize>,
    coming: Vec<Coming>,
    seen: Vec<usize>,
    opened: Vec<usize>,
    front: Vec<usize>,
    bound: Vec<(usize, usize)>,
    /// Row, name, and whether it was seen there.
    read: Vec<(usize, usize, bool)>,
}

pub fn check(m: &Message) -> Result<(), Refused> {
    let mut walk = Walk {
        m,
        arities: Vec::new(),
        coming: Vec::new(),
        seen: Vec::new(),
        opened: Vec::new(),
        front: Vec::new(),
        bound: Vec::new(),
        read: Vec::new(),
    };
    walk.rows()?;
    walk.names()?;
    walk.scopes()
}

impl Walk<'_> {
    /// What comes next stands last.
    fn push(&mut self, first_to_last: &[Coming]) {
        self.coming.extend(first_to_last.iter().rev());
    }

    fn rows(&mut self) -> Result<(), Refused> {
        self.push(&[Coming::Expression]);
        (0..self.m.functions).for_each(|_| self.push(&[Coming::Named]));
        (0..self.m.constructors).for_each(|_| self.push(&[Coming::Constructor]));
        for row in 0..self.m.rows {
            let (tag, number) = self.m.program.pair(row);
            let next = self.next();
            if !next.is_some_and(|next| self.takes(next, row, tag, number)) {
                return Err((3, 4 + row));
            }
        }
        match self.next() {
            Some(_) => Err((3, 4 + self.m.rows)),
            None => Ok(()),
        }
    }

    /// The next that takes a row.
    fn next(&mut self) -> Option<Coming> {
        while let Some(next) = self.coming.pop() {
            match next {
                Coming::Open => self.opened.push(self.seen.len()),
                Coming::Close => {
                    let length = self.opened.pop().unwrap_or(0);
                    self.seen.truncate(length);
                }
                Coming::Seen(name) => self.seen.push(name),
                other => return Some(other),
            }
        }
        None
    }

    fn binds(&mut self, row: usize, name: usize) -> bool {
        self.bound.push((row, name));
        name < self.m.names
    }

    fn reads(&mut self, row: usize, name: usize) -> bool {
        self.read.push((row, name, self.seen.contains(&name)));
        name < self.m.names
    }

    /// A read that must be seen outside of the branch that was opened last, at its case or receive.
    fn reads_outside(&mut self, row: usize, name: usize) -> bool {
        let outside = self.opened.last().copied().unwrap_or(0);
        self.read.push((row, name, self.seen[..outside].contains(&name)));
        name < self.m.names
    }

    fn takes(&mut self, next: Coming, row: usize, tag: usize, number: usize) -> bool {
        use Coming::*;
        match (next, tag) {
            (Constructor, 10) => {
                self.arities.push(number);
                number <= 8
            }
            (Named, 11) => {
                self.front.push(number);
                self.push(&[Open, Params, Expression, Close]);
                self.binds(row, number)
            }
            (Params, 22) => {
                (0..number.min(9)).for_each(|_| self.push(&[Param]));
                number <= 8
            }
            (Param, 23) => {
                self.seen.push(number);
                self.binds(row, number)
            }
            (Use, 21) => self.reads(row, number),
            (BuildOf, 20) => {
                let arity = self.arities.get(number).copied();
                (0..arity.unwrap_or(0)).for_each(|_| self.push(&[Use]));
                arity.is_some()
            }
            (CallCount, 22) => {
                (0..number.min(9)).for_each(|_| self.push(&[Use]));
                number <= 8
            }
            (BranchCount, 25) => self.branches(number),
            (Pattern(level), _) => self.pattern(level, row, tag, number),
            (Expression, _) => self.expression(row, tag, number),
            _ => false,
        }
    }

    fn branches(&mut self, count: usize) -> bool {
        use Coming::*;
        (0..count.min(17)).for_each(|_| self.push(&[Open, Pattern(1), Expression, Close]));
        (1..=16).contains(&count)
    }

    fn pattern(&mut self, level: usize, row: usize, tag: usize, number: usize) -> bool {
        let right = match tag {
            30 => {
                self.seen.push(number);
                self.binds(row, number)
            }
            31 => {
                let arity = self.arities.get(number).copied();
                (0..arity.unwrap_or(0)).for_each(|_| self.push(&[Coming::Pattern(level + 1)]));
                arity.is_some()
            }
            32 => number == 0,
            33 => self.reads_outside(row, number),
            _ => false,
        };
        right && level <= 4
    }

    fn expression(&mut self, row: usize, tag: usize, number: usize) -> bool {
        use Coming::*;
        match tag {
            1 => return self.reads(row, number),
            8 => {
                self.push(&[BranchCount]);
                return self.reads(row, number);
            }
            9 => return self.branches(number),
            _ => {}
        }
        self.push(&[Seen(number), Expression]);
        match tag {
            2 => self.push(&[BuildOf]),
            3 => self.push(&[Open, Params, Expression, Close]),
            4 => self.push(&[Use, CallCount]),
            5 => self.push(&[Use, Use]),
            6 => self.push(&[Use]),
            7 => {}
            _ => return false,
        }
        self.binds(row, number)
    }

    fn names(&self) -> Result<(), Refused> {
        for (i, (row, name)) in self.bound.iter().enumerate() {
            if self.bound[..i].iter().any(|(_, other)| other == name) {
                return Err((4, 4 + row));
            }
        }
        let all = (0..self.m.names).all(|name| self.bound.iter().any(|&(_, bound)| bound == name));
        if all { Ok(()) } else { Err((4, 1)) }
    }

    fn scopes(&self) -> Result<(), Refused> {
        let wrong = self.read.iter().find(|(_, name, seen)| !seen && !self.front.contains(name));
        wrong.map_or(Ok(()), |(row, _, _)| Err((5, 4 + row)))
    }
}
