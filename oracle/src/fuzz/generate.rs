//! Random well-formed programs.

use super::rng::Rng;
use super::row_list::RowList;
use crate::limits;

type Binder = usize;

#[derive(Clone, Copy, PartialEq, Eq)]
enum Kind {
    Function(usize),
    Address,
    Built,
    Unknown,
}

#[derive(Clone, Copy)]
enum Operand {
    Number(usize),
    Binder(Binder),
}

/// Rows of a program that refusals 3 to 5 do not hit.
#[derive(Clone, Debug, Default)]
pub struct Rows {
    pub rows: Vec<(usize, usize)>,
    pub names: usize,
    pub constructors: usize,
    pub functions: usize,
}

struct Maker<'r> {
    rng: &'r mut Rng,
    arities: Vec<usize>,
    rows: Vec<(usize, Operand)>,
    binders: usize,
    scope: Vec<(Binder, Kind)>,
    /// Names in scope at the case or receive whose pattern is made.
    outside: usize,
    /// Names that some row so far builds, with the constructor.
    built: Vec<(Binder, usize)>,
    /// Whether sends of functions are wanted.
    mailing: bool,
    /// A function of the front that is called from several places.
    routine: Option<Binder>,
}

/// A program of about `size` rows, perhaps with sends of functions.
pub fn program(rng: &mut Rng, size: usize, mailing: bool) -> Rows {
    loop {
        let made = attempt(rng, size, mailing);
        let fits = made.rows.len() <= limits::ROWS.1 as usize && made.names <= limits::NAMES.1 as usize;
        if fits && made.names > 0 {
            return made;
        }
    }
}

fn attempt(rng: &mut Rng, size: usize, mailing: bool) -> Rows {
    let constructors = if rng.chance(1, 30) { rng.range(0, 64.min(size)) } else { rng.range(0, 5) };
    let functions = if rng.chance(1, 30) { rng.range(0, 64.min(size / 8)) } else { rng.range(0, 4.min(size / 8)) };
    let arities =
        (0..constructors).map(|_| if rng.chance(1, 20) { rng.range(0, 8) } else { rng.range(0, 3) }).collect();
    let routine = (functions > 0 && rng.chance(2, 3)).then(|| rng.below(functions));
    let (rows, scope, built) = (Vec::new(), Vec::new(), Vec::new());
    let mut maker = Maker { rng, arities, rows, binders: 0, scope, outside: 0, built, mailing, routine };
    maker.whole(size, functions);
    let numbers = maker.numbers();
    let rows = maker.rows.iter().map(|&(tag, operand)| match operand {
        Operand::Number(n) => (tag, n),
        Operand::Binder(b) => (tag, numbers[b]),
    });
    Rows { rows: rows.collect(), names: maker.binders, constructors, functions }
}

impl Maker<'_> {
    fn row(&mut self, tag: usize, number: usize) {
        self.rows.push((tag, Operand::Number(number)));
    }

    fn named(&mut self, tag: usize, binder: Binder) {
        self.rows.push((tag, Operand::Binder(binder)));
    }

    fn fresh(&mut self) -> Binder {
        self.binders += 1;
        self.binders - 1
    }

    /// Numbers of the binders: in order, or shuffled.
    fn numbers(&mut self) -> Vec<usize> {
        let mut numbers: Vec<usize> = (0..self.binders).collect();
        if self.rng.chance(1, 3) {
            self.rng.shuffle(&mut numbers);
        }
        numbers
    }

    fn whole(&mut self, size: usize, functions: usize) {
        for i in 0..self.arities.len() {
            self.row(10, self.arities[i]);
        }
        let params: Vec<usize> = (0..functions).map(|_| self.count()).collect();
        for &count in &params {
            let binder = self.fresh();
            self.scope.push((binder, Kind::Function(count)));
        }
        let share = size / (functions + 2);
        for (binder, count) in params.into_iter().enumerate() {
            self.named(11, binder);
            self.body(count, share);
        }
        self.expression(2 * share, 0);
    }

    /// A number of parameters or arguments.
    fn count(&mut self) -> usize {
        match self.rng.below(20) {
            0 => self.rng.range(0, 8),
            1..=9 => 0,
            10..=15 => 1,
            _ => 2,
        }
    }

    fn body(&mut self, params: usize, size: usize) {
        let outside = self.scope.len();
        self.row(22, params);
        for _ in 0..params {
            let binder = self.fresh();
            self.named(23, binder);
            self.scope.push((binder, Kind::Unknown));
        }
        if self.rng.chance(1, 10) && self.known(|kind| kind == Kind::Function(0)) {
            self.spawn();
        }
        self.expression(size.saturating_sub(params + 2), 1);
        self.scope.truncate(outside);
    }

    fn expression(&mut self, size: usize, depth: usize) {
        let outside = self.scope.len();
        let end = self.rows.len() + size;
        let stop = if depth == 0 { 60 } else { 15 };
        let kept = if self.rng.chance(2, 3) { size / 2 } else { 4 };
        if depth < 2 && size > 14 && self.rng.chance(1, 2) {
            self.prelude();
        }
        if depth < 2 && size > 8 && self.rng.chance(1, 2) {
            self.shared_calls(depth);
        }
        while self.rows.len() + kept.max(4) < end && !self.rng.chance(1, stop) {
            self.head(end - self.rows.len(), depth);
        }
        self.end(end.saturating_sub(self.rows.len()), depth);
        self.scope.truncate(outside);
    }

    /// Values built, and one of them sent to the process itself: something to take apart.
    fn prelude(&mut self) {
        self.simple(7, Kind::Address);
        if !self.arities.is_empty() {
            (0..self.rng.range(1, 3)).for_each(|_| self.build());
            self.send();
        }
    }

    /// Calls of the routine: two where the start begins, one in a body.
    fn shared_calls(&mut self, depth: usize) {
        let calls = if self.routine.is_some() { 2 - depth } else { 0 };
        (0..calls).for_each(|_| self.call_of(self.routine.unwrap_or(0)));
    }

    /// A give back, case or receive.
    fn end(&mut self, left: usize, depth: usize) {
        if self.scope.is_empty() {
            self.simple(7, Kind::Address);
        }
        if self.rng.chance(1, 2) && self.known(|kind| matches!(kind, Kind::Function(_))) {
            self.call();
        }
        let branching = left >= 4 && depth < 40;
        let data = self.known(|kind| matches!(kind, Kind::Built | Kind::Unknown));
        match self.rng.below(if branching { 12 } else { 3 }) {
            0..=2 => {
                let name = self.any_name();
                self.named(1, name);
            }
            3..=6 if data => {
                let value = self.name(|kind| matches!(kind, Kind::Built | Kind::Unknown));
                self.named(8, value);
                let count = self.branch_count(left);
                self.row(25, count);
                let made = self.built.iter().find(|(binder, _)| *binder == value).map(|&(_, constructor)| constructor);
                self.branches(count, left, depth, made);
            }
            _ => {
                let count = self.branch_count(left);
                self.row(9, count);
                self.branches(count, left, depth, None);
            }
        }
    }

    fn branch_count(&mut self, left: usize) -> usize {
        let most = (left / 3).clamp(1, 16);
        if self.rng.chance(1, 15) { self.rng.range(1, most) } else { self.rng.range(1, most.min(3)) }
    }

    /// Branches; the first is mostly for the constructor that is known to come.
    fn branches(&mut self, count: usize, left: usize, depth: usize, made: Option<usize>) {
        for i in 0..count {
            let outside = self.scope.len();
            let begin = self.rows.len();
            self.outside = outside;
            match made {
                Some(constructor) if i == 0 && self.rng.chance(3, 4) => self.pattern_of(1, constructor),
                _ if i + 1 == count && self.rng.chance(1, 2) => self.row(32, 0),
                _ => self.top_pattern(),
            }
            let used = self.rows.len() - begin;
            self.expression((left / count).saturating_sub(used), depth + 1);
            self.scope.truncate(outside);
        }
    }

    /// Mostly of a constructor that is built somewhere.
    fn top_pattern(&mut self) {
        match self.rng.pick(&self.built).copied() {
            Some((_, constructor)) if self.rng.chance(2, 3) => self.pattern_of(1, constructor),
            _ => self.pattern(1),
        }
    }

    fn pattern(&mut self, level: usize) {
        let deep = level < limits::DEPTH && !self.arities.is_empty();
        let flat = !self.arities.is_empty() && self.arities.contains(&0);
        let (names, any) = if level == 1 { (3, 7) } else { (4, 6) };
        if self.rng.chance(1, if level == 1 { 8 } else { 4 }) && self.held_pattern() {
            return;
        }
        match self.rng.below(8) {
            n if n < names => {
                let binder = self.fresh();
                self.named(30, binder);
                self.scope.push((binder, Kind::Unknown));
            }
            n if n >= any => self.row(32, 0),
            _ if deep => self.constructor_pattern(level, false),
            _ if flat => self.constructor_pattern(level, true),
            _ => self.row(32, 0),
        }
    }

    /// A held name, mostly of an address or a build; false if there is none.
    fn held_pattern(&mut self) -> bool {
        let data = |kind: Kind| !matches!(kind, Kind::Function(_)) || self.outside.is_multiple_of(7);
        let names: Vec<Binder> = self.scope[..self.outside].iter().filter(|(_, k)| data(*k)).map(|&(b, _)| b).collect();
        let held = self.rng.pick(&names).copied();
        held.into_iter().for_each(|name| self.named(33, name));
        held.is_some()
    }

    fn constructor_pattern(&mut self, level: usize, flat: bool) {
        let all: Vec<usize> = (0..self.arities.len()).filter(|&c| !flat || self.arities[c] == 0).collect();
        let constructor = self.rng.pick(&all).copied().unwrap_or(0);
        self.pattern_of(level, constructor);
    }

    fn pattern_of(&mut self, level: usize, constructor: usize) {
        self.row(31, constructor);
        for _ in 0..self.arities[constructor] {
            self.pattern(level + 1);
        }
    }

    /// A name in scope, mostly one that fits.
    fn name(&mut self, fits: impl Fn(Kind) -> bool) -> Binder {
        let fitting: Vec<Binder> = self.scope.iter().filter(|(_, kind)| fits(*kind)).map(|&(b, _)| b).collect();
        if !fitting.is_empty() && !self.rng.chance(1, 60) {
            let recent = fitting.len() - self.rng.below(fitting.len()).min(self.rng.below(fitting.len())) - 1;
            return fitting[recent];
        }
        self.any_name()
    }

    fn any_name(&mut self) -> Binder {
        self.rng.pick(&self.scope).map_or(0, |&(binder, _)| binder)
    }

    /// A head that only binds.
    fn simple(&mut self, tag: usize, kind: Kind) {
        let binder = self.fresh();
        self.named(tag, binder);
        self.scope.push((binder, kind));
    }

    fn head(&mut self, left: usize, depth: usize) {
        if self.scope.is_empty() {
            return self.simple(7, Kind::Address);
        }
        match self.rng.below(20) {
            0 => self.simple(7, Kind::Address),
            1..=5 if !self.arities.is_empty() => self.build(),
            6..=8 if left > 10 && depth < 30 => self.function(left / 2),
            9..=11 if self.known(|kind| matches!(kind, Kind::Function(_))) => self.call(),
            12..=14 if self.known(|kind| kind == Kind::Function(0)) => self.spawn(),
            _ if self.known(|kind| kind == Kind::Address) => self.send(),
            _ => self.simple(7, Kind::Address),
        }
    }

    /// True if a name of this kind is in scope; now and then true all the same.
    fn known(&mut self, fits: impl Fn(Kind) -> bool) -> bool {
        self.scope.iter().any(|(_, kind)| fits(*kind)) || self.rng.chance(1, 60)
    }

    fn build(&mut self) {
        let constructor = self.rng.below(self.arities.len());
        let args: Vec<Binder> = (0..self.arities[constructor]).map(|_| self.any_name()).collect();
        let binder = self.fresh();
        self.built.push((binder, constructor));
        self.named(2, binder);
        self.row(20, constructor);
        args.into_iter().for_each(|arg| self.named(21, arg));
        self.scope.push((binder, Kind::Built));
    }

    fn function(&mut self, size: usize) {
        let params = self.count();
        let binder = self.fresh();
        self.named(3, binder);
        self.body(params, size);
        self.scope.push((binder, Kind::Function(params)));
    }

    fn call(&mut self) {
        let routine = self.routine.filter(|_| self.rng.chance(1, 4));
        let callee = routine.unwrap_or_else(|| self.name(|kind| matches!(kind, Kind::Function(_))));
        self.call_of(callee);
    }

    fn call_of(&mut self, callee: Binder) {
        let known = self.scope.iter().find(|(b, _)| *b == callee).map(|&(_, kind)| kind);
        let count = match known {
            Some(Kind::Function(count)) if !self.rng.chance(1, 30) => count,
            _ => self.count(),
        };
        let args: Vec<Binder> = (0..count).map(|_| self.any_name()).collect();
        let binder = self.fresh();
        self.named(4, binder);
        self.named(21, callee);
        self.row(22, count);
        args.into_iter().for_each(|arg| self.named(21, arg));
        self.scope.push((binder, Kind::Unknown));
    }

    fn spawn(&mut self) {
        let callee = self.name(|kind| kind == Kind::Function(0));
        self.simple(6, Kind::Address);
        self.named(21, callee);
    }

    fn send(&mut self) {
        let target = self.name(|kind| kind == Kind::Address);
        let message = match self.mailing && self.rng.chance(1, 3) {
            true => self.name(|kind| matches!(kind, Kind::Function(_))),
            false => self.name(|kind| matches!(kind, Kind::Built | Kind::Unknown)),
        };
        self.simple(5, Kind::Built);
        self.named(21, target);
        self.named(21, message);
    }
}

/// A program whose tables come near the most counters, now or formerly: some spawns of one long body, and
/// letters in the mail of each class; the last process may be sent the function that it runs.
pub fn crowded(rng: &mut Rng, mailing: bool) -> Rows {
    let classes = rng.range(3, 12);
    let letters = rng.range(1, 8);
    let sends: Vec<usize> = (0..classes).map(|_| rng.range(1, letters)).collect();
    let others = letters + 1 + 2 * classes + 2 * sends.iter().sum::<usize>();
    let most = if mailing || rng.chance(1, 2) { limits::COUNTERS } else { limits::FORMER.counters };
    let length = (most + rng.range(0, 20)).saturating_sub(others + rng.range(0, 15)) / classes;
    let mut crowd = RowList { rows: vec![(10, 0); letters], names: 1 };
    crowd.rows.extend([(11, 0), (22, 0)]);
    let last = (0..length).map(|_| crowd.bind(7, &[])).last().unwrap_or(0);
    crowd.rows.push((1, last));
    let built: Vec<usize> = (0..letters).map(|letter| crowd.bind(2, &[(20, letter)])).collect();
    let mut address = 0;
    for count in sends {
        address = crowd.bind(6, &[(21, 0)]);
        for &message in &built[..count] {
            crowd.bind(5, &[(21, address), (21, message)]);
        }
    }
    if mailing {
        crowd.bind(5, &[(21, address), (21, 0)]);
    }
    crowd.rows.push((1, 0));
    Rows { rows: crowd.rows, names: crowd.names, constructors: letters, functions: 1 }
}
