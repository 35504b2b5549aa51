//! A station as it runs: one process at a time takes a step (01, "How a station runs").

mod shown;

use crate::letters::Letter;
use crate::program::{Branch, Head, Name, Program, Row, State};
use crate::store::{Bindings, Frame, Frames, Store, Value, ValueId};

#[derive(Clone, Debug, PartialEq, Eq, Hash)]
pub struct Process {
    pub class: usize,
    /// The head it stands at (01: its place).
    pub location: Row,
    bindings: Bindings,
    frames: Frames,
    pub mailbox: Vec<ValueId>,
}

/// Why a number changes nothing.
#[derive(Clone, Copy, Debug, PartialEq, Eq)]
pub enum Idle {
    NoProcess,
    Ended,
    Waiting,
    Stopped(&'static str),
}

#[derive(Clone, Copy, Debug, PartialEq, Eq)]
pub enum Deed {
    Inner,
    Read { letter: Letter },
    Put { class: usize, letter: Letter, process: usize },
    New { state: State, process: usize },
}

/// A step that was taken.
#[derive(Clone, Copy, Debug, PartialEq, Eq)]
pub struct Step {
    pub from: State,
    pub to: State,
    pub deed: Deed,
}

/// What a process is about to do; the name that is bound then and the rest stand together.
enum Act<'a> {
    Yield { value: Value, then: (Name, Row) },
    GiveBack { value: ValueId, frame: Frame, then: (Name, Row) },
    Call { body: Row, bindings: Bindings, params: &'a [Name], args: Vec<ValueId> },
    Send { process: usize, message: ValueId, then: (Name, Row) },
    Spawn { head: Row, bindings: Bindings, then: (Name, Row) },
    Enter { branch: &'a Branch, found: Vec<(Name, ValueId)>, taken: Option<usize> },
}

/// A branch that matches, and what its names hold then.
type Matched<'a> = (&'a Branch, Vec<(Name, ValueId)>);

/// A store and the processes that refer to it. Equal processes of one machine, also at different times, are equal in
/// all that they hold: the store keeps each value once.
pub struct Machine<'a> {
    pub program: &'a Program,
    pub processes: Vec<Process>,
    store: Store,
}

impl<'a> Machine<'a> {
    /// The starting process alone. The program must have passed the checks up to 5.
    pub fn new(program: &'a Program) -> Machine<'a> {
        let mut machine = Machine { program, processes: Vec::new(), store: Store::new(program) };
        machine.add_process(program.rows, program.start, None);
        machine
    }

    fn add_process(&mut self, class: usize, location: Row, bindings: Bindings) -> usize {
        self.processes.push(Process { class, location, bindings, frames: None, mailbox: Vec::new() });
        self.processes.len() - 1
    }

    /// The letter of a value: its head, and those of its arguments.
    pub fn letter(&self, id: ValueId) -> Letter {
        let args = match self.store.value(id) {
            Value::Built { args, .. } => &args[..],
            _ => &[],
        };
        Letter::new(self.head_of(id), args.iter().map(|&arg| self.head_of(arg)))
    }

    /// The head of a value: its constructor, C for a function, C + 1 for an address.
    pub fn head_of(&self, id: ValueId) -> usize {
        let count = self.program.arities.len();
        match self.store.value(id) {
            Value::Built { constructor, .. } => *constructor,
            Value::Function { .. } => count,
            Value::Address(_) => count + 1,
        }
    }

    /// Takes calls that were pushed again and again out of a process: the same call with the same bindings right above
    /// itself, where it only gives back what it gets. Giving back through one or through many of them passes the same
    /// places with the same bindings, so a loop's states are few and what they lead to is counted the same.
    pub fn settle(&mut self, number: usize) {
        let frames = self.processes[number].frames;
        self.processes[number].frames = self.store.settled(frames, |call| self.program.is_tail_call(call));
    }

    /// The process of this number steps, or tells why it does not.
    pub fn step(&mut self, number: usize) -> Result<Step, Idle> {
        let act = self.next(number)?;
        let step = self.foreseen(number, &act);
        self.act(number, act);
        Ok(step)
    }

    /// True if the name holds something in the process of this number.
    pub fn holds(&self, number: usize, name: Name) -> bool {
        self.store.look_up(self.processes[number].bindings, name).is_some()
    }

    /// The step that the process of this number would take, or why it takes none.
    pub fn peek(&self, number: usize) -> Result<Step, Idle> {
        self.next(number).map(|act| self.foreseen(number, &act))
    }

    fn foreseen(&self, number: usize, act: &Act) -> Step {
        let process = &self.processes[number];
        let from = self.state(process);
        let (to, deed) = match *act {
            Act::Yield { then, .. } => (then.1, Deed::Inner),
            Act::GiveBack { frame, then, .. } => {
                return Step { from, to: State { back: self.back(frame.below), ..from.at(then.1) }, deed: Deed::Inner };
            }
            Act::Call { body, .. } => {
                return Step { from, to: State { back: from.head, ..from.at(body) }, deed: Deed::Inner };
            }
            Act::Send { process, message, then } => {
                let class = self.processes[process].class;
                (then.1, Deed::Put { class, letter: self.letter(message), process })
            }
            Act::Spawn { head, then, .. } => {
                (then.1, Deed::New { state: self.program.fresh(from.head, head), process: self.processes.len() })
            }
            Act::Enter { branch, taken: None, .. } => (branch.body, Deed::Inner),
            Act::Enter { branch, taken: Some(i), .. } => {
                (branch.body, Deed::Read { letter: self.letter(process.mailbox[i]) })
            }
        };
        Step { from, to: from.at(to), deed }
    }

    /// The call on top of what is pushed, or R.
    fn back(&self, frames: Frames) -> usize {
        self.store.frame(frames).map_or(self.program.rows, |frame| frame.call)
    }

    /// Class, place and return of a process.
    pub fn state(&self, process: &Process) -> State {
        State { class: process.class, head: process.location, back: self.back(process.frames) }
    }

    fn next(&self, number: usize) -> Result<Act<'a>, Idle> {
        let process = self.processes.get(number).ok_or(Idle::NoProcess)?;
        match self.program.head(process.location).ok_or(Idle::Stopped("no head"))? {
            Head::GiveBack { value } => self.give_back(process, *value),
            Head::Build { name, constructor, args, rest } => {
                let args = self.values(process, args)?;
                let value = Value::Built { row: process.location, constructor: *constructor, args };
                Ok(Act::Yield { value, then: (*name, *rest) })
            }
            Head::Function { name, rest } => {
                let value = Value::Function { row: process.location, bindings: process.bindings };
                Ok(Act::Yield { value, then: (*name, *rest) })
            }
            Head::SelfAddress { name, rest } => Ok(Act::Yield { value: Value::Address(number), then: (*name, *rest) }),
            Head::Call { callee, args, .. } => self.call(process, *callee, args),
            Head::Send { name, target, message, rest } => self.send(process, *target, *message, (*name, *rest)),
            Head::Spawn { name, callee, rest } => self.spawn(process, *callee, (*name, *rest)),
            Head::Case { value, branches } => self.case(process, *value, branches),
            Head::Receive { branches } => self.receive(process, branches),
        }
    }

    /// The value of a name; a program that passes the checks up to 5 never lacks one ((xi) of 02, `held::check_names`).
    fn held(&self, process: &Process, name: Name) -> Result<ValueId, Idle> {
        self.store.look_up(process.bindings, name).ok_or(Idle::Stopped("no such name"))
    }

    fn values(&self, process: &Process, names: &[Name]) -> Result<Vec<ValueId>, Idle> {
        names.iter().map(|&name| self.held(process, name)).collect()
    }

    fn give_back(&self, process: &Process, value: Name) -> Result<Act<'a>, Idle> {
        let value = self.held(process, value)?;
        let frame = self.store.frame(process.frames).ok_or(Idle::Ended)?;
        match self.program.head(frame.call) {
            Some(Head::Call { name, rest, .. }) => Ok(Act::GiveBack { value, frame, then: (*name, *rest) }),
            _ => Err(Idle::Stopped("no call")),
        }
    }

    /// Row and bindings of a function value with this number of parameters.
    fn callable(&self, process: &Process, callee: Name, count: usize) -> Option<(Row, Bindings)> {
        match self.store.value(self.held(process, callee).ok()?) {
            Value::Function { row, bindings } if self.program.function(*row)?.params.len() == count => {
                Some((*row, *bindings))
            }
            _ => None,
        }
    }

    fn call(&self, process: &Process, callee: Name, args: &[Name]) -> Result<Act<'a>, Idle> {
        let stopped = Idle::Stopped("the value can't be called with that count");
        let (row, bindings) = self.callable(process, callee, args.len()).ok_or(stopped)?;
        let function = self.program.function(row).ok_or(stopped)?;
        Ok(Act::Call { body: function.body, bindings, params: &function.params, args: self.values(process, args)? })
    }

    fn send(&self, process: &Process, target: Name, message: Name, then: (Name, Row)) -> Result<Act<'a>, Idle> {
        let message = self.held(process, message)?;
        match *self.store.value(self.held(process, target)?) {
            Value::Address(process) => Ok(Act::Send { process, message, then }),
            _ => Err(Idle::Stopped("the target is no process")),
        }
    }

    fn spawn(&self, process: &Process, callee: Name, then: (Name, Row)) -> Result<Act<'a>, Idle> {
        let stopped = Idle::Stopped("only a function without parameters can be spawned");
        let (function, bindings) = self.callable(process, callee, 0).ok_or(stopped)?;
        let head = self.program.function(function).ok_or(stopped)?.body;
        Ok(Act::Spawn { head, bindings, then })
    }

    fn case(&self, process: &Process, value: Name, branches: &'a [Branch]) -> Result<Act<'a>, Idle> {
        let first = self.first_match(process, branches, self.held(process, value)?);
        let (branch, found) = first.ok_or(Idle::Stopped("no branch of the case matches"))?;
        Ok(Act::Enter { branch, found, taken: None })
    }

    fn first_match(&self, process: &Process, branches: &'a [Branch], value: ValueId) -> Option<Matched<'a>> {
        self.store.first_match(self.program, process.bindings, branches, value)
    }

    fn receive(&self, process: &Process, branches: &'a [Branch]) -> Result<Act<'a>, Idle> {
        let mut mailbox = process.mailbox.iter().enumerate();
        let earliest = mailbox.find_map(|(i, &v)| Some((i, self.first_match(process, branches, v)?)));
        let (i, (branch, found)) = earliest.ok_or(Idle::Waiting)?;
        Ok(Act::Enter { branch, found, taken: Some(i) })
    }

    fn act(&mut self, number: usize, act: Act) {
        let Process { location: from, bindings, frames, .. } = self.processes[number];
        match act {
            Act::Yield { value, then } => {
                let value = self.store.add_value(value);
                self.go_on(number, bindings, value, then);
            }
            Act::GiveBack { value, frame, then } => {
                self.processes[number].frames = frame.below;
                self.go_on(number, frame.bindings, value, then);
            }
            Act::Call { body, bindings: inner, params, args } => {
                self.processes[number].frames = self.store.pushed(Frame { call: from, bindings, below: frames });
                self.stand(number, body, inner, params.iter().copied().zip(args));
            }
            Act::Send { process, message, then } => {
                self.processes[process].mailbox.push(message);
                self.go_on(number, bindings, message, then);
            }
            Act::Spawn { head, bindings: inner, then } => {
                let process = self.add_process(from, head, inner);
                let address = self.store.add_value(Value::Address(process));
                self.go_on(number, bindings, address, then);
            }
            Act::Enter { branch, found, taken } => {
                taken.map(|i| self.processes[number].mailbox.remove(i));
                self.stand(number, branch.body, bindings, found.into_iter());
            }
        }
    }

    /// Binds a head's name and stands at its rest.
    fn go_on(&mut self, number: usize, bindings: Bindings, value: ValueId, (name, rest): (Name, Row)) {
        self.stand(number, rest, bindings, std::iter::once((name, value)));
    }

    /// Stands at a head with these bindings and more.
    fn stand(
        &mut self,
        number: usize,
        location: Row,
        mut bindings: Bindings,
        more: impl Iterator<Item = (Name, ValueId)>,
    ) {
        for (name, value) in more {
            bindings = self.store.bound(bindings, name, value);
        }
        let process = &mut self.processes[number];
        (process.location, process.bindings) = (location, bindings);
    }
}
