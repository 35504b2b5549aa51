//! What the processes of a machine refer to: values, bindings and pushed calls. Each is kept once, so that two are
//! equal exactly if their numbers are.

use crate::program::{Branch, Name, Pattern, Program, Row};
use std::collections::HashMap;
use std::hash::Hash;

/// A value in the store.
pub type ValueId = usize;
/// A list of bindings in the store; none is the empty list.
pub type Bindings = Option<usize>;
/// The pushed calls of a process, the last one first; none where nothing is pushed.
pub type Frames = Option<usize>;

#[derive(Clone, Debug, PartialEq, Eq, Hash)]
pub enum Value {
    Function { row: Row, bindings: Bindings },
    Built { row: Row, constructor: usize, args: Vec<ValueId> },
    Address(usize),
}

#[derive(Clone, Copy, Debug, PartialEq, Eq, Hash)]
struct Binding {
    name: Name,
    value: ValueId,
    others: Bindings,
}

/// A pushed call, and what was pushed before it.
#[derive(Clone, Copy, Debug, PartialEq, Eq, Hash)]
pub struct Frame {
    pub call: Row,
    pub bindings: Bindings,
    pub below: Frames,
}

/// What equality looks at in a value: the process, or the constructor and what it looks at in the arguments. A function,
/// and what holds one, has none and is equal to nothing.
#[derive(Clone, Debug, PartialEq, Eq, Hash)]
enum Shape {
    Built { constructor: usize, args: Vec<usize> },
    Address(usize),
}

/// Things numbered in the order in which they came, each once.
struct Kept<T> {
    all: Vec<T>,
    numbers: HashMap<T, usize>,
}

impl<T: Clone + Eq + Hash> Kept<T> {
    fn new() -> Kept<T> {
        Kept { all: Vec::new(), numbers: HashMap::new() }
    }

    fn number(&mut self, thing: T) -> usize {
        if let Some(&number) = self.numbers.get(&thing) {
            return number;
        }
        self.all.push(thing.clone());
        self.numbers.insert(thing, self.all.len() - 1);
        self.all.len() - 1
    }
}

pub struct Store {
    values: Kept<Value>,
    shapes: Kept<Shape>,
    /// The shape of each value. Values share their parts, so this is found once for each and never by walking.
    shape_of: Vec<Option<usize>>,
    bindings: Kept<Binding>,
    frames: Kept<Frame>,
    /// The settled list of each list of pushed calls, where it is known.
    settled: HashMap<usize, Frames>,
    /// The value of each tag 11 name.
    named: Vec<Option<ValueId>>,
}

impl Store {
    /// The values of the tag 11 names.
    pub fn new(program: &Program) -> Store {
        let mut store = Store {
            values: Kept::new(),
            shapes: Kept::new(),
            shape_of: Vec::new(),
            bindings: Kept::new(),
            frames: Kept::new(),
            settled: HashMap::new(),
            named: vec![None; program.names],
        };
        for function in program.named() {
            store.named[function.name] = Some(store.add_value(Value::Function { row: function.row, bindings: None }));
        }
        store
    }

    pub fn value(&self, id: ValueId) -> &Value {
        &self.values.all[id]
    }

    pub fn add_value(&mut self, value: Value) -> ValueId {
        let id = self.values.number(value);
        if id == self.shape_of.len() {
            let shape = self.shape(id).map(|shape| self.shapes.number(shape));
            self.shape_of.push(shape);
        }
        id
    }

    fn shape(&self, id: ValueId) -> Option<Shape> {
        match self.value(id) {
            Value::Function { .. } => None,
            Value::Address(process) => Some(Shape::Address(*process)),
            Value::Built { constructor, args, .. } => {
                let args = args.iter().map(|&arg| self.shape_of[arg]).collect::<Option<_>>()?;
                Some(Shape::Built { constructor: *constructor, args })
            }
        }
    }

    /// Equal values ((iii) of 02): the same process, or the same constructor with equal arguments.
    pub fn equal(&self, one: ValueId, other: ValueId) -> bool {
        self.shape_of[one].is_some() && self.shape_of[one] == self.shape_of[other]
    }

    pub fn bound(&mut self, others: Bindings, name: Name, value: ValueId) -> Bindings {
        Some(self.bindings.number(Binding { name, value, others }))
    }

    pub fn pushed(&mut self, frame: Frame) -> Frames {
        Some(self.frames.number(frame))
    }

    /// The call that was pushed last.
    pub fn frame(&self, frames: Frames) -> Option<Frame> {
        frames.map(|i| self.frames.all[i])
    }

    /// Pushed calls without those that stand right above the same call with the same bindings and may be left out.
    pub fn settled(&mut self, frames: Frames, may_be_left_out: impl Fn(Row) -> bool) -> Frames {
        let mut unknown = Vec::new();
        let mut at = frames;
        let mut settled = loop {
            let Some(i) = at else { break None };
            if let Some(&known) = self.settled.get(&i) {
                break known;
            }
            unknown.push(i);
            at = self.frames.all[i].below;
        };
        for i in unknown.into_iter().rev() {
            let Frame { call, bindings, .. } = self.frames.all[i];
            let again = self.frame(settled).is_some_and(|below| (below.call, below.bindings) == (call, bindings));
            if !(again && may_be_left_out(call)) {
                settled = self.pushed(Frame { call, bindings, below: settled });
                settled.map(|kept| self.settled.insert(kept, settled));
            }
            self.settled.insert(i, settled);
        }
        settled
    }

    pub fn look_up(&self, mut bindings: Bindings, name: Name) -> Option<ValueId> {
        if let Some(value) = self.named[name] {
            return Some(value);
        }
        while let Some(i) = bindings {
            let binding = self.bindings.all[i];
            if binding.name == name {
                return Some(binding.value);
            }
            bindings = binding.others;
        }
        None
    }

    /// The names that a list binds, with what they hold, by name.
    pub fn held(&self, bindings: Bindings) -> Vec<(Name, ValueId)> {
        let binding = |list: Bindings| list.map(|i| self.bindings.all[i]);
        let all = std::iter::successors(binding(bindings), |newer| binding(newer.others));
        let mut held: Vec<(Name, ValueId)> = all.map(|binding| (binding.name, binding.value)).collect();
        held.sort_unstable();
        held
    }

    /// The first branch that matches a value under these bindings, and what its names hold then.
    pub fn first_match<'b>(
        &self,
        program: &Program,
        bindings: Bindings,
        branches: &'b [Branch],
        value: ValueId,
    ) -> Option<(&'b Branch, Vec<(Name, ValueId)>)> {
        branches.iter().find_map(|branch| {
            let mut found = Vec::new();
            self.matches(program, bindings, branch.pattern, value, &mut found).then_some((branch, found))
        })
    }

    fn matches(
        &self,
        program: &Program,
        bindings: Bindings,
        pattern: Row,
        value: ValueId,
        found: &mut Vec<(Name, ValueId)>,
    ) -> bool {
        match program.pattern(pattern) {
            Some(Pattern::Any) => true,
            Some(Pattern::Held(name)) => self.look_up(bindings, *name).is_some_and(|held| self.equal(held, value)),
            Some(Pattern::Name(name)) => {
                found.push((*name, value));
                true
            }
            Some(Pattern::Constructor { constructor, parts }) => match self.value(value) {
                Value::Built { constructor: built, args, .. } if built == constructor => {
                    parts.iter().zip(args).all(|(&part, &arg)| self.matches(program, bindings, part, arg, found))
                }
                _ => false,
            },
            None => false,
        }
    }
}
