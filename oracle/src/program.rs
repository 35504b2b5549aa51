//! A program whose rows have been read: what stands at each row.

/// A row number; also a function, a pattern, a head, a build or a class by its row.
pub type Row = usize;
/// A name number.
pub type Name = usize;

#[derive(Clone, Debug, PartialEq, Eq)]
pub struct Function {
    pub row: Row,
    pub name: Name,
    pub params: Vec<Name>,
    pub body: Row,
}

#[derive(Clone, Debug, PartialEq, Eq)]
pub enum Pattern {
    Name(Name),
    /// A value equal to the one that the name holds ((iii) of 02).
    Held(Name),
    Constructor {
        constructor: usize,
        parts: Vec<Row>,
    },
    Any,
}

#[derive(Clone, Debug, PartialEq, Eq)]
pub struct Branch {
    pub pattern: Row,
    pub body: Row,
}

/// An expression by its head.
#[derive(Clone, Debug, PartialEq, Eq)]
pub enum Head {
    GiveBack { value: Name },
    Build { name: Name, constructor: usize, args: Vec<Name>, rest: Row },
    Function { name: Name, rest: Row },
    Call { name: Name, callee: Name, args: Vec<Name>, rest: Row },
    Send { name: Name, target: Name, message: Name, rest: Row },
    Spawn { name: Name, callee: Name, rest: Row },
    SelfAddress { name: Name, rest: Row },
    Case { value: Name, branches: Vec<Branch> },
    Receive { branches: Vec<Branch> },
}

#[derive(Clone, Debug, PartialEq, Eq)]
pub enum Node {
    /// Tag 10, with its arity.
    Constructor(usize),
    /// Tag 11; the function itself is in `functions`.
    Named,
    Head(Head),
    Pattern(Pattern),
    /// Tags 20 to 25: a part of the head before it.
    Part,
}

/// Where a name is bound, and the rows that may read it.
#[derive(Clone, Debug, PartialEq, Eq)]
pub struct Binder {
    pub row: Row,
    pub name: Name,
    pub from: Row,
    pub until: Row,
}

/// Where a name is read.
#[derive(Clone, Copy, Debug, PartialEq, Eq)]
pub struct Use {
    pub row: Row,
    pub name: Name,
    /// The row where it must be in scope: the case or receive for a held name in a pattern, else the row itself.
    pub at: Row,
}

#[derive(Clone, Debug, Default, PartialEq, Eq)]
pub struct Program {
    pub rows: usize,
    pub names: usize,
    pub arities: Vec<usize>,
    pub nodes: Vec<Node>,
    /// Functions by row, tags 3 and 11, rows ascending.
    pub functions: Vec<Function>,
    pub start: Row,
    pub binders: Vec<Binder>,
    pub uses: Vec<Use>,
    /// Rows with tag 6, ascending.
    pub spawns: Vec<Row>,
}

/// A class at a head, and where a process there will return to: a call row, or R where none is pushed ((iv) of 02).
#[derive(Clone, Copy, Debug, PartialEq, Eq, PartialOrd, Ord, Hash)]
pub struct State {
    pub class: usize,
    pub head: Row,
    pub back: usize,
}

impl State {
    /// The same process at another head, with the same return.
    pub fn at(self, head: Row) -> State {
        State { head, ..self }
    }
}

impl Program {
    /// The state of the starting process.
    pub fn opening(&self) -> State {
        self.fresh(self.rows, self.start)
    }

    /// A state with nothing pushed.
    pub fn fresh(&self, class: usize, head: Row) -> State {
        State { class, head, back: self.rows }
    }

    /// Name and rest of a call.
    pub fn call(&self, row: Row) -> Option<(Name, Row)> {
        match self.head(row) {
            Some(Head::Call { name, rest, .. }) => Some((*name, *rest)),
            _ => None,
        }
    }

    /// Where a state may return to: a call row, or R.
    pub fn is_return(&self, value: usize) -> bool {
        value == self.rows || self.call(value).is_some()
    }

    pub fn head(&self, row: Row) -> Option<&Head> {
        match self.nodes.get(row) {
            Some(Node::Head(head)) => Some(head),
            _ => None,
        }
    }

    pub fn pattern(&self, row: Row) -> Option<&Pattern> {
        match self.nodes.get(row) {
            Some(Node::Pattern(pattern)) => Some(pattern),
            _ => None,
        }
    }

    /// The function of a row with tag 3 or 11.
    pub fn function(&self, row: Row) -> Option<&Function> {
        let i = self.functions.binary_search_by_key(&row, |f| f.row).ok()?;
        self.functions.get(i)
    }

    /// Functions of the front (tag 11).
    pub fn named(&self) -> impl Iterator<Item = &Function> {
        self.functions.iter().filter(|f| matches!(self.nodes[f.row], Node::Named))
    }

    /// True for a call whose rest gives back what the call gets.
    pub fn is_tail_call(&self, row: Row) -> bool {
        match self.head(row) {
            Some(Head::Call { name, rest, .. }) => {
                matches!(self.head(*rest), Some(Head::GiveBack { value }) if value == name)
            }
            _ => false,
        }
    }

    pub fn is_head(&self, row: Row) -> bool {
        self.head(row).is_some()
    }

    pub fn is_spawn(&self, row: Row) -> bool {
        matches!(self.head(row), Some(Head::Spawn { .. }))
    }

    /// A class is a spawn row, or R for the starting process.
    pub fn is_class(&self, value: usize) -> bool {
        value == self.rows || self.is_spawn(value)
    }

    /// A value is a row with tag 2, 3 or 11, or a class.
    pub fn is_value(&self, value: usize) -> bool {
        let build = matches!(self.head(value), Some(Head::Build { .. }));
        build || self.function(value).is_some() || self.is_class(value)
    }

    /// Constructor and argument names of a build row.
    pub fn build(&self, row: Row) -> Option<(usize, &[Name])> {
        match self.head(row) {
            Some(Head::Build { constructor, args, .. }) => Some((*constructor, args)),
            _ => None,
        }
    }

    /// The head of a value: its constructor, C for a function, C + 1 for an address.
    pub fn head_of(&self, value: usize) -> usize {
        let count = self.arities.len();
        match self.build(value) {
            Some((constructor, _)) => constructor,
            None if self.is_class(value) => count + 1,
            None => count,
        }
    }

    /// Number of arguments of a constructor; a function or an address has none.
    pub fn arity(&self, kind: usize) -> usize {
        self.arities.get(kind).copied().unwrap_or(0)
    }

    /// Number of heads of values: constructors, function, address.
    pub fn heads(&self) -> usize {
        self.arities.len() + 2
    }

    /// Place of a class among the classes in ascending order; R is the last.
    pub fn class_index(&self, class: usize) -> Option<usize> {
        if class == self.rows {
            return Some(self.spawns.len());
        }
        self.spawns.binary_search(&class).ok()
    }

    /// Classes in ascending order.
    pub fn classes(&self) -> impl Iterator<Item = usize> + '_ {
        self.spawns.iter().copied().chain(std::iter::once(self.rows))
    }
}
