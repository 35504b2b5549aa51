//! A station's text as a tree.

#[derive(Clone, Debug, PartialEq, Eq)]
pub enum Term {
    /// A name, or a word without arguments (a constructor or a function).
    Plain(String),
    /// A constructor or function with arguments.
    Apply(String, Vec<Expr>),
    Fun(Vec<String>, Body),
    Spawn(Box<Expr>),
    SelfAddress,
    Send(Box<Expr>, Box<Expr>),
    Case(Box<Expr>, Vec<Branch>),
    Receive(Vec<Branch>),
}

#[derive(Clone, Debug, PartialEq, Eq)]
pub struct Expr {
    pub line: usize,
    pub label: Option<String>,
    pub term: Term,
}

/// One step of a body, with the name it binds if the author gave one.
#[derive(Clone, Debug, PartialEq, Eq)]
pub struct Step {
    pub name: Option<String>,
    pub value: Expr,
}

/// At least one step; the last is what is given back.
pub type Body = Vec<Step>;

#[derive(Clone, Debug, PartialEq, Eq)]
pub enum Pattern {
    Any,
    Name(String),
    /// `^` and a name: a value equal to the one held.
    Held(String),
    Constructor(String, Vec<Pattern>),
}

#[derive(Clone, Debug, PartialEq, Eq)]
pub struct Branch {
    pub line: usize,
    pub pattern: Pattern,
    pub body: Body,
}

#[derive(Clone, Debug, PartialEq, Eq)]
pub struct Function {
    pub line: usize,
    pub name: String,
    pub params: Vec<String>,
    pub body: Body,
}

#[derive(Clone, Debug, PartialEq, Eq)]
pub enum What {
    At(String),
    /// A constructor, `function` or `address`, and the heads of its arguments where they are told apart.
    Holds(String, Option<Vec<String>>),
}

#[derive(Clone, Debug, PartialEq, Eq)]
pub struct Item {
    pub line: usize,
    pub class: String,
    pub what: What,
    pub minimum: usize,
}

#[derive(Clone, Debug, PartialEq, Eq)]
pub struct Bad {
    pub name: String,
    pub items: Vec<Item>,
}

#[derive(Clone, Debug, Default, PartialEq, Eq)]
pub struct Station {
    pub constructors: Vec<(String, usize)>,
    /// Names in the order of their numbers, if the author fixes it.
    pub names: Option<Vec<String>>,
    pub functions: Vec<Function>,
    pub start: Option<Body>,
    pub bads: Vec<Bad>,
    pub evidence: Evidence,
    /// Lines of weights that the author gives.
    pub lines: Vec<Vec<Weight>>,
}

/// A counter by its name, as it is shown, and what it weighs.
#[derive(Clone, Debug, PartialEq, Eq)]
pub struct Weight {
    pub line: usize,
    pub counter: String,
    pub weight: usize,
}

/// Which evidence the author wants.
#[derive(Clone, Copy, Debug, Default, PartialEq, Eq)]
pub enum Evidence {
    /// Whichever is smaller.
    #[default]
    Smaller,
    Ceilings,
    Weights,
}
