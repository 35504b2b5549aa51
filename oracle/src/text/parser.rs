//! Tokens to tree.

use super::ast::{Bad, Body, Branch, Evidence, Expr, Function, Item, Pattern, Station, Step, Term, Weight, What};
use super::lexer::{Placed, Token, tokens};

type Parsed<T> = Result<T, String>;

const RESERVED: [&str; 10] = ["fun", "end", "case", "of", "receive", "spawn", "self", "start", "function", "address"];

/// Deepest nesting of expressions and patterns that is read; no legal program is deeper.
const DEEPEST: usize = 1100;

/// What a text is made of.
const ITEMS: &str = "`constructors`, `names`, `function`, `start`, `bad`, `evidence` or `weights`";

struct Parser {
    tokens: Vec<Placed>,
    at: usize,
    depth: usize,
}

/// The tree of a text, or a word with the line where it can't be read.
pub fn parse(text: &str) -> Parsed<Station> {
    let mut parser = Parser { tokens: tokens(text)?, at: 0, depth: 0 };
    let mut station = Station::default();
    while parser.peek().is_some() {
        parser.item(&mut station)?;
    }
    Ok(station)
}

impl Parser {
    fn peek(&self) -> Option<&Token> {
        self.tokens.get(self.at).map(|placed| &placed.token)
    }

    fn line(&self) -> usize {
        let here = self.tokens.get(self.at).or(self.tokens.last());
        here.map_or(1, |placed| placed.line)
    }

    fn wrong<T>(&self, wanted: &str) -> Parsed<T> {
        let found = match self.peek() {
            Some(Token::Word(w) | Token::Name(w)) => format!("`{w}`"),
            Some(Token::Number(n)) => format!("`{n}`"),
            Some(Token::Sign(s)) => format!("`{s}`"),
            None => "the end".to_string(),
        };
        Err(format!("line {}: found {found} where {wanted} was wanted", self.line()))
    }

    fn is_sign(&self, sign: &str) -> bool {
        matches!(self.peek(), Some(Token::Sign(s)) if *s == sign)
    }

    fn is_word(&self, word: &str) -> bool {
        matches!(self.peek(), Some(Token::Word(w)) if w == word)
    }

    fn skip(&mut self, found: bool) -> bool {
        self.at += found as usize;
        found
    }

    fn sign(&mut self, sign: &str) -> Parsed<()> {
        match self.skip(self.is_sign(sign)) {
            true => Ok(()),
            false => self.wrong(&format!("`{sign}`")),
        }
    }

    fn keyword(&mut self, word: &str) -> Parsed<()> {
        match self.skip(self.is_word(word)) {
            true => Ok(()),
            false => self.wrong(&format!("`{word}`")),
        }
    }

    fn number(&mut self) -> Parsed<usize> {
        match self.peek() {
            Some(&Token::Number(n)) => {
                self.at += 1;
                Ok(n)
            }
            _ => self.wrong("a number"),
        }
    }

    fn any_word(&mut self, wanted: &str) -> Parsed<String> {
        match self.peek() {
            Some(Token::Word(w)) => {
                let word = w.clone();
                self.at += 1;
                Ok(word)
            }
            _ => self.wrong(wanted),
        }
    }

    /// A word that the syntax does not use itself.
    fn fresh_word(&mut self, wanted: &str) -> Parsed<String> {
        match self.peek() {
            Some(Token::Word(w)) if RESERVED.contains(&w.as_str()) => self.wrong(wanted),
            _ => self.any_word(wanted),
        }
    }

    fn name(&mut self) -> Parsed<String> {
        match self.peek() {
            Some(Token::Name(n)) if n != "_" => {
                let name = n.clone();
                self.at += 1;
                Ok(name)
            }
            _ => self.wrong("a name (a capital letter first)"),
        }
    }

    /// One or more, with a sign between.
    fn list<T>(&mut self, between: &str, one: fn(&mut Self) -> Parsed<T>) -> Parsed<Vec<T>> {
        let mut all = vec![one(self)?];
        while self.skip(self.is_sign(between)) {
            all.push(one(self)?);
        }
        Ok(all)
    }

    /// `( ... )`, perhaps empty.
    fn in_brackets<T>(&mut self, one: fn(&mut Self) -> Parsed<T>) -> Parsed<Vec<T>> {
        self.sign("(")?;
        if self.skip(self.is_sign(")")) {
            return Ok(Vec::new());
        }
        let all = self.list(",", one)?;
        self.sign(")")?;
        Ok(all)
    }

    fn item(&mut self, station: &mut Station) -> Parsed<()> {
        let line = self.line();
        match self.any_word(ITEMS)?.as_str() {
            "constructors" => station.constructors.extend(self.list(",", Self::constructor)?),
            "names" => station.names = Some(self.list(",", Self::name_or_word)?),
            "function" => {
                let function = self.function(line)?;
                station.functions.push(function);
            }
            "start" if station.start.is_some() => return Err(format!("line {line}: a second `start`")),
            "start" => {
                self.sign("->")?;
                station.start = Some(self.body()?);
            }
            "evidence" => {
                station.evidence = match self.any_word("`ceilings` or `weights`")?.as_str() {
                    "ceilings" => Evidence::Ceilings,
                    "weights" => Evidence::Weights,
                    _ => {
                        self.at -= 1;
                        return self.wrong("`ceilings` or `weights`");
                    }
                };
            }
            "weights" if self.is_sign(".") => station.lines.push(Vec::new()),
            "weights" => {
                let line = self.list(",", Self::weight)?;
                station.lines.push(line);
            }
            "bad" => {
                let bad = self.bad()?;
                station.bads.push(bad);
            }
            _ => {
                self.at -= 1;
                return self.wrong(ITEMS);
            }
        }
        self.sign(".")
    }

    fn constructor(&mut self) -> Parsed<(String, usize)> {
        let name = self.fresh_word("a constructor (a small letter first)")?;
        self.sign("/")?;
        Ok((name, self.number()?))
    }

    fn name_or_word(&mut self) -> Parsed<String> {
        match self.peek() {
            Some(Token::Word(_)) => self.any_word("a name"),
            _ => self.name(),
        }
    }

    fn function(&mut self, line: usize) -> Parsed<Function> {
        let name = self.fresh_word("a function's name (a small letter first)")?;
        let params = self.in_brackets(Self::name)?;
        self.sign("->")?;
        Ok(Function { line, name, params, body: self.body()? })
    }

    fn body(&mut self) -> Parsed<Body> {
        self.list(",", Self::step)
    }

    fn step(&mut self) -> Parsed<Step> {
        let label = self.label()?;
        let binds = matches!(self.tokens.get(self.at + 1), Some(Placed { token: Token::Sign("="), .. }));
        let name = match binds {
            true => Some(self.name()?),
            false => None,
        };
        self.skip(binds);
        let mut value = self.expr()?;
        if label.is_some() {
            value.label = label;
        }
        Ok(Step { name, value })
    }

    fn label(&mut self) -> Parsed<Option<String>> {
        match self.skip(self.is_sign("@")) {
            true => self.any_word("a label (a small letter first)").map(Some),
            false => Ok(None),
        }
    }

    /// Reads something nested, unless it stands too deep.
    fn deeper<T>(&mut self, one: fn(&mut Self) -> Parsed<T>) -> Parsed<T> {
        if self.depth >= DEEPEST {
            return Err(format!("line {}: nested too deep", self.line()));
        }
        self.depth += 1;
        let read = one(self);
        self.depth -= 1;
        read
    }

    fn expr(&mut self) -> Parsed<Expr> {
        self.deeper(Self::expr_here)
    }

    fn expr_here(&mut self) -> Parsed<Expr> {
        let label = self.label()?;
        let line = self.line();
        let term = self.term()?;
        if !self.skip(self.is_sign("!")) {
            return Ok(Expr { line, label, term });
        }
        let target = Expr { line, label: None, term };
        let message = self.expr()?;
        Ok(Expr { line, label, term: Term::Send(Box::new(target), Box::new(message)) })
    }

    fn term(&mut self) -> Parsed<Term> {
        match self.peek() {
            Some(Token::Name(_)) => {
                let name = self.name()?;
                self.plain_or_apply(name)
            }
            Some(Token::Word(word)) => {
                let word = word.clone();
                self.at += 1;
                self.word_term(&word)
            }
            _ => self.wrong("an expression"),
        }
    }

    fn plain_or_apply(&mut self, name: String) -> Parsed<Term> {
        match self.is_sign("(") {
            true => Ok(Term::Apply(name, self.in_brackets(Self::expr)?)),
            false => Ok(Term::Plain(name)),
        }
    }

    fn word_term(&mut self, word: &str) -> Parsed<Term> {
        match word {
            "self" => {
                self.sign("(")?;
                self.sign(")")?;
                Ok(Term::SelfAddress)
            }
            "spawn" => {
                self.sign("(")?;
                let function = self.expr()?;
                self.sign(")")?;
                Ok(Term::Spawn(Box::new(function)))
            }
            "fun" => {
                let params = self.in_brackets(Self::name)?;
                self.sign("->")?;
                let body = self.body()?;
                self.keyword("end")?;
                Ok(Term::Fun(params, body))
            }
            "case" => {
                let value = self.expr()?;
                self.keyword("of")?;
                Ok(Term::Case(Box::new(value), self.branches()?))
            }
            "receive" => Ok(Term::Receive(self.branches()?)),
            _ if RESERVED.contains(&word) => {
                self.at -= 1;
                self.wrong("an expression")
            }
            _ => self.plain_or_apply(word.to_string()),
        }
    }

    fn branches(&mut self) -> Parsed<Vec<Branch>> {
        let branches = self.list(";", Self::branch)?;
        self.keyword("end")?;
        Ok(branches)
    }

    fn branch(&mut self) -> Parsed<Branch> {
        let line = self.line();
        let pattern = self.pattern()?;
        self.sign("->")?;
        Ok(Branch { line, pattern, body: self.body()? })
    }

    fn pattern(&mut self) -> Parsed<Pattern> {
        self.deeper(Self::pattern_here)
    }

    fn pattern_here(&mut self) -> Parsed<Pattern> {
        match self.peek() {
            Some(Token::Name(n)) if n == "_" => {
                self.at += 1;
                Ok(Pattern::Any)
            }
            Some(Token::Name(_)) => Ok(Pattern::Name(self.name()?)),
            Some(Token::Sign("^")) => {
                self.at += 1;
                Ok(Pattern::Held(self.name_or_word()?))
            }
            _ => {
                let constructor = self.fresh_word("a pattern")?;
                let parts = if self.is_sign("(") { self.in_brackets(Self::pattern)? } else { Vec::new() };
                Ok(Pattern::Constructor(constructor, parts))
            }
        }
    }

    fn bad(&mut self) -> Parsed<Bad> {
        let name = self.any_word("the bad's name (a small letter first)")?;
        self.sign(":")?;
        let mut items = vec![self.bad_item()?];
        while self.skip(self.is_word("and")) {
            items.push(self.bad_item()?);
        }
        Ok(Bad { name, items })
    }

    /// `CLASS@LABEL`, `CLASS@LABEL>LABEL` or `CLASS!LETTER`, and a weight.
    fn weight(&mut self) -> Parsed<Weight> {
        let line = self.line();
        let class = self.any_word("a class (`start` or a spawn's label)")?;
        let counter = if self.skip(self.is_sign("@")) {
            let label = self.any_word("a label")?;
            let back =
                if self.skip(self.is_sign(">")) { format!(">{}", self.any_word("a label")?) } else { String::new() };
            format!("{class}@{label}{back}")
        } else if self.skip(self.is_sign("!")) {
            let kind = self.head_word()?;
            let heads = if self.is_sign("(") { self.in_brackets(Self::head_word)? } else { Vec::new() };
            let heads = if heads.is_empty() { String::new() } else { format!("({})", heads.join(",")) };
            format!("{class}!{kind}{heads}")
        } else {
            return self.wrong("`@` and a label, or `!` and a letter");
        };
        Ok(Weight { line, counter, weight: self.number()? })
    }

    fn head_word(&mut self) -> Parsed<String> {
        self.any_word("a constructor, `function` or `address`")
    }

    fn bad_item(&mut self) -> Parsed<Item> {
        let line = self.line();
        let class = self.any_word("a class (`start` or a spawn's label)")?;
        let what = match self.any_word("`at` or `holds`")?.as_str() {
            "at" => What::At(self.any_word("a label")?),
            "holds" => {
                let letter = self.head_word()?;
                What::Holds(letter, if self.is_sign("(") { Some(self.in_brackets(Self::head_word)?) } else { None })
            }
            _ => {
                self.at -= 1;
                return self.wrong("`at` or `holds`");
            }
        };
        let minimum = if self.skip(self.is_sign(">=")) { self.number()? } else { 1 };
        Ok(Item { line, class, what, minimum })
    }
}
