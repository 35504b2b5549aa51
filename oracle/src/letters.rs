//! Letters two deep ((viii) of 02): a constructor with the heads of its arguments, C for a function, C + 1 for an
//! address.

use crate::analysis::Analysis;
use crate::limits;
use crate::program::{Name, Pattern, Program, Row};
use crate::set::Set;
use std::collections::BTreeSet;

/// What a mailbox counts. Letters of one constructor have as many heads as its arity, and 0 behind them, so that they
/// are in the order of 02: by constructor, then heads from the left, then functions, then addresses.
#[derive(Clone, Copy, Debug, PartialEq, Eq, PartialOrd, Ord, Hash)]
pub struct Letter {
    /// A constructor number, C or C + 1.
    pub kind: usize,
    heads: [u8; limits::ARITY],
}

impl Letter {
    pub fn new(kind: usize, heads: impl IntoIterator<Item = usize>) -> Letter {
        heads
            .into_iter()
            .enumerate()
            .fold(Letter { kind, heads: [0; limits::ARITY] }, |letter, (argument, head)| letter.with(argument, head))
    }

    fn with(mut self, argument: usize, head: usize) -> Letter {
        self.heads[argument] = head as u8;
        self
    }

    /// The head of each argument; none for a function or an address.
    pub fn heads(&self, program: &Program) -> impl Iterator<Item = usize> + '_ {
        self.heads.iter().take(program.arity(self.kind)).map(|&head| head as usize)
    }
}

/// Heads, by bits; there are at most 66.
type Heads = u128;

fn listed(heads: Heads) -> impl Iterator<Item = usize> {
    (0..Heads::BITS as usize).filter(move |&head| heads >> head & 1 == 1)
}

fn heads_of(program: &Program, values: &Set) -> Heads {
    values.iter().fold(0, |heads, value| heads | 1 << program.head_of(value))
}

/// Every letter of a kind whose arguments have one of these heads each, each argument by itself.
#[derive(Clone, Debug, PartialEq, Eq, PartialOrd, Ord)]
struct Product {
    kind: usize,
    heads: Vec<Heads>,
}

impl Product {
    /// What a value allows: the heads of its argument names' values, each name alone.
    fn allowed(a: &Analysis, value: usize) -> Product {
        let args = a.program.build(value).map_or(&[][..], |(_, args)| args);
        let heads = |&arg: &Name| heads_of(a.program, a.flow(arg));
        Product { kind: a.program.head_of(value), heads: args.iter().map(heads).collect() }
    }

    /// How many letters, without listing them. Where that passes 64 bits it is the largest number that they hold.
    fn count(&self) -> u64 {
        self.heads.iter().fold(1, |count, heads| count.saturating_mul(heads.count_ones() as u64))
    }

    /// The letters, ascending; to be asked for only where they are few.
    fn letters(&self) -> Vec<Letter> {
        if self.count() == 0 {
            return Vec::new();
        }
        let first = vec![Letter::new(self.kind, [])];
        self.heads.iter().enumerate().fold(first, |letters, (argument, &heads)| {
            let heads: Vec<usize> = listed(heads).collect();
            let mut longer = Vec::with_capacity(letters.len() * heads.len());
            letters.iter().for_each(|letter| longer.extend(heads.iter().map(|&head| letter.with(argument, head))));
            longer
        })
    }
}

/// The value of some mail that allows the most letters, and how many.
pub fn widest(a: &Analysis) -> Option<(usize, u64)> {
    let values = a.tables.mail.iter().flat_map(|mail| mail.iter());
    values.map(|value| (value, Product::allowed(a, value).count())).max_by_key(|&(_, count)| count)
}

/// All that stands in one of two ascending lists.
fn merged(one: &[Letter], other: &[Letter]) -> Vec<Letter> {
    let mut both = Vec::with_capacity(one.len() + other.len());
    let (mut i, mut j) = (0, 0);
    while i < one.len() && j < other.len() {
        both.push(one[i].min(other[j]));
        let (step, other_step) = (one[i] <= other[j], other[j] <= one[i]);
        i += step as usize;
        j += other_step as usize;
    }
    both.extend(&one[i..]);
    both.extend(&other[j..]);
    both
}

/// The letters that the values of a class's mail allow, ascending; none if they are more than `most`. A function's
/// letter keeps its number and has no counter ((x) of 02). No product is listed that alone has more letters than that.
fn of_mail(a: &Analysis, mail: &Set, most: usize) -> Option<Vec<Letter>> {
    let function = a.program.arities.len();
    let products: BTreeSet<Product> = mail.iter().map(|value| Product::allowed(a, value)).collect();
    let mut letters = Vec::new();
    for product in products.iter().filter(|product| product.kind != function) {
        if product.count() > most as u64 {
            return None;
        }
        letters = merged(&letters, &product.letters());
        if letters.len() > most {
            return None;
        }
    }
    Some(letters)
}

/// The letters of the mail. They are few, so that sets of them are sets of numbers: places in a list.
pub struct Letters {
    /// Class and letter of each counter, ascending.
    pub counters: Vec<(usize, Letter)>,
    /// Every letter that has a counter in some class, ascending.
    distinct: Vec<Letter>,
    /// Those of each kind.
    of_kind: Vec<Set>,
    /// By argument, then head: those with this head there.
    with_head: Vec<Vec<Set>>,
    /// By value: those that it allows, where it is in some mail.
    of_value: Vec<Option<Box<Set>>>,
}

impl Letters {
    /// None if there are more counters than `most`; so many letters are never listed.
    pub fn new(a: &Analysis, most: usize) -> Option<Letters> {
        let mut counters = Vec::new();
        for (class, mail) in a.program.classes().zip(&a.tables.mail) {
            let letters = of_mail(a, mail, most - counters.len())?;
            counters.extend(letters.into_iter().map(|letter| (class, letter)));
        }
        let distinct: BTreeSet<Letter> = counters.iter().map(|&(_, letter)| letter).collect();
        let heads = a.program.heads();
        let mut letters = Letters {
            counters,
            distinct: distinct.into_iter().collect(),
            of_kind: vec![Set::EMPTY; heads],
            with_head: Vec::new(),
            of_value: vec![None; a.program.rows + 1],
        };
        for (i, letter) in letters.distinct.iter().enumerate() {
            letters.of_kind[letter.kind].insert(i);
            for (argument, head) in letter.heads(a.program).enumerate() {
                if argument == letters.with_head.len() {
                    letters.with_head.push(vec![Set::EMPTY; heads]);
                }
                letters.with_head[argument][head].insert(i);
            }
        }
        for value in a.tables.mail.iter().flat_map(|mail| mail.iter()) {
            if letters.of_value[value].is_none() {
                letters.of_value[value] = Some(Box::new(letters.set(&Product::allowed(a, value))));
            }
        }
        Some(letters)
    }

    /// The letters of a product, of which each has a counter in some class.
    fn set(&self, product: &Product) -> Set {
        let with = |argument: usize, heads: Heads| {
            let sets = self.with_head.get(argument).into_iter().flatten().zip(0..);
            sets.filter(|(_, head)| heads >> *head & 1 == 1).fold(Set::EMPTY, |all, (set, _)| all.or(set))
        };
        let arguments = product.heads.iter().enumerate();
        arguments.fold(self.of_kind[product.kind], |set, (argument, &heads)| set.and(&with(argument, heads)))
    }

    /// The letters of a set, ascending.
    pub fn listed<'s>(&'s self, set: &'s Set) -> impl Iterator<Item = Letter> + 's {
        set.iter().map(|i| self.distinct[i])
    }

    /// The letters that some of these values of the mail allow.
    pub fn of(&self, values: &Set) -> Set {
        values.iter().filter_map(|value| self.of_value[value].as_ref()).fold(Set::EMPTY, |all, set| all.or(set))
    }

    /// The letters that a branch reads: of one value of the mail, with one value for each argument that may match its
    /// part of the pattern. Arguments of different values are never mixed.
    pub fn read(&self, a: &Analysis, pattern: Row, mail: &Set) -> Set {
        let reached = a.matching.may(pattern, mail);
        let Some(Pattern::Constructor { constructor, parts }) = a.program.pattern(pattern) else {
            return self.of(&reached);
        };
        let matched = |arg: Name, part: Row| heads_of(a.program, &a.matching.may(part, a.flow(arg)));
        let mut read = Set::EMPTY;
        for value in reached.iter() {
            let new = self.of_value[value].as_ref().is_some_and(|letters| !letters.within(&read));
            if let Some((_, args)) = a.program.build(value).filter(|_| new) {
                let heads = args.iter().zip(parts).map(|(&arg, &part)| matched(arg, part)).collect();
                read = read.or(&self.set(&Product { kind: *constructor, heads }));
            }
        }
        read
    }
}
