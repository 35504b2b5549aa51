//! Receives that are derived again and again ((iii), (iv) and (viii) of 02): places of 16 branches, each a constructor of
//! eight subpatterns, in a routine with many returns or classes, over many values.

use super::bounds::{self, Bounds};
use super::finish::Rows;
use super::{Sample, letters, sample};
use crate::fuzz::row_list::RowList;
use crate::limits::ARITY;
use crate::program::Program;
use crate::tables::Tables;
use std::ops::Range;

/// 56 returns of one place, over values without a letter.
const HOLLOW: Heads = Heads { full: false, values: 97, letters: (3, 5), places: 1, classes: 0, returns: 56 };
/// Half as many returns and many letters.
const LETTERS: Heads = Heads { values: 105, letters: (22, 22), returns: 29, ..HOLLOW };
/// As many returns as entries of 255 ceilings allow.
const UNSETTLED: Heads = Heads { values: 104, letters: (21, 22), returns: 31, ..HOLLOW };
/// As many classes at as many places as may be.
const PAIRS: Heads = Heads { values: 50, letters: (3, 7), places: 5, classes: 10, returns: 0, ..HOLLOW };

/// All of them.
pub fn hostile() -> Result<Vec<Sample>, String> {
    Ok([settled()?, unsettled()?].into_iter().flatten().collect())
}

/// Made to be safe by one ceiling that holds everything: the rules of each receive are asked for twice.
fn settled() -> Result<Vec<Sample>, String> {
    let fewer = |heads: Heads| Heads { values: heads.values - 13, ..heads };
    Ok(vec![
        sample(
            "places-held",
            "16 branches of eight held names over 60 values whose name has 296 addresses, in a place with 56 returns",
            0,
            addresses(60, 56, bounds::one),
        )?,
        sample(
            "places-boxed",
            "16 branches of eight boxes over 54 values whose name has 170 boxes, in a place with 56 returns",
            0,
            boxes(54, 56, bounds::one),
        )?,
        sample(
            "places-hollow-held",
            "16 branches of eight held names over 97 values, seven arguments of 66 heads and one of none; 56 returns",
            0,
            HOLLOW.message(Part::Held, bounds::one),
        )?,
        sample(
            "places-hollow-plain",
            "the same with constructors in place of the held names",
            0,
            HOLLOW.message(Part::Plain, bounds::one),
        )?,
        sample(
            "places-hollow-boxed",
            "the same with boxes, over 84 values",
            0,
            fewer(HOLLOW).message(Part::Boxed, bounds::one),
        )?,
        sample(
            "places-letters",
            "as places-hollow-held with 105 such values, 29 returns and 484 letters",
            0,
            LETTERS.message(Part::Held, bounds::one),
        )?,
        sample(
            "places-full",
            "the same, where each value has all of 462 letters",
            0,
            Heads { full: true, letters: (66, 7), ..LETTERS }.message(Part::Held, bounds::one),
        )?,
        sample(
            "places-pairs",
            "ten classes at five such places, 51 values each, 210 letters",
            0,
            PAIRS.message(Part::Held, bounds::one),
        )?,
    ])
}

/// The same with 255 ceilings of 31 of the receives that none of them settles, so that their rules are asked for 7,905
/// times.
fn unsettled() -> Result<Vec<Sample>, String> {
    let full = Heads { full: true, letters: (66, 7), ..UNSETTLED };
    let make = |name, about, heads: Heads, part| sample(name, about, 0, heads.message(part, bounds::unsettled));
    Ok(vec![
        sample(
            "unsettled-held",
            "under 255 ceilings that settle no state: places-held",
            0,
            addresses(60, 56, bounds::unsettled),
        )?,
        sample(
            "unsettled-boxed",
            "under 255 ceilings that settle no state: places-boxed",
            0,
            boxes(54, 56, bounds::unsettled),
        )?,
        make(
            "unsettled-hollow-held",
            "under 255 ceilings that settle no state: 31 returns, 104 values without a letter, 462 letters",
            UNSETTLED,
            Part::Held,
        )?,
        make(
            "unsettled-hollow-plain",
            "under 255 ceilings that settle no state: the same with constructors",
            UNSETTLED,
            Part::Plain,
        )?,
        make(
            "unsettled-hollow-boxed",
            "under 255 ceilings that settle no state: the same with boxes",
            Heads { values: 91, ..UNSETTLED },
            Part::Boxed,
        )?,
        make(
            "unsettled-full-held",
            "under 255 ceilings that settle no state: each of 105 values has all of 462 letters",
            full,
            Part::Held,
        )?,
        make(
            "unsettled-full-plain",
            "under 255 ceilings that settle no state: the same with constructors",
            full,
            Part::Plain,
        )?,
        make("unsettled-pairs", "under 255 ceilings that settle no state: places-pairs", PAIRS, Part::Held)?,
        make(
            "unsettled-pairs-full",
            "under 255 ceilings that settle no state: the same, where each value has all letters",
            Heads { full: true, letters: (21, 1), ..PAIRS },
            Part::Held,
        )?,
        sample(
            "unsettled-branches",
            "under 255 ceilings that settle no state: letters-branches",
            0,
            letters::branches(bounds::unsettled),
        )?,
    ])
}

/// A subpattern: the routine's own name held, constructor 2, or a box of it.
#[derive(Clone, Copy)]
enum Part {
    Held,
    Plain,
    Boxed,
}

impl Part {
    fn rows(self, list: &mut RowList, routine: usize) {
        match self {
            Part::Held => list.row(33, routine),
            Part::Plain => list.row(31, 2),
            Part::Boxed => list.rows.extend([(31, 1), (31, 2)]),
        }
    }

    /// The constructor that fits.
    fn fits(self) -> usize {
        match self {
            Part::Held | Part::Plain => 2,
            Part::Boxed => 1,
        }
    }
}

/// A routine of so many receives, one in the last branch of the one before. Each has 16 branches of constructor 0, which
/// give back the routine's name.
fn routine(list: &mut RowList, places: usize, part: Part) -> usize {
    let routine = list.bind(11, &[(22, 0)]);
    for place in 1..=places {
        list.row(9, 16);
        for i in 0..16 {
            list.row(31, 0);
            (0..ARITY).for_each(|_| part.rows(list, routine));
            if i < 15 || place == places {
                list.row(1, routine);
            }
        }
    }
    routine
}

/// The start expression: so many calls of the routine.
fn calls(list: &mut RowList, routine: usize, count: usize) {
    (0..count).for_each(|_| {
        list.bind(4, &[(21, routine), (22, 0)]);
    });
    list.row(1, routine);
}

/// Builds one constructor over these names.
fn build(list: &mut RowList, constructor: usize, args: &[usize]) -> usize {
    let args: Vec<(usize, usize)> = args.iter().map(|&arg| (21, arg)).collect();
    list.bind(2, &[&[(20, constructor)], &args[..]].concat())
}

fn builds(program: &Program, constructor: usize) -> impl Iterator<Item = usize> + '_ {
    (0..program.rows).filter(move |&row| program.build(row).is_some_and(|(made, _)| made == constructor))
}

fn hold(tables: &mut Tables, name: usize, values: impl IntoIterator<Item = usize>) {
    values.into_iter().for_each(|value| {
        tables.flow[name].insert(value);
    });
}

/// Every build of constructor 0 is in the mail of these classes, by their index.
fn mail(program: &Program, tables: &mut Tables, classes: Range<usize>) {
    for mail in &mut tables.mail[classes] {
        builds(program, 0).for_each(|build| {
            mail.insert(build);
        });
    }
}

/// Eight held names below a constructor; each argument may be each of 296 addresses, of which the held name has the last.
fn addresses(values: usize, returns: usize, bounds: impl Bounds) -> Result<Vec<u8>, String> {
    let mut list = RowList::default();
    list.row(10, ARITY);
    let routine = routine(&mut list, 1, Part::Held);
    let unused = list.bind(11, &[(22, 0)]);
    let spawned: Vec<usize> = (0..295).map(|_| list.bind(6, &[(21, unused)])).collect();
    (0..values).for_each(|_| {
        build(&mut list, 0, &[spawned[0]; ARITY]);
    });
    list.row(1, unused);
    calls(&mut list, routine, returns);
    let extra = move |program: &Program, tables: &mut Tables| {
        hold(tables, spawned[0], program.classes());
        hold(tables, routine, [program.rows]);
        mail(program, tables, 295..296);
    };
    Rows { list, constructors: 1, functions: 2 }.finish(extra, bounds)
}

/// Eight boxes of constructor 2 below a constructor; each argument may be each of 170 boxes, of which the last is one.
fn boxes(values: usize, returns: usize, bounds: impl Bounds) -> Result<Vec<u8>, String> {
    let mut list = RowList::default();
    list.rows.extend([(10, ARITY), (10, 1), (10, 0)]);
    let routine = routine(&mut list, 1, Part::Boxed);
    let unused = list.bind(11, &[(22, 0)]);
    let inner = build(&mut list, 2, &[]);
    let boxes: Vec<usize> = (0..169).map(|_| build(&mut list, 1, &[unused])).collect();
    build(&mut list, 1, &[inner]);
    (0..values).for_each(|_| {
        build(&mut list, 0, &[boxes[0]; ARITY]);
    });
    list.row(1, unused);
    calls(&mut list, routine, returns);
    let extra = move |program: &Program, tables: &mut Tables| {
        hold(tables, boxes[0], builds(program, 1));
        hold(tables, inner, builds(program, 2));
        mail(program, tables, 0..1);
    };
    Rows { list, constructors: 3, functions: 2 }.finish(extra, bounds)
}

/// One value with as many letters as two of its arguments' heads allow, of which a branch reads one, and so many others:
/// full ones of the same letters, or hollow ones, of seven arguments that each have all 66 heads and one that has none,
/// so that they have no letter. Their receives stand at so many places, with so many returns in the start's class, or in
/// so many other classes.
#[derive(Clone, Copy)]
struct Heads {
    full: bool,
    values: usize,
    letters: (usize, usize),
    places: usize,
    classes: usize,
    returns: usize,
}

impl Heads {
    fn message(self, part: Part, bounds: impl Bounds) -> Result<Vec<u8>, String> {
        let mut list = RowList::default();
        list.rows.extend([(10, ARITY), (10, 1)]);
        list.rows.extend(vec![(10, 0); 62]);
        let routine = routine(&mut list, self.places, part);
        let unused = list.bind(11, &[(22, 0)]);
        let plain: Vec<usize> = (2..64).map(|constructor| build(&mut list, constructor, &[])).collect();
        let [every, none, left, right, single] = [plain[0], plain[1], plain[2], plain[3], plain[4]];
        let inner = build(&mut list, 1, &[single]);
        let full = [left, right, inner, inner, inner, inner, inner, inner];
        let hollow = [every, every, every, every, every, every, every, none];
        build(&mut list, 0, &full);
        (0..self.values).for_each(|_| {
            build(&mut list, 0, if self.full { &full } else { &hollow });
        });
        (0..self.classes).for_each(|_| {
            list.bind(6, &[(21, routine)]);
        });
        list.row(1, unused);
        calls(&mut list, routine, self.returns);
        let extra = move |program: &Program, tables: &mut Tables| {
            let function = |name| program.functions.iter().find(|f| f.name == name);
            let firsts = (1..64).chain([0]).filter_map(|constructor| builds(program, constructor).next());
            let all: Vec<usize> = firsts.chain(function(unused).map(|f| f.row)).chain([program.rows]).collect();
            hold(tables, every, all.iter().copied());
            hold(tables, left, all.iter().copied().take(self.letters.0));
            hold(tables, right, all.iter().copied().skip(part.fits() - 1).take(self.letters.1));
            hold(tables, inner, [all[part.fits() - 1]]);
            [single, routine].into_iter().for_each(|name| hold(tables, name, [all[1]]));
            mail(program, tables, 0..self.classes.max(1));
            let states = function(routine).map(|f| program.spawns.iter().map(|&class| program.fresh(class, f.body)));
            tables.states.extend(states.into_iter().flatten());
        };
        Rows { list, constructors: 64, functions: 2 }.finish(extra, bounds)
    }
}
