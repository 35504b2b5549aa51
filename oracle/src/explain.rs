//! The verdict in words: what the place is, what was wanted there, what to do.

use crate::analysis::Analysis;
use crate::bads::Bad;
use crate::bounds::{Bounds, bad_sums, item_counters};
use crate::letters;
use crate::limits;
use crate::message::{Columns, Message};
use crate::program::State;
use crate::refusal::{self, Detail, Refusal, Want};
use crate::replay::Derived;
use crate::symbols::Symbols;
use crate::system::Rule;
use crate::text::words::Words;
use crate::verify::{Read, verify_in_detail};
use crate::weights::least_weight;
use crate::wrap::wrapped;

/// The verdict of a message for a person, with so many words lent, and its number. Lines are under 100 characters.
pub fn explain(bytes: &[u8], lent: usize, words: Option<&Words>) -> (u32, String) {
    let (read, result) = verify_in_detail(bytes, &mut vec![0; lent]);
    let symbols = match (&read.program, &read.message, words) {
        (Some(program), Some(message), Some(words)) => Some(words.symbols(program, message)),
        (Some(program), _, _) => Some(Symbols::new(program)),
        _ => None,
    };
    match result {
        Ok(part) => (0, safe(&read, symbols.as_ref(), part.len())),
        Err(refusal) => {
            let explainer = Explainer { bytes, read: &read, symbols: symbols.as_ref(), refusal: &refusal };
            (refusal.number, explainer.words())
        }
    }
}

fn safe(read: &Read, symbols: Option<&Symbols>, part: usize) -> String {
    let system = read.system.as_ref();
    let (states, letters) = system.map_or((0, 0), |s| (s.states, s.letters.len()));
    let rules = system.map_or(0, |s| s.rules.len());
    let bounds = read.bounds.as_ref().map_or(0, |b| b.limits.len());
    let held = match read.weights.as_ref().map(|weights| weights.lines.len()) {
        Some(1) => "the weighed sum of 1 line never rises, and every bad weighs more than the start.".to_string(),
        Some(n) => format!("the weighed sums of {n} lines never rise, and every bad weighs more than the start."),
        None if bounds == 1 => "1 ceiling holds every count a run can reach.".to_string(),
        None => format!("{bounds} ceilings hold every count a run can reach."),
    };
    let bads = (0..read.bads.as_ref().map_or(0, Vec::len)).filter_map(|bad| symbols.map(|s| s.bad(bad)));
    let bads: Vec<String> = bads.collect();
    wrapped("", &format!("0 (safe): no run of this station meets {}.", bads.join(" or ")))
        + &wrapped("", &format!("The loader gets the program's {part} bytes."))
        + &wrapped("", &format!("The system has {states} states, {letters} letters and {rules} rules; {held}"))
}

struct Explainer<'a> {
    bytes: &'a [u8],
    read: &'a Read,
    symbols: Option<&'a Symbols<'a>>,
    refusal: &'a Refusal,
}

/// The trade's word for a refusal.
pub fn trade_word(number: u32) -> &'static str {
    const WORDS: [&str; 15] = [
        "safe", "length", "size", "row", "name", "scope", "bad", "entry", "open", "counters", "ceiling", "start",
        "met", "leak", "space",
    ];
    match number {
        refusal::WEIGHTS => "weights",
        refusal::RISE => "rise",
        refusal::LIGHT => "light",
        refusal::FUNCTION_MAILED => "function mailed",
        _ => WORDS.get(number as usize).copied().unwrap_or("unknown"),
    }
}

impl Explainer<'_> {
    fn words(&self) -> String {
        let r = self.refusal;
        let (what, wanted, to_do) = match r.number {
            refusal::LENGTH => self.length(),
            refusal::SIZE => self.size(),
            refusal::ROW => self.row(),
            refusal::NAME => self.name(),
            refusal::SCOPE => self.scope(),
            refusal::BAD => self.bad(),
            refusal::ENTRY => self.entry(),
            refusal::OPEN => self.open(),
            refusal::FUNCTION_MAILED => self.function_mailed(),
            refusal::COUNTERS => self.counters(),
            refusal::BOUND => self.bound(),
            refusal::START => self.start(),
            refusal::MET => self.met(),
            refusal::LEAK => self.leak(),
            refusal::WEIGHTS => self.weights(),
            refusal::RISE => self.rise(),
            refusal::LIGHT => self.light(),
            _ => self.space(),
        };
        let word = trade_word(r.number);
        let lines = [("place:  ", what), ("wanted: ", wanted), ("to do:  ", to_do)];
        let lines = lines.iter().map(|(label, words)| wrapped(label, words));
        format!("{} ({word}) at {}\n{}", r.number, r.position, lines.collect::<String>())
    }

    fn wanted(&self) -> String {
        match self.refusal.detail {
            Detail::Wanted(what) => what.to_string(),
            _ => String::new(),
        }
    }

    fn word_at(&self, position: usize) -> String {
        match self.bytes.get(2 * position..2 * position + 2) {
            Some(b) => u16::from_le_bytes([b[0], b[1]]).to_string(),
            None => "no word".to_string(),
        }
    }

    fn message(&self) -> Option<&Message> {
        self.read.message.as_ref()
    }

    fn length(&self) -> (String, String, String) {
        let place = format!("word {} of a message of {} bytes", self.refusal.position, self.bytes.len());
        let what = match self.refusal.detail {
            Detail::Wanted("the end of the message") => format!("{place}: the last part ends here, but bytes follow"),
            _ => format!("{place}: the part that begins here is not whole"),
        };
        (
            what,
            self.wanted(),
            "send the whole message, each part as long as its sizes say, and nothing behind it".to_string(),
        )
    }

    fn size(&self) -> (String, String, String) {
        let what = format!("the size at word {} is {}", self.refusal.position, self.word_at(self.refusal.position));
        let limits = limits_in_words();
        (what, format!("{} ({limits})", self.wanted()), "make the station smaller, or correct the size".to_string())
    }

    /// A row of the program in words.
    fn row_words(&self, row: usize) -> String {
        let pair = self.message().filter(|m| row < m.rows).map(|m| m.program.pair(row));
        pair.map_or(format!("row {row}: past the last row"), |(tag, number)| {
            format!("row {row}, which is ({tag}, {number})")
        })
    }

    fn row(&self) -> (String, String, String) {
        let row = self.refusal.position.saturating_sub(4);
        let to_do = "rows are read once in order; correct this row or one before it that says how many follow";
        (self.row_words(row), self.wanted(), to_do.to_string())
    }

    fn name(&self) -> (String, String, String) {
        if self.refusal.position == 1 {
            let what = "the size V: some name below V is bound by no row".to_string();
            return (what, self.wanted(), "lower V or bind the name".to_string());
        }
        let what = self.row_words(self.refusal.position - 4);
        (what, self.wanted(), "give this row a name of its own: each name is bound in one place".to_string())
    }

    fn scope(&self) -> (String, String, String) {
        let row = self.refusal.position.saturating_sub(4);
        let number = self.message().map_or(0, |m| m.program.pair(row).1);
        let program = self.read.program.as_ref();
        let binder = program.and_then(|p| p.binders.iter().find(|b| b.name == number));
        let bound = binder.map_or(String::new(), |b| match b.from < b.until {
            true => {
                format!("; name {number} is bound in row {} and holds in rows {} to {}", b.row, b.from, b.until - 1)
            }
            false => format!("; name {number} is bound in row {} and holds in no row", b.row),
        });
        let what = format!("{}{bound}", self.row_words(row));
        (what, self.wanted(), "read a name that holds here, or bind it further out".to_string())
    }

    /// An entry of a part's two columns in words.
    fn entry_words(&self, kind: &str, columns: &Columns) -> String {
        let i = self.refusal.position.saturating_sub(columns.at);
        match i < columns.len() {
            true => format!("{kind} {i}, which is {:?}", columns.pair(i)),
            false => format!("past the last {kind} ({} there are)", columns.len()),
        }
    }

    fn bad(&self) -> (String, String, String) {
        let what = self.message().map_or(String::new(), |m| self.entry_words("bad row", &m.bad_rows));
        let to_do = "a bad is items (40, class) (41, head) or (42, letter) (43, minimum), then (44, 0); behind \
             (42, constructor) there may be a row (45, head) for each argument";
        (what, self.wanted(), to_do.to_string())
    }

    fn entry(&self) -> (String, String, String) {
        let what = self.message().map_or(String::new(), |m| {
            let i = self.refusal.position.saturating_sub(m.tables.at);
            let list = if i < m.flow {
                "flow"
            } else if i < m.flow + m.mail {
                "mail"
            } else {
                "states"
            };
            let words = match i.checked_sub(m.flow + m.mail).and_then(|state| m.returns.get(state)) {
                Some(back) => {
                    let (class, head) = m.tables.pair(i);
                    format!("entry {i}, which is ({class}, {head}, {back})")
                }
                None => self.entry_words("entry", &m.tables),
            };
            format!("{words} of the tables, in the list of {list}")
        });
        (
            what,
            self.wanted(),
            "sort each list, drop entries that stand twice, keep to names, values, classes, heads and calls"
                .to_string(),
        )
    }

    fn want(&self, want: &Want) -> String {
        let Some(symbols) = self.symbols else { return String::new() };
        match *want {
            Want::Flow { name, value } => {
                format!("flow entry ({name}, {value}): {} may hold {}", symbols.name(name), symbols.value(value))
            }
            Want::Mail { class, value } => {
                format!(
                    "mail entry ({class}, {value}): a mailbox of {} may hold {}",
                    symbols.class(class),
                    symbols.value(value)
                )
            }
            Want::State(state) => {
                let State { class, head, back } = state;
                format!("state entry ({class}, {head}, {back}): {}", symbols.state(state))
            }
        }
    }

    fn open(&self) -> (String, String, String) {
        let wanted = match &self.refusal.detail {
            Detail::Lacks(want) => self.want(want),
            _ => String::new(),
        };
        let at = self.message().map_or(0, |m| m.tables.at + m.flow + m.mail);
        let state = self.refusal.position.checked_sub(at);
        let state = state.and_then(|i| self.read.tables.as_ref()?.states.get(i).map(|s| (i, *s)));
        let what = match (state, self.symbols) {
            (Some((i, state)), Some(symbols)) => format!("state {i}: {}", symbols.state(state)),
            _ => "the size F: an opening entry is missing".to_string(),
        };
        (
            what,
            wanted,
            "add this entry, then verify again: it may want others (`oracle assemble` finds them all)".to_string(),
        )
    }

    /// A mail entry of a function, and the first send that puts it there, if one does.
    fn function_mailed(&self) -> (String, String, String) {
        let Detail::Mailed { class, function } = self.refusal.detail else { return Default::default() };
        let what = self.want(&Want::Mail { class, value: function });
        let wanted = "no function in the mail, unless inside a constructor";
        let (sent, to_do) = match (self.sender(class, function), self.symbols) {
            (Some(sender), Some(symbols)) => {
                let to_do = "send a constructor that holds the function, and take it out where it is received";
                (format!("sent by {}", symbols.state(sender)), to_do)
            }
            _ => ("no send puts this one there".to_string(), "drop the entry"),
        };
        (what, format!("{wanted}; {sent}"), to_do.to_string())
    }

    /// The first state whose send may put a value into the mail of a class.
    fn sender(&self, class: usize, value: usize) -> Option<State> {
        let (program, tables) = self.read.program.as_ref().zip(self.read.tables.as_ref())?;
        Analysis::new(program, tables).senders(class, value).next()
    }

    fn counters(&self) -> (String, String, String) {
        let count = match self.refusal.detail {
            Detail::Counted(count) => count,
            _ => 0,
        };
        let widest = self.widest().map_or(String::new(), |words| format!("; {words}"));
        let what = format!("the size S: states and letters make more than {count} counters{widest}");
        (
            what,
            format!("at most {} counters", limits::COUNTERS),
            "make the station smaller or drop entries that are not needed".to_string(),
        )
    }

    /// The message that has the most letters, if it has several.
    fn widest(&self) -> Option<String> {
        let (program, tables) = self.read.program.as_ref().zip(self.read.tables.as_ref())?;
        let (value, count) = letters::widest(&Analysis::new(program, tables)).filter(|&(_, count)| count > 1)?;
        let value = self.symbols?.value(value);
        Some(format!("{value} alone has {count} letters, one for each choice of its arguments' heads"))
    }

    fn bound(&self) -> (String, String, String) {
        let what = self.message().map_or(String::new(), |m| self.entry_words("ceiling entry", &m.entries));
        let count = self.read.system.as_ref().map_or(0, |s| s.counters());
        let to_do = format!("within a ceiling counters rise and limits lie from 1 to 65535; ({count}, 0) closes it");
        (what, self.wanted(), to_do)
    }

    fn start(&self) -> (String, String, String) {
        let what = "the size K: no ceiling holds the starting counts".to_string();
        let wanted = "a ceiling with a limit of at least 1 for the starting process at the start".to_string();
        (what, wanted, "add such a ceiling".to_string())
    }

    /// What the ceilings are told with.
    fn counted(&self) -> Option<Counted<'_>> {
        let Read { tables, system, bounds, bads, program, .. } = self.read;
        Some(Counted {
            symbols: self.symbols?,
            derived: Derived { program: program.as_ref()?, tables: tables.as_ref()?, system: system.as_ref()? },
            bounds: bounds.as_ref()?,
            bads: bads.as_deref()?,
        })
    }

    fn met(&self) -> (String, String, String) {
        let Detail::Met { bad, bound } = self.refusal.detail else { return Default::default() };
        let what = self.counted().map_or(String::new(), |counted| counted.met(bad, bound));
        let wanted = "no ceiling that lets every item of a bad reach its minimum".to_string();
        let to_do = "`oracle assemble` says which it is: if a run of the station meets the bad, change the station; if \
                     only the counters do, tell apart what they mix; if neither, split this ceiling into narrower ones";
        (what, wanted, to_do.to_string())
    }

    fn leak(&self) -> (String, String, String) {
        let Detail::Leak { bound, rule } = self.refusal.detail else { return Default::default() };
        let (what, wanted) = self.counted().map_or(Default::default(), |counted| counted.leak(bound, rule));
        let to_do = "raise a limit or add a ceiling that holds the result (65534 and one more lies under any only)";
        (what, wanted, to_do.to_string())
    }

    fn weights(&self) -> (String, String, String) {
        let what = self.message().map_or(String::new(), |m| self.entry_words("weight entry", &m.weights));
        let count = self.read.system.as_ref().map_or(0, |s| s.counters());
        let to_do = format!("within a line counters rise and weights lie from 1 to 1,000; ({count}, 0) closes it");
        (what, self.wanted(), to_do)
    }

    fn rise(&self) -> (String, String, String) {
        let Detail::Rise { line, rule } = self.refusal.detail else { return Default::default() };
        let Read { tables: Some(tables), system: Some(system), weights: Some(weights), .. } = self.read else {
            return Default::default();
        };
        let Some(symbols) = self.symbols else { return Default::default() };
        let used = &system.rules[rule];
        let weight = |counter: usize| {
            format!("{} weighs {}", symbols.counter(tables, system, counter), weights.lines[line][counter])
        };
        let counters = [Some(used.from), used.read(), Some(used.to), used.adds()].into_iter().flatten();
        let words: Vec<String> = counters.map(weight).collect();
        let rule_words = symbols.rule(tables, system, used);
        (
            format!("line {line}: rule {rule}, {rule_words}, raises its sum: {}", words.join(", ")),
            "no rule that puts more weight than it takes".to_string(),
            "weigh what is put less, or what is taken more; every line must hold, used or not".to_string(),
        )
    }

    fn light(&self) -> (String, String, String) {
        let Detail::Light { bad } = self.refusal.detail else { return Default::default() };
        let Read { tables: Some(tables), system: Some(system), weights: Some(weights), .. } = self.read else {
            return Default::default();
        };
        let (Some(symbols), Some(bads), Some(program)) = (self.symbols, &self.read.bads, &self.read.program) else {
            return Default::default();
        };
        let start = tables.state(program.opening()).unwrap_or(0);
        let items = bad_sums(tables, system, &bads[bad]).unwrap_or_default();
        let weighed = weights.lines.iter().enumerate();
        let weighed = weighed.map(|(i, line)| {
            format!("line {i} weighs it {} and the start {}", least_weight(line, &items), line[start])
        });
        let words: Vec<String> = bads[bad].items.iter().map(|item| symbols.item(item)).collect();
        (
            format!("{}, {}: {}", symbols.bad(bad), words.join(" and "), weighed.collect::<Vec<_>>().join(", ")),
            "a line that weighs the bad above the start".to_string(),
            "add such a line; where there is none, use ceilings, or the bad can be met".to_string(),
        )
    }

    fn space(&self) -> (String, String, String) {
        let lent = match self.refusal.detail {
            Detail::Counted(lent) => lent,
            _ => 0,
        };
        let what = format!("the system needs {} words, {lent} were lent", self.refusal.position);
        (what, "room for the whole system".to_string(), format!("lend {} words (`--lend {0}`)", self.refusal.position))
    }
}

/// A message whose ceilings were read: the counters that matter, in words.
struct Counted<'a> {
    symbols: &'a Symbols<'a>,
    derived: Derived<'a>,
    bounds: &'a Bounds,
    bads: &'a [Bad],
}

/// Counters that are named at most where there may be many.
const NAMED: usize = 4;

impl Counted<'_> {
    fn counter(&self, counter: usize) -> String {
        self.symbols.counter(self.derived.tables, self.derived.system, counter)
    }

    /// Some limits of a ceiling.
    fn limits(&self, bound: usize, counters: &[usize]) -> String {
        let words = counters.iter().map(|&c| format!("{}<={}", self.counter(c), told(self.bounds.limits[bound][c])));
        words.collect::<Vec<_>>().join(" ")
    }

    /// A bad and a ceiling that allows it, by the counters of its items.
    fn met(&self, bad: usize, bound: usize) -> String {
        let Derived { tables, system, .. } = self.derived;
        let items: Vec<String> = self.bads[bad].items.iter().map(|item| self.symbols.item(item)).collect();
        let counters = self.bads[bad].items.iter().filter_map(|item| item_counters(tables, system, item)).flatten();
        let mut counters: Vec<usize> = counters.collect();
        counters.dedup();
        let (name, items, limits) = (self.symbols.bad(bad), items.join(" and "), self.limits(bound, &counters));
        format!("{name}, {items}; ceiling {bound} allows it: {limits}")
    }

    /// A ceiling by the counters of the rule that leaks; the rule, and what comes nearest to hold its result.
    fn leak(&self, bound: usize, rule: usize) -> (String, String) {
        let (tables, system) = (self.derived.tables, self.derived.system);
        let used = &system.rules[rule];
        let mut counters: Vec<usize> =
            [Some(used.from), used.read(), Some(used.to), used.adds()].into_iter().flatten().collect();
        counters.sort_unstable();
        counters.dedup();
        let what = format!("ceiling {bound}: {}", self.limits(bound, &counters));
        let rule_words = format!("rule {rule}, {}", self.symbols.rule(tables, system, used));
        let (nearest, over) = self.nearest(&after(&self.bounds.limits[bound], used));
        let named = &over[..over.len().min(NAMED)];
        let more = if over.len() > NAMED { format!(" and {} more", over.len() - NAMED) } else { String::new() };
        let limits = self.limits(nearest, named);
        (
            what,
            format!(
                "one ceiling over all that it becomes by {rule_words}; nearest is ceiling {nearest}, too low at \
                 {limits}{more}"
            ),
        )
    }

    /// The ceiling with the fewest counters that some counts exceed, and these counters.
    fn nearest(&self, counts: &[u32]) -> (usize, Vec<usize>) {
        let over = |limits: &Vec<u16>| {
            let over = limits.iter().zip(counts).enumerate();
            let over = over.filter(|&(_, (&limit, &count))| limit != limits::UNBOUNDED && count > limit as u32);
            over.map(|(counter, _)| counter).collect::<Vec<_>>()
        };
        let all = self.bounds.limits.iter().map(over).enumerate();
        all.min_by_key(|(_, over)| over.len()).unwrap_or_default()
    }
}

/// The highest counts under a ceiling after a rule; unbounded ones as more than any limit.
fn after(limits: &[u16], rule: &Rule) -> Vec<u32> {
    const MANY: u32 = 1 << 20;
    let mut counts: Vec<u32> = limits.iter().map(|&l| if l == limits::UNBOUNDED { MANY } else { l as u32 }).collect();
    [Some(rule.from), rule.read()].into_iter().flatten().for_each(|counter| counts[counter] -= 1);
    [Some(rule.to), rule.adds()].into_iter().flatten().for_each(|counter| counts[counter] += 1);
    counts
}

fn told(limit: u16) -> String {
    if limit == limits::UNBOUNDED { "any".to_string() } else { limit.to_string() }
}

/// The limits of all sizes.
fn limits_in_words() -> String {
    use limits::*;
    let size = |name: &str, (least, most): Limit| format!("{name} {least} to {most}");
    let sizes = [
        size("R", ROWS),
        size("V", NAMES),
        size("C", CONSTRUCTORS),
        size("G", FUNCTIONS),
        size("B", BADS),
        size("bad rows", BAD_ROWS),
        size("F", FLOW),
        size("M", MAIL),
        size("S", STATES),
        size("K", BOUNDS),
        size("ceiling entries", BOUND_ENTRIES),
        size("W", LINES),
        size("weight entries", WEIGHT_ENTRIES),
    ];
    sizes.join(", ")
}
