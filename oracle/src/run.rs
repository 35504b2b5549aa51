//! A run shown step by step: the station, and beside it the counters.

use crate::bads::Bad;
use crate::counters::{Beside, Counts, Safe, meets};
use crate::fuzz::rng::Rng;
use crate::machine::{Deed, Idle, Machine, Step};
use crate::symbols::Symbols;
use crate::text::telling::listed;
use crate::text::words::Words;
use crate::verify::{Read, inspect};
use crate::wrap::wrapped;

/// Which run is wanted: these numbers, then so many steps of processes picked at random among those that can step.
#[derive(Clone, Debug, Default)]
pub struct Wanted {
    pub numbers: Vec<usize>,
    pub random: usize,
    pub seed: u64,
}

/// A run as text, and whether it met a bad.
pub struct Shown {
    pub text: String,
    pub met: bool,
}

/// Shows a run. A program that passed the checks up to 5 can run; the counters run beside it where the checks got as
/// far as a system (8, 22 and 9 passed), and demand 3 is checked where the message is safe.
pub fn show(message: &[u8], words: Option<&Words>, wanted: &Wanted) -> Result<Shown, String> {
    let mut read = Read::default();
    let refusal = inspect(message, &mut read).err();
    let verdict = match &refusal {
        None => "safe: the counters run beside the station\n".to_string(),
        Some(r) => format!("refused {} at {}\n", r.number, r.position),
    };
    let (Some(program), Some(m)) = (&read.program, &read.message) else {
        return Err(format!("{verdict}the program itself is refused: nothing can run"));
    };
    if refusal.as_ref().is_some_and(|r| r.number <= crate::refusal::SCOPE) {
        return Err(format!("{verdict}the program itself is refused: nothing can run"));
    }
    let symbols = words.map_or_else(|| Symbols::new(program), |words| words.symbols(program, m));
    let bads = read.bads.as_deref().unwrap_or(&[]);
    let safe = Safe::of(&read).filter(|_| refusal.is_none());
    let station = match (&read.tables, &read.system) {
        (Some(tables), Some(system)) => {
            let beside = Beside::new(program, tables, system, safe, bads);
            Station::Beside(Box::new(beside.ok_or("no starting state")?))
        }
        _ => Station::Alone(Box::new(Machine::new(program))),
    };
    let mut show = Show {
        symbols: &symbols,
        bads,
        station,
        met: vec![false; bads.len()],
        ever: false,
        text: verdict,
        done: Vec::new(),
    };
    show.run(wanted)?;
    match safe {
        Some(Safe::Bounds(_)) => {
            show.text.push_str("demand 3 held after every number: equal counts, under one ceiling, no bad met\n");
        }
        Some(Safe::Weights(_)) => {
            show.text.push_str("demand 3 held after every number: equal counts, no sum ever rose, no bad met\n");
        }
        None => {}
    }
    Ok(Shown { met: show.ever, text: show.text })
}

/// The station beside its counters, or alone where it has none: a check before them has refused the message.
enum Station<'a> {
    Beside(Box<Beside<'a>>),
    Alone(Box<Machine<'a>>),
}

struct Show<'a> {
    symbols: &'a Symbols<'a>,
    bads: &'a [Bad],
    station: Station<'a>,
    /// Which bads are met now, and whether one ever was.
    met: Vec<bool>,
    ever: bool,
    text: String,
    done: Vec<usize>,
}

impl Show<'_> {
    fn machine(&self) -> &Machine<'_> {
        match &self.station {
            Station::Beside(beside) => &beside.machine,
            Station::Alone(machine) => machine,
        }
    }

    fn run(&mut self, wanted: &Wanted) -> Result<(), String> {
        match &self.station {
            Station::Beside(beside) => self.text.push_str(&self.counts(&beside.counts)),
            Station::Alone(_) => self.text.push_str("no counters were derived: the station runs alone\n"),
        }
        self.look()?;
        for &number in &wanted.numbers {
            self.number(number)?;
        }
        let mut rng = Rng::new(wanted.seed);
        for _ in 0..wanted.random {
            let free = self.free();
            let Some(&number) = rng.pick(&free).filter(|_| !self.ever) else { break };
            self.number(number)?;
        }
        if wanted.random > 0 {
            self.line("the numbers: ", &listed(&self.done));
        }
        self.who();
        Ok(())
    }

    fn line(&mut self, label: &str, words: &str) {
        self.text.push_str(&wrapped(label, words));
    }

    /// One number: the step, the rule that the counters use for it, the counts, and the bads that are met then.
    fn number(&mut self, number: usize) -> Result<(), String> {
        self.done.push(number);
        let step = match &mut self.station {
            Station::Beside(beside) => beside.machine.step(number),
            Station::Alone(machine) => machine.step(number),
        };
        self.line(&format!("{:>4}. ", self.done.len()), &step_words(self.symbols, number, &step));
        if let (Ok(step), Station::Beside(beside)) = (step, &mut self.station) {
            let rule = beside.follow(&step)?;
            let words = self.symbols.rule(beside.tables, beside.system, &beside.system.rules[rule]);
            let counts = beside.counts.clone();
            self.line("      ", &format!("rule {rule}: {words}"));
            self.text.push_str(&self.counts(&counts));
        }
        self.look()
    }

    fn counts(&self, counts: &Counts) -> String {
        let Station::Beside(beside) = &self.station else { return String::new() };
        let held = counts.0.iter().enumerate().filter(|&(_, &count)| count > 0);
        let words = held.map(|(i, count)| format!("{}={count}", self.symbols.counter(beside.tables, beside.system, i)));
        let sums: Vec<String> = beside.weighed(counts).iter().map(u64::to_string).collect();
        let sums = if sums.is_empty() { String::new() } else { wrapped("      sums: ", &sums.join(" ")) };
        wrapped("      counts: ", &words.collect::<Vec<_>>().join(" ")) + &sums
    }

    /// Tells of the bads that were not met before, and checks demand 3 where it is promised.
    fn look(&mut self) -> Result<(), String> {
        let met: Vec<bool> = self.bads.iter().map(|bad| meets(self.machine(), bad)).collect();
        for (i, bad) in self.bads.iter().enumerate().filter(|(i, _)| met[*i] && !self.met[*i]) {
            let items: Vec<String> = bad.items.iter().map(|item| self.symbols.item(item)).collect();
            let words = format!("{} is met: {}", self.symbols.bad(i), items.join(" and "));
            self.text.push_str(&wrapped("   !! ", &words));
        }
        self.ever |= met.contains(&true);
        self.met = met;
        match &self.station {
            Station::Beside(beside) => beside.check(),
            Station::Alone(_) => Ok(()),
        }
    }

    /// The processes that can step.
    fn free(&self) -> Vec<usize> {
        (0..self.machine().processes.len()).filter(|&number| self.machine().peek(number).is_ok()).collect()
    }

    /// Who can step now, and why the others can't.
    fn who(&mut self) {
        let mut whys: Vec<(String, Vec<usize>)> = vec![("can step: ".to_string(), Vec::new())];
        for number in 0..self.machine().processes.len() {
            let why = match self.machine().peek(number) {
                Ok(_) => "can step: ".to_string(),
                Err(Idle::Waiting) => "waits at a receive that matches nothing: ".to_string(),
                Err(Idle::Stopped(why)) => format!("stopped for good, {why}: "),
                Err(_) => "has ended: ".to_string(),
            };
            match whys.iter_mut().find(|(other, _)| *other == why) {
                Some((_, numbers)) => numbers.push(number),
                None => whys.push((why, vec![number])),
            }
        }
        for (why, numbers) in whys {
            let numbers: Vec<String> = numbers.iter().map(usize::to_string).collect();
            let numbers = if numbers.is_empty() { "nobody".to_string() } else { numbers.join(" ") };
            self.line(&why, &numbers);
        }
    }
}

/// A step in words, or why there is none.
pub fn step_words(symbols: &Symbols, number: usize, step: &Result<Step, Idle>) -> String {
    match step {
        Ok(step) => {
            let deed = match step.deed {
                Deed::Inner => String::new(),
                Deed::Read { letter } => format!(", takes {} from its mailbox", symbols.letter(letter)),
                Deed::Put { letter, process, .. } => {
                    format!(", puts {} into the mailbox of process {process}", symbols.letter(letter))
                }
                Deed::New { process, .. } => format!(", spawns process {process}"),
            };
            format!("process {number}: {} -> {}{deed}", symbols.state(step.from), symbols.label(step.to.head))
        }
        Err(Idle::NoProcess) => format!("process {number}: not there yet, nothing changes"),
        Err(Idle::Ended) => format!("process {number}: has ended, nothing changes"),
        Err(Idle::Waiting) => format!("process {number}: waits at a receive that matches nothing"),
        Err(Idle::Stopped(why)) => format!("process {number}: stopped for good, {why}"),
    }
}
