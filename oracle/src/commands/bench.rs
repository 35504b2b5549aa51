//! `oracle bench [OUT]`: how long the proved code and `verify` take, as Markdown.

use super::{Answer, read_message, told};
use oracle::limits::PLENTY;
use oracle::stress::growth::{self, Family};
use oracle::stress::{self, Sample, honest};
use oracle::verify::{self, Outcome};
use oracle::{proved, stack};
use std::fmt::Write;
use std::time::{Duration, Instant};

/// A message is verified so often, or until this time is over, but at least three times.
const TIMES: usize = 201;
const UNTIL: Duration = Duration::from_millis(600);
const EXAMPLES: &str = concat!(env!("CARGO_MANIFEST_DIR"), "/../examples");

/// A page, or a part of it.
type Text = Result<String, String>;

/// Middle times of one call, in microseconds.
struct Times {
    outcome: Outcome,
    proved: f64,
    own: f64,
}

fn timed(verifier: fn(&[u8], &mut [u32]) -> Outcome, message: &[u8], lent: &mut [u32]) -> (Outcome, f64) {
    let begin = Instant::now();
    let outcome = verifier(std::hint::black_box(message), lent);
    (outcome, begin.elapsed().as_nanos() as f64 / 1e3)
}

fn middle(mut times: Vec<f64>) -> f64 {
    times.sort_by(f64::total_cmp);
    times[times.len() / 2]
}

/// Both in turn, again and again; a word if they do not agree.
fn measure(message: &[u8], lent: &mut [u32]) -> Result<Times, String> {
    let begin = Instant::now();
    let (mut proved_times, mut own_times) = (Vec::new(), Vec::new());
    loop {
        let (outcome, time) = timed(proved::verify, message, lent);
        proved_times.push(time);
        let (own, time) = timed(verify::verify, message, lent);
        own_times.push(time);
        if outcome != own {
            return Err(format!("{outcome:?} against {own:?}"));
        }
        if own_times.len() >= TIMES || own_times.len() >= 3 && begin.elapsed() > UNTIL {
            return Ok(Times { outcome, proved: middle(proved_times), own: middle(own_times) });
        }
    }
}

/// A time for a person.
fn duration(micros: f64) -> String {
    match micros {
        m if m < 1e3 => format!("{m:.1} µs"),
        m if m < 1e6 => format!("{:.1} ms", m / 1e3),
        m => format!("{:.2} s", m / 1e6),
    }
}

/// The columns with both times and their ratio.
fn columns(times: &Times) -> String {
    format!("{} | {} | {:.1}", duration(times.proved), duration(times.own), times.proved / times.own)
}

fn sizes(message: &[u8]) -> String {
    let [rows, flow, mail, states, ceilings, entries, lines, weights] = stress::sizes(message);
    format!("{rows} | {flow} | {mail} | {states} | {ceilings} | {entries} | {lines} | {weights}")
}

const SIZES: &str = "rows | flow | mail | states | ceilings | entries | lines | weights";

/// A table of messages, one a line.
fn table(title: &str, samples: &[Sample], lent: &mut [u32]) -> Text {
    let mut text = format!("## {title}\n\n| message | verdict | {SIZES} | proved | oracle | ratio |\n");
    text.push_str("|---|--:|--:|--:|--:|--:|--:|--:|--:|--:|--:|--:|--:|\n");
    for Sample { name, verdict, message, .. } in samples {
        let times = measure(message, lent).map_err(|e| format!("{name}: {e}"))?;
        if times.outcome.number != *verdict {
            return Err(format!("{name}: verdict {} where {verdict} is expected", times.outcome.number));
        }
        let _ = writeln!(text, "| {name} | {verdict} | {} | {} |", sizes(message), columns(&times));
    }
    text.push('\n');
    let told = samples.iter().filter(|sample| !sample.about.is_empty());
    let lines: Vec<String> = told.map(|sample| format!("- `{}`: {}.\n", sample.name, sample.about)).collect();
    if !lines.is_empty() {
        text.push_str(&(lines.concat() + "\n"));
    }
    Ok(text)
}

/// A table of one family; `more` is the time against that of the line before.
fn grown(family: &Family, lent: &mut [u32]) -> Text {
    let mut text = format!("### {}\n\n| size | {SIZES} | proved | oracle | ratio | more |\n", family.about);
    text.push_str("|--:|--:|--:|--:|--:|--:|--:|--:|--:|--:|--:|--:|--:|\n");
    let mut before = None;
    for (size, message) in &family.messages {
        let times = measure(message, lent).map_err(|e| format!("{}: {e}", family.about))?;
        let more = before.map_or(String::new(), |before: f64| format!("{:.1}", times.proved / before));
        let _ = writeln!(text, "| {size} | {} | {} | {more} |", sizes(message), columns(&times));
        before = Some(times.proved);
    }
    Ok(text + "\n")
}

/// The stored messages of a folder, by name.
fn stored(folder: &str) -> Result<Vec<Sample>, String> {
    let files = std::fs::read_dir(folder).map_err(|e| format!("{folder}: {e}"))?;
    let mut paths: Vec<_> = files.filter_map(|file| Some(file.ok()?.path())).collect();
    paths.retain(|path| path.extension().is_some_and(|e| e == "msg"));
    paths.sort();
    paths
        .iter()
        .map(|path| {
            let name = path.file_stem().unwrap_or_default().to_string_lossy().into_owned();
            let message = read_message(&path.to_string_lossy())?;
            let verdict = verify::verify(&message, &mut vec![0; PLENTY]).number;
            Ok(Sample { name, about: "", verdict, message })
        })
        .collect()
}

/// The hostile messages that are made here, and those that are only stored.
fn hostile() -> Result<Vec<Sample>, String> {
    let mut samples = stress::hostile()?;
    let kept = stored(&format!("{EXAMPLES}/hostile"))?;
    let made: Vec<String> = samples.iter().map(|sample| sample.name.clone()).collect();
    samples.extend(kept.into_iter().filter(|sample| !made.contains(&sample.name)));
    Ok(samples)
}

fn machine() -> String {
    let text = std::fs::read_to_string("/proc/cpuinfo").unwrap_or_default();
    let name = text.lines().find_map(|line| line.strip_prefix("model name")?.split_once(": ").map(|(_, name)| name));
    name.unwrap_or("an unknown processor").to_string()
}

/// The first line of the page. What does not begin so was written by somebody else and is not overwritten.
const MARK: &str =
    "<!-- Made by `oracle bench`, which writes it anew: words of your own belong into PERFORMANCE.md. -->";

fn report() -> Text {
    let mut lent = vec![0; PLENTY];
    let (processor, cores) = (machine(), std::thread::available_parallelism().map_or(1, usize::from));
    let mut text = format!(
        "{MARK}\n# Benchmark\n\nThe middle time of one call, the proved code and `oracle verify` in turn in one \
         process, on {processor} ({cores} cores).\n\n"
    );
    text.push_str(&table("Examples", &stored(EXAMPLES)?, &mut lent)?);
    text.push_str(&table("Honest messages near the limits", &honest::honest()?, &mut lent)?);
    text.push_str(&table("Hostile messages", &hostile()?, &mut lent)?);
    text.push_str("## Growth\n\n`more`: the proved time against that of the line before.\n\n");
    for family in growth::families()? {
        text.push_str(&grown(&family, &mut lent)?);
    }
    Ok(text.trim_end().to_string() + "\n")
}

/// A word if the page would overwrite something else.
fn free_to_write(path: &str) -> Result<(), String> {
    match std::fs::read_to_string(path) {
        Ok(text) if !text.starts_with(MARK) => Err(format!("{path} was not made by `oracle bench`: it stays as it is")),
        Err(e) if e.kind() != std::io::ErrorKind::NotFound => Err(format!("{path}: {e}")),
        _ => Ok(()),
    }
}

/// The page on standard output, or in a file of its own.
pub fn command(args: &[String]) -> Answer {
    match args {
        [] => told(&stack::with_stack(proved::STACK, report)??),
        [path] => {
            free_to_write(path)?;
            let page = stack::with_stack(proved::STACK, report)??;
            std::fs::write(path, page).map_err(|e| format!("{path}: {e}"))?;
            Ok(super::DONE)
        }
        _ => Err("oracle bench [OUT]".to_string()),
    }
}
