//! Verifies the message in a file with the proved library. Prints number and place of the verdict and, if it is safe, the four
//! sizes of the system. The status is that of ./verify: 0 safe, 1 refused, 2 no verdict.

use std::env;
use std::fs::File;
use std::io::{self, Read, Write};
use std::path::Path;
use std::process::ExitCode;
use std::sync::atomic::{AtomicBool, Ordering};
use std::thread;

// include/delungkaw.h says what this function takes, what it promises and what its caller owes.
#[link(name = "verifier", kind = "static")]
unsafe extern "C" {
    fn delungkaw_verify(
        message: *const u8,
        length: usize,
        lent: *mut u32,
        words: usize,
        place: *mut usize,
        part: *mut usize,
    ) -> u32;
}

// Of the C library, which is linked anyway.
unsafe extern "C" {
    fn fcntl(file: i32, command: i32, ...) -> i32;
}

/// Whether standard output was open when the program began. Before `main` the standard library puts /dev/null in the place
/// of a closed one, where a verdict would be lost and nothing would fail; so it is asked before that.
static OUTPUT_IS_OPEN: AtomicBool = AtomicBool::new(true);

#[used]
#[unsafe(link_section = ".init_array")]
static AT_THE_BEGINNING: extern "C" fn() = look_at_output;

extern "C" fn look_at_output() {
    const STANDARD_OUTPUT: i32 = 1;
    const F_GETFD: i32 = 1;
    // SAFETY: this command takes nothing more and changes nothing.
    let flags = unsafe { fcntl(STANDARD_OUTPUT, F_GETFD) };
    OUTPUT_IS_OPEN.store(flags != -1, Ordering::Relaxed);
}

const SAFE: u32 = 0;
const SPACE: u32 = 14;

/// The stack of the thread that verifies: 2 MB for the proved code, and as much again for the rest.
const STACK: usize = 4 << 20;

/// The longest message has 62,486 bytes. What is longer than this is settled by its beginning.
const MOST: u64 = 65_536;

struct Verdict<'a> {
    number: u32,
    place: usize,
    /// What is to be loaded: after safe the program, else nothing.
    part: &'a [u8],
}

/// The verdict on a message; after safe the lent words begin with the system.
fn verify<'a>(message: &'a [u8], lent: &mut [u32]) -> Verdict<'a> {
    let (mut place, mut part) = (0, 0);
    // SAFETY: each slice goes with its own length, none is null, and what is written is borrowed by nobody else.
    let number = unsafe {
        delungkaw_verify(message.as_ptr(), message.len(), lent.as_mut_ptr(), lent.len(), &mut place, &mut part)
    };
    Verdict { number, place, part: &message[..part] }
}

/// The verdict with as many words lent as the system needs, and the system if it is safe.
fn verdict_and_system(message: &[u8]) -> (Verdict<'_>, Vec<u32>) {
    // With no words lent the answer is a refusal, or how many words the system needs.
    let first = verify(message, &mut []);
    if first.number != SPACE {
        return (first, Vec::new());
    }
    let mut system = vec![0; first.place];
    (verify(message, &mut system), system)
}

/// The beginning of the file, as much as a message can have and a little more.
fn read_message(path: &Path) -> io::Result<Vec<u8>> {
    let mut message = Vec::new();
    File::open(path)?.take(MOST).read_to_end(&mut message)?;
    Ok(message)
}

/// A line on standard error. Where that can't be written nobody reads it, and the status still tells.
fn say(line: &str) {
    let _ = writeln!(io::stderr(), "{line}");
}

/// Prints the verdict on the message in the file; true if it is safe.
fn tell(path: &Path) -> io::Result<bool> {
    let message = read_message(path)?;
    let (verdict, system) = verdict_and_system(&message);
    if !OUTPUT_IS_OPEN.load(Ordering::Relaxed) {
        return Err(io::Error::other("standard output is closed"));
    }
    let mut out = io::stdout().lock();
    writeln!(out, "{} {}", verdict.number, verdict.place)?;
    if verdict.number == SAFE {
        writeln!(out, "{} {} {} {}", system[0], system[1], system[2], system[3])?;
        // A loader would now load the program.
        say(&format!("{} bytes to load", verdict.part.len()));
    }
    out.flush()?;
    Ok(verdict.number == SAFE)
}

fn main() -> ExitCode {
    let mut words = env::args_os().skip(1);
    let (Some(path), None) = (words.next(), words.next()) else {
        say("usage: verify-rust FILE");
        return ExitCode::from(2);
    };
    let thread = thread::Builder::new().stack_size(STACK).spawn(move || tell(path.as_ref()));
    let died = |_| Err(io::Error::other("the thread that verifies died"));
    match thread.and_then(|thread| thread.join().unwrap_or_else(died)) {
        Ok(true) => ExitCode::from(0),
        Ok(false) => ExitCode::from(1),
        Err(why) => {
            say(&format!("no verdict: {why}"));
            ExitCode::from(2)
        }
    }
}
