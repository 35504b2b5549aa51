//! Standard input and output as they were when the program began.

use std::io::Write;

/// Asked before `main`: the standard library puts /dev/null in the place of a file that is closed, so that what is
/// printed would be lost and nothing would fail.
#[cfg(target_os = "linux")]
mod at_the_beginning {
    use std::sync::atomic::{AtomicBool, Ordering};

    const F_GETFD: i32 = 1;

    unsafe extern "C" {
        fn fcntl(file: i32, command: i32, ...) -> i32;
    }

    static OPEN: [AtomicBool; 2] = [AtomicBool::new(true), AtomicBool::new(true)];

    #[used]
    #[unsafe(link_section = ".init_array")]
    static ASK: extern "C" fn() = ask;

    extern "C" fn ask() {
        for (file, open) in OPEN.iter().enumerate() {
            // SAFETY: the C library's own function, with a command that takes nothing more and changes nothing.
            open.store(unsafe { fcntl(file as i32, F_GETFD) } != -1, Ordering::Relaxed);
        }
    }

    pub fn open(file: usize) -> bool {
        OPEN[file].load(Ordering::Relaxed)
    }
}

#[cfg(not(target_os = "linux"))]
mod at_the_beginning {
    pub fn open(_: usize) -> bool {
        true
    }
}

/// A word if standard input is closed.
pub fn input() -> Result<std::io::Stdin, String> {
    match at_the_beginning::open(0) {
        true => Ok(std::io::stdin()),
        false => Err("standard input is closed".to_string()),
    }
}

/// Writes all of it to standard output, or tells why that can't be.
pub fn print(bytes: &[u8]) -> Result<(), String> {
    if !at_the_beginning::open(1) {
        return Err("standard output is closed".to_string());
    }
    let mut out = std::io::stdout();
    out.write_all(bytes).and_then(|()| out.flush()).map_err(|e| format!("standard output: {e}"))
}

/// A line on standard error. Where that can't be written nobody reads it, and the status still tells.
pub fn say(words: &str) {
    let _ = writeln!(std::io::stderr(), "{words}");
}
