//! Work that needs a large stack.

/// Does the work on a thread with so many bytes of stack; a word if it failed.
pub fn with_stack<T: Send>(bytes: usize, work: impl FnOnce() -> T + Send) -> Result<T, String> {
    std::thread::scope(|scope| {
        let thread = std::thread::Builder::new().stack_size(bytes).spawn_scoped(scope, work);
        let thread = thread.map_err(|e| format!("no thread: {e}"))?;
        thread.join().map_err(|_| "the work failed".to_string())
    })
}
