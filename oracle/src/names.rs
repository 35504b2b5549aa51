//! Each name is bound in one row (refusal 4) and read in its scope (refusal 5).

use crate::program::{Binder, Program};
use crate::refusal::{self, Refusal};

/// Refusal 4, or the binder of each name.
pub fn binders(program: &Program) -> Result<Vec<&Binder>, Refusal> {
    let mut found: Vec<Option<&Binder>> = vec![None; program.names];
    for binder in &program.binders {
        let slot = &mut found[binder.name];
        if slot.is_some() {
            return Err(Refusal::wanted(refusal::NAME, 4 + binder.row, "a name that no row before binds"));
        }
        *slot = Some(binder);
    }
    let all: Option<Vec<&Binder>> = found.into_iter().collect();
    all.ok_or_else(|| Refusal::wanted(refusal::NAME, 1, "every name bound by some row"))
}

/// Refusals 4 and 5.
pub fn check(program: &Program) -> Result<(), Refusal> {
    let binders = binders(program)?;
    for read in &program.uses {
        let binder = binders[read.name];
        if read.at < binder.from || read.at >= binder.until {
            return Err(Refusal::wanted(refusal::SCOPE, 4 + read.row, "a name read within its scope"));
        }
    }
    Ok(())
}
