//! What a run has come to, as text: of each process its class, place, pushed calls and mailbox. The model shows its runs in the same form
//! (crates/cases/specs/Shown.antt), so that the table of runs can be compared as it stands.

use super::{Bindings, Machine, Process, Value, ValueId};
use std::iter::successors;

impl Machine<'_> {
    /// A text for each process, `18@13 ^7 ^12 : c0@3 #1`: class 18 at row 13, the calls of rows 7 and 12 pushed, the latest first, and in the
    /// mailbox a built value and an address.
    pub fn shown(&self) -> Vec<String> {
        self.processes.iter().map(|process| self.process_text(process)).collect()
    }

    fn process_text(&self, process: &Process) -> String {
        let mut text = format!("{}@{}", process.class, process.location);
        let frames = successors(self.store.frame(process.frames), |frame| self.store.frame(frame.below));
        text.extend(frames.map(|frame| format!(" ^{}", frame.call)));
        if !process.mailbox.is_empty() {
            text.push_str(" : ");
            text.push_str(&self.value_texts(&process.mailbox).join(" "));
        }
        text
    }

    fn value_texts(&self, values: &[ValueId]) -> Vec<String> {
        values.iter().map(|&value| self.value_text(value)).collect()
    }

    /// `c1@5(c0@3 #0)`: built at row 5 of constructor 1; `f@7{0=#0 2=c0@3}`: the function of row 7 with what it keeps, by name; `#1`: the
    /// address of process 1.
    fn value_text(&self, id: ValueId) -> String {
        match self.store.value(id) {
            Value::Built { row, constructor, args } if args.is_empty() => format!("c{constructor}@{row}"),
            Value::Built { row, constructor, args } => {
                format!("c{constructor}@{row}({})", self.value_texts(args).join(" "))
            }
            Value::Function { row, bindings } => format!("f@{row}{{{}}}", self.kept(*bindings).join(" ")),
            Value::Address(process) => format!("#{process}"),
        }
    }

    fn kept(&self, bindings: Bindings) -> Vec<String> {
        let held = self.store.held(bindings);
        held.iter().map(|&(name, value)| format!("{name}={}", self.value_text(value))).collect()
    }
}
