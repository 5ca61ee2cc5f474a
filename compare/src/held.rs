//! The kernel held to the model, call by call.

use crate::kernel;
use crate::model::{run, Call, Outcome};
use std::fmt;

/// A call on which the two differ.
#[derive(Debug)]
pub struct Difference {
    pub call: Call,
    pub model: Outcome,
    pub kernel: Outcome,
}

/// How many calls were compared, and those that differ.
#[derive(Debug, Default)]
pub struct Held {
    pub compared: u64,
    pub differing: Vec<Difference>,
}

impl Held {
    /// Each call but the printouts, which are the program's.
    pub fn of(calls: impl Iterator<Item = Call>) -> Held {
        let mut held = Held::default();
        calls.for_each(|call| held.add(call));
        held
    }

    fn add(&mut self, call: Call) {
        let Some(kernel) = kernel::run(&call) else {
            return;
        };
        self.compared += 1;
        let model = run(&call);
        if model != kernel {
            self.differing.push(Difference {
                call,
                model,
                kernel,
            });
        }
    }

    /// Nothing differs, and there was something to compare.
    #[track_caller]
    pub fn expect(&self, at_least: u64) {
        assert!(self.differing.is_empty(), "{self}");
        assert!(self.compared >= at_least, "{} compared", self.compared);
    }
}

impl fmt::Display for Held {
    fn fmt(&self, f: &mut fmt::Formatter) -> fmt::Result {
        let (compared, differ) = (self.compared, self.differing.len());
        writeln!(f, "{compared} calls compared, {differ} differ")?;
        for difference in self.differing.iter().take(3) {
            writeln!(f, "{difference:?}")?;
        }
        Ok(())
    }
}
