//! The table of a tally.

use super::{Counts, Tally, ANSWERS, LONGER};
use std::collections::BTreeMap;
use std::fmt;

impl fmt::Display for Tally {
    fn fmt(&self, f: &mut fmt::Formatter) -> fmt::Result {
        writeln!(f, "{} cases", self.cases)?;
        let calls: Vec<_> = self
            .calls
            .iter()
            .map(|(name, c)| (name.to_string(), *c))
            .collect();
        matrix(f, "calls", &calls)?;
        let marked: Vec<_> = self
            .marked
            .iter()
            .map(|(name, c)| (name.to_string(), *c))
            .collect();
        matrix(f, "calls of version 2", &marked)?;
        let by_length = |counts: &BTreeMap<usize, Counts>| {
            let lines = counts.iter().map(|(m, c)| (length_name(*m), *c));
            lines.collect::<Vec<_>>()
        };
        matrix(f, "removals by ring", &by_length(&self.rings))?;
        matrix(f, "removals by chain", &by_length(&self.chains))?;
        let families: Vec<_> = self
            .families
            .iter()
            .map(|(name, c)| (name.to_string(), *c))
            .collect();
        matrix(f, "families", &families)?;
        writeln!(f, "\nwrong kernels told apart")?;
        for (fault, told) in &self.told {
            writeln!(f, "{told:8}  {fault}")?;
        }
        writeln!(f, "\nfine points")?;
        for (point, seen) in &self.points {
            writeln!(f, "{seen:8}  {point}")?;
        }
        writeln!(f, "\n{} disagreements", self.disagreements.len())
    }
}

fn length_name(m: usize) -> String {
    match m {
        LONGER => format!("m over {}", LONGER - 1),
        _ => format!("m = {m}"),
    }
}

fn matrix(f: &mut fmt::Formatter, title: &str, lines: &[(String, Counts)]) -> fmt::Result {
    write!(f, "\n{title:20}")?;
    for number in 0..ANSWERS {
        write!(f, "{number:6}")?;
    }
    writeln!(f)?;
    for (name, counts) in lines {
        write!(f, "{name:20}")?;
        for count in counts {
            write!(f, "{count:6}")?;
        }
        writeln!(f)?;
    }
    Ok(())
}
