//! What was compared, step by step, and what differed.
use std::collections::BTreeMap;

/// Of each step the first few differences are printed whole.
const SHOWN: u64 = 3;

/// The greatest number that an entry answers.
const LAST_ANSWER: usize = 11;

/// The cases of one step.
#[derive(Default)]
pub struct Line {
    pub cases: u64,
    pub differences: u64,
    answers: [u64; LAST_ANSWER + 1],
}

#[derive(Default)]
pub struct Tally {
    lines: BTreeMap<String, Line>,
}

impl Line {
    /// One case with the oracle's answer; `same` where nothing differed.
    pub fn case(&mut self, answer: u32, same: bool, show: impl FnOnce() -> String) {
        self.cases += 1;
        self.answers[answer as usize] += 1;
        if !same {
            self.differences += 1;
            if self.differences <= SHOWN {
                println!("DIFFERENCE {}", show());
            }
        }
    }

    /// The answers that came, as "0: 17, 6: 2".
    fn answers(&self) -> String {
        let met = self.answers.iter().enumerate().filter(|(_, &n)| n > 0);
        met.map(|(k, n)| format!("{k}: {n}")).collect::<Vec<_>>().join(", ")
    }
}

impl Tally {
    pub fn step(&mut self, name: &str) -> &mut Line {
        self.lines.entry(name.to_string()).or_default()
    }

    pub fn differences(&self) -> u64 {
        self.lines.values().map(|l| l.differences).sum()
    }

    pub fn cases(&self) -> u64 {
        self.lines.values().map(|l| l.cases).sum()
    }

    /// The cases by step with their answers, and the sum.
    pub fn print(&self) {
        println!("\n{:<44} {:>11} {:>11}  answers", "step", "cases", "differences");
        for (name, l) in &self.lines {
            println!("{name:<44} {:>11} {:>11}  {}", l.cases, l.differences, l.answers());
        }
        println!("{:<44} {:>11} {:>11}", "all", self.cases(), self.differences());
    }
}
