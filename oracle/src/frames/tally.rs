//! What the comparison of frames came to, and a floor for each answer.
use crate::tally::{least, often};
use std::collections::BTreeMap;

/// What agreed.
#[derive(Debug, Clone, Copy, PartialEq, Eq, PartialOrd, Ord)]
pub enum Beside {
    /// A stream with the plain program and the crate.
    Crate,
    /// A stream that 101 ends, with the plain program; and the frames before it with the crate, which has no store.
    Store,
    /// The same, and with the crate where its buffer has the length of the store.
    Buffer,
    /// A single call with the plain program.
    Paper,
}

/// What is to be agreed on often enough.
const ANSWERS: [&str; 7] = ["needs", "frame", "1 (store)", "1 (frame)", "100", "101 (header)", "101 (frame)"];

/// Counts of a run.
#[derive(Default)]
pub struct Tally {
    inputs: u64,
    frames: u64,
    agreed: BTreeMap<Beside, u64>,
    answers: BTreeMap<String, u64>,
    unexplained: u64,
}

impl Tally {
    /// One input: its answer at the end, the frames before it, and what agreed.
    pub fn add(&mut self, answer: &str, frames: usize, judged: Result<Beside, String>) {
        self.inputs += 1;
        match judged {
            Ok(beside) => {
                *self.agreed.entry(beside).or_default() += 1;
                *self.answers.entry(answer.into()).or_default() += 1;
                self.frames += frames as u64;
            }
            Err(text) => {
                if self.unexplained < 20 {
                    eprintln!("unexplained, frames: {text}");
                }
                self.unexplained += 1;
            }
        }
    }

    /// Prints the counts. True where nothing is unexplained and every answer was agreed on often enough.
    pub fn print(&self) -> bool {
        let agreed = |beside| self.agreed.get(&beside).copied().unwrap_or(0);
        let [whole, store, buffer] = [Beside::Crate, Beside::Store, Beside::Buffer].map(agreed);
        println!("frames: inputs {}, frames agreed on {}", self.inputs, self.frames);
        println!("  streams beside the crate, agreed {whole}");
        println!("  streams that 101 ends, counted apart, agreed {}", store + buffer);
        println!("    of them beside a buffer of the crate of the store's length {buffer}");
        println!("  single calls beside the plain program alone, agreed {}", agreed(Beside::Paper));
        let count = |answer: &str| self.answers.get(answer).copied().unwrap_or(0);
        let counts: Vec<String> = ANSWERS.iter().map(|answer| format!("{answer}: {}", count(answer))).collect();
        println!("  answers {}", counts.join(", "));
        let enough = often(&ANSWERS, count, least(self.inputs));
        println!("  unexplained {}", self.unexplained);
        enough && self.unexplained == 0
    }
}
