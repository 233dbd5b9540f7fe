//! What a run came to: counts, beside the crate and beside the plain program apart, and a floor for each number.
use crate::{of_crate::Answer, paper::AFTER_NUL};
use std::collections::BTreeMap;

/// What an answer was held to.
#[derive(Debug, Clone, Copy, PartialEq, Eq, PartialOrd, Ord)]
pub enum Beside {
    /// The crate's own text.
    Crate,
    /// The plain program, where more than NULs follow a NUL of a text, which the crate keeps (`after_nul.rs`).
    AfterNul,
    /// Documents 01 and 02 as a plain program (`paper.rs`), where the crate has no such thing.
    Paper,
}

/// What an input came to.
#[derive(Debug)]
pub enum Kind {
    Agreed,
    /// A difference that docs/DIFFERENCES.md lists.
    Listed(String),
    /// Refused by a check that is not in the part taken, and otherwise the same.
    Apart(&'static str),
    Unexplained(String),
}

/// The numbers that the crate can give, and those, [`AFTER_NUL`] apart, that the plain program alone gives.
const OF_CRATE: [std::ops::RangeInclusive<u32>; 7] = [10..=12, 20..=28, 30..=40, 44..=45, 50..=55, 60..=64, 71..=83];
const OF_PAPER: [std::ops::RangeInclusive<u32>; 4] = [1..=3, 13..=13, 90..=96, 110..=112];

impl Beside {
    const ALL: [Beside; 3] = [Beside::Crate, Beside::AfterNul, Beside::Paper];

    /// What the report calls it, and the numbers that are to be agreed on there.
    fn told(self) -> (&'static str, Vec<u32>) {
        match self {
            Beside::Crate => ("beside the crate", OF_CRATE.into_iter().flatten().collect()),
            Beside::AfterNul => ("after a NUL, counted apart, beside the plain program", AFTER_NUL.to_vec()),
            Beside::Paper => ("beside the plain program alone", OF_PAPER.into_iter().flatten().collect()),
        }
    }
}

/// Each number is to be agreed on once in so many inputs, or more often. Shorter runs than this many floors have none.
const FLOOR: u64 = 4_000;
const SHORT: u64 = 5;

/// How often each is to be agreed on in a run of so many inputs.
pub fn least(inputs: u64) -> u64 {
    if inputs < SHORT * FLOOR {
        0
    } else {
        inputs / FLOOR
    }
}

/// Whether each of these answers was agreed on so often. Says which was not.
pub fn often(answers: &[&str], count: impl Fn(&str) -> u64, floor: u64) -> bool {
    for answer in answers.iter().filter(|answer| count(answer) < floor) {
        eprintln!("too seldom: {answer} was agreed on {} times, and the floor is {floor}", count(answer));
    }
    answers.iter().all(|answer| count(answer) >= floor)
}

/// Counts of what was held to one of the three.
#[derive(Default)]
struct Counts {
    inputs: BTreeMap<&'static str, u64>,
    answers: BTreeMap<String, u64>,
    /// How often each number was agreed on.
    hits: BTreeMap<u32, u64>,
    /// How many refusals were held to a place.
    placed: u64,
    agreed: u64,
    listed: BTreeMap<String, u64>,
    apart: BTreeMap<&'static str, u64>,
}

/// What a layout that may be tidy can be answered to: yes, and what is untidy.
const OF_TIDY: [u32; 5] = [0, 120, 121, 122, 123];

/// Counts of layouts that were asked whether they are tidy.
#[derive(Default)]
struct Tidy {
    /// How often each number was agreed on, 0 for yes.
    hits: BTreeMap<u32, u64>,
    /// How many of them the crate wrote again.
    by_crate: u64,
}

/// What storing a start in a house file, and loading one, is to be answered to often enough.
const OF_STORED: [u32; 4] = [0, 1, 112, 134];
const OF_LOADED: [u32; 8] = [0, 1, 2, 130, 131, 132, 133, 134];

/// Counts of house files: how often each number was agreed on, 0 for accepted.
#[derive(Default)]
struct House {
    stored: BTreeMap<u32, u64>,
    loaded: BTreeMap<u32, u64>,
}

/// Counts of a run.
#[derive(Default)]
pub struct Tally {
    counts: BTreeMap<Beside, Counts>,
    tidy: Tidy,
    house: House,
    unexplained: Vec<String>,
}

impl Tally {
    pub fn add(&mut self, beside: Beside, what: &'static str, answer: &Answer, kind: Kind) {
        let counts = self.counts.entry(beside).or_default();
        *counts.inputs.entry(what).or_default() += 1;
        *counts.answers.entry(told(answer)).or_default() += 1;
        counts.placed += matches!(answer, Answer::Refused(_, Some(_))) as u64;
        match kind {
            Kind::Agreed => {
                counts.agreed += 1;
                if let Answer::Refused(number, _) = answer {
                    *counts.hits.entry(*number).or_default() += 1;
                }
            }
            Kind::Listed(why) => *counts.listed.entry(why).or_default() += 1,
            Kind::Apart(why) => *counts.apart.entry(why).or_default() += 1,
            Kind::Unexplained(text) => self.unexplained(what, text),
        }
    }

    /// Counts a layout that was asked whether it is tidy: the number that was agreed on, and whether the crate wrote it again.
    pub fn add_tidy(&mut self, agreed: Result<(u32, bool), String>) {
        match agreed {
            Ok((number, by_crate)) => {
                *self.tidy.hits.entry(number).or_default() += 1;
                self.tidy.by_crate += by_crate as u64;
            }
            Err(text) => self.unexplained("layouts that may be tidy", text),
        }
    }

    /// Counts a start that was to be stored in a house file, by the number that was agreed on.
    pub fn add_stored(&mut self, agreed: Result<u32, String>) {
        match agreed {
            Ok(number) => *self.house.stored.entry(number).or_default() += 1,
            Err(text) => self.unexplained("starts that are stored", text),
        }
    }

    /// Counts a house file that was to be loaded, by the number that was agreed on.
    pub fn add_loaded(&mut self, agreed: Result<u32, String>) {
        match agreed {
            Ok(number) => *self.house.loaded.entry(number).or_default() += 1,
            Err(text) => self.unexplained("house files", text),
        }
    }

    fn unexplained(&mut self, what: &str, text: String) {
        if self.unexplained.len() < 20 {
            eprintln!("unexplained, {what}: {text}");
        }
        self.unexplained.push(text);
    }

    /// Prints the counts. True where nothing is unexplained and every number was agreed on often enough.
    pub fn print(&self) -> bool {
        let inputs = self.counts.values().map(Counts::total).sum::<u64>();
        println!("inputs {inputs}");
        let (mut enough, none) = (true, Counts::default());
        for beside in Beside::ALL {
            let counts = self.counts.get(&beside).unwrap_or(&none);
            let (name, numbers) = beside.told();
            println!("{name} {}", counts.total());
            counts.print(beside == Beside::Crate);
            enough &= floor(&counts.hits, &numbers, least(inputs));
        }
        enough &= self.tidy.print(least(inputs)) & self.house.print(least(inputs));
        println!("unexplained {}", self.unexplained.len());
        enough && self.unexplained.is_empty()
    }
}

impl Counts {
    fn total(&self) -> u64 {
        self.inputs.values().sum()
    }

    fn print(&self, of_crate: bool) {
        let tell = |what: &str, counts: Vec<(&str, u64)>| {
            println!("  {what} {}", counts.iter().map(|(_, count)| count).sum::<u64>());
            for (why, count) in counts {
                println!("    {why} {count}");
            }
        };
        tell("inputs", self.inputs.iter().map(|(&what, &count)| (what, count)).collect());
        println!("  agreed {}", self.agreed);
        println!("  refusals held to their place {}", self.placed);
        if of_crate {
            tell("listed differences", self.listed.iter().map(|(why, &count)| (why.as_str(), count)).collect());
            tell("counted apart", self.apart.iter().map(|(&why, &count)| (why, count)).collect());
            println!("    hash, compiled rtypes, required fields 0 (the text at hand lacks them)");
        }
        let answers: Vec<String> = self.answers.iter().map(|(answer, count)| format!("{answer}:{count}")).collect();
        println!("  answers {}", answers.join(" "));
    }
}

impl Tidy {
    /// Prints the counts. True where yes and each untidy thing were agreed on often enough.
    fn print(&self, most: u64) -> bool {
        println!("asked whether they are tidy {}", self.hits.values().sum::<u64>());
        let answers: Vec<String> = self.hits.iter().map(|(number, count)| format!("{number}:{count}")).collect();
        println!("  answers, 0 for yes {}", answers.join(" "));
        println!("  written again by the crate, the same bytes exactly where tidy, and tidy then {}", self.by_crate);
        floor(&self.hits, &OF_TIDY, most)
    }
}

impl House {
    /// Prints the counts. True where each number was agreed on often enough.
    fn print(&self, most: u64) -> bool {
        let parts = [
            ("stored in house files", &self.stored, &OF_STORED[..]),
            ("loaded from house files", &self.loaded, &OF_LOADED),
        ];
        parts.into_iter().fold(true, |enough, (what, hits, numbers)| {
            println!("{what} {}", hits.values().sum::<u64>());
            let answers: Vec<String> = hits.iter().map(|(number, count)| format!("{number}:{count}")).collect();
            println!("  answers, 0 for accepted {}", answers.join(" "));
            floor(hits, numbers, most) & enough
        })
    }
}

/// Whether each of the numbers was agreed on so often. Prints the one that was least.
fn floor(hits: &BTreeMap<u32, u64>, all: &[u32], floor: u64) -> bool {
    let hits = |number: u32| hits.get(&number).copied().unwrap_or(0);
    for &number in all.iter().filter(|&&number| hits(number) < floor) {
        eprintln!("too seldom: {number} was agreed on {} times, and the floor is {floor}", hits(number));
    }
    let least = all.iter().copied().min_by_key(|&number| hits(number)).expect("some numbers");
    println!(
        "  each of {} numbers agreed on {} times or more ({least} least; the floor is {floor})",
        all.len(),
        hits(least)
    );
    hits(least) >= floor
}

pub fn told(answer: &Answer) -> String {
    match answer {
        Answer::Needs(_) => "needs".into(),
        Answer::Refused(number, _) => number.to_string(),
        Answer::Accepted(_) => "accepted".into(),
        Answer::CheckSize => "check_size".into(),
        Answer::Odd(text) => format!("odd ({text})"),
    }
}
