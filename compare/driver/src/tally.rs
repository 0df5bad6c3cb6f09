//! What was compared, what was left out and why, and the smallest case of each difference.

use oracle::{Refusal, Sliced};
use std::collections::BTreeMap;

#[derive(Default)]
pub struct Tally {
    phases: Vec<(String, u64)>,
    /// Answers to header k and option k.
    asked: u64,
    /// Replies by stop, and refusals by number.
    replies: BTreeMap<String, u64>,
    /// Frames compared with the shown files too, and those outside that comparison, by reason.
    beside: u64,
    excluded: BTreeMap<String, u64>,
    /// By question: how often, and the shortest input with both answers.
    differences: BTreeMap<String, (u64, Difference)>,
}

struct Difference {
    bytes: Vec<u8>,
    ours: String,
    theirs: String,
}

impl Tally {
    pub fn begin(&mut self, phase: &str) {
        self.phases.push((phase.to_string(), 0));
    }

    pub fn case(&mut self) {
        if let Some((_, cases)) = self.phases.last_mut() {
            *cases += 1;
        }
    }

    pub fn reply(&mut self, reply: &Result<Sliced, Refusal>) {
        self.case();
        let class = match reply {
            Ok(sliced) => format!("stop {}", sliced.stop.number()),
            Err(refusal) => format!("refused {}", refusal.number()),
        };
        *self.replies.entry(class).or_default() += 1;
    }

    pub fn asked(&mut self) {
        self.asked += 1;
    }

    #[cfg(shown)]
    pub fn beside(&mut self) {
        self.beside += 1;
    }

    #[cfg(shown)]
    pub fn excluded(&mut self, reason: &str) {
        *self.excluded.entry(reason.to_string()).or_default() += 1;
    }

    pub fn differs(&mut self, question: &str, bytes: &[u8], ours: String, theirs: String) {
        let found = Difference {
            bytes: bytes.to_vec(),
            ours,
            theirs,
        };
        match self.differences.get_mut(question) {
            None => {
                self.differences.insert(question.to_string(), (1, found));
            }
            Some((times, smallest)) => {
                *times += 1;
                if bytes.len() < smallest.bytes.len() {
                    *smallest = found;
                }
            }
        }
    }

    /// Says whether nothing differed.
    pub fn report(&self, seed: u64) -> bool {
        println!("seed {seed}");
        for (phase, cases) in &self.phases {
            println!("{cases:>10}  {phase}");
        }
        for (class, times) in &self.replies {
            println!("{times:>10}  {class}");
        }
        println!("{:>10}  answers to header k and option k", self.asked);
        println!(
            "{:>10}  frames compared with the shown files too",
            self.beside
        );
        for (reason, times) in &self.excluded {
            println!("{times:>10}  outside that comparison: {reason}");
        }
        for (question, (times, smallest)) in &self.differences {
            println!("DIFFERENT {times} times: {question}");
            println!("  bytes  {:02x?}", smallest.bytes);
            println!("  ours   {}", smallest.ours);
            println!("  theirs {}", smallest.theirs);
        }
        let cases: u64 = self.phases.iter().map(|(_, cases)| cases).sum();
        let times: u64 = self.differences.values().map(|(times, _)| times).sum();
        println!("{cases} compared, {times} different");
        self.differences.is_empty()
    }
}
