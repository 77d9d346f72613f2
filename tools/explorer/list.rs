//! The list of all outcomes, as text.

use crate::search::Search;
use crate::words::{answer_words, step_words};

impl Search<'_> {
    /// A line for each step of each rank, in the order of the trace, then one for each row and each end, and a last one that counts.
    pub fn list(&self) -> String {
        let mut lines = vec![];
        for (rank, steps) in self.job.steps.iter().enumerate() {
            for (number, step) in steps.iter().enumerate() {
                lines.push(format!("{rank} {number} {}: {}", step_words(self.job, step), self.outcomes(rank, number)));
            }
        }
        for row in 0..self.rows.len() {
            let comes = if self.rows.came.contains(&row) { "comes" } else { "never comes" };
            lines.push(format!("row {row}: {comes}"));
        }
        lines.extend(self.ends.iter().map(|end| format!("end: {end}")));
        lines.push(self.count());
        lines.join("\n")
    }

    /// The last line.
    pub fn count(&self) -> String {
        let all = if self.never_ending.is_empty() {
            "every step ends in every schedule"
        } else {
            "some step never ends"
        };
        format!("{} states, {all}", self.states)
    }

    /// The answers of a step in rising order of their bytes, and then that it may never end.
    fn outcomes(&self, rank: usize, number: usize) -> String {
        let given = self.answers.get(&(rank, number)).into_iter().flatten();
        let mut words: Vec<String> = given.map(|answer| answer_words(self.job, answer)).collect();
        words.sort();
        if self.never_ending.contains(&(rank, number)) {
            words.push("never ends".to_string());
        }
        if words.is_empty() {
            words.push("not reached".to_string());
        }
        words.join(" | ")
    }
}
