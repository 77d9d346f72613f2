//! Rows of answers: which of them come together, all answers of one row in one schedule.

use crate::job::Job;
use crate::reacting::begins;
use crate::words::answer_words;
use crate::world::{Given, World};
use std::collections::BTreeSet;

/// An answer that a row asks for: of a step of this rank, and how it begins.
pub struct Goal {
    pub rank: usize,
    pub step: usize,
    pub words: String,
}

/// Rows of goals, each with its number among all of them, and the rows that some schedule has whole.
#[derive(Default)]
pub struct Rows {
    rows: Vec<Vec<(usize, Goal)>>,
    pub came: BTreeSet<usize>,
}

impl Rows {
    /// Puts a row, of goals as `0.3 agreed 1;1.4 skipped`, behind the others. There are 128 goals at most.
    pub fn add(&mut self, text: &str) -> Option<()> {
        let before = self.rows.iter().map(Vec::len).sum();
        let goals: Option<Vec<Goal>> = text.split(';').map(goal).collect();
        let row: Vec<_> = (before..).zip(goals?).collect();
        self.rows.push(row);
        (self.rows.iter().map(Vec::len).sum::<usize>() <= 128).then_some(())
    }

    pub fn len(&self) -> usize {
        self.rows.len()
    }

    /// The goals that these answers meet, a bit each.
    pub fn met(&self, job: &Job, given: &[Given]) -> u128 {
        given.iter().fold(0, |met, (rank, step, answer)| met | self.met_by(*rank as usize, *step, &answer_words(job, answer)))
    }

    fn met_by(&self, rank: usize, step: usize, words: &str) -> u128 {
        let goals = self.rows.iter().flatten();
        let met = goals.filter(|(_, goal)| goal.rank == rank && goal.step == step && begins(words, &goal.words));
        met.fold(0, |bits, (number, _)| bits | 1 << number)
    }

    /// Notes the rows that a world has whole. At rest a step that stands open is `unfinished`.
    pub fn note(&mut self, job: &Job, world: &World, is_at_rest: bool) {
        let open = (0..job.ranks()).filter(|rank| is_at_rest && world.next_step(job, *rank).is_some());
        let met = open.fold(world.met, |met, rank| met | self.met_by(rank, world.ranks[rank].answered, "unfinished"));
        let whole = self.rows.iter().enumerate().filter(|(_, row)| row.iter().all(|(number, _)| met >> number & 1 == 1));
        self.came.extend(whole.map(|(number, _)| number));
    }
}

fn goal(text: &str) -> Option<Goal> {
    let (place, words) = text.split_once(' ')?;
    let (rank, step) = place.split_once('.')?;
    Some(Goal { rank: rank.parse().ok()?, step: step.parse().ok()?, words: words.to_string() })
}
