//! Deaths: a rank that runs may die at any moment, whatever it is doing. It gives no answer then.

use crate::job::{Job, Place};
use crate::world::World;

impl World {
    /// Whether a rank may die now.
    pub fn may_die(&self, job: &Job, rank: usize) -> bool {
        let is_named = job.dying.is_empty() || job.dying.contains(&rank);
        !self.ranks[rank].stopped && is_named && self.dead < job.deaths
    }

    /// A rank dies. As by a stop, what it owes is lost, and the others get its notice. Which of its steps had no answer is nothing to
    /// anyone from now on.
    pub fn die(&mut self, job: &Job, rank: Place) {
        self.dead += 1;
        self.ranks[rank as usize].change(|at| {
            at.stop();
            at.is_open = false;
            at.answered = job.steps[rank as usize].len();
        });
    }
}
