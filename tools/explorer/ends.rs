//! Ends of schedules, with the answers of all ranks together.

use crate::items::Answer;
use crate::job::Job;
use crate::words::answer_words;
use crate::world::World;

/// The answers of each rank at an end, and behind them whether a step of it is open, or it died.
pub fn end_words(job: &Job, world: &World) -> String {
    let ranks = (0..job.ranks()).map(|rank| {
        let at = &world.ranks[rank];
        let mut words: Vec<String> = at.told.iter().map(|answer| answer_words(job, answer)).collect();
        if world.next_step(job, rank).is_some() {
            words.push("open".to_string());
        } else if at.stopped && at.told.last() != Some(&Answer::Stopped) {
            words.push("died".to_string());
        }
        words.join(" | ")
    });
    ranks.collect::<Vec<_>>().join(" ; ")
}
