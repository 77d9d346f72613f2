//! Conditions of steps. Whether a step is played depends on earlier answers of its rank alone, and a skip changes nothing but what
//! is next. So a rank skips right behind the answer before, and its next step is always one that it plays.

use crate::items::Answer;
use crate::job::{Comm, Context, Job, Step};
use crate::rank::Rank;
use crate::words::answer_words;
use crate::world::World;

/// What a step may ask for: that the answer of an earlier step of its rank begins with one of these words, or with none of them.
pub struct Condition {
    pub step: usize,
    pub is_not: bool,
    pub words: Vec<String>,
}

/// Conditions that have to hold together. One alternative of a step has to hold.
pub type Alternative = Vec<Condition>;

/// Whether an answer begins, by whole words, with these.
pub fn begins(answer: &str, words: &str) -> bool {
    answer.strip_prefix(words).is_some_and(|rest| rest.is_empty() || rest.starts_with(' '))
}

impl Condition {
    fn holds_of(&self, answer: &str) -> bool {
        self.words.iter().any(|words| begins(answer, words)) != self.is_not
    }
}

impl Rank {
    /// The next step has its answer. Unless it stopped the rank, the steps behind it are skipped up to one that is played.
    pub fn go_on(&mut self, job: &Job, answer: &Answer) {
        self.pass(job, answer);
        while !self.stopped && self.answered < self.steps(job).len() && !self.is_chosen(job, self.answered) {
            self.pass(job, &Answer::Skipped);
        }
    }

    /// Goes behind the next step. Of its answer is kept which later steps are played because of it, and which of their alternatives have
    /// a condition that doesn't hold.
    fn pass(&mut self, job: &Job, answer: &Answer) {
        let passed = self.answered;
        let words = answer_words(job, answer);
        for (later, alternatives) in self.alternatives(job).iter().enumerate().skip(passed + 1) {
            for (number, alternative) in alternatives.iter().enumerate() {
                if alternative.iter().any(|condition| condition.step == passed && !condition.holds_of(&words)) {
                    self.missed.insert((later, number));
                }
                let is_known = alternative.iter().all(|condition| condition.step <= passed);
                if is_known && !self.missed.contains(&(later, number)) {
                    self.chosen.insert(later);
                }
            }
        }
        if job.tells_ends {
            self.told.push(answer.clone());
        }
        self.chosen.remove(&passed);
        let chosen = &self.chosen;
        self.missed.retain(|(step, _)| *step > passed && !chosen.contains(step));
        self.answered += 1;
        self.keep_made(job, answer);
    }

    /// Keeps the communicator that the step was answered which was passed, where a step that is ahead names it, and what earlier steps were answered as
    /// long as one does.
    fn keep_made(&mut self, job: &Job, answer: &Answer) {
        if let Answer::Made(made) | Answer::Shrunk(made, ..) = answer {
            self.made.insert(self.answered - 1, *made);
        }
        let ahead = &job.steps[self.me as usize][self.answered..];
        self.made.retain(|number, _| ahead.iter().any(|step| step.names(*number)));
    }

    /// A step as it is played now. Where the step that it names was answered no communicator, it is on one that nobody ever makes.
    fn played(&self, step: &Step<Comm>) -> Step {
        step.on(|comm| match comm {
            Comm::Number(number) => number,
            Comm::Made { by, .. } => self.made.get(&(by as usize)).copied().unwrap_or(Context::MAX),
        })
    }

    /// Whether a step that is ahead will be played, whatever is answered till then, unless the rank stops or hangs before.
    fn is_chosen(&self, job: &Job, step: usize) -> bool {
        self.alternatives(job)[step].is_empty() || self.chosen.contains(&step)
    }

    /// Whether a step that is ahead may be played: some alternative of it holds, or may hold by answers that aren't given.
    fn may_play(&self, job: &Job, step: usize) -> bool {
        let is_open = |number: usize, alternative: &Alternative| {
            !self.missed.contains(&(step, number)) && alternative.iter().any(|condition| condition.step >= self.answered)
        };
        self.is_chosen(job, step) || self.alternatives(job)[step].iter().enumerate().any(|(number, one)| is_open(number, one))
    }

    fn steps<'a>(&self, job: &'a Job) -> &'a [Step<Comm>] {
        &job.steps[self.me as usize]
    }

    fn alternatives<'a>(&self, job: &'a Job) -> &'a [Vec<Alternative>] {
        &job.alternatives[self.me as usize]
    }
}

impl World {
    /// The next step of a rank that runs, if it has one left, as it is played now.
    pub fn next_step(&self, job: &Job, rank: usize) -> Option<Step> {
        let at = &self.ranks[rank];
        if at.stopped {
            return None;
        }
        at.steps(job).get(at.answered).map(|step| at.played(step))
    }

    /// The steps of a rank that runs which aren't answered and may be played: up to the first `stop` that surely is, and none that
    /// surely is skipped. Later on they are some of those of now, whatever happens.
    pub fn steps_ahead<'a>(&'a self, job: &'a Job, rank: usize) -> impl Iterator<Item = &'a Step<Comm>> {
        let at = &*self.ranks[rank];
        let steps = at.steps(job);
        let open = if at.stopped { steps.len()..steps.len() } else { at.answered..steps.len() };
        let stops = |number: &usize| steps[*number] == Step::Stop && at.is_chosen(job, *number);
        let last = open.clone().find(stops).map_or(open.end, |stop| stop + 1);
        (open.start..last).filter(|number| at.may_play(job, *number)).map(|number| &steps[number])
    }

    /// Whether no step of a rank is played any more.
    pub fn has_ended(&self, job: &Job, rank: usize) -> bool {
        self.steps_ahead(job, rank).next().is_none()
    }
}
