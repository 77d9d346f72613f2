//! What may still come to a rank. Where this says no, it can't come in any schedule.

use crate::items::Item;
use crate::job::{Comm, Context, Job, Place, Step};
use crate::rank::{Fate, Source};
use crate::topics::{Purpose, Topic};
use crate::world::World;
use std::collections::BTreeSet;

/// Of which contexts a revocation may still come.
pub struct Revocations {
    /// Of any, since a step that may be played revokes what another one is answered.
    any: bool,
    contexts: BTreeSet<Context>,
}

impl Revocations {
    pub fn has(&self, context: Context) -> bool {
        self.any || self.contexts.contains(&context)
    }

    /// Whether they may be of none but these.
    pub fn are_among(&self, contexts: &BTreeSet<Context>) -> bool {
        !self.any && self.contexts.is_subset(contexts)
    }
}

impl World {
    /// Whether a rank runs and may stop, or die. A stop that may be skipped counts too.
    pub fn has_stop_ahead(&self, job: &Job, rank: usize) -> bool {
        self.may_die(job, rank) || self.steps_ahead(job, rank).any(|step| *step == Step::Stop)
    }

    /// Whether a rank runs now and will never stop.
    pub fn runs_on(&self, job: &Job, rank: usize) -> bool {
        !self.ranks[rank].stopped && !self.has_stop_ahead(job, rank)
    }

    /// Whether no rank stopped or will stop.
    pub fn all_run_on(&self, job: &Job) -> bool {
        (0..job.ranks()).all(|rank| self.runs_on(job, rank))
    }

    /// Whether a rank may still learn that another one stopped.
    pub fn may_learn_of(&self, job: &Job, rank: usize, other: Place) -> bool {
        let is_other = other as usize != rank;
        is_other && !self.ranks[rank].knows(other) && !self.runs_on(job, other as usize)
    }

    /// Whether a context may still become revoked at a rank: a revocation of it is on its way to some rank, or may be called
    /// for.
    pub fn may_be_revoked(&self, job: &Job, rank: usize, context: Context) -> bool {
        !self.ranks[rank].is_revoked(context) && self.revocations_ahead(job).has(context)
    }

    /// Whether any context may still become revoked at a rank.
    pub fn may_be_revoked_anywhere(&self, job: &Job, rank: usize) -> bool {
        !self.revocations_ahead(job).are_among(&self.ranks[rank].revoked)
    }

    /// The contexts of which a revocation is on its way, or a call of it ahead.
    pub fn revocations_ahead(&self, job: &Job) -> Revocations {
        let mut found = Revocations { any: false, contexts: BTreeSet::new() };
        for rank in 0..job.ranks() {
            for step in self.steps_ahead(job, rank) {
                match step {
                    Step::Revoke { comm: Comm::Number(context) } => _ = found.contexts.insert(*context),
                    Step::Revoke { comm: Comm::Made { .. } } => found.any = true,
                    _ => {}
                }
            }
            let owed = self.ranks[rank].outboxes.iter().flatten();
            for item in owed.chain(self.inboxes[rank].iter().map(|(_, item)| item)) {
                if let Item::Revoke(context) = item {
                    found.contexts.insert(*context);
                }
            }
        }
        found
    }

    /// Whether a receive from any source waits in a context at a rank, or may still be posted there, or such a probe be made.
    pub fn may_receive_from_any(&self, job: &Job, rank: usize, context: Context) -> bool {
        let waits = self.ranks[rank].requests.values().any(|(pattern, fate)| {
            *fate == Fate::Waiting && pattern.context == context && matches!(pattern.source, Source::Any(_))
        });
        waits || self.steps_ahead(job, rank).any(|step| step.asks_any(context))
    }

    /// Whether a rank may still enter an agreement, or ask what was decided there. It is that of the next step that agrees on
    /// the communicator, or one of those behind. About shrinks this says nothing: their entries are asked for again and again.
    pub fn may_ask_about(&self, job: &Job, rank: usize, topic: Topic) -> bool {
        let Purpose::Agree(round) = topic.purpose else { return true };
        let is_one = |step: &&Step<Comm>| matches!(step, Step::Agree { comm, .. } if comm.may_be(topic.context));
        let ahead = self.steps_ahead(job, rank).filter(is_one).count();
        let next = self.ranks[rank].agreed_on(topic.context);
        (next as usize..next as usize + ahead).contains(&(round as usize))
    }

    /// Whether a rank may still cancel a receive.
    pub fn may_cancel(&self, job: &Job, rank: usize) -> bool {
        self.steps_ahead(job, rank).any(|step| matches!(step, Step::Cancel { .. }))
    }
}
