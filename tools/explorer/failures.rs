//! Failures: notices, `failed`, `ack`, and receives that pend (ULFM).

use crate::group::Group;
use crate::items::{Answer, Item, Refusal};
use crate::job::{Context, Place};
use crate::rank::{Pattern, Rank, Source};

impl Rank {
    /// Whether a rank is known to have failed.
    pub fn knows(&self, rank: Place) -> bool {
        self.known.contains(&rank)
    }

    /// The ranks that are known to have failed.
    pub fn known_set(&self) -> Group {
        self.known.iter().copied().collect()
    }

    /// Takes the notice of a rank that stopped: the waiting receives that name it are over.
    pub fn take_notice(&mut self, rank: Place) {
        if !self.knows(rank) {
            self.known.push(rank);
        }
        self.end_waiting(Refusal::ProcFailed, |pattern| pattern.source == Source::One(rank));
    }

    /// The members of a group that are known to have failed, in the order of their notices, by their positions.
    fn known_in(&self, group: Group) -> Vec<Place> {
        self.known.iter().filter_map(|rank| group.position_of(*rank)).collect()
    }

    pub fn failed(&self, comm: Context) -> Result<Answer, Refusal> {
        Ok(Answer::Ranks(self.known_in(self.group(comm)?)))
    }

    /// Acknowledges the first `count` failures of a group, cut to those that are known, and never fewer than before.
    pub fn ack(&mut self, count: u8, comm: Context) -> Result<Answer, Refusal> {
        let known = self.known_in(self.group(comm)?).len() as u8;
        let before = self.acknowledged.get(&comm).copied().unwrap_or(0);
        let total = before.max(count.min(known));
        if total > before {
            self.acknowledged.insert(comm, total);
        }
        Ok(Answer::Acked(total))
    }

    /// Whether a waiting receive pends: it is from any source, and more failures of its group are known than acknowledged.
    pub fn pends(&self, pattern: &Pattern) -> bool {
        let Source::Any(group) = pattern.source else { return false };
        let acknowledged = self.acknowledged.get(&pattern.context).copied().unwrap_or(0);
        self.known_in(group).len() > acknowledged as usize
    }

    /// The rank does nothing from now on. What it owed is dropped, and a notice is left for each other rank.
    pub fn stop(&mut self) -> Answer {
        self.stopped = true;
        for outbox in &mut self.outboxes {
            outbox.clear();
        }
        let others = (0..self.outboxes.len() as Place).filter(|rank| *rank != self.me).collect::<Vec<_>>();
        self.owe(others.into_iter(), Item::Gone);
        Answer::Stopped
    }
}
