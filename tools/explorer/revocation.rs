//! Revocations (ULFM, MPI_Comm_revoke).

use crate::items::{Answer, Item, Refusal};
use crate::job::{Context, Place};
use crate::rank::Rank;

impl Rank {
    pub fn is_revoked(&self, context: Context) -> bool {
        self.revoked.contains(&context)
    }

    /// Revokes a communicator that was made here. Again it changes nothing.
    pub fn revoke(&mut self, comm: Context) -> Result<Answer, Refusal> {
        self.group(comm)?;
        self.take_revocation(comm);
        Ok(Answer::Revoked)
    }

    /// Marks a context the first time: its waiting receives are over, its kept letters are dropped, and each other rank of
    /// the world that isn't known to have failed is told.
    pub fn take_revocation(&mut self, context: Context) {
        if self.is_revoked(context) {
            return;
        }
        self.revoked.insert(context);
        self.end_waiting(Refusal::Revoked, |pattern| pattern.context == context);
        self.kept.retain(|letter| letter.context != context);
        let others = (0..self.outboxes.len() as Place)
            .filter(|rank| *rank != self.me && !self.knows(*rank))
            .collect::<Vec<_>>();
        self.owe(others.into_iter(), Item::Revoke(context));
    }
}
