//! Matched probes, receives of what they found, and cancelled receives (MPI 4.0, 3.8.2 to 3.8.4).

use crate::items::{Answer, Refusal};
use crate::job::{Job, Step};
use crate::rank::{Pattern, Rank, Source};

impl Rank {
    /// What a probe finds: the place of the earliest kept letter that it admits. Nothing where none is there yet. It is refused
    /// 1, 6, 2 and 5, in this order; 5 where it names a rank that is known to have failed, and there is none.
    fn find(&self, step: Step) -> Result<Option<(Pattern, usize)>, Refusal> {
        let Step::Probe { from, tag, comm } = step else { unreachable!() };
        let pattern = self.pattern(comm, from, tag, 0)?;
        match (self.earliest_for(&pattern), pattern.source) {
            (Some(at), _) => Ok(Some((pattern, at))),
            (None, Source::One(rank)) if self.knows(rank) => Err(Refusal::ProcFailed),
            _ => Ok(None),
        }
    }

    /// Whether a poll of a probe would be answered now.
    pub fn has_answer(&self, step: Step) -> bool {
        self.find(step) != Ok(None)
    }

    /// One poll of a probe. From then on no other receive can get what it found, and no revocation drops it.
    pub fn probe(&mut self, job: &Job, step: Step) -> Option<Answer> {
        let (pattern, at) = match self.find(step) {
            Ok(found) => found?,
            Err(refusal) => return Some(Answer::Refused(refusal)),
        };
        let letter = self.kept.remove(at);
        self.messages.insert(self.answered as u16, (pattern, letter));
        let source = self.position_in(pattern.context, letter.source);
        Some(Answer::Found(source, letter.tag, job.length(letter.body)))
    }

    /// Receives what a probe found, once.
    pub fn mrecv(&mut self, job: &Job, req: u16, room: u16) -> Result<Answer, Refusal> {
        let (pattern, letter) = self.messages.remove(&req).ok_or(Refusal::NoRequest)?;
        Ok(self.told(job, &Pattern { room, ..pattern }, letter))
    }

    /// Takes a waiting receive back. One that doesn't wait any more is told as by a wait.
    pub fn cancel(&mut self, job: &Job, req: u16) -> Result<Answer, Refusal> {
        let (pattern, fate) = self.requests.remove(&req).ok_or(Refusal::NoRequest)?;
        Ok(self.ended(job, &pattern, fate).unwrap_or(Answer::Cancelled))
    }
}
