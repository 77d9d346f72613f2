//! The polls of a step, by its kind.

use crate::deciding::Decisions;
use crate::items::{Answer, Item, Refusal};
use crate::job::{Job, Place, Step};
use crate::rank::Rank;
use crate::topics::Topic;

/// What a poll does to its step.
#[derive(Clone, Debug, PartialEq, Eq, Hash)]
pub enum Poll {
    Answered(Answer),
    /// A shrink or an agreement was entered, and stays open.
    Entered,
    /// The step stays open, and nothing changed.
    Open,
}

impl Rank {
    /// One poll of the next step.
    pub fn poll(&mut self, job: &Job, step: Step, decisions: &mut Decisions) -> Poll {
        let poll = match step {
            Step::Wait { req } => self.wait(job, req).map_or(Poll::Open, Poll::Answered),
            Step::Probe { .. } => self.probe(job, step).map_or(Poll::Open, Poll::Answered),
            Step::Shrink { comm, again } => self.poll_topic(self.shrink_on(comm), None, again, decisions),
            Step::Agree { flag, comm } => self.poll_topic(self.agreement_on(comm), Some(flag), false, decisions),
            _ => Poll::Answered(self.call(job, step).unwrap_or_else(Answer::Refused)),
        };
        self.is_open = poll == Poll::Entered;
        if let Poll::Answered(answer) = &poll {
            self.go_on(job, answer);
        }
        poll
    }

    /// One poll of a shrink or an agreement. The first one enters, and the later ones ask for the decision.
    fn poll_topic(&mut self, topic: Topic, flag: Option<u32>, again: bool, decisions: &mut Decisions) -> Poll {
        if self.is_open {
            return self.decide(topic, decisions).map_or(Poll::Open, Poll::Answered);
        }
        match self.enter(topic, flag, again) {
            Ok(()) => Poll::Entered,
            Err(refusal) => Poll::Answered(Answer::Refused(refusal)),
        }
    }

    /// A call that its first poll answers.
    fn call(&mut self, job: &Job, step: Step) -> Result<Answer, Refusal> {
        match step {
            Step::Send { .. } => self.send(job, step),
            Step::Recv { .. } => self.post(step),
            Step::Mrecv { req, room } => self.mrecv(job, req, room),
            Step::Cancel { req } => self.cancel(job, req),
            Step::Failed { comm } => self.failed(comm),
            Step::Ack { count, comm } => self.ack(count, comm),
            Step::Revoke { comm } => self.revoke(comm),
            Step::Dup { comm, again } => self.dup(comm, again),
            Step::Note { .. } => Ok(Answer::Noted),
            Step::Stop => Ok(self.stop()),
            Step::Wait { .. } | Step::Probe { .. } | Step::Shrink { .. } | Step::Agree { .. } => {
                unreachable!()
            }
        }
    }

    /// Takes an item that came from a rank.
    pub fn take(&mut self, source: Place, item: Item) {
        match item {
            Item::Letter(letter) => self.take_letter(letter),
            Item::Gone => self.take_notice(source),
            Item::Revoke(context) => self.take_revocation(context),
            Item::Enter(topic, brought) => self.take_entry(source, topic, brought),
        }
    }
}
