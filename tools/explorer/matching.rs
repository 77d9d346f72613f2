//! Sends, receives and their waits (MPI 4.0, chapter 3).

use crate::items::{Answer, Item, Letter, Refusal};
use crate::job::{Context, Job, Place, Step};
use crate::rank::{Fate, Pattern, Rank, Source};

impl Pattern {
    /// Whether a receive admits a letter. The room plays no part.
    pub fn admits(&self, letter: &Letter) -> bool {
        let is_source = match self.source {
            Source::One(rank) => rank == letter.source,
            Source::Any(group) => group.has(letter.source),
        };
        self.context == letter.context && is_source && self.tag.map_or(true, |tag| tag == letter.tag)
    }
}

impl Rank {
    /// A send is complete in its call. It is refused 1, 6, 2, 4 and 5, in this order.
    pub fn send(&mut self, job: &Job, step: Step) -> Result<Answer, Refusal> {
        let Step::Send { to, tag, body, comm } = step else { unreachable!() };
        let group = self.unrevoked_group(comm)?;
        let rank = group.at(to).ok_or(Refusal::BadRank)?;
        if job.length(body) > 1024 {
            return Err(Refusal::TooLong);
        }
        if self.knows(rank) {
            return Err(Refusal::ProcFailed);
        }
        let letter = Letter { context: comm, source: self.me, tag, body };
        self.owe([rank].into_iter(), Item::Letter(letter));
        Ok(Answer::Sent)
    }

    /// Posts a receive. It gets the earliest kept letter that it admits. Where there is none and it names a rank that is
    /// known to have failed, it is over at once; else it waits.
    pub fn post(&mut self, step: Step) -> Result<Answer, Refusal> {
        let Step::Recv { from, tag, room, comm } = step else { unreachable!() };
        let pattern = self.pattern(comm, from, tag, room)?;
        let fate = match (self.earliest_for(&pattern), pattern.source) {
            (Some(at), _) => Fate::Paired(self.kept.remove(at)),
            (None, Source::One(rank)) if self.knows(rank) => Fate::Over(Refusal::ProcFailed),
            _ => Fate::Waiting,
        };
        self.requests.insert(self.answered as u16, (pattern, fate));
        Ok(Answer::Posted)
    }

    /// What a receive or a probe asks for. It is refused 1, 6 and 2, in this order.
    pub fn pattern(
        &self,
        comm: Context,
        from: Option<Place>,
        tag: Option<u16>,
        room: u16,
    ) -> Result<Pattern, Refusal> {
        let group = self.unrevoked_group(comm)?;
        let source = match from {
            Some(position) => Source::One(group.at(position).ok_or(Refusal::BadRank)?),
            None => Source::Any(group),
        };
        Ok(Pattern { context: comm, source, tag, room })
    }

    /// Where the earliest kept letter stands that a pattern admits.
    pub fn earliest_for(&self, pattern: &Pattern) -> Option<usize> {
        self.kept.iter().position(|letter| pattern.admits(letter))
    }

    /// A letter that came goes to the earliest waiting receive that admits it, else it is kept. On a revoked context it is
    /// dropped.
    pub fn take_letter(&mut self, letter: Letter) {
        if self.is_revoked(letter.context) {
            return;
        }
        let mut requests = self.requests.values_mut();
        match requests.find(|(pattern, fate)| *fate == Fate::Waiting && pattern.admits(&letter)) {
            Some((_, fate)) => *fate = Fate::Paired(letter),
            None => self.kept.push(letter),
        }
    }

    /// The waiting receives to which this applies are over.
    pub fn end_waiting(&mut self, reason: Refusal, applies: impl Fn(&Pattern) -> bool) {
        for (pattern, fate) in self.requests.values_mut() {
            if *fate == Fate::Waiting && applies(pattern) {
                *fate = Fate::Over(reason);
            }
        }
    }

    /// Tests a request. Nothing where its receive goes on waiting; told done or over, it is released.
    pub fn wait(&mut self, job: &Job, req: u16) -> Option<Answer> {
        let Some((pattern, fate)) = self.requests.get(&req).copied() else {
            return Some(Answer::Refused(Refusal::NoRequest));
        };
        let Some(answer) = self.ended(job, &pattern, fate) else {
            return self.pends(&pattern).then_some(Answer::Pending);
        };
        self.requests.remove(&req);
        Some(answer)
    }

    /// What a receive tells that doesn't wait any more.
    pub fn ended(&self, job: &Job, pattern: &Pattern, fate: Fate) -> Option<Answer> {
        match fate {
            Fate::Waiting => None,
            Fate::Over(reason) => Some(Answer::Over(reason)),
            Fate::Paired(letter) => Some(self.told(job, pattern, letter)),
        }
    }

    /// What a receive tells of its letter: one that is longer than the room is used up.
    pub fn told(&self, job: &Job, pattern: &Pattern, letter: Letter) -> Answer {
        if job.length(letter.body) > pattern.room as usize {
            return Answer::Over(Refusal::Truncated);
        }
        let source = self.position_in(pattern.context, letter.source);
        Answer::Done(source, letter.tag, letter.body)
    }

    /// The position of a rank in the group of a communicator that was made, which has it.
    pub fn position_in(&self, comm: Context, rank: Place) -> Place {
        self.groups[&comm].position_of(rank).expect("the receive admitted it")
    }
}
