//! What shrinks have for themselves: each makes a communicator (ULFM, MPI_Comm_shrink).

use crate::communicators::shrink_of;
use crate::group::Group;
use crate::items::Answer;
use crate::job::{Context, Place};
use crate::rank::Rank;
use crate::topics::{Round, Topic};

impl Rank {
    /// The shrink of a communicator that the next step there enters, or that was entered and not adopted. None is entered before the last one was
    /// adopted, so as many were entered before it as were adopted.
    pub fn shrink_on(&self, comm: Context) -> Topic {
        Topic::shrink(comm, self.shrunk.get(&comm).copied().unwrap_or(0))
    }

    /// Makes the new communicator, in which this rank has a position. The next shrink of the old one may be entered from now on.
    pub fn adopt_shrink(&mut self, comm: Context, round: Round, fresh: Group, me: Place) -> Answer {
        let made = shrink_of(comm, round);
        self.shrunk.insert(comm, round + 1);
        self.groups.insert(made, fresh);
        Answer::Shrunk(made, fresh, me)
    }
}
