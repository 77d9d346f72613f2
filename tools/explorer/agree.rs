//! What agreements have for themselves: rounds, and a value (ULFM, MPI_Comm_agree).

use crate::deciding::Decision;
use crate::items::Answer;
use crate::job::{Context, Place};
use crate::rank::Rank;
use crate::topics::{Round, Topic};

impl Decision {
    /// The bits that the flags of all listed members have in common, also of those that are excluded.
    fn value(&self) -> u32 {
        self.entries.iter().filter_map(|(_, brought)| brought.flag).fold(u32::MAX, |bits, flag| bits & flag)
    }

    /// The positions of the members that aren't listed.
    fn left_out(&self) -> Vec<Place> {
        let is_listed = |member: Place| self.entries.iter().any(|(rank, _)| *rank == member);
        let members = self.old.members().zip(0..);
        members.filter(|(member, _)| !is_listed(*member)).map(|(_, position)| position).collect()
    }
}

impl Rank {
    /// How many agreements on a communicator were adopted here.
    pub fn agreed_on(&self, comm: Context) -> Round {
        self.agreed.get(&comm).copied().unwrap_or(0)
    }

    /// The agreement on a communicator that the next step there enters, or that was entered and not adopted. None is entered
    /// before the last one was adopted, so as many were entered before it as were adopted.
    pub fn agreement_on(&self, comm: Context) -> Topic {
        Topic::agreement(comm, self.agreed_on(comm))
    }

    /// Takes the value over. The next agreement on the communicator may be entered from now on.
    pub fn adopt_agreement(&mut self, comm: Context, round: Round, decision: &Decision) -> Answer {
        self.agreed.insert(comm, round + 1);
        Answer::Agreed(decision.value(), decision.left_out())
    }
}
