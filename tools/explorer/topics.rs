//! What ranks decide about, and what each brings into a decision (ULFM, MPI_Comm_shrink and MPI_Comm_agree).

use crate::group::Group;
use crate::job::Context;

/// The number of a shrink among those of its communicator, or of an agreement among those on it, from 0.
pub type Round = u16;

/// What a communicator's members decide.
#[derive(Clone, Copy, Debug, PartialEq, Eq, PartialOrd, Ord, Hash)]
pub enum Purpose {
    Shrink(Round),
    Agree(Round),
}

/// One of the shrinks of a communicator, or one of its agreements.
#[derive(Clone, Copy, Debug, PartialEq, Eq, PartialOrd, Ord, Hash)]
pub struct Topic {
    pub context: Context,
    pub purpose: Purpose,
}

impl Topic {
    pub fn shrink(context: Context, round: Round) -> Topic {
        Topic { context, purpose: Purpose::Shrink(round) }
    }

    pub fn agreement(context: Context, round: Round) -> Topic {
        Topic { context, purpose: Purpose::Agree(round) }
    }
}

/// What a rank brings into a decision.
#[derive(Clone, Copy, Debug, PartialEq, Eq, Hash)]
pub struct Contribution {
    /// The failures that it knew at its entry.
    pub known: Group,
    /// What it agrees with. A shrink has none.
    pub flag: Option<u32>,
}
