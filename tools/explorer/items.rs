//! What goes from rank to rank, and what steps answer.

use crate::group::Group;
use crate::job::{Body, Context, Place};
use crate::topics::{Contribution, Topic};

/// An envelope and a body (MPI 4.0, 3.2.3). The source is a rank of the world.
#[derive(Clone, Copy, Debug, PartialEq, Eq, Hash)]
pub struct Letter {
    pub context: Context,
    pub source: Place,
    pub tag: u16,
    pub body: Body,
}

/// A letter or a notice.
#[derive(Clone, Copy, Debug, PartialEq, Eq, Hash)]
pub enum Item {
    Letter(Letter),
    /// The last item of a rank that stopped.
    Gone,
    /// The context was revoked.
    Revoke(Context),
    /// The sender entered a shrink or an agreement, and brought this.
    Enter(Topic, Contribution),
}

/// Why a call is refused, or a receive is over.
#[derive(Clone, Copy, Debug, PartialEq, Eq, Hash)]
pub enum Refusal {
    NoComm,
    BadRank,
    TooLong,
    ProcFailed,
    Revoked,
    NoRequest,
    AlreadyMade,
    NoContext,
    NotMember,
    Truncated,
}

/// The answer of a step.
#[derive(Clone, Debug, PartialEq, Eq, Hash)]
pub enum Answer {
    Sent,
    Posted,
    /// The source's position in the group of the request's communicator, the tag and the body.
    Done(Place, u16, Body),
    Over(Refusal),
    Pending,
    /// The source's position, the tag, and how many bytes the letter has.
    Found(Place, u16, usize),
    Cancelled,
    /// Positions, in the order of the notices.
    Ranks(Vec<Place>),
    Acked(u8),
    Revoked,
    Made(Context),
    /// The new context, its group, and this rank's position there.
    Shrunk(Context, Group, Place),
    /// The value, and the positions of the members that aren't listed.
    Agreed(u32, Vec<Place>),
    Noted,
    Stopped,
    /// None of its conditions holds, so it isn't played.
    Skipped,
    /// The step was given up while it stood open.
    Unfinished,
    Refused(Refusal),
}
