//! Communicators and their duplicates (MPI 4.0, chapter 7).

use crate::group::Group;
use crate::items::{Answer, Refusal};
use crate::job::{Context, LAST_CONTEXT};
use crate::rank::Rank;

/// The last communicator that has a duplicate and a shrink by numbers.
const LAST_PARENT: Context = 30;

/// The context of a child of a communicator: its duplicates are the children 0, 3, 6 .., its shrinks 1, 4, 7 .. The first of each have numbers, where
/// there is one left, and all others the code of their path.
fn child_of(comm: Context, child: u64) -> Context {
    if comm <= LAST_PARENT && child < 2 {
        return 2 * comm + 1 + child;
    }
    let block = (child + 1).ilog2();
    let place = child + 1 - (1 << block);
    LAST_CONTEXT + 1 + (1 << block) * (2 * ((comm << block) + place) + 1)
}

/// The context of this duplicate of a communicator, from 0.
pub fn dup_of(comm: Context, count: u16) -> Context {
    child_of(comm, 3 * u64::from(count))
}

/// The context of this shrink of a communicator, from 0.
pub fn shrink_of(comm: Context, count: u16) -> Context {
    child_of(comm, 3 * u64::from(count) + 1)
}

/// Whether one more may be made of a communicator, by whether a further one is asked for, and how many were made so before. It is refused 8 and 9, in
/// this order.
pub fn may_make(again: bool, comm: Context, count: u16) -> Result<(), Refusal> {
    let is_single = !again && comm <= LAST_CONTEXT;
    if is_single && count > 0 {
        return Err(Refusal::AlreadyMade);
    }
    if is_single && comm > LAST_PARENT {
        return Err(Refusal::NoContext);
    }
    Ok(())
}

impl Rank {
    /// The group of a communicator that was made here.
    pub fn group(&self, comm: Context) -> Result<Group, Refusal> {
        self.groups.get(&comm).copied().ok_or(Refusal::NoComm)
    }

    /// The group of a communicator that was made and isn't revoked here.
    pub fn unrevoked_group(&self, comm: Context) -> Result<Group, Refusal> {
        let group = self.group(comm)?;
        if self.is_revoked(comm) {
            return Err(Refusal::Revoked);
        }
        Ok(group)
    }

    /// Makes a duplicate, with the group of its parent. It is refused 1, 6, 8 and 9, in this order.
    pub fn dup(&mut self, comm: Context, again: bool) -> Result<Answer, Refusal> {
        let group = self.unrevoked_group(comm)?;
        let count = self.dups.get(&comm).copied().unwrap_or(0);
        may_make(again, comm, count)?;
        let made = dup_of(comm, count);
        self.dups.insert(comm, count + 1);
        self.groups.insert(made, group);
        Ok(Answer::Made(made))
    }
}
