//! The carriers: what an inbox has room for, and what a rank may take out of it next.

use crate::items::Item;
use crate::job::Place;

/// What takes the items from rank to rank.
#[derive(Clone, Copy, Debug, PartialEq, Eq)]
pub enum Carrier {
    /// A ring for each ordered pair of ranks. Each has its own room, and the receiver takes the first item of a sender at
    /// which it looks.
    Lanes,
    /// One inbox for each rank, with room for the items of all. The receiver takes the oldest.
    Shared,
}

/// What was pushed to a rank and not taken: senders with their items. On lanes the senders come upwards, since the order of
/// two senders' items is nothing there; on `Shared` all items stand in the order of their pushes.
pub type Inbox = Vec<(Place, Item)>;

impl Carrier {
    /// Whether a sender's push finds room.
    pub fn has_room(self, inbox: &Inbox, sender: Place, capacity: usize) -> bool {
        let held = match self {
            Carrier::Lanes => inbox.iter().filter(|(from, _)| *from == sender).count(),
            Carrier::Shared => inbox.len(),
        };
        held < capacity
    }

    pub fn push(self, inbox: &mut Inbox, sender: Place, item: Item) {
        let at = match self {
            Carrier::Lanes => inbox.iter().filter(|(from, _)| *from <= sender).count(),
            Carrier::Shared => inbox.len(),
        };
        inbox.insert(at, (sender, item));
    }

    /// Where the items stand that may be taken next.
    pub fn first_items(self, inbox: &Inbox) -> Vec<usize> {
        let is_first = |at: &usize| match self {
            Carrier::Lanes => *at == 0 || inbox[*at - 1].0 != inbox[*at].0,
            Carrier::Shared => *at == 0,
        };
        (0..inbox.len()).filter(is_first).collect()
    }

    /// Whether what a sender hasn't pushed yet could be taken next, were it pushed now: what is in the inbox doesn't stand
    /// before it.
    pub fn lets_through(self, inbox: &Inbox, sender: Place) -> bool {
        match self {
            Carrier::Lanes => inbox.iter().all(|(from, _)| *from != sender),
            Carrier::Shared => inbox.is_empty(),
        }
    }
}
