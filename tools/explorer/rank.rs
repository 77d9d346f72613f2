//! What one rank holds.

use crate::group::Group;
use crate::items::{Answer, Item, Letter, Refusal};
use crate::job::{Context, Place};
use crate::topics::{Contribution, Round, Topic};
use std::collections::{BTreeMap, BTreeSet, VecDeque};
use std::hash::{DefaultHasher, Hash, Hasher};

/// The sources that a receive asks for, as ranks of the world.
#[derive(Clone, Copy, Debug, PartialEq, Eq, Hash)]
pub enum Source {
    One(Place),
    /// Any member of the communicator's group.
    Any(Group),
}

/// What a receive asks for (MPI 4.0, 3.2.4).
#[derive(Clone, Copy, Debug, PartialEq, Eq, Hash)]
pub struct Pattern {
    pub context: Context,
    pub source: Source,
    pub tag: Option<u16>,
    pub room: u16,
}

/// What became of a receive.
#[derive(Clone, Copy, Debug, PartialEq, Eq, Hash)]
pub enum Fate {
    Waiting,
    Paired(Letter),
    Over(Refusal),
}

/// One rank. Two ranks that are equal by `Hash` go on alike.
#[derive(Clone, Debug, Hash)]
pub struct Rank {
    pub me: Place,
    /// How many of its steps are answered.
    pub answered: usize,
    /// These answers, if ends are to be told.
    pub told: Vec<Answer>,
    /// The later steps with an alternative whose conditions all hold of the answers so far.
    pub chosen: BTreeSet<usize>,
    /// The alternatives of later steps that aren't chosen of which a condition doesn't hold, by step and number.
    pub missed: BTreeSet<(usize, usize)>,
    /// Whether the next step is a shrink or an agreement that was entered.
    pub is_open: bool,
    pub stopped: bool,
    /// The communicators that answered steps made, by their numbers, as long as a step that is ahead names them.
    pub made: BTreeMap<usize, Context>,
    /// The communicators that were made here.
    pub groups: BTreeMap<Context, Group>,
    /// The ranks that are known to have failed, in the order of their notices.
    pub known: Vec<Place>,
    /// How many failures were acknowledged for a communicator, where some were.
    pub acknowledged: BTreeMap<Context, u8>,
    /// The contexts that are revoked here.
    pub revoked: BTreeSet<Context>,
    /// The requests that weren't released, by the steps that posted them, and so in the order of the posts.
    pub requests: BTreeMap<u16, (Pattern, Fate)>,
    /// What probes found and no receive was given, by the steps that probed.
    pub messages: BTreeMap<u16, (Pattern, Letter)>,
    /// The letters that came before a receive that admits them, in the order in which they came.
    pub kept: Vec<Letter>,
    /// The entries into shrinks and agreements that are known here, by topic and rank, the rank's own too.
    pub entries: BTreeMap<(Topic, Place), Contribution>,
    /// How many duplicates of a communicator were made, where some were.
    pub dups: BTreeMap<Context, u16>,
    /// How many shrinks of a communicator were adopted, where some were.
    pub shrunk: BTreeMap<Context, Round>,
    /// How many agreements on a communicator were adopted, where some were.
    pub agreed: BTreeMap<Context, Round>,
    /// What the rank owes to each rank and hasn't pushed.
    pub outboxes: Vec<VecDeque<Item>>,
    /// What the rank did and took, in order. It stays 0 where states are told apart by what they hold.
    pub log: u64,
}

impl Rank {
    /// A rank before its first step.
    pub fn start(me: Place, ranks: usize) -> Rank {
        Rank {
            me,
            answered: 0,
            told: vec![],
            chosen: BTreeSet::new(),
            missed: BTreeSet::new(),
            is_open: false,
            stopped: false,
            made: BTreeMap::new(),
            groups: BTreeMap::from([(0, Group::world(ranks))]),
            known: vec![],
            acknowledged: BTreeMap::new(),
            revoked: BTreeSet::new(),
            requests: BTreeMap::new(),
            messages: BTreeMap::new(),
            kept: vec![],
            entries: BTreeMap::new(),
            dups: BTreeMap::new(),
            shrunk: BTreeMap::new(),
            agreed: BTreeMap::new(),
            outboxes: vec![VecDeque::new(); ranks],
            log: 0,
        }
    }

    /// Puts an item into the outbox for each of these ranks.
    pub fn owe(&mut self, to: impl Iterator<Item = Place>, item: Item) {
        for rank in to {
            self.outboxes[rank as usize].push_back(item);
        }
    }

    /// Writes into the log what happened.
    pub fn note<T: Hash>(&mut self, happened: &T) {
        let mut hasher = DefaultHasher::new();
        (self.log, happened).hash(&mut hasher);
        self.log = hasher.finish();
    }

    /// The rank with nothing of what only its own calls would ask for. What it owes stays, and which contexts are revoked.
    pub fn forget(&mut self) {
        self.chosen.clear();
        self.missed.clear();
        self.made.clear();
        self.groups.clear();
        self.known.clear();
        self.acknowledged.clear();
        self.requests.clear();
        self.messages.clear();
        self.kept.clear();
        self.entries.clear();
        self.dups.clear();
        self.shrunk.clear();
        self.agreed.clear();
    }
}
