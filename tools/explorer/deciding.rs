//! What shrinks and agreements have in common: entries, proposals, decisions and their adoption (ULFM, MPI_Comm_shrink and
//! MPI_Comm_agree).

use crate::communicators::may_make;
use crate::group::Group;
use crate::items::{Answer, Item, Refusal};
use crate::job::Place;
use crate::rank::Rank;
use crate::topics::{Contribution, Purpose, Topic};
use std::collections::BTreeMap;

/// What a rank proposes, and what is decided.
#[derive(Clone, Debug, PartialEq, Eq, Hash)]
pub struct Decision {
    pub old: Group,
    /// The listed members, with what each brought.
    pub entries: Vec<(Place, Contribution)>,
    pub fresh: Group,
}

/// The decision on each topic that was decided.
pub type Decisions = BTreeMap<Topic, Decision>;

impl Rank {
    fn has_entered(&self, topic: Topic) -> bool {
        self.entries.contains_key(&(topic, self.me))
    }

    /// The group of a topic that may be entered, by whether a further shrink is asked for. It is refused 1, 8 and, for a shrink, 9, in this order.
    pub fn group_to_enter(&self, topic: Topic, again: bool) -> Result<Group, Refusal> {
        let group = self.group(topic.context)?;
        if self.has_entered(topic) {
            return Err(Refusal::AlreadyMade);
        }
        if let Purpose::Shrink(round) = topic.purpose {
            may_make(again, topic.context, round)?;
        }
        Ok(group)
    }

    /// The first poll. It records what the rank brings, the failures that are known with it, and tells each other member that
    /// isn't known to have failed.
    pub fn enter(&mut self, topic: Topic, flag: Option<u32>, again: bool) -> Result<(), Refusal> {
        let group = self.group_to_enter(topic, again)?;
        let known = self.known_set();
        let brought = Contribution { known, flag };
        self.entries.insert((topic, self.me), brought);
        let told = group.without(known).members().filter(|rank| *rank != self.me).collect::<Vec<_>>();
        self.owe(told.into_iter(), Item::Enter(topic, brought));
        Ok(())
    }

    /// Takes another rank's entry. Its first one stays.
    pub fn take_entry(&mut self, rank: Place, topic: Topic, brought: Contribution) {
        self.entries.entry((topic, rank)).or_insert(brought);
    }

    /// What the rank proposes, once each member is listed or excluded. Excluded is whom a listed member's set has, and whom
    /// the rank itself knows now to have failed.
    pub fn proposal(&self, topic: Topic) -> Option<Decision> {
        let old = *self.groups.get(&topic.context)?;
        let entry_of = |rank| self.entries.get(&(topic, rank)).map(|brought| (rank, *brought));
        let entries: Vec<(Place, Contribution)> = old.members().filter_map(entry_of).collect();
        let listed: Group = entries.iter().map(|(rank, _)| *rank).collect();
        let excluded = entries.iter().fold(self.known_set(), |all, (_, brought)| all.union(brought.known));
        let fresh = old.without(excluded);
        old.is_within(listed.union(excluded)).then_some(Decision { old, entries, fresh })
    }

    /// A later poll. Where the rank has a proposal, it hands it in, and adopts what was decided.
    pub fn decide(&mut self, topic: Topic, decisions: &mut Decisions) -> Option<Answer> {
        let proposal = self.proposal(topic)?;
        let decision = decisions.entry(topic).or_insert(proposal);
        let answer = self.adopt(topic, decision);
        Some(answer.unwrap_or_else(Answer::Refused))
    }

    fn adopt(&mut self, topic: Topic, decision: &Decision) -> Result<Answer, Refusal> {
        let is_other = |(rank, brought): &(Place, Contribution)| {
            self.entries.get(&(topic, *rank)).is_some_and(|own| own != brought)
        };
        if decision.old != self.group(topic.context)? || decision.entries.iter().any(is_other) {
            return Err(Refusal::NotMember);
        }
        let me = decision.fresh.position_of(self.me).ok_or(Refusal::NotMember)?;
        match topic.purpose {
            Purpose::Shrink(round) => Ok(self.adopt_shrink(topic.context, round, decision.fresh, me)),
            Purpose::Agree(round) => Ok(self.adopt_agreement(topic.context, round, decision)),
        }
    }
}
