//! Sets of ranks of the world. The group of a communicator is one, since a shrink keeps the old order.

use crate::job::Place;

/// Ranks of the world, in rising order.
#[derive(Clone, Copy, Debug, Default, PartialEq, Eq, Hash)]
pub struct Group(u8);

impl Group {
    /// The group of the world.
    pub fn world(ranks: usize) -> Group {
        (0..ranks as Place).collect()
    }

    pub fn has(self, rank: Place) -> bool {
        self.0 >> rank & 1 == 1
    }

    pub fn with(self, rank: Place) -> Group {
        Group(self.0 | 1 << rank)
    }

    pub fn union(self, other: Group) -> Group {
        Group(self.0 | other.0)
    }

    pub fn without(self, other: Group) -> Group {
        Group(self.0 & !other.0)
    }

    pub fn is_within(self, other: Group) -> bool {
        self.without(other).0 == 0
    }

    pub fn members(self) -> impl Iterator<Item = Place> {
        (0..8).filter(move |rank| self.has(*rank))
    }

    /// The member at a position (MPI 4.0, 7.2.1).
    pub fn at(self, position: Place) -> Option<Place> {
        self.members().nth(position as usize)
    }

    /// The position of a member.
    pub fn position_of(self, rank: Place) -> Option<Place> {
        let position = self.members().position(|member| member == rank)?;
        Some(position as Place)
    }
}

impl FromIterator<Place> for Group {
    fn from_iter<I: IntoIterator<Item = Place>>(ranks: I) -> Group {
        ranks.into_iter().fold(Group::default(), Group::with)
    }
}
