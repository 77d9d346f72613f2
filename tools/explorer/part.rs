//! A part of a world: it is shared by the worlds in which it is the same, and has a mark that tells it from others.

use std::hash::{DefaultHasher, Hash, Hasher};
use std::ops::Deref;
use std::rc::Rc;

/// A value with its mark.
#[derive(Clone)]
pub struct Part<T> {
    value: Rc<T>,
    mark: u128,
}

/// 128 bits that stand for a value. That two values of a job have the same isn't to be expected.
pub fn mark_of<T: Hash>(value: &T) -> u128 {
    let half = |salt: u64| {
        let mut hasher = DefaultHasher::new();
        (salt, value).hash(&mut hasher);
        hasher.finish() as u128
    };
    half(1) << 64 | half(2)
}

impl<T: Hash + Clone> Part<T> {
    pub fn new(value: T) -> Part<T> {
        let mark = mark_of(&value);
        Part { value: Rc::new(value), mark }
    }

    pub fn mark(&self) -> u128 {
        self.mark
    }

    pub fn change<R>(&mut self, how: impl FnOnce(&mut T) -> R) -> R {
        let result = how(Rc::make_mut(&mut self.value));
        self.mark = mark_of(&*self.value);
        result
    }
}

impl<T> Deref for Part<T> {
    type Target = T;

    fn deref(&self) -> &T {
        &self.value
    }
}
