//! What is lent to a call, with elements beside it that no call may touch.

use std::fmt::Debug;

/// Elements kept on either side.
const BESIDE: usize = 8;

/// Elements to lend, and others beside them. Two are equal where both are.
#[derive(Clone, PartialEq, Debug)]
pub struct Lent<T> {
    all: Vec<T>,
}

impl<T: Copy> Lent<T> {
    /// These elements, and beside them the one that is kept.
    pub fn new(elements: &[T], kept: T) -> Lent<T> {
        let beside = [kept; BESIDE];
        Lent {
            all: [&beside, elements, &beside].concat(),
        }
    }

    /// Where two differ first, if they do: the place counts from the first
    /// element lent.
    pub fn difference(&self, other: &Lent<T>) -> Option<String>
    where
        T: PartialEq + Debug,
    {
        let mut pairs = self.all.iter().zip(&other.all).enumerate();
        let (at, (ours, theirs)) = pairs.find(|(_, (ours, theirs))| ours != theirs)?;
        let at = at as isize - BESIDE as isize;
        Some(format!("at {at}: model {ours:?}, proved {theirs:?}"))
    }

    /// What is lent.
    pub fn lent(&mut self) -> &mut [T] {
        let end = self.all.len() - BESIDE;
        &mut self.all[BESIDE..end]
    }
}
