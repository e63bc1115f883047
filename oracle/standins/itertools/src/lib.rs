//! Stand-in for `itertools`: the one method that snap.rs calls.

pub trait Itertools: Iterator {
    /// The items in rising order.
    fn sorted_unstable(self) -> std::vec::IntoIter<Self::Item>
    where
        Self: Sized,
        Self::Item: Ord,
    {
        let mut items: Vec<Self::Item> = self.collect();
        items.sort_unstable();
        items.into_iter()
    }
}

impl<I: Iterator> Itertools for I {}
