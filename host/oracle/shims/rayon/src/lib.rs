//! Stand-in for the crate rayon: every parallel iterator is the sequential one, in list order.
//!
//! `fold` makes one group of all items and `reduce` hands that group's accumulator back, so each
//! sum is taken item by item from the accumulator it starts with.

use std::iter::{self, Sum};

/// What sage imports.
pub mod prelude {
    pub use crate::{IntoParallelIterator, ParallelSlice};
}

/// A sequential iterator under the parallel iterator's methods.
pub struct Sequential<I>(pub I);

impl<I: Iterator> IntoIterator for Sequential<I> {
    type Item = I::Item;
    type IntoIter = I;

    fn into_iter(self) -> I {
        self.0
    }
}

/// `into_par_iter`, for whatever has a sequential iterator.
pub trait IntoParallelIterator: IntoIterator + Sized {
    /// The items in their own order.
    fn into_par_iter(self) -> Sequential<Self::IntoIter> {
        Sequential(self.into_iter())
    }
}

impl<T: IntoIterator> IntoParallelIterator for T {}

/// `par_iter` and `par_iter_mut` of a slice.
pub trait ParallelSlice<T> {
    /// The elements from the first to the last.
    fn par_iter(&self) -> Sequential<std::slice::Iter<'_, T>>;
    /// The elements from the first to the last, to be changed.
    fn par_iter_mut(&mut self) -> Sequential<std::slice::IterMut<'_, T>>;
}

impl<T> ParallelSlice<T> for [T] {
    fn par_iter(&self) -> Sequential<std::slice::Iter<'_, T>> {
        Sequential(self.iter())
    }

    fn par_iter_mut(&mut self) -> Sequential<std::slice::IterMut<'_, T>> {
        Sequential(self.iter_mut())
    }
}

impl<I: Iterator> Sequential<I> {
    /// As `Iterator::map`.
    pub fn map<B>(self, f: impl FnMut(I::Item) -> B) -> Sequential<impl Iterator<Item = B>> {
        Sequential(self.0.map(f))
    }

    /// As `Iterator::filter`.
    pub fn filter(
        self,
        f: impl FnMut(&I::Item) -> bool,
    ) -> Sequential<impl Iterator<Item = I::Item>> {
        Sequential(self.0.filter(f))
    }

    /// As `Iterator::flatten`.
    pub fn flatten(self) -> Sequential<iter::Flatten<I>>
    where
        I::Item: IntoIterator,
    {
        Sequential(self.0.flatten())
    }

    /// As `Iterator::flat_map`.
    pub fn flat_map<U: IntoIterator>(
        self,
        f: impl FnMut(I::Item) -> U,
    ) -> Sequential<impl Iterator<Item = U::Item>> {
        Sequential(self.0.flat_map(f))
    }

    /// One group of all items: one accumulator, started by `identity`.
    pub fn fold<A>(
        self,
        identity: impl Fn() -> A,
        op: impl FnMut(A, I::Item) -> A,
    ) -> Sequential<iter::Once<A>> {
        Sequential(iter::once(self.0.fold(identity(), op)))
    }

    /// The one item unchanged; `op` would join it to a next, `identity` stands for none.
    pub fn reduce(
        self,
        identity: impl Fn() -> I::Item,
        op: impl FnMut(I::Item, I::Item) -> I::Item,
    ) -> I::Item {
        self.0.reduce(op).unwrap_or_else(identity)
    }

    /// As `Iterator::for_each`.
    pub fn for_each(self, f: impl FnMut(I::Item)) {
        self.0.for_each(f)
    }

    /// As `Iterator::sum`.
    pub fn sum<S: Sum<I::Item>>(self) -> S {
        self.0.sum()
    }

    /// As `Iterator::collect`.
    pub fn collect<B: FromIterator<I::Item>>(self) -> B {
        self.0.collect()
    }

    /// As `Iterator::unzip`.
    pub fn unzip<A, B, FromA, FromB>(self) -> (FromA, FromB)
    where
        I: Iterator<Item = (A, B)>,
        FromA: Default + Extend<A>,
        FromB: Default + Extend<B>,
    {
        self.0.unzip()
    }
}
