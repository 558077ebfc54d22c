//! Stand-ins for the arena types of `oxc_allocator`: a box and a vector with the arena's lifetime
//! in their type, and `take_in`. Memory comes from the ordinary heap.

use std::marker::PhantomData;
use std::ops::{Deref, DerefMut};

use crate::context::TraverseCtx;

/// A box whose type names the arena's lifetime.
pub struct ArenaBox<'a, T>(Box<T>, PhantomData<&'a ()>);

impl<T> ArenaBox<'_, T> {
    pub fn new(value: T) -> Self {
        Self(Box::new(value), PhantomData)
    }

    /// The value itself.
    pub fn unbox(self) -> T {
        *self.0
    }
}

impl<T> Deref for ArenaBox<'_, T> {
    type Target = T;

    fn deref(&self) -> &T {
        &self.0
    }
}

impl<T> DerefMut for ArenaBox<'_, T> {
    fn deref_mut(&mut self) -> &mut T {
        &mut self.0
    }
}

/// A vector whose type names the arena's lifetime.
pub struct ArenaVec<'a, T>(Vec<T>, PhantomData<&'a ()>);

impl<'a, T> ArenaVec<'a, T> {
    pub fn new() -> Self {
        Self(Vec::new(), PhantomData)
    }

    pub fn from_iter_in(items: impl IntoIterator<Item = T>, _ctx: &TraverseCtx<'a>) -> Self {
        items.into_iter().collect()
    }

    pub fn from_array_in<const N: usize>(items: [T; N], _ctx: &TraverseCtx<'a>) -> Self {
        items.into()
    }
}

impl<T> Deref for ArenaVec<'_, T> {
    type Target = Vec<T>;

    fn deref(&self) -> &Vec<T> {
        &self.0
    }
}

impl<T> DerefMut for ArenaVec<'_, T> {
    fn deref_mut(&mut self) -> &mut Vec<T> {
        &mut self.0
    }
}

impl<T> FromIterator<T> for ArenaVec<'_, T> {
    fn from_iter<I: IntoIterator<Item = T>>(items: I) -> Self {
        Self(items.into_iter().collect(), PhantomData)
    }
}

impl<T, const N: usize> From<[T; N]> for ArenaVec<'_, T> {
    fn from(items: [T; N]) -> Self {
        items.into_iter().collect()
    }
}

impl<T> IntoIterator for ArenaVec<'_, T> {
    type Item = T;
    type IntoIter = std::vec::IntoIter<T>;

    fn into_iter(self) -> Self::IntoIter {
        self.0.into_iter()
    }
}

impl<'s, T> IntoIterator for &'s ArenaVec<'_, T> {
    type Item = &'s T;
    type IntoIter = std::slice::Iter<'s, T>;

    fn into_iter(self) -> Self::IntoIter {
        self.0.iter()
    }
}

impl<'s, T> IntoIterator for &'s mut ArenaVec<'_, T> {
    type Item = &'s mut T;
    type IntoIter = std::slice::IterMut<'s, T>;

    fn into_iter(self) -> Self::IntoIter {
        self.0.iter_mut()
    }
}

/// Takes a value out and leaves a dummy in its place.
pub trait TakeIn<'a>: Sized {
    fn dummy() -> Self;

    fn take_in(&mut self, _ctx: &TraverseCtx<'a>) -> Self {
        std::mem::replace(self, Self::dummy())
    }
}
