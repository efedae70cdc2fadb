//! Stands in for `map/iter.rs`, which isn't given. The map names these types in its signatures; the
//! judge makes none of them, and every way to make one stops with a word about it.

use std::marker::PhantomData;

use super::PrefixMap;
use crate::{node::MaskedLexIter, table::Table, Prefix};

fn absent() -> ! {
    unimplemented!("map/iter.rs isn't among the sources that are given")
}

/// Rules by reference.
pub struct Iter<'a, P, T>(PhantomData<(&'a T, P)>);

impl<'a, P: Prefix, T> Iter<'a, P, T> {
    pub(super) fn from_stack(_: &'a Table<T>, _: Vec<MaskedLexIter<P::R>>) -> Self {
        absent()
    }

    pub(super) fn at_node(_: &'a Table<T>, _: MaskedLexIter<P::R>) -> Self {
        absent()
    }
}

impl<'a, P, T> Iterator for Iter<'a, P, T> {
    type Item = (P, &'a T);

    fn next(&mut self) -> Option<Self::Item> {
        absent()
    }
}

impl<'a, P: Prefix, T> IntoIterator for &'a PrefixMap<P, T> {
    type Item = (P, &'a T);
    type IntoIter = Iter<'a, P, T>;

    fn into_iter(self) -> Self::IntoIter {
        absent()
    }
}

/// Rules by reference, values open to change.
pub struct IterMut<'a, P, T>(PhantomData<(&'a mut T, P)>);

impl<'a, P: Prefix, T> IterMut<'a, P, T> {
    pub(super) fn new(_: &'a mut Table<T>) -> Self {
        absent()
    }

    pub(super) fn from_stack(_: &'a mut Table<T>, _: Vec<MaskedLexIter<P::R>>) -> Self {
        absent()
    }

    pub(super) fn at_node(_: &'a mut Table<T>, _: MaskedLexIter<P::R>) -> Self {
        absent()
    }
}

/// Rules by value.
pub struct IntoIter<P, T>(PhantomData<(T, P)>);

impl<P: Prefix, T> IntoIter<P, T> {
    pub(super) fn at_node(_: Table<T>, _: MaskedLexIter<P::R>) -> Self {
        absent()
    }
}

impl<P, T> Iterator for IntoIter<P, T> {
    type Item = (P, T);

    fn next(&mut self) -> Option<Self::Item> {
        absent()
    }
}

impl<P: Prefix, T> IntoIterator for PrefixMap<P, T> {
    type Item = (P, T);
    type IntoIter = IntoIter<P, T>;

    fn into_iter(self) -> Self::IntoIter {
        absent()
    }
}

/// The rules that cover a prefix.
pub struct Cover<'a, P, T>(PhantomData<(&'a T, P)>);

impl<'a, P, T> Cover<'a, P, T> {
    pub(super) fn new(_: &'a PrefixMap<P, T>, _: &P) -> Self {
        absent()
    }
}

pub struct Keys<'a, P, T>(pub(super) Iter<'a, P, T>);
pub struct Values<'a, P, T>(pub(super) Iter<'a, P, T>);
pub struct ValuesMut<'a, P, T>(pub(super) IterMut<'a, P, T>);
pub struct IntoKeys<P, T>(pub(super) IntoIter<P, T>);
pub struct IntoValues<P, T>(pub(super) IntoIter<P, T>);
pub struct CoverKeys<'a, P, T>(pub(super) Cover<'a, P, T>);
pub struct CoverValues<'a, P, T>(pub(super) Cover<'a, P, T>);

pub(super) fn lpm_children_iter_start<P: Prefix, T>(_: &Table<T>, _: &P) -> MaskedLexIter<P::R> {
    absent()
}
