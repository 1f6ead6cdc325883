//! Functions that take and give associated types themselves: some that give what they say, and some that don't.

/// What items come from.
pub trait Source {
    type Item;
}

/// What can be shown.
pub trait Show {}

/// What turns one thing into another.
pub trait Convert<T> {
    type Into;
}

pub struct Bytes;

pub struct Pairs<A, B>(pub A, pub B);

pub enum Maybe<T> {
    Nothing,
    Just(T),
}

impl Source for Bytes {
    type Item = u8;
}

impl<A: Source, B: Source> Source for Pairs<A, B> {
    type Item = (A::Item, B::Item);
}

impl Show for u8 {}

impl<T: Source> Convert<T> for Bytes {
    type Into = T::Item;
}

pub fn show<T: Show>(_what: T) {}

pub fn next<S: Source>(from: S) -> S::Item {
    next(from)
}

pub fn first_byte(item: <Bytes as Source>::Item) -> u8 {
    item
}

pub fn byte_of(item: u8) -> <Bytes as Source>::Item {
    item
}

pub fn byte_as_flag(item: <Bytes as Source>::Item) -> bool {
    item
}

pub fn byte_literal() -> <Bytes as Source>::Item {
    1
}

pub fn same_item<S: Source>(item: S::Item) -> S::Item {
    item
}

pub fn other_item<S: Source, T: Source>(item: S::Item) -> T::Item {
    item
}

pub fn literal_for_item<S: Source>() -> S::Item {
    1
}

pub fn two<S: Source>(from: S, or: S::Item) -> (S::Item, S::Item) {
    (next(from), or)
}

pub fn choose<S: Source>(from: S, or: S::Item, first: bool) -> S::Item {
    if first { next(from) } else { or }
}

pub fn maybe<S: Source>(from: Maybe<S>, or: S::Item) -> S::Item {
    match from {
        Maybe::Just(source) => next(source),
        Maybe::Nothing => or,
    }
}

pub fn just<S: Source>(from: S) -> Maybe<S::Item> {
    Maybe::Just(next(from))
}

pub fn just_the_source<S: Source>(from: S) -> Maybe<S::Item> {
    Maybe::Just(from)
}

pub fn unpack<S: Source>(items: Maybe<S::Item>, or: S::Item) -> S::Item {
    match items {
        Maybe::Just(item) => item,
        Maybe::Nothing => or,
    }
}

pub fn bytes<S: Source<Item = u8>>(item: S::Item) -> u8 {
    item
}

pub fn bytes_back<S: Source<Item = u8>>(item: u8) -> S::Item {
    item
}

pub fn flag_for_byte<S: Source<Item = u8>>() -> S::Item {
    true
}

pub fn first_of_both(item: <Pairs<Bytes, Bytes> as Source>::Item) -> u8 {
    let (first, _) = item;
    first
}

pub fn pair_items<A: Source, B: Source>(a: A, b: B) -> <Pairs<A, B> as Source>::Item {
    (next(a), next(b))
}

pub fn pair_sources<A: Source, B: Source>(a: A, b: B) -> <Pairs<A, B> as Source>::Item {
    next(Pairs(a, b))
}

pub fn pair_swapped<A: Source, B: Source>(a: A, b: B) -> <Pairs<A, B> as Source>::Item {
    (next(b), next(a))
}

pub fn converted(item: <Bytes as Convert<Bytes>>::Into) -> u8 {
    item
}

pub fn converted_from<S: Source>(item: <Bytes as Convert<S>>::Into) -> S::Item {
    item
}

pub fn chooses_a_byte() -> u8 {
    choose(Bytes, 1, true)
}

pub fn chooses_a_flag() -> u8 {
    choose(Bytes, true, true)
}

pub fn chooses_of_a_pair<S: Source>(from: S, or: S::Item) -> (u8, S::Item) {
    choose(Pairs(Bytes, from), (1, or), false)
}

pub fn shows_an_item<S: Source>(item: S::Item)
where
    S::Item: Show,
{
    show(item)
}

pub fn shows_what_is_not_shown<S: Source>(item: S::Item) {
    show(item)
}

pub fn keeps_an_item<S: Source>(from: S, item: S::Item) -> S::Item {
    let kept = item;
    let read = next(from);
    let (_, last) = (read, kept);
    last
}
