//! Functions in whose `let`s associated types are written: some that hold what these say, and some that don't.

/// What items come from.
pub trait Source {
    type Item;
}

/// What can be shown.
pub trait Show {}

/// What turns one thing into another.
pub trait Convert<T> {
    type Into;
}

pub struct Bytes;

pub struct Pairs<A, B>(pub A, pub B);

pub enum Maybe<T> {
    Nothing,
    Just(T),
}

impl Source for Bytes {
    type Item = u8;
}

impl<A: Source, B: Source> Source for Pairs<A, B> {
    type Item = (A::Item, B::Item);
}

impl Show for u8 {}

impl<T: Source> Convert<T> for Bytes {
    type Into = T::Item;
}

pub fn show<T: Show>(_what: T) {}

pub fn same<T>(one: T, _other: T) -> T {
    one
}

pub fn next<S: Source>(from: S) -> S::Item {
    let item: S::Item = next(from);
    item
}

pub fn byte() -> u8 {
    let item: <Bytes as Source>::Item = 1;
    item
}

pub fn flag_for_byte() {
    let _item: <Bytes as Source>::Item = true;
}

pub fn byte_as_flag() -> bool {
    let item: <Bytes as Source>::Item = next(Bytes);
    item
}

pub fn literal_for_item<S: Source>(_from: S) {
    let _item: S::Item = 1;
}

pub fn source_for_item<S: Source>(from: S) {
    let _item: S::Item = from;
}

pub fn item_of_another<A: Source, B: Source>(a: A, _b: B) {
    let _item: B::Item = next(a);
}

pub fn beside_a_hole<S: Source>(from: S) -> (S::Item, u8) {
    let both: (S::Item, _) = (next(from), 1);
    both
}

pub fn beside_a_hole_exchanged<S: Source>(from: S) -> S::Item {
    let (_, item): (S::Item, _) = (1u8, next(from));
    item
}

pub fn items_of_both<A: Source, B: Source>(a: A, b: B) -> B::Item {
    let (_, item): <Pairs<A, B> as Source>::Item = (next(a), next(b));
    item
}

pub fn items_exchanged<A: Source, B: Source>(a: A, b: B) {
    let _items: <Pairs<A, B> as Source>::Item = (next(b), next(a));
}

pub fn item_and_byte<S: Source>(from: S) -> (S::Item, u8) {
    let items: <Pairs<S, Bytes> as Source>::Item = next(Pairs(from, Bytes));
    items
}

pub fn just<S: Source>(from: S) -> Maybe<S::Item> {
    let found: Maybe<S::Item> = Maybe::Just(next(from));
    found
}

pub fn just_the_source<S: Source>(from: S) {
    let _found: Maybe<S::Item> = Maybe::Just(from);
}

pub fn nothing<S: Source>(_from: S) {
    let _found: Maybe<S::Item> = Maybe::Nothing;
}

pub fn nothing_of_bytes() -> Maybe<u8> {
    let found: Maybe<<Bytes as Source>::Item> = Maybe::Nothing;
    found
}

pub fn of_bytes<S: Source<Item = u8>>(from: S) -> u8 {
    let item: S::Item = next(from);
    item
}

pub fn literal_of_bytes<S: Source<Item = u8>>(_from: S) -> S::Item {
    let item: S::Item = 7;
    same(item, 1u8)
}

pub fn flag_of_bytes<S: Source<Item = u8>>(_from: S) {
    let _item: S::Item = true;
}

pub fn converted<S: Source>(from: S) -> <Bytes as Convert<S>>::Into {
    let item: <Bytes as Convert<S>>::Into = next(from);
    item
}

pub fn converted_bytes() -> u8 {
    let item: <Bytes as Convert<Pairs<Bytes, Bytes>>>::Into = (1, 2);
    let (first, _) = item;
    first
}

pub fn matched<S: Source>(found: Maybe<S>, or: S::Item) -> S::Item {
    let item: S::Item = match found {
        Maybe::Just(source) => next(source),
        Maybe::Nothing => or,
    };
    item
}

pub fn branches_differ<S: Source>(from: S, first: bool) {
    let _item: S::Item = if first { next(from) } else { 1u8 };
}

pub fn of_an_item<S: Source>(from: S) -> <S::Item as Source>::Item
where
    S::Item: Source,
{
    let inner: S::Item = next(from);
    let item: <S::Item as Source>::Item = next(inner);
    item
}

pub fn inner_for_outer<S: Source>(from: S)
where
    S::Item: Source,
{
    let _item: <S::Item as Source>::Item = next(from);
}

pub fn shows_an_item<S: Source>(from: S)
where
    S::Item: Show,
{
    let item: S::Item = next(from);
    show(item)
}

pub fn shows_what_is_not_shown<S: Source>(from: S) {
    let item: S::Item = next(from);
    show(item)
}

pub fn shows_a_byte() {
    let item: <Bytes as Source>::Item = 1;
    show(item)
}

pub fn given_twice<S: Source>(from: S, or: S::Item) -> S::Item {
    let mut item: S::Item = same(next(from), or);
    let kept: S::Item = { item };
    kept
}

pub fn from_a_wrong_call<S: Source>(from: S) {
    let _item: S::Item = same(next(from), true);
}
