//! Structs and enums with associated types in their fields: some functions that make them and take them apart, and some that do so wrongly.

/// What items come from.
pub trait Source {
    type Item;
}

/// What can be shown.
pub trait Show {}

pub struct Bytes;

pub struct Flags;

pub struct Pair<A, B>(pub A, pub B);

impl Source for Bytes {
    type Item = u8;
}

impl Source for Flags {
    type Item = bool;
}

impl<A: Source, B: Source> Source for Pair<A, B> {
    type Item = (A::Item, B::Item);
}

impl Show for u8 {}

pub fn show<T: Show>(_what: T) {}

/// The next item, which was looked at.
pub struct Peeked<S: Source>(pub S, pub S::Item);

/// An item alone.
pub struct One<S: Source>(pub S::Item);

/// What came of reading.
pub enum Read<S: Source> {
    Got(S::Item, S),
    Ended(S),
    Failed,
}

/// Items below other types.
pub struct Nested<S: Source>(pub Pair<S::Item, u8>, pub (S::Item, bool));

/// Items of two sources.
pub struct Both<S: Source, T: Source>(pub S::Item, pub T::Item);

/// An item of an associated type of another type.
pub struct Doubled<S: Source>(pub <Pair<S, S> as Source>::Item);

/// A source of sources.
pub struct Inner<S: Source>(pub <S::Item as Source>::Item)
where
    S::Item: Source;

pub fn peeked() -> Peeked<Bytes> {
    Peeked(Bytes, 1)
}

pub fn peeked_wrong() -> Peeked<Bytes> {
    Peeked(Bytes, true)
}

pub fn peeked_other_source() -> Peeked<Bytes> {
    Peeked(Flags, 1)
}

pub fn one() -> One<Flags> {
    One(true)
}

pub fn looked(p: Peeked<Bytes>) -> u8 {
    let Peeked(_source, item) = p;
    item
}

pub fn looked_wrong(p: Peeked<Bytes>) -> bool {
    let Peeked(_source, item) = p;
    item
}

pub fn looked_literal(p: Peeked<Bytes>) -> bool {
    match p {
        Peeked(_, 7) => true,
        Peeked(_, _) => false,
    }
}

pub fn looked_literal_wrong(p: Peeked<Flags>) -> bool {
    match p {
        Peeked(_, 7) => true,
        Peeked(_, _) => false,
    }
}

pub fn generic<S: Source>(source: S, item: S::Item) -> Peeked<S> {
    Peeked(source, item)
}

pub fn generic_wrong<S: Source>(source: S, item: S) -> Peeked<S> {
    Peeked(source, item)
}

pub fn generic_item<S: Source>(p: Peeked<S>) -> S::Item {
    let Peeked(_, item) = p;
    item
}

pub fn generic_known<S: Source<Item = u8>>(p: Peeked<S>) -> u8 {
    let Peeked(_, item) = p;
    item
}

pub fn generic_unknown<S: Source>(p: Peeked<S>) -> u8 {
    let Peeked(_, item) = p;
    item
}

pub fn shown(p: One<Bytes>) {
    let One(item) = p;
    show(item);
}

pub fn shown_wrong(p: One<Flags>) {
    let One(item) = p;
    show(item);
}

pub fn got(r: Read<Bytes>) -> u8 {
    match r {
        Read::Got(item, _) => item,
        Read::Ended(_) => 0,
        Read::Failed => 1,
    }
}

pub fn got_wrong(r: Read<Flags>) -> u8 {
    match r {
        Read::Got(item, _) => item,
        Read::Ended(_) => 0,
        Read::Failed => 1,
    }
}

pub fn failed() -> Read<Bytes> {
    Read::Failed
}

pub fn ended() -> Read<Flags> {
    Read::Ended(Flags)
}

pub fn got_or_ended(found: bool) -> Read<Bytes> {
    if found {
        Read::Got(3, Bytes)
    } else {
        Read::Ended(Bytes)
    }
}

pub fn nested() -> Nested<Bytes> {
    Nested(Pair(1, 2), (3, true))
}

pub fn nested_wrong() -> Nested<Flags> {
    Nested(Pair(true, true), (false, true))
}

pub fn unnested(n: Nested<Flags>) -> bool {
    let Nested(Pair(first, _), (second, _)) = n;
    if first { second } else { first }
}

pub fn both() -> Both<Bytes, Flags> {
    Both(1, true)
}

pub fn both_exchanged(b: Both<Bytes, Flags>) -> Both<Flags, Bytes> {
    let Both(first, second) = b;
    Both(second, first)
}

pub fn both_not_exchanged(b: Both<Bytes, Flags>) -> Both<Flags, Bytes> {
    let Both(first, second) = b;
    Both(first, second)
}

pub fn doubled(d: Doubled<Bytes>) -> u8 {
    let Doubled((first, _)) = d;
    first
}

pub fn doubled_generic<S: Source>(first: S::Item, second: S::Item) -> Doubled<S> {
    Doubled((first, second))
}

pub fn too_many_parts(p: One<Bytes>) -> u8 {
    let One(item, _) = p;
    item
}

pub fn too_few_arguments() -> Peeked<Bytes> {
    Peeked(Bytes)
}

pub fn let_says(flag: bool) -> bool {
    let one: One<Flags> = One(flag);
    let One(item) = one;
    item
}
