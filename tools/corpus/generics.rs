//! Functions over all types, and functions as values.

pub struct Pair<A, B>(A, B);

pub struct Tagged<T>(u32, T);

pub fn identity<T>(x: T) -> T {
    x
}

pub fn first<A, B>(pair: Pair<A, B>) -> A {
    let Pair(a, _) = pair;
    a
}

pub fn swap<A, B>(pair: Pair<A, B>) -> Pair<B, A> {
    match pair {
        Pair(a, b) => Pair(b, a),
    }
}

pub fn nest<A, B, C>(pair: Pair<A, Pair<B, C>>) -> Pair<Pair<A, B>, C> {
    let Pair(a, Pair(b, c)) = pair;
    Pair(Pair(a, b), c)
}

pub fn tag<T>(n: u32, value: T) -> Tagged<T> {
    Tagged(identity(n), identity(value))
}

pub fn tags() -> (Tagged<u8>, Tagged<(bool, char)>) {
    let make = Tagged;
    let one = 1;
    (make(2, one), tag(3, (true, 'x')))
}

/// The types of the parts come from what is returned.
pub fn from_behind() -> Pair<u16, bool> {
    let (number, flag): (_, _) = identity((40, true));
    pair_of(number, flag)
}

fn pair_of<A, B>(a: A, b: B) -> Pair<A, B> {
    Pair(a, b)
}

pub fn chain(n: i64) -> i64 {
    identity(identity(first(swap(Pair(true, identity(n))))))
}

pub fn held() -> (u8, bool) {
    let (f, g) = (identity, swap);
    let Pair(flag, number) = g(Pair(f(3), true));
    (number, flag)
}

pub mod wrong {
    use super::*;

    pub fn identity<T, U>(x: T) -> U {
        x
    }

    pub fn first<A, B>(pair: Pair<A, B>) -> A {
        let Pair(a, b) = pair;
        b
    }

    pub fn swap<A, B>(pair: Pair<A, B>) -> Pair<B, A> {
        match pair {
            Pair(a, b) => Pair(a, b),
        }
    }

    pub fn nest<A, B, C>(pair: Pair<A, Pair<B, C>>) -> Pair<Pair<A, B>, C> {
        pair
    }

    pub fn tag<T>(n: u32, value: T) -> Tagged<T> {
        Tagged(value, n)
    }

    pub fn tags() -> (Tagged<u8>, Tagged<(bool, char)>) {
        let make = Tagged;
        (make(2, 1u8), make(3, (true, 'x')))
    }

    pub fn from_behind() -> Pair<u16, bool> {
        let (number, flag): (_, u16) = super::identity((40, true));
        pair_of(number, flag)
    }

    pub fn chain(n: i64) -> i64 {
        super::identity(super::first(super::swap(Pair(n, true))))
    }

    pub fn held() -> (u8, bool) {
        let f = super::identity;
        (f(3), f(true))
    }

    pub fn endless<T>() {
        let x = super::nothing_yet();
        let y = Pair(x, 1);
        super::same(x, y);
    }

    pub fn not_called() -> u8 {
        let n = super::identity(4);
        n(1)
    }
}

fn nothing_yet<T>() -> Option<T> {
    None
}

fn same<T>(_: T, _: T) {}
