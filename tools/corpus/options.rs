//! Options, results and their like.

pub enum Maybe<T> {
    Nothing,
    Just(T),
}

pub enum Either<A, B> {
    Left(A),
    Right(B),
}

pub struct Both<A, B>(pub A, pub B);

pub fn unwrap_or<T>(maybe: Maybe<T>, default: T) -> T {
    match maybe {
        Maybe::Just(value) => value,
        Maybe::Nothing => default,
    }
}

pub fn is_just<T>(maybe: Maybe<T>) -> bool {
    match maybe {
        Maybe::Just(_) => true,
        Maybe::Nothing => false,
    }
}

pub fn flatten<T>(maybe: Maybe<Maybe<T>>) -> Maybe<T> {
    match maybe {
        Maybe::Just(Maybe::Just(value)) => Maybe::Just(value),
        _ => Maybe::Nothing,
    }
}

pub fn zip<A, B>(a: Option<A>, b: Option<B>) -> Option<(A, B)> {
    match (a, b) {
        (Some(a), Some(b)) => Some((a, b)),
        _ => None,
    }
}

pub fn or<T>(first: Maybe<T>, second: Maybe<T>) -> Maybe<T> {
    match first {
        Maybe::Nothing => second,
        just => just,
    }
}

pub fn to_option<T>(maybe: Maybe<T>) -> Option<T> {
    match maybe {
        Maybe::Just(value) => Some(value),
        Maybe::Nothing => None,
    }
}

pub fn ok_or<T, E>(maybe: Maybe<T>, error: E) -> Result<T, E> {
    match maybe {
        Maybe::Just(value) => Ok(value),
        Maybe::Nothing => Err(error),
    }
}

pub fn swap<A, B>(either: Either<A, B>) -> Either<B, A> {
    match either {
        Either::Left(a) => Either::Right(a),
        Either::Right(b) => Either::Left(b),
    }
}

pub fn partition<A, B>(either: Either<A, B>) -> Both<Maybe<A>, Maybe<B>> {
    match either {
        Either::Left(a) => Both(Maybe::Just(a), Maybe::Nothing),
        Either::Right(b) => Both(Maybe::Nothing, Maybe::Just(b)),
    }
}

/// What nothing says yet is said by a later use.
pub fn first_known() -> u64 {
    let found = Maybe::Nothing;
    let wrap = Maybe::Just;
    let count = 3;
    let best = or(found, wrap(count));
    unwrap_or(best, 7)
}

pub fn sum_of_parts(both: Both<Maybe<u8>, Option<i32>>) -> (u8, i32) {
    let Both(a, b) = both;
    let b: _ = match b {
        Some(value) => value,
        None => 0x10,
    };
    (unwrap_or(a, 0), b)
}

pub mod wrong {
    use super::*;

    pub fn unwrap_or<T>(maybe: Maybe<T>, default: T) -> T {
        match maybe {
            Maybe::Just(value) => value,
            Maybe::Nothing => 0,
        }
    }

    pub fn is_just<T>(maybe: Maybe<T>) -> bool {
        match maybe {
            Maybe::Just(value) => value,
            Maybe::Nothing => false,
        }
    }

    pub fn flatten<T>(maybe: Maybe<Maybe<T>>) -> Maybe<T> {
        match maybe {
            Maybe::Just(Maybe::Just(value)) => value,
            _ => Maybe::Nothing,
        }
    }

    pub fn flatten_once_too_often<T>(maybe: Maybe<T>) -> Maybe<T> {
        super::flatten(maybe)
    }

    pub fn zip<A, B>(a: Option<A>, b: Option<B>) -> Option<(A, B)> {
        match (a, b) {
            (Some(a), Some(b)) => Some(a, b),
            _ => None,
        }
    }

    pub fn or<T>(first: Maybe<T>, second: Maybe<T>) -> Maybe<T> {
        match first {
            Maybe::Nothing => Some(second),
            just => just,
        }
    }

    pub fn to_option<T>(maybe: Maybe<T>) -> Option<T> {
        match maybe {
            Maybe::Just(value) => Maybe::Just(value),
            Maybe::Nothing => Maybe::Nothing,
        }
    }

    pub fn ok_or<T, E>(maybe: Maybe<T>, error: E) -> Result<T, E> {
        match maybe {
            Maybe::Just(value) => Err(value),
            Maybe::Nothing => Ok(error),
        }
    }

    pub fn swap<A, B>(either: Either<A, B>) -> Either<B, A> {
        match either {
            Either::Left(a) => Either::Left(a),
            Either::Right(b) => Either::Right(b),
        }
    }

    pub fn partition<A, B>(either: Either<A, B>) -> Both<Maybe<A>, Maybe<B>> {
        match either {
            Either::Left(a) => Both(Maybe::Just(a)),
            Either::Right(b) => Both(Maybe::Nothing, Maybe::Just(b)),
        }
    }

    pub fn first_known() -> u64 {
        let found = Maybe::Nothing;
        let best = or(found, Maybe::Just(true));
        super::unwrap_or(best, 7)
    }

    /// Nothing says what is missing here.
    pub fn never_known() -> bool {
        let found = Maybe::Nothing;
        super::is_just(found)
    }

    pub fn sum_of_parts(both: Both<Maybe<u8>, Option<i32>>) -> (u8, i32) {
        let Both(a, b): Both<Option<_>, _> = both;
        (super::unwrap_or(a, 0), 1)
    }
}
