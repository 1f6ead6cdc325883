enum Maybe<T> {
    Nothing,
    Just(T),
}

fn or<T>(first: Maybe<T>, default: T) -> T {
    match first {
        Maybe::Just(value) => value,
        Maybe::Nothing => default,
    }
}

fn count() -> u8 {
    let found = Maybe::Nothing;
    let count = or(found, 1);
    or(Maybe::Just(count), true)
}
