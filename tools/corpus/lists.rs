//! List-like enums: the rest of a list is of a type of its own, so that lists end.

pub enum List<T, R> {
    End,
    Link(T, R),
}

pub enum Never {}

pub struct Stack(Option<u8>, Option<u8>, Option<u8>);

pub enum Three<T> {
    Zero,
    One(T),
    Two(T, T),
    Three(T, T, T),
}

pub fn push(stack: Stack, value: u8) -> Result<Stack, Stack> {
    match stack {
        Stack(None, b, c) => Ok(Stack(Some(value), b, c)),
        Stack(a, None, c) => Ok(Stack(a, Some(value), c)),
        Stack(a, b, None) => Ok(Stack(a, b, Some(value))),
        full => Err(full),
    }
}

pub fn pop(stack: Stack) -> (Stack, Option<u8>) {
    let Stack(a, b, c) = stack;
    match c {
        Some(top) => (Stack(a, b, None), Some(top)),
        None => match b {
            Some(top) => (Stack(a, None, None), Some(top)),
            None => (Stack(None, None, None), a),
        },
    }
}

pub fn head<T, R>(list: List<T, R>) -> Option<T> {
    match list {
        List::Link(first, _) => Some(first),
        List::End => None,
    }
}

pub fn second<T, R>(list: List<T, List<T, R>>) -> Option<T> {
    match list {
        List::Link(_, List::Link(second, _)) => Some(second),
        _ => None,
    }
}

pub fn reverse<T>(list: Three<T>) -> Three<T> {
    match list {
        Three::Two(a, b) => Three::Two(b, a),
        Three::Three(a, b, c) => Three::Three(c, b, a),
        short => short,
    }
}

pub fn add<T>(list: Three<T>, value: T) -> Result<Three<T>, T> {
    match list {
        Three::Zero => Ok(Three::One(value)),
        Three::One(a) => Ok(Three::Two(a, value)),
        Three::Two(a, b) => Ok(Three::Three(a, b, value)),
        Three::Three(_, _, _) => Err(value),
    }
}

pub fn length<T>(list: Three<T>) -> usize {
    match list {
        Three::Zero => 0,
        Three::One(_) => 1,
        Three::Two(_, _) => 2,
        Three::Three(_, _, _) => 3,
    }
}

pub fn mixed() -> Option<char> {
    let end: List<Never, ()> = List::End;
    let list = List::Link(1u8, List::Link(true, List::Link('c', end)));
    match list {
        List::Link(_, List::Link(true, rest)) => head(rest),
        _ => None,
    }
}

pub mod wrong {
    use super::*;

    pub fn push(stack: Stack, value: u8) -> Result<Stack, Stack> {
        match stack {
            Stack(None, b, c) => Ok(Stack(value, b, c)),
            full => full,
        }
    }

    pub fn pop(stack: Stack) -> (Stack, Option<u8>) {
        let Stack(a, b, c) = stack;
        match c {
            Some(top) => (Stack(a, b, None), top),
            None => (a, Stack(None, None, None)),
        }
    }

    pub fn head<T, R>(list: List<T, R>) -> Option<T> {
        match list {
            List::Link(first, rest) => Some(rest),
            List::End => None,
        }
    }

    pub fn second<T, R>(list: List<T, List<T, R>>) -> Option<T> {
        match list {
            List::Link(_, List::Link(second)) => Some(second),
            _ => List::End,
        }
    }

    pub fn reverse<T>(list: Three<T>) -> Three<T> {
        match list {
            Three::Two(a, b) => Three::Two((b, a)),
            Three::Three(a, b, c) => (c, b, a),
            short => short,
        }
    }

    pub fn add<T>(list: Three<T>, value: T) -> Result<Three<T>, T> {
        match list {
            Three::Zero => Three::One(value),
            Three::One(a) => Ok(Three::Two(a, value)),
            full => Err(full),
        }
    }

    pub fn length<T>(list: Three<T>) -> usize {
        match list {
            Three::Zero => 0,
            Three::One(_) => 1i32,
            Three::Two(_) => 2,
            _ => true,
        }
    }

    pub fn mixed() -> Option<char> {
        let list = List::Link(1u8, List::Link(true, List::End));
        match list {
            List::Link(_, List::Link(flag, rest)) => super::head(flag),
            _ => None,
        }
    }
}
