//! Small parsers, over numbers and characters that stand for the next of the input.

pub enum Token {
    Number(u32),
    Name(char),
    Plus,
    Open,
    Close,
    End,
}

pub enum Parsed<T> {
    Done(T),
    More(T, u32),
    Failed(u32),
}

pub enum Tree {
    Leaf(u32),
    Variable(char),
    Empty,
}

/// A position in the input.
pub struct At(u32);

pub fn digit(c: char) -> Option<u32> {
    match c {
        '0' => Some(0),
        '1' => Some(1),
        '2' => Some(2),
        '3' => Some(3),
        _ => None,
    }
}

pub fn token(c: char) -> Token {
    match c {
        '+' => Token::Plus,
        '(' => Token::Open,
        ')' => Token::Close,
        '\0' => Token::End,
        other => match digit(other) {
            Some(value) => Token::Number(value),
            None => Token::Name(other),
        },
    }
}

/// The next position, of the first few.
pub fn step(at: At) -> At {
    let At(n) = at;
    At(match n {
        0 => 1,
        1 => 2,
        2 => 3,
        _ => n,
    })
}

pub fn leaf(token: Token, at: At) -> Parsed<Tree> {
    let At(place) = at;
    match token {
        Token::Number(n) => Parsed::Done(Tree::Leaf(n)),
        Token::Name(name) => Parsed::More(Tree::Variable(name), place),
        Token::End => Parsed::Done(Tree::Empty),
        _ => Parsed::Failed(place),
    }
}

pub fn value<T>(parsed: Parsed<T>, default: T) -> T {
    match parsed {
        Parsed::Done(value) => value,
        Parsed::More(value, _) => value,
        Parsed::Failed(_) => default,
    }
}

/// The first of two that did not fail.
pub fn either<T>(first: Parsed<T>, second: Parsed<T>) -> Parsed<T> {
    match first {
        Parsed::Failed(a) => match second {
            Parsed::Failed(_) => Parsed::Failed(a),
            found => found,
        },
        found => found,
    }
}

pub fn pair<A, B>(first: Parsed<A>, second: Parsed<B>) -> Result<(A, B), At> {
    match (first, second) {
        (Parsed::Done(a), Parsed::Done(b)) => Ok((a, b)),
        (Parsed::Done(a), Parsed::More(b, _)) => Ok((a, b)),
        (Parsed::More(a, _), Parsed::Done(b)) => Ok((a, b)),
        (Parsed::Failed(n), _) => Err(At(n)),
        (_, Parsed::Failed(n)) => Err(At(n)),
        (Parsed::More(_, n), _) => Err(At(n)),
    }
}

pub fn parse(c: char) -> (Tree, bool) {
    let found = either(leaf(token(c), At(0)), Parsed::More(Tree::Empty, 7));
    let complete = match found {
        Parsed::Done(_) => true,
        _ => false,
    };
    let tree = value(leaf(token(c), step(At(0))), Tree::Empty);
    (tree, complete)
}

pub mod wrong {
    use super::*;

    pub fn digit(c: char) -> Option<u32> {
        match c {
            '0' => Some(0),
            1 => Some(1),
            _ => None,
        }
    }

    pub fn digit_of_the_wrong_type(c: char) -> Option<u32> {
        match c {
            '0' => Some(0u8),
            _ => None,
        }
    }

    pub fn token(c: char) -> Token {
        match c {
            '+' => Token::Plus,
            other => match digit(other) {
                Some(value) => Token::Name(value),
                None => Token::Name(other),
            },
        }
    }

    pub fn step(at: At) -> At {
        let At(n) = at;
        match n {
            0 => 1,
            _ => n,
        }
    }

    pub fn leaf(token: Token, at: At) -> Parsed<Tree> {
        match token {
            Token::Number(n) => Parsed::Done(n),
            Token::Name(name) => Parsed::More(Tree::Variable(name), at),
            _ => Parsed::Failed(0),
        }
    }

    pub fn value<T>(parsed: Parsed<T>, default: T) -> T {
        match parsed {
            Parsed::Done(value) => value,
            Parsed::More(value, count) => count,
            Parsed::Failed(_) => default,
        }
    }

    pub fn either<T>(first: Parsed<T>, second: Parsed<T>) -> Parsed<T> {
        match first {
            Parsed::Failed(a) => second,
            Parsed::Done(found) => found,
            found => found,
        }
    }

    pub fn pair<A, B>(first: Parsed<A>, second: Parsed<B>) -> Result<(A, B), At> {
        match (first, second) {
            (Parsed::Done(a), Parsed::Done(b)) => Ok((b, a)),
            (Parsed::Failed(n), _) => Err(n),
            _ => Err(At(0)),
        }
    }

    pub fn parse(c: char) -> (Tree, bool) {
        let found = either(leaf(token(c), At(0)), value(Parsed::More(Tree::Empty, 7), 7));
        (found, true)
    }
}
