//! Kinds that are not carried yet, beside functions that use none of them.

pub struct Named {
    pub width: u32,
    pub height: u32,
}

pub struct Size(u32, u32);

pub const LIMIT: u32 = 100;

impl Named {
    pub fn area(&self) -> u32 {
        self.width * self.height
    }
}

/// A trait with a function; nothing can ask for it yet.
pub trait Turn {
    fn turned(self) -> Self;
}

impl Turn for Size {
    fn turned(self) -> Self {
        turn(self)
    }
}

/// Of this one an impl is left out, and so is what asks for it.
pub trait Mark {}

impl Mark for u32 {}
impl Mark for &u32 {}

pub fn mark<T: Mark>(value: T) -> T {
    value
}

pub fn marked() -> u32 {
    mark(LIMIT)
}

pub trait Flag {}

impl Flag for u32 {}

pub struct Flagged<T: Flag>(T);

pub fn unflagged(flagged: Flagged<u32>) -> u32 {
    let Flagged(value) = flagged;
    value
}

pub fn flagged(value: u32) -> Flagged<u32> {
    Flagged(value)
}

pub fn copied<T: Clone>(value: T) -> T {
    value
}

pub fn size(named: Named) -> Size {
    Size(named.width, named.height)
}

pub fn text(size: Size) -> String {
    let Size(width, height) = size;
    format!("{width} by {height}")
}

pub fn sum(n: u32) -> u32 {
    let mut total = 0;
    for k in 0..n {
        total += k;
    }
    total
}

pub fn turn(size: Size) -> Size {
    let Size(width, height) = size;
    Size(height, width)
}

pub fn is_limit(size: Size) -> bool {
    let Size(width, _) = turn(size);
    match width {
        LIMIT => true,
        _ => false,
    }
}

pub fn twice(size: Size) -> Option<Size> {
    match turn(size) {
        Size(0, _) => None,
        other => Some(turn(other)),
    }
}

pub struct Unit;

pub fn unit() -> Unit {
    Unit {}
}
