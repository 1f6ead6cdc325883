pub enum Maybe<T> { None, Some(T) }
pub enum Chain<T> { End, Link(T, Chain<T>) }
pub enum Even { Zero, Next(Odd) }
pub struct Odd(pub Even);
pub use {Chain::*, Even::*, Maybe::*};

pub fn id<T>(x: T) -> T { x }
pub fn make<T>() -> T { make() }
pub fn take(x: u8) {}
pub fn same<T>(a: T, b: T) {}
