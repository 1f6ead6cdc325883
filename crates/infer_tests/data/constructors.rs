pub enum Maybe<T> { None, Some(T) }
pub struct Pair(pub u8, pub bool);
pub struct Unit;
pub use Maybe::*;
