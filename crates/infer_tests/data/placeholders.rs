pub enum Maybe<T> { None, Some(T) }
pub use Maybe::*;
