pub fn id<T>(x: T) -> T { x }
pub fn make<T>() -> T { make() }
pub fn same<T>(a: T, b: T) {}
pub fn nothing() {}
pub fn take(x: u8) -> bool { true }
pub fn swap<A, B>(a: A, b: B) -> (B, A) { (b, a) }
pub fn pair<A, B>(a: A, b: B) -> (A, B) { (a, b) }
pub fn put(c: char) {}
