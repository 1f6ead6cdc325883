pub struct S<T>(pub T);
#[repr(u8)]
pub enum E { A, B }
pub struct P<A, B>;

pub fn wrap<T>(x: T) -> S<T> { S(x) }
pub fn unwrap<T>(s: S<T>) -> T { unwrap(s) }
