pub trait Tr { type Out; }
pub struct Wrap<T>(pub T);
pub struct W<T: Tr>(pub T::Out);
pub struct Two<T: Tr>(pub T, pub T::Out);
pub struct In<T: Tr>(pub Wrap<T::Out>, pub (T, T::Out));
pub enum E<T: Tr> { A(T::Out), B(T), N }

pub fn same<T>(x: T, y: T) {}
pub fn make<T>() -> T { loop {} }
pub fn take<T: Tr>(x: W<T>) -> T { loop {} }
