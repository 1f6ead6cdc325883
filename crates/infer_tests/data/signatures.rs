pub trait Tr { type Out; }
pub trait Bo {}
pub trait At<U> { type Item; }
pub trait Node { type Child: Node; }
pub struct Wrap<T>(pub T);

pub fn get<T: Tr>(x: T) -> T::Out { loop {} }
pub fn put<T: Tr>(x: T, y: T::Out) {}
pub fn both<T: Tr, U: Tr>(x: T, y: U) -> T::Out { loop {} }
pub fn item<T: At<U>, U>(x: T, y: U) -> <T as At<U>>::Item { loop {} }
pub fn same<T>(x: T, y: T) {}
pub fn make<T>() -> T { loop {} }
pub fn need<T: Bo>(x: T) {}
pub fn conv<T: Tr<Out = U>, U>(x: T) -> U { loop {} }
pub fn all<T: Tr>(x: T) -> Wrap<T::Out> { loop {} }
pub fn pairs<T: Tr>(x: (T::Out, T), y: T::Out) {}
pub fn child<T: Node>(x: T) -> T::Child { loop {} }
pub fn of<T: At<U>, U>(x: T) -> U { loop {} }
