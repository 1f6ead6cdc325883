
pub trait Tr {}
pub trait Up {}
pub trait Sub: Up {}
pub trait Of<U> {}
pub struct W<T>(pub T);
pub struct Kept<T: Tr>(pub T);

pub fn need<T: Tr>(x: T) {}
pub fn need_up<T: Up>(x: T) {}
pub fn need_both<A: Tr, B: Up>(a: A, b: B) {}
pub fn made<T: Tr>() -> T { made() }
pub fn of<T: Of<U>, U>(x: T) -> U { loop {} }
pub fn with<T: Of<U>, U>(x: T, y: U) {}
pub fn need_each<A: Tr, B: Tr>(a: A, b: B) {}
