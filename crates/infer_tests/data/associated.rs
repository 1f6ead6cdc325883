
pub trait Tr { type Out; }
pub trait Bo {}
pub trait Up: Tr {}
pub trait At<U> { type Item; }

pub fn need<T: Tr>(x: T) {}
pub fn need_out<T: Tr<Out = bool>>(x: T) {}
pub fn need_bo<T: Tr>(x: T) where T::Out: Bo {}
pub fn need_at<T: At<U, Item = U>, U>(x: T, y: U) {}
pub fn need_own<T: Bo>(x: T) {}
